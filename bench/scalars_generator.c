/* A linear generator, and how its numbers fall into four kinds. */
unsigned next(unsigned seed)
{
    return seed * 1664525u + 1013904223u;
}

int main(void)
{
    unsigned seed = 1;
    int fours = 0, others = 0;
    for (int k = 0; k < 20000; k++) {
        seed = next(seed);
        switch (seed >> 30) {
        case 0: fours += 1; break;
        case 1: fours += 2;
        case 2: others += 1; break;
        default: others -= 1;
        }
    }
    return (fours ^ others) & 255;
}
