/* Integer square roots, two bits at a time. */
unsigned root(unsigned n)
{
    unsigned found = 0;
    for (unsigned bit = 1u << 30; bit != 0; bit >>= 2) {
        if (n >= found + bit) {
            n -= found + bit;
            found = (found >> 1) + bit;
        } else {
            found >>= 1;
        }
    }
    return found;
}

int main(void)
{
    unsigned sum = 0;
    for (unsigned k = 0; k < 3000; k++)
        sum += root(k * 1431655u);
    return sum & 255;
}
