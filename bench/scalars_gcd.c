/* Greatest common divisors. */
unsigned divisor(unsigned a, unsigned b)
{
    while (b != 0) {
        unsigned rest = a % b;
        a = b;
        b = rest;
    }
    return a;
}

int main(void)
{
    unsigned sum = 0;
    for (unsigned k = 1; k <= 2000; k++)
        sum += divisor(k * 7, 1000 + k % 13);
    return sum & 255;
}
