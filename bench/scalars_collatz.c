/* Lengths of Collatz sequences: the longest below 1,000. */
int length(unsigned n)
{
    int steps = 0;
    while (n != 1) {
        n = n % 2 == 0 ? n / 2 : 3 * n + 1;
        steps++;
    }
    return steps;
}

int main(void)
{
    int longest = 0;
    for (unsigned n = 1; n < 1000; n++) {
        int found = length(n);
        if (found > longest)
            longest = found;
    }
    return longest;
}
