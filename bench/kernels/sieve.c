/* Primes below 20000 by the sieve of Eratosthenes, counted. */
unsigned char composite[20000];

int main(void)
{
    int count = 0;
    int i;
    int j;
    for (i = 2; i < 20000; i++) {
        if (!composite[i]) {
            count++;
            for (j = i + i; j < 20000; j += i)
                composite[j] = 1;
        }
    }
    return count & 127;
}
