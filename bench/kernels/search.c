/* How often short words stand in a text of 4000 letters, by comparison at each place. */
unsigned char text[4000];
unsigned char words[4][4] = { "ab", "cab", "aaa", "bc" };

unsigned length(unsigned char word[])
{
    unsigned n = 0;
    while (n < 4 && word[n] != 0)
        n++;
    return n;
}

unsigned count(unsigned char word[])
{
    unsigned n = length(word);
    unsigned found = 0;
    unsigned i;
    unsigned j;
    for (i = 0; i + n <= 4000; i++) {
        j = 0;
        while (j < n && text[i + j] == word[j])
            j++;
        if (j == n)
            found++;
    }
    return found;
}

int main(void)
{
    unsigned seed = 7;
    unsigned sum = 0;
    unsigned i;
    for (i = 0; i < 4000; i++) {
        seed = seed * 1664525 + 1013904223;
        text[i] = (unsigned char)('a' + (seed >> 24) % 3);
    }
    for (i = 0; i < 4; i++)
        sum = sum * 7 + count(words[i]);
    return (int)(sum & 127);
}
