/* A filter over 4000 characters: one space for many, words with a capital, each second word by 13 letters further; counts and a check sum. */
unsigned char text[4000];
unsigned char out[4000];
unsigned length;
unsigned words;
unsigned lines;

int is_letter(int c)
{
    return (c >= 'a' && c <= 'z') || (c >= 'A' && c <= 'Z');
}

int turned(int c)
{
    int first = c >= 'a' ? 'a' : 'A';
    return first + (c - first + 13) % 26;
}

void put(int c)
{
    out[length++] = (unsigned char)c;
}

void filter(void)
{
    int before = '\n';
    unsigned i;
    for (i = 0; i < 4000; i++) {
        int c = text[i];
        if (is_letter(c)) {
            if (!is_letter(before)) {
                words++;
                c = c >= 'a' ? c - 'a' + 'A' : c;
            }
            put(words % 2 == 0 ? turned(c) : c);
        } else if (c == '\n') {
            lines++;
            put(c);
        } else if (before != ' ') {
            put(' ');
        }
        before = text[i];
    }
}

int main(void)
{
    unsigned seed = 3;
    unsigned sum = 0;
    unsigned i;
    for (i = 0; i < 4000; i++) {
        unsigned n;
        seed = seed * 1664525 + 1013904223;
        n = (seed >> 24) % 40;
        text[i] = (unsigned char)(n < 26 ? 'a' + n : n == 26 ? '\n' : n < 34 ? ' ' : 'A' + (n - 34));
    }
    filter();
    for (i = 0; i < length; i++)
        sum = sum * 31 + out[i];
    return (int)((sum + words * 5 + lines * 3) & 127);
}
