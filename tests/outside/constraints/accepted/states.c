enum state { START, WORD, SPACE };
int words(const char s[]) {
    int n = 0;
    enum state state = START;
    for (int i = 0; ; i++)
        switch (s[i]) {
        case 0: return n;
        case ' ': case '\t': case '\n': state = SPACE; break;
        default: n += state != WORD; state = WORD;
        }
}
int main(void) { return words(" ab c\tdef "); }
