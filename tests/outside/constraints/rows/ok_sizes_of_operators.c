char f(void);
int main(void) {
    char c = 1;
    short s = 1;
    _Static_assert(sizeof(-c) == 4 && sizeof(c << 1ul) == 4 && sizeof(!c) == 4 && sizeof(c && c) == 4 && sizeof(c < c) == 4, "m");
    _Static_assert(sizeof(1 ? c : c) == 4 && sizeof((char)1) == 1 && sizeof((c)) == 1 && sizeof(c + s) == 4, "m");
    return (int)(sizeof f() + sizeof(c += 1000) + sizeof(c = s) + sizeof(c++) + sizeof(--s) + sizeof(c, s)) - 8;
}
