int value(char c) { switch (c) { case '0': case '2': case '4': return c - '0'; case 'x': return 16; } return -1; }
int main(void) { return value('2'); }
