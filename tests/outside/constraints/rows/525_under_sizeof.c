int main(void) { return (int)sizeof(enum e) - 4; }
