int main(void) { return (void)1 + 1; }
