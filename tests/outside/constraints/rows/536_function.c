int main(void) { return (int)sizeof main; }
