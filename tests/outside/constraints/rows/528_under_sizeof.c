int main(void) { return (int)sizeof y; }
