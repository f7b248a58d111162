int main(void) { return (int)sizeof(int[2][-1]); }
