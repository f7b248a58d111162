int main(void) { return (int)sizeof(const void); }
