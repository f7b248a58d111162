int main(void) { return (int)sizeof(void[2]); }
