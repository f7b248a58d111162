enum { Z = 4 - 4 };
int n = 7 % Z;
int main(void) { return 0; }
