long unsigned int a = 1;
int short b = 2;
char signed c = 3;
int main(void) { return (int)a + b + c; }
