int a;
int a;
int a = 5;
int a;
int main(void) { return a; }
