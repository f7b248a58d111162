int f(void);
int main(void) { return (int)sizeof(f()) - 4; }
