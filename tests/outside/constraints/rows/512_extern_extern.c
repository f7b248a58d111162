extern int extern x;
int main(void) { return 0; }
