extern char a[1][1][1][1048576][1];
extern _Bool b[2][2][2][131072];
int main(void) { return 0; }
