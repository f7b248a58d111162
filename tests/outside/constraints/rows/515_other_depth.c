extern int a[];
extern int a[][2];
int main(void) { return 0; }
