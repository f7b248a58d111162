extern int a[];
const int a[3] = {1};
int main(void) { return 0; }
