int a[2];
void v(void) { }
int main(void) { return a[v()]; }
