int a[4];
void fill(int b[], int v) { for (int i = 0; i < 4; i++) b[i] = v; }
int main(void) { fill(a, 3); return a[0] + a[1] + a[3]; }
