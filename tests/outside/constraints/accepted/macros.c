#define N 6
#define M N * 7
int main(void) { return M; }
