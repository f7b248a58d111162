int a[2] = {1, sizeof a}, b[] = {sizeof b[0]}, c[][2] = {{sizeof c[0]}};
int main(void) { return a[1] - b[0] * 2 + c[0][0] - 8; }
