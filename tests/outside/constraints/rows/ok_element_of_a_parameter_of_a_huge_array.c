int f(char p[][1048576], char q[2000000], int r[1048577][2]);
int main(void) { return 0; }
