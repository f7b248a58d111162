extern int main(void), main(void);
signed main(void) { return 0; }
int main(void);
