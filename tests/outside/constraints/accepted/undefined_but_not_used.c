int f(void);
extern int a;
extern int b[];
int main(void) { return sizeof(f()) + sizeof a; }
