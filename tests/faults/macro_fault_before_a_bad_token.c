/* 2: 212 wrong number of macro arguments */ #define F(a) a 08
int main(void) { return F(1, 2) 08; }
