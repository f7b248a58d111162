int x = {1}, y = {1, };
int main(void) { int z = {-2}; return x + y + z; }
