int f(_Bool b) { return b; }
int main(void) { return f(-5); }
