enum { A = 65536
    * 32768 };
int main(void) { return 0; }
