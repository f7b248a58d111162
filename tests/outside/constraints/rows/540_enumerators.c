enum { A = 3, B = 3 };
int main(void) {
    switch (1) { case A: return 0; case B: return 1; }
    return 1;
}
