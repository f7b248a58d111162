int main(void) { switch (2) { enum { A = 2, B }; case A: return 5; case B: return 6; } return 7; }
