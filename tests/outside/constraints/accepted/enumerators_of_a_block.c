int main(void) { enum { A = 3 }; { enum { A = 4 }; } return A; }
