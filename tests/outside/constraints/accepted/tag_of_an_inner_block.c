enum e { A = 2 };
int main(void) { enum e x = A; { enum e { B = 5 }; enum e y = B; x += y; } return x; }
