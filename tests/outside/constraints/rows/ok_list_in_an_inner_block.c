enum e { A };
int main(void) { enum e { B = 1 }; enum e x = B; return x - 1; }
