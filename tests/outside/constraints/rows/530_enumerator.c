enum { A };
int main(void) { return A(); }
