enum { A = sizeof(char[1048577]) };
int main(void) { return 0; }
