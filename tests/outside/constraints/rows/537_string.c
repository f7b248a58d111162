int main(void) { (char[4])"abc"; return 0; }
