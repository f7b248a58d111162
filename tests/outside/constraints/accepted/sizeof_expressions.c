int main(void) { char c = 0; short s = 0; return (int)(sizeof c + sizeof s + sizeof(c + c) + sizeof 'a' + sizeof(s + 0) + sizeof c + sizeof +c - sizeof(int)) + 1; }
