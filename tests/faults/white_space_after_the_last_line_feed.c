/* 2: 111 file does not end in a newline */ int main(void) { return 0; }
 