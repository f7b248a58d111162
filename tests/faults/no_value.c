/* 1: 543 return does not match its function */ int main(void) { return ; }
