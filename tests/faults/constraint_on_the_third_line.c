/* 3: 533 not a modifiable lvalue */ int main(void) {
const int a = 1;
a = 2;
return a; }
