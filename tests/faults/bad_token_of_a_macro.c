/* 3: 301 not a token */ #define X 08
int main(void) {
return X; }
