/* 1: 112 file ends in a splice */ int main(void) { return 0; } \
