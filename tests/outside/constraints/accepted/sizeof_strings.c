int main(void) { return sizeof "abc" + sizeof "" + sizeof "a\0b" "c"; }
