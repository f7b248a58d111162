char s[sizeof "abc"] = "abc";
int main(void) { return s[sizeof s - 2]; }
