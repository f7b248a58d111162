unsigned char s[] = "ab";
signed char t[2] = "ab";
const char u[5] = "ab";
int main(void) { char v[] = {"ab"}; return (int)(sizeof s + sizeof t + sizeof u + sizeof v) - 13 + u[4]; }
