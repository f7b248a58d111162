int main(void) { short s = 40000; return s == -25536; }
