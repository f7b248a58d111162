int main(void) { return 1/**/+/* + 4 */2; } // - 1
