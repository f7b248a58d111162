int main(void) { return (char[1024][1025])1; }
