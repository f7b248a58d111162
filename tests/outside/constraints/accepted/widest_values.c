int main(void) {
    int least = -2147483647 - 1, greatest = 2147483647;
    unsigned most = 0xFFFFFFFF;
    long l = greatest;
    return least < 0 && greatest > 0 && most > 0 && least + greatest == -1 && (unsigned)least + most + 1 == 0x80000000u && l == greatest;
}
