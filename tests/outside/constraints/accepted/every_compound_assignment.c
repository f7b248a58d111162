int main(void) {
    int a = 7;
    a += 5; a -= 2; a *= 3; a /= 4; a %= 5; a <<= 4; a >>= 1; a |= 3; a ^= 24; a &= 11;
    return a;
}
