int main(void) {
    return (int)sizeof(long long);
}
