int main(void) {
    return (int)(
        long long)1;
}
