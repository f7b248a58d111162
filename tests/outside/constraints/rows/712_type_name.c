int main(void) {
    return (int)sizeof(
        char
        [1048577]);
}
