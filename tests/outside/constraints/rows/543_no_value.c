int main(void) {
    return;
}
