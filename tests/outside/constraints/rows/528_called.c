int main(void) {
    return
        g();
}
