const int a = 1;
int main(void) {
    return
        --a;
}
