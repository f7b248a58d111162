void rv_exit(int status);
int main(void) {
    int rv_exit = 1;
    rv_exit(0);
    return rv_exit;
}
