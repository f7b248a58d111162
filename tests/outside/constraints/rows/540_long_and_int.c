int main(void) {
    switch (1L) {
    case 7: return 1;
    case 7ul: return 2;
    }
    return 0;
}
