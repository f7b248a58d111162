int main(void) { switch (1) {
    case y: return 0; } return 1;
}
