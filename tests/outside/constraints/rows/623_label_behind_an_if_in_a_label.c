int main(void) {
    switch (1) {
    case 1:
        if (1) ; else case 2: ;
    }
    return 0;
}
