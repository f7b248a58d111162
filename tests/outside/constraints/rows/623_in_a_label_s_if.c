int main(void) {
    switch (1) {
    case 1: if (1) default: return 0;
    }
    return 0;
}
