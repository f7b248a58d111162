int main(void) {
    switch (1) {
        if (1) return 1;
        else default: return 0;
    }
}
