int main(void) {
    return (int)
        sizeof(void);
}
