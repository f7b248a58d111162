int main(void) {
    return (int)+
        (int[2])1;
}
