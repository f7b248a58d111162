int main(void) {
    switch (1) { case 'a': return 0; case 97: return 1; }
    return 1;
}
