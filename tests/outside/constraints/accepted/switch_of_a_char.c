int main(void) { char c = 'b'; switch (c) { case 'a': return 1; case 'b': return 2; } return 0; }
