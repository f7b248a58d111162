void rv_putbyte(int c);
void sort(char s[], int n) {
    for (int i = 0; i < n; i++)
        for (int j = 0; j + 1 < n - i; j++)
            if (s[j] > s[j + 1]) { char t = s[j]; s[j] = s[j + 1]; s[j + 1] = t; }
}
int main(void) { char s[] = "dbeca"; sort(s, 5); for (int i = 0; i < 5; i++) rv_putbyte(s[i]); return 0; }
