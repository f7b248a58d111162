int main(void) {
    int n = 0;
    for (int i = 0; i < 6; i++)
        switch (i) { case 0: continue; case 5: n += 4; break; default: n++; case 4: n += 0; }
    return n + 2;
}
