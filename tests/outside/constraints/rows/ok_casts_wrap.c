_Static_assert((int)4294967295u == -1 && (signed char)200 == -56 && (unsigned char)-1 == 255 && (_Bool)256 == 1, "m");
int main(void) { return 0; }
