int main(void) { return 1u + 2U + (int)(3l + 4L) + (int)(0ul + 0LU + 0Lu + 0uL); }
