/* The product of 128 bits that the compiled module calls (compiler-rt has it under this name), by products of 32 bits. */
typedef unsigned long u64;
typedef union { __int128 whole; struct { u64 low, high; } half; } wide;

__int128 __multi3(__int128 left, __int128 right) {
    const u64 mask = 0xffffffff;
    wide x = { left }, y = { right }, product;
    u64 x0 = x.half.low & mask, x1 = x.half.low >> 32, y0 = y.half.low & mask, y1 = y.half.low >> 32;
    u64 low = x0 * y0, middle = x1 * y0 + (low >> 32), cross = x0 * y1 + (middle & mask);
    product.half.low = (low & mask) | cross << 32;
    product.half.high = x1 * y1 + (middle >> 32) + (cross >> 32) + x.half.low * y.half.high + x.half.high * y.half.low;
    return product.whole;
}
