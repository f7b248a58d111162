/* SHA-256 of 20 blocks (FIPS 180-4), and a CRC-32 of the digest's words. */
const unsigned k[64] = {
0x428a2f98,0x71374491,0xb5c0fbcf,0xe9b5dba5,0x3956c25b,0x59f111f1,0x923f82a4,0xab1c5ed5,
0xd807aa98,0x12835b01,0x243185be,0x550c7dc3,0x72be5d74,0x80deb1fe,0x9bdc06a7,0xc19bf174,
0xe49b69c1,0xefbe4786,0x0fc19dc6,0x240ca1cc,0x2de92c6f,0x4a7484aa,0x5cb0a9dc,0x76f988da,
0x983e5152,0xa831c66d,0xb00327c8,0xbf597fc7,0xc6e00bf3,0xd5a79147,0x06ca6351,0x14292967,
0x27b70a85,0x2e1b2138,0x4d2c6dfc,0x53380d13,0x650a7354,0x766a0abb,0x81c2c92e,0x92722c85,
0xa2bfe8a1,0xa81a664b,0xc24b8b70,0xc76c51a3,0xd192e819,0xd6990624,0xf40e3585,0x106aa070,
0x19a4c116,0x1e376c08,0x2748774c,0x34b0bcb5,0x391c0cb3,0x4ed8aa4a,0x5b9cca4f,0x682e6ff3,
0x748f82ee,0x78a5636f,0x84c87814,0x8cc70208,0x90befffa,0xa4506ceb,0xbef9a3f7,0xc67178f2 };

unsigned state[8];
unsigned char block[64];

void compress(void)
{
    unsigned w[64];
    unsigned s[8];
    unsigned i, t, u;
    for (i = 0; i < 16; i++)
        w[i] = (unsigned)block[4 * i] << 24 | (unsigned)block[4 * i + 1] << 16 | (unsigned)block[4 * i + 2] << 8 | block[4 * i + 3];
    for (i = 16; i < 64; i++) {
        t = w[i - 15];
        u = w[i - 2];
        w[i] = w[i - 16] + ((t >> 7 | t << 32 - 7) ^ (t >> 18 | t << 32 - 18) ^ t >> 3)
            + w[i - 7] + ((u >> 17 | u << 32 - 17) ^ (u >> 19 | u << 32 - 19) ^ u >> 10);
    }
    for (i = 0; i < 8; i++)
        s[i] = state[i];
    for (i = 0; i < 64; i++) {
        t = s[7] + ((s[4] >> 6 | s[4] << 32 - 6) ^ (s[4] >> 11 | s[4] << 32 - 11) ^ (s[4] >> 25 | s[4] << 32 - 25))
            + (s[4] & s[5] ^ ~s[4] & s[6]) + k[i] + w[i];
        u = ((s[0] >> 2 | s[0] << 32 - 2) ^ (s[0] >> 13 | s[0] << 32 - 13) ^ (s[0] >> 22 | s[0] << 32 - 22))
            + (s[0] & s[1] ^ s[0] & s[2] ^ s[1] & s[2]);
        s[7] = s[6]; s[6] = s[5]; s[5] = s[4]; s[4] = s[3] + t;
        s[3] = s[2]; s[2] = s[1]; s[1] = s[0]; s[0] = t + u;
    }
    for (i = 0; i < 8; i++)
        state[i] += s[i];
}

unsigned crc(void)
{
    unsigned value = 0xffffffff;
    unsigned i;
    unsigned bit;
    for (i = 0; i < 32; i++) {
        value = value ^ (state[i / 4] >> 8 * (i % 4) & 255);
        for (bit = 0; bit < 8; bit++)
            value = value & 1 ? value >> 1 ^ 0xedb88320 : value >> 1;
    }
    return ~value;
}

int main(void)
{
    unsigned n;
    unsigned i;
    state[0] = 0x6a09e667; state[1] = 0xbb67ae85; state[2] = 0x3c6ef372; state[3] = 0xa54ff53a;
    state[4] = 0x510e527f; state[5] = 0x9b05688c; state[6] = 0x1f83d9ab; state[7] = 0x5be0cd19;
    for (n = 0; n < 20; n++) {
        for (i = 0; i < 64; i++)
            block[i] = (unsigned char)(i * 7 + n);
        compress();
    }
    return (int)(crc() & 127);
}
