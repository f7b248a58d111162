/* The check value of 4,096 bytes, bit by bit. */
unsigned step(unsigned crc, unsigned char byte)
{
    crc ^= byte;
    for (int bit = 0; bit < 8; bit++) {
        if (crc & 1)
            crc = crc >> 1 ^ 0xEDB88320u;
        else
            crc >>= 1;
    }
    return crc;
}

int main(void)
{
    unsigned crc = ~0u;
    for (int k = 0; k < 4096; k++)
        crc = step(crc, k * 7);
    return ~crc & 255;
}
