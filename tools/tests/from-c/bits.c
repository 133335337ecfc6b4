/* Tricks with bits, and numbers of fixed width. */
#include <stdio.h>
#include <stdint.h>

static int popcount(uint32_t v)
{
    v = v - ((v >> 1) & 0x55555555);
    v = (v & 0x33333333) + ((v >> 2) & 0x33333333);
    return (((v + (v >> 4)) & 0xF0F0F0F) * 0x1010101) >> 24;
}

static uint32_t reverse(uint32_t x)
{
    uint32_t r = 0;
    int n = 32;
    while (n--) {
        r <<= 1;
        r |= x & 1;
        x >>= 1;
    }
    return r;
}

static uint16_t rotate(uint16_t v, int by)
{
    return (uint16_t)(v << by | v >> (16 - by));
}

static uint32_t crc(const uint8_t *data, int length)
{
    uint32_t c = ~0u;
    while (length--) {
        c ^= *data++;
        for (int k = 0; k < 8; k++)
            c = c & 1 ? c >> 1 ^ 0xEDB88320u : c >> 1;
    }
    return ~c;
}

int main(void)
{
    static const uint8_t text[] = { '1', '2', '3', '4', '5', '6', '7', '8', '9' };
    uint8_t b = 250;
    int8_t s = 100;
    int16_t h = -1;
    uint16_t u = 65535;
    unsigned i;

    printf("%d %08x %x\n", popcount(0xDEADBEEF), (unsigned)reverse(1), rotate(0x1234, 4));
    printf("%08X\n", crc(text, sizeof text));
    b += 10;
    s += 100;
    h--;
    u++;
    printf("%d %d %d %d\n", b, s, h, u);
    u = (uint16_t)(h * 3);
    s = (int8_t)(s * 5 + 300);
    printf("%u %d %d\n", u, s, (short)40000);
    for (i = 1; i < 1u << 20; i <<= 3)
        printf("%o ", i);
    printf("%d\n", -17 >> 2);
    printf("%d %d %u\n", (i & -i) == i, ~0 ^ 0x0f, 1 - i);
    return (signed char)200 + 100;
}
