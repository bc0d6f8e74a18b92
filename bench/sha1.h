/* SHA-1 of FIPS 180-4, block by block. The caller pads the text. */
#include <stdint.h>

static const uint32_t sha1_initial[5] = { 0x67452301, 0xefcdab89, 0x98badcfe, 0x10325476, 0xc3d2e1f0 };

static uint32_t rotated(uint32_t x, int n) { return x << n | x >> (32 - n); }

static void compress(uint32_t state[5], const uint8_t block[64])
{
    uint32_t w[80];
    for (int i = 0; i < 16; i++)
        w[i] = (uint32_t)block[4 * i] << 24 | (uint32_t)block[4 * i + 1] << 16 | (uint32_t)block[4 * i + 2] << 8
               | block[4 * i + 3];
    for (int i = 16; i < 80; i++)
        w[i] = rotated(w[i - 3] ^ w[i - 8] ^ w[i - 14] ^ w[i - 16], 1);
    uint32_t a = state[0], b = state[1], c = state[2], d = state[3], e = state[4];
#define ROUND(f, k, i)                                              \
    do {                                                            \
        uint32_t t = rotated(a, 5) + (f) + e + (k) + w[i];          \
        e = d; d = c; c = rotated(b, 30); b = a; a = t;             \
    } while (0)
    for (int i = 0; i < 20; i++) ROUND((b & c) | (~b & d), 0x5a827999, i);
    for (int i = 20; i < 40; i++) ROUND(b ^ c ^ d, 0x6ed9eba1, i);
    for (int i = 40; i < 60; i++) ROUND((b & c) | (b & d) | (c & d), 0x8f1bbcdc, i);
    for (int i = 60; i < 80; i++) ROUND(b ^ c ^ d, 0xca62c1d6, i);
    state[0] += a; state[1] += b; state[2] += c; state[3] += d; state[4] += e;
}
