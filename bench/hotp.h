/* Codes of RFC 4226 with six digits. A key is set up once. */
#include <stdbool.h>
#include <stdio.h>
#include <string.h>

#include "sha1.h"

/* The states of SHA-1 after the first block of the inner hash and of the outer hash (RFC 2104). */
struct hotp_key {
    uint32_t inner[5], outer[5];
};

/* Reads a key of 1 to 64 bytes in hexadecimal. Returns false if the text is no such key. */
static bool read_hotp_key(const char *hex, struct hotp_key *key)
{
    uint8_t inner[64], outer[64];
    size_t digits = strlen(hex);
    if (digits == 0 || digits % 2 != 0 || digits > 128) return false;
    memset(inner, 0x36, 64);
    memset(outer, 0x5c, 64);
    for (size_t i = 0; i < digits / 2; i++) {
        unsigned byte;
        if (sscanf(hex + 2 * i, "%2x", &byte) != 1) return false;
        inner[i] ^= (uint8_t)byte;
        outer[i] ^= (uint8_t)byte;
    }
    memcpy(key->inner, sha1_initial, sizeof sha1_initial);
    memcpy(key->outer, sha1_initial, sizeof sha1_initial);
    compress(key->inner, inner);
    compress(key->outer, outer);
    return true;
}

/* Computes the digest of the block before `state`, followed by a text of at most 53 bytes. */
static void hotp_digest(const uint32_t state[5], const uint8_t *text, size_t len, uint8_t out[20])
{
    uint32_t words[5];
    uint8_t block[64] = { 0 };
    size_t bits = (64 + len) * 8;
    memcpy(words, state, sizeof words);
    memcpy(block, text, len);
    block[len] = 0x80;
    block[62] = (uint8_t)(bits >> 8);
    block[63] = (uint8_t)bits;
    compress(words, block);
    for (int i = 0; i < 20; i++) out[i] = (uint8_t)(words[i / 4] >> (24 - 8 * (i % 4)));
}

/* Returns the code of a counter (section 5.3). */
static unsigned hotp_code(const struct hotp_key *key, uint64_t counter)
{
    uint8_t text[8], mac[20];
    for (int i = 0; i < 8; i++) text[i] = (uint8_t)(counter >> (56 - 8 * i));
    hotp_digest(key->inner, text, 8, mac);
    hotp_digest(key->outer, mac, 20, mac);
    int at = mac[19] & 15;
    uint32_t word = (uint32_t)mac[at] << 24 | (uint32_t)mac[at + 1] << 16 | (uint32_t)mac[at + 2] << 8 | mac[at + 3];
    return (word & 0x7fffffff) % 1000000;
}
