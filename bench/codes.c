/* HOTP codes (RFC 4226) of the windows of wrong passwords, for comparison with oathd: for each of N lines
 * the eleven codes from counter 0 on, six digits, a key of 20 bytes. The key is set up once for each line,
 * as oathd does, so a line costs 24 compressions of SHA-1.
 *
 *   codes N plain       by the SHA-1 below
 *   codes N sha1        by OpenSSL's SHA-1, with HMAC around it as below
 *   codes N hmac        by OpenSSL's HMAC(), one call a code, which sets the key up anew: 44 compressions
 */
#include <stdint.h>
#include <stdio.h>
#include <stdlib.h>
#include <string.h>

#include "sha1.h"
#ifdef WITH_OPENSSL
#include <openssl/evp.h>
#include <openssl/hmac.h>
#include <openssl/sha.h>
#endif

enum kind { PLAIN, SHA1_CALLS, HMAC_CALL };

/* SHA-1 when it has taken one block */
struct state {
    uint32_t words[5];
#ifdef WITH_OPENSSL
    SHA_CTX context;
#endif
};

static void take_block(enum kind kind, struct state *state, const uint8_t block[64])
{
#ifdef WITH_OPENSSL
    if (kind == SHA1_CALLS) {
        SHA1_Init(&state->context);
        SHA1_Update(&state->context, block, 64);
        return;
    }
#else
    (void)kind;
#endif
    memcpy(state->words, sha1_initial, sizeof sha1_initial);
    compress(state->words, block);
}

/* the digest of that block and at most 55 bytes behind it */
static void digest(enum kind kind, const struct state *state, const uint8_t *rest, size_t len, uint8_t out[20])
{
#ifdef WITH_OPENSSL
    if (kind == SHA1_CALLS) {
        SHA_CTX context = state->context;
        SHA1_Update(&context, rest, len);
        SHA1_Final(out, &context);
        return;
    }
#else
    (void)kind;
#endif
    uint32_t words[5];
    uint8_t last[64] = { 0 };
    uint64_t bits = (64 + len) * 8;
    memcpy(words, state->words, sizeof words);
    memcpy(last, rest, len);
    last[len] = 0x80;
    for (int i = 0; i < 8; i++) last[56 + i] = (uint8_t)(bits >> (56 - 8 * i));
    compress(words, last);
    for (int i = 0; i < 20; i++) out[i] = (uint8_t)(words[i / 4] >> (24 - 8 * (i % 4)));
}

struct keyed {
    struct state inner, outer;
    const uint8_t *key;
    size_t len;
};

static struct keyed key_of(const uint8_t *key, size_t len, enum kind kind)
{
    struct keyed keyed = { .key = key, .len = len };
    uint8_t inner[64], outer[64];
    if (kind == HMAC_CALL) return keyed;
    memset(inner, 0x36, 64);
    memset(outer, 0x5c, 64);
    for (size_t i = 0; i < len; i++) { inner[i] ^= key[i]; outer[i] ^= key[i]; }
    take_block(kind, &keyed.inner, inner);
    take_block(kind, &keyed.outer, outer);
    return keyed;
}

static unsigned code_of(const struct keyed *key, uint64_t counter, enum kind kind)
{
    uint8_t msg[8], mac[20], hash[20];
    for (int i = 0; i < 8; i++) msg[i] = (uint8_t)(counter >> (56 - 8 * i));
    if (kind == HMAC_CALL) {
#ifdef WITH_OPENSSL
        unsigned len = 20;
        HMAC(EVP_sha1(), key->key, (int)key->len, msg, 8, mac, &len);
#endif
    } else {
        digest(kind, &key->inner, msg, 8, hash);
        digest(kind, &key->outer, hash, 20, mac);
    }
    int o = mac[19] & 15;
    uint32_t word = (uint32_t)mac[o] << 24 | (uint32_t)mac[o + 1] << 16 | (uint32_t)mac[o + 2] << 8 | mac[o + 3];
    return (word & 0x7fffffff) % 1000000;
}

int main(int argc, char **argv)
{
    const uint8_t *key = (const uint8_t *)"12345678901234567890";
    enum kind kind;
    if (argc == 3 && strcmp(argv[2], "plain") == 0) kind = PLAIN;
#ifdef WITH_OPENSSL
    else if (argc == 3 && strcmp(argv[2], "sha1") == 0) kind = SHA1_CALLS;
    else if (argc == 3 && strcmp(argv[2], "hmac") == 0) kind = HMAC_CALL;
#endif
    else { fprintf(stderr, "codes N plain|sha1|hmac (the last two where it is built with OpenSSL)\n"); return 2; }
    long lines = atol(argv[1]);
    struct keyed keyed = key_of(key, 20, kind);
    if (code_of(&keyed, 1, kind) != 287082) { fprintf(stderr, "codes: wrong code\n"); return 1; }
    unsigned long sum = 0;
    for (long line = 0; line < lines; line++) {
        keyed = key_of(key, 20, kind);
        for (uint64_t counter = 0; counter <= 10; counter++)
            sum += code_of(&keyed, counter, kind);
    }
    printf("%lu\n", sum);
    return 0;
}
