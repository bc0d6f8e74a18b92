/* The users of bench/load-client.c: event tokens, and the counter of the code that each gives next. */
#include <stdlib.h>

#include "hotp.h"

enum { MAX_TOKENS = 10000 };

struct token {
    char name[65];
    struct hotp_key key;
    uint64_t free, next;            /* the first counter that isn't known to be used, and that of the next code */
    double open_at;
};

static struct token tokens[MAX_TOKENS];
static size_t token_count;

/* Reads rows `HOTP NAME - HEX`. */
static void read_users(const char *path)
{
    char row[512], hex[129];
    FILE *users = fopen(path, "r");
    while (users && fgets(row, sizeof row, users)) {
        struct token *token = &tokens[token_count];
        if (token_count++ < MAX_TOKENS && sscanf(row, "HOTP %64s - %128s", token->name, hex) == 2
            && read_hotp_key(hex, &token->key)) continue;
        fprintf(stderr, "load-client: line %zu of the users is no event token, or is one too many\n", token_count);
        exit(1);
    }
    if (users) fclose(users);
}

/* Takes the next code if this one may be used up. It stays in the look-ahead of 10 after the last accepted code. */
static void advance(struct token *token)
{
    if (token->next < token->free + 9) token->next++;
}
