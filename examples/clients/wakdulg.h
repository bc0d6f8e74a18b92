/* A client of a cluster of `oathd serve` nodes, for login services in C: C11, POSIX, and libcrypto.
 *
 *     struct wakdulg_cluster cluster;
 *     if (wakdulg_set_nodes(&cluster, "10.0.0.1:717,10.0.0.2:717,10.0.0.3:717") < 0 ||
 *         wakdulg_set_key(&cluster, "7:/etc/my/key") < 0)
 *         exit(1);
 *     struct wakdulg_answer answer = wakdulg_check(&cluster, "ann", "755224", NULL);
 *     if (answer.outcome == WAKDULG_ACCEPTED)
 *         ...
 *
 * Only WAKDULG_ACCEPTED lets a user in, once. One call is one submission: its line has one random nonce, and is the
 * same at each node that is asked. docs/reference/clients.md says what a client does and why. Any number of threads may
 * use one cluster, in which a call notes who was silent.
 *
 * Build: cc -std=c11 -c wakdulg.c, and link with -lcrypto. With -DWAKDULG_ASK it is the command `ask`.
 */
#ifndef WAKDULG_H
#define WAKDULG_H

#include <netinet/in.h>
#include <stdbool.h>
#include <stddef.h>
#include <stdint.h>

enum { WAKDULG_MAX_NODES = 9, WAKDULG_MAX_LINE = 256, WAKDULG_MAX_KEY = 64, WAKDULG_MAX_REASON = 15 };

/* A node: its number in the cluster, and its address. */
struct wakdulg_node {
    uint8_t number;
    struct sockaddr_in address;
};

/* How lines go to the nodes. Until that is said, none goes. */
enum wakdulg_way { WAKDULG_UNSAID, WAKDULG_PLAIN, WAKDULG_SEALED };

/* The nodes, the key that this client shares with them, and how long it waits. */
struct wakdulg_cluster {
    struct wakdulg_node nodes[WAKDULG_MAX_NODES];
    size_t count;
    enum wakdulg_way way;
    uint16_t client;            /* the client's number */
    uint8_t key[WAKDULG_MAX_KEY];
    size_t key_len;
    double again, leave;        /* when a node is sent the line again, and left, in seconds: 1 and 2.5 */
    double total;               /* how long a call takes at most, in seconds: 8 */
    double avoid;               /* how long a silent node is asked last, in seconds: 30 */
    bool in_order;              /* whether the first node is asked first, and not the user's own */
    int64_t silent_until[WAKDULG_MAX_NODES];    /* in milliseconds of CLOCK_MONOTONIC */
};

enum wakdulg_outcome {
    WAKDULG_ACCEPTED,           /* the user is let in; `number` is the counter or time step of the code */
    WAKDULG_REFUSED,            /* INVALID, PASSWORD, UNKNOWN, EXHAUSTED, SPENT, BADLINE */
    WAKDULG_THROTTLED,          /* the code was not looked at; the user may try again after `number` seconds */
    WAKDULG_UNDECIDED,          /* TIMEOUT, BUSY, CLOCK; SILENT if no node answered: look at the key and at the clock;
                                   NO KEY if there is none and nobody said that lines are plain, or NO NODES if
                                   there is none: nothing was sent */
    WAKDULG_BAD_FIELD           /* a name, code or password that no line can have; nothing was sent */
};

/* What became of a submission. */
struct wakdulg_answer {
    enum wakdulg_outcome outcome;
    bool in_doubt;              /* the code may be used up: the user gives the next one, and it was no wrong guess */
    char reason[WAKDULG_MAX_REASON + 1];
    uint64_t number;
};

/* Sets the nodes, as `ADDRESS:PORT,ADDRESS:PORT` in the order of their numbers, or each with its number before it, as
 * `2=ADDRESS:PORT`, and the times. No line goes before a key is set, or that they are plain. Returns 0, or -1 if the
 * text is no such list of 1 to 9. */
int wakdulg_set_nodes(struct wakdulg_cluster *cluster, const char *nodes);

/* Sets the key, as `NUMBER:FILE`: the client's number, and a file with the key in hexadecimal on one line. Returns 0, or
 * -1 if there is no such file or key, if the file is neither this user's nor root's, if others than its owner and its
 * group may read it or others than its owner may write it, or if a node stands twice. Then no line goes. */
int wakdulg_set_key(struct wakdulg_cluster *cluster, const char *number_and_file);

/* Sets that lines are plain. Whoever takes a node's port, or sees the traffic, can let in whom he likes then. */
void wakdulg_set_plain(struct wakdulg_cluster *cluster);

/* Submits a code of a user, with a password or NULL. */
struct wakdulg_answer wakdulg_check(struct wakdulg_cluster *cluster, const char *user, const char *code,
                                    const char *password);

/* Submits two codes in a row, for a token that is further ahead than the look-ahead. */
struct wakdulg_answer wakdulg_resync(struct wakdulg_cluster *cluster, const char *user, const char *code,
                                     const char *next_code, const char *password);

/* Returns the length of the datagram of `len` bytes of text, which it writes: of a line (kind 1) for a node, or of an
 * answer (kind 2) of a node, bound to the 32 bytes of a line's tag. `datagram` has room for 47 bytes more than the text. */
size_t wakdulg_seal(const struct wakdulg_cluster *cluster, uint8_t kind, uint8_t node, uint64_t moment,
                    const uint8_t *bound, const uint8_t *text, size_t len, uint8_t *datagram);

#endif
