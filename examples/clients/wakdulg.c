/* A client of a cluster of `oathd serve` nodes: wakdulg.h says how it is used. */
#define _GNU_SOURCE
#include "wakdulg.h"

#include <arpa/inet.h>
#include <errno.h>
#include <openssl/crypto.h>
#include <openssl/evp.h>
#include <openssl/hmac.h>
#include <openssl/rand.h>
#include <poll.h>
#include <stdio.h>
#include <stdlib.h>
#include <string.h>
#include <sys/socket.h>
#include <sys/stat.h>
#include <time.h>
#include <unistd.h>

enum { KIND_LINE = 1, KIND_ANSWER = 2, HEAD_LEN = 15, TAG_LEN = 32, NONCE_LEN = 20, SENDINGS = 2 };
enum { MAX_SEALED = HEAD_LEN + WAKDULG_MAX_LINE + TAG_LEN, ROOM = 512 };

/* A line to one node. Under a key each sending has a moment and a tag of its own. */
struct asked {
    const struct wakdulg_cluster *cluster;
    const struct wakdulg_node *node;
    const char *line;
    const char *nonce;
    uint64_t moments[SENDINGS];
    uint8_t tags[SENDINGS][TAG_LEN];
    int sent;
};

/* What a node made of a line: an answer, nothing, or nothing since nobody took the line. */
enum heard { HEARD, NOT_HEARD, NOT_TAKEN };

static const char *const OF_THE_NODE[] = {"TIMEOUT", "BUSY", "CLOCK"};
static const char *const OF_THE_LINE[] = {"UNKNOWN", "PASSWORD", "EXHAUSTED", "INVALID", "SPENT"};

static bool is_one_of(const char *word, const char *const *words, size_t count) {
    for (size_t k = 0; k < count; k++)
        if (strcmp(word, words[k]) == 0)
            return true;
    return false;
}

static bool is_of_the_node(const char *reason) { return is_one_of(reason, OF_THE_NODE, 3); }

static double now_of(clockid_t clock) {
    struct timespec now;
    clock_gettime(clock, &now);
    return (double)now.tv_sec + (double)now.tv_nsec / 1e9;
}

/* Returns the microseconds since 1970, later than each moment that this process had before. */
static uint64_t new_moment(void) {
    static uint64_t last = 0;
    struct timespec now;
    clock_gettime(CLOCK_REALTIME, &now);
    uint64_t moment = (uint64_t)now.tv_sec * 1000000 + (uint64_t)now.tv_nsec / 1000;
    uint64_t before = __atomic_load_n(&last, __ATOMIC_SEQ_CST), mine;
    do
        mine = moment > before ? moment : before + 1;
    while (!__atomic_compare_exchange_n(&last, &before, mine, false, __ATOMIC_SEQ_CST, __ATOMIC_SEQ_CST));
    return mine;
}

/* ---- nodes and keys */

static int read_node(const char *text, size_t len, uint8_t number, struct wakdulg_node *node) {
    char word[32];
    if (len >= 2 && text[0] >= '1' && text[0] <= '9' && text[1] == '=') {
        number = (uint8_t)(text[0] - '0');
        text += 2;
        len -= 2;
    }
    if (len >= sizeof word)
        return -1;
    memcpy(word, text, len);
    word[len] = 0;
    char *colon = strchr(word, ':');
    if (!colon || strspn(colon + 1, "0123456789") != strlen(colon + 1) || strlen(colon + 1) < 1 || strlen(colon + 1) > 5)
        return -1;
    unsigned long port = strtoul(colon + 1, NULL, 10);
    *colon = 0;
    memset(node, 0, sizeof *node);
    node->number = number;
    node->address.sin_family = AF_INET;
    node->address.sin_port = htons((uint16_t)port);
    return port >= 1 && port <= 65535 && inet_pton(AF_INET, word, &node->address.sin_addr) == 1 ? 0 : -1;
}

int wakdulg_set_nodes(struct wakdulg_cluster *cluster, const char *nodes) {
    *cluster = (struct wakdulg_cluster){.again = 1.0, .leave = 2.5, .total = 8.0, .avoid = 30.0};
    for (const char *at = nodes; *(at += strspn(at, ", "));) {
        size_t len = strcspn(at, ", ");
        if (cluster->count == WAKDULG_MAX_NODES ||
            read_node(at, len, (uint8_t)(cluster->count + 1), &cluster->nodes[cluster->count]) < 0)
            return -1;
        cluster->count++;
        at += len;
    }
    return cluster->count ? 0 : -1;
}

static bool has_a_node_twice(const struct wakdulg_cluster *cluster) {
    for (size_t k = 0; k < cluster->count; k++)
        for (size_t j = 0; j < k; j++) {
            const struct wakdulg_node *one = &cluster->nodes[k], *other = &cluster->nodes[j];
            if (one->number == other->number || (one->address.sin_port == other->address.sin_port &&
                                                 one->address.sin_addr.s_addr == other->address.sin_addr.s_addr))
                return true;
        }
    return false;
}

void wakdulg_set_plain(struct wakdulg_cluster *cluster) { cluster->way = WAKDULG_PLAIN; }

/* Whether a key in this open file is a secret of this user: others can neither read it nor have put it there. */
static bool is_private(int fd) {
    struct stat about;
    return fstat(fd, &about) == 0 && !(about.st_mode & 037) && (about.st_uid == 0 || about.st_uid == geteuid());
}

/* Reads the key of a file into the cluster. */
static int read_key(struct wakdulg_cluster *cluster, const char *path) {
    FILE *file = fopen(path, "re");
    if (!file)
        return -1;
    char text[2 * WAKDULG_MAX_KEY + 3];
    size_t len = is_private(fileno(file)) ? fread(text, 1, sizeof text - 1, file) : 0;
    fclose(file);
    text[len] = 0;
    if (len && text[len - 1] == '\n')
        text[--len] = 0;
    bool is_key = len % 2 == 0 && len >= 32 && len <= 2 * WAKDULG_MAX_KEY &&
                  strspn(text, "0123456789abcdefABCDEF") == len;
    for (size_t k = 0; is_key && k < len / 2; k++) {
        char pair[3] = {text[2 * k], text[2 * k + 1], 0};
        cluster->key[k] = (uint8_t)strtoul(pair, NULL, 16);
    }
    OPENSSL_cleanse(text, sizeof text);
    cluster->key_len = is_key ? len / 2 : 0;
    return is_key ? 0 : -1;
}

int wakdulg_set_key(struct wakdulg_cluster *cluster, const char *number_and_file) {
    size_t digits = strspn(number_and_file, "0123456789");
    unsigned long number = strtoul(number_and_file, NULL, 10);
    cluster->way = WAKDULG_UNSAID;
    if (digits < 1 || digits > 5 || number > 65535 || number_and_file[digits] != ':' || has_a_node_twice(cluster) ||
        read_key(cluster, number_and_file + digits + 1) < 0)
        return -1;
    cluster->client = (uint16_t)number;
    cluster->way = WAKDULG_SEALED;
    return 0;
}

/* ---- sealed datagrams */

/* Writes the tag of the bytes, followed by the tag that they are bound to, if any. */
static void make_tag(const struct wakdulg_cluster *cluster, const uint8_t *bytes, size_t len, const uint8_t *bound,
                     uint8_t *tag) {
    uint8_t tagged[MAX_SEALED + TAG_LEN];
    unsigned int tag_len = TAG_LEN;
    memcpy(tagged, bytes, len);
    if (bound)
        memcpy(tagged + len, bound, TAG_LEN);
    if (!HMAC(EVP_sha256(), cluster->key, (int)cluster->key_len, tagged, len + (bound ? TAG_LEN : 0), tag, &tag_len))
        abort();
}

size_t wakdulg_seal(const struct wakdulg_cluster *cluster, uint8_t kind, uint8_t node, uint64_t moment,
                    const uint8_t *bound, const uint8_t *text, size_t len, uint8_t *datagram) {
    uint8_t head[HEAD_LEN] = {'O', 'S', 1, kind, (uint8_t)(cluster->client >> 8), (uint8_t)cluster->client, node};
    for (int k = 0; k < 8; k++)
        head[7 + k] = (uint8_t)(moment >> (56 - 8 * k));
    memcpy(datagram, head, HEAD_LEN);
    memcpy(datagram + HEAD_LEN, text, len);
    make_tag(cluster, datagram, HEAD_LEN + len, bound, datagram + HEAD_LEN + len);
    return HEAD_LEN + len + TAG_LEN;
}

/* Writes the text of an answer to one of the sendings, and returns its length, or -1 if it is none. */
static int open_answer(const struct asked *asked, const uint8_t *data, size_t len, char *text) {
    const struct wakdulg_cluster *cluster = asked->cluster;
    if (len < HEAD_LEN + TAG_LEN || len > MAX_SEALED)
        return -1;
    size_t text_len = len - HEAD_LEN - TAG_LEN;
    uint8_t wanted[MAX_SEALED];
    for (int k = 0; k < asked->sent; k++) {
        wakdulg_seal(cluster, KIND_ANSWER, asked->node->number, asked->moments[k], asked->tags[k], data + HEAD_LEN,
                     text_len, wanted);
        if (CRYPTO_memcmp(wanted, data, len) == 0) {
            memcpy(text, data + HEAD_LEN, text_len);
            return (int)text_len;
        }
    }
    return -1;
}

/* ---- one node */

static bool is_number(const char *text) {
    size_t len = strlen(text);
    return len >= 1 && len <= 20 && strspn(text, "0123456789") == len;
}

/* Whether a text is a whole answer, and one to the line with this nonce. */
static bool is_answer(const char *text, const char *nonce) {
    if (strcmp(text, "NO - BADLINE") == 0)
        return true;
    size_t nonce_len = strlen(nonce);
    bool is_ok = strncmp(text, "OK ", 3) == 0;
    if ((!is_ok && strncmp(text, "NO ", 3) != 0) || strncmp(text + 3, nonce, nonce_len) != 0 ||
        text[3 + nonce_len] != ' ')
        return false;
    const char *said = text + 4 + nonce_len;
    if (is_ok)
        return is_number(said);
    return is_of_the_node(said) || is_one_of(said, OF_THE_LINE, 5) ||
           (strncmp(said, "THROTTLED ", 10) == 0 && is_number(said + 10));
}

static int send_line(int fd, struct asked *asked) {
    const uint8_t *line = (const uint8_t *)asked->line;
    size_t len = strlen(asked->line);
    uint8_t datagram[MAX_SEALED];
    if (asked->cluster->way == WAKDULG_SEALED) {
        uint64_t moment = asked->moments[asked->sent] = new_moment();
        size_t sealed_len = wakdulg_seal(asked->cluster, KIND_LINE, asked->node->number, moment, NULL, line, len, datagram);
        memcpy(asked->tags[asked->sent], datagram + sealed_len - TAG_LEN, TAG_LEN);
        line = datagram;
        len = sealed_len;
    }
    if (send(fd, line, len, MSG_NOSIGNAL) < 0)
        return -1;
    asked->sent++;
    return 0;
}

/* Waits until `end` for an answer. Returns 1 and the text, 0 at the end, or -1 if the socket fails. */
static int wait_for(int fd, const struct asked *asked, double end, char *text) {
    for (double left; (left = end - now_of(CLOCK_MONOTONIC)) > 0;) {
        struct pollfd ready = {.fd = fd, .events = POLLIN};
        int found = poll(&ready, 1, (int)(left * 1000) + 1);
        if (found < 0 && errno != EINTR)
            return -1;
        if (found <= 0)
            continue;
        uint8_t data[ROOM];
        ssize_t len = recv(fd, data, sizeof data, MSG_DONTWAIT);
        if (len < 0 && (errno == EAGAIN || errno == EINTR))
            continue;
        if (len < 0)
            return -1;
        if (asked->cluster->way == WAKDULG_SEALED)
            len = open_answer(asked, data, (size_t)len, text);
        else if ((size_t)len < ROOM)
            memcpy(text, data, (size_t)len);
        else
            len = -1;
        if (len >= 0) {
            text[len] = 0;
            if (strlen(text) == (size_t)len && is_answer(text, asked->nonce))
                return 1;
        }
    }
    return 0;
}

/* Asks one node, until `deadline` at most. A connected socket hears no other, and tells if nobody is there. */
static enum heard ask_node(struct asked *asked, double deadline, char *text) {
    int fd = socket(AF_INET, SOCK_DGRAM | SOCK_CLOEXEC, 0), found = 0;
    if (fd < 0)
        return NOT_HEARD;
    const struct wakdulg_cluster *cluster = asked->cluster;
    double begin = now_of(CLOCK_MONOTONIC), ends[SENDINGS] = {begin + cluster->again, begin + cluster->leave};
    if (connect(fd, (const struct sockaddr *)&asked->node->address, sizeof asked->node->address) < 0)
        found = -1;
    for (int k = 0; k < SENDINGS && found == 0; k++) {
        double end = ends[k] < deadline ? ends[k] : deadline;
        if (now_of(CLOCK_MONOTONIC) >= end)
            break;
        found = send_line(fd, asked) < 0 ? -1 : wait_for(fd, asked, end, text);
    }
    bool is_refused = found < 0 && errno == ECONNREFUSED;
    close(fd);
    if (found == 1)
        return HEARD;
    /* It is about the first datagram, if no second one went out: so the node has none. */
    return asked->sent == 0 || (asked->sent == 1 && is_refused) ? NOT_TAKEN : NOT_HEARD;
}

/* ---- submissions */

static void set_answer(struct wakdulg_answer *answer, enum wakdulg_outcome outcome, const char *reason, uint64_t number) {
    bool in_doubt = answer->in_doubt;
    *answer = (struct wakdulg_answer){.outcome = outcome, .in_doubt = in_doubt, .number = number};
    snprintf(answer->reason, sizeof answer->reason, "%s", reason);
}

/* Notes an answer of a node. Returns whether it decides. */
static bool take_answer(struct wakdulg_answer *answer, const char *text) {
    const char *said = strchr(text + 3, ' ') + 1;
    if (strncmp(text, "OK ", 3) == 0) {
        answer->in_doubt = false;
        set_answer(answer, WAKDULG_ACCEPTED, "OK", strtoull(said, NULL, 10));
        return true;
    }
    answer->in_doubt = answer->in_doubt || strcmp(said, "TIMEOUT") == 0 || strcmp(said, "SPENT") == 0;
    if (strncmp(said, "THROTTLED ", 10) == 0)
        set_answer(answer, WAKDULG_THROTTLED, "THROTTLED", strtoull(said + 10, NULL, 10));
    else
        set_answer(answer, is_of_the_node(said) ? WAKDULG_UNDECIDED : WAKDULG_REFUSED, said, 0);
    return answer->outcome != WAKDULG_UNDECIDED;
}

/* The node that is asked first: the user's own, for that one knows the token's drift. */
static size_t first_of(const struct wakdulg_cluster *cluster, const char *user) {
    uint8_t digest[EVP_MAX_MD_SIZE];
    if (cluster->in_order || !EVP_Digest(user, strlen(user), digest, NULL, EVP_sha256(), NULL))
        return 0;
    return digest[0] % cluster->count;
}

static int64_t now_in_millis(void) { return (int64_t)(now_of(CLOCK_MONOTONIC) * 1000); }

/* Writes the places of the nodes as they are asked: from the first one on, and those that were silent last. */
static void order_of(const struct wakdulg_cluster *cluster, const char *user, size_t *order) {
    size_t first = first_of(cluster, user), count = 0;
    int64_t now = now_in_millis();
    bool is_silent[WAKDULG_MAX_NODES];
    for (size_t k = 0; k < cluster->count; k++)
        is_silent[k] = __atomic_load_n(&cluster->silent_until[k], __ATOMIC_RELAXED) > now;
    for (int pass = 0; pass < 2; pass++)
        for (size_t k = 0; k < cluster->count; k++)
            if (is_silent[(first + k) % cluster->count] == (pass == 1))
                order[count++] = (first + k) % cluster->count;
}

/* Keeps in mind whether a node was silent for all of its time. */
static void note(struct wakdulg_cluster *cluster, size_t place, bool is_heard, double deadline) {
    if (is_heard)
        __atomic_store_n(&cluster->silent_until[place], 0, __ATOMIC_RELAXED);
    else if (now_of(CLOCK_MONOTONIC) < deadline) {
        int64_t until = now_in_millis() + (int64_t)(cluster->avoid * 1000);
        __atomic_store_n(&cluster->silent_until[place], until, __ATOMIC_RELAXED);
    }
}

static struct wakdulg_answer submit(struct wakdulg_cluster *cluster, const char *user, const char *nonce,
                                    const char *line) {
    struct wakdulg_answer answer = {.outcome = WAKDULG_UNDECIDED, .reason = "SILENT"};
    double deadline = now_of(CLOCK_MONOTONIC) + cluster->total;
    size_t order[WAKDULG_MAX_NODES];
    order_of(cluster, user, order);
    for (size_t k = 0; k < cluster->count && now_of(CLOCK_MONOTONIC) < deadline; k++) {
        struct asked asked = {.cluster = cluster, .node = &cluster->nodes[order[k]], .line = line, .nonce = nonce};
        char text[ROOM + 1];
        enum heard heard = ask_node(&asked, deadline, text);
        note(cluster, order[k], heard == HEARD, deadline);
        if (heard == HEARD && take_answer(&answer, text))
            break;
        answer.in_doubt = answer.in_doubt || heard == NOT_HEARD;
    }
    return answer;
}

static bool is_word(const char *text) {
    size_t len = strlen(text);
    return len >= 1 && len <= 64 && strcspn(text, " \t\r\n") == len;
}

static bool is_code(const char *text) {
    size_t len = strlen(text);
    return len >= 6 && len <= 8 && strspn(text, "0123456789") == len;
}

static int make_nonce(char *nonce) {
    uint8_t bytes[NONCE_LEN / 2];
    if (RAND_bytes(bytes, sizeof bytes) != 1)
        return -1;
    for (size_t k = 0; k < sizeof bytes; k++)
        snprintf(nonce + 2 * k, 3, "%02x", bytes[k]);
    return 0;
}

static struct wakdulg_answer submit_codes(struct wakdulg_cluster *cluster, const char *user, const char *code,
                                          const char *next_code, const char *password) {
    struct wakdulg_answer bad = {.outcome = WAKDULG_BAD_FIELD};
    if (cluster->way == WAKDULG_UNSAID || cluster->count == 0) {
        set_answer(&bad, WAKDULG_UNDECIDED, cluster->count ? "NO KEY" : "NO NODES", 0);
        return bad;
    }
    const char *what = !is_word(user) ? "not a user name"
                       : !is_code(code) || (next_code && !is_code(next_code)) ? "not a code"
                       : password && (!is_word(password) || strcmp(password, "-") == 0) ? "not a password" : NULL;
    char nonce[NONCE_LEN + 1], line[WAKDULG_MAX_LINE + 1];
    if (what || make_nonce(nonce) < 0) {
        set_answer(&bad, WAKDULG_BAD_FIELD, what ? what : "no random byte", 0);
        return bad;
    }
    snprintf(line, sizeof line, "%s %s %s %s%s%s %s", next_code ? "RESYNC" : "CHECK", nonce, user, code,
             next_code ? " " : "", next_code ? next_code : "", password ? password : "-");
    struct wakdulg_answer answer = submit(cluster, user, nonce, line);
    OPENSSL_cleanse(line, sizeof line);
    return answer;
}

struct wakdulg_answer wakdulg_check(struct wakdulg_cluster *cluster, const char *user, const char *code,
                                    const char *password) {
    return submit_codes(cluster, user, code, NULL, password);
}

struct wakdulg_answer wakdulg_resync(struct wakdulg_cluster *cluster, const char *user, const char *code,
                                     const char *next_code, const char *password) {
    return submit_codes(cluster, user, code, next_code, password);
}

#ifdef WAKDULG_ASK
/* Puts a nonce into a line that has a field less than it should. */
static int complete(char *line, char *nonce) {
    size_t spaces = 0;
    for (const char *at = line; *at; at++)
        spaces += *at == ' ';
    bool is_check = strncmp(line, "CHECK ", 6) == 0, is_resync = strncmp(line, "RESYNC ", 7) == 0;
    bool has_gap = strstr(line, "  ") || (*line && line[strlen(line) - 1] == ' ');
    if (((is_check && spaces == 3) || (is_resync && spaces == 4)) && !has_gap) {
        char *second = strchr(line, ' ') + 1;
        size_t rest_len = strlen(second) + 1;
        if (make_nonce(nonce) < 0 || strlen(line) + NONCE_LEN + 1 > ROOM)
            return -1;
        memmove(second + NONCE_LEN + 1, second, rest_len);
        memcpy(second, nonce, NONCE_LEN);
        second[NONCE_LEN] = ' ';
        return 0;
    }
    char *nonce_at = strchr(line, ' ');
    snprintf(nonce, ROOM, "%.*s", nonce_at ? (int)strcspn(nonce_at + 1, " ") : 0, nonce_at ? nonce_at + 1 : "");
    return 0;
}

static int refuse(const char *fault) {
    fprintf(stderr, "ask: %s\nusage: ask [--key-file NUMBER:FILE] LINE|- ADDRESS:PORT..\n", fault);
    return 2;
}

int main(int count, char **words) {
    const char *key = getenv("WAKDULG_KEY_FILE");
    char line[ROOM + 1] = "", nonce[ROOM] = "", nodes[ROOM] = "", text[ROOM + 1], last[ROOM + 1] = "";
    if (count > 2 && strcmp(words[1], "--key-file") == 0) {
        key = words[2];
        words += 2;
        count -= 2;
    }
    for (int k = 2; k < count; k++)
        snprintf(nodes + strlen(nodes), sizeof nodes - strlen(nodes), "%s ", words[k]);
    struct wakdulg_cluster cluster;
    if (count < 3)
        return refuse("no ADDRESS:PORT");
    if (wakdulg_set_nodes(&cluster, nodes) < 0)
        return refuse("not 1 to 9 times ADDRESS:PORT, as 192.0.2.1:717");
    wakdulg_set_plain(&cluster);
    if (key && *key && wakdulg_set_key(&cluster, key) < 0)
        return refuse("no key: not NUMBER:FILE, no such file, neither yours nor root's, others may read it, "
                      "or a node stands twice");
    if (strcmp(words[1], "-") == 0) {
        if (fgets(line, sizeof line, stdin))
            line[strcspn(line, "\n")] = 0;
    } else
        snprintf(line, sizeof line, "%s", words[1]);
    if (complete(line, nonce) < 0 || strlen(line) > (cluster.way == WAKDULG_SEALED ? WAKDULG_MAX_LINE : ROOM))
        return refuse("no line of a client");
    for (size_t k = 0; k < cluster.count; k++) {
        struct asked asked = {.cluster = &cluster, .node = &cluster.nodes[k], .line = line, .nonce = nonce};
        if (ask_node(&asked, now_of(CLOCK_MONOTONIC) + cluster.total, text) == HEARD) {
            snprintf(last, sizeof last, "%s", text);
            if (!is_of_the_node(strchr(text + 3, ' ') + 1))
                break;
        }
    }
    if (!*last) {
        fprintf(stderr, "ask: no node answers%s\n",
                cluster.way == WAKDULG_SEALED ? ": look at the key, at its number, and at this machine's clock" : "");
        return 2;
    }
    puts(last);
    return strncmp(last, "OK ", 3) == 0 ? 0 : 1;
}
#endif
