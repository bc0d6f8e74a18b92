/* Clients of `oathd serve` that ask as docs/reference/clients.md says. They compute each code when they need it.
 *
 *   load-client CLIENTS USERS PORT..
 *       asks the nodes at these ports of 127.0.0.1. USERS is a file of rows `HOTP NAME - HEX`, with keys of at most
 *       64 bytes. Each client has a socket, one line on its way, and its own users: client k has each CLIENTS-th from
 *       k on. For each line `SECONDS COUNT` of standard input the clients ask until that time is over, or until COUNT
 *       lines were accepted. Then the program writes a line of names and numbers. Counters continue in the next run.
 *
 * A client sends the line again, from the same socket, after a second without an answer. It asks the next node after
 * 2.5 seconds, and at once after TIMEOUT, BUSY and CLOCK. A silent node comes last for 30 seconds. The user's number
 * chooses the first node. If no node decides, the login has failed, and the client takes its next user. A user gives
 * the same code again only if no node can have used it up. A client waits until a closed token is open.
 */
#include <arpa/inet.h>
#include <stdbool.h>
#include <stdio.h>
#include <stdlib.h>
#include <string.h>
#include <sys/epoll.h>
#include <time.h>

#include "load-users.h"

enum { MAX_CLIENTS = 1000, MAX_NODES = 9, MAX_TIMES = 8000000, MAX_EVENTS = 64 };
static const double PAUSE = 1.0, PATIENCE = 2.5, AVOID = 30.0, SCAN = 0.02;

struct client {
    int fd;
    size_t token, last;             /* the token of its line, and the place of this token among its own */
    bool is_idle, in_doubt;
    size_t order[MAX_NODES], asked; /* the nodes as it asks them, and the place of the one that it asks now */
    int sendings;                   /* of the line to this node */
    double begun, turned;           /* when it was first sent, and when to this node */
    double silent_until[MAX_NODES];
    char nonce[21], line[128];
    int len;
};

static struct client clients[MAX_CLIENTS];
static struct sockaddr_in nodes[MAX_NODES];
static size_t client_count, node_count, wanted, on_way;
static uint64_t line_number;
static float *times;
static struct { size_t ok, busy, timeout, invalid, spent, throttled, other, failed, again, left; } counts;

static void fail(const char *what)
{
    perror(what);
    exit(1);
}

static double now(void)
{
    struct timespec t;
    clock_gettime(CLOCK_MONOTONIC, &t);
    return (double)t.tv_sec + (double)t.tv_nsec / 1e9;
}

static void send_line(struct client *client)
{
    const struct sockaddr_in *node = &nodes[client->order[client->asked]];
    client->sendings++;
    if (sendto(client->fd, client->line, (size_t)client->len, 0, (const struct sockaddr *)node, sizeof *node) < 0)
        fail("load-client: sendto");
}

/* Puts the nodes into the order of the client's questions: the user's own first, and silent ones last. */
static void order_nodes(struct client *client, double moment)
{
    size_t place = 0;
    for (int is_silent = 0; is_silent < 2; is_silent++)
        for (size_t k = 0; k < node_count; k++) {
            size_t node = (client->token + k) % node_count;
            if ((client->silent_until[node] > moment) == is_silent) client->order[place++] = node;
        }
}

/* Ends the client's line, and sends one for its next user whose token is open. The client is idle if there is no such
 * user, or if the lines on their way are enough. */
static void begin_line(struct client *client, double moment)
{
    size_t own = (token_count - 1 - (size_t)(client - clients)) / client_count + 1;
    if (!client->is_idle) on_way--;
    client->is_idle = true;
    if (counts.ok + on_way >= wanted) return;
    for (size_t k = 0; k < own && client->is_idle; k++) {
        client->last = (client->last + 1) % own;
        client->token = (size_t)(client - clients) + client->last * client_count;
        client->is_idle = tokens[client->token].open_at > moment;
    }
    if (client->is_idle) return;
    on_way++;
    snprintf(client->nonce, sizeof client->nonce, "n%llu", (unsigned long long)line_number++);
    const struct token *token = &tokens[client->token];
    client->len = snprintf(client->line, sizeof client->line, "CHECK %s %s %06u -", client->nonce, token->name,
                           hotp_code(&token->key, token->next));
    client->in_doubt = false;
    client->asked = 0;
    client->sendings = 0;
    client->begun = client->turned = moment;
    order_nodes(client, moment);
    send_line(client);
}

static void ask_next_node(struct client *client, double moment)
{
    if (++client->asked == node_count) {
        counts.failed++;
        if (client->in_doubt) advance(&tokens[client->token]);
        begin_line(client, moment);
        return;
    }
    client->turned = moment;
    client->sendings = 0;
    send_line(client);
}

/* Carries out an answer. `word` is the factor of an OK, or a reason that `number` may follow. */
static void settle(struct client *client, bool is_ok, const char *word, unsigned long long number, double moment)
{
    struct token *token = &tokens[client->token];
    bool is_timeout = strcmp(word, "TIMEOUT") == 0, is_busy = strcmp(word, "BUSY") == 0;
    if (is_timeout || is_busy || strcmp(word, "CLOCK") == 0) {
        *(is_timeout ? &counts.timeout : is_busy ? &counts.busy : &counts.other) += 1;
        client->in_doubt = client->in_doubt || is_timeout;
        ask_next_node(client, moment);
        return;
    }
    if (is_ok) {
        if (counts.ok < MAX_TIMES) times[counts.ok] = (float)(moment - client->begun);
        counts.ok++;
        token->next = token->free = strtoull(word, NULL, 10) + 1;
    } else if (strcmp(word, "THROTTLED") == 0) {
        counts.throttled++;
        token->open_at = moment + (double)number + 1;
    } else {
        bool is_invalid = strcmp(word, "INVALID") == 0;
        *(is_invalid ? &counts.invalid : strcmp(word, "SPENT") == 0 ? &counts.spent : &counts.other) += 1;
        if (is_invalid) token->open_at = moment + 6;
        advance(token);
    }
    begin_line(client, moment);
}

/* Receives a datagram. It counts if it is an answer to the client's line from the node that the client asks. */
static void take_answer(struct client *client, double moment)
{
    char answer[513], kind[4], nonce[21], word[21];
    unsigned long long number = 0;
    struct sockaddr_in from = { 0 };
    socklen_t len = sizeof from;
    ssize_t got = recvfrom(client->fd, answer, sizeof answer - 1, 0, (struct sockaddr *)&from, &len);
    if (got < 0) fail("load-client: recvfrom");
    answer[got] = 0;
    if (client->is_idle || from.sin_port != nodes[client->order[client->asked]].sin_port) return;
    if (sscanf(answer, "%3s %20s %20s %llu", kind, nonce, word, &number) < 3 || strcmp(nonce, client->nonce)) return;
    client->silent_until[client->order[client->asked]] = 0;
    settle(client, strcmp(kind, "OK") == 0, word, number, moment);
}

static void look_at_time(struct client *client, double moment)
{
    if (client->is_idle) {
        begin_line(client, moment);
    } else if (moment - client->turned >= PATIENCE) {
        counts.left++;
        client->in_doubt = true;
        client->silent_until[client->order[client->asked]] = moment + AVOID;
        ask_next_node(client, moment);
    } else if (client->sendings == 1 && moment - client->turned >= PAUSE) {
        counts.again++;
        send_line(client);
    }
}

/* Asks until `wanted` lines were accepted, or until `end`. A line without an answer by then may be accepted later. */
static void ask(int events, double end)
{
    static struct epoll_event ready[MAX_EVENTS];
    double scanned = now();
    on_way = 0;
    for (size_t k = 0; k < client_count; k++) {
        clients[k].is_idle = true;
        begin_line(&clients[k], scanned);
    }
    while (counts.ok < wanted) {
        int found = epoll_wait(events, ready, MAX_EVENTS, (int)(1000 * SCAN));
        double moment = now();
        if (moment >= end) break;
        for (int k = 0; k < found; k++) take_answer(&clients[ready[k].data.u32], moment);
        if (moment - scanned < SCAN) continue;
        scanned = moment;
        for (size_t k = 0; k < client_count; k++) look_at_time(&clients[k], moment);
    }
    for (size_t k = 0; k < client_count; k++)
        if (!clients[k].is_idle) advance(&tokens[clients[k].token]);
}

static int compare(const void *a, const void *b)
{
    float x = *(const float *)a, y = *(const float *)b;
    return (x > y) - (x < y);
}

static void report(double seconds)
{
    size_t count = counts.ok < MAX_TIMES ? counts.ok : MAX_TIMES;
    qsort(times, count, sizeof *times, compare);
    printf("ok %zu busy %zu timeout %zu invalid %zu spent %zu throttled %zu other %zu failed %zu again %zu left %zu "
           "seconds %.4f p50 %.0f p99 %.0f\n", counts.ok, counts.busy, counts.timeout, counts.invalid,
           counts.spent, counts.throttled, counts.other, counts.failed, counts.again, counts.left, seconds,
           count ? 1e6 * times[count / 2] : 0, count ? 1e6 * times[count * 99 / 100] : 0);
    fflush(stdout);
}

static void open_sockets(int events)
{
    for (size_t k = 0; k < client_count; k++) {
        struct epoll_event event = { .events = EPOLLIN, .data.u32 = (uint32_t)k };
        clients[k].fd = socket(AF_INET, SOCK_DGRAM, 0);
        if (epoll_ctl(events, EPOLL_CTL_ADD, clients[k].fd, &event) < 0) fail("load-client: socket");
    }
}

int main(int argc, char **argv)
{
    double seconds;
    size_t ports = argc > 3 ? (size_t)argc - 3 : 0;
    if (ports == 0 || ports > MAX_NODES) {
        fprintf(stderr, "load-client CLIENTS USERS PORT..\n");
        return 2;
    }
    read_users(argv[2]);
    for (; node_count < ports; node_count++)
        nodes[node_count] = (struct sockaddr_in){ .sin_family = AF_INET, .sin_addr.s_addr = htonl(INADDR_LOOPBACK),
                                                  .sin_port = htons((unsigned short)atoi(argv[node_count + 3])) };
    client_count = (size_t)atol(argv[1]);
    times = malloc(MAX_TIMES * sizeof *times);
    if (client_count == 0 || client_count > MAX_CLIENTS || client_count > token_count || !times) return 2;
    int events = epoll_create1(0);
    open_sockets(events);
    while (scanf("%lf %zu", &seconds, &wanted) == 2) {
        memset(&counts, 0, sizeof counts);
        double begin = now();
        ask(events, begin + seconds);
        report(now() - begin);
    }
    return 0;
}
