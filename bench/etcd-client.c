/* Clients of etcd that ask it for what `oathd serve` does at an acceptance: take a factor of a token if it lies above the
 * last one that was taken, durably, at a majority. That is one transaction of its JSON gateway: where the value of the
 * token's key is less than the factor it becomes the factor. Values are decimal, of 20 digits.
 *
 *   etcd-client SECONDS TURN CLIENTS TOKENS PORT..
 *       CLIENTS connections that stay open, each with one transaction on its way; client k asks the k-th of these ports
 *       of 127.0.0.1, round again, for the tokens k, k + CLIENTS and so on. It ends after so many seconds. TURN is 0, or
 *       says whose turn it works in
 *
 * It prints: transactions that took a factor, others, 0, the seconds of its turns, of the answers the median, the 99th
 * percentile and the greatest time in microseconds, and its seconds of processor time.
 */
#define _GNU_SOURCE /* strcasestr */
#include <arpa/inet.h>
#include <netinet/tcp.h>
#include <poll.h>
#include <stdio.h>
#include <stdlib.h>
#include <string.h>
#include <strings.h>
#include <sys/resource.h>
#include <sys/socket.h>
#include <unistd.h>

#include "serve-turns.h"

enum { MAX_CLIENTS = 64, MAX_ANSWERS = 1000000, MAX_ANSWER = 16384 };

/* A connection with its transaction. */
struct client {
    unsigned long token, factor;
    double begun;
    size_t len;
    char answer[MAX_ANSWER];
};

static struct client client[MAX_CLIENTS];
static struct pollfd fds[MAX_CLIENTS];
static double *times;
static size_t ok_count, other_count;

static void fail(const char *what)
{
    perror(what);
    exit(1);
}

/* The text in base64. */
static void encode(const char *text, char *out)
{
    static const char digits[] = "ABCDEFGHIJKLMNOPQRSTUVWXYZabcdefghijklmnopqrstuvwxyz0123456789+/";
    size_t len = strlen(text);
    for (size_t k = 0; k < len; k += 3) {
        unsigned long bits = (unsigned long)(unsigned char)text[k] << 16;
        if (k + 1 < len) bits |= (unsigned long)(unsigned char)text[k + 1] << 8;
        if (k + 2 < len) bits |= (unsigned char)text[k + 2];
        for (size_t place = 0; place < 4; place++)
            *out++ = place <= len - k ? digits[bits >> (18 - 6 * place) & 63] : '=';
    }
    *out = 0;
}

static void begin(size_t k)
{
    struct client *own = &client[k];
    char text[32], key[64], value[64], body[512], request[1024];
    snprintf(text, sizeof text, "u%lu", own->token);
    encode(text, key);
    snprintf(text, sizeof text, "%020lu", own->factor);
    encode(text, value);
    int size = snprintf(body, sizeof body,
                        "{\"compare\":[{\"key\":\"%s\",\"target\":\"VALUE\",\"result\":\"LESS\",\"value\":\"%s\"}],"
                        "\"success\":[{\"requestPut\":{\"key\":\"%s\",\"value\":\"%s\"}}]}",
                        key, value, key, value);
    int len = snprintf(request, sizeof request,
                       "POST /v3/kv/txn HTTP/1.1\r\nHost: 127.0.0.1\r\nContent-Type: application/json\r\n"
                       "Content-Length: %d\r\n\r\n%s",
                       size, body);
    own->len = 0;
    own->begun = now();
    if (send(fds[k].fd, request, (size_t)len, 0) != len) fail("etcd-client: send");
}

/* Whether the answer is there whole. */
static int is_whole(const struct client *own)
{
    const char *body = strstr(own->answer, "\r\n\r\n"), *length = strcasestr(own->answer, "\r\ncontent-length:");
    return body && length && own->len >= (size_t)(body + 4 - own->answer) + strtoul(length + 17, NULL, 10);
}

/* Takes what came to a client; where its answer is whole, the next transaction begins. */
static void take(size_t k, size_t clients, unsigned long tokens, int turn, double *slept)
{
    struct client *own = &client[k];
    ssize_t got = recv(fds[k].fd, own->answer + own->len, MAX_ANSWER - 1 - own->len, 0);
    if (got <= 0) fail("etcd-client: recv");
    own->len += (size_t)got;
    own->answer[own->len] = 0;
    if (!is_whole(own)) return;
    if (ok_count + other_count < MAX_ANSWERS) times[ok_count + other_count] = now() - own->begun;
    if (strstr(own->answer, "\"succeeded\":true")) ok_count++;
    else other_count++;
    own->token += clients;
    if (own->token >= tokens) {
        own->token = k;
        own->factor++;
    }
    *slept += await_turn(turn);
    begin(k);
}

static int compare(const void *a, const void *b)
{
    double x = *(const double *)a, y = *(const double *)b;
    return (x > y) - (x < y);
}

static void connect_to(size_t k, const char *port)
{
    struct sockaddr_in address = { .sin_family = AF_INET, .sin_port = htons((unsigned short)atoi(port)) };
    int one = 1;
    address.sin_addr.s_addr = htonl(INADDR_LOOPBACK);
    fds[k] = (struct pollfd){ .fd = socket(AF_INET, SOCK_STREAM, 0), .events = POLLIN };
    setsockopt(fds[k].fd, IPPROTO_TCP, TCP_NODELAY, &one, sizeof one);
    if (connect(fds[k].fd, (struct sockaddr *)&address, sizeof address) < 0) fail("etcd-client: connect");
    client[k].token = k;
    client[k].factor = 1;
}

int main(int argc, char **argv)
{
    if (argc < 6) {
        fprintf(stderr, "etcd-client SECONDS TURN CLIENTS TOKENS PORT..\n");
        return 2;
    }
    double seconds = atof(argv[1]);
    int turn = atoi(argv[2]);
    size_t clients = (size_t)atoi(argv[3]);
    unsigned long tokens = strtoul(argv[4], NULL, 10);
    times = malloc(MAX_ANSWERS * sizeof *times);
    if (clients == 0 || clients > MAX_CLIENTS || tokens < clients || !times) return 2;
    for (size_t k = 0; k < clients; k++) connect_to(k, argv[5 + k % (size_t)(argc - 5)]);
    double start = now(), end = start + seconds, slept = await_turn(turn);
    for (size_t k = 0; k < clients; k++) begin(k);
    while (now() < end) {
        poll(fds, clients, 50);
        for (size_t k = 0; k < clients; k++)
            if (fds[k].revents) take(k, clients, tokens, turn, &slept);
    }
    double took = now() - start - slept;
    size_t count = ok_count + other_count < MAX_ANSWERS ? ok_count + other_count : MAX_ANSWERS;
    struct rusage usage;
    getrusage(RUSAGE_SELF, &usage);
    qsort(times, count, sizeof *times, compare);
    printf("%zu %zu 0 %.3f %.0f %.0f %.0f %.3f\n", ok_count, other_count, took, count ? 1e6 * times[count / 2] : 0.0,
           count ? 1e6 * times[count * 99 / 100] : 0.0, count ? 1e6 * times[count - 1] : 0.0,
           (double)(usage.ru_utime.tv_sec + usage.ru_stime.tv_sec)
               + (double)(usage.ru_utime.tv_usec + usage.ru_stime.tv_usec) / 1e6);
    return 0;
}
