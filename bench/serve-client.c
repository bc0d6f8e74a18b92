/* Clients of `oathd serve` whose lines are written beforehand, so that next to nothing is computed while time is taken.
 *
 *   serve-client ask SECONDS TURN CLIENTS LINES PORT..
 *       asks the nodes at these ports of 127.0.0.1. CLIENTS is a number, or two as 1x8: so many clients with so many
 *       lines on their way each, one where it isn't said. Each client has a socket; client k asks the k-th port, round
 *       again. The lines are those of the file LINES in order, the first of each place and then those that follow by the
 *       number of places. It ends after so many seconds, or when a place has no line left. TURN is 0, or says whose
 *       turn it works in
 *       With CLIENT_KEY in the environment, as NUMBER:FILE, each line is sealed for the node at the place of its port
 *       when it is sent, and an answer's tag is not looked at
 *   serve-client echo PORT
 *       answers each line with OK at once, for ever
 *
 * It prints: answers OK, other answers, lines sent again (where none came in a second), the seconds of its turns, of
 * the answers the median, the 99th percentile and the greatest time in microseconds, and its seconds of processor time.
 */
#include <arpa/inet.h>
#include <poll.h>
#include <stdio.h>
#include <stdlib.h>
#include <string.h>
#include <sys/resource.h>
#include <sys/socket.h>
#include <time.h>
#include <unistd.h>

#include "serve-turns.h"
#ifdef SEALED
#include "wakdulg.h"
static struct wakdulg_cluster sealing;
#endif

enum { MAX_PLACES = 64, MAX_ANSWERS = 4000000 };
static const double PATIENCE = 1.0;

/* A line on its way. */
struct place {
    size_t client;    /* whose it is */
    size_t node;      /* the number of the node that it is for */
    size_t next;      /* its number */
    double begun;     /* when the line on its way was first sent */
    double sent;      /* when it was last sent */
};

static char **lines;
static size_t line_count;
static double *times;
static size_t ok_count, other_count, resent_count;

static void fail(const char *what)
{
    perror(what);
    exit(1);
}

static struct sockaddr_in loopback(const char *port)
{
    struct sockaddr_in address = { .sin_family = AF_INET, .sin_port = htons((unsigned short)atoi(port)) };
    address.sin_addr.s_addr = htonl(INADDR_LOOPBACK);
    return address;
}

static void echo(const char *port)
{
    struct sockaddr_in address = loopback(port);
    int fd = socket(AF_INET, SOCK_DGRAM, 0);
    if (fd < 0 || bind(fd, (struct sockaddr *)&address, sizeof address) < 0) fail("serve-client: bind");
    for (;;) {
        char line[513], answer[64];
        struct sockaddr_in from;
        socklen_t len = sizeof from;
        ssize_t got = recvfrom(fd, line, sizeof line - 1, 0, (struct sockaddr *)&from, &len);
        if (got < 0) continue;
        line[got] = 0;
        char nonce[21] = "";
        sscanf(line, "%*s %20s", nonce);
        int size = snprintf(answer, sizeof answer, "OK %s 0", nonce);
        sendto(fd, answer, (size_t)size, 0, (struct sockaddr *)&from, len);
    }
}

static void read_lines(const char *path)
{
    FILE *file = fopen(path, "r");
    size_t room = 0, size = 0;
    if (!file) fail("serve-client: lines");
    for (;;) {
        char *line = NULL;
        ssize_t len = getline(&line, &size, file);
        size = 0;
        if (len < 0) break;
        if (len > 0 && line[len - 1] == '\n') line[len - 1] = 0;
        if (line_count == room) lines = realloc(lines, (room = 2 * room + 1024) * sizeof *lines);
        lines[line_count++] = line;
    }
    fclose(file);
}

static void send_line(struct place *place, struct pollfd *fds, double moment)
{
    const char *line = lines[place->next];
    size_t len = strlen(line);
    place->sent = moment;
#ifdef SEALED
    static uint64_t last;
    static uint8_t datagram[512];
    if (sealing.way == WAKDULG_SEALED) {
        struct timespec time;
        clock_gettime(CLOCK_REALTIME, &time);
        uint64_t micros = (uint64_t)time.tv_sec * 1000000 + (uint64_t)time.tv_nsec / 1000;
        last = micros > last ? micros : last + 1;
        len = wakdulg_seal(&sealing, 1, (uint8_t)place->node, last, NULL, (const uint8_t *)line, len, datagram);
        line = (const char *)datagram;
    }
#endif
    if (send(fds[place->client].fd, line, len, 0) < 0) fail("serve-client: send");
}

static void begin_line(struct place *place, struct pollfd *fds)
{
    place->begun = now();
    send_line(place, fds, place->begun);
}

/* Whether an answer is to a line: its second word is that of the line. */
static int is_answer_to(const char *answer, const char *line)
{
    const char *nonce = strchr(line, ' ');
    const char *name = strchr(answer, ' ');
    size_t len = nonce ? strcspn(nonce + 1, " ") : 0;
    return name && strncmp(name, nonce, len + 1) == 0 && name[len + 1] == ' ';
}

/* Takes what came to a client. Its place among these, or NULL where it is no answer that is waited for. */
static struct place *take_answer(struct place *place, size_t places, size_t client, struct pollfd *fds, double moment)
{
    char answer[513];
    ssize_t got = recv(fds[client].fd, answer, sizeof answer - 1, 0);
    if (got < 0) fail("serve-client: recv");
#ifdef SEALED
    if (sealing.way == WAKDULG_SEALED && got >= 47) memmove(answer, answer + 15, (size_t)(got -= 47));
#endif
    answer[got] = 0;
    for (size_t k = 0; k < places; k++) {
        if (place[k].client != client || !is_answer_to(answer, lines[place[k].next])) continue;
        if (ok_count + other_count < MAX_ANSWERS) times[ok_count + other_count] = moment - place[k].begun;
        if (strncmp(answer, "OK ", 3) == 0) ok_count++;
        else other_count++;
        return &place[k];
    }
    return NULL;
}

/* Asks until the end. How long it slept in the turns of the other. */
static double ask(double seconds, int turn, size_t clients, size_t places, struct place *place, struct pollfd *fds)
{
    double end = now() + seconds, slept = await_turn(turn);
    for (size_t k = 0; k < places; k++) begin_line(&place[k], fds);
    for (;;) {
        poll(fds, clients, 50);
        double moment = now();
        if (moment >= end) return slept;
        for (size_t k = 0; k < clients; k++) {
            struct place *answered = fds[k].revents ? take_answer(place, places, k, fds, moment) : NULL;
            if (!answered) continue;
            answered->next += places;
            if (answered->next >= line_count) return slept;
            slept += await_turn(turn);
            begin_line(answered, fds);
        }
        for (size_t k = 0; k < places; k++) {
            if (moment - place[k].sent <= PATIENCE) continue;
            resent_count++;
            send_line(&place[k], fds, moment);
        }
    }
}

static int compare(const void *a, const void *b)
{
    double x = *(const double *)a, y = *(const double *)b;
    return (x > y) - (x < y);
}

static void report(double seconds)
{
    size_t count = ok_count + other_count;
    struct rusage usage;
    getrusage(RUSAGE_SELF, &usage);
    if (count > MAX_ANSWERS) count = MAX_ANSWERS;
    qsort(times, count, sizeof *times, compare);
    double median = count ? times[count / 2] : 0, late = count ? times[count * 99 / 100] : 0;
    printf("%zu %zu %zu %.3f %.0f %.0f %.0f %.3f\n", ok_count, other_count, resent_count, seconds, 1e6 * median,
           1e6 * late, count ? 1e6 * times[count - 1] : 0.0,
           (double)(usage.ru_utime.tv_sec + usage.ru_stime.tv_sec)
               + (double)(usage.ru_utime.tv_usec + usage.ru_stime.tv_usec) / 1e6);
}

int main(int argc, char **argv)
{
    static struct place place[MAX_PLACES];
    static struct pollfd fds[MAX_PLACES];
    if (argc == 3 && strcmp(argv[1], "echo") == 0) echo(argv[2]);
    if (argc < 7 || strcmp(argv[1], "ask") != 0) {
        fprintf(stderr, "serve-client ask SECONDS TURN CLIENTS LINES PORT.. | echo PORT\n");
        return 2;
    }
    size_t clients = 1, each = 1;
    sscanf(argv[4], "%zux%zu", &clients, &each);
    size_t places = clients * each;
    read_lines(argv[5]);
    times = malloc(MAX_ANSWERS * sizeof *times);
    if (places == 0 || places > MAX_PLACES || places > line_count || !times) return 2;
    for (size_t k = 0; k < clients; k++) {
        struct sockaddr_in address = loopback(argv[6 + k % (size_t)(argc - 6)]);
        fds[k] = (struct pollfd){ .fd = socket(AF_INET, SOCK_DGRAM, 0), .events = POLLIN };
        if (connect(fds[k].fd, (struct sockaddr *)&address, sizeof address) < 0) fail("serve-client: connect");
    }
    for (size_t k = 0; k < places; k++) {
        size_t client = k % clients;
        place[k] = (struct place){ .client = client, .node = 1 + client % (size_t)(argc - 6), .next = k };
    }
#ifdef SEALED
    const char *key = getenv("CLIENT_KEY");
    if (wakdulg_set_nodes(&sealing, "127.0.0.1:1") < 0 || (key && wakdulg_set_key(&sealing, key) < 0)) return 2;
#endif
    double start = now();
    double slept = ask(atof(argv[2]), atoi(argv[3]), clients, places, place, fds);
    report(now() - start - slept);
    return 0;
}
