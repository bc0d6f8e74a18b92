/* Turns: two programs on one disk that work one after the other, a tenth of a second each, so that what else the disk
 * has to do in a minute hits both alike. */
#include <time.h>

static const double TURN_SECONDS = 0.1;

static double now(void)
{
    struct timespec t;
    clock_gettime(CLOCK_MONOTONIC, &t);
    return (double)t.tv_sec + (double)t.tv_nsec / 1e9;
}

/* Sleeps until it is the turn of this one, which is 1 or 2, or 0 where it has no other. How long it slept. */
static double await_turn(int who)
{
    double start = now(), place = start - 2 * TURN_SECONDS * (double)(long)(start / (2 * TURN_SECONDS));
    double until = who == 1 ? 2 * TURN_SECONDS : TURN_SECONDS;
    if (who == 0 || (who == 1) == (place < TURN_SECONDS)) return 0;
    struct timespec pause = { .tv_nsec = (long)((until - place) * 1e9) };
    nanosleep(&pause, NULL);
    return now() - start;
}
