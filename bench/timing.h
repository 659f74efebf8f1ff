/* Times for the programs of the bench. */
#include <time.h>

static double now(void)
{
    struct timespec t;
    clock_gettime(CLOCK_MONOTONIC, &t);
    return t.tv_sec * 1e6 + t.tv_nsec / 1e3;
}

/* the shortest time of a statement in microseconds, over 0.3 seconds and at least 3 turns */
#define SHORTEST(time, statement)                                   \
    do {                                                            \
        double begin = now();                                       \
        time = 1e300;                                               \
        for (int turn = 0; turn < 3 || now() - begin < 3e5; turn++) { \
            double start = now();                                   \
            statement;                                              \
            double taken = now() - start;                           \
            if (taken < time)                                       \
                time = taken;                                       \
        }                                                           \
    } while (0)
