/* The series of searches that both C programs run, as docs/REPLAY.md has it: its targets, its cost and its counts. */
#include <inttypes.h>
#include <stdint.h>
#include <stdio.h>
#include <stdlib.h>
#include <string.h>
#include <time.h>

#define MOST_AXES 8
#define LOW (-8.0)
#define HIGH 8.0
#define START 0.0
#define STEP 1.0
#define SMALL 1e-2 /* the size at which a library's search ends */
#define LONGEST 20000 /* evaluations of one search */

struct series {
    size_t axes;
    uint64_t wanted; /* evaluations to run in all */
    uint64_t done;
    uint64_t searches;
    uint64_t sum; /* of all costs, mod 2^64 */
    uint64_t state; /* of the generator, one for the whole series */
    double target[MOST_AXES];
};

static void next_search(struct series *s)
{
    for (size_t a = 0; a < s->axes; a++) {
        s->state ^= s->state << 13;
        s->state ^= s->state >> 7;
        s->state ^= s->state << 17;
        uint64_t bits = UINT64_C(0x3ff0000000000000) + (s->state >> 12);
        double u;
        memcpy(&u, &bits, sizeof u);
        s->target[a] = 8.0 * u - 12.0;
    }
    s->searches++;
}

/* the upper bits of 1 and the squared distance to the target: a quantized bowl */
static inline double evaluate(struct series *s, const double *x)
{
    double square = 1.0;
    for (size_t a = 0; a < s->axes; a++) {
        double d = x[a] - s->target[a];
        square = square + d * d;
    }
    uint64_t bits;
    memcpy(&bits, &square, sizeof bits);
    uint64_t cost = bits >> 40;
    s->done++;
    s->sum += cost;
    return (double)cost;
}

static struct series series_of(char **words)
{
    struct series s = {.axes = strtoul(words[1], NULL, 10), .wanted = strtoull(words[2], NULL, 10), .state = 1};
    if (s.axes < 1 || s.axes > MOST_AXES || s.wanted < 1) {
        fprintf(stderr, "axes are 1 to %d, evaluations at least 1\n", MOST_AXES);
        exit(2);
    }
    return s;
}

/* Runs one search after the other until enough evaluations are done, and prints evaluations, searches, the sum of costs and
   nanoseconds per evaluation. A search that evaluated nothing counts as one evaluation, so that the series ends. */
static void run_series(struct series *s, void (*search)(struct series *, void *), void *minimizer)
{
    struct timespec from, to;
    clock_gettime(CLOCK_MONOTONIC, &from);
    while (s->done < s->wanted) {
        uint64_t before = s->done;
        next_search(s);
        search(s, minimizer);
        if (s->done == before)
            s->done++;
    }
    clock_gettime(CLOCK_MONOTONIC, &to);
    double ns = (double)(to.tv_sec - from.tv_sec) * 1e9 + (double)(to.tv_nsec - from.tv_nsec);
    printf("%" PRIu64 " %" PRIu64 " %" PRIu64 " %.3f\n", s->done, s->searches, s->sum, ns / (double)s->done);
}
