/*
 * Times purdolve_nearest and purdolve_within through the static library, which have no Rust beside them:
 *
 *     cc -O2 -I bindings/c bench/near.c crates/exports/out/libexports.a -lm -o target/near && target/near
 *
 * All references are kept and lie anywhere on a card of side 1,024. The radius takes all of them, so that all are sorted.
 * Printed: references, and processor microseconds of one call, the median of 101.
 */
#define _POSIX_C_SOURCE 199309L
#include "purdolve.h"
#include <stdio.h>
#include <stdlib.h>
#include <time.h>

enum { MOST = 16384, CALLS = 101 };

static float xy[2 * MOST];
static uint8_t kept[MOST];
static uint32_t out[MOST];

static double now(void) {
    struct timespec t;
    clock_gettime(CLOCK_THREAD_CPUTIME_ID, &t);
    return (double)t.tv_sec * 1e6 + (double)t.tv_nsec / 1e3;
}

static int less(const void *a, const void *b) {
    double x = *(const double *)a, y = *(const double *)b;
    return (x > y) - (x < y);
}

/* The median of the calls, each at another module. */
static double median(size_t n, int all) {
    double took[CALLS];
    for (int i = 0; i < CALLS; i++) {
        int32_t x = i * 10, y = 1000 - i * 9;
        double start = now();
        purdolve_number_answer r =
            all ? purdolve_within(xy, 2 * n, kept, n, 1024, x, y, 2000, out, n)
                : purdolve_nearest(xy, 2 * n, kept, n, 1024, x, y, out, n);
        took[i] = now() - start;
        if (r.number != 0 || r.value != (all ? n : 3)) {
            exit(1);
        }
    }
    qsort(took, CALLS, sizeof took[0], less);
    return took[CALLS / 2];
}

int main(void) {
    static const size_t counts[] = {64, 512, 4096, 16384};
    uint32_t seed = 1;
    for (size_t i = 0; i < 2 * MOST; i++) {
        seed = seed * 1664525u + 1013904223u;
        xy[i] = (float)(seed >> 8) / 16384.0f;
    }
    for (size_t i = 0; i < MOST; i++) {
        kept[i] = 1;
    }
    for (size_t i = 0; i < 4; i++) {
        printf("%6zu references: nearest %9.1f us, within %9.1f us\n", counts[i],
               median(counts[i], 0), median(counts[i], 1));
    }
    return 0;
}
