// How tn_bench measures too: the fastest of eight rounds of at least 60 ms.
#include <stddef.h>
#include <stdio.h>
#include <time.h>

// What time is taken by: a program that never waits takes that of its thread, so that it can be run beside others.
#ifndef MEASURE_BY
#define MEASURE_BY CLOCK_MONOTONIC
#endif

// What was done: bytes handed in, and wholes that came out.
struct done {
    double bytes, wholes;
};

static double seconds(void) {
    struct timespec now;
    clock_gettime(MEASURE_BY, &now);
    return now.tv_sec + now.tv_nsec / 1e9;
}

static void tell(const char *name, struct done (*once)(void *), void *load) {
    struct done best = {0, 0};
    double fastest = 0;
    int round;
    for (round = 0; round < 8; round++) {
        struct done sum = {0, 0}, more;
        double begin = seconds(), taken;
        do {
            more = once(load);
            sum.bytes += more.bytes, sum.wholes += more.wholes;
            taken = seconds() - begin;
        } while (taken < 0.06);
        if (round == 0 || taken / sum.bytes < fastest) fastest = taken / sum.bytes, best = (struct done){1, sum.wholes / sum.bytes};
    }
    printf("%s: %.1f MB/s, %.0f /s, %.2f ns per byte\n", name, 1e-6 / fastest, best.wholes / fastest, fastest * 1e9);
    fflush(stdout);
}
