/* What a program that is counted shares: the marks around a call, and one call counted or timed.
     PROGRAM count   each call once between two marks; standard output names the calls in their order
     PROGRAM time    each call many times; standard output names the calls, each with its nanoseconds */
#ifndef MARKS_H
#define MARKS_H
#include <stdio.h>
#include <string.h>
#include <time.h>

/* ---- the marks: a counting run adds up what lies between mark_begin and mark_end */
#ifdef CALLGRIND
#include <valgrind/callgrind.h>
#define mark_begin() CALLGRIND_ZERO_STATS
#define mark_end() CALLGRIND_DUMP_STATS
#else
__attribute__((noinline)) void mark_begin(void) { __asm__ volatile("" ::: "memory"); }
__attribute__((noinline)) void mark_end(void) { __asm__ volatile("" ::: "memory"); }
#endif

static int timing;

static double now(void) {
    struct timespec t;
    clock_gettime(CLOCK_MONOTONIC, &t);
    return (double)t.tv_sec * 1e9 + (double)t.tv_nsec;
}

/* one call: counted once, or timed, the best of many rounds */
#define MEASURE(SIDE, NAME, CALL)                                              \
    do {                                                                       \
        if (!timing) {                                                         \
            mark_begin();                                                      \
            CALL;                                                              \
            mark_end();                                                        \
            printf("%s\t%s\n", SIDE, NAME);                                    \
            break;                                                             \
        }                                                                      \
        double best = 1e30;                                                    \
        for (int round = 0; round < 20; round++) {                             \
            double from = now();                                               \
            for (int k = 0; k < 50; k++) CALL;                                 \
            double each = (now() - from) / 50;                                 \
            if (each < best) best = each;                                      \
        }                                                                      \
        printf("%s\t%s\t%.0f\n", SIDE, NAME, best);                            \
    } while (0)

#endif
