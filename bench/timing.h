// Times functions against each other, in turns. Included by the benchmarks.
#ifndef TIMING_H
#define TIMING_H

#include <stdint.h>
#include <stdlib.h>
#include <string.h>
#include <time.h>

enum { ROUNDS = 31, ROUND_CLOCKS = CLOCKS_PER_SEC / 500 };

// What is timed has one shape: a call, with what it works on.
typedef uint64_t (*Call)(const void *on);

// A function, how many calls of it make a round, and what one call took in each round.
typedef struct {
    Call call;
    long calls;
    double ns[ROUNDS];
} Timed;

// Of the rounds.
typedef struct {
    double least, median, worst;
} Spread;

static volatile uint64_t sink;

// CPU time for so many calls: while other programs run it stands still.
static inline clock_t clocks(Call call, const void *on, long calls) {
    clock_t start = clock();
    for (long i = 0; i < calls; i++) {
        sink += call(on);
    }
    return clock() - start;
}

// As many calls as take 2 ms or more.
static inline long enough(Call call, const void *on) {
    long calls = 1;
    while (clocks(call, on, calls) < ROUND_CLOCKS) {
        calls *= 2;
    }
    return calls;
}

// The functions take turns, round by round.
static inline void take_turns(Timed *timed, size_t count, const void *on) {
    for (size_t i = 0; i < count; i++) {
        timed[i].calls = enough(timed[i].call, on);
    }
    for (int k = 0; k < ROUNDS; k++) {
        for (Timed *t = timed; t < timed + count; t++) {
            t->ns[k] = (double)clocks(t->call, on, t->calls) / (double)t->calls * (1e9 / CLOCKS_PER_SEC);
        }
    }
}

static inline int ascending(const void *a, const void *b) {
    double x = *(const double *)a, y = *(const double *)b;
    return (x > y) - (x < y);
}

static inline Spread spread(const double *rounds) {
    double sorted[ROUNDS];
    memcpy(sorted, rounds, sizeof sorted);
    qsort(sorted, ROUNDS, sizeof sorted[0], ascending);
    return (Spread){sorted[0], sorted[ROUNDS / 2], sorted[ROUNDS - 1]};
}

// How many times as long the one takes as the other: of the quotients, round by round.
static inline Spread ratio(const Timed *one, const Timed *other) {
    double quotients[ROUNDS];
    for (int k = 0; k < ROUNDS; k++) {
        quotients[k] = one->ns[k] / other->ns[k];
    }
    return spread(quotients);
}

#endif
