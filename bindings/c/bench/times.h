/* How long updates took: their number in each step of ten nanoseconds, and the longest. */
#ifndef DIRGWAKO_BENCH_TIMES_H
#define DIRGWAKO_BENCH_TIMES_H

#include <stdint.h>

/* How many nanoseconds a step has, and how many steps there are. The last one has all that took longer. */
enum { STEP = 10, STEPS = 100000 };

struct times {
    uint64_t *counts, longest;
};

/* No update yet; the memory of it is given back. */
void times_open(struct times *it);
void times_close(struct times *it);

/* An update took so many nanoseconds. */
static inline void times_note(struct times *it, uint64_t nanos) {
    uint64_t step = nanos / STEP;
    it->counts[step < STEPS ? step : STEPS - 1]++;
    if (nanos > it->longest) it->longest = nanos;
}

/* All updates of the other, too. */
void times_add(struct times *it, const struct times *other);

/* The nanoseconds that all updates but so many in a thousand took at most: the end of their step, or the longest time if that is less, or if it is
   the last step. */
uint64_t times_all_but(const struct times *it, uint64_t in_a_thousand);

#endif
