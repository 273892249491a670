/* How long updates took. */
#include "times.h"
#include "bench.h"
#include <stdlib.h>

void times_open(struct times *it) {
    it->counts = zeros(STEPS, sizeof *it->counts);
    it->longest = 0;
}

void times_close(struct times *it) {
    free(it->counts);
    it->counts = NULL;
}

void times_add(struct times *it, const struct times *other) {
    for (size_t i = 0; i < STEPS; i++) it->counts[i] += other->counts[i];
    if (other->longest > it->longest) it->longest = other->longest;
}

/* How many updates were noted. */
static uint64_t all(const struct times *it) {
    uint64_t sum = 0;
    for (size_t i = 0; i < STEPS; i++) sum += it->counts[i];
    return sum;
}

uint64_t times_all_but(const struct times *it, uint64_t in_a_thousand) {
    uint64_t left = all(it) * in_a_thousand / 1000, end = UINT64_MAX;
    for (uint64_t step = STEPS; step-- > 0;) {
        if (it->counts[step] > left) return end < it->longest ? end : it->longest;
        left -= it->counts[step];
        end = step * STEP;
    }
    return 0;
}
