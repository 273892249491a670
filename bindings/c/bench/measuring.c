/* How operations are measured: by turns with their floors, in a hundred batches, of which the fastest ones count. */
#include "bench.h"
#include <stdio.h>

uint64_t one_in(uint64_t rounds, uint64_t part) {
    return rounds / part > 0 ? rounds / part : 1;
}

uint64_t batch(const struct lines *lines, uint64_t part) {
    return one_in(one_in(lines->rounds, part), 10);
}

uint64_t timed(struct work work, uint64_t rounds) {
    uint64_t start = now();
    work.repeat(work.of, rounds);
    return now() - start;
}

uint64_t fastest(struct work work, uint64_t rounds) {
    uint64_t least = UINT64_MAX;
    for (int i = 0; i < BATCHES; i++) {
        uint64_t taken = timed(work, rounds);
        if (taken < least) least = taken;
    }
    return least;
}

/* What one of four threads makes. */
struct share {
    struct work work;
    uint64_t rounds;
};

static void *run(void *given) {
    struct share *it = given;
    it->work.repeat(it->work.of, it->rounds);
    return NULL;
}

uint64_t timed_by_four(const struct work works[FOUR], uint64_t rounds) {
    struct share shares[FOUR];
    pthread_t threads[FOUR];
    for (int i = 0; i < FOUR; i++) shares[i] = (struct share){works[i], rounds};
    uint64_t since = now();
    for (int i = 0; i < FOUR; i++) start(&threads[i], run, &shares[i]);
    for (int i = 0; i < FOUR; i++) await(threads[i]);
    return now() - since;
}

double each_of(uint64_t amount, uint64_t parts) {
    return (double)amount / (double)(parts ? parts : 1);
}

void measure(const struct lines *lines, const char *name, uint64_t part, struct work floor, struct work operation) {
    uint64_t rounds = batch(lines, part), least = UINT64_MAX, taken = UINT64_MAX;
    for (int i = 0; i < BATCHES; i++) {
        uint64_t below = timed(floor, rounds), above = timed(operation, rounds);
        if (below < least) least = below;
        if (above < taken) taken = above;
    }
    line(lines, name, rounds, taken, least);
}

void line(const struct lines *lines, const char *name, uint64_t rounds, uint64_t taken, uint64_t least) {
    if (lines->rounds == 0) return;
    printf("%s %s %.2f %.2f\n", name, lines->geometry->name, each_of(taken, rounds), each_of(taken, least));
}
