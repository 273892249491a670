/* What a thread makes again and again: updates, lists of changes, and counting in a tally, which is published now and then. */
#include "bench.h"
#include <stdio.h>

/* Registers all counters of the board, as one family, and a histogram. */
static void fill(struct board *it, const struct geometry *geometry) {
    const char *const label = "n";
    char digits[24];
    const char *const value = digits;
    uint64_t bounds[BOUNDS];
    dirgwako_counter_family family;
    bounds_of(bounds);
    want(dirgwako_counter_family_new(&it->registry, "counts_total", "Counts.", &label, 1, 0, 0, &family));
    for (size_t i = 0; i < geometry->counters; i++) {
        snprintf(digits, sizeof digits, "%03zu", i);
        want(dirgwako_counter_of(&it->registry, &family, &value, 1, &it->counters[i]));
    }
    want(dirgwako_histogram_new(&it->registry, "sizes", "Sizes.", bounds, TEN, &it->all[0].sizes));
}

struct board *board_open(const struct geometry *geometry) {
    static struct board it;
    memset(&it, 0, sizeof it);
    it.workers = geometry->workers;
    want(dirgwako_registry_new(&it.registry, 1));
    fill(&it, geometry);
    for (size_t i = 0; i < it.workers; i++) {
        it.all[i].counters = it.counters;
        it.all[i].count = geometry->counters;
        it.all[i].room = geometry->changes < ROOM ? geometry->changes : ROOM;
        it.all[i].sizes = it.all[0].sizes;
        want(dirgwako_recorder_take(&it.registry, &it.all[i].recorder));
    }
    return &it;
}

void board_close(struct board *it) {
    for (size_t i = 0; i < it->workers; i++) want(dirgwako_recorder_free(&it->all[i].recorder));
    want(dirgwako_registry_free(&it->registry));
}

/* Each thread has the list of the first one. */
static void list_all(struct board *it, size_t count) {
    for (size_t i = 0; i < it->workers; i++) {
        memcpy(it->all[i].changes, it->all[0].changes, sizeof it->all[0].changes);
        it->all[i].listed = count;
    }
}

void list_incs(struct board *it, size_t count) {
    for (size_t k = 0; k < count; k++) it->all[0].changes[k] = dirgwako_change_inc(&it->counters[k], 1);
    list_all(it, count);
}

void list_observes(struct board *it, size_t count) {
    for (size_t k = 0; k < count; k++) it->all[0].changes[k] = dirgwako_change_observe(&it->all[0].sizes, bound(k));
    list_all(it, count);
}

void inc(void *of, uint64_t rounds) {
    struct counting *it = of;
    for (uint64_t i = 0; i < rounds; i++) want(dirgwako_inc(&it->recorder, it->counters, 1));
}

void inc_next(void *of, uint64_t rounds) {
    struct counting *it = of;
    for (uint64_t i = 0; i < rounds; i++) want(dirgwako_inc(&it->recorder, &it->counters[i % it->count], 1));
}

void observe(void *of, uint64_t rounds) {
    struct counting *it = of;
    for (uint64_t i = 0; i < rounds; i++) want(dirgwako_observe(&it->recorder, &it->sizes, 7));
}

void publish(void *of, uint64_t rounds) {
    struct counting *it = of;
    for (uint64_t i = 0; i < rounds; i++) want(dirgwako_publish(&it->recorder, it->changes, it->listed));
}

/* The barrier keeps the compiler from adding up a whole loop at once. */
void tally_inc(void *of, uint64_t rounds) {
    struct counting *it = of;
    dirgwako_change tally = dirgwako_change_inc(it->counters, 0);
    for (uint64_t i = 0; i < rounds; i++) {
        tally.by++;
        __asm__ volatile("" : "+m"(tally.by));
        if (tally.by == 1000) {
            want(dirgwako_publish(&it->recorder, &tally, 1));
            tally.by = 0;
        }
    }
    want(dirgwako_publish(&it->recorder, &tally, 1));
}

void tally_observe(void *of, uint64_t rounds) {
    struct counting *it = of;
    dirgwako_change tally[ROOM];
    size_t many = 0;
    for (uint64_t i = 0; i < rounds; i++) {
        tally[many++] = dirgwako_change_observe(&it->sizes, 7);
        if (many == it->room) {
            want(dirgwako_publish(&it->recorder, tally, many));
            many = 0;
        }
    }
    want(dirgwako_publish(&it->recorder, tally, many));
}

uint64_t by_four(struct board *it, void (*repeat)(void *of, uint64_t rounds), uint64_t rounds) {
    struct work works[FOUR];
    for (size_t i = 0; i < FOUR; i++) works[i] = (struct work){repeat, &it->all[i]};
    return timed_by_four(works, rounds);
}
