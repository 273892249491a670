/* `bench page`: the series of one full board, or 11,500 series on a page of several, whose families have each one part, or parts on all boards that
   there are. It prints how long it takes to register them, one scrape with its text, an increment, increments of all boards in turn, and a read of
   each board. */
#include "series.h"
#include <inttypes.h>
#include <stdio.h>
#include <stdlib.h>

/* In so many rounds the children of a page that is spread are made; so many increments are in a batch. */
enum { TURNS = 250, INCREMENTS = 4000, MOST_BOARDS = 96 };

struct page {
    dirgwako_registry registry;
    dirgwako_recorder recorder;
    struct family *families;
    size_t count;
    /* A counter of each board, the first that comes. */
    dirgwako_counter firsts[MOST_BOARDS];
    size_t boards;
};

/* Registers each family in a group, and makes its children before the next one is registered. */
static void register_whole(struct page *it) {
    struct child child;
    for (size_t i = 0; i < it->count; i++) {
        struct family *family = &it->families[i];
        family_register(&it->registry, family, family->number);
        for (size_t number = 0; number < family->children; number++) child_of(&it->registry, family, number, &child);
    }
}

/* Makes a child of each family in this round, or of those with fewer children in one of several. */
static void make_round(struct page *it, size_t round) {
    struct child child;
    for (size_t i = 0; i < it->count; i++) {
        size_t each = TURNS / it->families[i].children;
        if (round % each == 0) child_of(&it->registry, &it->families[i], round / each, &child);
    }
}

/* Registers all families in one group, and makes their children by turns, while boards come one by one. */
static void register_spread(struct page *it) {
    for (size_t i = 0; i < it->count; i++) family_register(&it->registry, &it->families[i], 0);
    for (size_t round = 0; round < TURNS; round++) make_round(it, round);
}

/* Keeps a counter of each board. */
static void keep_first(struct page *it, const dirgwako_counter *counter) {
    for (size_t i = 0; i < it->boards; i++) {
        if (it->firsts[i].registry == counter->registry) return;
    }
    if (it->boards < MOST_BOARDS) it->firsts[it->boards++] = *counter;
}

/* Counts all. */
static void count(struct page *it) {
    struct child child;
    for (size_t i = 0; i < it->count; i++) {
        const struct family *family = &it->families[i];
        for (size_t number = 0; number < family->children; number++) {
            child_of(&it->registry, family, number, &child);
            child_count(&it->recorder, family, number, &child);
            if (family->kind == COUNTER) keep_first(it, &child.counter);
        }
    }
}

/* Registers and counts all; the nanoseconds of registering. Where each family is on one board, all boards are made before. */
static uint64_t open_page(struct page *it, enum layout layout) {
    struct geometry geometry = linked();
    const struct series *series = layout == ONE ? &of_board : &of_page;
    size_t number;
    uint64_t since;
    it->count = families_of(series, &it->families);
    want(dirgwako_registry_new(&it->registry, WINDOW));
    want(dirgwako_recorder_take(&it->registry, &it->recorder));
    for (size_t i = boards_for(series, &geometry); layout == WHOLE && i > 1; i--) want(dirgwako_board_add(&it->registry, &number));
    since = now();
    if (layout == SPREAD) register_spread(it);
    else register_whole(it);
    since = now() - since;
    count(it);
    return since;
}

static void close_page(struct page *it) {
    free(it->families);
    want(dirgwako_recorder_free(&it->recorder));
    want(dirgwako_registry_free(&it->registry));
}

/* Increments of one counter, or of one of each board in turn. */
static void inc_one(void *of, uint64_t rounds) {
    struct page *it = of;
    for (uint64_t i = 0; i < rounds; i++) want(dirgwako_inc(&it->recorder, &it->firsts[0], 1));
}

static void inc_in_turn(void *of, uint64_t rounds) {
    struct page *it = of;
    size_t at = 0;
    for (uint64_t i = 0; i < rounds; i++) {
        want(dirgwako_inc(&it->recorder, &it->firsts[at], 1));
        at = at + 1 < it->boards ? at + 1 : 0;
    }
}

/* A read of each board by itself. */
static void read_each(void *of, uint64_t rounds) {
    static uint64_t numbers[DIRGWAKO_MOST_NUMBERS];
    struct page *it = of;
    size_t boards, len;
    want(dirgwako_boards(&it->registry, &boards));
    for (uint64_t i = 0; i < rounds; i++) {
        for (size_t k = 0; k < boards; k++) want(dirgwako_read(&it->registry, k, numbers, DIRGWAKO_MOST_NUMBERS, &len));
    }
}

static int ascending(const void *one, const void *other) {
    uint64_t a = *(const uint64_t *)one, b = *(const uint64_t *)other;
    return (a > b) - (a < b);
}

/* Does it so often, and prints the nanoseconds of the fastest time and of the median. */
static void print_times(const char *name, size_t times, struct work work) {
    uint64_t *taken = zeros(times, sizeof *taken);
    for (size_t i = 0; i < times; i++) taken[i] = timed(work, 1);
    qsort(taken, times, sizeof *taken, ascending);
    printf("%s %" PRIu64 " %" PRIu64 "\n", name, taken[0], taken[times / 2]);
    free(taken);
}

/* Prints what it takes, behind as many scrapes as the registry keeps. */
static void print_page(struct page *it, struct gathering *gathering, uint64_t registered, size_t times) {
    printf("register %" PRIu64 "\n", registered);
    gather_often(gathering, WINDOW);
    print_times("gather", times, (struct work){gather_often, gathering});
    printf("bytes %zu\n", gathering->text.len);
    printf("inc %.2f\n", each_of(fastest((struct work){inc_one, it}, INCREMENTS), INCREMENTS));
    printf("inc_in_turn %.2f\n", each_of(fastest((struct work){inc_in_turn, it}, INCREMENTS), INCREMENTS));
    print_times("reads", times, (struct work){read_each, it});
}

int bench_page(size_t scrapes, enum layout layout) {
    static struct page it;
    struct gathering gathering = {&it.registry, {0}};
    uint64_t registered = open_page(&it, layout);
    if (scrapes) {
        print_page(&it, &gathering, registered, scrapes);
    } else {
        gather_often(&gathering, 1);
        fwrite(gathering.text.at, 1, gathering.text.len, stdout);
    }
    free(gathering.text.at);
    close_page(&it);
    return ended();
}
