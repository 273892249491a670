/* The test of many threads on many boards: all threads that the library was built for count pairs on each of 40 boards, while the main thread
   scrapes; less often where there are many threads, which take turns on few processors. */
#include "test.h"
#include <pthread.h>
#include <stdio.h>

enum { MOST_THREADS = 32, BOARDS = 40, SCRAPES = 50 };

struct thread {
    dirgwako_recorder recorder;
    uint32_t answer;
    int ended;
};

static dirgwako_registry registry;
static struct thread all[MOST_THREADS];
static struct {
    dirgwako_counter a, b;
} pairs[BOARDS];
static dirgwako_abi abi;
static int rounds;

/* Counts one on both counters of each board in one version, and so on. */
static void *count(void *given) {
    struct thread *it = given;
    for (int i = 0; i < rounds * BOARDS && !it->answer; i++) {
        const int board = i % BOARDS;
        const dirgwako_change both[2] = {dirgwako_change_inc(&pairs[board].a, 1), dirgwako_change_inc(&pairs[board].b, 1)};
        it->answer = dirgwako_publish(&it->recorder, both, 2);
    }
    __atomic_store_n(&it->ended, 1, __ATOMIC_RELEASE);
    return NULL;
}

/* A counter of the group of a board. */
static void counter_of(const char *front, int board, dirgwako_counter *counter) {
    dirgwako_counter_family family;
    char name[32];
    snprintf(name, sizeof name, "%s%02d_total", front, board);
    is("family", dirgwako_counter_family_new(&registry, name, "", NULL, 0, 0, (size_t)board, &family), 0);
    is("counter", dirgwako_counter_of(&registry, &family, NULL, 0, counter), 0);
}

/* A pair on each board, and a recorder of each worker. */
static void begin(void) {
    size_t number = 0;
    is("built for", dirgwako_built_for(&abi), 0);
    rounds = abi.workers > 4 ? 500 : 4000;
    is("new", dirgwako_registry_new(&registry, 2), 0);
    for (int i = 0; i < BOARDS; i++) {
        if (i) is("a board", dirgwako_board_add(&registry, &number), 0);
        counter_of("a", i, &pairs[i].a);
        counter_of("b", i, &pairs[i].b);
        is("its board", dirgwako_board_of(&registry, pairs[i].a.registry, &number), 0);
        is("is its own", (long long)number, i);
        is("and that of both", pairs[i].a.registry == pairs[i].b.registry, 1);
    }
    for (size_t i = 0; i < abi.workers; i++) is("take", dirgwako_recorder_take(&registry, &all[i].recorder), 0);
}

/* Whether the pair of some board does not agree in the last text. */
static int is_torn(size_t len) {
    char a[32], b[32];
    int torn = 0;
    for (int i = 0; i < BOARDS; i++) {
        snprintf(a, sizeof a, "a%02d_total", i);
        snprintf(b, sizeof b, "b%02d_total", i);
        if (number(text, len, a) < 0 || number(text, len, a) != number(text, len, b)) torn = 1;
    }
    return torn;
}

/* Whether all threads have ended. */
static int have_ended(void) {
    for (size_t i = 0; i < abi.workers; i++) {
        if (!__atomic_load_n(&all[i].ended, __ATOMIC_ACQUIRE)) return 0;
    }
    return 1;
}

/* Scrapes until all threads have ended, and 50 times at least: in each scrape each pair agrees, and one of ten is given up at most. */
static void scrapes(void) {
    long long tried = 0, torn = 0, given_up = 0;
    while (tried < SCRAPES || !have_ended()) {
        size_t len = 0;
        uint32_t answer = dirgwako_scrape(&registry, text, sizeof text, &len);
        tried++;
        if (answer == 14) given_up++;
        else if (answer) is("scrape", answer, 0);
        else torn += is_torn(len);
    }
    is("torn scrapes", torn, 0);
    is("hardly any is given up", 10 * given_up <= tried, 1);
}

/* Exact totals of each board. */
static void settle(void) {
    static uint64_t read[DIRGWAKO_MOST_NUMBERS];
    uint64_t total = 0;
    size_t len = 0, missing = 0;
    for (size_t i = 0; i < abi.workers; i++) is("give back", dirgwako_recorder_give_back(&registry, &all[i].recorder), 0);
    for (int i = 0; i < BOARDS; i++) {
        is("settle", dirgwako_settle(&registry, (size_t)i, read, DIRGWAKO_MOST_NUMBERS, &len, &missing), 0);
        is("a", dirgwako_counter_total(read, len, &pairs[i].a, &total), 0);
        is("its total", (long long)total, (long long)abi.workers * rounds);
        is("b", dirgwako_counter_total(read, len, &pairs[i].b, &total), 0);
        is("its total", (long long)total, (long long)abi.workers * rounds);
    }
}

void crowd(void) {
    pthread_t run[MOST_THREADS];
    size_t len = 0;
    begin();
    for (size_t i = 0; i < abi.workers; i++) is("thread", pthread_create(&run[i], NULL, count, &all[i]), 0);
    scrapes();
    for (size_t i = 0; i < abi.workers; i++) {
        is("join", pthread_join(run[i], NULL), 0);
        is("counted", all[i].answer, 0);
    }
    is("scrape", dirgwako_scrape(&registry, text, sizeof text, &len), 0);
    is("the last scrape", is_torn(len), 0);
    settle();
    is("free", dirgwako_registry_free(&registry), 0);
}
