/* `bench torn`: scrapes while another thread counts without rest. Is each of them of one moment?

   Whatever the moment, of the five numbers `a_total`, `b_total`, `c_bytes_count`, `d_total{child="1"}` and `d_total{child="2"}` none is above the one
   before it, and the first one is at most 1 above the last. Where a round is one version, all five are equal. Each bucket of `c_bytes` equals its
   count, and its sum is 7 times its count. */
#include "bench.h"
#include <sched.h>
#include <stdio.h>
#include <stdlib.h>

enum { CHAIN = 5 };

/* The thread that counts: the changes of a round, in order, and what it and the one that scrapes tell each other. */
struct counter {
    _Alignas(128) dirgwako_recorder recorder;
    dirgwako_change chain[CHAIN];
    int is_apart;
    atomic_bool has_begun, is_to_end;
};

/* Registers what is counted. */
static void chain_of(dirgwako_registry *registry, dirgwako_change chain[CHAIN]) {
    static const uint64_t bounds[2] = {10, 100};
    static const char *const label = "child", *const values[2] = {"1", "2"};
    dirgwako_counter_family family;
    dirgwako_counter a, b, d, e;
    dirgwako_histogram c;
    want(dirgwako_counter_family_new(registry, "d_total", "Children.", &label, 1, 0, 0, &family));
    want(dirgwako_counter_new(registry, "a_total", "First.", &a));
    want(dirgwako_counter_new(registry, "b_total", "Second.", &b));
    want(dirgwako_histogram_new(registry, "c_bytes", "Bytes.", bounds, 2, &c));
    want(dirgwako_counter_of(registry, &family, &values[0], 1, &d));
    want(dirgwako_counter_of(registry, &family, &values[1], 1, &e));
    chain[0] = dirgwako_change_inc(&a, 1);
    chain[1] = dirgwako_change_inc(&b, 1);
    chain[2] = dirgwako_change_observe(&c, 7);
    chain[3] = dirgwako_change_inc(&d, 1);
    chain[4] = dirgwako_change_inc(&e, 1);
}

/* One round, whose changes are versions of their own, or one version together. */
static void count_round(struct counter *it) {
    size_t each = it->is_apart ? 1 : CHAIN;
    for (size_t at = 0; at < CHAIN; at += each) want(dirgwako_publish(&it->recorder, &it->chain[at], each));
}

/* Counts round after round. It tells when the first one is done, and ends when it is told to. */
static void *count(void *given) {
    struct counter *it = given;
    do {
        count_round(it);
        it->has_begun = 1;
    } while (!it->is_to_end);
    return NULL;
}

/* Prints a scrape behind a line of its own, and nothing behind that line where the scrape is given up (14). */
static void print_next(dirgwako_registry *registry, struct text *text) {
    uint32_t answer = scraped(registry, text);
    if (answer != 14) want(answer);
    printf("---\n");
    if (answer != 14) fwrite(text->at, 1, text->len, stdout);
}

int bench_torn(uint64_t scrapes, int is_apart) {
    static struct counter counter;
    dirgwako_registry registry = {0};
    struct text text = {0};
    pthread_t thread;
    want(dirgwako_registry_new(&registry, 1));
    want(dirgwako_recorder_take(&registry, &counter.recorder));
    chain_of(&registry, counter.chain);
    counter.is_apart = is_apart;
    start(&thread, count, &counter);
    while (!counter.has_begun) sched_yield();
    for (uint64_t i = 0; i < scrapes; i++) print_next(&registry, &text);
    counter.is_to_end = 1;
    await(thread);
    free(text.at);
    want(dirgwako_recorder_free(&counter.recorder));
    want(dirgwako_registry_free(&registry));
    return ended();
}
