/* What the files of the bench share. */
#ifndef DIRGWAKO_BENCH_H
#define DIRGWAKO_BENCH_H

#include <dirgwako.h>
#include <pthread.h>
#include <stdatomic.h>
#include <stddef.h>
#include <stdint.h>

/* How many batches a measurement has; how many threads count or answer at once; how many changes a list has; how many values a tally has room for;
   how many increments a long list has at most; how many scrapes a registry keeps that is scraped; how many children a family of a service has; how
   many bounds there are; the most threads and counters of a board. */
enum { BATCHES = 100, FOUR = 4, TEN = 10, ROOM = 64, LISTED = 100, WINDOW = 64, CHILDREN = 8, BOUNDS = 24, MOST_WORKERS = 32, MOST_COUNTERS = 256 };

/* The greatest number that the arguments may have. */
#define MOST 1000000000

/* shared.c: what may fail, memory, time and threads. */

/* Ends the program with status 1, and says why. */
void fail(const char *what);

/* Ends the program with the words of a refusal. */
void refused(uint32_t answer);

/* Ends the program where something is refused. */
static inline void want(uint32_t answer) {
    if (answer) refused(answer);
}

/* Memory for so many things, all zeros, or the program ends. */
void *zeros(size_t count, size_t each);

/* Other memory of so many bytes in the place of this, or the program ends. */
void *grown(void *old, size_t bytes);

/* The nanoseconds of a clock that never goes back. */
uint64_t now(void);

/* Starts a thread, or ends the program; waits until it has ended. */
void start(pthread_t *thread, void *(*run)(void *), void *given);
void await(pthread_t thread);

/* The exit status of a program that has done all: 1 where standard output is not all written, which it tells. */
int ended(void);

/* A text that grows. */
struct text {
    char *at;
    size_t room, len;
};

/* The text of a scrape, in memory that grows where it is too short. The answer of the library, where it is another than that. */
uint32_t scraped(dirgwako_registry *registry, struct text *text);

/* The same of a reply to a request. */
uint32_t replied(dirgwako_registry *registry, const char *request, size_t len, struct text *text);

/* geometry.c: what the linked library was built for. */

struct geometry {
    size_t workers, counters, histograms, gauges;
    /* The words of a row. */
    size_t words;
    /* The most changes of a list. */
    size_t changes;
    /* `N,C,H,G`. */
    char name[64];
};

/* That of the linked library, which is the header's own, for four threads, ten counters and a histogram at least: else the program ends. */
struct geometry linked(void);

/* measuring.c: operations beside their floors. */

/* What is made again and again: an operation, or a floor. */
struct work {
    void (*repeat)(void *of, uint64_t rounds);
    void *of;
};

/* What measures: the rounds of the cheapest operations, and the second column. With no rounds each batch has one, and nothing is printed. */
struct lines {
    uint64_t rounds;
    const struct geometry *geometry;
};

/* The nanoseconds of so many rounds. */
uint64_t timed(struct work work, uint64_t rounds);

/* The nanoseconds of so many rounds of four threads at once, each of which has its work, until all have ended. */
uint64_t timed_by_four(const struct work works[FOUR], uint64_t rounds);

/* The fastest batch of so many rounds of a hundred. */
uint64_t fastest(struct work work, uint64_t rounds);

/* One in so many of these rounds, and at least one. */
uint64_t one_in(uint64_t rounds, uint64_t part);

/* The rounds of a batch: a tenth of one in so many, and at least one. */
uint64_t batch(const struct lines *lines, uint64_t part);

/* Measures an operation and its floor by turns, in batches of as many rounds as `part` says, and prints the line. */
void measure(const struct lines *lines, const char *name, uint64_t part, struct work floor, struct work operation);

/* Prints the line of a measurement, whose floor is `least`. */
void line(const struct lines *lines, const char *name, uint64_t rounds, uint64_t taken, uint64_t least);

/* The amount for each of `parts`. */
double each_of(uint64_t amount, uint64_t parts);

/* floors.c: as many loads and stores of plain atomic numbers as an operation makes, and as many words or bytes of plain memory copied. */

/* A number 128 bytes from the next one, as the numbers of a board's segments are in cache lines of their own. */
struct number {
    _Atomic uint64_t at;
    uint64_t rest[15];
};

struct floor {
    size_t workers, count, copied, len, piece;
    struct number *numbers;
    _Atomic uint64_t *words;
    uint64_t *from, *to;
    const char *text;
    char *copy;
    volatile uint64_t sum;
};

/* The numbers of so many workers, so many words, and so many words of plain memory that are copied. */
void floor_open(struct floor *it, size_t workers, size_t count, size_t copied);
void floor_close(struct floor *it);

/* A text that is copied besides, in pieces of a line's mean length. It is borrowed. */
void floor_text(struct floor *it, const struct text *text);

/* An update while no worker moves: each worker's number is loaded twice, each word is stored, and then the own number. */
void floor_update(void *of, uint64_t rounds);

/* A scan: each worker's number is loaded twice, and each word once. What it gives is copied, and the text where there is one. */
void floor_scan(void *of, uint64_t rounds);

/* An addition to the first word. */
void floor_add(void *of, uint64_t rounds);

/* The nanoseconds of so many rounds of four threads at once: of updates by a worker each, with three words of its own, of twelve, or of additions to
   the word that they share. */
uint64_t floor_by_four(struct floor *it, int is_addition, uint64_t rounds);

/* counting.c: what a thread makes again and again. */

/* What a thread counts with, and by. Each is in cache lines of its own. */
struct counting {
    _Alignas(128) dirgwako_recorder recorder;
    const dirgwako_counter *counters;
    size_t count, room;
    dirgwako_histogram sizes;
    dirgwako_change changes[LISTED];
    size_t listed;
};

/* A registry of one board, of which all counters and a histogram of ten bounds are registered, and the recorders of all workers. */
struct board {
    dirgwako_registry registry;
    size_t workers;
    dirgwako_counter counters[MOST_COUNTERS];
    struct counting all[MOST_WORKERS];
};

/* The board that is measured: one at a time. */
struct board *board_open(const struct geometry *geometry);
void board_close(struct board *it);

/* The changes of the list that each thread publishes: increments of so many counters; or so many observations, each in a bucket of its own. */
void list_incs(struct board *it, size_t count);
void list_observes(struct board *it, size_t count);

/* Increments of the first counter, of the next of all, observations, lists. */
void inc(void *of, uint64_t rounds);
void inc_next(void *of, uint64_t rounds);
void observe(void *of, uint64_t rounds);
void publish(void *of, uint64_t rounds);

/* Increments in a tally that is published every thousandth time, and observations in one that is published when it is full. */
void tally_inc(void *of, uint64_t rounds);
void tally_observe(void *of, uint64_t rounds);

/* The first four make this at once, each on a thread of its own. The nanoseconds until all have ended. */
uint64_t by_four(struct board *it, void (*repeat)(void *of, uint64_t rounds), uint64_t rounds);

/* services.c: the services that are scraped and served. */

/* How many families of counters and of histograms there are, of eight children each, and how many bounds a histogram has. */
struct service {
    size_t counters, histograms, bounds;
};

/* 64 counters and 8 histograms of 10 bounds; 256 and 32 of 24. */
extern const struct service small, large;

/* A bound: they are 5, 10, 25, 50, 100, 250 and so on. */
uint64_t bound(size_t place);

/* The first bounds. */
void bounds_of(uint64_t bounds[BOUNDS]);

/* Registers a service in a new registry, which keeps so many scrapes and is scraped as often, and counts it. */
void service_open(dirgwako_registry *registry, const struct service *service, size_t window);

/* Scrapes with their texts, again and again. */
struct gathering {
    dirgwako_registry *registry;
    struct text text;
};
void gather_often(void *of, uint64_t rounds);

/* The words of the program. Each answers its exit status. */
int bench_rounds(uint64_t rounds);
int bench_updates(uint64_t rounds);
int bench_gather(uint64_t rounds, const struct service *service);
int bench_torn(uint64_t scrapes, int is_apart);
int bench_serve(uint16_t port, uint64_t replies, const struct service *service);
int bench_starved(size_t threads, uint64_t spins, uint64_t scans);
int bench_scrapers(uint64_t scrapes);
enum layout { ONE, WHOLE, SPREAD };
int bench_page(size_t scrapes, enum layout layout);

#endif
