/* What the tests share. */
#ifndef DIRGWAKO_TEST_H
#define DIRGWAKO_TEST_H

#include "dirgwako.h"

/* The text of the last scrape. */
extern char text[1 << 17];

/* Whether what was answered is what was wanted. */
void is(const char *what, long long got, long long want);

/* The number of a series of a text, or -1 where there is none. */
long long number(const char *from, size_t len, const char *series);

/* The number of a series of a new scrape, or -2 where there is none. */
long long scraped(dirgwako_registry *registry, const char *series);

/* Whether the text of a new scrape is this one, byte for byte. */
void shows(const char *what, dirgwako_registry *registry, const char *wanted);

/* A family as a test writes it: labels up to the first that is null, `many` bounds. */
enum kind { COUNTER, GAUGE, HISTOGRAM };

struct family {
    enum kind kind;
    const char *name, *help, *labels[10];
    uint64_t bounds[25];
    size_t many, digits;
};

/* A family of any kind that was asked for. */
struct made {
    dirgwako_counter_family counters;
    dirgwako_gauge_family gauges;
    dirgwako_histogram_family histograms;
};

/* What comes of asking for a family in the group 0, by the library's own function: also of nine labels, which the header refuses by itself. */
uint32_t asked_for(dirgwako_registry *registry, const struct family *family, struct made *made);

/* 2^48 - 1, the greatest bound and the most that a thread counts. */
#define TOP 281474976710655

/* A text so often. */
#define X8(text) text text text text text text text text
#define X16(text) X8(text text)
#define X128(text) X8(X16(text))
#define X1024(text) X8(X128(text))

/* Tells how many tests passed and failed; what a program ends with. */
int told(void);

/* The tests of numbers that are read, and of what needs no registry. */
void numbers(void);

/* The tests of replies, byte for byte. */
void replied(void);

/* The tests of several boards of one registry. */
void boards(void);

/* The tests of texts, byte for byte. */
void texts(void);

/* The tests of what is refused, by number. */
void refusals(void);

/* The tests of scrapers. */
void scrapers_tests(void);

/* The test of many threads on many boards. */
void crowd(void);

/* The memory of a program that is linked with -Wl,--wrap=malloc,--wrap=realloc,--wrap=free: how many allocations are still given, all where that is
   below zero; how many were asked for; how many blocks are there; and whether one alone is refused then, or all behind it as well. */
struct heap {
    long long left, asked, blocks;
    int is_one;
};

extern struct heap heap;

/* The test of a whole script, each of whose allocations alone is refused in turn. */
void growth(void);

#endif
