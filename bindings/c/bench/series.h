/* The series of a page: families of counters, of histograms and of gauges with one label, and what is counted of each. */
#ifndef DIRGWAKO_BENCH_SERIES_H
#define DIRGWAKO_BENCH_SERIES_H

#include "bench.h"

enum kind { COUNTER, HISTOGRAM, GAUGE, KINDS };

/* How many families there are of a kind, and how many children each of them has. */
struct series {
    size_t families[KINDS], children[KINDS];
};

/* 10,000 counters, 1,000 histograms and 500 gauges; as many as a board of 256 counters, 32 histograms and 64 gauges has. */
extern const struct series of_page, of_board;

/* A family: its kind, its number among those of its kind, how many children it has, and what it is in a registry. */
struct family {
    enum kind kind;
    size_t number, children;
    dirgwako_counter_family counters;
    dirgwako_histogram_family histograms;
    dirgwako_gauge_family gauges;
};

/* A child of a family. */
struct child {
    dirgwako_counter counter;
    dirgwako_histogram histogram;
    dirgwako_gauge gauge;
};

/* The families, those of the number 0, then those of the number 1, and so on; how many there are. The memory is the caller's. */
size_t families_of(const struct series *series, struct family **out);

/* How many boards of the linked library have room for all series. */
size_t boards_for(const struct series *series, const struct geometry *geometry);

/* Registers a family in a group. */
void family_register(dirgwako_registry *registry, struct family *it, size_t group);

/* The child of this number, which is made where there is none. */
void child_of(dirgwako_registry *registry, const struct family *it, size_t number, struct child *child);

/* Counts the child of this number: each bound of a histogram a hundred times. */
void child_count(dirgwako_recorder *recorder, const struct family *it, size_t number, const struct child *child);

#endif
