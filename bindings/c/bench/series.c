/* The series of a page. */
#include "series.h"
#include <stdio.h>

/* How often each bound of a histogram is observed. */
enum { TIMES = 100 };

const struct series of_page = {{40, 40, 20}, {250, 25, 25}}, of_board = {{1, 1, 1}, {256, 32, 64}};

size_t families_of(const struct series *series, struct family **out) {
    size_t count = 0, most = 0;
    for (int kind = 0; kind < KINDS; kind++) most += series->families[kind];
    *out = zeros(most, sizeof **out);
    for (size_t number = 0; count < most; number++) {
        for (int kind = 0; kind < KINDS; kind++) {
            if (number >= series->families[kind]) continue;
            (*out)[count].kind = (enum kind)kind;
            (*out)[count].number = number;
            (*out)[count++].children = series->children[kind];
        }
    }
    return count;
}

size_t boards_for(const struct series *series, const struct geometry *geometry) {
    const size_t slots[KINDS] = {geometry->counters, geometry->histograms, geometry->gauges};
    size_t most = 1;
    for (int kind = 0; kind < KINDS; kind++) {
        size_t all = series->families[kind] * series->children[kind], room = slots[kind] ? slots[kind] : 1;
        size_t boards = (all + room - 1) / room;
        if (boards > most) most = boards;
    }
    return most;
}

void family_register(dirgwako_registry *registry, struct family *it, size_t group) {
    static const char *const names[KINDS] = {"requests_%02zu_total", "response_%02zu_micros", "waiting_%02zu"};
    static const char *const helps[KINDS] = {"Requests answered so far by service part", "Microseconds taken by answers of part",
                                             "Requests that wait at service part"};
    static const char *const label = "handler";
    char name[64], help[96];
    uint64_t bounds[BOUNDS];
    bounds_of(bounds);
    snprintf(name, sizeof name, names[it->kind], it->number);
    snprintf(help, sizeof help, "%s %02zu.", helps[it->kind], it->number);
    switch (it->kind) {
    case COUNTER: want(dirgwako_counter_family_new(registry, name, help, &label, 1, 0, group, &it->counters)); break;
    case HISTOGRAM: want(dirgwako_histogram_family_new(registry, name, help, &label, 1, bounds, TEN, 0, group, &it->histograms)); break;
    default: want(dirgwako_gauge_family_new(registry, name, help, &label, 1, 0, group, &it->gauges));
    }
}

/* The values do not come in the order in which children are made. */
void child_of(dirgwako_registry *registry, const struct family *it, size_t number, struct child *child) {
    char handler[32];
    const char *const value = handler;
    snprintf(handler, sizeof handler, "/api/v1/%03zu", number * 101 % it->children);
    switch (it->kind) {
    case COUNTER: want(dirgwako_counter_of(registry, &it->counters, &value, 1, &child->counter)); break;
    case HISTOGRAM: want(dirgwako_histogram_of(registry, &it->histograms, &value, 1, &child->histogram)); break;
    default: want(dirgwako_gauge_of(registry, &it->gauges, &value, 1, &child->gauge));
    }
}

void child_count(dirgwako_recorder *recorder, const struct family *it, size_t number, const struct child *child) {
    uint64_t by = 10007 * (it->number % 32) + 1009 * (number % 256 + 1);
    switch (it->kind) {
    case COUNTER: want(dirgwako_inc(recorder, &child->counter, by)); break;
    case GAUGE: want(dirgwako_up(recorder, &child->gauge, by)); break;
    default:
        for (size_t i = 0; i < TEN * TIMES; i++) want(dirgwako_observe(recorder, &child->histogram, bound(i % TEN)));
    }
}
