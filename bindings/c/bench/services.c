/* The services that are measured and served: families of counters, and then families of histograms, of eight children each, counted. */
#include "bench.h"
#include <stdio.h>
#include <stdlib.h>

/* How often each bound of a histogram is observed. */
enum { TIMES = 1000 };

const struct service small = {8, 1, 10}, large = {32, 4, 24};

uint64_t bound(size_t place) {
    static const uint64_t first[3] = {5, 10, 25};
    uint64_t it = first[place % 3];
    for (size_t i = 0; i < place / 3; i++) it *= 10;
    return it;
}

void bounds_of(uint64_t bounds[BOUNDS]) {
    for (size_t i = 0; i < BOUNDS; i++) bounds[i] = bound(i);
}

/* The label and the value of a child. */
static const char *const label = "handler";
static const char *const values[CHILDREN] = {"/api/v1/0", "/api/v1/1", "/api/v1/2", "/api/v1/3", "/api/v1/4", "/api/v1/5", "/api/v1/6", "/api/v1/7"};

/* A family of counters, whose children are counted. */
static void counters(dirgwako_registry *registry, dirgwako_recorder *recorder, size_t number) {
    char name[64], help[64];
    dirgwako_counter_family family;
    dirgwako_counter counter;
    snprintf(name, sizeof name, "requests_%02zu_total", number);
    snprintf(help, sizeof help, "Requests answered so far by service part %02zu.", number);
    want(dirgwako_counter_family_new(registry, name, help, &label, 1, 0, 0, &family));
    for (size_t child = 0; child < CHILDREN; child++) {
        want(dirgwako_counter_of(registry, &family, &values[child], 1, &counter));
        want(dirgwako_inc(recorder, &counter, 10007 * (number % 32) + 1009 * (child + 1)));
    }
}

/* A family of histograms of so many bounds; of each child each bound is observed. */
static void histograms(dirgwako_registry *registry, dirgwako_recorder *recorder, size_t number, size_t many) {
    char name[64], help[64];
    uint64_t bounds[BOUNDS];
    dirgwako_histogram_family family;
    dirgwako_histogram histogram;
    bounds_of(bounds);
    snprintf(name, sizeof name, "response_%02zu_micros", number);
    snprintf(help, sizeof help, "Microseconds taken by answers of part %02zu.", number);
    want(dirgwako_histogram_family_new(registry, name, help, &label, 1, bounds, many, 0, 0, &family));
    for (size_t child = 0; child < CHILDREN; child++) {
        want(dirgwako_histogram_of(registry, &family, &values[child], 1, &histogram));
        for (size_t k = 0; k < many * TIMES; k++) want(dirgwako_observe(recorder, &histogram, bounds[k % many]));
    }
}

void service_open(dirgwako_registry *registry, const struct service *service, size_t window) {
    dirgwako_recorder recorder = {0};
    struct gathering gathering = {registry, {0}};
    want(dirgwako_registry_new(registry, window));
    want(dirgwako_recorder_take(registry, &recorder));
    for (size_t i = 0; i < service->counters; i++) counters(registry, &recorder, i);
    for (size_t i = 0; i < service->histograms; i++) histograms(registry, &recorder, i, service->bounds);
    want(dirgwako_recorder_give_back(registry, &recorder));
    gather_often(&gathering, window);
    free(gathering.text.at);
}

void gather_often(void *of, uint64_t rounds) {
    struct gathering *it = of;
    for (uint64_t i = 0; i < rounds; i++) want(scraped(it->registry, &it->text));
}
