/* `bench scrapers`: three scrapers beside all threads that the library was built for, each of which counts a pair without rest, the first and then the
   other. How long does a scrape take, how many are given up, and how many show a first below its other, or more than one above? */
#include "bench.h"
#include <inttypes.h>
#include <stdio.h>

enum { SCRAPERS = 3, BYTES = 1 << 14 };

/* A thread that counts its own pair. */
struct pair {
    _Alignas(128) dirgwako_recorder recorder;
    dirgwako_counter first, other;
    char first_name[40], other_name[40];
    atomic_bool *is_to_end;
};

/* A thread that scrapes so often, and what it found. */
struct scraping {
    dirgwako_scraper scraper;
    uint64_t scrapes, given_up, torn, nanos;
    char text[BYTES];
};

static struct pair pairs[MOST_WORKERS];
static struct scraping scrapings[SCRAPERS];
static size_t workers;

static void *count_on(void *given) {
    struct pair *it = given;
    while (!*it->is_to_end) {
        want(dirgwako_inc(&it->recorder, &it->first, 1));
        want(dirgwako_inc(&it->recorder, &it->other, 1));
    }
    return NULL;
}

/* The number behind this front of a line. The text ends in a line feed, and the front is there. */
static uint64_t number_of(const char *text, const char *front) {
    const char *at = strstr(text, front);
    uint64_t number = 0;
    for (at = at ? at + strlen(front) : ""; *at >= '0' && *at <= '9'; at++) number = 10 * number + (uint64_t)(*at - '0');
    return number;
}

static int is_torn(const char *text) {
    for (size_t i = 0; i < workers; i++) {
        const uint64_t first = number_of(text, pairs[i].first_name), other = number_of(text, pairs[i].other_name);
        if (first != other && first != other + 1) return 1;
    }
    return 0;
}

static void *scrape_on(void *given) {
    struct scraping *it = given;
    for (uint64_t i = 0; i < it->scrapes; i++) {
        size_t len = 0;
        const uint64_t since = now();
        const uint32_t answer = dirgwako_scraper_scrape(&it->scraper, it->text, BYTES - 1, &len);
        it->nanos += now() - since;
        it->given_up += answer == 14;
        if (answer == 14) continue;
        want(answer);
        it->text[len] = 0;
        it->torn += is_torn(it->text);
    }
    return NULL;
}

static void open_pair(dirgwako_registry *registry, struct pair *it, size_t number, atomic_bool *is_to_end) {
    char name[32];
    it->is_to_end = is_to_end;
    snprintf(name, sizeof name, "first_%zu", number);
    want(dirgwako_counter_new(registry, name, "First.", &it->first));
    snprintf(it->first_name, sizeof it->first_name, "\n%s ", name);
    snprintf(name, sizeof name, "other_%zu", number);
    want(dirgwako_counter_new(registry, name, "Other.", &it->other));
    snprintf(it->other_name, sizeof it->other_name, "\n%s ", name);
    want(dirgwako_recorder_take(registry, &it->recorder));
}

int bench_scrapers(uint64_t scrapes) {
    static dirgwako_registry registry;
    static atomic_bool is_to_end;
    pthread_t counting[MOST_WORKERS], scraping[SCRAPERS];
    const struct geometry geometry = linked();
    uint64_t given_up = 0, torn = 0, nanos = 0;
    workers = geometry.workers;
    want(dirgwako_registry_new_with(&registry, 1, SCRAPERS));
    for (size_t i = 0; i < workers; i++) open_pair(&registry, &pairs[i], i, &is_to_end);
    for (size_t i = 0; i < workers; i++) start(&counting[i], count_on, &pairs[i]);
    for (size_t i = 0; i < SCRAPERS; i++) {
        want(dirgwako_scraper_take(&registry, &scrapings[i].scraper));
        scrapings[i].scrapes = scrapes;
        start(&scraping[i], scrape_on, &scrapings[i]);
    }
    for (size_t i = 0; i < SCRAPERS; i++) {
        await(scraping[i]);
        given_up += scrapings[i].given_up, torn += scrapings[i].torn, nanos += scrapings[i].nanos;
        want(dirgwako_scraper_free(&scrapings[i].scraper));
    }
    is_to_end = 1;
    for (size_t i = 0; i < workers; i++) await(counting[i]);
    for (size_t i = 0; i < workers; i++) want(dirgwako_recorder_free(&pairs[i].recorder));
    want(dirgwako_registry_free(&registry));
    printf("scrapers %s scrapes %" PRIu64 " given_up %" PRIu64 " torn %" PRIu64 "\n", geometry.name, SCRAPERS * scrapes, given_up, torn);
    printf("each %.2f\n", each_of(nanos, SCRAPERS * scrapes));
    return ended();
}
