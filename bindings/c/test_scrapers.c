/* The tests of scrapers: what they are told, their texts and replies, handles, and three that scrape while others count and register. */
#include "test.h"
#include <pthread.h>
#include <stdio.h>

enum { SCRAPERS = 3, COUNTING = 3, ROUNDS = 100000, FAMILIES = 40 };

static dirgwako_registry registry;
static dirgwako_scraper scrapers[SCRAPERS];
static char own[1 << 17];

/* The text of a scrape by a scraper is that of one by the registry, byte for byte. */
static void agrees(const char *what, dirgwako_scraper *scraper) {
    size_t len = 0, own_len = 0;
    is(what, dirgwako_scrape(&registry, text, sizeof text, &len), 0);
    is(what, dirgwako_scraper_scrape(scraper, own, sizeof own, &own_len), 0);
    is(what, len == own_len && !memcmp(text, own, len), 1);
}

/* As many as were asked for are handed out, once each. */
static void handles(void) {
    dirgwako_scraper one = {0, 0};
    is("four", dirgwako_registry_new_with(&registry, 2, 4), 13);
    is("too many", dirgwako_registry_new_with(&registry, 2, SIZE_MAX), 13);
    is("a window", dirgwako_registry_new_with(&registry, 0, 1), 31);
    is("none", dirgwako_registry_new(&registry, 2), 0);
    is("of none", dirgwako_scraper_take(&registry, &one), DIRGWAKO_NO_SCRAPER);
    is("three", dirgwako_registry_new_with(&registry, 2, SCRAPERS), 0);
    for (int i = 0; i < SCRAPERS; i++) is("take", dirgwako_scraper_take(&registry, &scrapers[i]), 0);
    is("no more", dirgwako_scraper_take(&registry, &one), DIRGWAKO_NO_SCRAPER);
    is("it is as it was", (long long)one.live, 0);
    is("free one that is empty", dirgwako_scraper_free(&one), DIRGWAKO_EMPTY);
}

/* What is registered, and each board that comes for it, is told. */
static void told_all(void) {
    dirgwako_abi abi;
    dirgwako_recorder recorder = {0, 0};
    dirgwako_counter visits;
    dirgwako_gauge gauge;
    dirgwako_gauge_family gauges;
    dirgwako_histogram waits;
    const uint64_t bounds[2] = {10, 20};
    char number_of[24];
    size_t number_told = 0;
    const char *const one[1] = {"route"}, *const value[1] = {number_of};
    agrees("nothing is there", &scrapers[0]);
    is("the text of nothing", (long long)strlen(own), 0);
    is("built for", dirgwako_built_for(&abi), 0);
    is("visits", dirgwako_counter_new(&registry, "visits_total", "Visits.", &visits), 0);
    is("waits", dirgwako_histogram_seconds_new(&registry, "wait_seconds", "Waits.", bounds, 2, &waits), 0);
    is("gauges", dirgwako_gauge_family_new(&registry, "open", "Open.", one, 1, 0, 3, &gauges), 0);
    is("take", dirgwako_recorder_take(&registry, &recorder), 0);
    is("count", dirgwako_inc(&recorder, &visits, 7), 0);
    is("count", dirgwako_observe(&recorder, &waits, 11), 0);
    agrees("metrics", &scrapers[0]);
    for (size_t i = 0; i <= abi.gauges; i++) {
        snprintf(number_of, sizeof number_of, "%u", (unsigned)i);
        is("a gauge", dirgwako_gauge_of(&registry, &gauges, value, 1, &gauge), 0);
        is("up", dirgwako_up(&recorder, &gauge, i), 0);
    }
    is("how many are told", dirgwako_scrapers(&registry, &number_told), 0);
    is("all", (long long)number_told, SCRAPERS);
    agrees("a further board", &scrapers[0]);
    agrees("all at once", &scrapers[1]);
    is("found again", dirgwako_gauge_of(&registry, &gauges, value, 1, &gauge), 0);
    is("down", dirgwako_down(&recorder, &gauge, 1), 0);
    agrees("what was found", &scrapers[0]);
    is("give back", dirgwako_recorder_give_back(&registry, &recorder), 0);
}

/* Buffers that are too short, and replies. */
static void replies_alone(void) {
    static const char get[] = "GET /metrics HTTP/1.0\r\n\r\n", other[] = "GET / HTTP/1.0\r\n\r\n";
    size_t len = 0, need = 0;
    is("scrape", dirgwako_scraper_scrape(&scrapers[0], own, sizeof own, &len), 0);
    text[0] = '!';
    is("too short", dirgwako_scraper_scrape(&scrapers[0], text, len - 1, &need), DIRGWAKO_TOO_SHORT);
    is("as it was", text[0], '!');
    is("what it needs", (long long)need, (long long)len);
    is("no room", dirgwako_scraper_scrape(&scrapers[0], NULL, 0, &need), DIRGWAKO_TOO_SHORT);
    is("just as long", dirgwako_scraper_scrape(&scrapers[0], text, len, &need), 0);
    is("reply", dirgwako_scraper_reply(&scrapers[0], get, sizeof get - 1, text, sizeof text, &need), 0);
    is("its status", memcmp(text, "HTTP/1.1 200 ", 13), 0);
    is("its body", need > len && !memcmp(text + need - len, own, len), 1);
    is("a reply", dirgwako_scraper_reply(&scrapers[0], get, sizeof get - 1, text, need - 1, &need), DIRGWAKO_TOO_SHORT);
    is("another path", dirgwako_scraper_reply(&scrapers[0], other, sizeof other - 1, text, sizeof text, &need), 0);
    is("its status", memcmp(text, "HTTP/1.1 404 ", 13), 0);
    is("no byte", dirgwako_scraper_reply(&scrapers[0], "", 0, text, sizeof text, &need), 26);
}

/* A scraper goes on where its registry is gone, or another scraper is. */
static void goes_on(void) {
    size_t len = 0, now = 0;
    is("scrape", dirgwako_scraper_scrape(&scrapers[1], own, sizeof own, &len), 0);
    is("free one", dirgwako_scraper_free(&scrapers[0]), 0);
    is("freed twice", dirgwako_scraper_free(&scrapers[0]), DIRGWAKO_EMPTY);
    is("used when freed", dirgwako_scraper_scrape(&scrapers[0], text, sizeof text, &now), DIRGWAKO_EMPTY);
    is("nobody takes it", dirgwako_scraper_take(&registry, &scrapers[0]), DIRGWAKO_NO_SCRAPER);
    is("free", dirgwako_registry_free(&registry), 0);
    for (int i = 1; i < SCRAPERS; i++) {
        is("scrape", dirgwako_scraper_scrape(&scrapers[i], text, sizeof text, &now), 0);
        is("the same", now == len && !memcmp(text, own, len), 1);
        is("free", dirgwako_scraper_free(&scrapers[i]), 0);
    }
}

/* A thread that counts on the first, and then on the other. */
struct counts {
    dirgwako_recorder recorder;
    dirgwako_counter first, then;
    uint32_t answer;
};

static struct counts counting[COUNTING];

static void *count(void *given) {
    struct counts *it = given;
    for (int i = 0; i < ROUNDS && !it->answer; i++) {
        it->answer = dirgwako_inc(&it->recorder, &it->first, 1);
        if (!it->answer) it->answer = dirgwako_inc(&it->recorder, &it->then, 1);
    }
    return NULL;
}

/* One that scrapes, until all have counted all; how many scrapes it made, and how many showed what never was, or less than one before. */
struct scrapes {
    dirgwako_scraper scraper;
    uint32_t answer;
    long long made, torn, before[COUNTING];
    char text[1 << 16];
};

static struct scrapes scraping[SCRAPERS];

static int reads_all(struct scrapes *it, size_t len) {
    int done = 1;
    for (int i = 0; i < COUNTING; i++) {
        char series[32];
        snprintf(series, sizeof series, "first_%d_total", i);
        const long long first = number(it->text, len, series);
        snprintf(series, sizeof series, "then_%d_total", i);
        const long long then = number(it->text, len, series);
        it->torn += (first - then != 0 && first - then != 1) || first < it->before[i];
        it->before[i] = first;
        done &= then == ROUNDS;
    }
    return done;
}

static void *scrape(void *given) {
    struct scrapes *it = given;
    for (int done = 0; !done && !it->answer;) {
        size_t len = 0;
        it->answer = dirgwako_scraper_scrape(&it->scraper, it->text, sizeof it->text, &len);
        if (it->answer == 14) it->answer = 0;
        else if (!it->answer) done = reads_all(it, len), it->made++;
    }
    return NULL;
}

/* A pair for each thread that counts. */
static void begin(void) {
    char name[32];
    is("new", dirgwako_registry_new_with(&registry, 2, SCRAPERS), 0);
    for (int i = 0; i < COUNTING; i++) {
        snprintf(name, sizeof name, "first_%d_total", i);
        is("first", dirgwako_counter_new(&registry, name, "First.", &counting[i].first), 0);
        snprintf(name, sizeof name, "then_%d_total", i);
        is("then", dirgwako_counter_new(&registry, name, "Then.", &counting[i].then), 0);
        is("take", dirgwako_recorder_take(&registry, &counting[i].recorder), 0);
    }
    for (int i = 0; i < SCRAPERS; i++) is("take", dirgwako_scraper_take(&registry, &scraping[i].scraper), 0);
}

/* What the main thread does meanwhile: families and boards come, and the registry is scraped. */
static void registers(void) {
    for (int i = 0; i < FAMILIES; i++) {
        char name[32];
        size_t board = 0;
        dirgwako_gauge gauge;
        snprintf(name, sizeof name, "gauge_%d", i);
        is("a gauge", dirgwako_gauge_new(&registry, name, "Gauge.", &gauge), 0);
        if (i % 20 == 0) is("a board", dirgwako_board_add(&registry, &board), 0);
        is("a scrape", scraped(&registry, name) <= 0, 1);
    }
}

static void beside(void) {
    pthread_t counts[COUNTING], scrapes[SCRAPERS];
    begin();
    for (int i = 0; i < SCRAPERS; i++) is("thread", pthread_create(&scrapes[i], NULL, scrape, &scraping[i]), 0);
    for (int i = 0; i < COUNTING; i++) is("thread", pthread_create(&counts[i], NULL, count, &counting[i]), 0);
    registers();
    for (int i = 0; i < COUNTING; i++) {
        is("join", pthread_join(counts[i], NULL), 0);
        is("counted", counting[i].answer, 0);
        is("free", dirgwako_recorder_free(&counting[i].recorder), 0);
    }
    for (int i = 0; i < SCRAPERS; i++) {
        is("join", pthread_join(scrapes[i], NULL), 0);
        is("scraped", scraping[i].answer, 0);
        is("some", scraping[i].made > 0, 1);
        is("torn scrapes", scraping[i].torn, 0);
        agrees("in the end", &scraping[i].scraper);
        is("free", dirgwako_scraper_free(&scraping[i].scraper), 0);
    }
    is("free", dirgwako_registry_free(&registry), 0);
}

void scrapers_tests(void) {
    handles();
    told_all();
    replies_alone();
    goes_on();
    beside();
}
