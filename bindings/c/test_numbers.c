/* The tests of numbers that are read, exact totals, and refusals in words. */
#include "test.h"

enum { MOST = DIRGWAKO_MOST_NUMBERS };

static dirgwako_registry registry;
static dirgwako_recorder recorder;
static dirgwako_counter visits;
static dirgwako_gauge queued;
static dirgwako_histogram bytes;
static uint64_t first[MOST], second[MOST], other[MOST];

/* The total of the counter, or a refusal below zero. */
static long long total(const uint64_t *read, size_t len) {
    uint64_t got = 7;
    uint32_t answer = dirgwako_counter_total(read, len, &visits, &got);
    return answer ? -(long long)answer : (long long)got;
}

/* A registry whose metrics were counted. */
static void begin(void) {
    const uint64_t bounds[2] = {10, 20};
    is("new", dirgwako_registry_new(&registry, 2), 0);
    is("take", dirgwako_recorder_take(&registry, &recorder), 0);
    is("counter", dirgwako_counter_new(&registry, "visits_total", "Visits.", &visits), 0);
    is("gauge", dirgwako_gauge_new(&registry, "queued", "Queued.", &queued), 0);
    is("histogram", dirgwako_histogram_new(&registry, "answer_bytes", "Bytes.", bounds, 2, &bytes), 0);
    is("inc", dirgwako_inc(&recorder, &visits, 5), 0);
    is("up", dirgwako_up(&recorder, &queued, 2), 0);
    is("down", dirgwako_down(&recorder, &queued, 9), 0);
    is("observe", dirgwako_observe(&recorder, &bytes, 11), 0);
    is("observe", dirgwako_observe(&recorder, &bytes, 2000), 0);
}

/* Scrapes are kept, and read by handles. */
static void read(void) {
    size_t len = 0, kept = 7;
    int64_t value = 0;
    dirgwako_totals totals;
    dirgwako_abi abi;
    is("built for", dirgwako_built_for(&abi), 0);
    is("nothing is kept", dirgwako_read_kept(&registry, 0, 0, first, MOST, &len), DIRGWAKO_NO_SUCH);
    is("read", dirgwako_read(&registry, 0, first, MOST, &len), 0);
    is("its length", (long long)len, (long long)abi.numbers);
    is("the total", total(first, len), 5);
    is("gauge", dirgwako_gauge_value(first, len, &queued, &value), 0);
    is("the value", value, -7);
    is("histogram", dirgwako_histogram_totals(first, len, &bytes, &totals), 0);
    is("to 10", (long long)totals.buckets[0], 0);
    is("to 20", (long long)totals.buckets[1], 1);
    is("over 20", (long long)totals.buckets[2], 1);
    is("no more", (long long)totals.buckets[24], 0);
    is("the sum", (long long)totals.sum, 2011);
    is("the count", (long long)totals.count, 2);
    is("inc", dirgwako_inc(&recorder, &visits, 1), 0);
    is("read", dirgwako_read(&registry, 0, second, len, &len), 0);
    is("the total", total(second, len), 6);
    is("that of before", total(first, len), 5);
    is("kept", dirgwako_kept(&registry, 0, &kept), 0);
    is("two are kept", (long long)kept, 2);
    is("the oldest", dirgwako_read_kept(&registry, 0, 0, other, MOST, &len), 0);
    is("is the first", memcmp(other, first, len * sizeof *first), 0);
    is("the newest", dirgwako_read_kept(&registry, 0, 1, other, MOST, &len), 0);
    is("is the second", memcmp(other, second, len * sizeof *first), 0);
    is("no third", dirgwako_read_kept(&registry, 0, 2, other, MOST, &len), DIRGWAKO_NO_SUCH);
    is("the text of a scrape is kept too", scraped(&registry, "visits_total"), 6);
    is("the oldest goes", dirgwako_read_kept(&registry, 0, 0, other, MOST, &len), 0);
    is("the second is the oldest", memcmp(other, second, len * sizeof *first), 0);
}

/* What is refused where numbers are read, by their number; and nothing is told then. */
static void refused(void) {
    size_t len = 0, needs;
    int64_t value = 7;
    dirgwako_counter far = visits;
    dirgwako_gauge away = queued;
    dirgwako_totals totals = {{7}, 7, 7};
    uint64_t got = 7;
    is("no array", dirgwako_read(&registry, 0, NULL, 0, &len), DIRGWAKO_TOO_SHORT);
    needs = len;
    memset(other, 1, sizeof other);
    is("too short", dirgwako_read(&registry, 0, other, needs - 1, &len), DIRGWAKO_TOO_SHORT);
    is("too short", dirgwako_read_kept(&registry, 0, 0, other, needs - 1, &len), DIRGWAKO_TOO_SHORT);
    is("it is as it was", other[0] == other[1] && (long long)len == (long long)needs, 1);
    is("fewer numbers", total(first, needs - 1), -DIRGWAKO_NO_NUMBERS);
    is("more numbers", total(first, needs + 1), -DIRGWAKO_NO_NUMBERS);
    is("other numbers", total(other, needs), -16);
    far.slot = 100000;
    is("no such counter", dirgwako_counter_total(first, needs, &far, &got), 11);
    is("nothing is told", (long long)got, 7);
    away.slot = 100000;
    is("no such gauge", dirgwako_gauge_value(first, needs, &away, &value), 11);
    away.registry++;
    is("another's gauge", dirgwako_gauge_value(first, needs, &away, &value), 16);
    is("fewer numbers", dirgwako_gauge_value(first, needs - 1, &queued, &value), DIRGWAKO_NO_NUMBERS);
    memcpy(other, first, sizeof first);
    for (size_t i = 1; i < needs; i++) other[i] = UINT64_MAX;
    is("no totals", dirgwako_gauge_value(other, needs, &queued, &value), DIRGWAKO_NO_NUMBERS);
    is("nothing is told", value, 7);
    bytes.slot += 100000;
    is("no such histogram", dirgwako_histogram_totals(first, needs, &bytes, &totals), 11);
    bytes.registry++;
    is("another's histogram", dirgwako_histogram_totals(first, needs, &bytes, &totals), 16);
    is("fewer numbers", dirgwako_histogram_totals(first, needs - 1, &bytes, &totals), DIRGWAKO_NO_NUMBERS);
    is("nothing is told", (long long)(totals.buckets[0] + totals.sum + totals.count), 21);
}

/* Exact totals, once all recorders are given back. */
static void settled(void) {
    size_t len = 7, missing = 7, all;
    dirgwako_abi abi;
    is("built for", dirgwako_built_for(&abi), 0);
    all = abi.workers;
    is("one is out", dirgwako_settle(&registry, 0, other, MOST, &len, &missing), 18);
    is("the last worker's", (long long)missing, (long long)all - 1);
    is("nothing is told", (long long)len, 7);
    is("give back", dirgwako_recorder_give_back(&registry, &recorder), 0);
    is("too short", dirgwako_settle(&registry, 0, other, 3, &len, &missing), DIRGWAKO_TOO_SHORT);
    is("settle", dirgwako_settle(&registry, 0, other, len, &len, &missing), 0);
    is("the total", total(other, len), 6);
    is("how often the last worker has published", (long long)other[all], 6);
    is("another never has", all == 1 || other[1] == 0, 1);
    is("the newest scrape", dirgwako_read(&registry, 0, second, MOST, &len), 0);
    is("has the same numbers", memcmp(second, other, len * sizeof *other), 0);
    is("free", dirgwako_registry_free(&registry), 0);
}

/* Two registries of one id, which the header never makes: a worker of the other one is found twice, and one that knows no such board. */
static void foreign(void) {
    dirgwako_registry one = {0}, two = {0};
    dirgwako_recorder last = {0}, before = {0}, far = {0};
    dirgwako_abi abi;
    size_t len = 0, missing = 0, board = 0;
    is("built for", dirgwako_built_for(&abi), 0);
    if (abi.workers < 2) return;
    is("one", dirgwako_c_registry_new(&one, 900, 1), 0);
    is("two", dirgwako_c_registry_new(&two, 900, 1), 0);
    is("take", dirgwako_recorder_take(&one, &last), 0);
    is("take", dirgwako_recorder_take(&one, &before), 0);
    is("take", dirgwako_recorder_take(&two, &far), 0);
    is("give back", dirgwako_recorder_give_back(&one, &last), 0);
    is("give another's", dirgwako_recorder_give_back(&one, &far), 0);
    is("no room is left for it", dirgwako_recorder_give_back(&one, &before), 16);
    is("twice", dirgwako_settle(&one, 0, other, MOST, &len, &missing), 16);
    is("a board", dirgwako_board_add(&one, &board), 0);
    is("one knows no such board", dirgwako_settle(&one, board, other, MOST, &len, &missing), 16);
    is("free", dirgwako_recorder_free(&before), 0);
    is("free", dirgwako_registry_free(&one), 0);
    is("free", dirgwako_registry_free(&two), 0);
}

/* Refusals in words. */
static void words(void) {
    char buffer[128];
    uint8_t short_one[3] = {0};
    size_t len = 0;
    is("out of memory", strcmp(dirgwako_refusal(6, buffer, sizeof buffer), "out of memory"), 0);
    is("cut", strcmp(dirgwako_refusal(6, buffer, 4), "out"), 0);
    is("not UTF-8", strcmp(dirgwako_refusal(DIRGWAKO_NOT_UTF8, buffer, sizeof buffer), "a text is not UTF-8"), 0);
    is("no such", strcmp(dirgwako_refusal(1000, buffer, sizeof buffer), "there is nothing of this number"), 0);
    is("no buffer", strcmp(dirgwako_refusal(6, NULL, 0), ""), 0);
    for (uint32_t i = 0; i <= DIRGWAKO_NO_CHILD; i++) {
        is("there are words", dirgwako_c_refusal(i, (uint8_t *)buffer, sizeof buffer, &len), 0);
        is("they are whole", strlen(dirgwako_refusal(i, buffer, sizeof buffer)) == len && len >= 4, 1);
    }
    is("no such", dirgwako_c_refusal(DIRGWAKO_NO_SCRAPER + 1, short_one, sizeof short_one, &len), DIRGWAKO_NO_SUCH);
    is("too short", dirgwako_c_refusal(6, short_one, sizeof short_one, &len), DIRGWAKO_TOO_SHORT);
    is("it needs", (long long)len, 13);
    is("it is as it was", short_one[0], 0);
}

void numbers(void) {
    begin();
    read();
    refused();
    settled();
    foreign();
    words();
}
