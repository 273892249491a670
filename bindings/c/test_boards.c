/* The tests of several boards of one registry: they come when they are needed, up to 96, recorders that count already meet them, groups begin
   together, and numbers and exact totals are of one board. */
#include "test.h"
#include <stdio.h>

enum { MOST = DIRGWAKO_MOST_NUMBERS, MOST_BOARDS = 96 };

static dirgwako_registry registry;
static dirgwako_recorder recorder;
static dirgwako_gauge_family jobs;
static dirgwako_gauge first, last, beyond;
static uint64_t read[MOST];
static dirgwako_abi abi;

/* How many boards there are. */
static long long count(void) {
    size_t boards = 0;
    is("boards", dirgwako_boards(&registry, &boards), 0);
    return (long long)boards;
}

/* The gauge of a number. */
static uint32_t gauge_in(const dirgwako_gauge_family *family, unsigned at, dirgwako_gauge *gauge) {
    char value[16];
    const char *const values[1] = {value};
    snprintf(value, sizeof value, "%u", at);
    return dirgwako_gauge_of(&registry, family, values, 1, gauge);
}

static uint32_t gauge_of(unsigned at, dirgwako_gauge *gauge) { return gauge_in(&jobs, at, gauge); }

/* The value of a gauge among the numbers of its board, or a refusal below zero. */
static long long value_of(const dirgwako_gauge *gauge, size_t len) {
    int64_t value = 0;
    uint32_t answer = dirgwako_gauge_value(read, len, gauge, &value);
    return answer ? -(long long)answer : (long long)value;
}

/* A second board comes where every slot is used, and a recorder that has counted meets it. */
static void comes(void) {
    static const char *const labels[1] = {"job"};
    size_t board = 7;
    is("built for", dirgwako_built_for(&abi), 0);
    is("new", dirgwako_registry_new(&registry, 2), 0);
    is("one board", count(), 1);
    is("take", dirgwako_recorder_take(&registry, &recorder), 0);
    is("family", dirgwako_gauge_family_new(&registry, "jobs", "Jobs.", labels, 1, 0, 3, &jobs), 0);
    is("the first", gauge_of(0, &first), 0);
    is("up", dirgwako_up(&recorder, &first, 2), 0);
    for (unsigned i = 1; i < abi.gauges; i++) is("a gauge", gauge_of(i, &last), 0);
    is("one board", count(), 1);
    is("one gauge more", gauge_of((unsigned)abi.gauges, &beyond), 0);
    is("a second board", count(), 2);
    is("the next id", beyond.registry == first.registry + 1, 1);
    is("the recorder meets it", dirgwako_up(&recorder, &beyond, 5), 0);
    is("and counts on the first", dirgwako_up(&recorder, &last, 1), 0);
    is("the first", scraped(&registry, "jobs{job=\"0\"}"), 2);
    char series[32];
    snprintf(series, sizeof series, "jobs{job=\"%u\"}", (unsigned)abi.gauges);
    is("the one beyond", scraped(&registry, series), 5);
    is("its board", dirgwako_board_of(&registry, beyond.registry, &board), 0);
    is("is the second", (long long)board, 1);
    is("no board of this id", dirgwako_board_of(&registry, beyond.registry + 1, &board), 16);
    is("no board of this id", dirgwako_board_of(&registry, first.registry - 1, &board), 16);
    is("it is as it was", (long long)board, 1);
    is("one that is there", gauge_of((unsigned)abi.gauges, &last), 0);
    is("is the same", last.registry == beyond.registry && last.slot == beyond.slot, 1);
}

/* Changes of two boards are never one version. */
static void lists(void) {
    const dirgwako_change both[2] = {dirgwako_change_up(&first, 1), dirgwako_change_up(&beyond, 1)};
    const dirgwako_change one[2] = {dirgwako_change_up(&beyond, 3), dirgwako_change_down(&beyond, 1)};
    is("two boards", dirgwako_publish(&recorder, both, 2), DIRGWAKO_TWO_BOARDS);
    is("nothing was counted", scraped(&registry, "jobs{job=\"0\"}"), 2);
    is("one board", dirgwako_publish(&recorder, one, 2), 0);
}

/* Numbers are those of one board. */
static void numbers_of_one(void) {
    size_t len = 0, kept = 9;
    is("no third board", dirgwako_read(&registry, 2, read, MOST, &len), DIRGWAKO_NO_BOARD);
    is("no third board", dirgwako_read_kept(&registry, 2, 0, read, MOST, &len), DIRGWAKO_NO_BOARD);
    is("no third board", dirgwako_kept(&registry, 2, &kept), DIRGWAKO_NO_BOARD);
    is("nothing is told", (long long)(len + kept), 9);
    is("window", dirgwako_set_window(&registry, 8), 0);
    is("the second", dirgwako_read(&registry, 1, read, MOST, &len), 0);
    is("its id", read[0] == beyond.registry, 1);
    is("its gauge", value_of(&beyond, len), 7);
    is("not of the first", value_of(&first, len), -16);
    is("kept", dirgwako_kept(&registry, 1, &kept), 0);
    is("three of the second", (long long)kept, 3);
    is("kept", dirgwako_kept(&registry, 0, &kept), 0);
    is("two of the first", (long long)kept, 2);
    is("its newest", dirgwako_read_kept(&registry, 0, 1, read, MOST, &len), 0);
    is("its id", read[0] == first.registry, 1);
    is("its gauge", value_of(&first, len), 2);
    is("no third", dirgwako_read_kept(&registry, 0, 2, read, MOST, &len), DIRGWAKO_NO_SUCH);
}

/* Exact totals of each board. */
static void settled(void) {
    size_t len = 0, missing = 0;
    is("one is out", dirgwako_settle(&registry, 1, read, MOST, &len, &missing), 18);
    is("give back", dirgwako_recorder_give_back(&registry, &recorder), 0);
    is("no third board", dirgwako_settle(&registry, 2, read, MOST, &len, &missing), DIRGWAKO_NO_BOARD);
    is("the first", dirgwako_settle(&registry, 0, read, MOST, &len, &missing), 0);
    is("its gauge", value_of(&first, len), 2);
    is("not of the second", value_of(&beyond, len), -16);
    is("the second", dirgwako_settle(&registry, 1, read, MOST, &len, &missing), 0);
    is("its gauge", value_of(&beyond, len), 7);
    is("its versions", (long long)read[abi.workers], 2);
    is("free", dirgwako_registry_free(&registry), 0);
}

/* Families of one group begin on one board, and those of another on the one with most free slots of their kind. */
static void groups(void) {
    static const char *const labels[1] = {"job"};
    dirgwako_counter_family near, same, other;
    dirgwako_counter one, two, three;
    size_t board = 0;
    is("new", dirgwako_registry_new(&registry, 1), 0);
    is("a board", dirgwako_board_add(&registry, &board), 0);
    is("its number", (long long)board, 1);
    is("family", dirgwako_counter_family_new(&registry, "near_total", "Near.", labels, 1, 0, 5, &near), 0);
    is("one", dirgwako_counter_of(&registry, &near, labels, 1, &one), 0);
    is("another group", dirgwako_counter_family_new(&registry, "other_total", "Other.", labels, 1, 0, SIZE_MAX, &other), 0);
    is("the same group", dirgwako_counter_family_new(&registry, "same_total", "Same.", labels, 1, 0, 5, &same), 0);
    is("two", dirgwako_counter_of(&registry, &same, labels, 1, &two), 0);
    is("three", dirgwako_counter_of(&registry, &other, labels, 1, &three), 0);
    is("one group is on one board", one.registry == two.registry, 1);
    is("the other on the other", three.registry == one.registry + 1, 1);
    is("a name of both", dirgwako_counter_family_new(&registry, "near_total", "Near.", labels, 1, 0, 6, &other), 19);
    is("free", dirgwako_registry_free(&registry), 0);
}

/* A name is one family's, whichever board and group it is of. */
static void clashes(void) {
    dirgwako_counter_family counters;
    dirgwako_histogram_family histograms;
    dirgwako_histogram x;
    dirgwako_counter y;
    size_t board = 0;
    is("new", dirgwako_registry_new(&registry, 1), 0);
    is("a board", dirgwako_board_add(&registry, &board), 0);
    is("x", dirgwako_histogram_family_new(&registry, "x", "", NULL, 0, NULL, 0, 0, 1, &histograms), 0);
    is("its histogram", dirgwako_histogram_of(&registry, &histograms, NULL, 0, &x), 0);
    is("y_count", dirgwako_counter_family_new(&registry, "y_count", "", NULL, 0, 0, 2, &counters), 0);
    is("its counter", dirgwako_counter_of(&registry, &counters, NULL, 0, &y), 0);
    is("they are on two boards", y.registry == x.registry + 1, 1);
    is("x_sum where x is", dirgwako_counter_family_new(&registry, "x_sum", "", NULL, 0, 0, 1, &counters), 19);
    is("x_sum where y_count is", dirgwako_counter_family_new(&registry, "x_sum", "", NULL, 0, 0, 2, &counters), 19);
    is("x_sum in a new group", dirgwako_counter_family_new(&registry, "x_sum", "", NULL, 0, 0, 3, &counters), 19);
    is("y where x is", dirgwako_histogram_family_new(&registry, "y", "", NULL, 0, NULL, 0, 0, 1, &histograms), 19);
    is("y where y_count is", dirgwako_histogram_family_new(&registry, "y", "", NULL, 0, NULL, 0, 0, 2, &histograms), 19);
    is("y_sum", dirgwako_histogram_family_new(&registry, "y_sum", "", NULL, 0, NULL, 0, 0, 1, &histograms), 0);
    is("the third", (long long)histograms.number, 2);
    is("free", dirgwako_registry_free(&registry), 0);
}

/* A recorder that has met no board yet outlives its registry. */
static void outlives(void) {
    dirgwako_counter counter;
    is("new", dirgwako_registry_new(&registry, 1), 0);
    is("counter", dirgwako_counter_new(&registry, "a_total", "A.", &counter), 0);
    is("take", dirgwako_recorder_take(&registry, &recorder), 0);
    is("free", dirgwako_registry_free(&registry), 0);
    is("it counts", dirgwako_inc(&recorder, &counter, 1), 0);
    is("free", dirgwako_recorder_free(&recorder), 0);
}

/* The text of two boards: families and children are in one order, whichever board they are on. */
static void shown(void) {
    static const char *const labels[1] = {"job"};
    static const uint64_t bounds[1] = {10};
    static char wanted[4096] = "# TYPE jobs gauge\n";
    char value[16];
    const char *const values[1] = {value};
    dirgwako_histogram_family sizes;
    dirgwako_histogram size;
    is("new", dirgwako_registry_new(&registry, 1), 0);
    is("take", dirgwako_recorder_take(&registry, &recorder), 0);
    is("family", dirgwako_gauge_family_new(&registry, "jobs", "", labels, 1, 0, 0, &jobs), 0);
    for (unsigned i = 0; i <= abi.gauges; i++) {
        snprintf(value, sizeof value, "%03u", i);
        snprintf(wanted + strlen(wanted), 64, "jobs{job=\"%03u\"} %u\n", i, i);
        is("a gauge", dirgwako_gauge_of(&registry, &jobs, values, 1, &last), 0);
        is("up", dirgwako_up(&recorder, &last, i), 0);
        if (!i) first = last;
    }
    is("the last is on the second board", last.registry == first.registry + 1, 1);
    is("another group", dirgwako_histogram_family_new(&registry, "s", "", NULL, 0, bounds, 1, 0, 3, &sizes), 0);
    is("histogram", dirgwako_histogram_of(&registry, &sizes, NULL, 0, &size), 0);
    is("is on the first, of as many free slots", size.registry == first.registry, 1);
    is("observe", dirgwako_observe(&recorder, &size, 3), 0);
    strcat(wanted, "# TYPE s histogram\ns_bucket{le=\"10\"} 1\ns_bucket{le=\"+Inf\"} 1\ns_sum 3\ns_count 1\n");
    shows("the text of two boards", &registry, wanted);
    is("free", dirgwako_recorder_free(&recorder), 0);
    is("free", dirgwako_registry_free(&registry), 0);
}

/* Uses every gauge of 96 boards, the first one of each by one family. */
static void use_all(dirgwako_gauge_family *wide) {
    static const char *const labels[1] = {"job"};
    char name[16];
    is("a family of all boards", dirgwako_gauge_family_new(&registry, "wide", "", labels, 1, 0, 0, wide), 0);
    for (unsigned i = 0; i < MOST_BOARDS * abi.gauges; i++) {
        snprintf(name, sizeof name, "jobs_%u", i / 256);
        if (i % 256 == 0) is("a family", dirgwako_gauge_family_new(&registry, name, "", labels, 1, 0, 0, &jobs), 0);
        is("a gauge", gauge_in(i % abi.gauges ? &jobs : wide, i, &last), 0);
        if (!i) first = last;
        is("its board", last.registry == first.registry + i / abi.gauges && last.slot == i % abi.gauges, 1);
        is("up", dirgwako_up(&recorder, &last, i), 0);
    }
}

/* One family has a child on each of 96 boards, which a text shows, and which is found there again. */
static void is_wide(const dirgwako_gauge_family *wide) {
    char series[32];
    size_t len = 0;
    is("scrape", dirgwako_scrape(&registry, text, sizeof text, &len), 0);
    for (unsigned i = 0; i < MOST_BOARDS; i++) {
        unsigned at = i * (unsigned)abi.gauges;
        snprintf(series, sizeof series, "wide{job=\"%u\"}", at);
        is("it is shown", number(text, len, series), at);
        is("it is there", gauge_in(wide, at, &beyond), 0);
        is("its board", beyond.registry == first.registry + i && beyond.slot == 0, 1);
    }
}

/* Where every gauge of 96 boards is used, none is made any more, and counters are: tried where boards are small. */
static void full(void) {
    static const char *const labels[1] = {"job"};
    dirgwako_gauge_family wide;
    dirgwako_counter counter;
    size_t board = 0;
    if (abi.numbers > 400) return;
    is("new", dirgwako_registry_new(&registry, 1), 0);
    is("take", dirgwako_recorder_take(&registry, &recorder), 0);
    use_all(&wide);
    is("96 boards", count(), MOST_BOARDS);
    is_wide(&wide);
    is("no slot is left for a child of it", gauge_in(&wide, (unsigned)(MOST_BOARDS * abi.gauges), &beyond), 22);
    is("no slot is left", dirgwako_gauge_new(&registry, "g", "", &beyond), DIRGWAKO_NO_CHILD);
    is("its family stays", dirgwako_gauge_new(&registry, "g", "", &beyond), 19);
    is("it has no child", scraped(&registry, "g"), -1);
    is("a further family", dirgwako_gauge_family_new(&registry, "more", "", labels, 1, 0, 1, &jobs), 0);
    is("no slot is left for a child", gauge_of(0, &beyond), 22);
    is("a counter", dirgwako_counter_new(&registry, "c", "", &counter), 0);
    is("inc", dirgwako_inc(&recorder, &counter, 7), 0);
    is("the counter", scraped(&registry, "c"), 7);
    is("no board is left", dirgwako_board_add(&registry, &board), DIRGWAKO_TOO_MANY_BOARDS);
    is("free", dirgwako_recorder_free(&recorder), 0);
    is("free", dirgwako_registry_free(&registry), 0);
}

/* There are 96 boards at most: tried where they are small. */
static void most(void) {
    size_t board = 0;
    if (abi.numbers > 400) return;
    is("new", dirgwako_registry_new(&registry, 1), 0);
    for (long long i = 1; i < MOST_BOARDS; i++) is("a board", dirgwako_board_add(&registry, &board), 0);
    is("96 are there", dirgwako_board_add(&registry, &board), DIRGWAKO_TOO_MANY_BOARDS);
    is("nothing is told", (long long)board, MOST_BOARDS - 1);
    is("96 boards", count(), MOST_BOARDS);
    is("free", dirgwako_registry_free(&registry), 0);
}

void boards(void) {
    comes();
    lists();
    numbers_of_one();
    settled();
    groups();
    clashes();
    outlives();
    shown();
    full();
    most();
}
