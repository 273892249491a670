/* `bench ROUNDS`: updates, lists, tallies, reads and scrapes of the linked library, each beside its floor. */
#include "bench.h"
#include <stdio.h>
#include <stdlib.h>

/* What one of the board's workers makes, beside an update that stores so many words. */
static void by_one(const struct lines *lines, struct board *board, const char *name, uint64_t part, size_t words, void (*repeat)(void *, uint64_t)) {
    struct floor floor;
    floor_open(&floor, board->workers, words, 0);
    measure(lines, name, part, (struct work){floor_update, &floor}, (struct work){repeat, &board->all[0]});
    floor_close(&floor);
}

/* What four of them make at once. There is one batch: a worker whose scan meets numbers that move reads rows and tries again. */
static void busy(const struct lines *lines, struct board *board, const char *name, uint64_t part, void (*repeat)(void *, uint64_t), int is_addition) {
    struct floor floor;
    uint64_t rounds = one_in(lines->rounds, part), least;
    floor_open(&floor, board->workers, 3 * FOUR, 0);
    least = floor_by_four(&floor, is_addition, rounds);
    line(lines, name, rounds, by_four(board, repeat, rounds), least);
    floor_close(&floor);
}

/* Reads of the board's numbers, again and again. */
struct reading {
    dirgwako_registry *registry;
    uint64_t numbers[DIRGWAKO_MOST_NUMBERS];
};

static void read_often(void *of, uint64_t rounds) {
    struct reading *it = of;
    size_t len;
    for (uint64_t i = 0; i < rounds; i++) want(dirgwako_read(it->registry, 0, it->numbers, DIRGWAKO_MOST_NUMBERS, &len));
}

/* The floor of a read after so many rows have moved: the scan copies the vector and the totals, and the caller gets them once more. */
static void floor_of_read(struct floor *floor, const struct geometry *geometry, size_t moved) {
    floor_open(floor, geometry->workers, moved * geometry->words, 2 * (geometry->workers + geometry->words));
}

static void read_quiet(const struct lines *lines, struct reading *reading) {
    struct floor floor;
    floor_of_read(&floor, lines->geometry, 0);
    measure(lines, "read_quiet", 10, (struct work){floor_scan, &floor}, (struct work){read_often, reading});
    floor_close(&floor);
}

/* The nanoseconds of so many reads, each of them timed by itself, after so many workers have published, less what the clock takes. */
static uint64_t timed_each(struct board *board, struct reading *reading, size_t moved, uint64_t rounds) {
    struct work work = {read_often, reading};
    uint64_t taken = 0, nothing = 0;
    for (uint64_t i = 0; i < rounds; i++) {
        for (size_t at = 0; at < moved; at++) inc(&board->all[at], 1);
        taken += timed(work, 1);
        nothing += timed(work, 0);
    }
    return taken > nothing ? taken - nothing : 0;
}

/* Reads after so many workers have published; none where there are fewer. */
static void read_moved(const struct lines *lines, struct board *board, struct reading *reading, const char *name, size_t moved) {
    struct floor floor;
    uint64_t rounds = batch(lines, 1000), least = UINT64_MAX, taken = UINT64_MAX;
    if (moved > board->workers) return;
    floor_of_read(&floor, lines->geometry, moved);
    for (int i = 0; i < BATCHES; i++) {
        uint64_t below = timed((struct work){floor_scan, &floor}, rounds), above = timed_each(board, reading, moved, rounds);
        if (below < least) least = below;
        if (above < taken) taken = above;
    }
    line(lines, name, rounds, taken, least);
    floor_close(&floor);
}

static void reads(const struct lines *lines, struct board *board) {
    static struct reading reading;
    reading.registry = &board->registry;
    read_quiet(lines, &reading);
    read_moved(lines, board, &reading, "read_moved_1", 1);
    read_moved(lines, board, &reading, "read_moved_4", 4);
    read_moved(lines, board, &reading, "read_moved_16", 16);
}

/* Updates and reads. A buffer is two versions old when it is filled, so that where all counters are taken in turn, two words of the row and two
   totals differ from it. */
static void updates(const struct lines *lines) {
    struct board *board = board_open(lines->geometry);
    by_one(lines, board, "inc_one_counter", 10, 3, inc);
    by_one(lines, board, "inc_in_turn", 10, 5, inc_next);
    by_one(lines, board, "observe", 10, 7, observe);
    reads(lines, board);
    busy(lines, board, "busy_4", 1, inc, 0);
    board_close(board);
}

/* A list of an increment of each of the first hundred counters, or of all: of each a word and its total differ. */
static void long_list(const struct lines *lines) {
    struct board *board = board_open(lines->geometry);
    size_t listed = lines->geometry->counters < LISTED ? lines->geometry->counters : LISTED;
    list_incs(board, listed);
    by_one(lines, board, "apply_list", 100, 2 * listed + 1, publish);
    board_close(board);
}

/* Counting in tallies, beside additions to one word. */
static void tallies(const struct lines *lines) {
    struct board *board = board_open(lines->geometry);
    struct floor floor;
    floor_open(&floor, board->workers, 1, 0);
    measure(lines, "tally_inc", 1, (struct work){floor_add, &floor}, (struct work){tally_inc, &board->all[0]});
    measure(lines, "tally_observe", 1, (struct work){floor_add, &floor}, (struct work){tally_observe, &board->all[0]});
    floor_close(&floor);
    busy(lines, board, "tally_busy_4", 1, tally_inc, 1);
    board_close(board);
}

/* A list, by one worker, whose floor stores so many words, and by four, so often as `part` says. */
static void lists(const struct lines *lines, const char *name, const char *by_all, uint64_t part, int is_inc, size_t listed, size_t words) {
    struct board *board = board_open(lines->geometry);
    if (is_inc) list_incs(board, listed);
    else list_observes(board, listed);
    by_one(lines, board, name, 10, words, publish);
    busy(lines, board, by_all, part, publish, 0);
    board_close(board);
}

/* Scrapes with their texts of a service, where the board has room for it: the floor is a scan, and a copy of the text. */
static void scrapes(const struct lines *lines, const char *name, const struct service *service) {
    dirgwako_registry registry = {0};
    struct gathering first = {&registry, {0}}, gathering = first;
    struct floor floor;
    size_t has_room = CHILDREN * service->counters <= lines->geometry->counters && CHILDREN * service->histograms <= lines->geometry->histograms;
    if (!has_room) return;
    service_open(&registry, service, WINDOW);
    gather_often(&first, 1);
    floor_open(&floor, lines->geometry->workers, 0, lines->geometry->workers + lines->geometry->words);
    floor_text(&floor, &first.text);
    measure(lines, name, 1000, (struct work){floor_scan, &floor}, (struct work){gather_often, &gathering});
    floor_close(&floor);
    free(first.text.at);
    free(gathering.text.at);
    want(dirgwako_registry_free(&registry));
}

int bench_rounds(uint64_t rounds) {
    struct geometry geometry = linked();
    struct lines lines = {rounds, &geometry};
    updates(&lines);
    long_list(&lines);
    tallies(&lines);
    lists(&lines, "publish_10_inc", "busy_4_10_inc", 10, 1, TEN, 21);
    lists(&lines, "publish_10_observe", "busy_4_10_observe", 10, 0, TEN, 25);
    lists(&lines, "publish_observe", "busy_4_observe", 1, 0, 1, 7);
    scrapes(&lines, "scrape_small", &small);
    scrapes(&lines, "scrape_large", &large);
    if (rounds == 0) printf("measured %s: updates, lists, tallies, reads and scrapes\n", geometry.name);
    return ended();
}
