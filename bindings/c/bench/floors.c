/* The floors: loads and stores of plain atomic numbers, each sequentially consistent, and nothing else of an operation. Each load is of a number of
   its own, but that the numbers of the workers are loaded twice. They are 128 bytes apart, and all other words side by side. */
#include "bench.h"
#include <stdlib.h>

void floor_open(struct floor *it, size_t workers, size_t count, size_t copied) {
    memset(it, 0, sizeof *it);
    it->workers = workers;
    it->count = count;
    it->copied = copied;
    it->numbers = zeros(workers, sizeof *it->numbers);
    it->words = zeros(count, sizeof *it->words);
    it->from = zeros(copied, sizeof *it->from);
    it->to = zeros(copied, sizeof *it->to);
}

void floor_close(struct floor *it) {
    free(it->numbers);
    free((void *)it->words);
    free(it->from);
    free(it->to);
    free(it->copy);
}

void floor_text(struct floor *it, const struct text *text) {
    size_t lines = 0;
    for (size_t i = 0; i < text->len; i++) lines += text->at[i] == '\n';
    it->text = text->at;
    it->len = text->len;
    it->piece = lines && text->len > lines ? text->len / lines : 1;
    it->copy = zeros(text->len, 1);
}

/* Loads each number once; their wrapping sum. */
static uint64_t load(const struct number *numbers, size_t count) {
    uint64_t sum = 0;
    for (size_t i = 0; i < count; i++) sum += numbers[i].at;
    return sum;
}

/* Updates by the worker of this number, which store these words. */
static void update(struct floor *it, size_t own, _Atomic uint64_t *words, size_t count, uint64_t rounds) {
    uint64_t sum = 0;
    for (uint64_t number = 0; number < rounds; number++) {
        sum += load(it->numbers, it->workers) + load(it->numbers, it->workers);
        for (size_t i = 0; i < count; i++) words[i] = number;
        it->numbers[own].at = number;
    }
    it->sum = sum;
}

void floor_update(void *of, uint64_t rounds) {
    struct floor *it = of;
    update(it, 0, it->words, it->count, rounds);
}

void floor_add(void *of, uint64_t rounds) {
    struct floor *it = of;
    for (uint64_t i = 0; i < rounds; i++) atomic_fetch_add(it->words, 1);
}

/* Copies the text, piece by piece. */
static void copy_pieces(struct floor *it) {
    size_t at = 0;
    for (; it->len - at > it->piece; at += it->piece) memcpy(it->copy + at, it->text + at, it->piece);
    memcpy(it->copy + at, it->text + at, it->len - at);
}

/* One scan. */
static void scan(struct floor *it) {
    uint64_t sum = load(it->numbers, it->workers);
    for (size_t i = 0; i < it->count; i++) sum += it->words[i];
    memcpy(it->to, it->from, it->copied * sizeof *it->to);
    it->sum = sum + load(it->numbers, it->workers);
    if (it->text) copy_pieces(it);
}

void floor_scan(void *of, uint64_t rounds) {
    for (uint64_t i = 0; i < rounds; i++) scan(of);
}

/* What one of four threads makes of a floor: in the floor that they share it has a number, and three words. */
struct share {
    struct floor *floor;
    size_t own;
    int is_addition;
};

static void repeat(void *of, uint64_t rounds) {
    struct share *it = of;
    struct floor own = *it->floor;
    if (it->is_addition) floor_add(&own, rounds);
    else update(&own, it->own, own.words + 3 * it->own, 3, rounds);
}

uint64_t floor_by_four(struct floor *it, int is_addition, uint64_t rounds) {
    struct share shares[FOUR];
    struct work works[FOUR];
    for (size_t i = 0; i < FOUR; i++) {
        shares[i] = (struct share){it, i, is_addition};
        works[i] = (struct work){repeat, &shares[i]};
    }
    return timed_by_four(works, rounds);
}
