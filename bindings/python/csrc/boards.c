/* All calls of the C library are here. A registry and its recorders are either a process's own, or in memory that it shares with those that it forks;
   what differs are some functions: who begins and ends them, which recorder is this process's, who else may be in the registry, and who scrapes beside
   it. */
#include "boards.h"

/* A scrape keeps what it read, and no call here reads an older one. */
enum { WINDOW = 1 };

#ifdef DIRGWAKO_SHARED
#include "shared.h"

static dirgwako_registry *registry_of(boards *it) {
    return &it->common->registry;
}

/* A process takes its recorder at its first count. */
static uint32_t recorder_of(boards *it, dirgwako_recorder **out) {
    if (it->process != shared_process() || it->place < 0) {
        it->place = -1;
        it->process = shared_process();
        uint32_t answer = shared_take_place(it->common, &it->place);
        if (answer) return answer;
    }
    *out = &it->common->places[it->place].recorder;
    return DIRGWAKO_OK;
}

static uint32_t enter(boards *it) {
    return shared_enter(it->common);
}

static void leave(boards *it) {
    shared_leave(it->common);
}

/* By a scraper, which takes no lock: a process that dies, or is stopped, within its scrape holds up no other. Where each one is lost, or another process
   is within it, nobody scrapes beside the registry. */
static int scrapes_beside(boards *it, uint8_t *buffer, size_t room, size_t *len, uint32_t *answer) {
    int at;
    if (__atomic_load_n(&it->common->is_behind, __ATOMIC_RELAXED) || shared_take_scraper(it->common, &at)) return 0;
    *answer = dirgwako_scraper_scrape(&it->common->scrapers[at].scraper, (char *)buffer, room, len);
    shared_leave_scraper(it->common, at);
    return 1;
}

/* Whether a child that found no memory has left scrapers behind. */
static void note(boards *it, uint32_t answer) {
    size_t count = 0;
    if (answer == 6 && !dirgwako_scrapers(registry_of(it), &count) && !count) __atomic_store_n(&it->common->is_behind, 1, __ATOMIC_RELAXED);
}

uint32_t boards_begin(boards *it) {
    dirgwako_abi built;
    uint32_t answer = dirgwako_built_for(&built);
    if (answer || (answer = shared_begin(&it->common))) return answer;
    common *made = it->common;
    it->place = -1, it->process = shared_process(), it->forks = shared_forks();
    answer = dirgwako_registry_new_with(&made->registry, WINDOW, SCRAPERS);
    for (; !answer && made->count < built.workers && made->count < MOST_PLACES; made->count++)
        answer = dirgwako_recorder_take(&made->registry, &made->places[made->count].recorder);
    for (int i = 0; i < SCRAPERS && !answer; i++) answer = dirgwako_scraper_take(&made->registry, &made->scrapers[i].scraper);
    return answer;
}

/* Other processes may count on the boards where a fork lies between: then their memory stays, and this process's recorder goes to the next one. */
void boards_end(boards *it) {
    if (!it->common) return;
    if (it->forks != shared_forks()) {
        if (it->process == shared_process() && it->place >= 0) shared_leave_place(it->common, it->place);
        return;
    }
    for (size_t i = 0; i < it->common->count; i++) dirgwako_recorder_free(&it->common->places[i].recorder);
    for (int i = 0; i < SCRAPERS; i++) dirgwako_scraper_free(&it->common->scrapers[i].scraper);
    dirgwako_registry_free(&it->common->registry);
    shared_end(it->common);
}

unsigned boards_process(void) {
    return shared_process();
}
#else
static dirgwako_registry *registry_of(boards *it) {
    return &it->registry;
}

static uint32_t recorder_of(boards *it, dirgwako_recorder **out) {
    *out = &it->recorder;
    return DIRGWAKO_OK;
}

static uint32_t enter(boards *it) {
    (void)it;
    return DIRGWAKO_OK;
}

static void leave(boards *it) {
    (void)it;
}

static int scrapes_beside(boards *it, uint8_t *buffer, size_t room, size_t *len, uint32_t *answer) {
    (void)it, (void)buffer, (void)room, (void)len, (void)answer;
    return 0;
}

static void note(boards *it, uint32_t answer) {
    (void)it, (void)answer;
}

uint32_t boards_begin(boards *it) {
    uint32_t answer = dirgwako_registry_new(&it->registry, WINDOW);
    return answer ? answer : dirgwako_recorder_take(&it->registry, &it->recorder);
}

/* What was not begun is refused (34), which is no fault here. Metrics hold their registry, so nothing counts after this. */
void boards_end(boards *it) {
    dirgwako_recorder_free(&it->recorder);
    dirgwako_registry_free(&it->registry);
}

/* A forked child has a copy of the boards, and goes on with its parent's numbers. */
unsigned boards_process(void) {
    return 0;
}
#endif

/* Python's texts may have zero bytes within, so they go by their lengths, not through the header's functions of C strings. These take no null
   pointer: the arrays of a description are there also where a count is 0. */
static uint32_t make_family(dirgwako_registry *registry, const description *d, family *made) {
    switch (d->kind) {
    case COUNTER:
        return dirgwako_c_counter_family_new(registry, d->name.at, d->name.len, d->help.at, d->help.len, d->labels, d->label_count, d->digits, d->group,
                                             &made->counter);
    case GAUGE:
        return dirgwako_c_gauge_family_new(registry, d->name.at, d->name.len, d->help.at, d->help.len, d->labels, d->label_count, d->digits, d->group,
                                           &made->gauge);
    case HISTOGRAM:
        return dirgwako_c_histogram_family_new(registry, d->name.at, d->name.len, d->help.at, d->help.len, d->labels, d->label_count, d->bounds,
                                               d->bound_count, d->digits, d->group, &made->histogram);
    }
    return DIRGWAKO_NO_KIND;
}

uint32_t boards_family(boards *it, const description *described, family *made) {
    uint32_t answer = enter(it);
    if (answer) return answer;
    answer = make_family(registry_of(it), described, made);
    leave(it);
    return answer;
}

static uint32_t make_child(dirgwako_registry *registry, enum kind kind, const family *of, const dirgwako_text *values, size_t count, handle *made) {
    switch (kind) {
    case COUNTER: return dirgwako_c_counter_of(registry, &of->counter, values, count, &made->counter);
    case GAUGE: return dirgwako_c_gauge_of(registry, &of->gauge, values, count, &made->gauge);
    case HISTOGRAM: return dirgwako_c_histogram_of(registry, &of->histogram, values, count, &made->histogram);
    }
    return DIRGWAKO_NO_KIND;
}

/* `values` is an array of DIRGWAKO_MOST_LABELS, also where the count is 0. */
uint32_t boards_child(boards *it, enum kind kind, const family *of, const dirgwako_text *values, size_t count, handle *made) {
    uint32_t answer = enter(it);
    if (answer) return answer;
    answer = make_child(registry_of(it), kind, of, values, count, made);
    note(it, answer);
    leave(it);
    return answer;
}

uint32_t boards_inc(boards *it, const dirgwako_counter *counter, uint64_t by) {
    dirgwako_recorder *recorder;
    uint32_t answer = recorder_of(it, &recorder);
    return answer ? answer : dirgwako_c_inc(recorder, counter, by);
}

uint32_t boards_observe(boards *it, const dirgwako_histogram *histogram, uint64_t value) {
    dirgwako_recorder *recorder;
    uint32_t answer = recorder_of(it, &recorder);
    return answer ? answer : dirgwako_c_observe(recorder, histogram, value);
}

uint32_t boards_move(boards *it, const dirgwako_gauge *gauge, int64_t by) {
    dirgwako_recorder *recorder;
    uint32_t answer = recorder_of(it, &recorder);
    if (answer) return answer;
    return by < 0 ? dirgwako_c_down(recorder, gauge, (uint64_t)-by) : dirgwako_c_up(recorder, gauge, (uint64_t)by);
}

dirgwako_change boards_change(enum kind kind, const handle *of, int64_t by) {
    if (kind == COUNTER) return dirgwako_change_inc(&of->counter, (uint64_t)by);
    if (kind == HISTOGRAM) return dirgwako_change_observe(&of->histogram, (uint64_t)by);
    return by < 0 ? dirgwako_change_down(&of->gauge, (uint64_t)-by) : dirgwako_change_up(&of->gauge, (uint64_t)by);
}

uint32_t boards_publish(boards *it, const dirgwako_change *changes, size_t count) {
    dirgwako_recorder *recorder;
    uint32_t answer = recorder_of(it, &recorder);
    return answer ? answer : dirgwako_publish(recorder, changes, count);
}

uint32_t boards_scrape(boards *it, uint8_t *buffer, size_t room, size_t *len) {
    uint32_t answer;
    if (scrapes_beside(it, buffer, room, len, &answer)) return answer;
    answer = enter(it);
    if (answer) return answer;
    answer = dirgwako_scrape(registry_of(it), (char *)buffer, room, len);
    leave(it);
    return answer;
}

uint32_t boards_count(boards *it, size_t *count) {
    uint32_t answer = enter(it);
    if (answer) return answer;
    answer = dirgwako_boards(registry_of(it), count);
    leave(it);
    return answer;
}

uint32_t boards_number(boards *it, enum kind kind, const handle *of, size_t *number) {
    uint64_t id = kind == COUNTER ? of->counter.registry : kind == GAUGE ? of->gauge.registry : of->histogram.registry;
    uint32_t answer = enter(it);
    if (answer) return answer;
    answer = dirgwako_board_of(registry_of(it), id, number);
    leave(it);
    return answer;
}

const char *boards_words(uint32_t number, char *buffer, size_t room) {
    return dirgwako_refusal(number, buffer, room);
}

int boards_built_for(dirgwako_abi *built) {
    return !dirgwako_built_for(built) && built->version == DIRGWAKO_ABI && built->counter_bytes == sizeof(dirgwako_counter) &&
           built->gauge_bytes == sizeof(dirgwako_gauge) && built->histogram_bytes == sizeof(dirgwako_histogram) &&
           built->family_bytes == sizeof(dirgwako_counter_family) && built->change_bytes == sizeof(dirgwako_change);
}
