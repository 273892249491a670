/* `bench starved`: reads of a board's numbers beside threads that publish without rest. How many of them are given up, and what do they cost an
   update?

   Reads come at four paces, and each pace is measured twice: once for what a version and a read take, and once where each update is timed, by two
   readings of the clock, which are part of its time. */
#include "bench.h"
#include "times.h"
#include <inttypes.h>
#include <sched.h>
#include <stdio.h>
#include <time.h>

/* What the threads that publish, and the one that reads, tell each other. */
struct flags {
    atomic_size_t begun;
    atomic_bool is_to_end;
};

/* What a thread publishes with, how often it loads a number of its own between two versions, and what it found. */
struct publisher {
    _Alignas(128) dirgwako_recorder recorder;
    dirgwako_counter counter;
    uint64_t spins;
    int is_timed;
    struct flags *flags;
    struct times times;
    uint64_t nanos, versions;
};

/* The threads, and the registry whose only board is read. */
struct crowd {
    dirgwako_registry registry;
    size_t threads;
    struct publisher all[MOST_WORKERS];
    struct flags flags;
};

/* How reads come: so many, or as many turns without a read, behind each of which so many microseconds pass. */
struct pace {
    const char *name;
    int is_read;
    uint64_t turns, micros;
};

/* What was found of the reads of a pace. */
struct found {
    uint64_t reads, given_up, nanos, longest;
};

static void spin(_Atomic uint64_t *word, uint64_t spins) {
    for (uint64_t i = 0; i < spins; i++) (void)atomic_load(word);
}

/* Publishes until it is told to end. */
static void publish_on(struct publisher *it) {
    _Atomic uint64_t word = 0;
    do {
        want(dirgwako_inc(&it->recorder, &it->counter, 1));
        spin(&word, it->spins);
        it->versions++;
    } while (!it->flags->is_to_end);
}

/* The same, where each update is timed. */
static void publish_timed(struct publisher *it) {
    _Atomic uint64_t word = 0;
    do {
        uint64_t since = now();
        want(dirgwako_inc(&it->recorder, &it->counter, 1));
        times_note(&it->times, now() - since);
        spin(&word, it->spins);
        it->versions++;
    } while (!it->flags->is_to_end);
}

static void *run(void *given) {
    struct publisher *it = given;
    uint64_t since;
    want(dirgwako_inc(&it->recorder, &it->counter, 1));
    atomic_fetch_add(&it->flags->begun, 1);
    since = now();
    if (it->is_timed) publish_timed(it);
    else publish_on(it);
    it->nanos = now() - since;
    return NULL;
}

/* One read more, timed. */
static void read_one(dirgwako_registry *registry, struct found *found) {
    static uint64_t numbers[DIRGWAKO_MOST_NUMBERS];
    size_t len;
    uint64_t since = now(), nanos;
    uint32_t answer = dirgwako_read(registry, 0, numbers, DIRGWAKO_MOST_NUMBERS, &len);
    nanos = now() - since;
    if (answer != 14) want(answer);
    found->reads++;
    found->given_up += answer == 14;
    found->nanos += nanos;
    if (nanos > found->longest) found->longest = nanos;
}

/* Makes the reads of a pace. A sleep takes some 60 microseconds, also where it is of none. */
static struct found read_all(dirgwako_registry *registry, const struct pace *pace) {
    struct found found = {0};
    struct timespec rest = {(time_t)(pace->micros / 1000000), (long)(pace->micros % 1000000 * 1000)};
    for (uint64_t turn = 0; turn < pace->turns; turn++) {
        if (pace->is_read) read_one(registry, &found);
        if (pace->micros) nanosleep(&rest, NULL);
    }
    return found;
}

/* Makes the reads of a pace beside the threads. */
static struct found read_beside(struct crowd *it, const struct pace *pace, int is_timed) {
    pthread_t threads[MOST_WORKERS];
    struct found found;
    it->flags.begun = 0;
    it->flags.is_to_end = 0;
    for (size_t i = 0; i < it->threads; i++) {
        it->all[i].is_timed = is_timed;
        it->all[i].versions = 0;
        start(&threads[i], run, &it->all[i]);
    }
    while (it->flags.begun < it->threads) sched_yield();
    found = read_all(&it->registry, pace);
    it->flags.is_to_end = 1;
    for (size_t i = 0; i < it->threads; i++) await(threads[i]);
    return found;
}

/* The nanoseconds of a version of the threads. */
static double version_time(const struct crowd *it) {
    uint64_t nanos = 0, versions = 0;
    for (size_t i = 0; i < it->threads; i++) {
        nanos += it->all[i].nanos;
        versions += it->all[i].versions;
    }
    return each_of(nanos, versions);
}

/* The same where each update is timed: how long the updates of all threads took. */
static struct times times_beside(struct crowd *it, const struct pace *pace) {
    struct times all;
    times_open(&all);
    for (size_t i = 0; i < it->threads; i++) times_open(&it->all[i].times);
    read_beside(it, pace, 1);
    for (size_t i = 0; i < it->threads; i++) {
        times_add(&all, &it->all[i].times);
        times_close(&it->all[i].times);
    }
    return all;
}

/* Reads at one pace, and prints what was found. */
static void at_pace(struct crowd *it, const char *of, const struct pace *pace) {
    struct found found = read_beside(it, pace, 0);
    double version = version_time(it), each = each_of(found.nanos, found.reads);
    struct times times = times_beside(it, pace);
    uint64_t p50 = times_all_but(&times, 500), p99 = times_all_but(&times, 10), p999 = times_all_but(&times, 1);
    printf("%s %s scans %" PRIu64 " given_up %" PRIu64 " scan %.2f longest %" PRIu64 "\n", pace->name, of, found.reads, found.given_up, each,
           found.longest);
    printf("%s %s version %.2f update p50 %" PRIu64 " p99 %" PRIu64 " p99.9 %" PRIu64 " longest %" PRIu64 "\n", pace->name, of, version, p50, p99,
           p999, times.longest);
    times_close(&times);
}

/* A registry with one counter, and a recorder for each thread. */
static void open_crowd(struct crowd *it, size_t threads, uint64_t spins) {
    dirgwako_counter counter;
    it->threads = threads;
    want(dirgwako_registry_new(&it->registry, 1));
    want(dirgwako_counter_new(&it->registry, "one_total", "One.", &counter));
    for (size_t i = 0; i < threads; i++) {
        it->all[i].counter = counter;
        it->all[i].spins = spins;
        it->all[i].flags = &it->flags;
        want(dirgwako_recorder_take(&it->registry, &it->all[i].recorder));
    }
}

int bench_starved(size_t threads, uint64_t spins, uint64_t scans) {
    static struct crowd it;
    struct geometry geometry = linked();
    const struct pace paces[4] = {
        {"no_scan", 0, 3, 1000000},
        {"scan_each_second", 1, 3, 1000000},
        {"scan_each_millisecond", 1, 3000, 1000},
        {"scan_without_rest", 1, scans, 0},
    };
    open_crowd(&it, threads < geometry.workers ? threads : geometry.workers, spins);
    for (int i = 0; i < 4; i++) at_pace(&it, geometry.name, &paces[i]);
    for (size_t i = 0; i < it.threads; i++) want(dirgwako_recorder_free(&it.all[i].recorder));
    want(dirgwako_registry_free(&it.registry));
    return ended();
}
