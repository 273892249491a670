/* Processes that are killed in the middle of a call, on boards that they share. Compiled with the extension's files for shared boards, which it calls as
   the extension does: killed ROUNDS. Each forked child publishes two changes as one version without rest, and is killed at some time; what is scraped
   afterwards is whole, and what others count is taken. Then children that scrape are killed, three of which may leave a scraper empty each, and further
   ones the registry (34), and nothing else; others scrape as long as a scraper or the registry is left. */
#define _GNU_SOURCE
#include "boards.h"
#include "shared.h"

#include <signal.h>
#include <stdio.h>
#include <stdlib.h>
#include <sys/prctl.h>
#include <sys/wait.h>
#include <time.h>
#include <unistd.h>

enum { BATCH = 40, EACH = 8, SCRAPES = 5, ROOM = 1 << 16, CONTENDED = 14 };

typedef struct server {
    boards boards;
    handle x, y;
    char text[ROOM];
} server;

/* What is told of all rounds, by the processes that made them. */
typedef struct told {
    long killed, within, scrapes;
} told;

static void fail(const char *what, long long number) {
    printf("FAILED: %s: %lld\n", what, number);
    fflush(stdout);
    _exit(1);
}

static void must(const char *what, uint32_t answer) {
    if (answer) fail(what, answer);
}

static void counter(server *it, const char *name, handle *made) {
    static const dirgwako_text none[DIRGWAKO_MOST_LABELS];
    description described = {.kind = COUNTER, .name = {(const uint8_t *)name, strlen(name)}, .help = {(const uint8_t *)"H.", 2}};
    family family;
    must("family", boards_family(&it->boards, &described, &family));
    must("child", boards_child(&it->boards, COUNTER, &family, none, 0, made));
}

static void begin(server *it) {
    memset(&it->boards, 0, sizeof it->boards);
    must("begin", boards_begin(&it->boards));
    counter(it, "x_total", &it->x);
    counter(it, "y_total", &it->y);
}

static long long number(const server *it, const char *line) {
    const char *at = strstr(it->text, line);
    return at ? atoll(at + strlen(line)) : -1;
}

static uint32_t publish(server *it) {
    const dirgwako_change both[2] = {boards_change(COUNTER, &it->x, 1), boards_change(COUNTER, &it->y, 2)};
    return boards_publish(&it->boards, both, 2);
}

static uint32_t scrape(server *it) {
    size_t len = 0;
    uint32_t answer = boards_scrape(&it->boards, (uint8_t *)it->text, ROOM - 1, &len);
    it->text[answer ? 0 : len] = 0;
    return answer;
}

static void count_forever(server *it) {
    for (;;) must("a child counts", publish(it));
}

static void scrape_forever(server *it) {
    for (;;) must("a child scrapes", scrape(it));
}

static void kill_one(server *it, void (*work)(server *), long at) {
    pid_t server = getpid(), child = fork();
    if (child < 0) fail("fork", child);
    if (!child) {
        prctl(PR_SET_PDEATHSIG, SIGKILL); /* none outlives a test that fails */
        if (getppid() == server) work(it);
        _exit(1);
    }
    usleep(300 + (useconds_t)(at * 37 % 1200));
    kill(child, SIGKILL);
    waitpid(child, NULL, 0);
}

/* How many recorders are left, and not within a call. */
static long left(const server *it) {
    long count = 0;
    for (size_t i = 0; i < it->boards.common->count; i++) count += it->boards.common->places[i].recorder.live != 0;
    return count;
}

/* Kills that leave the server's own recorder and one for the next child; then boards anew. */
static void batch(server *it, told *out, long from) {
    begin(it);
    must("count", publish(it));
    for (long i = 0; i < BATCH; i++) {
        if (left(it) < 2) begin(it), must("count", publish(it));
        long whole = left(it);
        kill_one(it, count_forever, from + i);
        out->killed++, out->within += whole - left(it);
        for (int k = 0; k < SCRAPES; k++) {
            must("count after a kill", publish(it));
            must("scrape after a kill", scrape(it));
            if (2 * number(it, "\nx_total ") != number(it, "\ny_total ") || number(it, "\nx_total ") < 1) fail("torn", number(it, "\nx_total "));
            out->scrapes++;
        }
    }
}

/* How many scrapers are left, and not within a call. */
static long scrapers_left(const server *it) {
    long count = 0;
    for (int i = 0; i < SCRAPERS; i++) count += it->boards.common->scrapers[i].scraper.live != 0;
    return count;
}

/* A child that scrapes is killed: at most its scraper is lost, and the registry only where none was left. */
static void kill_a_scraper(server *it, told *out, long at, long long counted) {
    const long before = scrapers_left(it);
    kill_one(it, scrape_forever, at);
    const long after = scrapers_left(it);
    uint32_t answer = scrape(it);
    if (before - after > 1 || (!answer) != (it->boards.common->registry.live || after)) fail("what a killed scraper left", answer);
    if (answer && answer != DIRGWAKO_EMPTY) fail("scrape after a kill of a scraper", answer);
    if (before && !it->boards.common->registry.live) fail("a registry that was lost beside scrapers", before);
    if (!answer && number(it, "\ny_total ") != 2 * counted) fail("torn by a killed scraper", number(it, "\ny_total "));
    out->killed++, out->within += before - after, out->scrapes += !answer;
}

/* The children are dead, so the boards may be freed. */
static void end(server *it) {
    it->boards.forks = shared_forks();
    boards_end(&it->boards);
}

/* Some children of each registry, fewer where it is lost. */
static void batch_of_scrapers(server *it, told *out, long from) {
    long long counted = 0;
    begin(it);
    for (long i = 0; i < BATCH; i++) {
        if (counted == EACH || !it->boards.common->registry.live) end(it), begin(it), counted = 0;
        must("count", publish(it));
        kill_a_scraper(it, out, from + i, ++counted);
    }
    must("count where the registry may be empty", publish(it));
    end(it);
}

/* Each batch in a process of its own, whose memory ends with it: what a killed one held is never freed. */
static told batches(void (*work)(server *, told *, long), long rounds) {
    told all = {0, 0, 0};
    for (long from = 0; from < rounds; from += BATCH) {
        int pipes[2], status;
        told one = {0, 0, 0};
        if (pipe(pipes)) fail("pipe", 0);
        pid_t child = fork();
        if (!child) {
            static server it;
            work(&it, &one, from);
            _exit(write(pipes[1], &one, sizeof one) != sizeof one);
        }
        close(pipes[1]);
        if (read(pipes[0], &one, sizeof one) != sizeof one || waitpid(child, &status, 0) != child || status) exit(1);
        close(pipes[0]);
        all.killed += one.killed, all.within += one.within, all.scrapes += one.scrapes;
    }
    return all;
}

/* A process that stays in the registry does not stop the others: they count and scrape, and are refused after a second where they would register. */
static void held(void) {
    static server it;
    int pipes[2];
    char byte = 0;
    begin(&it);
    must("count", publish(&it));
    if (pipe(pipes)) fail("pipe", 0);
    pid_t child = fork();
    if (!child) {
        prctl(PR_SET_PDEATHSIG, SIGKILL);
        must("enter", shared_enter(it.boards.common));
        if (write(pipes[1], "x", 1) != 1) _exit(1);
        for (;;) pause();
    }
    if (read(pipes[0], &byte, 1) != 1) fail("read", 0);
    must("count where the registry is held", publish(&it));
    must("scrape where the registry is held", scrape(&it));
    if (number(&it, "\ny_total ") != 4) fail("torn", number(&it, "\ny_total "));
    size_t boards;
    uint32_t answer = boards_count(&it.boards, &boards);
    kill(child, SIGKILL);
    waitpid(child, NULL, 0);
    if (answer != CONTENDED) fail("a registry that is held", answer);
    must("when its holder is dead", boards_count(&it.boards, &boards));
    must("scrape", scrape(&it));
}

int main(int count, char **words) {
    long rounds = count > 1 ? atol(words[1]) : 400;
    told counters = batches(batch, rounds);
    told scrapers = batches(batch_of_scrapers, rounds / 10);
    held();
    printf("%ld killed while they counted, %ld of them within a call: %ld scrapes, none torn; %ld killed while they scraped, %ld of which lost a scraper, and "
           "%ld scrapes behind them\n",
           counters.killed, counters.within, counters.scrapes, scrapers.killed, scrapers.within, scrapers.scrapes);
    return counters.killed < rounds || !counters.within || !scrapers.within;
}
