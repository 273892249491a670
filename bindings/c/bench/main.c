/* What the linked library of Dirgwako does in how much time, beside as many loads and stores of plain atomic numbers; and work for load tools, checks
   and comparisons. From the top of the repository, once the library is built:

     cc -std=c11 -D_POSIX_C_SOURCE=200809L -O2 bindings/c/bench/[a-z]*.c -Ibindings/c bindings/out/libdirgwako.a -lpthread -o bench

   or, where it is installed, with $(pkg-config --cflags --libs dirgwako) in the place of the path and the archive. It measures the library that it is
   linked with: `dirgwako`, `dirgwako16`, `dirgwako32` or one that was built for numbers of your own.

     bench ROUNDS                          updates, lists, tallies, reads and scrapes, a line each: its name, the geometry as `N,C,H,G`, the
                                           nanoseconds of one, and how many times that is what its floor takes. Each batch has a part of so many
                                           rounds; with 0 each has one, and one line is printed that is always the same
     bench updates ROUNDS                  updates, a line `NAME THREADS NANOSECONDS` each, as the programs of compare/ print them; a name that
                                           begins with `tally_` is of a tally
     bench gather ROUNDS small|large       the nanoseconds of a scrape with its text, and its bytes: of 64 counters and 8 histograms, or 256 and 32
     bench torn SCRAPES apart|together     so many scrapes of a board on which a thread counts without rest, each behind a line `---`: torn.c
     bench serve PORT REPLIES small|large  serves such a service on 127.0.0.1 by four threads, each of which answers so many connections. Standard
                                           error tells the port, which the system chooses where it is 0; at the end it prints the bytes of a text
     bench starved THREADS SPINS SCANS     reads at four paces beside so many threads that publish without rest, each of which loads a number of
                                           its own SPINS times between two versions: starved.c
     bench page SCRAPES one|whole|spread   a page of several boards, in nanoseconds; with 0 its text: page.c
     bench scrapers SCRAPES                three scrapers, each of which scrapes so often beside all threads that count without rest: scrapers.c

   Exit status 0 at the end; 2 for other arguments; 1 where something failed. */
#include "bench.h"
#include <stdio.h>

static const char USAGE[] = "usage: bench ROUNDS, at most 1000000000, or bench updates ROUNDS, or bench gather ROUNDS small|large, "
                            "or bench torn SCRAPES apart|together, or bench serve PORT REPLIES small|large, or bench starved THREADS SPINS SCANS, "
                            "or bench page SCRAPES one|whole|spread, or bench scrapers SCRAPES\n";

/* A number in digits alone, or -1 where it is none or more than `most`. */
static long number(const char *word, long most) {
    long it = 0;
    if (!*word) return -1;
    for (; *word; word++) {
        if (*word < '0' || *word > '9') return -1;
        it = 10 * it + (*word - '0');
        if (it > most) return -1;
    }
    return it;
}

/* Which of these words it is, or -1. */
static int among(const char *word, const char *const words[], int count) {
    for (int i = 0; i < count; i++) {
        if (!strcmp(word, words[i])) return i;
    }
    return -1;
}

static const struct service *service_of(const char *word) {
    if (!strcmp(word, "small")) return &small;
    return strcmp(word, "large") ? NULL : &large;
}

/* A word, a number and how. Each function answers the status, or -1 for other arguments. */
static int run_three(const char *word, const char *first, const char *how) {
    static const char *const orders[2] = {"together", "apart"}, *const layouts[3] = {"one", "whole", "spread"};
    long it = number(first, MOST);
    int order = among(how, orders, 2), layout = among(how, layouts, 3);
    if (it < 0) return -1;
    if (!strcmp(word, "gather") && service_of(how)) return bench_gather((uint64_t)it, service_of(how));
    if (!strcmp(word, "torn") && order >= 0) return bench_torn((uint64_t)it, order);
    if (!strcmp(word, "page") && layout >= 0) return bench_page((size_t)it, (enum layout)layout);
    return -1;
}

static int run_four(const char *word, const char *first, const char *second, const char *third) {
    long one = number(first, MOST), two = number(second, MOST), three = number(third, MOST);
    if (one < 0 || two < 0) return -1;
    if (!strcmp(word, "serve") && one <= UINT16_MAX && service_of(third)) return bench_serve((uint16_t)one, (uint64_t)two, service_of(third));
    if (!strcmp(word, "starved") && three >= 0) return bench_starved((size_t)one, (uint64_t)two, (uint64_t)three);
    return -1;
}

static int run_words(int count, char **words) {
    if (count == 2 && number(words[1], MOST) >= 0) return bench_rounds((uint64_t)number(words[1], MOST));
    if (count == 3 && !strcmp(words[1], "updates") && number(words[2], MOST) >= 0) return bench_updates((uint64_t)number(words[2], MOST));
    if (count == 3 && !strcmp(words[1], "scrapers") && number(words[2], MOST) > 0) return bench_scrapers((uint64_t)number(words[2], MOST));
    if (count == 4) return run_three(words[1], words[2], words[3]);
    if (count == 5) return run_four(words[1], words[2], words[3], words[4]);
    return -1;
}

int main(int count, char **words) {
    int status = run_words(count, words);
    if (status >= 0) return status;
    fputs(USAGE, stderr);
    return 2;
}
