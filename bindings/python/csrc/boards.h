/* The boards of one registry, and what counts on them: all that the rest of an extension knows of the C library.

   Each function answers 0 or the number of a refusal (docs/REFUSALS.md). Each is called with the GIL held from its begin to its end, so one recorder
   serves all threads of a process, and no call of theirs meets another one of the same registry. No pointer is null; a length counts what is there. */
#ifndef DIRGWAKO_BOARDS_H
#define DIRGWAKO_BOARDS_H

#include <dirgwako.h>

/* The numbers are those of the kinds of a change; a gauge that falls is 3 there. */
enum kind { COUNTER = 0, HISTOGRAM = 1, GAUGE = 2 };

enum { MOST_BOUNDS = 24, MOST_DIGITS = 9 };

typedef union handle {
    dirgwako_counter counter;
    dirgwako_gauge gauge;
    dirgwako_histogram histogram;
} handle;

typedef union family {
    dirgwako_counter_family counter;
    dirgwako_gauge_family gauge;
    dirgwako_histogram_family histogram;
} family;

/* What a family is made of. */
typedef struct description {
    enum kind kind;
    dirgwako_text name, help, labels[DIRGWAKO_MOST_LABELS];
    size_t label_count;
    uint64_t bounds[MOST_BOUNDS];
    size_t bound_count, digits, group;
} description;

/* Zeros where it holds nothing; never copied. */
#ifdef DIRGWAKO_SHARED
typedef struct boards {
    struct common *common; /* in the memory that forked processes share */
    unsigned process;      /* of which process the place is, by how many forks lie between that and the first */
    int place;             /* of the recorder that it took; below zero where it took none */
    unsigned forks;        /* how many this process had made when it made the boards */
} boards;
#else
typedef struct boards {
    dirgwako_registry registry;
    dirgwako_recorder recorder;
} boards;
#endif

uint32_t boards_begin(boards *it);
void boards_end(boards *it);

/* A number that a forked child changes, where it counts on its parent's boards. */
unsigned boards_process(void);

uint32_t boards_family(boards *it, const description *described, family *made);
uint32_t boards_child(boards *it, enum kind kind, const family *of, const dirgwako_text *values, size_t count, handle *made);

uint32_t boards_inc(boards *it, const dirgwako_counter *counter, uint64_t by);
uint32_t boards_observe(boards *it, const dirgwako_histogram *histogram, uint64_t value);
uint32_t boards_move(boards *it, const dirgwako_gauge *gauge, int64_t by);

/* A change by `by`, which is below zero for a gauge alone. */
dirgwako_change boards_change(enum kind kind, const handle *of, int64_t by);
uint32_t boards_publish(boards *it, const dirgwako_change *changes, size_t count);

uint32_t boards_scrape(boards *it, uint8_t *buffer, size_t room, size_t *len);
uint32_t boards_count(boards *it, size_t *count);
uint32_t boards_number(boards *it, enum kind kind, const handle *of, size_t *number);

/* What a refusal says, with a zero byte behind it. */
const char *boards_words(uint32_t number, char *buffer, size_t room);

/* What the library was built for; whether its header is the one that this was compiled with. */
int boards_built_for(dirgwako_abi *built);

#endif
