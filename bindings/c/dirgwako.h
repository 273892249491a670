/* Dirgwako for C99 and C++11: numbers that threads count without a lock and without memory, and scrapes in which all those of a board stood together,
   as a text for Prometheus (text exposition format 0.0.4).

   Boards. A registry is a page of boards, each with the slots that the library was built for. It begins with one, and makes a further one where every
   slot of a kind is used: up to 96. What was counted on one board is of one moment in each scrape, and between boards no moment is claimed: metrics
   that shall agree go into one group. A group is any number that a family is given, 0 for metrics without labels: the families of a group begin on
   one board, and stay there as long as it has room.

   Each function answers DIRGWAKO_OK, which is 0, or the number of a refusal (docs/REFUSALS.md). After a refusal nothing has changed, but where a
   function says otherwise. Of this interface alone are

     34  DIRGWAKO_EMPTY        the handle holds nothing: it was not made, or was freed or given back
     35  DIRGWAKO_NO_WORKER    no recorder is left
     36  DIRGWAKO_NOT_UTF8     a text is not UTF-8
     37  DIRGWAKO_TOO_SHORT    the buffer is too short; the length tells what it needs
     38  DIRGWAKO_NULL         a pointer is null
     39  DIRGWAKO_NO_KIND      a change is of no kind
     40  DIRGWAKO_NO_SUCH      so many scrapes are not kept; no refusal has this number
     41  DIRGWAKO_NO_NUMBERS   these are no numbers that were read
     42  DIRGWAKO_NO_BOARD     no board of the registry has this number
     47  DIRGWAKO_TWO_BOARDS   two changes are of two boards
     48  DIRGWAKO_NO_CHILD     a metric's family is registered from now on, without its child: for want of a slot or of memory
     49  DIRGWAKO_NO_SCRAPER   no scraper is left

   43  DIRGWAKO_TOO_MANY_DIGITS is that numbers are shifted by over 9 digits, 44  DIRGWAKO_TOO_MANY_BOARDS that 96 boards are there, and
   46  DIRGWAKO_TOO_MANY_CHILDREN that a family has 256 children; 45  DIRGWAKO_NOT_FRESH no function here answers.

   Ownership. A dirgwako_registry, a dirgwako_recorder and a dirgwako_scraper begin as zeros ({0}), are written by these functions alone, and are never
   copied while they hold something: two copies own the same, so the second use of either is a use after free. They may be freed in any order, and
   freeing one twice is refused (34). The boards live as long as their registry, a recorder or a scraper of it. Counters, gauges and histograms are plain data, which are
   copied as one likes and never freed. A histogram's bounds are written by this library alone.

   Threads. One call at a time uses a handle; two handles may be used by two threads at the same moment. So a recorder belongs to one thread at a
   time, and a registry wants a mutex where several threads register or scrape by it. A scraper scrapes beside it, and beside other scrapers, without a
   mutex: a registry is made with up to 3. Counting takes no lock and waits for nobody. A recorder grows by
   itself: it meets a board that came since at its next call by a handle of that board, without lock or memory. A handle, of a counter too that is on
   such a board, goes to another thread by a lock, by a thread's start or join, or by a flag that is stored with release order and loaded with acquire
   order. Counting writes to the recorder's handle: those of several threads are fastest where each has a cache line of its own.

   What else the caller owes: a pointer that is not null points to what its type says (what a call only writes to may be uninitialised), and what
   a call writes to overlaps nothing else that it is given; a length counts what is there, texts end in a zero byte where no length is given; no
   call from a signal handler, nor in the forked child of a process with threads; malloc and free are of one allocator. */
#ifndef DIRGWAKO_H
#define DIRGWAKO_H

#include <stddef.h>
#include <stdint.h>
#include <string.h>

#ifdef __cplusplus
extern "C" {
#endif

/* The version of this interface. */
#define DIRGWAKO_ABI 1

/* Bounds for durations in microseconds, of 5 milliseconds to 10 seconds: const uint64_t bounds[11] = DIRGWAKO_SECONDS_DEFAULT; */
#define DIRGWAKO_SECONDS_DEFAULT {5000, 10000, 25000, 50000, 100000, 250000, 500000, 1000000, 2500000, 5000000, 10000000}

enum {
    DIRGWAKO_OK = 0,
    DIRGWAKO_EMPTY = 34,
    DIRGWAKO_NO_WORKER = 35,
    DIRGWAKO_NOT_UTF8 = 36,
    DIRGWAKO_TOO_SHORT = 37,
    DIRGWAKO_NULL = 38,
    DIRGWAKO_NO_KIND = 39,
    DIRGWAKO_NO_SUCH = 40,
    DIRGWAKO_NO_NUMBERS = 41,
    DIRGWAKO_NO_BOARD = 42,
    DIRGWAKO_TOO_MANY_DIGITS = 43,
    DIRGWAKO_TOO_MANY_BOARDS = 44,
    DIRGWAKO_NOT_FRESH = 45,
    DIRGWAKO_TOO_MANY_CHILDREN = 46,
    DIRGWAKO_TWO_BOARDS = 47,
    DIRGWAKO_NO_CHILD = 48,
    DIRGWAKO_NO_SCRAPER = 49
};

/* A registry over a page of boards. Opaque; zeros where it holds nothing. */
typedef struct dirgwako_registry {
    void *at;
    uint64_t live;
} dirgwako_registry;

/* What a thread counts with, on all boards of a registry. Opaque; zeros where it holds nothing. */
typedef struct dirgwako_recorder {
    void *at;
    uint64_t live;
} dirgwako_recorder;

/* What a thread or a process scrapes with beside a registry: a page of its own, over a reader of each board that nobody else has. Opaque; zeros where it
   holds nothing. */
typedef struct dirgwako_scraper {
    void *at;
    uint64_t live;
} dirgwako_scraper;

/* A counter: a number that rises. Of a counter, a gauge and a histogram `registry` is the id of the board that it is on. */
typedef struct dirgwako_counter {
    uint64_t registry;
    size_t slot;
} dirgwako_counter;

/* A gauge: a number that rises and falls. */
typedef struct dirgwako_gauge {
    uint64_t registry;
    size_t slot;
} dirgwako_gauge;

/* A histogram: how many values were at most each of its bounds, their sum and their count. */
typedef struct dirgwako_histogram {
    uint64_t registry;
    size_t slot;
    uint64_t bounds[24];
    size_t count;
} dirgwako_histogram;

/* Families of counters, gauges and histograms with labels, on whichever boards their children are. */
typedef struct dirgwako_counter_family {
    uint64_t registry;
    size_t number;
} dirgwako_counter_family;

typedef struct dirgwako_gauge_family {
    uint64_t registry;
    size_t number;
} dirgwako_gauge_family;

typedef struct dirgwako_histogram_family {
    uint64_t registry;
    size_t number;
} dirgwako_histogram_family;

/* A change, of which several are published as one version. `kind` is 0 where a counter rises, 1 where a value is counted, 2 where a gauge rises and 3
   where it falls; `by` is what is added, or of a value the place of its bucket; `value` is the value that is counted. */
typedef struct dirgwako_change {
    uint64_t registry;
    uint64_t kind;
    size_t slot;
    uint64_t by;
    uint64_t value;
} dirgwako_change;

/* The totals of a histogram: how many values fell into the bucket of each bound alone, behind the last bound those that are over it; their sum and
   their count. */
typedef struct dirgwako_totals {
    uint64_t buckets[25];
    uint64_t sum;
    uint64_t count;
} dirgwako_totals;

/* What a library was built for: the version of this interface; threads that count, counters, histograms and gauges; how many numbers a moment has,
   and the most changes of one version; and the bytes of each plain struct, a family of each kind being alike. */
typedef struct dirgwako_abi {
    size_t version, workers, counters, histograms, gauges, numbers, changes;
    size_t counter_bytes, gauge_bytes, histogram_bytes, family_bytes, change_bytes, totals_bytes;
} dirgwako_abi;

/* The bytes of a text. */
typedef struct dirgwako_text {
    const uint8_t *at;
    size_t len;
} dirgwako_text;

/* The most labels of a family, and the most numbers that a moment has, whatever the library was built for. */
enum { DIRGWAKO_MOST_LABELS = 8, DIRGWAKO_MOST_NUMBERS = 1281 };

/* The library's own functions, for bindings of other languages. They take no null pointer, also where a length is 0. */
uint32_t dirgwako_c_registry_new(dirgwako_registry *registry, uint32_t id, size_t window);
uint32_t dirgwako_c_registry_new_with(dirgwako_registry *registry, uint32_t id, size_t window, size_t scrapers);
uint32_t dirgwako_c_registry_free(dirgwako_registry *registry);
uint32_t dirgwako_c_recorder_take(dirgwako_registry *registry, dirgwako_recorder *recorder);
uint32_t dirgwako_c_recorder_give_back(dirgwako_registry *registry, dirgwako_recorder *recorder);
uint32_t dirgwako_c_recorder_free(dirgwako_recorder *recorder);
uint32_t dirgwako_c_scraper_take(dirgwako_registry *registry, dirgwako_scraper *scraper);
uint32_t dirgwako_c_scraper_free(dirgwako_scraper *scraper);
uint32_t dirgwako_c_scrapers(dirgwako_registry *registry, size_t *count);
uint32_t dirgwako_c_counter_new(dirgwako_registry *registry, const uint8_t *name, size_t name_len, const uint8_t *help, size_t help_len,
                                dirgwako_counter *counter);
uint32_t dirgwako_c_gauge_new(dirgwako_registry *registry, const uint8_t *name, size_t name_len, const uint8_t *help, size_t help_len,
                              dirgwako_gauge *gauge);
uint32_t dirgwako_c_histogram_new(dirgwako_registry *registry, const uint8_t *name, size_t name_len, const uint8_t *help, size_t help_len,
                                  const uint64_t *bounds, size_t count, dirgwako_histogram *histogram);
uint32_t dirgwako_c_counter_family_new(dirgwako_registry *registry, const uint8_t *name, size_t name_len, const uint8_t *help,
                                    size_t help_len, const dirgwako_text *labels, size_t count, size_t digits, size_t group, dirgwako_counter_family *family);
uint32_t dirgwako_c_counter_of(dirgwako_registry *registry, const dirgwako_counter_family *family, const dirgwako_text *values, size_t count,
                            dirgwako_counter *counter);
uint32_t dirgwako_c_gauge_family_new(dirgwako_registry *registry, const uint8_t *name, size_t name_len, const uint8_t *help,
                                    size_t help_len, const dirgwako_text *labels, size_t count, size_t digits, size_t group, dirgwako_gauge_family *family);
uint32_t dirgwako_c_gauge_of(dirgwako_registry *registry, const dirgwako_gauge_family *family, const dirgwako_text *values, size_t count,
                            dirgwako_gauge *gauge);
uint32_t dirgwako_c_histogram_family_new(dirgwako_registry *registry, const uint8_t *name, size_t name_len, const uint8_t *help,
                                    size_t help_len, const dirgwako_text *labels, size_t count, const uint64_t *bounds, size_t bound_count,
                                    size_t digits, size_t group, dirgwako_histogram_family *family);
uint32_t dirgwako_c_histogram_of(dirgwako_registry *registry, const dirgwako_histogram_family *family, const dirgwako_text *values, size_t count,
                            dirgwako_histogram *histogram);
uint32_t dirgwako_c_inc(dirgwako_recorder *recorder, const dirgwako_counter *counter, uint64_t by);
uint32_t dirgwako_c_observe(dirgwako_recorder *recorder, const dirgwako_histogram *histogram, uint64_t value);
uint32_t dirgwako_c_up(dirgwako_recorder *recorder, const dirgwako_gauge *gauge, uint64_t by);
uint32_t dirgwako_c_down(dirgwako_recorder *recorder, const dirgwako_gauge *gauge, uint64_t by);
uint32_t dirgwako_c_publish(dirgwako_recorder *recorder, const dirgwako_change *changes, size_t count);
size_t dirgwako_c_place(const dirgwako_histogram *histogram, uint64_t value);
uint32_t dirgwako_c_board_add(dirgwako_registry *registry, size_t *number);
uint32_t dirgwako_c_boards(dirgwako_registry *registry, size_t *count);
uint32_t dirgwako_c_board_of(dirgwako_registry *registry, uint64_t id, size_t *number);
uint32_t dirgwako_c_set_window(dirgwako_registry *registry, size_t window);
uint32_t dirgwako_c_kept(dirgwako_registry *registry, size_t board, size_t *kept);
uint32_t dirgwako_c_read(dirgwako_registry *registry, size_t board, uint64_t *numbers, size_t room, size_t *len);
uint32_t dirgwako_c_read_kept(dirgwako_registry *registry, size_t board, size_t number, uint64_t *numbers, size_t room, size_t *len);
uint32_t dirgwako_c_settle(dirgwako_registry *registry, size_t board, uint64_t *numbers, size_t room, size_t *len, size_t *missing);
uint32_t dirgwako_c_counter_total(const uint64_t *numbers, size_t len, const dirgwako_counter *counter, uint64_t *total);
uint32_t dirgwako_c_gauge_value(const uint64_t *numbers, size_t len, const dirgwako_gauge *gauge, int64_t *value);
uint32_t dirgwako_c_histogram_totals(const uint64_t *numbers, size_t len, const dirgwako_histogram *histogram, dirgwako_totals *totals);
uint32_t dirgwako_c_linear(uint64_t start, uint64_t width, uint64_t *bounds, size_t count);
uint32_t dirgwako_c_exponential(uint64_t start, uint64_t factor, uint64_t *bounds, size_t count);
uint32_t dirgwako_c_refusal(size_t number, uint8_t *buffer, size_t room, size_t *len);
uint32_t dirgwako_c_is_name(const uint8_t *name, size_t len);
uint32_t dirgwako_c_abi(dirgwako_abi *abi);
uint32_t dirgwako_c_reply(dirgwako_registry *registry, const uint8_t *request, size_t request_len, uint8_t *buffer, size_t room,
                          size_t *len);
uint32_t dirgwako_c_scrape(dirgwako_registry *registry, uint8_t *buffer, size_t room, size_t *len);
uint32_t dirgwako_c_scraper_reply(dirgwako_scraper *scraper, const uint8_t *request, size_t request_len, uint8_t *buffer, size_t room,
                                  size_t *len);
uint32_t dirgwako_c_scraper_scrape(dirgwako_scraper *scraper, uint8_t *buffer, size_t room, size_t *len);

/* An id that none of the last 2^32 - 1 registries of this process has. */
uint32_t dirgwako_next_id(void);

/* A new registry of one board, which keeps the last `window` scrapes of each board, 1 to 1,024. What the handle held is freed.
   31, the window is none; 6, out of memory; 13, the library was built for numbers out of range. */
static inline uint32_t dirgwako_registry_new(dirgwako_registry *registry, size_t window) {
    return registry ? dirgwako_c_registry_new(registry, dirgwako_next_id(), window) : (uint32_t)DIRGWAKO_NULL;
}

/* The same with so many scrapers, 0 to 3, for dirgwako_scraper_take. As dirgwako_registry_new; and 13 where they are more than 3. */
static inline uint32_t dirgwako_registry_new_with(dirgwako_registry *registry, size_t window, size_t scrapers) {
    return registry ? dirgwako_c_registry_new_with(registry, dirgwako_next_id(), window, scrapers) : (uint32_t)DIRGWAKO_NULL;
}

/* Frees a registry, and the recorders and scrapers that nobody has taken. Those that were taken go on. 34. */
static inline uint32_t dirgwako_registry_free(dirgwako_registry *registry) {
    return registry ? dirgwako_c_registry_free(registry) : (uint32_t)DIRGWAKO_NULL;
}

/* A recorder of a worker that nobody has, for all boards, also those that come; what the handle held is freed. Takes no memory. 34; 35. */
static inline uint32_t dirgwako_recorder_take(dirgwako_registry *registry, dirgwako_recorder *recorder) {
    return registry && recorder ? dirgwako_c_recorder_take(registry, recorder) : (uint32_t)DIRGWAKO_NULL;
}

/* Gives a recorder back, for another thread to take; its handle is empty then. 34; 16, it is of another registry. */
static inline uint32_t dirgwako_recorder_give_back(dirgwako_registry *registry, dirgwako_recorder *recorder) {
    return registry && recorder ? dirgwako_c_recorder_give_back(registry, recorder) : (uint32_t)DIRGWAKO_NULL;
}

/* Frees a recorder: what it counted stays in each scrape, and its worker counts no more. 34. */
static inline uint32_t dirgwako_recorder_free(dirgwako_recorder *recorder) {
    return recorder ? dirgwako_c_recorder_free(recorder) : (uint32_t)DIRGWAKO_NULL;
}

/* A scraper that nobody has; what the handle held is freed. It is told of each board, family and child that the registry gets, and shows them in its next
   scrape. Takes no memory. 34; 49. */
static inline uint32_t dirgwako_scraper_take(dirgwako_registry *registry, dirgwako_scraper *scraper) {
    return registry && scraper ? dirgwako_c_scraper_take(registry, scraper) : (uint32_t)DIRGWAKO_NULL;
}

/* Frees a scraper, which nobody takes again. 34. */
static inline uint32_t dirgwako_scraper_free(dirgwako_scraper *scraper) {
    return scraper ? dirgwako_c_scraper_free(scraper) : (uint32_t)DIRGWAKO_NULL;
}

/* How many scrapers, taken or not, are told what comes: all that the registry was made with. But none any more after a child was refused for want of
   memory (6, 48) that had found no slot on the boards of its family: each shows what was registered before. 34. */
static inline uint32_t dirgwako_scrapers(dirgwako_registry *registry, size_t *count) {
    return registry && count ? dirgwako_c_scrapers(registry, count) : (uint32_t)DIRGWAKO_NULL;
}

/* A counter without labels, in the group 0. 34; 36; 1, 2, 3, 5, the name or the help is none; 19, a name clashes with another family's; 23, there are
   128 families; 6, out of memory; 48, its family is there, without it: no slot is left on 96 boards, or the library was built for none of the kind, or
   there was no memory for its number. */
static inline uint32_t dirgwako_counter_new(dirgwako_registry *registry, const char *name, const char *help, dirgwako_counter *counter) {
    if (!registry || !name || !help || !counter) return DIRGWAKO_NULL;
    return dirgwako_c_counter_new(registry, (const uint8_t *)name, strlen(name), (const uint8_t *)help, strlen(help), counter);
}

/* A gauge without labels. As a counter. */
static inline uint32_t dirgwako_gauge_new(dirgwako_registry *registry, const char *name, const char *help, dirgwako_gauge *gauge) {
    if (!registry || !name || !help || !gauge) return DIRGWAKO_NULL;
    return dirgwako_c_gauge_new(registry, (const uint8_t *)name, strlen(name), (const uint8_t *)help, strlen(help), gauge);
}

/* A histogram without labels, of at most 24 rising bounds, none over 2^48 - 1. As a counter; and 10, a bound is none. */
static inline uint32_t dirgwako_histogram_new(dirgwako_registry *registry, const char *name, const char *help, const uint64_t *bounds,
                                              size_t count, dirgwako_histogram *histogram) {
    static const uint64_t none = 0;
    if (!registry || !name || !help || !histogram || (!bounds && count)) return DIRGWAKO_NULL;
    return dirgwako_c_histogram_new(registry, (const uint8_t *)name, strlen(name), (const uint8_t *)help, strlen(help),
                                    bounds ? bounds : &none, count, histogram);
}

/* Texts by their bytes; whether none of them is null. */
static inline int dirgwako_texts(const char *const *texts, size_t count, dirgwako_text *out) {
    if (!texts && count) return 0;
    for (size_t i = 0; i < count; i++) {
        if (!texts[i]) return 0;
        out[i].at = (const uint8_t *)texts[i];
        out[i].len = strlen(texts[i]);
    }
    return 1;
}

/* A family of counters with at most 8 labels, whose numbers the text shows shifted by so many decimal digits: 0 to show them as they are, 6 to count
   microseconds and show seconds. `group` is any number: what shall agree goes into one group. 34; 43, over 9 digits; 36; 1 to 5, 7, 9, a text is none;
   19, a name clashes, whichever board and group it is of; 23, there are 128 families; 6, out of memory. */
static inline uint32_t dirgwako_counter_family_new(dirgwako_registry *registry, const char *name, const char *help, const char *const *labels,
                                                size_t count, size_t digits, size_t group, dirgwako_counter_family *family) {
    dirgwako_text texts[DIRGWAKO_MOST_LABELS] = {{NULL, 0}};
    if (!registry || !name || !help || !family) return DIRGWAKO_NULL;
    if (count > DIRGWAKO_MOST_LABELS) return 9;
    if (!dirgwako_texts(labels, count, texts)) return DIRGWAKO_NULL;
    return dirgwako_c_counter_family_new(registry, (const uint8_t *)name, strlen(name), (const uint8_t *)help, strlen(help), texts, count,
                                      digits, group, family);
}

/* The counter of these label values, in the order of the labels, which is made where there is none: on a board of the family's that has a slot, or on
   another one, which is made where none has. 34; 36; 20, the family is of another registry; 3, a value is too long; 21, there are not as many values
   as labels; 46, the family has 256 children; 22, no slot is left on 96 boards, or the library was built for none of the kind; 6, out of memory:
   there may be a board more then, on which nothing is counted; 28, the child is of another kind, by two registries of one id. */
static inline uint32_t dirgwako_counter_of(dirgwako_registry *registry, const dirgwako_counter_family *family, const char *const *values, size_t count,
                                        dirgwako_counter *counter) {
    dirgwako_text texts[DIRGWAKO_MOST_LABELS] = {{NULL, 0}};
    if (!registry || !family || !counter) return DIRGWAKO_NULL;
    if (count > DIRGWAKO_MOST_LABELS) return 21;
    if (!dirgwako_texts(values, count, texts)) return DIRGWAKO_NULL;
    return dirgwako_c_counter_of(registry, family, texts, count, counter);
}

/* A family of gauges, as one of counters. */
static inline uint32_t dirgwako_gauge_family_new(dirgwako_registry *registry, const char *name, const char *help, const char *const *labels,
                                                size_t count, size_t digits, size_t group, dirgwako_gauge_family *family) {
    dirgwako_text texts[DIRGWAKO_MOST_LABELS] = {{NULL, 0}};
    if (!registry || !name || !help || !family) return DIRGWAKO_NULL;
    if (count > DIRGWAKO_MOST_LABELS) return 9;
    if (!dirgwako_texts(labels, count, texts)) return DIRGWAKO_NULL;
    return dirgwako_c_gauge_family_new(registry, (const uint8_t *)name, strlen(name), (const uint8_t *)help, strlen(help), texts, count,
                                      digits, group, family);
}

/* The gauge of these label values, in the order of the labels, which is made where there is none. As dirgwako_counter_of. */
static inline uint32_t dirgwako_gauge_of(dirgwako_registry *registry, const dirgwako_gauge_family *family, const char *const *values, size_t count,
                                        dirgwako_gauge *gauge) {
    dirgwako_text texts[DIRGWAKO_MOST_LABELS] = {{NULL, 0}};
    if (!registry || !family || !gauge) return DIRGWAKO_NULL;
    if (count > DIRGWAKO_MOST_LABELS) return 21;
    if (!dirgwako_texts(values, count, texts)) return DIRGWAKO_NULL;
    return dirgwako_c_gauge_of(registry, family, texts, count, gauge);
}

/* A family of histograms of at most 24 rising bounds, none over 2^48 - 1, which are shifted as well. As one of counters; 8, a label is `le`; 10, a
   bound is none. */
static inline uint32_t dirgwako_histogram_family_new(dirgwako_registry *registry, const char *name, const char *help, const char *const *labels,
                                                size_t count, const uint64_t *bounds, size_t bound_count, size_t digits,
                                                size_t group, dirgwako_histogram_family *family) {
    static const uint64_t none = 0;
    dirgwako_text texts[DIRGWAKO_MOST_LABELS] = {{NULL, 0}};
    if (!registry || !name || !help || !family || (!bounds && bound_count)) return DIRGWAKO_NULL;
    if (count > DIRGWAKO_MOST_LABELS) return 9;
    if (!dirgwako_texts(labels, count, texts)) return DIRGWAKO_NULL;
    return dirgwako_c_histogram_family_new(registry, (const uint8_t *)name, strlen(name), (const uint8_t *)help, strlen(help), texts, count,
                                      bounds ? bounds : &none, bound_count, digits, group, family);
}

/* The histogram of these label values, in the order of the labels, which is made where there is none. As dirgwako_counter_of. */
static inline uint32_t dirgwako_histogram_of(dirgwako_registry *registry, const dirgwako_histogram_family *family, const char *const *values, size_t count,
                                        dirgwako_histogram *histogram) {
    dirgwako_text texts[DIRGWAKO_MOST_LABELS] = {{NULL, 0}};
    if (!registry || !family || !histogram) return DIRGWAKO_NULL;
    if (count > DIRGWAKO_MOST_LABELS) return 21;
    if (!dirgwako_texts(values, count, texts)) return DIRGWAKO_NULL;
    return dirgwako_c_histogram_of(registry, family, texts, count, histogram);
}

/* A histogram without labels that is told microseconds and shown in seconds, with bounds in microseconds. As dirgwako_histogram_new. */
static inline uint32_t dirgwako_histogram_seconds_new(dirgwako_registry *registry, const char *name, const char *help, const uint64_t *bounds,
                                                      size_t count, dirgwako_histogram *histogram) {
    dirgwako_histogram_family family;
    uint32_t answer = histogram ? dirgwako_histogram_family_new(registry, name, help, NULL, 0, bounds, count, 6, 0, &family) : (uint32_t)DIRGWAKO_NULL;
    if (answer) return answer;
    return dirgwako_histogram_of(registry, &family, NULL, 0, histogram) ? (uint32_t)DIRGWAKO_NO_CHILD : (uint32_t)DIRGWAKO_OK;
}

/* Adds `by` to a counter. The recorder meets a board that came since at its first call by a handle of it. 34; 16, the counter is of no board of the
   recorder's registry; 15, this worker has published 2^64 - 1 times on its board; 11, there is no such slot; 12, the number would pass 2^48 - 1. */
static inline uint32_t dirgwako_inc(dirgwako_recorder *recorder, const dirgwako_counter *counter, uint64_t by) {
    return recorder && counter ? dirgwako_c_inc(recorder, counter, by) : (uint32_t)DIRGWAKO_NULL;
}

/* Counts a value: its bucket, the sum and the count rise together. As dirgwako_inc. */
static inline uint32_t dirgwako_observe(dirgwako_recorder *recorder, const dirgwako_histogram *histogram, uint64_t value) {
    return recorder && histogram ? dirgwako_c_observe(recorder, histogram, value) : (uint32_t)DIRGWAKO_NULL;
}

/* Raises a gauge. As dirgwako_inc. */
static inline uint32_t dirgwako_up(dirgwako_recorder *recorder, const dirgwako_gauge *gauge, uint64_t by) {
    return recorder && gauge ? dirgwako_c_up(recorder, gauge, by) : (uint32_t)DIRGWAKO_NULL;
}

/* Lowers a gauge. As dirgwako_inc. */
static inline uint32_t dirgwako_down(dirgwako_recorder *recorder, const dirgwako_gauge *gauge, uint64_t by) {
    return recorder && gauge ? dirgwako_c_down(recorder, gauge, by) : (uint32_t)DIRGWAKO_NULL;
}

/* That a counter rises by `by`. The pointer is not null. */
static inline dirgwako_change dirgwako_change_inc(const dirgwako_counter *counter, uint64_t by) {
    dirgwako_change change = {counter->registry, 0, counter->slot, by, 0};
    return change;
}

/* That a value is counted. The pointer is not null. */
static inline dirgwako_change dirgwako_change_observe(const dirgwako_histogram *histogram, uint64_t value) {
    dirgwako_change change = {histogram->registry, 1, histogram->slot, dirgwako_c_place(histogram, value), value};
    return change;
}

/* That a gauge rises by `by`. The pointer is not null. */
static inline dirgwako_change dirgwako_change_up(const dirgwako_gauge *gauge, uint64_t by) {
    dirgwako_change change = {gauge->registry, 2, gauge->slot, by, 0};
    return change;
}

/* That a gauge falls by `by`. The pointer is not null. */
static inline dirgwako_change dirgwako_change_down(const dirgwako_gauge *gauge, uint64_t by) {
    dirgwako_change change = {gauge->registry, 3, gauge->slot, by, 0};
    return change;
}

/* Publishes these changes, which are of one board, as one version, all of them or nothing: no scrape sees some of them alone. Where there is none,
   nothing is published. 34; 33, there are more than the library has counters, histograms and twice its gauges; 47, two changes are of two boards;
   39, a change is of no kind; 16, 15, 11, 12 as dirgwako_inc. */
static inline uint32_t dirgwako_publish(dirgwako_recorder *recorder, const dirgwako_change *changes, size_t count) {
    static const dirgwako_change none = {0, 0, 0, 0, 0};
    if (!recorder || (!changes && count)) return DIRGWAKO_NULL;
    return dirgwako_c_publish(recorder, changes ? changes : &none, count);
}

/* Makes a further board, so that later calls have its memory already, and tells its number. 34; 44, 96 boards are there; 6, out of memory. */
static inline uint32_t dirgwako_board_add(dirgwako_registry *registry, size_t *number) {
    return registry && number ? dirgwako_c_board_add(registry, number) : (uint32_t)DIRGWAKO_NULL;
}

/* How many boards there are, whose numbers are 0 and on, in the order in which they came. 34. */
static inline uint32_t dirgwako_boards(dirgwako_registry *registry, size_t *count) {
    return registry && count ? dirgwako_c_boards(registry, count) : (uint32_t)DIRGWAKO_NULL;
}

/* The number of the board of this id: `registry` of a counter, a gauge or a histogram. 34; 16, no board of the registry has it. */
static inline uint32_t dirgwako_board_of(dirgwako_registry *registry, uint64_t id, size_t *number) {
    return registry && number ? dirgwako_c_board_of(registry, id, number) : (uint32_t)DIRGWAKO_NULL;
}

/* Keeps the last `window` scrapes of each board from now on, 1 to 1,024. 34; 31, the window is none. */
static inline uint32_t dirgwako_set_window(dirgwako_registry *registry, size_t window) {
    return registry ? dirgwako_c_set_window(registry, window) : (uint32_t)DIRGWAKO_NULL;
}

/* How many scrapes the board of this number keeps. 34; 42, no board has this number. */
static inline uint32_t dirgwako_kept(dirgwako_registry *registry, size_t board, size_t *kept) {
    return registry && kept ? dirgwako_c_kept(registry, board, kept) : (uint32_t)DIRGWAKO_NULL;
}

/* Makes a scrape of the board of this number alone, which it keeps, and reads its numbers, all of one moment, for the three functions below: at most
   DIRGWAKO_MOST_NUMBERS, at the front of the array; `len` is how many. The first is the board's id, the next ones are how often each worker has
   published on it, and then come the totals. 34; 42, no board has this number; 14, four scans were given up, one after the other; 6, out of memory;
   37, the array is too short, `len` tells what is needed, and the scrape is kept. */
static inline uint32_t dirgwako_read(dirgwako_registry *registry, size_t board, uint64_t *numbers, size_t room, size_t *len) {
    static uint64_t none;
    if (!registry || !len || (!numbers && room)) return DIRGWAKO_NULL;
    return dirgwako_c_read(registry, board, numbers ? numbers : &none, room, len);
}

/* The same of a scrape that the board keeps, of which the oldest has number 0. Takes no memory. 34; 42; 40, so many are not kept; 37. */
static inline uint32_t dirgwako_read_kept(dirgwako_registry *registry, size_t board, size_t number, uint64_t *numbers, size_t room, size_t *len) {
    static uint64_t none;
    if (!registry || !len || (!numbers && room)) return DIRGWAKO_NULL;
    return dirgwako_c_read_kept(registry, board, number, numbers ? numbers : &none, room, len);
}

/* Exact totals of the board of this number, once all recorders are given back: each is exactly the sum of all that was counted on it. Nothing is
   scanned or kept. Takes no memory. 34; 42; 18, the recorder of worker `missing` was not given back (that of a worker whose recorder was freed never
   is); 16, two that were are of one worker, or one has not such a board, by two registries of one id; 37. */
static inline uint32_t dirgwako_settle(dirgwako_registry *registry, size_t board, uint64_t *numbers, size_t room, size_t *len, size_t *missing) {
    static uint64_t none;
    if (!registry || !len || !missing || (!numbers && room)) return DIRGWAKO_NULL;
    return dirgwako_c_settle(registry, board, numbers ? numbers : &none, room, len, missing);
}

/* The total of a counter among numbers that were read. 41, these are none; 16, they are of another board; 11, there is no such slot. */
static inline uint32_t dirgwako_counter_total(const uint64_t *numbers, size_t len, const dirgwako_counter *counter, uint64_t *total) {
    return numbers && counter && total ? dirgwako_c_counter_total(numbers, len, counter, total) : (uint32_t)DIRGWAKO_NULL;
}

/* The value of a gauge among them. As dirgwako_counter_total; and 41 where its ups or its downs are 2^53 or more. */
static inline uint32_t dirgwako_gauge_value(const uint64_t *numbers, size_t len, const dirgwako_gauge *gauge, int64_t *value) {
    return numbers && gauge && value ? dirgwako_c_gauge_value(numbers, len, gauge, value) : (uint32_t)DIRGWAKO_NULL;
}

/* The totals of a histogram among them. As dirgwako_counter_total. */
static inline uint32_t dirgwako_histogram_totals(const uint64_t *numbers, size_t len, const dirgwako_histogram *histogram,
                                                 dirgwako_totals *totals) {
    return numbers && histogram && totals ? dirgwako_c_histogram_totals(numbers, len, histogram, totals) : (uint32_t)DIRGWAKO_NULL;
}

/* Fills an array with `count` bounds for a histogram: the first is `start`, and each other `width` above the one before. 10, they are no bounds. */
static inline uint32_t dirgwako_linear(uint64_t start, uint64_t width, uint64_t *bounds, size_t count) {
    static uint64_t none;
    if (!bounds && count) return DIRGWAKO_NULL;
    return dirgwako_c_linear(start, width, bounds ? bounds : &none, count);
}

/* The same, where each is `factor` times the one before. */
static inline uint32_t dirgwako_exponential(uint64_t start, uint64_t factor, uint64_t *bounds, size_t count) {
    static uint64_t none;
    if (!bounds && count) return DIRGWAKO_NULL;
    return dirgwako_c_exponential(start, factor, bounds ? bounds : &none, count);
}

/* The text of a scrape of all boards, all series of a board at one moment, at the front of the buffer; `len` is how many bytes it has. No zero byte
   stands behind it. 34; 14, four scans of a board were given up, one after the other; 6, out of memory; 37, the buffer is too short, `len` tells what this text needs, and the
   scrape is kept. */
static inline uint32_t dirgwako_scrape(dirgwako_registry *registry, char *buffer, size_t room, size_t *len) {
    static uint8_t none;
    if (!registry || !len || (!buffer && room)) return DIRGWAKO_NULL;
    return dirgwako_c_scrape(registry, buffer ? (uint8_t *)buffer : &none, room, len);
}

/* The reply to a request of HTTP/1.1 that was read whole: head and body, at the front of the buffer; `len` is how many bytes it has. The status is
   in its first line: 200 with the text of a scrape, 404, 405, 400, 431, or 503 where four scans of a board were given up or memory was wanting. 34; 26, the
   request has no byte; 25, there is no memory for the reply; 37, the buffer is too short, and `len` tells what this reply needs. After these two a
   scrape may be kept. */
static inline uint32_t dirgwako_reply(dirgwako_registry *registry, const char *request, size_t request_len, char *buffer, size_t room,
                                      size_t *len) {
    static uint8_t none;
    if (!registry || !len || (!request && request_len) || (!buffer && room)) return DIRGWAKO_NULL;
    return dirgwako_c_reply(registry, request ? (const uint8_t *)request : &none, request_len, buffer ? (uint8_t *)buffer : &none, room, len);
}

/* The text of a scrape by a scraper, as dirgwako_scrape, while other threads register, scrape and count. It keeps that scrape alone. 34; 14; 6;
   37. */
static inline uint32_t dirgwako_scraper_scrape(dirgwako_scraper *scraper, char *buffer, size_t room, size_t *len) {
    static uint8_t none;
    if (!scraper || !len || (!buffer && room)) return DIRGWAKO_NULL;
    return dirgwako_c_scraper_scrape(scraper, buffer ? (uint8_t *)buffer : &none, room, len);
}

/* The reply to a request by a scraper, as dirgwako_reply. 34; 26; 25; 37. */
static inline uint32_t dirgwako_scraper_reply(dirgwako_scraper *scraper, const char *request, size_t request_len, char *buffer, size_t room,
                                              size_t *len) {
    static uint8_t none;
    if (!scraper || !len || (!request && request_len) || (!buffer && room)) return DIRGWAKO_NULL;
    return dirgwako_c_scraper_reply(scraper, request ? (const uint8_t *)request : &none, request_len, buffer ? (uint8_t *)buffer : &none, room, len);
}

/* Whether this is a metric's name, before there is a registry. 36; 1, 2, 3, it is none; 6, out of memory. */
static inline uint32_t dirgwako_is_name(const char *name) {
    return name ? dirgwako_c_is_name((const uint8_t *)name, strlen(name)) : (uint32_t)DIRGWAKO_NULL;
}

/* What a refusal says, in a few words, with a zero byte behind them, at the front of the buffer, which is handed back; they are cut where it is too
   short. Of a number that no refusal has, that there is none. */
static inline const char *dirgwako_refusal(uint32_t number, char *buffer, size_t room) {
    uint8_t words[128];
    size_t len = 0;
    if (!buffer || !room) return "";
    if (dirgwako_c_refusal(number, words, sizeof words, &len) && dirgwako_c_refusal(DIRGWAKO_NO_SUCH, words, sizeof words, &len)) len = 0;
    if (len >= room) len = room - 1;
    memcpy(buffer, words, len);
    buffer[len] = 0;
    return buffer;
}

/* What the library was built for: its version is DIRGWAKO_ABI, if this header is its own. */
static inline uint32_t dirgwako_built_for(dirgwako_abi *abi) {
    return abi ? dirgwako_c_abi(abi) : (uint32_t)DIRGWAKO_NULL;
}

#ifdef __cplusplus
}
#endif
#endif
