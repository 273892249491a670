/* Memory that is refused. Each allocation of each call is refused in turn, also of calls for which a board is made: the call answers a refusal, what
   was held is as it was, and the call succeeds when it is made again. What counts takes no memory, and no block is lost. Linked with -Wl,--wrap=malloc,--wrap=realloc,--wrap=free. */
#include "test.h"
#include <stdio.h>

void *__real_malloc(size_t size);
void *__real_realloc(void *old, size_t size);
void __real_free(void *block);
void *__wrap_malloc(size_t size);
void *__wrap_realloc(void *old, size_t size);
void __wrap_free(void *block);

struct heap heap = {-1, 0, 0, 0};

static int is_given(void) {
    heap.asked++;
    if (heap.left > 0) heap.left--;
    else if (!heap.left) {
        if (heap.is_one) heap.left = -1;
        return 0;
    }
    return 1;
}

void *__wrap_malloc(size_t size) {
    void *made = is_given() ? __real_malloc(size) : NULL;
    if (made) heap.blocks++;
    return made;
}

void *__wrap_realloc(void *old, size_t size) {
    void *made = is_given() ? __real_realloc(old, size) : NULL;
    if (made && !old) heap.blocks++;
    return made;
}

void __wrap_free(void *block) {
    if (block) heap.blocks--;
    __real_free(block);
}

static dirgwako_registry registry;
static dirgwako_recorder recorder;
static dirgwako_counter counter;
static dirgwako_gauge gauge, far;
static dirgwako_histogram histogram;
static dirgwako_counter_family counters;
static dirgwako_gauge_family gauges;
static dirgwako_histogram_family histograms;
static const uint64_t bounds[2] = {1, 2};
static const char *const labels[2] = {"code", "route"}, *const others[2] = {"further", ""};
static char name[16], reply[1 << 17], was[1 << 17];
static uint64_t before[DIRGWAKO_MOST_NUMBERS], after[DIRGWAKO_MOST_NUMBERS];
static size_t tries, board, busy, halves;

/* A name that was not there. */
static const char *another(void) {
    snprintf(name, sizeof name, "a%u_total", (unsigned)tries++);
    return name;
}

static uint32_t new_registry(void) { return dirgwako_registry_new(&registry, 3); }
/* A refusal for want of memory, also of a number alone, whose family stays. */
static uint32_t wanting(uint32_t answer) {
    halves += answer == DIRGWAKO_NO_CHILD;
    return answer == DIRGWAKO_NO_CHILD ? 6 : answer;
}

static uint32_t new_counter(void) { return wanting(dirgwako_counter_new(&registry, another(), "Help.", &counter)); }
static uint32_t new_gauge(void) { return wanting(dirgwako_gauge_new(&registry, another(), "Help.", &gauge)); }
static uint32_t new_histogram(void) { return wanting(dirgwako_histogram_new(&registry, another(), "Help.", bounds, 2, &histogram)); }
static uint32_t new_seconds(void) { return wanting(dirgwako_histogram_seconds_new(&registry, another(), "Help.", bounds, 2, &histogram)); }
static uint32_t new_counters(void) { return dirgwako_counter_family_new(&registry, "counters_total", "Help.", labels, 2, 0, 0, &counters); }
static uint32_t new_gauges(void) { return dirgwako_gauge_family_new(&registry, "gauges", "Help.", labels, 2, 0, 0, &gauges); }
static uint32_t new_histograms(void) { return dirgwako_histogram_family_new(&registry, "histograms", "Help.", labels, 2, bounds, 2, 0, 0, &histograms); }
static uint32_t counter_of(void) { return dirgwako_counter_of(&registry, &counters, labels, 2, &counter); }
static uint32_t gauge_of(void) { return dirgwako_gauge_of(&registry, &gauges, labels, 2, &gauge); }
static uint32_t histogram_of(void) { return dirgwako_histogram_of(&registry, &histograms, labels, 2, &histogram); }
static uint32_t further(void) { return dirgwako_gauge_of(&registry, &gauges, others, 2, &far); }
static uint32_t new_board(void) { return dirgwako_board_add(&registry, &board); }
static uint32_t is_name(void) { return dirgwako_is_name("visits_total"); }

static uint32_t scrape(void) {
    size_t len = 0;
    return dirgwako_scrape(&registry, reply, sizeof reply, &len);
}

/* The reply where there is no memory for the scrape. */
static const char BUSY[] = "HTTP/1.1 503 Service Unavailable\r\nContent-Type: text/plain; charset=utf-8\r\nContent-Length: 20\r\n"
                           "Connection: close\r\n\r\nService Unavailable\n";

/* 6 as well where it was told in a reply: by 503, where there is memory for the reply alone. */
static uint32_t reply_once(void) {
    const char *get = "GET /metrics HTTP/1.1\r\nHost: a\r\n\r\n";
    size_t len = 0;
    uint32_t answer = dirgwako_reply(&registry, get, strlen(get), reply, sizeof reply, &len);
    if (answer == 25) return 6;
    if (answer || memcmp(reply, "HTTP/1.1 503 ", 13)) return answer;
    is("a reply of 503", len == sizeof BUSY - 1 && !memcmp(reply, BUSY, len), 1);
    busy++;
    return 6;
}

/* The text of what is held: of a registry that is not there, nothing. Of metrics, since a family may be there without its number, the numbers alone. */
static size_t held(char *into, size_t room, int is_metric) {
    size_t len = 0, kept = 0;
    if (dirgwako_scrape(&registry, into, room, &len)) return 0;
    if (!is_metric) return len;
    for (const char *line = into; line < into + len; line = (const char *)memchr(line, '\n', (size_t)(into + len - line)) + 1) {
        size_t many = (size_t)((const char *)memchr(line, '\n', (size_t)(into + len - line)) - line) + 1;
        if (*line != '#') {
            memmove(into + kept, line, many);
            kept += many;
        }
    }
    return kept;
}

/* Makes a call whose allocations are refused in turn, until it succeeds; returns how many it makes. */
static long long refuse(const char *what, uint32_t (*call)(void), int is_metric) {
    for (long long given = 0;; given++) {
        size_t length = held(was, sizeof was, is_metric);
        heap.left = given;
        uint32_t answer = call();
        heap.left = -1;
        if (!answer) return given;
        is(what, answer, 6);
        is(what, (long long)held(text, sizeof text, is_metric), (long long)length);
        is(what, memcmp(text, was, length), 0);
        if (answer != 6) return given;
    }
}

/* Uses every slot of a gauge on the one board. */
static void fill(void) {
    dirgwako_abi abi;
    char value[16];
    const char *const values[2] = {"full", value};
    is("built for", dirgwako_built_for(&abi), 0);
    for (size_t i = 0; gauge.slot + 1 < abi.gauges; i++) {
        snprintf(value, sizeof value, "%u", (unsigned)i);
        is("a slot", dirgwako_gauge_of(&registry, &gauges, values, 2, &gauge), 0);
    }
}

/* Boards come, one when a gauge finds no slot and one at once. */
static void boards_come(void) {
    size_t count = 0;
    fill();
    is("boards", dirgwako_boards(&registry, &count), 0);
    is("one is there", (long long)count, 1);
    is("a gauge on a further board", refuse("a gauge on a further board", further, 0) > 4, 1);
    is("boards", dirgwako_boards(&registry, &count), 0);
    is("one came", (long long)count, 2);
    is("it is there", far.registry == gauge.registry + 1, 1);
    is("a board", refuse("a board", new_board, 0) > 4, 1);
    is("its number", (long long)board, 2);
}

/* Whether a call takes no memory, where all of it is refused. */
static void none(const char *what, uint32_t answer, uint32_t wanted) {
    is(what, answer, wanted);
    is("no memory is asked for", heap.asked, 0);
}

static void counting(void) {
    const dirgwako_change changes[3] = {dirgwako_change_inc(&counter, 1), dirgwako_change_observe(&histogram, 2), dirgwako_change_up(&gauge, 1)};
    size_t len = 0, missing = 0, kept = 0;
    heap.asked = heap.left = 0;
    none("take", dirgwako_recorder_take(&registry, &recorder), 0);
    none("inc", dirgwako_inc(&recorder, &counter, 1), 0);
    none("observe", dirgwako_observe(&recorder, &histogram, 1), 0);
    none("up", dirgwako_up(&recorder, &gauge, 1), 0);
    none("up on a further board", dirgwako_up(&recorder, &far, 1), 0);
    none("down", dirgwako_down(&recorder, &gauge, 1), 0);
    none("publish", dirgwako_publish(&recorder, changes, 3), 0);
    none("give back", dirgwako_recorder_give_back(&registry, &recorder), 0);
    none("settle", dirgwako_settle(&registry, 0, before, DIRGWAKO_MOST_NUMBERS, &len, &missing), 0);
    none("settle the second", dirgwako_settle(&registry, 1, before, DIRGWAKO_MOST_NUMBERS, &len, &missing), 0);
    none("boards", dirgwako_boards(&registry, &kept), 0);
    none("board of", dirgwako_board_of(&registry, far.registry, &kept), 0);
    none("kept", dirgwako_kept(&registry, 0, &kept), 0);
    none("read", dirgwako_read(&registry, 0, after, DIRGWAKO_MOST_NUMBERS, &len), 0);
    none("read kept", dirgwako_read_kept(&registry, 0, 0, before, DIRGWAKO_MOST_NUMBERS, &len), 0);
    none("window", dirgwako_set_window(&registry, 2), 0);
    heap.left = -1;
}

/* The first read takes memory. */
static void first_read(void) {
    dirgwako_registry own = {0, 0};
    size_t len = 0;
    is("a registry", dirgwako_registry_new(&own, 4), 0);
    heap.left = 0;
    is("a first read", dirgwako_read(&own, 0, after, DIRGWAKO_MOST_NUMBERS, &len), 6);
    heap.left = -1;
    is("a first read", dirgwako_read(&own, 0, after, DIRGWAKO_MOST_NUMBERS, &len), 0);
    is("free", dirgwako_registry_free(&own), 0);
}

static dirgwako_scraper scraper;
static char shown[1 << 16];

static uint32_t new_with(void) { return dirgwako_registry_new_with(&registry, 3, 2); }

/* A scrape and a reply by a scraper, of what the registry shows. */
static uint32_t scrape_alone(void) {
    size_t len = 0;
    uint32_t answer = dirgwako_scraper_scrape(&scraper, reply, sizeof reply, &len);
    if (answer) return answer;
    heap.left = -1;
    is("what the registry shows", held(was, sizeof was, 0) == len && !memcmp(was, reply, len), 1);
    return 0;
}

static uint32_t reply_alone(void) {
    const char *get = "GET /metrics HTTP/1.0\r\n\r\n";
    size_t len = 0;
    uint32_t answer = dirgwako_scraper_reply(&scraper, get, strlen(get), reply, sizeof reply, &len);
    return answer == 25 || (!answer && !memcmp(reply, "HTTP/1.1 503 ", 13)) ? 6 : answer;
}

/* A page with scrapers. What is registered is told, each allocation of it refused in turn; a scraper without memory shows it at its next scrape. */
static void alone(void) {
    is("registry", refuse("registry with scrapers", new_with, 0) > 20, 1);
    heap.asked = heap.left = 0;
    none("take", dirgwako_scraper_take(&registry, &scraper), 0);
    heap.left = -1;
    is("gauges", refuse("gauges", new_gauges, 0) > 2, 1);
    is("a gauge", refuse("a gauge", gauge_of, 0) > 2, 1);
    is("counter", new_counter(), 0);
    is("a board", refuse("a board", new_board, 0) > 4, 1);
    is("scrape", refuse("scrape", scrape_alone, 0) > 4, 1);
    fill();
    is("reply", refuse("reply", reply_alone, 0) > 4, 1);
    is("scrape", refuse("scrape", scrape_alone, 0) > 0, 1);
    is("free", dirgwako_registry_free(&registry), 0);
    is("free", dirgwako_scraper_free(&scraper), 0);
}

/* A family took its part of a further board, and there was no memory for its child: scrapers are told nothing any more. */
static void out_of_step(void) {
    size_t len = 0, now = 0, told_now = 9;
    is("registry", new_with(), 0);
    is("take", dirgwako_scraper_take(&registry, &scraper), 0);
    is("gauges", new_gauges(), 0);
    is("a gauge", gauge_of(), 0);
    fill();
    is("a board", new_board(), 0);
    is("scrape", dirgwako_scraper_scrape(&scraper, shown, sizeof shown, &len), 0);
    is("a gauge on a further board", refuse("a gauge on a further board", further, 0) > 2, 1);
    is("the registry has it", scraped(&registry, "gauges{code=\"further\",route=\"\"}"), 0);
    is("scrape", dirgwako_scraper_scrape(&scraper, reply, sizeof reply, &now), 0);
    is("how many are told", dirgwako_scrapers(&registry, &told_now), 0);
    is("none", (long long)told_now, 0);
    is("what was registered before", now == len && !memcmp(shown, reply, len), 1);
    is("free", dirgwako_scraper_free(&scraper), 0);
    is("free", dirgwako_registry_free(&registry), 0);
}

int main(void) {
    is("registry", refuse("registry", new_registry, 0) > 4, 1);
    is("a counter", new_counter(), 0);
    is("there is a text to lose", held(was, sizeof was, 0) > 0, 1);
    is("a registry in its place", refuse("registry", new_registry, 0) > 4, 1);
    is("the old one is gone", (long long)held(was, sizeof was, 0), 0);
    is("counter", refuse("counter", new_counter, 1) > 0, 1);
    is("gauge", refuse("gauge", new_gauge, 1) > 0, 1);
    is("histogram", refuse("histogram", new_histogram, 1) > 0, 1);
    is("seconds", refuse("seconds", new_seconds, 1) > 0, 1);
    is("some have a family alone", halves > 3, 1);
    is("counters", refuse("counters", new_counters, 0) > 0, 1);
    is("gauges", refuse("gauges", new_gauges, 0) > 0, 1);
    is("histograms", refuse("histograms", new_histograms, 0) > 0, 1);
    is("a counter", refuse("a counter", counter_of, 0) > 0, 1);
    is("a gauge", refuse("a gauge", gauge_of, 0) > 0, 1);
    is("a histogram", refuse("a histogram", histogram_of, 0) > 0, 1);
    is("name", refuse("name", is_name, 0) > 0, 1);
    is("scrape", refuse("scrape", scrape, 0) > 0, 1);
    is("reply", refuse("reply", reply_once, 0) > 0, 1);
    heap.is_one = 1;
    is("reply", refuse("reply", reply_once, 0) > 0, 1);
    heap.is_one = 0;
    is("a reply is 503", busy > 0, 1);
    first_read();
    boards_come();
    counting();
    is("what the further board has", scraped(&registry, "gauges{code=\"further\",route=\"\"}"), 1);
    is("free", dirgwako_registry_free(&registry), 0);
    gauge.slot = 0;
    alone();
    gauge.slot = 0;
    out_of_step();
    is("no block is lost", heap.blocks, 0);
    growth();
    return told();
}
