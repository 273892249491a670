/* A script of calls on three boards, run as it is, and then once for each of its allocations, which alone is refused: the call answers so, all that
   can be seen is as it was but for what the header says, and the call succeeds when it is made again. In each run handles, texts and totals are those
   that are written here, and in the end what each board keeps is what it keeps in the first run. Boards have eight gauges, those of `dirgwako`. */
#include "test.h"
#include <stdio.h>

enum { BOARDS = 3, WINDOW = 2, GAUGES = 8, MOST = DIRGWAKO_MOST_NUMBERS };

/* The id of the first board of the registry of id 7, by which families are told as well. */
#define FIRST (7 * 128)

/* What a call that was refused may have changed: nothing; a board may have come; the first boards may have kept a scrape. */
enum may { NOTHING, COMES, KEEPS };

/* What is seen of a registry without changing it: its boards, and the numbers of each scrape that they keep. */
struct seen {
    size_t boards, kept[BOARDS];
    uint64_t numbers[BOARDS][WINDOW][MOST];
};

static struct seen before, after, last, unrefused;
static dirgwako_registry registry;
static dirgwako_recorder recorder;
static dirgwako_counter_family a;
static dirgwako_gauge_family g;
static dirgwako_histogram_family h;
static dirgwako_counter counter, c;
static dirgwako_gauge gauge;
static dirgwako_histogram histogram;
static const char *const labels[1] = {"l"}, *value[1];
static const uint64_t bounds[2] = {10, 20};
static uint64_t settled[MOST], answered[MOST];
static size_t board, len;

/* Whether a call is made again, and a reply is 503; how often a look and a call were refused, replies were 503, a board came then, some boards kept a
   scrape, and a family had no number. */
static long long is_again, is_busy, unseen, refused, busy, came, kept, without;

/* What the page shows in the end. */
static const char SHOWN[] =
    "# TYPE a_total counter\na_total{l=\"y\"} 5\na_total{l=\"z\"} 7\n# HELP c_total C.\n# TYPE c_total counter\nc_total 40\n# TYPE g gauge\n"
    "g{l=\"00\"} -2\ng{l=\"01\"} 0\ng{l=\"02\"} 0\ng{l=\"03\"} 0\ng{l=\"04\"} 0\ng{l=\"05\"} 0\ng{l=\"06\"} 0\ng{l=\"07\"} 0\ng{l=\"08\"} 0\n"
    "g{l=\"09\"} 0\ng{l=\"10\"} 0\ng{l=\"11\"} 0\ng{l=\"12\"} 0\ng{l=\"13\"} 0\ng{l=\"14\"} 0\ng{l=\"15\"} 0\ng{l=\"16\"} 6\n# HELP h H.\n"
    "# TYPE h histogram\nh_bucket{l=\"x\",le=\"10\"} 0\nh_bucket{l=\"x\",le=\"20\"} 1\nh_bucket{l=\"x\",le=\"+Inf\"} 2\nh_sum{l=\"x\"} 36\n"
    "h_count{l=\"x\"} 2\n";

/* The calls of the script that take memory. */
static uint32_t opens(void) { return dirgwako_c_registry_new(&registry, 7, WINDOW); }
static uint32_t adds(void) { return dirgwako_board_add(&registry, &board); }
static uint32_t family_a(void) { return dirgwako_counter_family_new(&registry, "a_total", "", labels, 1, 0, 5, &a); }
static uint32_t family_g(void) { return dirgwako_gauge_family_new(&registry, "g", "", labels, 1, 0, 5, &g); }
static uint32_t family_h(void) { return dirgwako_histogram_family_new(&registry, "h", "H.", labels, 1, bounds, 2, 0, 6, &h); }
static uint32_t of_a(void) { return dirgwako_counter_of(&registry, &a, value, 1, &counter); }
static uint32_t of_g(void) { return dirgwako_gauge_of(&registry, &g, value, 1, &gauge); }
static uint32_t of_h(void) { return dirgwako_histogram_of(&registry, &h, value, 1, &histogram); }
static uint32_t scrapes(void) { return dirgwako_scrape(&registry, text, sizeof text, &len); }
static uint32_t reads(void) { return dirgwako_read(&registry, 1, answered, MOST, &len); }

/* A counter without labels. Where its number alone was refused (48) its family is there, the fourth, which gives the counter then. */
static uint32_t of_c(void) {
    const dirgwako_counter_family fourth = {FIRST, 3};
    static int has_family;
    if (is_again && has_family) return dirgwako_counter_of(&registry, &fourth, NULL, 0, &c);
    uint32_t answer = dirgwako_counter_new(&registry, "c_total", "C.", &c);
    has_family = answer == DIRGWAKO_NO_CHILD;
    without += has_family;
    return has_family ? 6 : answer;
}

/* A reply, of which 503, for want of a scrape, and 25 are want of memory as well. */
static uint32_t replies(void) {
    static const char get[] = "GET /metrics HTTP/1.0\r\n\r\n";
    uint32_t answer = dirgwako_reply(&registry, get, sizeof get - 1, text, sizeof text, &len);
    is_busy = !answer && !memcmp(text, "HTTP/1.1 503 ", 13);
    busy += is_busy;
    return is_busy || answer == 25 ? 6 : answer;
}

/* What is seen of a board. */
static void look_at(struct seen *seen, size_t at) {
    unseen += dirgwako_kept(&registry, at, &seen->kept[at]) != 0;
    for (size_t i = 0; i < seen->kept[at] && i < WINDOW; i++) unseen += dirgwako_read_kept(&registry, at, i, seen->numbers[at][i], MOST, &len) != 0;
}

/* What is seen: of a registry that is not there, no board. */
static void look(struct seen *seen) {
    memset(seen, 0, sizeof *seen);
    if (dirgwako_boards(&registry, &seen->boards) == DIRGWAKO_EMPTY) return;
    for (size_t i = 0; i < seen->boards && i < BOARDS; i++) look_at(seen, i);
}

/* Whether these are the numbers of the exact totals of a board. */
static int are_exact(const uint64_t *found, size_t at) {
    size_t missing;
    return !dirgwako_settle(&registry, at, settled, MOST, &len, &missing) && !memcmp(found, settled, len * sizeof *settled);
}

/* Whether a board keeps what it kept. */
static int is_as_it_was(size_t at) {
    return after.kept[at] == before.kept[at] && !memcmp(after.numbers[at], before.numbers[at], sizeof after.numbers[at]);
}

/* Whether a board keeps one scrape more, or as many as it may, without the oldest; the newest is of now. */
static int has_kept(size_t at) {
    size_t old = before.kept[at], gone = old == WINDOW;
    return after.kept[at] == old - gone + 1 && !memcmp(after.numbers[at], before.numbers[at][gone], (old - gone) * sizeof *after.numbers[at])
        && are_exact(after.numbers[at][old - gone], at);
}

/* What is seen after a refusal is what was seen before, but for what it may have changed. */
static void compare(const char *what, enum may may) {
    const size_t more = after.boards - before.boards, most = may == KEEPS ? before.boards : 0;
    size_t keep = 0;
    is(what, !more || (may == COMES && more == 1), 1);
    for (size_t at = 0; at < BOARDS; at++) {
        if (keep == at && at < most && has_kept(at)) keep++;
        else is(what, is_as_it_was(at), 1);
    }
    came += more;
    kept += keep && keep < most;
    is("by a 503 one keeps none", is_busy && keep == most, 0);
}

/* Makes a call, and again where it is refused. */
static void does(const char *what, uint32_t (*call)(void), enum may may) {
    look(&before);
    uint32_t answer = call();
    if (answer == 6) {
        look(&after);
        compare(what, may);
        refused++;
        is_again = 1;
        answer = call();
        is_again = 0;
    }
    is(what, answer, 0);
}

/* The counter of this label value is the one of this board and slot; and the gauge. */
static void is_counter(const char *label, uint64_t registry_id, size_t slot) {
    value[0] = label;
    counter.registry = 0;
    does(label, of_a, NOTHING);
    is(label, counter.registry == registry_id && counter.slot == slot, 1);
}
static void is_gauge(const char *label, uint64_t registry_id, size_t slot, enum may may) {
    value[0] = label;
    gauge.registry = 0;
    does(label, of_g, may);
    is(label, gauge.registry == registry_id && gauge.slot == slot, 1);
}

/* A scrape's text is this. */
static void prints(const char *wanted) {
    does("scrape", scrapes, KEEPS);
    is("its text", len == strlen(wanted) && !memcmp(text, wanted, len), 1);
}

/* The gauges of the group 5 are on two boards, and the last one on a third, which comes then. */
static void fills(void) {
    char label[4];
    does("g", family_g, NOTHING);
    is_gauge("00", FIRST, 0, NOTHING);
    prints("# TYPE g gauge\ng{l=\"00\"} 0\n");
    for (unsigned i = 1; i <= 2 * GAUGES; i++) {
        snprintf(label, sizeof label, "%02u", i);
        is_gauge(label, FIRST + i / GAUGES, i % GAUGES, i == 2 * GAUGES ? COMES : NOTHING);
    }
}

/* The counters of the group 5 are on its board, the first. A histogram has as much room on each board, and is on the second, with fewer families than
   the first; a counter has most room on the second and the third, which has fewer families then. */
static void registers(void) {
    does("a", family_a, NOTHING);
    is_counter("z", FIRST, 0);
    is_counter("y", FIRST, 1);
    does("h", family_h, NOTHING);
    value[0] = "x";
    does("x", of_h, NOTHING);
    is("where x is", histogram.registry == FIRST + 1 && histogram.slot == 0, 1);
    does("c", of_c, NOTHING);
    is("where c is", c.registry == FIRST + 2 && c.slot == 0, 1);
}

/* On each board one version is published, of lists that one recorder has, which is given back. */
static void counts(void) {
    const dirgwako_counter z = {FIRST, 0}, y = {FIRST, 1};
    const dirgwako_gauge first = {FIRST, 0}, last_one = {FIRST + 2, 0};
    const dirgwako_change one[3] = {dirgwako_change_inc(&z, 7), dirgwako_change_inc(&y, 5), dirgwako_change_down(&first, 2)};
    const dirgwako_change two[2] = {dirgwako_change_observe(&histogram, 11), dirgwako_change_observe(&histogram, 25)};
    const dirgwako_change three[2] = {dirgwako_change_inc(&c, 40), dirgwako_change_up(&last_one, 6)};
    is("take", dirgwako_recorder_take(&registry, &recorder), 0);
    is("the first board", dirgwako_publish(&recorder, one, 3), 0);
    is("the second", dirgwako_publish(&recorder, two, 2), 0);
    is("the third", dirgwako_publish(&recorder, three, 2), 0);
    is("give back", dirgwako_recorder_give_back(&registry, &recorder), 0);
}

/* Children are found where they are, each scrape has all that was counted, and so each board keeps two of the end. */
static void ends(void) {
    is_counter("z", FIRST, 0);
    is_gauge("08", FIRST + 1, 0, NOTHING);
    is_gauge("16", FIRST + 2, 0, NOTHING);
    does("read", reads, NOTHING);
    is("its numbers", are_exact(answered, 1), 1);
    prints(SHOWN);
    does("reply", replies, KEEPS);
    is("its body", len > strlen(SHOWN) && !memcmp(text + len - strlen(SHOWN), SHOWN, strlen(SHOWN)), 1);
    prints(SHOWN);
    look(&last);
    is("three boards", (long long)last.boards, BOARDS);
    for (size_t i = 0; i < BOARDS; i++) {
        is("two scrapes", last.kept[i], WINDOW);
        is("of exact totals", are_exact(last.numbers[i][0], i) && are_exact(last.numbers[i][1], i), 1);
    }
}

/* One run, in which the allocation of this number is refused, or none. Returns how many were asked for. */
static long long run(long long number) {
    const long long asked = heap.asked, blocks = heap.blocks;
    heap.left = number;
    does("registry", opens, NOTHING);
    prints("");
    does("a second board", adds, NOTHING);
    is("its number", (long long)board, 1);
    fills();
    registers();
    counts();
    ends();
    is("free", dirgwako_registry_free(&registry), 0);
    is("no block is lost", heap.blocks, blocks);
    heap.left = -1;
    return heap.asked - asked;
}

void growth(void) {
    dirgwako_abi abi;
    is("eight gauges", dirgwako_built_for(&abi) ? 0 : (long long)abi.gauges, GAUGES);
    heap.is_one = 1;
    const long long many = run(-1);
    unrefused = last;
    is("nothing is refused", refused, 0);
    for (long long i = 0; i < many; i++) {
        run(i);
        is("the end is that of the first run", memcmp(&last, &unrefused, sizeof last), 0);
    }
    is("so many were refused", refused, many);
    is("what stays of a refused call", busy && came && kept && without, 1);
    is("no more are asked for", run(many), many);
    is("all was seen", unseen, 0);
}
