/* The tests of texts, byte for byte, which are written here by the rules of the text format: families by their names, children by their values, a
   bucket with those below it, a backslash before what is escaped. Shifted numbers are exact decimals, which checks/shifted.py reads here. */
#include "test.h"
#include <stdio.h>

static dirgwako_registry registry;
static dirgwako_recorder recorder;
static struct made made;

/* A registry and a recorder. */
static void begin(void) {
    is("new", dirgwako_registry_new(&registry, 1), 0);
    is("take", dirgwako_recorder_take(&registry, &recorder), 0);
}

/* The text of a scrape is this one, and both are freed. */
static void ends(const char *what, const char *wanted) {
    shows(what, &registry, wanted);
    is("free recorder", dirgwako_recorder_free(&recorder), 0);
    is("free", dirgwako_registry_free(&registry), 0);
}

/* A family of a kind without help, with these labels, shifted by so many digits. */
static void family(enum kind kind, const char *name, const char *label, const char *other, size_t digits) {
    const struct family asked = {kind, name, "", {label, other}, {0}, 0, digits};
    is(name, asked_for(&registry, &asked, &made), 0);
}

/* A counter of the last family, to which so much is added. */
static void counts(const char *value, const char *other, uint64_t by) {
    const char *const values[2] = {value, other};
    dirgwako_counter counter, again;
    size_t count = !value ? 0 : !other ? 1 : 2;
    is("a counter", dirgwako_counter_of(&registry, &made.counters, values, count, &counter), 0);
    is("it again", dirgwako_counter_of(&registry, &made.counters, values, count, &again), 0);
    is("is the same", again.registry == counter.registry && again.slot == counter.slot, 1);
    is("inc", dirgwako_inc(&recorder, &counter, by), 0);
}

/* A gauge of the last family, which rises and falls by so much. */
static void moves(const char *value, const char *other, uint64_t up, uint64_t down) {
    const char *const values[2] = {value, other};
    dirgwako_gauge gauge, again;
    size_t count = !value ? 0 : !other ? 1 : 2;
    is("a gauge", dirgwako_gauge_of(&registry, &made.gauges, values, count, &gauge), 0);
    is("it again", dirgwako_gauge_of(&registry, &made.gauges, values, count, &again), 0);
    is("is the same", again.registry == gauge.registry && again.slot == gauge.slot, 1);
    is("up", dirgwako_up(&recorder, &gauge, up), 0);
    is("down", dirgwako_down(&recorder, &gauge, down), 0);
}

/* A histogram of the last family. */
static dirgwako_histogram histogram(const char *value) {
    const char *const values[1] = {value};
    dirgwako_histogram first = {0}, again = {0};
    is("a histogram", dirgwako_histogram_of(&registry, &made.histograms, values, value != NULL, &first), 0);
    is("it again", dirgwako_histogram_of(&registry, &made.histograms, values, value != NULL, &again), 0);
    is("is the same", memcmp(&first, &again, sizeof first), 0);
    return first;
}

/* Names, helps and values that are some, with the help and the value as they are shown. */
static const struct {
    const char *name, *help, *label, *value, *shown_help, *shown_value;
} LABELLED[] = {
    {"a", "x", "a", "", "x", ""},
    {"_", "a\\b\nc", "_", " ", "a\\\\b\\nc", " "},
    {":", "Größe in \"Byte\".", "_a", "a b", "Größe in \"Byte\".", "a b"},
    {"Z9", "\nx\n", "le", "\"\n\\", "\\nx\\n", "\\\"\\n\\\\"},
    {"http_requests_total", "A help.", "a__b", "x", "A help.", "x"},
    {"a:b_0", "A help.", "l", "x", "A help.", "x"},
    {X16("Z:9_abcd"), X128("\\\n\"é xy"), X16("Z_9_abcd"), X16("\"\n\\ é\tx\"\n\\ é\tx"), X128("\\\\\\n\"é xy"),
     X16("\\\"\\n\\\\ é\tx\\\"\\n\\\\ é\tx")},
};

/* Each of them, of a counter and of a gauge. The last ones are the longest. */
static void labelled(void) {
    static const char *const kinds[2] = {"counter", "gauge"};
    static char wanted[4096];
    const size_t last = sizeof LABELLED / sizeof *LABELLED - 1;
    is("the longest names", strlen(LABELLED[last].name) == 128 && strlen(LABELLED[last].label) == 128, 1);
    is("the longest texts", strlen(LABELLED[last].help) == 1024 && strlen(LABELLED[last].value) == 256, 1);
    for (size_t i = 0; i < 2 * (last + 1); i++) {
        const char *name = LABELLED[i / 2].name, *label = LABELLED[i / 2].label, *kind = kinds[i % 2];
        const struct family asked = {i % 2 ? GAUGE : COUNTER, name, LABELLED[i / 2].help, {label}, {0}, 0, 0};
        begin();
        is(name, asked_for(&registry, &asked, &made), 0);
        if (i % 2) moves(LABELLED[i / 2].value, NULL, 0, 0);
        else counts(LABELLED[i / 2].value, NULL, 0);
        snprintf(wanted, sizeof wanted, "# HELP %s %s\n# TYPE %s %s\n%s{%s=\"%s\"} 0\n", name, LABELLED[i / 2].shown_help, name, kind, name,
                 label, LABELLED[i / 2].shown_value);
        ends(name, wanted);
    }
}

/* What has no series has no text; a help is left out where it is empty. */
static void plain(void) {
    begin();
    ends("no family", "");
    begin();
    family(COUNTER, "a", NULL, NULL, 0);
    ends("no child", "");
    begin();
    family(COUNTER, "a", NULL, NULL, 0);
    counts(NULL, NULL, 0);
    ends("a counter", "# TYPE a counter\na 0\n");
}

/* The format's own example, whose later line is made first. */
static void requests(void) {
    const struct family asked = {COUNTER, "http_requests_total", "The total number of HTTP requests.", {"method", "code"}, {0}, 0, 0};
    begin();
    is("requests", asked_for(&registry, &asked, &made), 0);
    counts("post", "400", 3);
    counts("post", "200", 1027);
    ends("requests",
         "# HELP http_requests_total The total number of HTTP requests.\n# TYPE http_requests_total counter\n"
         "http_requests_total{method=\"post\",code=\"200\"} 1027\nhttp_requests_total{method=\"post\",code=\"400\"} 3\n");
}

/* Gauges below, at and above zero, behind a counter. */
static void gauges(void) {
    begin();
    family(GAUGE, "g", "l", NULL, 0);
    moves("z", NULL, 9, 2);
    moves("y", NULL, 7, 7);
    moves("x", NULL, 5, 7);
    family(COUNTER, "a", NULL, NULL, 0);
    counts(NULL, NULL, 0);
    ends("gauges", "# TYPE a counter\na 0\n# TYPE g gauge\ng{l=\"x\"} -2\ng{l=\"y\"} 0\ng{l=\"z\"} 7\n");
}

/* Histograms without and with a label, their bounds, what is counted, and the text. */
static const struct {
    const char *label, *value;
    uint64_t bounds[2];
    size_t many;
    uint64_t values[4];
    size_t counted;
    const char *text;
} HISTOGRAMS[] = {
    {NULL, NULL, {10, 20}, 2, {10, 11, 99}, 3,
     "# TYPE h histogram\nh_bucket{le=\"10\"} 1\nh_bucket{le=\"20\"} 2\nh_bucket{le=\"+Inf\"} 3\nh_sum 120\nh_count 3\n"},
    {NULL, NULL, {0}, 0, {0}, 1, "# TYPE h histogram\nh_bucket{le=\"+Inf\"} 1\nh_sum 0\nh_count 1\n"},
    {"z", "x", {10}, 1, {0}, 1,
     "# TYPE h histogram\nh_bucket{z=\"x\",le=\"10\"} 1\nh_bucket{z=\"x\",le=\"+Inf\"} 1\nh_sum{z=\"x\"} 0\nh_count{z=\"x\"} 1\n"},
};

static void histograms(void) {
    for (size_t i = 0; i < sizeof HISTOGRAMS / sizeof *HISTOGRAMS; i++) {
        struct family asked = {HISTOGRAM, "h", "", {HISTOGRAMS[i].label}, {0}, HISTOGRAMS[i].many, 0};
        memcpy(asked.bounds, HISTOGRAMS[i].bounds, sizeof HISTOGRAMS[i].bounds);
        begin();
        is("histograms", asked_for(&registry, &asked, &made), 0);
        const dirgwako_histogram it = histogram(HISTOGRAMS[i].value);
        for (size_t k = 0; k < HISTOGRAMS[i].counted; k++) is("observe", dirgwako_observe(&recorder, &it, HISTOGRAMS[i].values[k]), 0);
        ends("a histogram", HISTOGRAMS[i].text);
    }
}

/* Three values, one in each of the first three buckets, which are summed up to each of 24 bounds; and to that of none. */
static void cumulated(void) {
    struct family asked = {HISTOGRAM, "h", "", {NULL}, {0}, 24, 0};
    static char wanted[2048] = "# TYPE h histogram\n";
    dirgwako_change change;
    for (unsigned i = 0; i < 24; i++) {
        asked.bounds[i] = i;
        snprintf(wanted + strlen(wanted), 64, "h_bucket{le=\"%u\"} %u\n", i, i < 2 ? i + 1 : 3);
    }
    strcat(wanted, "h_bucket{le=\"+Inf\"} 3\nh_sum 3\nh_count 3\n");
    begin();
    is("24 bounds", asked_for(&registry, &asked, &made), 0);
    dirgwako_histogram it = histogram(NULL);
    for (uint64_t i = 0; i < 3; i++) is("observe", dirgwako_observe(&recorder, &it, i), 0);
    ends("24 bounds", wanted);
    begin();
    asked.many = 0;
    is("no bound", asked_for(&registry, &asked, &made), 0);
    it = histogram(NULL);
    for (uint64_t i = 0; i < 3; i++) {
        change = dirgwako_change_observe(&it, 1);
        change.by = i;
        is("in this bucket", dirgwako_publish(&recorder, &change, 1), 0);
    }
    ends("no bound", "# TYPE h histogram\nh_bucket{le=\"+Inf\"} 3\nh_sum 3\nh_count 3\n");
}

/* A histogram with 8 labels, the 24 greatest bounds, shifted by 9 digits, and a help of 1,024 bytes. */
static void longest(void) {
    static const char *const values[8] = {"1", "2", "3", "4", "5", "6", "7", "8"};
    static const char *const labels = "a=\"1\",b=\"2\",c=\"3\",d=\"4\",e=\"5\",f=\"6\",g=\"7\",h=\"8\"";
    struct family asked = {HISTOGRAM, "h", X128("\\\n\" help"), {"a", "b", "c", "d", "e", "f", "g", "h"}, {0}, 24, 9};
    static char wanted[8192] = "# HELP h " X128("\\\\\\n\" help") "\n# TYPE h histogram\n";
    char bound[32];
    dirgwako_histogram it;
    for (uint64_t i = 0; i < 24; i++) {
        asked.bounds[i] = TOP - 23 + i;
        snprintf(bound, sizeof bound, "281474.976710%03u", (unsigned)(632 + i));
        for (size_t end = strlen(bound) - 1; bound[end] == '0'; end--) bound[end] = 0;
        snprintf(wanted + strlen(wanted), 256, "h_bucket{%s,le=\"%s\"} 0\n", labels, bound);
    }
    snprintf(wanted + strlen(wanted), 512, "h_bucket{%s,le=\"+Inf\"} 0\nh_sum{%s} 0\nh_count{%s} 0\n", labels, labels, labels);
    begin();
    is("the longest", asked_for(&registry, &asked, &made), 0);
    is("its child", dirgwako_histogram_of(&registry, &made.histograms, values, 8, &it), 0);
    is("its bounds", it.count == 24 && !memcmp(it.bounds, asked.bounds, sizeof it.bounds), 1);
    ends("the longest", wanted);
}

/* What was counted of all kinds. */
static const char ALL[] =
    "# HELP bytes Bytes.\n# TYPE bytes histogram\n"
    "bytes_bucket{path=\"/\",le=\"100\"} 1\nbytes_bucket{path=\"/\",le=\"250\"} 3\nbytes_bucket{path=\"/\",le=\"+Inf\"} 4\n"
    "bytes_sum{path=\"/\"} 702\nbytes_count{path=\"/\"} 4\n"
    "# TYPE depth gauge\ndepth{queue=\"in\",host=\"\"} -7\n"
    "# HELP jobs_total Jobs by their\\nresult.\n# TYPE jobs_total counter\n"
    "jobs_total{result=\"\\\"bad\\\"\"} 2\njobs_total{result=\"ok\"} 281474976710655\n"
    "# HELP z No bound.\n# TYPE z histogram\nz_bucket{le=\"+Inf\"} 0\nz_sum 0\nz_count 0\n";

/* Families of all kinds, not in the order of their names; values at and beside bounds, and a gauge that falls below zero. */
static void all_kinds(void) {
    const struct family jobs = {COUNTER, "jobs_total", "Jobs by their\nresult.", {"result"}, {0}, 0, 0};
    const struct family sizes = {HISTOGRAM, "bytes", "Bytes.", {"path"}, {100, 250}, 2, 0};
    dirgwako_histogram z;
    begin();
    is("jobs", asked_for(&registry, &jobs, &made), 0);
    counts("ok", NULL, TOP);
    counts("\"bad\"", NULL, 2);
    is("sizes", asked_for(&registry, &sizes, &made), 0);
    const dirgwako_histogram bytes = histogram("/");
    const dirgwako_change more[3] = {dirgwako_change_observe(&bytes, 101), dirgwako_change_observe(&bytes, 250),
                                     dirgwako_change_observe(&bytes, 251)};
    is("observe", dirgwako_observe(&recorder, &bytes, 100), 0);
    is("three more", dirgwako_publish(&recorder, more, 3), 0);
    is("z", dirgwako_histogram_new(&registry, "z", "No bound.", NULL, 0, &z), 0);
    family(GAUGE, "depth", "queue", "host", 0);
    moves("in", "", 3, 1);
    moves("in", "", 1, 10);
    ends("all kinds", ALL);
}

/* By how many digits a number is shifted, the number, and how it is shown. */
static const struct {
    size_t digits;
    uint64_t number;
    const char *shown;
} SHIFTED[] = {
    {6, 0, "0"},
    {6, 9, "0.000009"},
    {6, 999999, "0.999999"},
    {6, 1000000, "1"},
    {6, 1000001, "1.000001"},
    {6, 2250401, "2.250401"},
    {6, 10500000, "10.5"},
    {6, 281474976710655, "281474976.710655"},
    {1, 9, "0.9"},
    {1, 10, "1"},
    {1, 105, "10.5"},
    {3, 100, "0.1"},
    {3, 1010, "1.01"},
    {9, 1, "0.000000001"},
    {9, 999999999, "0.999999999"},
    {9, 1000000000, "1"},
    {9, 281474976710655, "281474.976710655"},
};

/* Counters. */
static void shifted(void) {
    char wanted[64];
    for (size_t i = 0; i < sizeof SHIFTED / sizeof *SHIFTED; i++) {
        snprintf(wanted, sizeof wanted, "# TYPE a counter\na %s\n", SHIFTED[i].shown);
        begin();
        family(COUNTER, "a", NULL, NULL, SHIFTED[i].digits);
        counts(NULL, NULL, SHIFTED[i].number);
        ends(SHIFTED[i].shown, wanted);
    }
}

/* Gauges. */
static void shifted_gauges(void) {
    begin();
    family(GAUGE, "a", "l", NULL, 6);
    moves("a", NULL, 0, 1);
    moves("b", NULL, 5, 1500005);
    moves("c", NULL, 0, TOP);
    moves("d", NULL, 7, 7);
    ends("shifted gauges", "# TYPE a gauge\na{l=\"a\"} -0.000001\na{l=\"b\"} -1.5\na{l=\"c\"} -281474976.710655\na{l=\"d\"} 0\n");
}

/* A histogram with the least and the greatest bound: the sum is shifted as bounds are, and counts are not. No thread counts more than the greatest
   bound, so what is over it is told by its bucket. */
static void shifted_histograms(void) {
    const struct family asked = {HISTOGRAM, "h", "", {NULL}, {1, 500000, 1000000, TOP}, 4, 6};
    dirgwako_recorder other = {0};
    begin();
    is("take", dirgwako_recorder_take(&registry, &other), 0);
    is("histograms", asked_for(&registry, &asked, &made), 0);
    const dirgwako_histogram it = histogram(NULL);
    dirgwako_change over = dirgwako_change_observe(&it, TOP);
    over.by = 4;
    is("1", dirgwako_observe(&other, &it, 1), 0);
    is("3", dirgwako_observe(&other, &it, 3), 0);
    is("600,000", dirgwako_observe(&other, &it, 600000), 0);
    is("over the greatest bound", dirgwako_publish(&recorder, &over, 1), 0);
    is("free", dirgwako_recorder_free(&other), 0);
    ends("a shifted histogram",
         "# TYPE h histogram\nh_bucket{le=\"0.000001\"} 1\nh_bucket{le=\"0.5\"} 2\nh_bucket{le=\"1\"} 3\n"
         "h_bucket{le=\"281474976.710655\"} 3\nh_bucket{le=\"+Inf\"} 4\nh_sum 281474977.310659\nh_count 4\n");
}

/* What was counted in other units than it is shown in. */
static const char SECONDS[] =
    "# TYPE age gauge\nage -0.001\n"
    "# HELP answer_seconds Answers.\n# TYPE answer_seconds histogram\n"
    "answer_seconds_bucket{le=\"0.005\"} 0\nanswer_seconds_bucket{le=\"0.01\"} 1\nanswer_seconds_bucket{le=\"0.025\"} 1\n"
    "answer_seconds_bucket{le=\"0.05\"} 1\nanswer_seconds_bucket{le=\"0.1\"} 1\nanswer_seconds_bucket{le=\"0.25\"} 1\n"
    "answer_seconds_bucket{le=\"0.5\"} 2\nanswer_seconds_bucket{le=\"1\"} 2\nanswer_seconds_bucket{le=\"2.5\"} 2\n"
    "answer_seconds_bucket{le=\"5\"} 2\nanswer_seconds_bucket{le=\"10\"} 2\nanswer_seconds_bucket{le=\"+Inf\"} 3\n"
    "answer_seconds_sum 20.307\nanswer_seconds_count 3\n"
    "# TYPE busy_seconds_total counter\nbusy_seconds_total{task=\"idle\"} 2.250401\n"
    "# TYPE wait_seconds histogram\nwait_seconds_bucket{l=\"x\",le=\"0.000000001\"} 0\nwait_seconds_bucket{l=\"x\",le=\"1\"} 1\n"
    "wait_seconds_bucket{l=\"x\",le=\"+Inf\"} 1\nwait_seconds_sum{l=\"x\"} 0.00000025\nwait_seconds_count{l=\"x\"} 1\n";

/* Microseconds and nanoseconds are shown in seconds, and a gauge in thousandths. */
static void seconds(void) {
    static const uint64_t bounds[11] = DIRGWAKO_SECONDS_DEFAULT;
    const struct family nanoseconds = {HISTOGRAM, "wait_seconds", "", {"l"}, {1, 1000000000}, 2, 9};
    dirgwako_histogram answers, waits;
    begin();
    is("null", dirgwako_histogram_seconds_new(&registry, "answer_seconds", "Answers.", bounds, 11, NULL), DIRGWAKO_NULL);
    is("seconds", dirgwako_histogram_seconds_new(&registry, "answer_seconds", "Answers.", bounds, 11, &answers), 0);
    is("without digits", dirgwako_histogram_new(&registry, "answer_seconds", "", NULL, 0, &waits), 19);
    is("seconds again", dirgwako_histogram_seconds_new(&registry, "answer_seconds", "", NULL, 0, &waits), 19);
    is("nanoseconds", asked_for(&registry, &nanoseconds, &made), 0);
    waits = histogram("x");
    family(COUNTER, "busy_seconds_total", "task", NULL, 6);
    counts("idle", NULL, 2250401);
    family(GAUGE, "age", NULL, NULL, 3);
    moves(NULL, NULL, 0, 1);
    is("observe", dirgwako_observe(&recorder, &answers, 7000), 0);
    is("observe", dirgwako_observe(&recorder, &answers, 300000), 0);
    is("observe", dirgwako_observe(&recorder, &answers, 20000000), 0);
    is("observe", dirgwako_observe(&recorder, &waits, 250), 0);
    ends("seconds", SECONDS);
}

void texts(void) {
    labelled();
    plain();
    requests();
    gauges();
    histograms();
    cumulated();
    longest();
    all_kinds();
    shifted();
    shifted_gauges();
    shifted_histograms();
    seconds();
}
