/* The tests of what is refused, each by its number: texts and families, children, changes, and bounds by rule. */
#include "test.h"
#include <stdio.h>

static dirgwako_registry registry;
static dirgwako_recorder recorder;
static struct made made;

/* Names of metrics, and by which number one is refused that is none. */
static const struct {
    const char *name;
    uint32_t answer;
} NAMES[] = {
    {"a", 0}, {"_", 0}, {":", 0}, {"Z9", 0}, {"http_requests_total", 0}, {"a:b_0", 0}, {X16("Z:9_abcd"), 0},
    {"", 1}, {"1a", 2}, {"9", 2}, {"a-b-c", 2}, {"ab é", 2}, {X128("-") "-", 3}, {X128("a") "a", 3},
    {"\xff", DIRGWAKO_NOT_UTF8},
};

static void names(void) {
    dirgwako_counter counter;
    is("new", dirgwako_registry_new(&registry, 1), 0);
    for (size_t i = 0; i < sizeof NAMES / sizeof *NAMES; i++) {
        is(NAMES[i].name, dirgwako_is_name(NAMES[i].name), NAMES[i].answer);
        is(NAMES[i].name, dirgwako_counter_new(&registry, NAMES[i].name, "", &counter), NAMES[i].answer);
    }
    is("free", dirgwako_registry_free(&registry), 0);
}

#define NINE {"a", "b", "c", "d", "e", "f", "g", "h", "i"}
#define ALIKE {"a", "a", "a", "a", "a", "a", "a", "a", "a"}
#define EIGHT {"a", "b", "c", "d", "e", "f", "g", "le"}

/* Families that are refused, and by which number: the first cause in this order, digits, the name, the help, each label, all labels, and bounds. */
static const struct {
    struct family family;
    uint32_t answer;
} FAMILIES[] = {
    {{COUNTER, "", " x", {"-"}, {0}, 0, 10}, DIRGWAKO_TOO_MANY_DIGITS},
    {{GAUGE, "a", "", {NULL}, {0}, 0, 255}, DIRGWAKO_TOO_MANY_DIGITS},
    {{GAUGE, "a", "", {NULL}, {0}, 0, 256}, DIRGWAKO_TOO_MANY_DIGITS},
    {{HISTOGRAM, "a", "", {NULL}, {1}, 1, SIZE_MAX}, DIRGWAKO_TOO_MANY_DIGITS},
    {{COUNTER, "", " x", {"-"}, {0}, 0, 0}, 1},
    {{COUNTER, "a-b", " x", {"-"}, {0}, 0, 0}, 2},
    {{COUNTER, X128("a") "a", " x", {"-"}, {0}, 0, 0}, 3},
    {{COUNTER, "a", " x", {"-"}, {0}, 0, 0}, 5},
    {{COUNTER, "a", "x ", {"-"}, {0}, 0, 0}, 5},
    {{COUNTER, "a", "\tx", {"-"}, {0}, 0, 0}, 5},
    {{COUNTER, "a", "x\t", {"-"}, {0}, 0, 0}, 5},
    {{COUNTER, "a", X1024(" ") " ", {"-"}, {0}, 0, 0}, 3},
    {{COUNTER, "a", X1024("a") "a", {"-"}, {0}, 0, 0}, 3},
    {{GAUGE, "a", "", {"", "-"}, {0}, 0, 0}, 1},
    {{GAUGE, "a", "", {"a", "b:c"}, {0}, 0, 0}, 2},
    {{GAUGE, "a", "", {"__-"}, {0}, 0, 0}, 2},
    {{GAUGE, "a", "", {"a", "__b"}, {0}, 0, 0}, 4},
    {{GAUGE, "a", "", {"__a"}, {0}, 0, 0}, 4},
    {{GAUGE, "a", "", {"__"}, {0}, 0, 0}, 4},
    {{GAUGE, "a", "", {"a", X128("l") "l"}, {0}, 0, 0}, 3},
    {{GAUGE, "a", "", {X128("_") "_"}, {0}, 0, 0}, 3},
    {{GAUGE, "a", "", {"a", "\xff"}, {0}, 0, 0}, DIRGWAKO_NOT_UTF8},
    {{COUNTER, "a", "", NINE, {0}, 0, 0}, 9},
    {{COUNTER, "a", "", ALIKE, {0}, 0, 0}, 9},
    {{COUNTER, "a", "", {"a", "b", "a", "b"}, {0}, 0, 0}, 7},
    {{GAUGE, "a", "", NINE, {0}, 0, 0}, 9},
    {{GAUGE, "a", "", ALIKE, {0}, 0, 0}, 9},
    {{GAUGE, "a", "", {"a", "b", "a", "b"}, {0}, 0, 0}, 7},
    {{HISTOGRAM, "a", "", {"le", "le", "c", "d", "e", "f", "g", "h", "i"}, {5, 5}, 2, 0}, 9},
    {{HISTOGRAM, "a", "", {"le", "a", "le"}, {5, 5}, 2, 0}, 7},
    {{HISTOGRAM, "a", "", {"a", "le"}, {5, 5}, 2, 0}, 8},
    {{HISTOGRAM, "a", "", {"le"}, {5, 5}, 2, 0}, 8},
    {{HISTOGRAM, "a", "", {"a"}, {5, 5}, 2, 0}, 10},
    {{HISTOGRAM, "a", "", {"a"}, {1, 3, 2, 2}, 4, 0}, 10},
    {{HISTOGRAM, "a", "", {"a"}, {TOP + 1}, 1, 0}, 10},
    {{HISTOGRAM, "a", "", {"a"}, {1, 2, TOP + 1}, 3, 0}, 10},
    {{HISTOGRAM, "a", "", {"a"}, {0, 1, 2, 3, 4, 5, 6, 7, 8, 9, 10, 11, 12, 13, 14, 15, 16, 17, 18, 19, 20, 21, 22, 23, 24}, 25, 0}, 10},
};

/* None of them is registered: 128 others are, one after the other, and no more. */
static void families(void) {
    const struct made untouched = {{7, 7}, {7, 7}, {7, 7}};
    struct family further = {GAUGE, "", "", {NULL}, {0}, 0, 0};
    char name[16], what[32];
    is("new", dirgwako_registry_new(&registry, 1), 0);
    made = untouched;
    for (size_t i = 0; i < sizeof FAMILIES / sizeof *FAMILIES; i++) {
        snprintf(what, sizeof what, "row %u of FAMILIES", (unsigned)i);
        is(what, asked_for(&registry, &FAMILIES[i].family, &made), FAMILIES[i].answer);
    }
    is("they are as they were", memcmp(&made, &untouched, sizeof made), 0);
    further.name = name;
    for (size_t i = 0; i < 128; i++) {
        snprintf(name, sizeof name, "f%u", (unsigned)i);
        is("a family", asked_for(&registry, &further, &made), 0);
        is("its number", (long long)made.gauges.number, (long long)i);
    }
    further.name = "f128";
    is("no more families", asked_for(&registry, &further, &made), 23);
    further.name = "f127";
    is("a name that is there is refused first", asked_for(&registry, &further, &made), 19);
    is("free", dirgwako_registry_free(&registry), 0);
}

/* Two families, and whether a name of the one's lines is one of the other's. */
static const struct {
    struct family one, other;
    int clash;
} PAIRS[] = {
    {{HISTOGRAM, "x", "", {NULL}, {0}, 0, 0}, {COUNTER, "x", "", {NULL}, {0}, 0, 0}, 1},
    {{HISTOGRAM, "x", "", {NULL}, {0}, 0, 0}, {COUNTER, "x_bucket", "", {NULL}, {0}, 0, 0}, 1},
    {{HISTOGRAM, "x", "", {NULL}, {0}, 0, 0}, {COUNTER, "x_sum", "", {NULL}, {0}, 0, 0}, 1},
    {{HISTOGRAM, "x", "", {NULL}, {0}, 0, 0}, {COUNTER, "x_count", "", {NULL}, {0}, 0, 0}, 1},
    {{HISTOGRAM, "x", "", {NULL}, {0}, 0, 0}, {COUNTER, "x_total", "", {NULL}, {0}, 0, 0}, 0},
    {{HISTOGRAM, "x", "", {NULL}, {0}, 0, 0}, {HISTOGRAM, "x_sum", "", {NULL}, {0}, 0, 0}, 1},
    {{HISTOGRAM, "x", "", {NULL}, {0}, 0, 0}, {HISTOGRAM, "x", "", {NULL}, {0}, 0, 0}, 1},
    {{HISTOGRAM, "x", "", {NULL}, {0}, 0, 0}, {HISTOGRAM, "y", "", {NULL}, {0}, 0, 0}, 0},
    {{COUNTER, "x", "", {NULL}, {0}, 0, 0}, {COUNTER, "x", "", {NULL}, {0}, 0, 0}, 1},
    {{COUNTER, "x", "", {NULL}, {0}, 0, 0}, {COUNTER, "x", "", {NULL}, {0}, 0, 9}, 1},
    {{COUNTER, "x", "", {NULL}, {0}, 0, 0}, {GAUGE, "x", "Help.", {"l"}, {0}, 0, 0}, 1},
    {{COUNTER, "x", "", {NULL}, {0}, 0, 0}, {COUNTER, "x_sum", "", {NULL}, {0}, 0, 0}, 0},
    {{COUNTER, "x", "", EIGHT, {0}, 0, 0}, {GAUGE, "y", "", EIGHT, {0}, 0, 0}, 0},
};

/* The second is refused behind the first then, whichever comes first. */
static void pairs(void) {
    for (size_t i = 0; i < 2 * (sizeof PAIRS / sizeof *PAIRS); i++) {
        const struct family *one = i % 2 ? &PAIRS[i / 2].other : &PAIRS[i / 2].one, *other = i % 2 ? &PAIRS[i / 2].one : &PAIRS[i / 2].other;
        is("new", dirgwako_registry_new(&registry, 1), 0);
        is(one->name, asked_for(&registry, one, &made), 0);
        is(other->name, asked_for(&registry, other, &made), PAIRS[i / 2].clash ? 19 : 0);
        is("free", dirgwako_registry_free(&registry), 0);
    }
}

/* Values of labels that are none or too many, and one child more than a family has: over as many boards as it needs. */
static void children(void) {
    const char *const of_c[2] = {"", X128("xx") "x"}, *const other[9] = NINE, *const labels[2] = {"a", "b"};
    const char *const not_utf8[2] = {"\xff", ""};
    dirgwako_counter_family family;
    dirgwako_counter counter;
    dirgwako_abi abi;
    char value[16];
    const char *const values[2] = {"x", value};
    size_t boards = 0;
    is("built for", dirgwako_built_for(&abi), 0);
    is("new", dirgwako_registry_new(&registry, 1), 0);
    is("family", dirgwako_counter_family_new(&registry, "c", "", labels, 2, 0, 0, &family), 0);
    is("a long value", dirgwako_counter_of(&registry, &family, of_c, 2, &counter), 3);
    is("a value that is not UTF-8", dirgwako_counter_of(&registry, &family, not_utf8, 2, &counter), DIRGWAKO_NOT_UTF8);
    is("no value", dirgwako_counter_of(&registry, &family, NULL, 0, &counter), 21);
    is("one value", dirgwako_counter_of(&registry, &family, other, 1, &counter), 21);
    is("three values", dirgwako_counter_of(&registry, &family, other, 3, &counter), 21);
    is("nine values", dirgwako_counter_of(&registry, &family, other, 9, &counter), 21);
    shows("none is a child", &registry, "");
    for (unsigned i = 0; i < 256; i++) {
        snprintf(value, sizeof value, "%u", i);
        is("a child", dirgwako_counter_of(&registry, &family, values, 2, &counter), 0);
    }
    is("no more children", dirgwako_counter_of(&registry, &family, other, 2, &counter), DIRGWAKO_TOO_MANY_CHILDREN);
    is("boards", dirgwako_boards(&registry, &boards), 0);
    is("as many as they need", (long long)boards, (long long)((256 + abi.counters - 1) / abi.counters));
    is("one that is there", dirgwako_counter_of(&registry, &family, values, 2, &counter), 0);
    is("free", dirgwako_registry_free(&registry), 0);
}

/* A registry of this id with a family of gauges and one of counters refuses this family of counters. */
static void asks_another(uint32_t id, const dirgwako_counter_family *family, uint32_t answer, const char *wanted) {
    const struct family gauges = {GAUGE, "g", "", {NULL}, {0}, 0, 0}, counters = {COUNTER, "k", "", {NULL}, {0}, 0, 0};
    dirgwako_registry another = {0};
    dirgwako_counter counter;
    is("another", dirgwako_c_registry_new(&another, id, 1), 0);
    is("gauges", asked_for(&another, &gauges, &made), 0);
    is("counters", asked_for(&another, &counters, &made), 0);
    is("another's family", dirgwako_counter_of(&another, family, NULL, 0, &counter), answer);
    shows("what is there then", &another, wanted);
    is("free", dirgwako_registry_free(&another), 0);
}

/* A family of another registry, also where the kinds agree. Registries of one id, which the header never makes, are not told apart: there it is taken
   for the family of its number, whose child is made then. */
static void others(void) {
    dirgwako_counter_family first, second, none;
    dirgwako_counter counter;
    is("new", dirgwako_c_registry_new(&registry, 900, 1), 0);
    is("the first", dirgwako_counter_family_new(&registry, "c", "", NULL, 0, 0, 0, &first), 0);
    is("the second", dirgwako_counter_family_new(&registry, "d", "", NULL, 0, 0, 0, &second), 0);
    none = second;
    none.number++;
    is("no such family", dirgwako_counter_of(&registry, &none, NULL, 0, &counter), 20);
    asks_another(900, &first, 28, "# TYPE g gauge\ng 0\n");
    asks_another(901, &second, 20, "");
    is("free", dirgwako_registry_free(&registry), 0);
}

/* A list of counters: of the registry's board or one further on, at a slot or so many behind the last one, and by how much; and what is answered. */
static const struct {
    const char *what;
    size_t many;
    struct {
        int64_t board;
        size_t slot, behind;
        uint64_t by;
    } changes[3];
    uint32_t answer;
} LISTS[] = {
    {"two boards", 2, {{0, 0, 0, 1}, {1, 0, 0, 1}}, DIRGWAKO_TWO_BOARDS},
    {"no board of the registry", 2, {{1, 0, 0, 1}, {1, 0, 0, 1}}, 16},
    {"no such slot", 2, {{0, 0, 0, 1}, {0, 0, 1, 1}}, 11},
    {"too large", 2, {{0, 0, 0, 1}, {0, 1, 0, TOP + 1}}, 12},
    {"too large together", 3, {{0, 0, 0, 1}, {0, 1, 0, TOP}, {0, 1, 0, TOP}}, 12},
    {"one of the board behind", 1, {{1, 0, 0, 1}}, 16},
    {"one of the board before", 1, {{-1, 0, 0, 1}}, 16},
    {"one of no slot", 1, {{0, 0, 1, 1}}, 11},
    {"one that is too large", 1, {{0, 0, 0, TOP + 1}}, 12},
};

/* They are published, and each list of one is counted by itself, too: nothing of them is, and nothing is published. */
static void lists(void) {
    static uint64_t read[DIRGWAKO_MOST_NUMBERS];
    dirgwako_counter a, b, counter;
    dirgwako_change changes[3];
    dirgwako_abi abi;
    size_t len = 0;
    is("built for", dirgwako_built_for(&abi), 0);
    is("new", dirgwako_registry_new(&registry, 1), 0);
    is("take", dirgwako_recorder_take(&registry, &recorder), 0);
    is("a", dirgwako_counter_new(&registry, "a", "", &a), 0);
    is("b", dirgwako_counter_new(&registry, "b", "", &b), 0);
    is("their slots", a.slot == 0 && b.slot == 1 && a.registry == b.registry, 1);
    for (size_t i = 0; i < sizeof LISTS / sizeof *LISTS; i++) {
        for (size_t k = 0; k < LISTS[i].many; k++) {
            counter.registry = a.registry + (uint64_t)LISTS[i].changes[k].board;
            counter.slot = LISTS[i].changes[k].behind ? abi.counters - 1 + LISTS[i].changes[k].behind : LISTS[i].changes[k].slot;
            changes[k] = dirgwako_change_inc(&counter, LISTS[i].changes[k].by);
        }
        is(LISTS[i].what, dirgwako_publish(&recorder, changes, LISTS[i].many), LISTS[i].answer);
        if (LISTS[i].many == 1) is(LISTS[i].what, dirgwako_inc(&recorder, &counter, LISTS[i].changes[0].by), LISTS[i].answer);
    }
    is("nothing", dirgwako_publish(&recorder, NULL, 0), 0);
    shows("nothing is counted", &registry, "# TYPE a counter\na 0\n# TYPE b counter\nb 0\n");
    is("read", dirgwako_read(&registry, 0, read, DIRGWAKO_MOST_NUMBERS, &len), 0);
    for (size_t i = 0; i < abi.workers; i++) is("nothing is published", (long long)read[1 + i], 0);
    is("free recorder", dirgwako_recorder_free(&recorder), 0);
    is("free", dirgwako_registry_free(&registry), 0);
}

/* Bounds, which a histogram has as they are. */
static const struct {
    size_t many;
    uint64_t bounds[24];
} BOUNDS[] = {
    {0, {0}},
    {1, {0}},
    {1, {TOP}},
    {2, {10, 20}},
    {24, {0, 1, 2, 3, 4, 5, 6, 7, 8, 9, 10, 11, 12, 13, 14, 15, 16, 17, 18, 19, 20, 21, 22, 23}},
};

/* Values, and their places among the bounds 10 and 20. */
static const struct {
    uint64_t value, place;
} PLACED[] = {{0, 0}, {10, 0}, {11, 1}, {20, 1}, {21, 2}, {UINT64_MAX, 2}};

static void bounds(void) {
    char name[16];
    dirgwako_histogram it;
    is("new", dirgwako_registry_new(&registry, 1), 0);
    for (size_t i = 0; i < sizeof BOUNDS / sizeof *BOUNDS; i++) {
        snprintf(name, sizeof name, "h%u", (unsigned)i);
        is("a histogram", dirgwako_histogram_new(&registry, name, "", BOUNDS[i].bounds, BOUNDS[i].many, &it), 0);
        is("its bounds", it.count == BOUNDS[i].many && !memcmp(it.bounds, BOUNDS[i].bounds, it.count * sizeof *it.bounds), 1);
        if (!it.count) is("there is one place", (long long)dirgwako_c_place(&it, UINT64_MAX), 0);
        if (it.count != 2) continue;
        for (size_t k = 0; k < sizeof PLACED / sizeof *PLACED; k++) {
            is("a place", (long long)dirgwako_c_place(&it, PLACED[k].value), (long long)PLACED[k].place);
            is("that of a change", (long long)dirgwako_change_observe(&it, PLACED[k].value).by, (long long)PLACED[k].place);
        }
    }
    is("free", dirgwako_registry_free(&registry), 0);
}

/* Where bounds begin, by how much they rise, how many there are, and what is answered; the last bound where they are some. */
struct rule {
    uint64_t start, by;
    size_t count;
    uint32_t answer;
    uint64_t last;
};

static const struct rule LINEAR[] = {
    {0, 10, 4, 0, 30}, {TOP + 1, 0, 0, 0, 0}, {7, 0, 1, 0, 7}, {3, 2, 24, 0, 49}, {TOP - 23, 1, 24, 0, TOP}, {100, 50, 3, 0, 200},
    {7, 0, 2, 10, 0}, {3, 2, 25, 10, 0}, {3, 2, 1000, 10, 0}, {TOP - 2, 1, 4, 10, 0}, {TOP + 1, 1, 1, 10, 0}, {1, UINT64_MAX, 2, 10, 0},
    {UINT64_MAX, 1, 2, 10, 0},
};

/* 2^48 - 1 is 2^24 - 1 times 2^24 + 1. */
static const struct rule EXPONENTIAL[] = {
    {3, 10, 4, 0, 3000}, {0, 0, 0, 0, 0}, {0, 2, 1, 0, 0}, {5, 0, 1, 0, 5}, {16777215, 16777217, 2, 0, TOP}, {1, 2, 24, 0, 8388608},
    {0, 2, 2, 10, 0}, {5, 0, 2, 10, 0}, {5, 1, 2, 10, 0}, {1, 2, 25, 10, 0}, {1, 2, 1000, 10, 0}, {16777215, 16777217, 3, 10, 0},
    {4294967296, 4294967296, 2, 10, 0}, {1, 65536, 4, 10, 0}, {TOP + 1, 2, 3, 10, 0},
};

/* The array has these bounds, or is as it was. */
static void follows(const struct rule *rule, int is_linear) {
    static uint64_t made_by[1001];
    int same = 1;
    memset(made_by, 1, sizeof made_by);
    const uint64_t untouched = made_by[0];
    uint32_t answer = (is_linear ? dirgwako_linear : dirgwako_exponential)(rule->start, rule->by, made_by, rule->count);
    is(is_linear ? "linear" : "exponential", answer, rule->answer);
    size_t made_so = answer ? 0 : rule->count;
    for (size_t i = 0; i < made_so; i++) {
        uint64_t wanted = !i ? rule->start : is_linear ? made_by[i - 1] + rule->by : made_by[i - 1] * rule->by;
        if (made_by[i] != wanted) same = 0;
    }
    for (size_t i = made_so; i < 1001; i++) {
        if (made_by[i] != untouched) same = 0;
    }
    is("its bounds", same && (!made_so || made_by[made_so - 1] == rule->last), 1);
}

/* Bounds by rule. */
static void spaced(void) {
    for (size_t i = 0; i < sizeof LINEAR / sizeof *LINEAR; i++) follows(&LINEAR[i], 1);
    for (size_t i = 0; i < sizeof EXPONENTIAL / sizeof *EXPONENTIAL; i++) follows(&EXPONENTIAL[i], 0);
    is("none", dirgwako_linear(5, 5, NULL, 0), 0);
}

void refusals(void) {
    names();
    families();
    pairs();
    children();
    others();
    lists();
    bounds();
    spaced();
}
