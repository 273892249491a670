/* The tests of the C interface: each function once on its happy path, each refusal once by its number, handles that are freed twice or used after
   they were freed, and four threads that count while the main thread scrapes. Ends in `N passed, 0 failed`. */
#include "test.h"
#include <pthread.h>
#include <stdio.h>
#include <stdlib.h>

enum { THREADS = 4, ROUNDS = 200000 };

/* Null pointers are refused, each by 38. */
static void nulls(void) {
    dirgwako_registry registry = {0};
    dirgwako_recorder recorder = {0};
    dirgwako_counter counter = {0};
    dirgwako_gauge gauge = {0};
    dirgwako_histogram histogram = {0};
    dirgwako_counter_family counters = {0};
    const char *one[1] = {"code"};
    size_t len = 0;
    is("new", dirgwako_registry_new(NULL, 1), DIRGWAKO_NULL);
    is("free", dirgwako_registry_free(NULL), DIRGWAKO_NULL);
    is("take", dirgwako_recorder_take(&registry, NULL), DIRGWAKO_NULL);
    is("give back", dirgwako_recorder_give_back(NULL, &recorder), DIRGWAKO_NULL);
    is("free recorder", dirgwako_recorder_free(NULL), DIRGWAKO_NULL);
    is("counter", dirgwako_counter_new(&registry, NULL, "Help.", &counter), DIRGWAKO_NULL);
    is("gauge", dirgwako_gauge_new(&registry, "a", NULL, &gauge), DIRGWAKO_NULL);
    is("histogram", dirgwako_histogram_new(&registry, "a", "Help.", NULL, 1, &histogram), DIRGWAKO_NULL);
    is("family", dirgwako_counter_family_new(&registry, "a", "Help.", NULL, 1, 0, 0, &counters), DIRGWAKO_NULL);
    is("child", dirgwako_counter_of(&registry, &counters, one, 1, NULL), DIRGWAKO_NULL);
    is("inc", dirgwako_inc(NULL, &counter, 1), DIRGWAKO_NULL);
    is("observe", dirgwako_observe(&recorder, NULL, 1), DIRGWAKO_NULL);
    is("up", dirgwako_up(NULL, &gauge, 1), DIRGWAKO_NULL);
    is("down", dirgwako_down(&recorder, NULL, 1), DIRGWAKO_NULL);
    is("publish", dirgwako_publish(&recorder, NULL, 1), DIRGWAKO_NULL);
    is("window", dirgwako_set_window(NULL, 1), DIRGWAKO_NULL);
    is("a board", dirgwako_board_add(&registry, NULL), DIRGWAKO_NULL);
    is("boards", dirgwako_boards(NULL, &len), DIRGWAKO_NULL);
    is("board of", dirgwako_board_of(&registry, 0, NULL), DIRGWAKO_NULL);
    is("kept", dirgwako_kept(&registry, 0, NULL), DIRGWAKO_NULL);
    is("read", dirgwako_read(&registry, 0, NULL, 1, &len), DIRGWAKO_NULL);
    is("read kept", dirgwako_read_kept(&registry, 0, 0, NULL, 1, &len), DIRGWAKO_NULL);
    is("settle", dirgwako_settle(&registry, 0, NULL, 0, &len, NULL), DIRGWAKO_NULL);
    is("total", dirgwako_counter_total(NULL, 0, &counter, NULL), DIRGWAKO_NULL);
    is("value", dirgwako_gauge_value(NULL, 0, &gauge, NULL), DIRGWAKO_NULL);
    is("totals", dirgwako_histogram_totals(NULL, 0, &histogram, NULL), DIRGWAKO_NULL);
    is("linear", dirgwako_linear(1, 1, NULL, 1), DIRGWAKO_NULL);
    is("exponential", dirgwako_exponential(1, 2, NULL, 1), DIRGWAKO_NULL);
    is("name", dirgwako_is_name(NULL), DIRGWAKO_NULL);
    is("built for", dirgwako_built_for(NULL), DIRGWAKO_NULL);
    is("new with", dirgwako_registry_new_with(NULL, 1, 1), DIRGWAKO_NULL);
    is("take a scraper", dirgwako_scraper_take(&registry, NULL), DIRGWAKO_NULL);
    is("free a scraper", dirgwako_scraper_free(NULL), DIRGWAKO_NULL);
    is("scrapers", dirgwako_scrapers(&registry, NULL), DIRGWAKO_NULL);
    is("scraper", dirgwako_scraper_scrape(NULL, text, sizeof text, &len), DIRGWAKO_NULL);
    is("its reply", dirgwako_scraper_reply(NULL, "GET", 3, text, sizeof text, &len), DIRGWAKO_NULL);
    is("reply", dirgwako_reply(&registry, NULL, 1, text, sizeof text, &len), DIRGWAKO_NULL);
    is("scrape", dirgwako_scrape(&registry, NULL, 1, &len), DIRGWAKO_NULL);
}

/* Handles that hold nothing are refused, each by 34. */
static void empties(void) {
    dirgwako_registry registry = {0};
    dirgwako_recorder recorder = {0};
    dirgwako_scraper scraper = {0};
    dirgwako_counter counter = {0};
    dirgwako_gauge gauge = {0};
    dirgwako_histogram histogram = {0};
    dirgwako_counter_family counters = {0};
    dirgwako_gauge_family gauges = {0};
    dirgwako_histogram_family histograms = {0};
    const char *one[1] = {"code"};
    const uint64_t bounds[1] = {1};
    size_t len = 7, missing = 7;
    is("free", dirgwako_registry_free(&registry), DIRGWAKO_EMPTY);
    is("take", dirgwako_recorder_take(&registry, &recorder), DIRGWAKO_EMPTY);
    is("give back", dirgwako_recorder_give_back(&registry, &recorder), DIRGWAKO_EMPTY);
    is("free recorder", dirgwako_recorder_free(&recorder), DIRGWAKO_EMPTY);
    is("counter", dirgwako_counter_new(&registry, "a", "Help.", &counter), DIRGWAKO_EMPTY);
    is("gauge", dirgwako_gauge_new(&registry, "a", "Help.", &gauge), DIRGWAKO_EMPTY);
    is("histogram", dirgwako_histogram_new(&registry, "a", "Help.", bounds, 1, &histogram), DIRGWAKO_EMPTY);
    is("counters", dirgwako_counter_family_new(&registry, "a", "Help.", one, 1, 0, 0, &counters), DIRGWAKO_EMPTY);
    is("gauges", dirgwako_gauge_family_new(&registry, "a", "Help.", one, 1, 0, 0, &gauges), DIRGWAKO_EMPTY);
    is("histograms", dirgwako_histogram_family_new(&registry, "a", "Help.", one, 1, bounds, 1, 0, 0, &histograms), DIRGWAKO_EMPTY);
    is("a counter", dirgwako_counter_of(&registry, &counters, one, 1, &counter), DIRGWAKO_EMPTY);
    is("a gauge", dirgwako_gauge_of(&registry, &gauges, one, 1, &gauge), DIRGWAKO_EMPTY);
    is("a histogram", dirgwako_histogram_of(&registry, &histograms, one, 1, &histogram), DIRGWAKO_EMPTY);
    is("inc", dirgwako_inc(&recorder, &counter, 1), DIRGWAKO_EMPTY);
    is("observe", dirgwako_observe(&recorder, &histogram, 1), DIRGWAKO_EMPTY);
    is("up", dirgwako_up(&recorder, &gauge, 1), DIRGWAKO_EMPTY);
    is("down", dirgwako_down(&recorder, &gauge, 1), DIRGWAKO_EMPTY);
    is("publish", dirgwako_publish(&recorder, NULL, 0), DIRGWAKO_EMPTY);
    is("window", dirgwako_set_window(&registry, 1), DIRGWAKO_EMPTY);
    is("a board", dirgwako_board_add(&registry, &len), DIRGWAKO_EMPTY);
    is("boards", dirgwako_boards(&registry, &len), DIRGWAKO_EMPTY);
    is("board of", dirgwako_board_of(&registry, 0, &len), DIRGWAKO_EMPTY);
    is("reply", dirgwako_reply(&registry, "GET", 3, text, sizeof text, &len), DIRGWAKO_EMPTY);
    is("scrape", dirgwako_scrape(&registry, text, sizeof text, &len), DIRGWAKO_EMPTY);
    is("take a scraper", dirgwako_scraper_take(&registry, &scraper), DIRGWAKO_EMPTY);
    is("scrapers", dirgwako_scrapers(&registry, &len), DIRGWAKO_EMPTY);
    is("scraper", dirgwako_scraper_scrape(&scraper, text, sizeof text, &len), DIRGWAKO_EMPTY);
    is("its reply", dirgwako_scraper_reply(&scraper, "GET", 3, text, sizeof text, &len), DIRGWAKO_EMPTY);
    is("kept", dirgwako_kept(&registry, 0, &len), DIRGWAKO_EMPTY);
    is("read", dirgwako_read(&registry, 0, NULL, 0, &len), DIRGWAKO_EMPTY);
    is("read kept", dirgwako_read_kept(&registry, 0, 0, NULL, 0, &len), DIRGWAKO_EMPTY);
    is("settle", dirgwako_settle(&registry, 0, NULL, 0, &len, &missing), DIRGWAKO_EMPTY);
    is("the worker is as it was", (long long)missing, 7);
    is("the length is as it was", (long long)len, 7);
}

/* Metrics without labels are counted and scraped. */
static void metrics(void) {
    dirgwako_registry registry = {0};
    dirgwako_recorder recorder = {0};
    dirgwako_counter visits;
    dirgwako_gauge open;
    dirgwako_histogram bytes;
    const uint64_t bounds[3] = {10, 20, 30};
    size_t len = 0;
    is("window", dirgwako_registry_new(&registry, 0), 31);
    is("window", dirgwako_registry_new(&registry, 1025), 31);
    is("new", dirgwako_registry_new(&registry, 4), 0);
    is("take", dirgwako_recorder_take(&registry, &recorder), 0);
    is("counter", dirgwako_counter_new(&registry, "visits_total", "Visits.", &visits), 0);
    is("gauge", dirgwako_gauge_new(&registry, "open", "Open.", &open), 0);
    is("histogram", dirgwako_histogram_new(&registry, "answer_bytes", "Bytes.", bounds, 3, &bytes), 0);
    is("clash", dirgwako_counter_new(&registry, "visits_total", "Again.", &visits), 19);
    is("not UTF-8", dirgwako_counter_new(&registry, "b_total", "\xc3", &visits), DIRGWAKO_NOT_UTF8);
    is("inc", dirgwako_inc(&recorder, &visits, 3), 0);
    is("up", dirgwako_up(&recorder, &open, 5), 0);
    is("down", dirgwako_down(&recorder, &open, 8), 0);
    is("observe", dirgwako_observe(&recorder, &bytes, 20), 0);
    is("observe", dirgwako_observe(&recorder, &bytes, 31), 0);
    is("too large", dirgwako_inc(&recorder, &visits, UINT64_MAX), 12);
    is("visits", scraped(&registry, "visits_total"), 3);
    is("open", scraped(&registry, "open"), -3);
    is("10", scraped(&registry, "answer_bytes_bucket{le=\"10\"}"), 0);
    is("20", scraped(&registry, "answer_bytes_bucket{le=\"20\"}"), 1);
    is("+Inf", scraped(&registry, "answer_bytes_bucket{le=\"+Inf\"}"), 2);
    is("sum", scraped(&registry, "answer_bytes_sum"), 51);
    is("count", scraped(&registry, "answer_bytes_count"), 2);
    is("too short", dirgwako_scrape(&registry, text, 3, &len), DIRGWAKO_TOO_SHORT);
    size_t needs = len;
    is("too short by one", dirgwako_scrape(&registry, text, needs - 1, &len), DIRGWAKO_TOO_SHORT);
    is("long enough", dirgwako_scrape(&registry, text, needs, &len), 0);
    is("its length", (long long)len, (long long)needs);
    is("no buffer", dirgwako_scrape(&registry, NULL, 0, &len), DIRGWAKO_TOO_SHORT);
    is("give back", dirgwako_recorder_give_back(&registry, &recorder), 0);
    is("gone", dirgwako_inc(&recorder, &visits, 1), DIRGWAKO_EMPTY);
    is("free", dirgwako_registry_free(&registry), 0);
    is("freed twice", dirgwako_registry_free(&registry), DIRGWAKO_EMPTY);
    is("used when freed", dirgwako_scrape(&registry, text, sizeof text, &len), DIRGWAKO_EMPTY);
}

/* Families with labels, and their children. */
static void families(void) {
    dirgwako_registry registry = {0};
    dirgwako_recorder recorder = {0};
    dirgwako_counter_family answers;
    dirgwako_gauge_family queues;
    dirgwako_histogram_family times;
    dirgwako_counter ok, again, missing;
    dirgwako_gauge first;
    dirgwako_histogram slow;
    const char *labels[2] = {"code", "route"}, *nine[9] = {"a", "b", "c", "d", "e", "f", "g", "h", "i"};
    const char *found[2] = {"200", "/a\"b"}, *other[2] = {"404", "/"};
    const uint64_t bounds[2] = {5, 50};
    is("new", dirgwako_registry_new(&registry, 2), 0);
    is("take", dirgwako_recorder_take(&registry, &recorder), 0);
    is("counters", dirgwako_counter_family_new(&registry, "answers_total", "Answers.", labels, 2, 0, 0, &answers), 0);
    is("gauges", dirgwako_gauge_family_new(&registry, "queued", "Queued.", labels, 1, 0, 0, &queues), 0);
    is("histograms", dirgwako_histogram_family_new(&registry, "time_microseconds", "Times.", labels, 1, bounds, 2, 0, 0, &times), 0);
    is("nine labels", dirgwako_counter_family_new(&registry, "b_total", "B.", nine, 9, 0, 0, &answers), 9);
    is("nine labels", dirgwako_gauge_family_new(&registry, "b", "B.", nine, 9, 0, 0, &queues), 9);
    is("nine labels", dirgwako_histogram_family_new(&registry, "b", "B.", nine, 9, bounds, 2, 0, 0, &times), 9);
    is("a child", dirgwako_counter_of(&registry, &answers, found, 2, &ok), 0);
    is("the same", dirgwako_counter_of(&registry, &answers, found, 2, &again), 0);
    is("its slot", (long long)again.slot, (long long)ok.slot);
    is("another", dirgwako_counter_of(&registry, &answers, other, 2, &missing), 0);
    is("a gauge", dirgwako_gauge_of(&registry, &queues, found, 1, &first), 0);
    is("a histogram", dirgwako_histogram_of(&registry, &times, other, 1, &slow), 0);
    is("inc", dirgwako_inc(&recorder, &ok, 2), 0);
    is("inc", dirgwako_inc(&recorder, &missing, 1), 0);
    is("up", dirgwako_up(&recorder, &first, 9), 0);
    is("observe", dirgwako_observe(&recorder, &slow, 50), 0);
    is("200", scraped(&registry, "answers_total{code=\"200\",route=\"/a\\\"b\"}"), 2);
    is("404", scraped(&registry, "answers_total{code=\"404\",route=\"/\"}"), 1);
    is("queued", scraped(&registry, "queued{code=\"200\"}"), 9);
    is("slow", scraped(&registry, "time_microseconds_bucket{code=\"404\",le=\"50\"}"), 1);
    const dirgwako_gauge_family other_kind = {answers.registry, answers.number};
    const dirgwako_counter_family no_family = {answers.registry, 100};
    is("of another kind", dirgwako_gauge_of(&registry, &other_kind, found, 2, &first), 28);
    is("no family", dirgwako_counter_of(&registry, &no_family, found, 2, &ok), 20);
    answers.registry++;
    is("a family of another registry", dirgwako_counter_of(&registry, &answers, found, 2, &ok), 20);
    is("free", dirgwako_registry_free(&registry), 0);
    is("it counts on", dirgwako_inc(&recorder, &missing, 1), 0);
    is("free recorder", dirgwako_recorder_free(&recorder), 0);
    is("freed twice", dirgwako_recorder_free(&recorder), DIRGWAKO_EMPTY);
}

/* Two registries do not take each other's handles; each worker has one recorder. */
static void apart(void) {
    dirgwako_registry one = {0}, two = {0};
    dirgwako_recorder recorder = {0}, all[64];
    dirgwako_counter counter, far;
    size_t many = 0;
    memset(all, 0, sizeof all);
    is("one", dirgwako_registry_new(&one, 1), 0);
    is("two", dirgwako_registry_new(&two, 1), 0);
    is("counter", dirgwako_counter_new(&one, "a_total", "A.", &counter), 0);
    is("take", dirgwako_recorder_take(&two, &recorder), 0);
    is("another's counter", dirgwako_inc(&recorder, &counter, 1), 16);
    far = counter;
    far.registry += 128;
    far.slot = 100000;
    is("no such slot", dirgwako_inc(&recorder, &far, 1), 11);
    is("another's recorder", dirgwako_recorder_give_back(&one, &recorder), 16);
    is("it stays", dirgwako_recorder_give_back(&two, &recorder), 0);
    while (many < 64 && !dirgwako_recorder_take(&one, &all[many])) many++;
    is("no worker is left", dirgwako_recorder_take(&one, &recorder), DIRGWAKO_NO_WORKER);
    is("give back", dirgwako_recorder_give_back(&one, &all[0]), 0);
    is("take again", dirgwako_recorder_take(&one, &recorder), 0);
    is("free", dirgwako_recorder_free(&recorder), 0);
    is("it is lost", dirgwako_recorder_take(&one, &recorder), DIRGWAKO_NO_WORKER);
    for (size_t i = 1; i < many; i++) is("free", dirgwako_recorder_free(&all[i]), 0);
    is("free", dirgwako_registry_free(&one), 0);
    is("free", dirgwako_registry_free(&two), 0);
}

/* Several changes are one version, all of them or nothing; a window is set. */
static void lists(void) {
    dirgwako_registry registry = {0};
    dirgwako_recorder recorder = {0};
    dirgwako_counter visits, full;
    dirgwako_gauge open;
    dirgwako_histogram bytes;
    const uint64_t bounds[2] = {10, 20};
    static dirgwako_change many[1000];
    size_t kept = 9;
    is("new", dirgwako_registry_new(&registry, 4), 0);
    is("take", dirgwako_recorder_take(&registry, &recorder), 0);
    is("counter", dirgwako_counter_new(&registry, "visits_total", "Visits.", &visits), 0);
    is("counter", dirgwako_counter_new(&registry, "full_total", "Full.", &full), 0);
    is("gauge", dirgwako_gauge_new(&registry, "open", "Open.", &open), 0);
    is("histogram", dirgwako_histogram_new(&registry, "answer_bytes", "Bytes.", bounds, 2, &bytes), 0);
    is("full", dirgwako_inc(&recorder, &full, 281474976710655), 0);
    const dirgwako_change all[4] = {dirgwako_change_inc(&visits, 2), dirgwako_change_observe(&bytes, 11), dirgwako_change_up(&open, 5),
                                    dirgwako_change_down(&open, 1)};
    is("publish", dirgwako_publish(&recorder, all, 4), 0);
    is("publish nothing", dirgwako_publish(&recorder, NULL, 0), 0);
    dirgwako_change wrong[2] = {all[0], dirgwako_change_inc(&full, 1)};
    is("too large", dirgwako_publish(&recorder, wrong, 2), 12);
    wrong[1].slot = 100000;
    is("no such slot", dirgwako_publish(&recorder, wrong, 2), 11);
    wrong[1] = all[1];
    wrong[1].by = 25;
    is("no such place", dirgwako_publish(&recorder, wrong, 2), 11);
    wrong[1] = all[1];
    wrong[1].registry++;
    is("two boards", dirgwako_publish(&recorder, wrong, 2), DIRGWAKO_TWO_BOARDS);
    wrong[0].registry++;
    is("no board of the registry", dirgwako_publish(&recorder, wrong, 2), 16);
    wrong[0] = all[0];
    wrong[1] = all[1];
    wrong[1].kind = 4;
    is("no kind", dirgwako_publish(&recorder, wrong, 2), DIRGWAKO_NO_KIND);
    for (size_t i = 0; i < 1000; i++) many[i] = all[0];
    is("too many", dirgwako_publish(&recorder, many, 1000), 33);
    is("visits", scraped(&registry, "visits_total"), 2);
    is("open", scraped(&registry, "open"), 4);
    is("20", scraped(&registry, "answer_bytes_bucket{le=\"20\"}"), 1);
    is("window", dirgwako_set_window(&registry, 0), 31);
    is("kept", dirgwako_kept(&registry, 0, &kept), 0);
    is("they are as they were", (long long)kept, 3);
    is("window", dirgwako_set_window(&registry, 2), 0);
    is("kept", dirgwako_kept(&registry, 0, &kept), 0);
    is("two are kept", (long long)kept, 2);
    is("free recorder", dirgwako_recorder_free(&recorder), 0);
    is("free", dirgwako_registry_free(&registry), 0);
}

/* The status of the reply to a request, which is handed over whole; or a refusal. */
static long long status_of(dirgwako_registry *registry, const char *request, size_t *len) {
    uint32_t answer = dirgwako_reply(registry, request, strlen(request), text, sizeof text, len);
    return answer ? (long long)answer : atoll(text + strlen("HTTP/1.1 "));
}

/* Replies to requests, by their status. */
static void replies(void) {
    dirgwako_registry registry = {0};
    dirgwako_counter visits;
    size_t len = 0, needs;
    is("new", dirgwako_registry_new(&registry, 4), 0);
    is("counter", dirgwako_counter_new(&registry, "visits_total", "Visits.", &visits), 0);
    const char *get = "GET /metrics HTTP/1.1\r\nHost: a\r\n\r\n";
    is("a scrape", status_of(&registry, get, &len), 200);
    is("its number", number(text, len, "visits_total"), 0);
    is("another page", status_of(&registry, "GET / HTTP/1.1\r\nHost: a\r\n\r\n", &len), 404);
    is("another method", status_of(&registry, "PUT /metrics HTTP/1.1\r\nHost: a\r\n\r\n", &len), 405);
    is("no request", status_of(&registry, "metrics\r\n\r\n", &len), 400);
    is("no whole head", status_of(&registry, "GET /metrics HTTP/1.1\r\n", &len), 400);
    is("no byte", status_of(&registry, "", &len), 26);
    is("the head alone", status_of(&registry, "HEAD /metrics HTTP/1.1\r\nHost: a\r\n\r\n", &len), 200);
    is("no body", number(text, len, "visits_total"), -1);
    is("too short", dirgwako_reply(&registry, get, strlen(get), text, 9, &len), DIRGWAKO_TOO_SHORT);
    needs = len;
    is("long enough", dirgwako_reply(&registry, get, strlen(get), text, needs, &len), 0);
    is("its length", (long long)len, (long long)needs);
    is("free", dirgwako_registry_free(&registry), 0);
}

/* What is asked without a registry. */
static void asked(void) {
    dirgwako_abi abi = {0};
    is("built for", dirgwako_built_for(&abi), 0);
    is("the version", (long long)abi.version, DIRGWAKO_ABI);
    is("workers", abi.workers >= 1 && abi.workers <= 32, 1);
    is("slots", abi.counters <= 256 && abi.histograms <= 32 && abi.gauges <= 64, 1);
    is("changes", (long long)abi.changes, (long long)(abi.counters + abi.histograms + 2 * abi.gauges));
    is("numbers", (long long)abi.numbers, (long long)(1 + abi.workers + abi.counters + 27 * abi.histograms + 2 * abi.gauges));
    is("most numbers", abi.numbers <= DIRGWAKO_MOST_NUMBERS, 1);
    is("a counter's bytes", (long long)abi.counter_bytes, sizeof(dirgwako_counter));
    is("a gauge's bytes", (long long)abi.gauge_bytes, sizeof(dirgwako_gauge));
    is("a histogram's bytes", (long long)abi.histogram_bytes, sizeof(dirgwako_histogram));
    is("a family's bytes", (long long)abi.family_bytes, sizeof(dirgwako_counter_family));
    is("a family's bytes", (long long)abi.family_bytes, sizeof(dirgwako_gauge_family));
    is("a family's bytes", (long long)abi.family_bytes, sizeof(dirgwako_histogram_family));
    is("a change's bytes", (long long)abi.change_bytes, sizeof(dirgwako_change));
    is("totals' bytes", (long long)abi.totals_bytes, sizeof(dirgwako_totals));
}

struct thread {
    dirgwako_recorder recorder;
    dirgwako_counter first, then;
    uint32_t answer;
};

/* Raises one counter, and then the other: so the first is the second, or one more. */
static void *count(void *given) {
    struct thread *it = given;
    for (int i = 0; i < ROUNDS && !it->answer; i++) {
        it->answer = dirgwako_inc(&it->recorder, &it->first, 1);
        if (!it->answer) it->answer = dirgwako_inc(&it->recorder, &it->then, 1);
    }
    return NULL;
}

/* Whether a scrape shows what never was, or less than the one before; `done` is whether all have ended. */
static int torn(size_t len, long long before[THREADS], int *done) {
    int is_torn = 0;
    *done = 1;
    for (int i = 0; i < THREADS; i++) {
        char series[32];
        snprintf(series, sizeof series, "first_%d_total", i);
        long long first = number(text, len, series);
        snprintf(series, sizeof series, "then_%d_total", i);
        long long then = number(text, len, series);
        if ((first - then != 0 && first - then != 1) || first < before[i]) is_torn = 1;
        if (then < ROUNDS) *done = 0;
        before[i] = first;
    }
    return is_torn;
}

static void threads(void) {
    dirgwako_registry registry = {0};
    struct thread all[THREADS];
    pthread_t run[THREADS];
    long long before[THREADS] = {0}, scrapes = 0, bad = 0;
    memset(all, 0, sizeof all);
    is("new", dirgwako_registry_new(&registry, 8), 0);
    for (int i = 0; i < THREADS; i++) {
        char name[32];
        is("take", dirgwako_recorder_take(&registry, &all[i].recorder), 0);
        snprintf(name, sizeof name, "first_%d_total", i);
        is("first", dirgwako_counter_new(&registry, name, "First.", &all[i].first), 0);
        snprintf(name, sizeof name, "then_%d_total", i);
        is("then", dirgwako_counter_new(&registry, name, "Then.", &all[i].then), 0);
    }
    for (int i = 0; i < THREADS; i++) is("thread", pthread_create(&run[i], NULL, count, &all[i]), 0);
    for (int done = 0; !done || scrapes < 10000;) {
        size_t len = 0;
        uint32_t answer = dirgwako_scrape(&registry, text, sizeof text, &len);
        if (answer == 14) continue;
        if (answer) {
            is("scrape", answer, 0);
            break;
        }
        scrapes++;
        bad += torn(len, before, &done);
    }
    for (int i = 0; i < THREADS; i++) {
        is("join", pthread_join(run[i], NULL), 0);
        is("counted", all[i].answer, 0);
        is("its total", before[i], ROUNDS);
        is("free", dirgwako_recorder_free(&all[i].recorder), 0);
    }
    is("torn scrapes", bad, 0);
    is("10,000 scrapes at least", scrapes >= 10000, 1);
    is("free", dirgwako_registry_free(&registry), 0);
}

int main(void) {
    nulls();
    empties();
    metrics();
    families();
    apart();
    lists();
    replies();
    asked();
    replied();
    numbers();
    boards();
    texts();
    refusals();
    scrapers_tests();
    threads();
    crowd();
    return told();
}
