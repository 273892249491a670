/* What the tests share. */
#include "test.h"
#include <stdio.h>
#include <stdlib.h>

static unsigned passed, failed;
char text[1 << 17];

void is(const char *what, long long got, long long want) {
    if (got == want) {
        passed++;
        return;
    }
    failed++;
    fprintf(stderr, "%s: %lld, not %lld\n", what, got, want);
}

long long number(const char *from, size_t len, const char *series) {
    size_t n = strlen(series);
    const char *end = from + len;
    for (const char *line = from; line < end;) {
        const char *next = memchr(line, '\n', (size_t)(end - line));
        if (!next) next = end;
        if ((size_t)(next - line) > n && !memcmp(line, series, n) && line[n] == ' ') return atoll(line + n + 1);
        line = next + 1;
    }
    return -1;
}

long long scraped(dirgwako_registry *registry, const char *series) {
    size_t len = 0;
    return dirgwako_scrape(registry, text, sizeof text, &len) ? -2 : number(text, len, series);
}

void shows(const char *what, dirgwako_registry *registry, const char *wanted) {
    size_t len = 0;
    is(what, dirgwako_scrape(registry, text, sizeof text, &len), 0);
    int same = len == strlen(wanted) && !memcmp(text, wanted, len);
    is(what, same, 1);
    if (!same) fprintf(stderr, "%s:\n%.*s", what, (int)len, text);
}

uint32_t asked_for(dirgwako_registry *registry, const struct family *family, struct made *made) {
    const uint8_t *name = (const uint8_t *)family->name, *help = (const uint8_t *)family->help;
    size_t name_len = strlen(family->name), help_len = strlen(family->help), count = 0;
    dirgwako_text labels[10] = {{NULL, 0}};
    while (family->labels[count]) count++;
    dirgwako_texts(family->labels, count, labels);
    if (family->kind == COUNTER)
        return dirgwako_c_counter_family_new(registry, name, name_len, help, help_len, labels, count, family->digits, 0, &made->counters);
    if (family->kind == GAUGE)
        return dirgwako_c_gauge_family_new(registry, name, name_len, help, help_len, labels, count, family->digits, 0, &made->gauges);
    return dirgwako_c_histogram_family_new(registry, name, name_len, help, help_len, labels, count, family->bounds, family->many,
                                           family->digits, 0, &made->histograms);
}

int told(void) {
    printf("%u passed, %u failed\n", passed, failed);
    return failed != 0;
}
