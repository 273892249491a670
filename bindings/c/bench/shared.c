/* What may fail, memory, time and threads. */
#include "bench.h"
#include <stdio.h>
#include <stdlib.h>
#include <time.h>

void fail(const char *what) {
    fflush(stdout);
    fprintf(stderr, "%s\n", what);
    exit(1);
}

void refused(uint32_t answer) {
    char words[128], told[192];
    snprintf(told, sizeof told, "refused by %u: %s", (unsigned)answer, dirgwako_refusal(answer, words, sizeof words));
    fail(told);
}

void *zeros(size_t count, size_t each) {
    void *made = calloc(count ? count : 1, each);
    if (!made) fail("out of memory");
    return made;
}

void *grown(void *old, size_t bytes) {
    void *made = realloc(old, bytes);
    if (!made) fail("out of memory");
    return made;
}

uint64_t now(void) {
    struct timespec at;
    if (clock_gettime(CLOCK_MONOTONIC, &at)) fail("no clock");
    return (uint64_t)at.tv_sec * 1000000000 + (uint64_t)at.tv_nsec;
}

void start(pthread_t *thread, void *(*run)(void *), void *given) {
    if (pthread_create(thread, NULL, run, given)) fail("no thread can be started");
}

void await(pthread_t thread) {
    if (pthread_join(thread, NULL)) fail("a thread cannot be joined");
}

int ended(void) {
    if (!fflush(stdout) && !ferror(stdout)) return 0;
    fputs("standard output failed\n", stderr);
    return 1;
}

/* Whether this answer is that the text was too short; then it has room for what is needed, and for what may have come by the next time. */
static int is_grown(struct text *text, uint32_t answer) {
    if (answer != DIRGWAKO_TOO_SHORT) return 0;
    text->room = text->len + 4096;
    text->at = grown(text->at, text->room);
    return 1;
}

uint32_t scraped(dirgwako_registry *registry, struct text *text) {
    uint32_t answer;
    do answer = dirgwako_scrape(registry, text->at, text->room, &text->len);
    while (is_grown(text, answer));
    return answer;
}

uint32_t replied(dirgwako_registry *registry, const char *request, size_t len, struct text *text) {
    uint32_t answer;
    do answer = dirgwako_reply(registry, request, len, text->at, text->room, &text->len);
    while (is_grown(text, answer));
    return answer;
}
