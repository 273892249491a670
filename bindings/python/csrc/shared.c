/* Who of the processes has which recorder or scraper, and who is in the registry. */
#define _GNU_SOURCE
#include "shared.h"

#include <errno.h>
#include <fcntl.h>
#include <signal.h>
#include <stdio.h>
#include <stdlib.h>
#include <string.h>
#include <unistd.h>

enum { NO_MEMORY = 6, CONTENDED = 14 };

static unsigned process, forks;

/* These run within fork, whoever calls it: also where a server forks in C, past Python's own hooks. */
static void in_parent(void) {
    forks++;
}

static void in_child(void) {
    process++;
    forks++;
}

unsigned shared_process(void) {
    return process;
}

unsigned shared_forks(void) {
    return forks;
}

static int watch_forks(void) {
    static int watched;
    if (!watched && pthread_atfork(NULL, in_parent, in_child)) return -1;
    watched = 1;
    return 0;
}

uint32_t shared_begin(common **made) {
    common *it = watch_forks() ? NULL : arena_alloc(sizeof *it);
    if (!it) return NO_MEMORY;
    memset(it, 0, sizeof *it);
    if (arena_lock_begin(&it->lock) || arena_lock_begin(&it->owners)) {
        arena_free(it);
        return NO_MEMORY;
    }
    *made = it;
    return DIRGWAKO_OK;
}

void shared_end(common *it) {
    pthread_mutex_destroy(&it->lock);
    pthread_mutex_destroy(&it->owners);
    arena_free(it);
}

/* Where the last owner has died, what it left is what the library makes of it: a registry within which it died is empty (34). */
uint32_t shared_enter(common *it) {
    return arena_lock(&it->lock) ? CONTENDED : DIRGWAKO_OK;
}

void shared_leave(common *it) {
    pthread_mutex_unlock(&it->lock);
}

/* When a process began, by the system's clock: the 20th word behind its name. 0 where it is not told. */
static uint64_t begun_of(pid_t of) {
    char name[32], told[1024];
    snprintf(name, sizeof name, "/proc/%ld/stat", (long)of);
    int file = open(name, O_RDONLY | O_CLOEXEC);
    if (file < 0) return 0;
    ssize_t len = read(file, told, sizeof told - 1);
    close(file);
    told[len > 0 ? len : 0] = 0;
    const char *at = strrchr(told, ')');
    for (int i = 0; at && i < 20; i++) at = strchr(at + 1, ' ');
    return at ? strtoull(at, NULL, 10) : 0;
}

/* Who cannot be told to be dead is alive: of one recorder two processes would write at once. So is who was not waited for. */
static int is_alive(const owner *it) {
    if (!it->process) return 0;
    if (kill(it->process, 0) && errno == ESRCH) return 0;
    uint64_t begun = begun_of(it->process);
    return !begun || begun == it->begun;
}

/* When this process began, which is read once. */
static uint64_t begun_here(void) {
    static owner here;
    if (here.process != getpid()) here = (owner){getpid(), begun_of(getpid())};
    return here.begun;
}

static void own(owner *it) {
    it->process = 0;
    it->begun = begun_here();
    it->process = getpid();
}

/* A handle within whose call its process died is empty. */
uint32_t shared_take_place(common *it, int *taken) {
    uint32_t answer = DIRGWAKO_NO_WORKER;
    if (arena_lock(&it->owners)) return CONTENDED;
    for (size_t i = 0; i < it->count && answer; i++) {
        place *at = &it->places[i];
        if (!at->recorder.live || is_alive(&at->owner)) continue;
        own(&at->owner);
        *taken = (int)i;
        answer = DIRGWAKO_OK;
    }
    pthread_mutex_unlock(&it->owners);
    return answer;
}

/* This process has left the one that is still its own: it could not say so. */
uint32_t shared_take_scraper(common *it, int *taken) {
    uint32_t answer = DIRGWAKO_NO_SCRAPER;
    if (arena_lock(&it->owners)) return CONTENDED;
    for (size_t i = 0; i < SCRAPERS && answer; i++) {
        lease *at = &it->scrapers[i];
        if (!at->scraper.live || (at->owner.process != getpid() && is_alive(&at->owner))) continue;
        own(&at->owner);
        *taken = (int)i;
        answer = DIRGWAKO_OK;
    }
    pthread_mutex_unlock(&it->owners);
    return answer;
}

/* Who takes it finds this process dead, where it could not say so. */
static void leave(common *it, owner *left) {
    if (arena_lock(&it->owners)) return;
    left->process = 0;
    pthread_mutex_unlock(&it->owners);
}

void shared_leave_place(common *it, int at) {
    leave(it, &it->places[at].owner);
}

void shared_leave_scraper(common *it, int at) {
    leave(it, &it->scrapers[at].owner);
}
