/* The library's heap (its three symbols, in the place of malloc) over a mapping that is made before the first fork: so a registry, its boards and its
   recorders are the same for all processes, at the same addresses.

   A process may be killed or stopped at any place here, and holds up no other: memory is taken and given back without a lock. Each change of a list,
   and of what is used, is one compare-and-swap, so whoever comes next meets the list before it or behind it: at worst a block is lost. */
#define _GNU_SOURCE
#include "shared.h"

#include <dirgwako_heap.h>
#include <errno.h>
#include <stdint.h>
#include <stdlib.h>
#include <string.h>
#include <sys/mman.h>
#include <time.h>

enum { CLASSES = 160, HEAD = 16, PATIENCE = 1 };
static const size_t DEFAULT_BYTES = (size_t)256 << 20, MOST_BYTES = (size_t)UINT32_MAX * HEAD, PAGE = 4096;

/* What stands before a block's memory, which is aligned as malloc's is. A block is named by its place in the arena, in steps of 16 bytes; 0 names none. */
typedef struct block {
    uint32_t class;
    uint32_t next; /* where it is free */
    uint64_t unused;
} block;

/* Of each class the first free block, and in the upper half how often the list has changed, modulo 2^32: who read the list before another one took a
   block of it and gave it back meets another number, unless it was stopped for just as many changes. */
typedef struct arena {
    size_t bytes, used;
    uint64_t free[CLASSES];
} arena;

static arena *mapped;

/* It is robust: the system gives it to the next one when its owner dies. */
int arena_lock_begin(pthread_mutex_t *lock) {
    pthread_mutexattr_t how;
    if (pthread_mutexattr_init(&how)) return -1;
    int failed = pthread_mutexattr_setpshared(&how, PTHREAD_PROCESS_SHARED) || pthread_mutexattr_setrobust(&how, PTHREAD_MUTEX_ROBUST) ||
                 pthread_mutex_init(lock, &how);
    pthread_mutexattr_destroy(&how);
    return failed ? -1 : 0;
}

/* Waits a second: a process that was stopped while it held the lock would stop all others, each with its GIL held. */
int arena_lock(pthread_mutex_t *lock) {
    struct timespec until;
    if (clock_gettime(CLOCK_REALTIME, &until)) return -1;
    until.tv_sec += PATIENCE;
    int answer = pthread_mutex_timedlock(lock, &until);
    if (answer == EOWNERDEAD) answer = pthread_mutex_consistent(lock);
    return answer ? -1 : 0;
}

/* Blocks are of 4 to 7 times a power of two. */
static size_t bytes_of(size_t class) {
    return (4 + class % 4) << (class / 4 + 4);
}

static size_t class_of(size_t size) {
    size_t class = 0;
    while (class < CLASSES && bytes_of(class) < size + HEAD) class++;
    return class;
}

/* DIRGWAKO_SHARED_BYTES in the environment, 64 GB at most, or 256 MB, of which the system gives what is used. */
static size_t wanted(void) {
    const char *told = getenv("DIRGWAKO_SHARED_BYTES");
    size_t bytes = told ? (size_t)strtoull(told, NULL, 10) : 0;
    if (bytes > MOST_BYTES) bytes = MOST_BYTES;
    return bytes > PAGE ? bytes : DEFAULT_BYTES;
}

static int begin(void) {
    if (mapped) return 0;
    size_t bytes = wanted();
    void *at = mmap(NULL, bytes, PROT_READ | PROT_WRITE, MAP_SHARED | MAP_ANONYMOUS | MAP_NORESERVE, -1, 0);
    if (at == MAP_FAILED) return -1;
    arena *made = at;
    made->bytes = bytes;
    made->used = (sizeof *made + HEAD - 1) / HEAD * HEAD;
    mapped = made;
    return 0;
}

static uint64_t changed(uint64_t head, uint32_t first) {
    return ((head >> 32) + 1) << 32 | first;
}

/* The first free block of a class. Its `next` may be another one's by now: then the list has changed. */
static block *pop(size_t class) {
    uint64_t head = __atomic_load_n(&mapped->free[class], __ATOMIC_ACQUIRE);
    while ((uint32_t)head) {
        block *it = (block *)((char *)mapped + (size_t)(uint32_t)head * HEAD);
        uint32_t next = __atomic_load_n(&it->next, __ATOMIC_RELAXED);
        if (__atomic_compare_exchange_n(&mapped->free[class], &head, changed(head, next), 0, __ATOMIC_ACQ_REL, __ATOMIC_ACQUIRE)) return it;
    }
    return NULL;
}

static void push(block *it) {
    uint32_t index = (uint32_t)((size_t)((char *)it - (char *)mapped) / HEAD);
    uint64_t head = __atomic_load_n(&mapped->free[it->class], __ATOMIC_RELAXED);
    do {
        __atomic_store_n(&it->next, (uint32_t)head, __ATOMIC_RELAXED);
    } while (!__atomic_compare_exchange_n(&mapped->free[it->class], &head, changed(head, index), 0, __ATOMIC_RELEASE, __ATOMIC_RELAXED));
}

/* A new block of the class, of memory that nobody has had. */
static block *carve(size_t class) {
    size_t used = __atomic_load_n(&mapped->used, __ATOMIC_RELAXED);
    do {
        if (bytes_of(class) > mapped->bytes - used) return NULL;
    } while (!__atomic_compare_exchange_n(&mapped->used, &used, used + bytes_of(class), 0, __ATOMIC_RELAXED, __ATOMIC_RELAXED));
    block *it = (block *)((char *)mapped + used);
    it->class = (uint32_t)class;
    return it;
}

/* A free block of the class, else a new one, else, where no more is left, a free one of a higher class. */
void *arena_alloc(size_t size) {
    if (begin()) return NULL;
    size_t class = class_of(size);
    if (class >= CLASSES || bytes_of(class) > mapped->bytes) return NULL;
    block *it = pop(class);
    if (!it) it = carve(class);
    while (!it && ++class < CLASSES) it = pop(class);
    return it ? (char *)it + HEAD : NULL;
}

void arena_free(void *at) {
    push((block *)((char *)at - HEAD));
}

static dirgwako_block as_answer(void *at) {
    static char nothing[HEAD];
    return (dirgwako_block){at != NULL, at ? at : nothing};
}

dirgwako_block rattle_alloc(size_t size, size_t align) {
    return as_answer(arena_alloc(size ? size : align));
}

dirgwako_block rattle_realloc(void *at, size_t old, size_t size, size_t align) {
    const block *it = (const block *)((char *)at - HEAD);
    if (!size) size = align;
    if (size + HEAD <= bytes_of(it->class)) return as_answer(at);
    void *more = arena_alloc(size);
    if (more) {
        memcpy(more, at, old < size ? old : size);
        arena_free(at);
    }
    return as_answer(more);
}

void rattle_dealloc(void *at) {
    arena_free(at);
}
