/* Memory that a process shares with those that it forks, and who of them has which recorder or scraper. Nothing here calls the library. */
#ifndef DIRGWAKO_SHARED_H
#define DIRGWAKO_SHARED_H

#include <dirgwako.h>
#include <pthread.h>
#include <sys/types.h>

enum { MOST_PLACES = 32, SCRAPERS = 3 };

/* A process: its number and when it began, as numbers are given again. 0 where there is none. */
typedef struct owner {
    pid_t process;
    uint64_t begun;
} owner;

/* A recorder, and the process that counts with it. */
typedef struct place {
    dirgwako_recorder recorder;
    owner owner;
} place;

/* A scraper, and the process that is within a scrape by it. */
typedef struct lease {
    dirgwako_scraper scraper;
    owner owner;
} lease;

/* What all processes have of one registry. `lock` is for who registers, or scrapes by the registry; `owners`, which is held for a moment, for who takes
   or leaves a recorder or a scraper. Who counts takes none. */
typedef struct common {
    pthread_mutex_t lock, owners;
    dirgwako_registry registry;
    size_t count;
    place places[MOST_PLACES];
    lease scrapers[SCRAPERS];
    int is_behind; /* whether scrapers are told nothing any more */
} common;

/* Each answers 0 or a refusal: 6, the memory is used up; 14, another process has been in the registry for a second. */
uint32_t shared_begin(common **made);
uint32_t shared_enter(common *it);
void shared_leave(common *it);
void shared_end(common *it);

/* The place of a recorder that is nobody's, or whose process is dead and had not died within a call; 35 where there is none, 14. */
uint32_t shared_take_place(common *it, int *taken);
void shared_leave_place(common *it, int at);

/* The same of a scraper, which no other process is within; 49 where there is none, 14. One call at a time of a process may have one. */
uint32_t shared_take_scraper(common *it, int *taken);
void shared_leave_scraper(common *it, int at);

/* How many forks lie between the first process and this one; how many forks this one, and those before it, have made. */
unsigned shared_process(void);
unsigned shared_forks(void);

/* arena.c: memory from one mapping; null where it is used up. */
void *arena_alloc(size_t size);
void arena_free(void *block);
int arena_lock(pthread_mutex_t *lock);
int arena_lock_begin(pthread_mutex_t *lock);

#endif
