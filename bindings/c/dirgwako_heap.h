/* Memory of a program's own, in the place of malloc: for boards in memory that processes share, in a pool, or in a region of its own.

   An archive of the library asks for memory by these three functions alone. It has them over malloc, realloc and free, in a part that the linker takes
   only where nobody else has them: a program that defines all three, and is linked with the archive, takes their place. (A shared library has its own
   inside.) They may be called by several threads at once, by none that only counts. */
#ifndef DIRGWAKO_HEAP_H
#define DIRGWAKO_HEAP_H

#include <stddef.h>
#include <stdint.h>

#ifdef __cplusplus
extern "C" {
#endif

/* A block, where `some` is 1. Where there is no memory, `some` is 0, and `at` is any pointer but null. */
typedef struct dirgwako_block {
    uint64_t some;
    void *at;
} dirgwako_block;

/* A block of `size` bytes at a multiple of `align`, a power of two of at most 16; of `align` bytes where `size` is 0. */
dirgwako_block rattle_alloc(size_t size, size_t align);

/* A block of `size` bytes with what the one at `at` had, which has `old` bytes and is gone then; where there is no memory, that one stays. */
dirgwako_block rattle_realloc(void *at, size_t old, size_t size, size_t align);

/* Frees a block of these two. */
void rattle_dealloc(void *at);

#ifdef __cplusplus
}
#endif
#endif
