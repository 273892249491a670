/* Ids of registries: each of a process has its own. */
#include <stdint.h>

uint32_t dirgwako_next_id(void);

uint32_t dirgwako_next_id(void) {
    static uint32_t last;
    return __atomic_add_fetch(&last, 1, __ATOMIC_RELAXED);
}
