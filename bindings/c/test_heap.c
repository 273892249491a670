/* Memory of a program's own: the library takes all of it by the three functions that are defined here, and gives all back. Their blocks lie in an
   array, behind each other, and are never used twice. */
#include "dirgwako_heap.h"
#include "test.h"

enum { POOL = 1 << 24 };

static union {
    long double aligned;
    uint8_t bytes[POOL];
} pool;
static size_t used;
static long long blocks, given;

static int is_ours(const void *at) {
    const uint8_t *byte = at;
    return byte >= pool.bytes && byte < pool.bytes + POOL;
}

dirgwako_block rattle_alloc(size_t size, size_t align) {
    dirgwako_block block = {0, &pool};
    size_t bytes = (size ? size : align) + 15;
    bytes -= bytes % 16;
    if (align > 16 || bytes > POOL - used) return block;
    block.some = 1;
    block.at = pool.bytes + used;
    used += bytes;
    blocks++;
    given++;
    return block;
}

dirgwako_block rattle_realloc(void *at, size_t old, size_t size, size_t align) {
    dirgwako_block block = rattle_alloc(size, align);
    if (!block.some) return block;
    memcpy(block.at, at, old < size ? old : size);
    rattle_dealloc(at);
    return block;
}

void rattle_dealloc(void *at) {
    is("a block that is freed was given", is_ours(at), 1);
    blocks--;
}

int main(void) {
    static const char *const labels[1] = {"l"}, *const first[1] = {"x"}, *const second[1] = {"y"};
    dirgwako_registry registry = {0};
    dirgwako_recorder recorder = {0};
    dirgwako_counter_family family;
    dirgwako_counter counter, other;
    is("a registry", dirgwako_registry_new(&registry, 2), 0);
    is("the registry's handle points into the array", is_ours(registry.at), 1);
    is("a recorder", dirgwako_recorder_take(&registry, &recorder), 0);
    is("a family", dirgwako_counter_family_new(&registry, "a_total", "A.", labels, 1, 0, 0, &family), 0);
    is("a counter", dirgwako_counter_of(&registry, &family, first, 1, &counter), 0);
    is("another", dirgwako_counter_of(&registry, &family, second, 1, &other), 0);
    {
        long long before = given;
        is("an increment", dirgwako_inc(&recorder, &counter, 3), 0);
        is("which takes no memory", given, before);
    }
    is("a further board", dirgwako_board_add(&registry, &(size_t){0}), 0);
    is("what was counted", scraped(&registry, "a_total{l=\"x\"}"), 3);
    used = POOL;
    is("a board for which there is no memory", dirgwako_board_add(&registry, &(size_t){0}), 6);
    is("freed", dirgwako_recorder_free(&recorder) || dirgwako_registry_free(&registry), 0);
    is("all blocks are back", blocks, 0);
    return told();
}
