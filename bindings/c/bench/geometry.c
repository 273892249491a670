/* What the linked library was built for. */
#include "bench.h"
#include <stdio.h>

struct geometry linked(void) {
    dirgwako_abi abi;
    struct geometry it;
    want(dirgwako_built_for(&abi));
    if (abi.version != DIRGWAKO_ABI) fail("the header is not the library's own");
    if (abi.workers < FOUR || abi.counters < TEN || abi.histograms < 1) fail("the library is for fewer than 4 threads, 10 counters or a histogram");
    if (abi.workers > MOST_WORKERS || abi.counters > MOST_COUNTERS) fail("the library is for more threads or counters than there can be");
    it.workers = abi.workers;
    it.counters = abi.counters;
    it.histograms = abi.histograms;
    it.gauges = abi.gauges;
    it.words = abi.counters + 27 * abi.histograms + 2 * abi.gauges;
    it.changes = abi.changes;
    snprintf(it.name, sizeof it.name, "%zu,%zu,%zu,%zu", it.workers, it.counters, it.histograms, it.gauges);
    return it;
}
