/* `bench updates` and `bench gather`: the work that compare/ does over other libraries too, with lines of the same form. */
#include "bench.h"
#include <stdio.h>
#include <stdlib.h>

/* Prints the nanoseconds of an operation: by one thread, the fastest of a hundred batches of a tenth of the rounds, and by four at once, the time
   until all have ended by the rounds of one. */
static void both(struct board *board, const char *name, void (*repeat)(void *, uint64_t), uint64_t rounds) {
    uint64_t of_batch = one_in(rounds, 10);
    printf("%s 1 %.1f\n", name, each_of(fastest((struct work){repeat, &board->all[0]}, of_batch), of_batch));
    printf("%s 4 %.1f\n", name, each_of(by_four(board, repeat, rounds), rounds));
}

int bench_updates(uint64_t rounds) {
    struct geometry geometry = linked();
    struct board *board = board_open(&geometry);
    uint64_t most = one_in(rounds, 1);
    both(board, "inc", inc, most);
    both(board, "observe", observe, most);
    list_incs(board, TEN);
    both(board, "inc_10", publish, one_in(rounds, 10));
    list_observes(board, TEN);
    both(board, "observe_10", publish, one_in(rounds, 10));
    both(board, "tally_inc", tally_inc, most);
    both(board, "tally_observe", tally_observe, most);
    board_close(board);
    return ended();
}

int bench_gather(uint64_t rounds, const struct service *service) {
    dirgwako_registry registry = {0};
    struct gathering gathering = {&registry, {0}};
    uint64_t of_batch = one_in(rounds, 10);
    service_open(&registry, service, 1);
    printf("%.0f", each_of(fastest((struct work){gather_often, &gathering}, of_batch), of_batch));
    printf(" %zu\n", gathering.text.len);
    free(gathering.text.at);
    want(dirgwako_registry_free(&registry));
    return ended();
}
