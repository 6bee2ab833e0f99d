/* Handles move from thread to thread by a release store and the acquire load that reads it: four threads take turns at all
   ranks of a group, and the calls on each rank come from another thread at every turn. */
#include "examples/ranks.h"
#include <stdatomic.h>

enum { ITEMS = 20000 };

static bale_rank ranks[RANKS];
static atomic_uint turn;
static uint32_t pushed[RANKS], complete;
static uint64_t pulled[RANKS], moves, sum;

/* One step of each rank: so long as there are items, a push; an advance; all pulls. */
static void step(uint64_t *seed) {
    for (uint32_t r = 0; r < RANKS; r++) {
        bale_item item = {.a = r, .b = pushed[r]};
        uint32_t from;
        for (int k = 0; k < 50 && pushed[r] < ITEMS && bale_push(&ranks[r], &item, (uint32_t)(random_of(seed) % RANKS)) == BALE_OK; k++)
            item.b = ++pushed[r];
        int32_t answer = bale_phase(&ranks[r]) == BALE_GONE ? BALE_GONE : bale_advance(&ranks[r], pushed[r] == ITEMS);
        while (bale_pull(&ranks[r], &item, &from) == BALE_OK) {
            if (item.a != from)
                want("bale_pull: another sender", -99, BALE_OK);
            pulled[from]++;
            sum += item.b;
        }
        if (answer == BALE_COMPLETE) {
            complete++;
            want("bale_rank_free", bale_rank_free(&ranks[r]), BALE_OK);
        }
    }
}

static void *take_turns(void *arg) {
    uint32_t me = *(uint32_t *)arg;
    uint64_t seed = me;
    for (bool over = false; !over; sched_yield()) {
        uint32_t now = atomic_load_explicit(&turn, memory_order_acquire);
        if (now % RANKS != me)
            continue;
        over = complete == RANKS;
        if (!over)
            step(&seed);
        moves++;
        atomic_store_explicit(&turn, now + 1, memory_order_release);
    }
    return NULL;
}

int main(void) {
    bale_group group = {0};
    uint32_t numbers[RANKS] = {0, 1, 2, 3};
    uint64_t all = 0, wanted = (uint64_t)RANKS * ITEMS * (ITEMS - 1) / 2;
    make_ranks(&group, ranks, sizeof(bale_rank));
    for (uint32_t r = 0; r < RANKS; r++)
        want("bale_begin", bale_begin(&ranks[r]), BALE_OK);
    on_threads(take_turns, numbers, sizeof(uint32_t));
    for (uint32_t r = 0; r < RANKS; r++)
        all += pulled[r] == ITEMS;
    want("bale_group_free", bale_group_free(&group), BALE_OK);
    printf("handoff: %llu moves of all handles, %llu senders' items whole\n", (unsigned long long)moves, (unsigned long long)all);
    return all != RANKS || sum != wanted;
}
