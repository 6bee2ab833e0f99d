/* A plain loop on one thread draws the items of all ranks, and counts each at once: nothing is sent.
   usage: loop RANKS ITEMS */
#include "work.h"

int main(int argc, char **argv) {
    uint32_t ranks = number(argc, argv, 1, MOST_RANKS), items_each = number(argc, argv, 2, UINT32_MAX);
    uint64_t *counts = new_counts(ranks), sum = 0;
    double start = seconds_now();
    for (uint32_t rank = 0; rank < ranks; rank++) {
        uint64_t seed = rank + 1;
        for (uint32_t k = 0; k < items_each; k++) {
            work_item item = next_item(&seed, ranks);
            absorb(item, counts + item.to * CELLS, &sum);
        }
    }
    double took = seconds_now() - start;
    for (uint32_t rank = 0; rank < ranks; rank++)
        sum += table_sum(counts + rank * CELLS, rank);
    report(ranks, items_each, took, sum);
    free(counts);
    return 0;
}
