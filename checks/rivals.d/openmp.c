/* OpenMP: the threads update one shared table of all cells, each cell atomically. Nothing is sent.
   usage: openmp RANKS ITEMS */
#include "work.h"
#include <omp.h>

int main(int argc, char **argv) {
    uint32_t ranks = number(argc, argv, 1, MOST_RANKS), items_each = number(argc, argv, 2, UINT32_MAX);
    uint64_t *counts = new_counts(ranks), sum = 0;
    int threads = 0;
    double start = seconds_now();
#pragma omp parallel num_threads((int)ranks) reduction(+ : sum, threads)
    {
        uint64_t seed = (uint64_t)omp_get_thread_num() + 1;
        threads = 1;
        for (uint32_t k = 0; k < items_each; k++) {
            work_item item = next_item(&seed, ranks);
#pragma omp atomic
            counts[item.to * CELLS + item.cell] += item.value;
            sum += item.cell ^ item.value;
        }
    }
    double took = seconds_now() - start;
    if (threads != (int)ranks) {
        fprintf(stderr, "openmp: %d threads were started, not %u\n", threads, ranks);
        return 1;
    }
    for (uint32_t rank = 0; rank < ranks; rank++)
        sum += table_sum(counts + rank * CELLS, rank);
    report(ranks, items_each, took, sum);
    free(counts);
    return 0;
}
