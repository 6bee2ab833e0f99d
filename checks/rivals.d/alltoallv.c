/* MPI: ranks are processes, which exchange all their send buffers at once. Each rank draws items
   until the buffer of the next item's destination is full. Then all ranks exchange the numbers of
   items by MPI_Alltoall and the items by MPI_Alltoallv, until each has drawn all its items.
   usage: mpirun -np RANKS alltoallv RANKS ITEMS BATCH, with a send buffer of BATCH items for each
   destination */
#include "work.h"
#include <mpi.h>
#include <stdbool.h>
#include <string.h>

static uint32_t ranks, items_each, batch;
static MPI_Datatype item_type;
static int out_counts[MOST_RANKS], in_counts[MOST_RANKS], starts[MOST_RANKS];
static work_item *out, *in; /* a buffer for each rank; that of rank r begins at starts[r] */

/* Sends what the send buffers hold, which are empty then, and absorbs what comes. */
static void exchange(uint64_t *counts, uint64_t *sum) {
    MPI_Alltoall(out_counts, 1, MPI_INT, in_counts, 1, MPI_INT, MPI_COMM_WORLD);
    MPI_Alltoallv(out, out_counts, starts, item_type, in, in_counts, starts, item_type, MPI_COMM_WORLD);
    memset(out_counts, 0, sizeof out_counts);
    for (uint32_t from = 0; from < ranks; from++)
        for (int k = 0; k < in_counts[from]; k++)
            absorb(in[starts[from] + k], counts, sum);
}

/* Sends and receives all items of this rank. The sum of those that it received. */
static uint64_t all_items(uint32_t me, uint64_t *counts) {
    uint64_t seed = me + 1, sum = 0;
    uint32_t left = items_each;
    work_item next = next_item(&seed, ranks);
    int all_done = false;
    while (!all_done) {
        while (left > 0 && out_counts[next.to] < (int)batch) {
            out[starts[next.to] + out_counts[next.to]++] = next;
            next = next_item(&seed, ranks);
            left--;
        }
        exchange(counts, &sum);
        int done = left == 0;
        MPI_Allreduce(&done, &all_done, 1, MPI_INT, MPI_LAND, MPI_COMM_WORLD);
    }
    return sum;
}

int main(int argc, char **argv) {
    int me, processes;
    MPI_Init(&argc, &argv);
    MPI_Comm_rank(MPI_COMM_WORLD, &me);
    MPI_Comm_size(MPI_COMM_WORLD, &processes);
    ranks = number(argc, argv, 1, MOST_RANKS);
    items_each = number(argc, argv, 2, UINT32_MAX);
    batch = number(argc, argv, 3, 1 << 20);
    out = malloc(sizeof *out * ranks * batch);
    in = malloc(sizeof *in * ranks * batch);
    if (processes != (int)ranks || out == NULL || in == NULL)
        MPI_Abort(MPI_COMM_WORLD, 1);
    MPI_Type_contiguous(3, MPI_UINT64_T, &item_type);
    MPI_Type_commit(&item_type);
    for (uint32_t rank = 0; rank < ranks; rank++)
        starts[rank] = (int)(rank * batch);
    uint64_t *counts = new_counts(1), all = 0;
    MPI_Barrier(MPI_COMM_WORLD);
    double start = MPI_Wtime();
    uint64_t sum = all_items((uint32_t)me, counts);
    double took = MPI_Wtime() - start, longest = 0;
    sum += table_sum(counts, (uint64_t)me);
    MPI_Reduce(&took, &longest, 1, MPI_DOUBLE, MPI_MAX, 0, MPI_COMM_WORLD);
    MPI_Reduce(&sum, &all, 1, MPI_UINT64_T, MPI_SUM, 0, MPI_COMM_WORLD);
    if (me == 0)
        report(ranks, items_each, longest, all);
    free(counts);
    free(out);
    free(in);
    return MPI_Finalize();
}
