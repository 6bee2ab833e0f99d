/* A histogram, as bale's histo makes it: each rank draws random indices into a table that is dealt out over all ranks, and
   sends each one to the rank that has its place, which counts it.
   histo [counters, 1 to 1,000,000,000 [ranks [times]]] */
#include "common.h"

/* What one rank has: of each rank r the places r, r + ranks, .. of the table. */
typedef struct {
    uint64_t *counts, counters, updates;
    uint32_t ranks;
    bale_counts sent;
} part;

static void count(void *context, const void *item, uint32_t from) {
    (void)from;
    ((part *)context)->counts[bale_value(uint32_t, item)]++;
}

static void count_all(bale_rank *rank, uint32_t me, void *context) {
    part *my = (part *)context + me;
    uint64_t seed = me;
    bale_begin(rank);
    for (uint64_t k = 0; k < my->updates; k++) {
        uint64_t index = random_of(&seed) % my->counters;
        uint32_t place = (uint32_t)(index / my->ranks);
        bale_send(rank, &place, (uint32_t)(index % my->ranks), count, my);
    }
    bale_finish(rank, count, my);
    bale_statistics(rank, &my->sent);
}

/* A table of zeros, each page of which has been written, so that no page fault is timed. */
static uint64_t *table_of(uint64_t places) {
    enum { PAGE = 4096 / sizeof(uint64_t) };
    uint64_t *table = room(places, sizeof(uint64_t));
    for (uint64_t k = 0; k < places; k += PAGE)
        *(volatile uint64_t *)&table[k] = 0;
    return table;
}

/* The same counts, made by one loop without any exchange. */
static void by_one(const part *all, uint64_t *counts) {
    for (uint32_t r = 0; r < all->ranks; r++) {
        uint64_t seed = r;
        for (uint64_t k = 0; k < all->updates; k++)
            counts[random_of(&seed) % all->counters]++;
    }
}

#ifdef _OPENMP
/* The same by OpenMP, with an atomic addition for each. */
static void by_openmp(const part *all, uint64_t *counts) {
#pragma omp parallel for schedule(static, 1) num_threads(all->ranks)
    for (uint32_t r = 0; r < all->ranks; r++) {
        uint64_t seed = r;
        for (uint64_t k = 0; k < all->updates; k++)
            __atomic_fetch_add(&counts[random_of(&seed) % all->counters], 1, __ATOMIC_RELAXED);
    }
}
#endif

int main(int argc, char **argv) {
    options o = options_of(argc, argv, "histo [counters, 1 to 1000000000", 100000, 1000000000);
    uint64_t updates = (o.size > 4000000 ? o.size : 4000000) / o.ranks, wrong = 0;
    part *all = room(o.ranks, sizeof(part));
    for (uint32_t r = 0; r < o.ranks; r++)
        all[r] = (part){table_of(o.size / o.ranks + 1), o.size, updates, o.ranks, {0, 0, 0, 0}};
    uint64_t *wanted = table_of(o.size);
    double began = seconds();
    by_one(all, wanted);
    took(o, "one loop", began);
#ifdef _OPENMP
    uint64_t *shared = table_of(o.size);
    began = seconds();
    by_openmp(all, shared);
    took(o, "OpenMP", began);
    wrong += memcmp(shared, wanted, o.size * sizeof(uint64_t)) != 0;
    free(shared);
#endif
    began = seconds();
    bale_run(o.ranks, count_all, all);
    took(o, "bale", began);
    for (uint64_t place = 0; place < o.size; place++)
        wrong += all[place % o.ranks].counts[place / o.ranks] != wanted[place];
    printf("histo: %llu counters, %llu updates, %llu wrong; rank 0 sent %llu items in %llu buffers\n", (unsigned long long)o.size,
           (unsigned long long)(updates * o.ranks), (unsigned long long)wrong, (unsigned long long)all[0].sent.items_sent,
           (unsigned long long)all[0].sent.buffers_sent);
    for (uint32_t r = 0; r < o.ranks; r++)
        free(all[r].counts);
    free(all);
    free(wanted);
    return wrong != 0;
}
