/* Index gather, as bale's ig makes it: each rank reads 250,000 random places of a table that is
   dealt out over all ranks. */
#include <bale_run.h>
#include "ranks.h"

enum { READS = 250000, TABLE = 100000 };

typedef struct {
    uint64_t table[TABLE / RANKS]; /* place i of the table is at rank i % RANKS, in place i / RANKS */
    uint64_t read[READS];
} share;

static uint64_t value_at(uint64_t place) { return place * 7 + 1; }

/* A query: a is the place at this rank, b the reader's own number of the read. Its reply: a is the
   value, and b is the same. */
static void answer(void *context, void *item, uint32_t from) {
    bale_item *it = item;
    (void)from;
    it->a = ((share *)context)->table[it->a];
}

static void heard(void *context, const void *item, uint32_t from) {
    const bale_item *it = item;
    (void)from;
    ((share *)context)->read[it->b] = it->a;
}

static void gather(bale_asker *asker, uint32_t me, void *context) {
    share *my = (share *)context + me;
    uint64_t seed = me + 1;
    bale_ask_begin(asker, answer, heard, my);
    for (uint64_t k = 0; k < READS; k++) {
        uint64_t index = random_of(&seed) % TABLE;
        bale_ask(asker, (&(bale_item){.a = index / RANKS, .b = k}), (uint32_t)(index % RANKS));
    }
    bale_ask_finish(asker);
}

int main(void) {
    static share shares[RANKS];
    uint64_t wrong = 0;
    for (uint64_t i = 0; i < TABLE; i++)
        shares[i % RANKS].table[i / RANKS] = value_at(i);
    bale_run_asking(RANKS, gather, shares);
    for (uint32_t r = 0; r < RANKS; r++) {
        uint64_t seed = r + 1;
        for (uint32_t k = 0; k < READS; k++)
            wrong += shares[r].read[k] != value_at(random_of(&seed) % TABLE);
    }
    printf("index_gather: %d read, %llu wrong\n", RANKS * READS, (unsigned long long)wrong);
    return wrong != 0;
}
