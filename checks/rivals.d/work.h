/* The work that checks/rivals gives to every program, in C; channels.rs has the same in Rust. Each
   of P ranks draws the same number of random items, and each item goes to the rank that owns the
   item's cell. The receiver adds the value to the cell in its table of counts, and to a checksum.
   A program is called with the number of ranks, the items a rank, and, if items travel together,
   how many do. It prints million items a second, of all ranks, and the checksum. */
#ifndef WORK_H
#define WORK_H

#include <stdint.h>
#include <stdio.h>
#include <stdlib.h>
#include <time.h>

enum { CELLS = 65536, MOST_RANKS = 64 }; /* the cells of one rank's table, of 8 bytes each */

/* An item takes 24 bytes, as the library's items do. */
typedef struct {
    uint64_t to;
    uint64_t cell;
    uint64_t value;
} work_item;

/* The next item of a rank, whose seed starts as its number + 1. The generator is that of c/rate.c. A
   draw chooses one of the cells of all ranks, and so the owner. */
static inline work_item next_item(uint64_t *seed, uint64_t ranks) {
    *seed = *seed * 6364136223846793005u + 1442695040888963407u;
    uint64_t place = ((*seed >> 33) * (ranks * CELLS)) >> 31;
    return (work_item){place / CELLS, place % CELLS, *seed >> 24 & 255};
}

/* What a receiver does with an item. */
static inline void absorb(work_item item, uint64_t *counts, uint64_t *sum) {
    counts[item.cell] += item.value;
    *sum += item.cell ^ item.value;
}

/* A table of so many ranks, all zero. */
static inline uint64_t *new_counts(uint32_t ranks) {
    uint64_t *counts = calloc((size_t)ranks * CELLS, sizeof *counts);
    if (counts == NULL)
        exit(1);
    return counts;
}

/* The part of the checksum that a rank's table gives. A value in the wrong cell or table changes it. */
static inline uint64_t table_sum(const uint64_t *counts, uint64_t rank) {
    uint64_t sum = 0;
    for (uint64_t cell = 0; cell < CELLS; cell++)
        sum += counts[cell] * (rank * CELLS + cell + 1);
    return sum;
}

static inline double seconds_now(void) {
    struct timespec t;
    timespec_get(&t, TIME_UTC);
    return (double)t.tv_sec + 1e-9 * (double)t.tv_nsec;
}

/* Word k of the command line as a number from 1 to most. Without one the program ends with status 2. */
static inline uint32_t number(int argc, char **argv, int k, uint32_t most) {
    unsigned long n = k < argc ? strtoul(argv[k], NULL, 10) : 0;
    if (n < 1 || n > most)
        exit(2);
    return (uint32_t)n;
}

static inline void report(uint32_t ranks, uint32_t items_each, double seconds, uint64_t checksum) {
    printf("%.3f %llu\n", (double)items_each * ranks / seconds / 1e6, (unsigned long long)checksum);
}

#endif
