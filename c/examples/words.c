/* Word counts: each of four ranks has a text of its own, and sends each word of it to the rank that
   owns the word by its hash. That rank counts its words. */
#include <bale_run.h>
#include "ranks.h"

enum { WORDS = 100000, KINDS = 5000, SLOTS = 1 << 13, LONGEST = 200 };

typedef struct {
    uint8_t bytes[LONGEST + 8];
    size_t nbytes; /* 0 where no word is */
    uint64_t count;
} word;

static word tables[RANKS][SLOTS];

static uint64_t hash(const uint8_t *bytes, size_t nbytes) {
    uint64_t h = 0xcbf29ce484222325u;
    for (size_t k = 0; k < nbytes; k++)
        h = (h ^ bytes[k]) * 0x100000001b3u;
    return h;
}

/* Word number kind: its number, and up to LONGEST letters. */
static size_t spell(uint32_t kind, uint8_t *bytes) {
    size_t nbytes = (size_t)snprintf((char *)bytes, 8, "%u", (unsigned)kind);
    for (uint32_t k = 0; k < kind % LONGEST; k++)
        bytes[nbytes++] = (uint8_t)('a' + k % 26);
    return nbytes;
}

/* Where a word is in the table of its rank, or where it is to be put. */
static word *find(word *table, const uint8_t *bytes, size_t nbytes) {
    size_t at = (size_t)(hash(bytes, nbytes) / RANKS % SLOTS);
    while (table[at].nbytes != 0 && (table[at].nbytes != nbytes || memcmp(table[at].bytes, bytes, nbytes) != 0))
        at = (at + 1) % SLOTS;
    return &table[at];
}

static void count(void *table, const uint8_t *bytes, size_t nbytes, uint32_t from) {
    word *found = find((word *)table, bytes, nbytes);
    (void)from;
    memcpy(found->bytes, bytes, nbytes);
    found->nbytes = nbytes;
    found->count++;
}

static void count_all(bale_elastic *rank, uint32_t me, void *context) {
    uint64_t seed = me;
    uint8_t bytes[LONGEST + 8];
    (void)context;
    bale_elastic_begin(rank);
    for (uint32_t k = 0; k < WORDS; k++) {
        size_t nbytes = spell((uint32_t)(random_of(&seed) % KINDS), bytes);
        bale_esend(rank, bytes, nbytes, (uint32_t)(hash(bytes, nbytes) % RANKS), count, tables[me]);
    }
    bale_efinish(rank, count, tables[me]);
}

int main(void) {
    static uint64_t wanted[KINDS];
    uint64_t all = 0, wrong = 0;
    bale_erun(RANKS, count_all, NULL);
    for (uint32_t r = 0; r < RANKS; r++) {
        uint64_t seed = r;
        for (uint32_t k = 0; k < WORDS; k++)
            wanted[random_of(&seed) % KINDS]++;
    }
    for (uint32_t kind = 0; kind < KINDS; kind++) {
        uint8_t bytes[LONGEST + 8];
        size_t nbytes = spell(kind, bytes);
        uint64_t found = find(tables[hash(bytes, nbytes) % RANKS], bytes, nbytes)->count;
        all += found;
        wrong += found != wanted[kind];
    }
    printf("words: %llu counted, %llu counts wrong\n", (unsigned long long)all, (unsigned long long)wrong);
    return all != (uint64_t)RANKS * WORDS || wrong != 0;
}
