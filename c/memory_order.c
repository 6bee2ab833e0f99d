/* What bale.h says of memory order: ranks pass blocks of memory on by their pointers, over two hops and many epochs, with
   no barrier between the epochs. A block is plain memory that the sender writes before its push and the receiver reads
   after its pull; one more array is written before a rank's done and read by all after their BALE_COMPLETE.

   Built plainly it shows that the values arrive. Built with -fsanitize=thread it is told the rule of bale.h, push by pull
   and epoch by epoch, since the archive is not instrumented and ThreadSanitizer sees nothing of its atomics: so it shows
   that the program needs no more than the rule, not that the archive keeps it. BREAKS makes programs that
   ThreadSanitizer must refuse: 1 is not told the rule, 2 writes a block after its push, 3 writes the array after done. */
#include "examples/ranks.h"

enum { BLOCKS = 500, EPOCHS = 40, WORDS = 8 };

#ifndef BREAKS
#define BREAKS 0
#endif

#if defined(__SANITIZE_THREAD__) && BREAKS != 1
void __tsan_acquire(void *);
void __tsan_release(void *);
#define TOLD_BEFORE(word) __tsan_release(word)
#define TOLD_AFTER(word) __tsan_acquire(word)
#else
#define TOLD_BEFORE(word) (void)(word)
#define TOLD_AFTER(word) (void)(word)
#endif

typedef struct {
    uint64_t words[WORDS];
} block;

typedef struct {
    bale_rank handle;
    uint32_t number;
    block *held[RANKS * BLOCKS], *came[RANKS * BLOCKS];
    size_t held_count, came_count;
} rank;

/* The epoch that each rank has reached: plain memory. One more epoch is between a read and the next write of a row. */
static uint64_t reached[2][RANKS];
static char done_of[2];

static uint64_t mark(uint64_t epoch, uint32_t from, int word) { return (epoch * RANKS + from) * WORDS + (uint64_t)word; }

static void write_block(block *b, uint64_t epoch, uint32_t from) {
    for (int k = 0; k < WORDS; k++)
        b->words[k] = mark(epoch, from, k);
}

static void check_block(const block *b, uint64_t epoch, uint32_t from) {
    for (int k = 0; k < WORDS; k++)
        if (b->words[k] != mark(epoch, from, k)) {
            fprintf(stderr, "memory_order: a block from rank %u is not what was written before its push\n", from);
            exit(1);
        }
}

static void one_epoch(rank *me, uint64_t epoch, uint64_t *seed) {
    size_t sent = 0;
    bool said = false;
    int32_t answer = BALE_MORE;
    me->came_count = 0;
    want("bale_begin", bale_begin(&me->handle), BALE_OK);
    while (answer != BALE_COMPLETE) {
        for (; sent < me->held_count; sent++) {
            block *b = me->held[sent];
            bale_item item = {.a = (uint64_t)(uintptr_t)b};
            write_block(b, epoch, me->number);
            TOLD_BEFORE(b);
            if (bale_push(&me->handle, &item, (uint32_t)(random_of(seed) % RANKS)) != BALE_OK)
                break;
            if (BREAKS == 2)
                b->words[0] = mark(epoch, me->number, 0); /* the same, so that the race alone is wrong */
        }
        if (sent == me->held_count && !said) {
            said = true;
            if (BREAKS != 3)
                reached[epoch % 2][me->number] = epoch;
            TOLD_BEFORE(&done_of[epoch % 2]);
            if (BREAKS == 3)
                reached[epoch % 2][me->number] = epoch;
        }
        answer = bale_advance(&me->handle, said);
        if (answer < 0)
            want("bale_advance", answer, BALE_MORE);
        uint32_t from;
        bale_item item;
        while (bale_pull(&me->handle, &item, &from) == BALE_OK) {
            block *b = (block *)(uintptr_t)item.a;
            TOLD_AFTER(b);
            check_block(b, epoch, from);
            me->came[me->came_count++] = b;
        }
        sched_yield();
    }
    TOLD_AFTER(&done_of[epoch % 2]);
    for (int r = 0; r < RANKS; r++)
        if (reached[epoch % 2][r] != epoch) {
            fprintf(stderr, "memory_order: what rank %d wrote before its done is not there\n", r);
            exit(1);
        }
    want("bale_reset", bale_reset(&me->handle), BALE_OK);
}

static void *pass_on(void *arg) {
    rank *me = arg;
    uint64_t seed = me->number;
    for (; me->held_count < BLOCKS; me->held_count++)
        if ((me->held[me->held_count] = malloc(sizeof(block))) == NULL)
            exit(1);
    for (uint64_t epoch = 1; epoch <= EPOCHS; epoch++) {
        one_epoch(me, epoch, &seed);
        me->held_count = me->came_count;
        for (size_t k = 0; k < me->came_count; k++)
            me->held[k] = me->came[k];
    }
    for (size_t k = 0; k < me->held_count; k++)
        free(me->held[k]);
    return NULL;
}

int main(void) {
    static rank ranks[RANKS];
    bale_group group = {0};
    make_ranks(&group, &ranks[0].handle, sizeof(rank));
    for (uint32_t r = 0; r < RANKS; r++)
        ranks[r].number = r;
    on_threads(pass_on, ranks, sizeof(rank));
    size_t blocks = 0;
    for (uint32_t r = 0; r < RANKS; r++) {
        blocks += ranks[r].held_count;
        want("bale_rank_free", bale_rank_free(&ranks[r].handle), BALE_OK);
    }
    want("bale_group_free", bale_group_free(&group), BALE_OK);
    printf("memory_order: %zu blocks passed on in %d epochs\n", blocks, EPOCHS);
    return blocks != RANKS * BLOCKS;
}
