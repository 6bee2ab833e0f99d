/* An exchange written by hand for this work alone, as in c/rate.c: for each pair of ranks a link of
   two slots and two counters, entries with the sender's number, and buffers handed over by their
   pointers. The process ends with the run, so nothing is freed.
   usage: by_hand RANKS ITEMS BATCH */
#define _POSIX_C_SOURCE 200809L
#include "threads.h"
#include <stdatomic.h>

typedef struct {
    uint32_t tag;
    work_item item;
} hand_entry;

typedef struct {
    uint32_t count;
    bool last; /* no buffer follows on this link */
    hand_entry *entries;
} hand_buffer;

/* Buffer k of a link is in slot k % 2 until it is taken; then an empty one is there. */
typedef struct {
    _Alignas(64) _Atomic uint64_t posted;
    _Alignas(64) _Atomic uint64_t taken;
    _Alignas(64) hand_buffer slots[2];
} hand_link;

/* What a rank knows of the links to and from one other rank. */
typedef struct {
    hand_buffer open, spare; /* where items to that rank are put; an empty one for the next taken */
    uint64_t posted, taken;
    bool closed, over; /* the last buffer was posted; the last was taken */
} hand_peer;

static hand_link *links; /* that from rank s to rank r is links[s * ranks + r] */

static hand_buffer new_buffer(void) {
    hand_buffer made = {0, false, malloc(capacity * sizeof(hand_entry))};
    if (made.entries == NULL)
        exit(1);
    return made;
}

/* Posts the open buffer if it is full, or as the last one if the rank is done. Whether it did. */
static bool post(hand_peer *peer, hand_link *link, bool done) {
    if (peer->closed || (peer->open.count < capacity && !done) ||
        peer->posted - atomic_load_explicit(&link->taken, memory_order_acquire) == 2)
        return false;
    hand_buffer *slot = &link->slots[peer->posted % 2], empty = *slot;
    peer->open.last = peer->closed = done;
    *slot = peer->open;
    peer->open = (hand_buffer){0, false, empty.entries};
    atomic_store_explicit(&link->posted, ++peer->posted, memory_order_release);
    return true;
}

/* Takes the next buffer if there is one, and absorbs its items. Whether it did. */
static bool collect(hand_peer *peer, hand_link *link, uint64_t *own_counts, uint64_t *sum) {
    if (peer->over || atomic_load_explicit(&link->posted, memory_order_acquire) == peer->taken)
        return false;
    hand_buffer *slot = &link->slots[peer->taken % 2], got = *slot;
    *slot = peer->spare;
    atomic_store_explicit(&link->taken, ++peer->taken, memory_order_release);
    for (uint32_t k = 0; k < got.count; k++)
        absorb(got.entries[k].item, own_counts, sum);
    peer->over = got.last;
    peer->spare = got;
    return true;
}

static void *run_rank(void *arg) {
    uint32_t me = (uint32_t)(size_t)arg, left = items_each, ended = 0;
    uint64_t seed = me + 1, sum = 0, *own_counts = counts + me * CELLS;
    hand_peer peers[MOST_RANKS] = {0};
    for (uint32_t r = 0; r < ranks; r++)
        peers[r] = (hand_peer){.open = new_buffer(), .spare = new_buffer()};
    work_item next = next_item(&seed, ranks);
    while (ended < 2 * ranks) {
        bool moved = false;
        while (left > 0 && peers[next.to].open.count < capacity) {
            hand_buffer *open = &peers[next.to].open;
            open->entries[open->count++] = (hand_entry){me, next};
            next = next_item(&seed, ranks);
            left--;
            moved = true;
        }
        ended = 0;
        for (uint32_t r = 0; r < ranks; r++) {
            moved |= post(&peers[r], &links[me * ranks + r], left == 0);
            moved |= collect(&peers[r], &links[r * ranks + me], own_counts, &sum);
            ended += peers[r].closed + peers[r].over;
        }
        if (!moved)
            sched_yield();
    }
    sums[me][0] = sum;
    return NULL;
}

int main(int argc, char **argv) {
    read_words(argc, argv);
    links = aligned_alloc(64, sizeof(hand_link) * ranks * ranks);
    if (links == NULL)
        return 1;
    for (uint32_t l = 0; l < ranks * ranks; l++) {
        atomic_init(&links[l].posted, 0);
        atomic_init(&links[l].taken, 0);
        for (int k = 0; k < 2; k++)
            links[l].slots[k] = new_buffer();
    }
    run_and_report(run_rank);
    return 0;
}
