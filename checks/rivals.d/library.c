/* The library for C, one item a call or many, with the loops of c/rate.c.
   usage: library one|many RANKS ITEMS BATCH, with buffers of BATCH items */
#define _POSIX_C_SOURCE 200809L
#include "bale.h"
#include "threads.h"
#include <string.h>

enum { AT_ONCE = 1024 };

static bale_rank handles[MOST_RANKS];

/* Ends the program if the library refused a call. */
static int64_t checked(int64_t answer) {
    if (answer < 0) {
        fprintf(stderr, "library: %s\n", bale_text((int32_t)answer));
        exit(1);
    }
    return answer;
}

static void absorb_item(bale_item item, uint64_t *own_counts, uint64_t *sum) {
    absorb((work_item){item.a, item.b, item.c}, own_counts, sum);
}

static void *one_a_call(void *arg) {
    uint32_t me = (uint32_t)(size_t)arg, left = items_each, from;
    uint64_t seed = me + 1, sum = 0, *own_counts = counts + me * CELLS;
    bale_rank *rank = &handles[me];
    work_item next = next_item(&seed, ranks);
    bale_item item;
    checked(bale_begin(rank));
    int64_t state = BALE_MORE;
    while (state != BALE_COMPLETE) {
        bool moved = false;
        while (left > 0) {
            item = (bale_item){next.to, next.cell, next.value};
            if (checked(bale_push(rank, &item, (uint32_t)next.to)) != BALE_OK)
                break;
            next = next_item(&seed, ranks);
            left--;
            moved = true;
        }
        state = checked(bale_advance(rank, left == 0));
        while (bale_pull(rank, &item, &from) == BALE_OK) {
            absorb_item(item, own_counts, &sum);
            moved = true;
        }
        if (!moved)
            sched_yield();
    }
    sums[me][0] = sum;
    return NULL;
}

/* Items from start to ready are still to be pushed; those after them are to be drawn. */
typedef struct {
    bale_item items[AT_ONCE];
    uint32_t to[AT_ONCE], start, ready, left;
    uint64_t seed;
} outgoing_items;

static void draw(outgoing_items *out) {
    /* As many as all open buffers hold, since each push looks at all that it is given. */
    uint32_t at_once = capacity * ranks < AT_ONCE ? capacity * ranks : AT_ONCE;
    out->start = 0;
    for (out->ready = 0; out->ready < at_once && out->left > 0; out->ready++, out->left--) {
        work_item next = next_item(&out->seed, ranks);
        out->items[out->ready] = (bale_item){next.to, next.cell, next.value};
        out->to[out->ready] = (uint32_t)next.to;
    }
}

/* Pushes until no item is left or an open buffer is full. Whether any was pushed. */
static bool push_all(bale_rank *rank, outgoing_items *out) {
    bool moved = false;
    while (out->left > 0 || out->start < out->ready) {
        if (out->start == out->ready)
            draw(out);
        uint32_t start = out->start, many = out->ready - start;
        int64_t pushed = checked(bale_push_many(rank, out->items + start, many, out->to + start, many));
        out->start += (uint32_t)pushed;
        moved |= pushed > 0;
        if (out->start < out->ready)
            break;
    }
    return moved;
}

/* Pulls and absorbs all that came. Whether anything did. */
static bool pull_all(bale_rank *rank, uint64_t *own_counts, uint64_t *sum) {
    bale_item came[AT_ONCE];
    uint32_t from[AT_ONCE];
    int64_t pulled;
    bool moved = false;
    while ((pulled = checked(bale_pull_many(rank, came, AT_ONCE, from, AT_ONCE))) > 0) {
        for (int64_t k = 0; k < pulled; k++)
            absorb_item(came[k], own_counts, sum);
        moved = true;
    }
    return moved;
}

static void *many_a_call(void *arg) {
    uint32_t me = (uint32_t)(size_t)arg;
    uint64_t sum = 0, *own_counts = counts + me * CELLS;
    outgoing_items out = {.left = items_each, .seed = me + 1};
    bale_rank *rank = &handles[me];
    checked(bale_begin(rank));
    int64_t state = BALE_MORE;
    while (state != BALE_COMPLETE) {
        bool moved = push_all(rank, &out);
        state = checked(bale_advance(rank, out.left == 0 && out.start == out.ready));
        moved |= pull_all(rank, own_counts, &sum);
        if (!moved)
            sched_yield();
    }
    sums[me][0] = sum;
    return NULL;
}

int main(int argc, char **argv) {
    bool one = argc > 1 && strcmp(argv[1], "one") == 0;
    if (!one && (argc < 2 || strcmp(argv[1], "many") != 0))
        return 2;
    read_words(argc - 1, argv + 1);
    bale_group group = {0};
    checked(bale_group_new(&ranks, 1, capacity, 2, false, &group));
    for (uint32_t rank = 0; rank < ranks; rank++)
        checked(bale_rank_new(&group, rank, &handles[rank]));
    run_and_report(one ? one_a_call : many_a_call);
    for (uint32_t rank = 0; rank < ranks; rank++)
        bale_rank_free(&handles[rank]);
    bale_group_free(&group);
    return 0;
}
