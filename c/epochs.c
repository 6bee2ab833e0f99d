/* A rank resets and begins its next epoch, and pushes in it, while another is still in the epoch before: what it pushes is
   pulled in the other's next epoch. On one thread, so each order of the calls is the one that is written here. */
#include "examples/ranks.h"

static bale_rank first, second;

static void push(bale_rank *rank, uint64_t value, uint32_t to) {
    bale_item item = {.a = value};
    want("bale_push", bale_push(rank, &item, to), BALE_OK);
}

/* Pulls the item with this value, or finds none for 0. */
static void pull(bale_rank *rank, uint64_t value) {
    bale_item item = {0};
    uint32_t from;
    want("bale_pull", bale_pull(rank, &item, &from), value == 0 ? BALE_NONE : BALE_OK);
    if (item.a != value)
        want("bale_pull of another epoch", BALE_NONE, BALE_OK);
}

static void until_complete(bale_rank *rank) {
    for (int k = 0; k < 100; k++)
        if (bale_advance(rank, true) == BALE_COMPLETE)
            return;
    want("bale_advance, again and again", BALE_MORE, BALE_COMPLETE);
}

int main(void) {
    bale_group group = {0};
    uint32_t dims[1] = {2};
    want("bale_group_new", bale_group_new(dims, 1, 1, 2, true, &group), BALE_OK);
    want("bale_rank_new", bale_rank_new(&group, 0, &first), BALE_OK);
    want("bale_rank_new", bale_rank_new(&group, 1, &second), BALE_OK);
    want("bale_begin", bale_begin(&first), BALE_OK);
    want("bale_begin", bale_begin(&second), BALE_OK);
    push(&first, 11, 1);
    for (int k = 0; k < 10; k++) {
        bale_advance(&second, true);
        bale_advance(&first, true);
    }
    /* The second has not pulled, so it is not complete; the first is, and goes on. */
    until_complete(&first);
    want("bale_reset", bale_reset(&first), BALE_OK);
    want("bale_begin", bale_begin(&first), BALE_OK);
    push(&first, 22, 1);
    for (int k = 0; k < 10; k++)
        bale_advance(&first, false);
    want("bale_reset of the second", bale_reset(&second), BALE_NOT_COMPLETE);
    pull(&second, 11);
    until_complete(&second);
    pull(&second, 0);
    want("bale_reset", bale_reset(&second), BALE_OK);
    want("bale_begin", bale_begin(&second), BALE_OK);
    for (int k = 0; k < 10; k++)
        bale_advance(&second, true);
    pull(&second, 22);
    until_complete(&first);
    until_complete(&second);
    want("bale_rank_free", bale_rank_free(&first), BALE_OK);
    want("bale_rank_free", bale_rank_free(&second), BALE_OK);
    want("bale_group_free", bale_group_free(&group), BALE_OK);
    puts("epochs: as they should be");
    return 0;
}
