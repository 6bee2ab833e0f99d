/* The header as C and as C++: sizes that the archive counts on, each answer's name, and one rank's whole epoch. */
#include "bale.h"
#include <stdio.h>
#include <string.h>

#ifdef __cplusplus
static_assert(sizeof(bale_item) == 24, "an item is three words");
static_assert(sizeof(bale_elastic) == 128 && offsetof(bale_elastic, live) == 8, "so is one for strings");
static_assert(sizeof(bale_rank) == 128 && offsetof(bale_rank, live) == 8, "a handle is a pointer and a byte, on lines of its own");
#else
_Static_assert(sizeof(bale_item) == 24, "an item is three words");
_Static_assert(sizeof(bale_elastic) == 128 && offsetof(bale_elastic, live) == 8, "so is one for strings");
_Static_assert(sizeof(bale_rank) == 128 && offsetof(bale_rank, live) == 8, "a handle is a pointer and a byte, on lines of its own");
#endif

/* Whether the rank is in this state, and says so if not. */
static bool is_in(bale_rank *rank, int32_t state) {
    if (bale_phase(rank) == state)
        return true;
    fprintf(stderr, "header: bale_phase answers %d in state %d\n", (int)bale_phase(rank), (int)state);
    return false;
}

int main(void) {
    bale_group group;
    bale_rank rank;
    uint32_t dims[1], from = 9;
    bale_item item;
    dims[0] = 1;
    memset(&group, 0, sizeof group);
    memset(&rank, 0, sizeof rank);
    for (int32_t a = BALE_TOO_LONG; a <= BALE_COMPLETE; a++)
        if (strcmp(bale_text(a), "no answer") == 0)
            return 1;
    if (bale_group_new(dims, 1, 1, 1, true, &group) != BALE_OK || bale_rank_new(&group, 0, &rank) != BALE_OK)
        return 2;
    for (int32_t a = BALE_TOO_LONG; a <= BALE_COMPLETE; a++)
        if (a == BALE_STATE_DORMANT || a == BALE_STATE_WORKING || a == BALE_STATE_ENDGAME || a == BALE_STATE_CLEANUP ||
            a == BALE_STATE_COMPLETE)
            return 8;
    if (!is_in(&rank, BALE_STATE_DORMANT) || bale_begin(&rank) != BALE_OK || !is_in(&rank, BALE_STATE_WORKING))
        return 3;
    for (uint64_t n = 0; n < 3; n++) {
        item.a = n, item.b = n + 1, item.c = n + 2;
        if (bale_push(&rank, &item, 0) != BALE_OK || bale_advance(&rank, false) != BALE_MORE || bale_advance(&rank, false) != BALE_MORE)
            return 4;
        item.a = 0;
        if (bale_pull(&rank, &item, &from) != BALE_OK || item.a != n || item.b != n + 1 || item.c != n + 2 || from != 0)
            return 5;
    }
    int32_t answer = BALE_MORE;
    for (int turn = 0; turn < 9 && answer != BALE_COMPLETE; turn++) {
        answer = bale_advance(&rank, true);
        if (!is_in(&rank, answer == BALE_COMPLETE ? BALE_STATE_COMPLETE : answer == BALE_NEAR ? BALE_STATE_CLEANUP : BALE_STATE_ENDGAME))
            return 9;
    }
    if (answer != BALE_COMPLETE || bale_reset(&rank) != BALE_OK || !is_in(&rank, BALE_STATE_DORMANT))
        return 6;
    if (bale_rank_free(&rank) != BALE_OK || bale_group_free(&group) != BALE_OK || bale_rank_free(&rank) != BALE_GONE ||
        !is_in(&rank, BALE_GONE))
        return 7;
    puts("header: as it should be");
    return 0;
}
