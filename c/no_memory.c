/* Each allocation of each call failing in turn: the call answers that there is no memory, nothing has
   changed, and it may be made again. No call on a rank for items asks for memory. */
#include "bale.h"
#include <stdio.h>
#include <stdlib.h>
#include <string.h>

typedef struct {
    bool ok;
    void *p;
} tried;

static long left = -1; /* so many allocations succeed; below 0, all */
static long taken, asked;
static char none;

tried rattle_alloc(size_t size, size_t align);
tried rattle_realloc(void *p, size_t kept, size_t size, size_t align);
void rattle_dealloc(void *p);

static tried tried_of(void *p) {
    tried t = {p != NULL, p != NULL ? p : &none};
    return t;
}

static bool refused(void) {
    asked++;
    if (left == 0)
        return true;
    left -= left > 0;
    return false;
}

tried rattle_alloc(size_t size, size_t align) {
    if (refused())
        return tried_of(NULL);
    void *p = malloc(size != 0 ? size : align);
    taken += p != NULL;
    return tried_of(p);
}

tried rattle_realloc(void *p, size_t kept, size_t size, size_t align) {
    (void)kept;
    return tried_of(refused() ? NULL : realloc(p, size != 0 ? size : align));
}

void rattle_dealloc(void *p) {
    taken--;
    free(p);
}

static void want(const char *what, int32_t answer, int32_t wanted) {
    if (answer != wanted) {
        fprintf(stderr, "no_memory: %s: %s\n", what, bale_text(answer));
        exit(1);
    }
}

/* Strings from rank 0 to rank 1, with each allocation of each push and pull failing in turn. */
static long strings(void) {
    static uint8_t string[65535];
    static const size_t lengths[4] = {65535, 0, 100, 65534};
    uint32_t dims[1] = {2}, from, sent = 0, came = 0;
    bale_group group = {0};
    bale_elastic ranks[2] = {{0}};
    long refusals = 0, first;
    int32_t answer, first_answer = BALE_MORE, second_answer = BALE_MORE;
    left = -1;
    want("bale_group_new", bale_group_new(dims, 1, 16, 2, false, &group), BALE_OK);
    for (uint32_t r = 0; r < 2; r++) {
        long before = taken;
        for (first = 0;; first++, refusals++) {
            left = first;
            if ((answer = bale_elastic_new(&group, r, &ranks[r])) == BALE_OK)
                break;
            want("bale_elastic_new", answer, BALE_NO_MEMORY);
            if (ranks[r].live || taken != before)
                want("bale_elastic_new left something", -99, BALE_OK);
        }
        want("bale_elastic_begin", bale_elastic_begin(&ranks[r]), BALE_OK);
    }
    for (size_t k = 0; k < sizeof string; k++)
        string[k] = (uint8_t)(k * 7 + k / 256);
    while (first_answer != BALE_COMPLETE || second_answer != BALE_COMPLETE) {
        const uint8_t *bytes;
        size_t nbytes;
        for (first = 0; sent < 4; first++, refusals++) {
            left = first;
            if ((answer = bale_epush(&ranks[0], string, lengths[sent], 1)) == BALE_OK)
                sent++;
            if (answer != BALE_NO_MEMORY)
                break;
        }
        left = 0;
        first_answer = bale_elastic_advance(&ranks[0], sent == 4);
        second_answer = bale_elastic_advance(&ranks[1], true);
        bale_epull(&ranks[0], &bytes, &nbytes, &from);
        for (first = 0; (answer = bale_epull(&ranks[1], &bytes, &nbytes, &from)) != BALE_NONE; first++) {
            if (answer == BALE_OK && (from != 0 || nbytes != lengths[came++] || memcmp(bytes, string, nbytes) != 0))
                want("bale_epull gave another string", -99, BALE_OK);
            if (answer != BALE_OK)
                want("bale_epull", answer, BALE_NO_MEMORY);
            refusals += answer == BALE_NO_MEMORY;
            left = answer == BALE_OK ? 0 : first + 1;
        }
    }
    if (came != 4)
        want("a string was lost", -99, BALE_OK);
    for (int r = 0; r < 2; r++) {
        want("bale_elastic_reset", bale_elastic_reset(&ranks[r]), BALE_OK);
        want("bale_elastic_free", bale_elastic_free(&ranks[r]), BALE_OK);
    }
    want("bale_group_free", bale_group_free(&group), BALE_OK);
    return refusals;
}

int main(void) {
    uint32_t dims[3] = {2, 1, 2}, from;
    bale_group group = {0};
    bale_rank ranks[4] = {{0}};
    bale_item item = {1, 2, 3};
    long refusals = 0;
    for (left = 0;; refusals++) {
        long first = left;
        int32_t answer = bale_group_new(dims, 3, 4, 2, false, &group);
        if (answer == BALE_OK)
            break;
        want("bale_group_new", answer, BALE_NO_MEMORY);
        if (group.live || taken != 0)
            want("bale_group_new left something", -99, BALE_OK);
        left = first + 1;
    }
    for (uint32_t r = 0; r < 4; r++) {
        long before = taken;
        for (left = 0;; refusals++) {
            long first = left;
            int32_t answer = bale_rank_new(&group, r, &ranks[r]);
            if (answer == BALE_OK)
                break;
            want("bale_rank_new", answer, BALE_NO_MEMORY);
            if (ranks[r].live || taken != before)
                want("bale_rank_new left something", -99, BALE_OK);
            left = first + 1;
        }
    }
    /* The archive's own allocator comes along with its version, and is not used. */
    if (strncmp(bale_version(), BALE_VERSION, strlen(BALE_VERSION)) != 0)
        want("bale_version", -99, BALE_OK);
    left = 0; /* from here no allocation succeeds, and none is asked for */
    asked = 0;
    uint32_t pulled = 0, pushed = 0, over = 0;
    bale_item items[3];
    uint32_t senders[3];
    for (uint32_t r = 0; r < 4; r++)
        want("bale_begin", bale_begin(&ranks[r]), BALE_OK);
    while (over < 4) {
        over = 0;
        for (uint32_t r = 0; r < 4; r++) {
            uint32_t to = pushed % 4;
            if (bale_phase(&ranks[r]) == BALE_STATE_WORKING && pushed < 1000 &&
                (pushed % 2 == 0 ? bale_push(&ranks[r], &item, to) == BALE_OK : bale_push_many(&ranks[r], &item, 1, &to, 1) == 1))
                pushed++;
            over += bale_advance(&ranks[r], pushed == 1000) == BALE_COMPLETE;
            if (bale_pull(&ranks[r], &item, &from) == BALE_OK && bale_unpull(&ranks[r]) != BALE_OK)
                want("bale_unpull", -99, BALE_OK);
            while (bale_pull(&ranks[r], &item, &from) == BALE_OK) {
                int64_t more = bale_pull_many(&ranks[r], items, 3, senders, 3);
                pulled += 1 + (more > 0 ? (uint32_t)more : 0);
            }
        }
    }
    for (uint32_t r = 0; r < 4; r++)
        want("bale_reset", bale_reset(&ranks[r]), BALE_OK);
    if (asked != 0)
        want("a call asked for memory", -99, BALE_OK);
    for (uint32_t r = 0; r < 4; r++) {
        want("bale_rank_free", bale_rank_free(&ranks[r]), BALE_OK);
    }
    want("bale_group_free", bale_group_free(&group), BALE_OK);
    refusals += strings();
    printf("no_memory: %ld refusals, %u items pulled after them, %ld blocks left\n", refusals, pulled, taken);
    return pulled != 1000 || taken != 0;
}
