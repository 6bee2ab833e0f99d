/* The helpers of bale_run.h, as C and as C++: each with full buffers, several grids and items of several sizes, and each
   at misuse, which BALE_FAILED notes here. */
#include <pthread.h>
#include <stdint.h>
static void note(const char *call, int32_t answer);
static int failing_create(void);
#define BALE_FAILED(call, answer) note(call, answer)
#define pthread_create(thread, attr, main, arg) (failing_create() ? 11 : (pthread_create)(thread, attr, main, arg))
#include "bale_run.h"

enum { MOST = 64, ITEMS = 3000 };

static const char *noted_call;
static int32_t noted;
static int creates_left = -1; /* so many threads can be started; below 0, all */

static void note(const char *call, int32_t answer) {
    noted_call = call;
    noted = answer;
}

static int failing_create(void) {
    return creates_left >= 0 && creates_left-- == 0;
}

#define WANT(fact) wanted(fact, #fact, __LINE__)
static void wanted(bool fact, const char *text, int line) {
    if (fact)
        return;
    fprintf(stderr, "helpers: line %d: not so: %s\n", line, text);
    exit(1);
}

/* Whether just this was noted, which is then forgotten. */
static bool failed(const char *call, int32_t answer) {
    bool is = noted_call != NULL && strcmp(noted_call, call) == 0 && noted == answer;
    noted_call = NULL;
    return is;
}

typedef struct {
    uint8_t one;
} small;

typedef struct {
    uint32_t sender, number;
    uint64_t square;
    uint64_t again;
} large;

typedef struct {
    uint32_t me, ranks;
    uint32_t next[MOST]; /* the number of the next item of each sender */
    uint64_t smalls;
    uint64_t calls;
} account;

static void take_large(void *context, const void *item, uint32_t from) {
    account *my = (account *)context;
    large it = bale_value(large, item);
    WANT(it.sender == from && it.number == my->next[from]);
    WANT(it.square == (uint64_t)it.number * it.number && it.again == it.square + my->me);
    my->next[from]++;
}

static void take_small(void *context, const void *item, uint32_t from) {
    account *my = (account *)context;
    WANT(bale_value(small, item).one == (uint8_t)(from + 200) && bale_value(uint64_t, item) == (from + 200) % 256);
    my->smalls++;
}

static void take_call(void *context, const void *item, uint32_t from) {
    (void)item;
    (void)from;
    ((account *)context)->calls++;
}

static int started[MOST];

/* Each rank sends ITEMS items to every rank, then one small one, and then an epoch of nothing. */
static void exchanges(bale_rank *rank, uint32_t me, void *context) {
    account my;
    memset(&my, 0, sizeof my);
    my.me = me;
    my.ranks = *(uint32_t *)context;
    WANT(bale_ranks(rank) == my.ranks && me < my.ranks && bale_phase(rank) == BALE_STATE_DORMANT);
    started[me]++;
    WANT(bale_begin(rank) == BALE_OK);
    for (uint32_t k = 0; k < ITEMS; k++)
        for (uint32_t to = 0; to < my.ranks; to++) {
            large it = {me, k, (uint64_t)k * k, (uint64_t)k * k + to};
            WANT(bale_send(rank, &it, to, take_large, &my) == BALE_OK);
        }
    WANT(bale_finish(rank, take_large, &my) == BALE_OK && bale_phase(rank) == BALE_STATE_DORMANT);
    for (uint32_t from = 0; from < my.ranks; from++)
        WANT(my.next[from] == ITEMS);
    small it = {(uint8_t)(me + 200)};
    WANT(bale_begin(rank) == BALE_OK);
    for (uint32_t to = 0; to < my.ranks; to++)
        WANT(bale_send(rank, &it, to, take_small, &my) == BALE_OK);
    WANT(bale_finish(rank, take_small, &my) == BALE_OK && my.smalls == my.ranks);
    WANT(bale_begin(rank) == BALE_OK && bale_finish(rank, take_small, &my) == BALE_OK && my.smalls == my.ranks);
}

/* The reductions, one after the other; the numbers of each differ by rank and round. */
static void reduces(bale_rank *rank, uint32_t me, void *context) {
    uint64_t ranks = *(uint32_t *)context;
    for (uint64_t round = 0; round < 20; round++) {
        uint64_t at = (me + round) % ranks;
        WANT(bale_sum(rank, at + round) == ranks * (ranks - 1) / 2 + ranks * round);
        WANT(bale_min(rank, at + round + 5) == round + 5);
        WANT(bale_max(rank, at + round) == ranks - 1 + round);
    }
    WANT(bale_min(rank, UINT64_MAX) == UINT64_MAX && bale_max(rank, 0) == 0);
    WANT(bale_sum(rank, me == 0 ? UINT64_MAX : 1) == ranks - 2);
}

/* A loop of libconvey's shape. */
static void goes(bale_rank *rank, uint32_t me, void *context) {
    uint32_t ranks = *(uint32_t *)context, sent = 0, from;
    uint64_t pulled = 0, turns = 0;
    bale_item item = {me, 0, 0};
    WANT(bale_begin(rank) == BALE_OK);
    while (bale_going(rank, sent == ITEMS)) {
        turns++;
        for (; sent < ITEMS && bale_push(rank, &item, sent % ranks) == BALE_OK; sent++)
            item.b++;
        bale_item came;
        while (bale_pull(rank, &came, &from) == BALE_OK)
            pulled += came.a == from;
    }
    WANT(turns > 0 && bale_phase(rank) == BALE_STATE_COMPLETE && bale_reset(rank) == BALE_OK);
    WANT(bale_sum(rank, pulled) == (uint64_t)ranks * ITEMS);
}

/* Two epochs of queries and replies. The k-th query to a rank is k, and the k-th reply to a rank has to be the k-th
   number that this rank was asked for by it, times the rank plus one. */
typedef struct {
    uint32_t me;
    uint32_t answered[MOST], heard[MOST];
} desk;

static void answer_query(void *context, void *item, uint32_t from) {
    desk *my = (desk *)context;
    uint32_t asked = bale_value(uint32_t, item);
    WANT(asked == my->answered[from]);
    large reply = {my->me, my->answered[from]++, (uint64_t)asked * (my->me + 1), from};
    memcpy(item, &reply, sizeof reply);
}

static void hear_reply(void *context, const void *item, uint32_t from) {
    desk *my = (desk *)context;
    large reply = bale_value(large, item);
    WANT(reply.sender == from && reply.again == my->me && reply.number == my->heard[from]);
    WANT(reply.square == (uint64_t)my->heard[from] * (from + 1));
    my->heard[from]++;
}

/* Rank r asks rank t ITEMS times, except that only even ranks ask in the second epoch. */
static void asks(bale_asker *asker, uint32_t me, void *context) {
    uint32_t ranks = *(uint32_t *)context;
    for (uint32_t round = 0; round < 2; round++) {
        desk my;
        memset(&my, 0, sizeof my);
        my.me = me;
        WANT(bale_ask_begin(asker, answer_query, hear_reply, &my) == BALE_OK);
        for (uint32_t k = 0; k < ITEMS && me % (round + 1) == 0; k++)
            for (uint32_t to = 0; to < ranks; to++)
                WANT(bale_ask(asker, &k, to) == BALE_OK);
        WANT(bale_ask_finish(asker) == BALE_OK);
        for (uint32_t from = 0; from < ranks; from++) {
            WANT(my.heard[from] == (me % (round + 1) == 0 ? ITEMS : 0));
            WANT(my.answered[from] == (from % (round + 1) == 0 ? ITEMS : 0));
        }
    }
}

static void on(uint32_t a, uint32_t b, uint32_t buffer, uint32_t slots, bool steady) {
    uint32_t dims[2], ranks = a * b;
    dims[0] = a, dims[1] = b;
    memset(started, 0, sizeof started);
    WANT(bale_run_on(dims, b == 1 ? 1 : 2, buffer, slots, steady, exchanges, &ranks) == BALE_OK);
    for (uint32_t r = 0; r < MOST; r++)
        WANT(started[r] == (r < ranks));
    WANT(bale_run_on(dims, b == 1 ? 1 : 2, buffer, slots, steady, reduces, &ranks) == BALE_OK);
    WANT(bale_run_on(dims, b == 1 ? 1 : 2, buffer, slots, steady, goes, &ranks) == BALE_OK);
    WANT(bale_run_asking_on(dims, b == 1 ? 1 : 2, buffer, slots, steady, asks, &ranks) == BALE_OK);
}

/* One rank alone, in one thread's hands, at misuse. */
static void misuses(bale_rank *rank, uint32_t me, void *context) {
    account my;
    uint32_t to = 1;
    memset(&my, 0, sizeof my);
    (void)me;
    (void)context;
    WANT(noted_call == NULL);
    WANT(bale_send(rank, &to, 0, take_call, &my) == BALE_NOT_BEGUN && failed("bale_send", BALE_NOT_BEGUN));
    WANT(bale_drain(rank, take_call, &my) == BALE_NOT_BEGUN && failed("bale_drain", BALE_NOT_BEGUN));
    WANT(bale_finish(rank, take_call, &my) == BALE_NOT_BEGUN && failed("bale_finish", BALE_NOT_BEGUN));
    WANT(!bale_going(rank, true) && failed("bale_going", BALE_NOT_BEGUN));
    WANT(bale_begin(rank) == BALE_OK);
    bale_sum(rank, 1);
    WANT(failed("bale_begin of a reduction", BALE_BEGUN) && bale_phase(rank) == BALE_STATE_WORKING);
    WANT(bale_send(rank, &to, 1, take_call, &my) == BALE_NO_RANK && failed("bale_send", BALE_NO_RANK));
    /* What is pushed to this rank itself is drained, also by a send that finds no room. */
    WANT(bale_drain(rank, take_call, &my) == 0 && my.calls == 0);
    for (int k = 0; k < 3 * 1024; k++)
        WANT(bale_send(rank, &to, 0, take_call, &my) == BALE_OK);
    WANT(my.calls >= 1024 && my.calls < 3 * 1024 && noted_call == NULL);
    WANT(bale_advance(rank, true) >= 0 && bale_send(rank, &to, 0, take_call, &my) == BALE_SAID_DONE && failed("bale_send", BALE_SAID_DONE));
    uint64_t before = my.calls;
    int64_t drained = bale_drain(rank, take_call, &my);
    WANT(drained > 0 && my.calls == before + (uint64_t)drained && bale_drain(rank, take_call, &my) == 0);
    WANT(bale_finish(rank, take_call, &my) == BALE_OK && my.calls == 3 * 1024 && noted_call == NULL);
}

static void ask_misuses(bale_asker *asker, uint32_t me, void *context) {
    desk my;
    memset(&my, 0, sizeof my);
    (void)me;
    (void)context;
    WANT(bale_ask(asker, &me, 0) == BALE_NOT_BEGUN && failed("bale_ask", BALE_NOT_BEGUN));
    WANT(bale_ask_finish(asker) == BALE_NOT_BEGUN && failed("bale_ask_advance", BALE_NOT_BEGUN));
    WANT(bale_ask_begin(asker, answer_query, hear_reply, &my) == BALE_OK);
    WANT(bale_ask_begin(asker, answer_query, hear_reply, &my) == BALE_BEGUN && failed("bale_ask_begin", BALE_BEGUN));
    WANT(bale_ask(asker, &me, 1) == BALE_NO_RANK && failed("bale_ask", BALE_NO_RANK) && my.answered[0] == 0);
    WANT(bale_ask(asker, &me, 0) == BALE_OK && bale_ask_finish(asker) == BALE_OK && my.heard[0] == 1);
}

static void never_asks(bale_asker *asker, uint32_t me, void *context) {
    (void)asker;
    (void)me;
    *(bool *)context = true;
}

static void never(bale_rank *rank, uint32_t me, void *context) {
    (void)rank;
    (void)me;
    *(bool *)context = true;
}

int main(void) {
    uint32_t dims[1] = {65}, ranks = 4;
    bool called = false;
    on(1, 1, 1, 1, false);
    on(2, 1, 1, 1, true);
    on(3, 1, 64, 2, false);
    on(2, 2, 2, 1, false);
    on(2, 3, 1024, 8, true);
    WANT(bale_run(ranks, exchanges, &ranks) == BALE_OK && noted_call == NULL);
    WANT(bale_run(1, misuses, NULL) == BALE_OK && noted_call == NULL);
    WANT(bale_run_asking(ranks, asks, &ranks) == BALE_OK && noted_call == NULL);
    WANT(bale_run_asking(1, ask_misuses, NULL) == BALE_OK && noted_call == NULL);
    WANT(bale_run_asking(65, never_asks, &called) == BALE_BAD_NUMBERS && failed("bale_run_asking", BALE_BAD_NUMBERS) && !called);
    WANT(bale_run(0, never, &called) == BALE_BAD_NUMBERS && failed("bale_run", BALE_BAD_NUMBERS) && !called);
    WANT(bale_run(65, never, &called) == BALE_BAD_NUMBERS && failed("bale_run", BALE_BAD_NUMBERS) && !called);
    WANT(bale_run_on(dims, 1, 3, 2, false, never, &called) == BALE_BAD_NUMBERS && failed("bale_run", BALE_BAD_NUMBERS) && !called);
    /* A thread that can't be started: no rank works, and none waits. */
    for (creates_left = 0; creates_left < 4;) {
        int first = creates_left;
        WANT(bale_run(ranks, never, &called) == BALE_NO_MEMORY && failed("bale_run", BALE_NO_MEMORY) && !called);
        creates_left = first;
        WANT(bale_run_asking(ranks, never_asks, &called) == BALE_NO_MEMORY && failed("bale_run_asking", BALE_NO_MEMORY) && !called);
        creates_left = first + 1;
    }
    creates_left = -1;
    WANT(bale_run(17, never, &called) == BALE_OK && called);
    puts("helpers: as they should be");
    return 0;
}
