/* A caller that knows no rules: calls in any order, with any numbers, on live, empty and freed
   handles. Every call must answer by a code that bale.h names for it, what is pulled must be what
   was pushed, in each pair's order, and a complete epoch has lost nothing: the program keeps its
   own account. A third of the calls are on ranks for strings, of which some have a rank for items
   among them, that sends any items. random_calls [calls, 2,000,000 [seed, 1]] */
#include "bale.h"
#include <stdio.h>
#include <stdlib.h>
#include <string.h>

enum { GROUPS = 2, MOST_RANKS = 6, MANY = 40, LONGEST = 65535 };

static uint64_t seed = 1;

static uint32_t below(uint32_t n) {
    uint64_t z = (seed += 0x9e3779b97f4a7c15u);
    z = (z ^ (z >> 30)) * 0xbf58476d1ce4e5b9u;
    z = (z ^ (z >> 27)) * 0x94d049bb133111ebu;
    return (uint32_t)((z ^ (z >> 31)) % n);
}

/* What the program knows of a group: how many items each rank pushed toward each other one in its
   epoch and in the one before, and pulled of it. */
typedef struct {
    bale_group handle;
    bale_rank ranks[MOST_RANKS];
    uint32_t many;
    uint64_t made;
    uint64_t epoch[MOST_RANKS];
    uint64_t pushed[MOST_RANKS][MOST_RANKS];
    uint64_t pushed_before[MOST_RANKS][MOST_RANKS];
    uint64_t pulled[MOST_RANKS][MOST_RANKS];
    uint32_t hops, buffer;
    uint64_t pushed_earlier[MOST_RANKS]; /* in all epochs before this one */
    uint64_t pulled_earlier[MOST_RANKS];
    bale_counts statistics[MOST_RANKS]; /* as they were reported before */
} group;

static group groups[GROUPS];
static uint64_t answers[32];

static void fail(const char *what, int64_t answer) {
    fprintf(stderr, "random_calls: %s: %lld %s\n", what, (long long)answer, bale_text((int32_t)answer));
    exit(1);
}

/* Only these answers may come, of which the list ends with 99. */
static void only(const char *what, int32_t answer, const int32_t *these) {
    answers[answer + 16]++;
    for (; *these != 99; these++)
        if (*these == answer)
            return;
    fail(what, answer);
}

#define ONLY(what, answer, ...) only(what, answer, (const int32_t[]){__VA_ARGS__, 99})

static bale_item item_of(group *g, uint32_t from, uint32_t to, uint64_t number) {
    bale_item item = {g->made * 1000 + from * 10 + to, g->epoch[from], number};
    return item;
}

static void came(group *g, uint32_t me, bale_item item, uint32_t from) {
    if (from >= g->many)
        fail("a sender that is none", from);
    bale_item wanted = item_of(g, from, me, g->pulled[me][from]++);
    if (item.a != wanted.a || item.b != g->epoch[me] || item.c != wanted.c)
        fail("another item than was pushed", (int64_t)item.c);
}

/* A rank that is complete pulled all that was pushed toward it, also by those that went on. */
static void whole(const group *g, uint32_t me) {
    for (uint32_t r = 0; r < g->many; r++)
        if (g->pulled[me][r] != (g->epoch[r] == g->epoch[me] ? g->pushed : g->pushed_before)[r][me])
            fail("lost", r);
}

/* The statistics of a rank: they only grow, and fit what it pushed and pulled. */
static void counted(group *g, uint32_t me, int32_t state) {
    bale_counts now = {1, 2, 3, 4}, was = g->statistics[me];
    int32_t answer = bale_statistics(&g->ranks[me], &now);
    ONLY("bale_statistics", answer, BALE_OK, BALE_GONE);
    if ((answer == BALE_GONE) != (state == BALE_GONE))
        fail("bale_statistics in another state", answer);
    if (answer == BALE_GONE) {
        if (now.buffers_sent != 1 || now.items_sent != 2 || now.buffers_received != 3 || now.items_received != 4)
            fail("bale_statistics wrote", answer);
        return;
    }
    uint64_t pushed = g->pushed_earlier[me], pulled = g->pulled_earlier[me];
    for (uint32_t r = 0; r < g->many; r++) {
        pushed += g->pushed[me][r];
        pulled += g->pulled[me][r];
    }
    if (now.buffers_sent < was.buffers_sent || now.items_sent < was.items_sent || now.buffers_received < was.buffers_received || now.items_received < was.items_received)
        fail("bale_statistics fell", 0);
    if (now.items_sent > g->buffer * now.buffers_sent || now.items_received > g->buffer * now.buffers_received)
        fail("bale_statistics of too full buffers", 0);
    if (now.items_received < pulled || (g->hops == 1 && now.items_sent > pushed))
        fail("bale_statistics of fewer items", 0);
    if (state == BALE_STATE_COMPLETE && (now.items_sent < pushed || (g->hops == 1 && (now.items_sent != pushed || now.items_received != pulled))))
        fail("bale_statistics of a complete epoch", 0);
    g->statistics[me] = now;
}

static void make_group(group *g) {
    static const uint32_t numbers[] = {0, 1, 2, 3, 4, 65, 7};
    uint32_t dims[4], ndims = below(5), buffer = 1u << below(11), slots = 1u << below(4);
    for (int k = 0; k < 4; k++)
        dims[k] = below(3) == 0 ? numbers[below(7)] : 1 + below(2);
    if (below(10) == 0)
        buffer = below(2000);
    if (below(10) == 0)
        slots = below(10);
    uint64_t product = 1;
    for (uint32_t k = 0; k < ndims; k++)
        product *= dims[k];
    /* Not so large that the test is slow, nor more ranks than it keeps an account of. */
    if (product > MOST_RANKS && product <= 64)
        return;
    if (buffer > 16 && below(50) != 0)
        buffer = 1u << below(5);
    bool was = g->handle.live;
    int32_t answer = bale_group_new(dims, ndims, buffer, slots, below(2) == 1, &g->handle);
    ONLY("bale_group_new", answer, BALE_OK, BALE_IN_USE, BALE_BAD_NUMBERS);
    if ((answer == BALE_IN_USE) != was)
        fail("bale_group_new where a group is", answer);
    if (answer == BALE_OK) {
        for (uint32_t r = 0; r < MOST_RANKS; r++)
            bale_rank_free(&g->ranks[r]);
        uint64_t made = g->made;
        bale_group handle = g->handle;
        *g = (group){0};
        g->handle = handle;
        g->made = made + 1;
        g->many = (uint32_t)product;
        g->hops = ndims;
        g->buffer = buffer;
    }
}

static void one_call(void) {
    group *g = &groups[below(GROUPS)];
    uint32_t me = g->many == 0 || below(20) == 0 ? below(MOST_RANKS) : below(g->many), from = 77;
    uint32_t to = g->many == 0 || below(20) == 0 ? below(MOST_RANKS + 1) : below(g->many);
    bale_rank *rank = &g->ranks[me];
    int32_t state = bale_phase(rank);
    if (state != BALE_GONE && (state < BALE_STATE_DORMANT || state > BALE_STATE_COMPLETE))
        fail("bale_phase", state);
    bale_item item = {5, 6, 7};
    switch (below(46)) {
    case 44:
    case 45:
        counted(g, me, state);
        break;
    case 40:
    case 41:
    case 42:
    case 43: {
        const bale_entry *entries;
        size_t count;
        int32_t answer = bale_view(rank, &entries, &count, &from);
        ONLY("bale_view", answer, BALE_OK, BALE_NONE, BALE_NOT_BEGUN, BALE_GONE);
        if ((answer == BALE_OK || answer == BALE_NONE) != (state > BALE_STATE_DORMANT))
            fail("bale_view in another state", answer);
        if ((answer == BALE_OK) != (count > 0))
            fail("bale_view of no entry", answer);
        /* What is pushed now leaves the entries as they are. */
        item = item_of(g, me, to, to < MOST_RANKS ? g->pushed[me][to] : 0);
        if (below(2) == 0 && bale_push(rank, &item, to) == BALE_OK)
            g->pushed[me][to]++;
        size_t taken = below(3) == 0 ? below((uint32_t)count + 1) : count;
        for (size_t k = 0; k < taken; k++)
            came(g, me, entries[k].item, from);
        if (below(4) == 0)
            ONLY("bale_pulled of too many", bale_pulled(rank, count + 1 + below(3)), BALE_NOT_LENT, BALE_NOT_BEGUN, BALE_GONE);
        int32_t pulled = bale_pulled(rank, taken);
        ONLY("bale_pulled", pulled, BALE_OK, BALE_NOT_BEGUN, BALE_GONE);
        if ((pulled == BALE_OK) != (state > BALE_STATE_DORMANT))
            fail("bale_pulled in another state", pulled);
        if (taken > 0 && below(4) == 0) {
            if (bale_unpull(rank) != BALE_OK)
                fail("bale_unpull after bale_pulled", 0);
            g->pulled[me][from]--;
        }
        break;
    }
    case 0:
        if (below(20) == 0 || (!g->handle.live && below(100) == 0))
            make_group(g);
        break;
    case 1:
        if (below(2000) == 0)
            ONLY("bale_group_free", bale_group_free(&g->handle), BALE_OK, BALE_GONE);
        break;
    case 2:
        if (below(2000) == 0) {
            ONLY("bale_rank_free", bale_rank_free(rank), BALE_OK, BALE_GONE);
            if (bale_rank_free(rank) != BALE_GONE)
                fail("bale_rank_free again", 0);
        }
        break;
    case 3:
    case 4:
        ONLY("bale_rank_new", bale_rank_new(&g->handle, me, rank), BALE_OK, BALE_IN_USE, BALE_GONE, BALE_NO_RANK, BALE_TAKEN);
        break;
    case 5:
    case 6:
    case 7: {
        int32_t answer = bale_begin(rank);
        ONLY("bale_begin", answer, BALE_OK, BALE_BEGUN, BALE_GONE);
        if ((answer == BALE_OK) != (state == BALE_STATE_DORMANT))
            fail("bale_begin in another state", answer);
        break;
    }
    case 8:
    case 9: {
        int32_t answer = bale_reset(rank);
        ONLY("bale_reset", answer, BALE_OK, BALE_NOT_COMPLETE, BALE_GONE);
        if ((answer == BALE_OK) != (state == BALE_STATE_COMPLETE))
            fail("bale_reset in another state", answer);
        if (answer == BALE_OK) {
            g->epoch[me]++;
            for (uint32_t r = 0; r < MOST_RANKS; r++) {
                g->pushed_earlier[me] += g->pushed[me][r];
                g->pulled_earlier[me] += g->pulled[me][r];
                g->pushed_before[me][r] = g->pushed[me][r];
                g->pushed[me][r] = g->pulled[me][r] = 0;
            }
        }
        break;
    }
    case 10:
    case 11:
    case 12:
    case 13:
    case 14:
    case 15: {
        bool done = below(state == BALE_STATE_WORKING ? 60 : 2) == 0 || (state > BALE_STATE_WORKING && below(20) != 0);
        int32_t answer = bale_advance(rank, done);
        ONLY("bale_advance", answer, BALE_MORE, BALE_NEAR, BALE_COMPLETE, BALE_NOT_BEGUN, BALE_SAID_DONE, BALE_GONE);
        if ((answer == BALE_SAID_DONE) != (state >= BALE_STATE_ENDGAME && !done))
            fail("bale_advance in another state", answer);
        if (answer == BALE_COMPLETE)
            whole(g, me);
        break;
    }
    case 16:
    case 17:
    case 18: {
        uint32_t many = below(MANY), number[MOST_RANKS + 1] = {0};
        bale_item items[MANY];
        uint32_t ranks[MANY];
        bool good = true;
        for (uint32_t k = 0; k < many; k++) {
            ranks[k] = below(300) == 0 ? MOST_RANKS + below(9) : g->many == 0 ? 0 : below(g->many);
            good &= ranks[k] < g->many;
            items[k] = item_of(g, me, ranks[k], ranks[k] < g->many ? g->pushed[me][ranks[k]] + number[ranks[k]]++ : 0);
        }
        int64_t pushed = bale_push_many(rank, items, many, ranks, many + below(3) * (many < MANY - 2));
        if (pushed < 0)
            ONLY("bale_push_many", (int32_t)pushed, BALE_NOT_BEGUN, BALE_SAID_DONE, BALE_NO_RANK, BALE_GONE);
        if ((pushed >= 0) != (state == BALE_STATE_WORKING && good) || pushed > many)
            fail("bale_push_many in another state", pushed);
        for (int64_t k = 0; k < pushed; k++)
            g->pushed[me][ranks[k]]++;
        if (pushed >= 0 && pushed < many && bale_push(rank, &items[pushed], ranks[pushed]) != BALE_FULL)
            fail("bale_push_many stopped where there was room", pushed);
        break;
    }
    case 19:
    case 20: {
        uint32_t many = below(MANY), senders[MANY];
        bale_item items[MANY];
        int64_t pulled = bale_pull_many(rank, items, many, senders, many);
        if (pulled < 0)
            ONLY("bale_pull_many", (int32_t)pulled, BALE_NOT_BEGUN, BALE_GONE);
        if ((pulled >= 0) != (state > BALE_STATE_DORMANT) || pulled > many)
            fail("bale_pull_many in another state", pulled);
        for (int64_t k = 0; k < pulled; k++)
            came(g, me, items[k], senders[k]);
        if (pulled >= 0 && pulled < many && bale_pull(rank, &item, &from) != BALE_NONE)
            fail("bale_pull_many left an item", pulled);
        if (pulled > 0 && pulled == many && below(2) == 0) {
            if (bale_unpull(rank) != BALE_OK)
                fail("bale_unpull after bale_pull_many", 0);
            g->pulled[me][senders[pulled - 1]]--;
        }
        break;
    }
    case 21:
    case 22:
    case 23:
    case 24:
    case 25:
    case 26: {
        int32_t answer = bale_pull(rank, &item, &from);
        ONLY("bale_pull", answer, BALE_OK, BALE_NONE, BALE_NOT_BEGUN, BALE_GONE);
        if ((answer == BALE_OK || answer == BALE_NONE) != (state > BALE_STATE_DORMANT))
            fail("bale_pull in another state", answer);
        if (answer != BALE_OK) {
            if (item.a != 5 || item.b != 6 || item.c != 7 || from != 77)
                fail("bale_pull wrote", answer);
        } else {
            came(g, me, item, from);
            if (below(4) == 0) {
                if (bale_unpull(rank) != BALE_OK)
                    fail("bale_unpull after bale_pull", 0);
                g->pulled[me][from]--;
                if (bale_unpull(rank) != BALE_NONE)
                    fail("bale_unpull twice", 0);
            }
        }
        break;
    }
    default: {
        item = item_of(g, me, to, to < MOST_RANKS ? g->pushed[me][to] : 0);
        int32_t answer = bale_push(rank, &item, to);
        ONLY("bale_push", answer, BALE_OK, BALE_FULL, BALE_NOT_BEGUN, BALE_SAID_DONE, BALE_NO_RANK, BALE_GONE);
        if ((answer == BALE_OK || answer == BALE_FULL) != (state == BALE_STATE_WORKING && to < g->many))
            fail("bale_push in another state", answer);
        if (answer == BALE_OK)
            g->pushed[me][to]++;
        break;
    }
    }
    if (bale_ranks(rank) != (rank->live ? g->many : 0))
        fail("bale_ranks", bale_ranks(rank));
}

/* What the program knows of a group of ranks for strings, as of one for items. If it is mixed, its
   rank 0 is one for items. */
typedef struct {
    bale_group handle;
    bale_elastic ranks[MOST_RANKS];
    bale_rank plain;
    bool mixed;
    uint32_t many;
    uint64_t made;
    uint64_t epoch[MOST_RANKS];
    uint64_t pushed[MOST_RANKS][MOST_RANKS];
    uint64_t pushed_before[MOST_RANKS][MOST_RANKS];
    uint64_t pulled[MOST_RANKS][MOST_RANKS];
} string_group;

static string_group strings;
static uint64_t string_bytes, strings_pulled;

/* The string with this number that a rank pushes toward another in an epoch: its bytes, and how
   many. */
static size_t string_of(const string_group *g, uint32_t from, uint32_t to, uint64_t epoch, uint64_t number, uint8_t *bytes) {
    uint64_t now = seed;
    seed = (((g->made * 10 + from) * 10 + to) * 1000 + epoch) * 0x9e3779b97f4a7c15u + number;
    uint32_t kind = below(200), first = below(256);
    size_t nbytes = kind == 0 ? LONGEST - below(3) : kind < 10 ? below(3000) : kind < 60 ? below(20) : below(80);
    for (size_t k = 0; k < nbytes; k++)
        bytes[k] = (uint8_t)(first + k * (1 + kind));
    seed = now;
    return nbytes;
}

static void string_came(string_group *g, uint32_t me, const uint8_t *bytes, size_t nbytes, uint32_t from) {
    static uint8_t wanted[LONGEST];
    if (from >= g->many)
        fail("a sender that is none", from);
    if (g->mixed && from == 0)
        return;
    size_t length = string_of(g, from, me, g->epoch[me], g->pulled[me][from]++, wanted);
    if (length != nbytes || memcmp(bytes, wanted, nbytes) != 0)
        fail("another string than was pushed", (int64_t)nbytes);
    string_bytes += nbytes;
    strings_pulled++;
}

static void all_strings(const string_group *g, uint32_t me) {
    for (uint32_t r = g->mixed; r < g->many; r++)
        if (g->pulled[me][r] != (g->epoch[r] == g->epoch[me] ? g->pushed : g->pushed_before)[r][me])
            fail("lost strings", r);
}

static void new_strings(string_group *g) {
    uint32_t dims[2] = {1 + below(3), 1 + below(2)}, ndims = 1 + below(2);
    bale_group_free(&g->handle);
    bale_rank_free(&g->plain);
    for (uint32_t r = 0; r < MOST_RANKS; r++)
        bale_elastic_free(&g->ranks[r]);
    uint64_t made = g->made;
    *g = (string_group){0};
    g->made = made + 1;
    g->many = dims[0] * (ndims == 2 ? dims[1] : 1);
    g->mixed = below(4) == 0;
    if (bale_group_new(dims, ndims, 1u << below(8), 1u << below(4), below(2) == 1, &g->handle) != BALE_OK)
        fail("bale_group_new of strings", 0);
}

/* Any call of the rank for items among those for strings. */
static void plain_call(string_group *g) {
    bale_item item = {((uint64_t)below(4) << 32) + below(below(2) == 0 ? 100 : 70000), below(9), below(9)};
    uint32_t from;
    switch (below(6)) {
    case 0:
        bale_rank_new(&g->handle, 0, &g->plain);
        break;
    case 1:
        bale_begin(&g->plain);
        break;
    case 2:
        if (bale_reset(&g->plain) == BALE_OK)
            g->epoch[0]++;
        break;
    case 3:
        bale_advance(&g->plain, below(20) == 0 || bale_phase(&g->plain) > BALE_STATE_WORKING);
        break;
    case 4:
        bale_pull(&g->plain, &item, &from);
        break;
    default:
        bale_push(&g->plain, &item, below(g->many));
        break;
    }
}

static void push_string(string_group *g, uint32_t me, uint32_t to, int32_t state) {
    static uint8_t bytes[LONGEST + 1];
    bool too_long = below(100) == 0;
    size_t nbytes = too_long ? LONGEST + 1 : to < g->many ? string_of(g, me, to, g->epoch[me], g->pushed[me][to], bytes) : 3;
    int32_t answer = bale_epush(&g->ranks[me], bytes, nbytes, to);
    ONLY("bale_epush", answer, BALE_OK, BALE_FULL, BALE_NOT_BEGUN, BALE_SAID_DONE, BALE_NO_RANK, BALE_TOO_LONG, BALE_GONE);
    bool works = state == BALE_STATE_WORKING && to < g->many;
    if ((answer == BALE_OK || answer == BALE_FULL) != (works && !too_long) || (answer == BALE_TOO_LONG) != (works && too_long))
        fail("bale_epush in another state", answer);
    if (answer == BALE_OK)
        g->pushed[me][to]++;
}

static void pull_string(string_group *g, uint32_t me, int32_t state) {
    const uint8_t *bytes;
    size_t nbytes;
    uint32_t from = 77;
    int32_t answer = bale_epull(&g->ranks[me], &bytes, &nbytes, &from);
    ONLY("bale_epull", answer, BALE_OK, BALE_NONE, BALE_NOT_BEGUN, BALE_GONE);
    if ((answer == BALE_OK || answer == BALE_NONE) != (state > BALE_STATE_DORMANT))
        fail("bale_epull in another state", answer);
    if (answer != BALE_OK && (nbytes != 0 || from != 77))
        fail("bale_epull wrote", answer);
    bale_string string = {bytes, 0};
    int32_t lent = bale_elastic_string(&g->ranks[me], &string);
    ONLY("bale_elastic_string", lent, BALE_OK, BALE_NONE, BALE_GONE);
    if (answer == BALE_OK && (lent != BALE_OK || string.bytes != bytes || string.nbytes != nbytes))
        fail("bale_elastic_string lends another", lent);
    if (answer == BALE_NONE && lent != BALE_NONE)
        fail("bale_elastic_string after no string", lent);
    if (answer == BALE_OK)
        string_came(g, me, bytes, nbytes, from);
}

/* Any call of a rank for strings. */
static void rank_call(string_group *g, uint32_t me, uint32_t to) {
    bale_elastic *rank = &g->ranks[me];
    int32_t state = bale_elastic_phase(rank), answer;
    switch (below(16)) {
    case 0:
        answer = bale_elastic_new(&g->handle, me, rank);
        ONLY("bale_elastic_new", answer, BALE_OK, BALE_IN_USE);
        if ((answer == BALE_OK) != (state == BALE_GONE))
            fail("bale_elastic_new in another state", answer);
        break;
    case 1:
        answer = bale_elastic_begin(rank);
        ONLY("bale_elastic_begin", answer, BALE_OK, BALE_BEGUN, BALE_GONE);
        if ((answer == BALE_OK) != (state == BALE_STATE_DORMANT))
            fail("bale_elastic_begin in another state", answer);
        break;
    case 2:
        answer = bale_elastic_reset(rank);
        ONLY("bale_elastic_reset", answer, BALE_OK, BALE_NOT_COMPLETE, BALE_GONE);
        if ((answer == BALE_OK) != (state == BALE_STATE_COMPLETE))
            fail("bale_elastic_reset in another state", answer);
        if (answer == BALE_OK) {
            g->epoch[me]++;
            for (uint32_t r = 0; r < MOST_RANKS; r++) {
                g->pushed_before[me][r] = g->pushed[me][r];
                g->pushed[me][r] = g->pulled[me][r] = 0;
            }
        }
        break;
    case 3:
    case 4:
    case 5:
    case 6:
    case 7: {
        bool done = below(state == BALE_STATE_WORKING ? 40 : 2) == 0 || (state > BALE_STATE_WORKING && below(20) != 0);
        answer = bale_elastic_advance(rank, done);
        ONLY("bale_elastic_advance", answer, BALE_MORE, BALE_NEAR, BALE_COMPLETE, BALE_NOT_BEGUN, BALE_SAID_DONE, BALE_GONE);
        if ((answer == BALE_SAID_DONE) != (state >= BALE_STATE_ENDGAME && !done))
            fail("bale_elastic_advance in another state", answer);
        if (answer == BALE_COMPLETE)
            all_strings(g, me);
        break;
    }
    case 8:
    case 9:
    case 10:
    case 11:
        pull_string(g, me, state);
        break;
    default:
        push_string(g, me, to, state);
        break;
    }
    if (bale_elastic_ranks(rank) != (rank->live ? g->many : 0))
        fail("bale_elastic_ranks", bale_elastic_ranks(rank));
}

static void string_call(void) {
    string_group *g = &strings;
    if (g->many == 0 || below(60000) == 0)
        new_strings(g);
    uint32_t me = below(g->many), to = below(40) == 0 ? 9 : below(g->many);
    if (g->mixed && me == 0)
        plain_call(g);
    else
        rank_call(g, me, to);
}

int main(int argc, char **argv) {
    unsigned long calls = argc > 1 ? strtoul(argv[1], NULL, 10) : 2000000;
    if (argc > 2)
        seed = strtoull(argv[2], NULL, 10);
    for (unsigned long k = 0; k < calls; k++)
        if (k % 3 == 0)
            string_call();
        else
            one_call();
    for (int g = 0; g < GROUPS; g++) {
        for (uint32_t r = 0; r < MOST_RANKS; r++)
            bale_rank_free(&groups[g].ranks[r]);
        bale_group_free(&groups[g].handle);
    }
    new_strings(&strings);
    bale_group_free(&strings.handle);
    printf("random_calls: %lu calls, of these answered:\n", calls);
    for (int32_t a = -13; a <= 5; a++)
        printf("  %3d %9llu  %s\n", a, (unsigned long long)answers[a + 16], bale_text(a));
    printf("  strings pulled: %llu, of %llu bytes\n", (unsigned long long)strings_pulled, (unsigned long long)string_bytes);
    if (strings_pulled == 0 && calls >= 1000000)
        fail("no string was pulled", 0);
    if (answers[BALE_OK + 16] == 0 || answers[BALE_COMPLETE + 16] == 0)
        fail("no epoch was completed", 0);
    return 0;
}
