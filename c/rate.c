/* How many million items a second ranks on threads exchange, through this library one item a call,
   many a call and by a view, and through two exchanges written in C for this purpose alone. The one
   by hand: for each pair of ranks two slots and two counters, entries with a tag, buffers handed
   over by their pointers, and no step that is sequentially consistent. The protocol: the steps of
   docs/SLOT_LINKS.md, which the library makes too, with its doorbells, in plain C. If
   crates/measure_threads is built, it runs beside them, over the same conveyors without C. By each
   way each rank does the same: it sends so many items to the ranks and cells of a table, drawn by a
   random sequence before, and counts what comes in its 1,024 cells. The ways take turns, so that
   what else the machine does is shared out; the first turn isn't measured. Median and best of the
   others.
   rate [items a rank, 4,000,000 [turns, 7 [ranks [buffer [way]]]]]; with ranks, buffer and way (0
   by hand, 1 the protocol, 2 one a call, 3 many a call, 4 pushes of many and views, 5
   measure_threads) that alone. */
#define _POSIX_C_SOURCE 200809L
#include "bale.h"
#include <pthread.h>
#include <sched.h>
#include <stdatomic.h>
#include <stdio.h>
#include <stdlib.h>
#include <time.h>

enum { MOST = 64, MOST_TURNS = 99, AT_ONCE = 1024, CELLS = 1024, WAYS = 6 };

static uint32_t many, capacity, items_each = 4000000;
static int turns = 7;
static const char *beside = NULL; /* measure_threads's program */

/* What each rank has to do, and what came for it. */
typedef struct {
    uint32_t to, cell;
} target;

typedef struct {
    _Alignas(128) target *targets;
    uint64_t *counts, check;
} part;

static part parts[MOST];

static inline uint32_t next_of(uint64_t *seed, uint32_t below) {
    *seed = *seed * 6364136223846793005u + 1442695040888963407u;
    return (uint32_t)(((*seed >> 33) * below) >> 31);
}

static inline bale_item item_of(target aim, uint32_t number) {
    return (bale_item){aim.cell, 1, number};
}

static inline void count(uint64_t *counts, uint64_t *check, uint32_t from, const bale_item *item) {
    if (from < many && item->a < CELLS) {
        counts[item->a] += item->b;
        *check += item->c;
    }
}

/* The exchange by hand. */
typedef struct {
    uint32_t tag;
    bale_item item;
} hand_entry;

typedef struct {
    uint32_t count;
    bool last;
    hand_entry *entries;
} hand_buffer;

typedef struct {
    _Alignas(64) _Atomic uint64_t posted;
    _Alignas(64) _Atomic uint64_t taken;
    _Alignas(64) hand_buffer slots[2];
} hand_link;

static hand_link *links;

static hand_buffer new_buffer(void) {
    hand_buffer b = {0, false, malloc(capacity * sizeof(hand_entry))};
    if (b.entries == NULL)
        exit(1);
    return b;
}

static void *by_hand(void *arg) {
    uint32_t me = (uint32_t)(size_t)arg, all = items_each, at = 0, ended = 0;
    const target *targets = parts[me].targets;
    uint64_t *counts = parts[me].counts, check = 0, posted[MOST] = {0}, taken[MOST] = {0};
    bool closed[MOST] = {false}, over[MOST] = {false};
    hand_buffer open[MOST], at_hand[MOST];
    for (uint32_t r = 0; r < many; r++) {
        open[r] = new_buffer();
        at_hand[r] = new_buffer();
    }
    uint32_t unsent = many;
    while (ended < many || unsent > 0) {
        bool moved = false;
        for (hand_buffer *to; at < all && (to = &open[targets[at].to])->count < capacity; at++) {
            moved = true;
            to->entries[to->count++] = (hand_entry){me, item_of(targets[at], at)};
        }
        for (uint32_t r = 0; r < many; r++) {
            hand_link *out = &links[me * many + r];
            if (!closed[r] && (open[r].count == capacity || at == all) &&
                posted[r] - atomic_load_explicit(&out->taken, memory_order_acquire) < 2) {
                hand_buffer *slot = &out->slots[posted[r] % 2], spare = *slot;
                moved = true;
                open[r].last = at == all;
                *slot = open[r];
                closed[r] = at == all;
                unsent -= closed[r];
                spare.count = 0;
                spare.last = false;
                open[r] = spare;
                atomic_store_explicit(&out->posted, ++posted[r], memory_order_release);
            }
            hand_link *in = &links[r * many + me];
            if (!over[r] && atomic_load_explicit(&in->posted, memory_order_acquire) > taken[r]) {
                hand_buffer *slot = &in->slots[taken[r] % 2], got = *slot;
                moved = true;
                *slot = at_hand[r];
                atomic_store_explicit(&in->taken, ++taken[r], memory_order_release);
                for (uint32_t k = 0; k < got.count; k++)
                    count(counts, &check, got.entries[k].tag, &got.entries[k].item);
                over[r] = got.last;
                ended += got.last;
                got.count = 0;
                at_hand[r] = got;
            }
        }
        /* Whoever moved nothing gives its processor away. */
        if (!moved)
            sched_yield();
    }
    for (uint32_t r = 0; r < many; r++) {
        free(open[r].entries);
        free(at_hand[r].entries);
    }
    parts[me].check = check;
    return NULL;
}

/* The protocol: words and slots on lines of their own, each step on a word sequentially consistent. */
typedef struct {
    _Alignas(128) _Atomic uint64_t value;
} word;

typedef struct {
    _Alignas(128) hand_buffer buffer;
} place;

static word *posted_of, *released_of; /* by link */
static word *bell_of;                 /* by reader, a bit for each sender */
static place *places;                 /* two a link */

/* What a rank knows of a link out: parcels posted, and slots that it may use. */
typedef struct {
    uint64_t sent;
    uint32_t room;
} out_end;

/* What it knows of a link in: parcels taken, parcels seen and not taken, and how often it had heard
   when it found none. */
typedef struct {
    uint64_t taken, noted;
    uint32_t seen;
} in_end;

/* The bits that it heard and has not looked after, and how often it heard. */
typedef struct {
    uint64_t marks, hears;
} ear;

static inline void swap(hand_buffer *a, hand_buffer *b) {
    hand_buffer t = *a;
    *a = *b;
    *b = t;
}

static inline bool post(uint32_t from, uint32_t to, out_end *end, hand_buffer *buffer) {
    uint32_t link = from * many + to;
    uint64_t bit = UINT64_C(1) << from;
    if (end->room == 0)
        end->room = 2 - (uint32_t)(end->sent - atomic_load(&released_of[link].value));
    if (end->room == 0)
        return false;
    swap(&places[2 * link + end->sent % 2].buffer, buffer);
    atomic_fetch_add(&posted_of[link].value, 1);
    if ((atomic_load(&bell_of[to].value) & bit) == 0)
        atomic_fetch_or(&bell_of[to].value, bit);
    end->sent++;
    end->room--;
    return true;
}

static inline bool collect(uint32_t from, uint32_t to, in_end *end, ear *heard, hand_buffer *buffer) {
    uint32_t link = from * many + to;
    uint64_t bit = UINT64_C(1) << from;
    if (end->seen == 0) {
        if ((heard->marks & bit) == 0 && heard->hears <= end->noted) {
            if (atomic_load(&bell_of[to].value) != 0)
                heard->marks |= atomic_exchange(&bell_of[to].value, 0);
            heard->hears++;
        }
        if ((heard->marks & bit) != 0) {
            end->seen = (uint32_t)(atomic_load(&posted_of[link].value) - end->taken);
            heard->marks ^= bit;
        }
        end->noted = heard->hears;
        if (end->seen == 0)
            return false;
    }
    swap(&places[2 * link + end->taken % 2].buffer, buffer);
    atomic_fetch_add(&released_of[link].value, 1);
    end->taken++;
    end->seen--;
    return true;
}

static void *by_protocol(void *arg) {
    uint32_t me = (uint32_t)(size_t)arg, all = items_each, at = 0, unsent = many, unended = many;
    const target *targets = parts[me].targets;
    uint64_t *counts = parts[me].counts, check = 0;
    hand_buffer open[MOST], came = new_buffer();
    bool closed[MOST] = {false}, over[MOST] = {false};
    out_end outs[MOST] = {{0, 0}};
    in_end ins[MOST] = {{0, 0, 0}};
    ear heard = {0, 0};
    for (uint32_t r = 0; r < many; r++)
        open[r] = new_buffer();
    while (unsent > 0 || unended > 0) {
        bool moved = false;
        for (hand_buffer *to; at < all && (to = &open[targets[at].to])->count < capacity; at++) {
            moved = true;
            to->entries[to->count++] = (hand_entry){me, item_of(targets[at], at)};
        }
        for (uint32_t r = 0; r < many; r++)
            if (!over[r] && collect(r, me, &ins[r], &heard, &came)) {
                moved = true;
                for (uint32_t k = 0; k < came.count; k++)
                    count(counts, &check, came.entries[k].tag, &came.entries[k].item);
                over[r] = came.last;
                unended -= came.last;
                came.count = 0;
                came.last = false;
            }
        for (uint32_t r = 0; r < many; r++)
            if (!closed[r] && (at == all || open[r].count == capacity)) {
                open[r].last = at == all;
                if (!post(me, r, &outs[r], &open[r]))
                    continue;
                moved = true;
                closed[r] = at == all;
                unsent -= closed[r];
                open[r].count = 0;
                open[r].last = false;
            }
        if (!moved)
            sched_yield();
    }
    for (uint32_t r = 0; r < many; r++)
        free(open[r].entries);
    free(came.entries);
    parts[me].check = check;
    return NULL;
}

static void *lines_of(size_t size, size_t count) {
    char *lines = aligned_alloc(128, size * count);
    if (lines == NULL)
        exit(1);
    return lines;
}

static void make_protocol(void) {
    uint32_t all = many * many;
    posted_of = lines_of(sizeof(word), all);
    released_of = lines_of(sizeof(word), all);
    bell_of = lines_of(sizeof(word), many);
    places = lines_of(sizeof(place), 2 * (size_t)all);
    for (uint32_t l = 0; l < all; l++) {
        atomic_init(&posted_of[l].value, 0);
        atomic_init(&released_of[l].value, 0);
    }
    for (uint32_t r = 0; r < many; r++)
        atomic_init(&bell_of[r].value, 0);
    for (uint32_t s = 0; s < 2 * all; s++)
        places[s].buffer = new_buffer();
}

static void free_protocol(void) {
    for (uint32_t s = 0; s < 2 * many * many; s++)
        free(places[s].buffer.entries);
    free(places);
    free(bell_of);
    free(released_of);
    free(posted_of);
}

/* Through the library. */
static bale_rank ranks[MOST];

static void *one_a_call(void *arg) {
    uint32_t me = (uint32_t)(size_t)arg, all = items_each, at = 0, from;
    const target *targets = parts[me].targets;
    uint64_t *counts = parts[me].counts, check = 0;
    bale_rank *rank = &ranks[me];
    bale_begin(rank);
    int32_t state = BALE_MORE;
    while (state != BALE_COMPLETE) {
        bool moved = false;
        for (; at < all; at++) {
            bale_item item = item_of(targets[at], at);
            if (bale_push(rank, &item, targets[at].to) != BALE_OK)
                break;
            moved = true;
        }
        state = bale_advance(rank, at == all);
        bale_item item;
        while (bale_pull(rank, &item, &from) == BALE_OK) {
            count(counts, &check, from, &item);
            moved = true;
        }
        if (!moved)
            sched_yield();
    }
    parts[me].check = check;
    return NULL;
}

static inline void *many_pushed(void *arg, bool views) {
    uint32_t me = (uint32_t)(size_t)arg, all = items_each, at = 0;
    const target *targets = parts[me].targets;
    uint64_t *counts = parts[me].counts, check = 0;
    bale_rank *rank = &ranks[me];
    bale_item items[AT_ONCE], came[AT_ONCE];
    uint32_t to[AT_ONCE], from[AT_ONCE], ready = 0, start = 0;
    /* As many as all open buffers hold, since each call looks at all that it is given. */
    uint32_t at_once = capacity * many < AT_ONCE ? capacity * many : AT_ONCE;
    bale_begin(rank);
    int32_t state = BALE_MORE;
    while (state != BALE_COMPLETE) {
        bool moved = false;
        while (at < all || start < ready) {
            if (start == ready) {
                start = 0;
                for (ready = 0; ready < at_once && at < all; ready++, at++) {
                    to[ready] = targets[at].to;
                    items[ready] = item_of(targets[at], at);
                }
            }
            int64_t pushed = bale_push_many(rank, items + start, ready - start, to + start, ready - start);
            if (pushed < 0)
                exit(1);
            start += (uint32_t)pushed;
            moved |= pushed > 0;
            if (start < ready)
                break;
        }
        state = bale_advance(rank, at == all && start == ready);
        const bale_entry *entries;
        size_t lent;
        uint32_t sender;
        while (views && bale_view(rank, &entries, &lent, &sender) == BALE_OK) {
            for (size_t k = 0; k < lent; k++)
                count(counts, &check, sender, &entries[k].item);
            bale_pulled(rank, lent);
            moved = true;
        }
        int64_t pulled;
        while (!views && (pulled = bale_pull_many(rank, came, AT_ONCE, from, AT_ONCE)) > 0) {
            for (int64_t k = 0; k < pulled; k++)
                count(counts, &check, from[k], &came[k]);
            moved = true;
        }
        if (!moved)
            sched_yield();
    }
    parts[me].check = check;
    return NULL;
}

static void *many_a_call(void *arg) {
    return many_pushed(arg, false);
}

static void *by_view(void *arg) {
    return many_pushed(arg, true);
}

static void *memory_of(size_t size) {
    void *memory = malloc(size);
    if (memory == NULL)
        exit(1);
    return memory;
}

/* Draws the targets of a rank, and touches all memory of its part. */
static void begin_part(uint32_t rank) {
    uint64_t seed = rank + 1;
    part *p = &parts[rank];
    p->targets = memory_of(items_each * sizeof(target));
    p->counts = memory_of(CELLS * sizeof(uint64_t));
    for (uint32_t i = 0; i < items_each; i++) {
        p->targets[i].to = next_of(&seed, many);
        p->targets[i].cell = next_of(&seed, CELLS);
    }
    for (uint32_t c = 0; c < CELLS; c++)
        p->counts[c] = 0;
}

/* A number of what came for a rank, whose part is over. */
static uint64_t sum_of(uint32_t rank) {
    part *p = &parts[rank];
    uint64_t sum = p->check;
    for (uint64_t c = 0; c < CELLS; c++)
        sum += p->counts[c] * (rank * (uint64_t)CELLS + c + 1);
    free(p->targets);
    free(p->counts);
    return sum;
}

static double seconds(void) {
    struct timespec t;
    timespec_get(&t, TIME_UTC);
    return (double)t.tv_sec + 1e-9 * (double)t.tv_nsec;
}

static double one_run(void *(*work)(void *)) {
    pthread_t threads[MOST];
    bale_group group = {0};
    uint32_t dims[1] = {many};
    links = NULL;
    if (work == by_hand) {
        links = aligned_alloc(64, sizeof(hand_link) * many * many);
        if (links == NULL)
            exit(1);
        for (uint32_t l = 0; l < many * many; l++) {
            atomic_init(&links[l].posted, 0);
            atomic_init(&links[l].taken, 0);
            for (int k = 0; k < 2; k++)
                links[l].slots[k] = new_buffer();
        }
    } else if (work == by_protocol) {
        make_protocol();
    } else {
        if (bale_group_new(dims, 1, capacity, 2, false, &group) != BALE_OK)
            exit(1);
        for (uint32_t r = 0; r < many; r++)
            if (bale_rank_new(&group, r, &ranks[r]) != BALE_OK)
                exit(1);
    }
    double start = seconds();
    for (size_t r = 0; r < many; r++)
        if (pthread_create(&threads[r], NULL, work, (void *)r) != 0)
            exit(1);
    for (uint32_t r = 0; r < many; r++)
        pthread_join(threads[r], NULL);
    double took = seconds() - start;
    if (links != NULL) {
        for (uint32_t l = 0; l < many * many; l++)
            for (int k = 0; k < 2; k++)
                free(links[l].slots[k].entries);
        free(links);
    } else if (work == by_protocol) {
        free_protocol();
    } else {
        for (uint32_t r = 0; r < many; r++)
            bale_rank_free(&ranks[r]);
        bale_group_free(&group);
    }
    return (double)items_each * many / took / 1e6;
}

/* measure_threads's own answer, of its second run. */
static double from_beside(void) {
    char command[4096], line[128];
    double rate = 0;
    snprintf(command, sizeof command, "'%s' %u %u %u 1", beside, many, items_each, capacity);
    FILE *said = popen(command, "r");
    if (said == NULL)
        exit(1);
    while (fgets(line, sizeof line, said) != NULL)
        if (sscanf(line, "items_per_second %lf", &rate) == 1)
            rate /= 1e6;
    if (pclose(said) != 0 || rate == 0) {
        fprintf(stderr, "rate: %s gave no rate\n", beside);
        exit(1);
    }
    return rate;
}

static int by_value(const void *a, const void *b) {
    double x = *(const double *)a, y = *(const double *)b;
    return x < y ? -1 : x > y;
}

/* One turn of one way; what came must be the same by each. */
static double turn_of(int way, uint64_t *wanted) {
    static void *(*const works[])(void *) = {by_hand, by_protocol, one_a_call, many_a_call, by_view};
    if (way == WAYS - 1)
        return from_beside();
    for (uint32_t r = 0; r < many; r++)
        begin_part(r);
    double rate = one_run(works[way]);
    uint64_t sum = 0;
    for (uint32_t r = 0; r < many; r++)
        sum += sum_of(r);
    if (*wanted == 0)
        *wanted = sum;
    else if (sum != *wanted) {
        fprintf(stderr, "rate: another sum than by hand\n");
        exit(1);
    }
    return rate;
}

static void line_of(uint32_t ranks_now, uint32_t capacity_now) {
    double rates[WAYS][MOST_TURNS];
    uint64_t wanted = 0;
    int ways = beside == NULL ? WAYS - 1 : WAYS;
    uint32_t all = items_each;
    many = ranks_now;
    capacity = capacity_now;
    /* One item a buffer is slow, so fewer are sent. */
    if (capacity == 1)
        items_each = all / 16 + 1;
    for (int turn = -1; turn < turns; turn++)
        for (int way = 0; way < ways; way++) {
            double rate = turn_of(way, &wanted);
            if (turn >= 0)
                rates[way][turn] = rate;
        }
    printf("%5u %6u", many, capacity);
    for (int way = 0; way < ways; way++) {
        qsort(rates[way], (size_t)turns, sizeof(double), by_value);
        printf("  %6.1f / %6.1f", rates[way][turns / 2], rates[way][turns - 1]);
    }
    printf("\n");
    fflush(stdout);
    items_each = all;
}

int main(int argc, char **argv) {
    unsigned long numbers[5] = {items_each, (unsigned long)turns, 0, 0, 0};
    for (int k = 1; k < argc && k <= 5; k++)
        numbers[k - 1] = strtoul(argv[k], NULL, 10);
    if (numbers[0] == 0 || numbers[0] > UINT32_MAX || numbers[1] < 1 || numbers[1] > MOST_TURNS || numbers[2] > MOST || numbers[4] >= WAYS)
        return 2;
    items_each = (uint32_t)numbers[0];
    turns = (int)numbers[1];
    beside = getenv("MEASURE_THREADS");
    if (beside != NULL && *beside == '\0')
        beside = NULL;
    if (argc > 5) {
        uint64_t wanted = 0;
        many = (uint32_t)numbers[2];
        capacity = (uint32_t)numbers[3];
        for (int turn = 0; turn < turns; turn++)
            printf("%.1f\n", turn_of((int)numbers[4], &wanted));
        return 0;
    }
    static const uint32_t ranks_of[] = {4, 2}, capacities[] = {1, 8, 64, 1024};
    printf("million items a second, median / best of %d turns of %u items a rank (a sixteenth at buffer 1)\n", turns, items_each);
    if (beside == NULL)
        printf("measure_threads isn't built: (cd crates/measure_threads && rt run) builds it\n");
    printf("ranks buffer        C by hand   the protocol      one a call     many a call          a view%s\n", beside == NULL ? "" : "   measure_threads");
    fflush(stdout);
    for (int p = 0; p < 2; p++)
        for (int c = 0; c < 4; c++)
            line_of(ranks_of[p], capacities[c]);
    return 0;
}
