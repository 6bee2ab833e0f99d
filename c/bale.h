/* bale conveyors for C: many ranks exchange small items, with nothing lost, nothing doubled and
   each sender's order kept.

   A rank pushes items toward other ranks, advances the exchange now and then, and pulls what came
   for it. Items for the same next stop travel together in buffers. Ranks are threads of your own;
   each has one handle, and no call waits for another thread.

   A whole program: four ranks count how often each rank is named.

       #include "bale.h"
       #include <pthread.h>
       #include <sched.h>
       #include <stdio.h>
       #include <stdlib.h>

       static bale_group group;
       static bale_rank ranks[4];
       static uint64_t counts[4];

       static void *work(void *arg) {
           uint32_t me = (uint32_t)(size_t)arg, next = me, left = 1000, from;
           bale_rank *rank = &ranks[me];
           bale_item item = {0};
           int32_t answer = bale_begin(rank);
           while (answer >= 0 && answer != BALE_COMPLETE) {
               while (left > 0 && (answer = bale_push(rank, &item, next % 4)) == BALE_OK) {
                   next = next * 5 + 1;
                   left--;
               }
               if (answer >= 0)
                   answer = bale_advance(rank, left == 0);
               while (bale_pull(rank, &item, &from) == BALE_OK)
                   counts[me]++;
               sched_yield();
           }
           if (answer < 0) {
               fprintf(stderr, "rank %u: %s\n", me, bale_text(answer));
               exit(1);
           }
           bale_rank_free(rank);
           return NULL;
       }

       int main(void) {
           uint32_t dims[1] = {4};
           pthread_t threads[4];
           if (bale_group_new(dims, 1, 64, 2, false, &group) != BALE_OK)
               return 1;
           for (uint32_t r = 0; r < 4; r++)
               if (bale_rank_new(&group, r, &ranks[r]) != BALE_OK)
                   return 1;
           for (size_t r = 0; r < 4; r++)
               pthread_create(&threads[r], NULL, work, (void *)r);
           for (int r = 0; r < 4; r++)
               pthread_join(threads[r], NULL);
           bale_group_free(&group);
           for (int r = 0; r < 4; r++)
               printf("rank %d was named %llu times\n", r, (unsigned long long)counts[r]);
       }

   Build it with: cc program.c libbale_c.a -pthread (or, once installed, with pkg-config --cflags
   --libs bale_c). bale_run.h has helpers that make this program shorter.

   The states of a rank, the calls that are no misuse in each, and the states that they lead to:

       state      what it means                                 calls, and the state after them
       DORMANT    the epoch has not begun                       begin -> WORKING
       WORKING    items may be pushed                           push, pull, view, pulled;
                                                                advance(false) -> WORKING;
                                                                advance(true) -> ENDGAME or CLEANUP
       ENDGAME    it said done; buffers are still to be sent    pull, view, pulled; advance(true)
                                                                -> ENDGAME, CLEANUP or COMPLETE
       CLEANUP    all it had is sent; items come or wait        pull, view, pulled; advance(true)
                                                                -> CLEANUP or COMPLETE
       COMPLETE   every rank said done, and all that was        reset -> DORMANT, an epoch later;
                  pushed toward this rank was pulled            pull and view find nothing, and
                                                                advance(true) stays

   bale_phase reports them as BALE_STATE_DORMANT to BALE_STATE_COMPLETE.

   unpull, ranks, phase and statistics are no misuse in any state. Every call tests what it needs:
   misuse is answered by a code below 0, and changes nothing.

   A rank is made for items, as above, or for strings: bale_elastic_new makes a bale_elastic, which
   has the same states. Its calls are those with a name of their own, in this file below; epush is
   no misuse where push is, epull and the other calls where pull and those of the same name are.
   bale_elastic_advance(true) is answered BALE_MORE, and the rank stays WORKING, as long as a part of
   the latest string has found no room in the buffers.

   What is proved. Each call's contract (crates/bale_c/src/group_calls.rt, rank_calls.rt) says
   exactly when each answer comes, and which step of the exchange machine the call made: a Push
   appends the item to what this rank pushed toward that one, a Pull takes the item that the sender
   pushed next, an Unpull takes it back, Done and Complete end the epoch, and Idle changes nothing
   but that nothing can be put back. The machine has two lists for each epoch and pair of ranks, and
   knows no buffers and no routes: one page, crates/port_bank/specs/Machine.antt. docs/PROVED.md
   says what follows for all ranks together.

   Memory order. You may send pointers.
   - A push synchronizes with the pull that takes its item: what the sender did before the push
     happens before what the receiver does after the pull, in C11's sense, whatever the route.
   - What any rank did before its first advance(true) of an epoch happens before what every rank
     does after its BALE_COMPLETE of that epoch. What a rank does after its first advance(true) is
     not ordered by that epoch: if others read your array after their BALE_COMPLETE, change it only
     after one more epoch.
   - A rank may reset and begin while other ranks are still in the epoch before; no barrier is
     needed. What it pushes in the new epoch is pulled in the receiver's new epoch.
   The reason: ranks share memory only through words on which every step is a sequentially
   consistent atomic, and each buffer belongs to the rank that such a step gave it to.
   ThreadSanitizer does not see these steps, since the library is not instrumented, and reports
   races that are none. Tell it of them: __tsan_release(p) before the push of a pointer p, and
   __tsan_acquire(p) after its pull.

   What you owe. C is not checked, so the contracts hold where the program keeps to this:
   - A handle begins as zeros: bale_rank rank = {0}. Its bytes are this library's: they are not
     copied while it is live, changed or compared.
   - A handle is used by one call at a time. It may move to another thread by anything that makes
     the last call on the old thread happen before the first call on the new one, in C11's sense: a
     thread's start or join, a lock, a release store and the acquire load that reads it. Different
     handles may be used at once, also of one group; group and ranks may be freed in any order.
   - Pointers are valid for what the call reads and writes, and not NULL (also for 0 items); an
     array is as long as the number after it; what one call writes overlaps nothing else that it was
     given. A bool is 0 or 1.
   - No call comes from a signal handler, or from the forked child of a process with threads.
   - malloc, realloc and free are one allocator, which aligns as C's does. (The library takes memory
     through three weak functions over them, rattle_alloc, rattle_realloc and rattle_dealloc of
     heap.c. A program may define all three itself, and then they are to do what heap.c's do.)
   Ranks that have nothing to do should give their processor away (sched_yield), above all where
   there are more ranks than processors. */
#ifndef BALE_H
#define BALE_H

#include <stdbool.h>
#include <stddef.h>
#include <stdint.h>

#ifdef __cplusplus
extern "C" {
#endif

/* The version of this header; bale_version() is that of the library. */
#define BALE_VERSION "1"

/* What a call answers. From 0 up it is no misuse. */
enum {
    BALE_OK = 0,       /* it is done */
    BALE_FULL = 1,     /* push, epush: there is no room now; advance, and push again */
    BALE_NONE = 2,     /* pull, epull: nothing came that was not pulled; unpull: nothing to put back */
    BALE_MORE = 3,     /* advance: items may still be pushed, or buffers are still to be sent */
    BALE_NEAR = 4,     /* advance: all is sent; items are still to come or to be pulled */
    BALE_COMPLETE = 5, /* advance: the epoch is over for this rank */

    BALE_NO_MEMORY = -1, /* nothing changed; the call may be made again */

    BALE_NOT_BEGUN = -2,    /* the epoch has not begun */
    BALE_BEGUN = -3,        /* begin: the epoch has begun already */
    BALE_SAID_DONE = -4,    /* push, advance(false): the rank said that it is done */
    BALE_NO_RANK = -5,      /* no rank has this number */
    BALE_NOT_COMPLETE = -6, /* reset: the epoch isn't over for this rank */
    BALE_GONE = -7,         /* the handle is empty, or was freed */
    BALE_BAD_NUMBERS = -8,  /* group_new: no grid, no capacity, or no number of slots */
    BALE_IN_USE = -9,       /* new: the handle that is to be made is live */
    BALE_TAKEN = -10,       /* rank_new: this rank of the group was made before */
    BALE_LAST_EPOCH = -11,  /* reset: 2^63 epochs are over, and no number is left for another */
    BALE_NOT_LENT = -12,    /* pulled: a view lends fewer items now */
    BALE_TOO_LONG = -13     /* epush: a string has at most 65,535 bytes */
};

/* The states of a rank, as bale_phase reports them. No state has the number of an answer. */
enum {
    BALE_STATE_DORMANT = 100,
    BALE_STATE_WORKING = 101,
    BALE_STATE_ENDGAME = 102,
    BALE_STATE_CLEANUP = 103,
    BALE_STATE_COMPLETE = 104
};

/* An item: three words, whose meaning is the program's own. */
typedef struct {
    uint64_t a;
    uint64_t b;
    uint64_t c;
} bale_item;

/* An item in the buffer in which it came. way is the library's own. */
typedef struct {
    uint8_t way[3];
    bale_item item;
} bale_entry;

/* Entries that a rank lends, and the rank that pushed their items. */
typedef struct {
    const bale_entry *entries;
    size_t count;
    uint32_t from;
} bale_lent;

/* What a rank sent and received since it was made, in all its epochs. */
typedef struct {
    uint64_t buffers_sent;
    uint64_t items_sent; /* the items in these buffers */
    uint64_t buffers_received;
    uint64_t items_received;
} bale_counts;

/* The handles. They begin as zeros; their members are this library's. */
typedef struct {
    void *at;
    bool live;
} bale_group;

typedef struct {
    void *at;
    bool live;
    uint64_t unused[14]; /* so that the ranks of an array share no cache line */
} bale_rank;

typedef struct {
    void *at;
    bool live;
    uint64_t unused[14];
} bale_elastic;

/* The bytes of a string that a rank lends. */
typedef struct {
    const uint8_t *bytes;
    size_t nbytes;
} bale_string;

/* Makes a group: the memory that its ranks share, all of it at once.

   dims, ndims   a grid of one to three positive numbers with a product of at most 64, the number
                 of ranks. With one number an item goes straight to its rank; with two or three it
                 takes as many hops, and each rank has fewer, fuller buffers.
   buffer        how many items travel together: a power of two from 1 to 1,024.
   slots         how many buffers a link holds: 1, 2, 4 or 8.
   steady        whether advance sends what there is, or waits until a buffer is full or the rank
                 is done.

   BALE_OK; BALE_IN_USE where group is live; BALE_BAD_NUMBERS; BALE_NO_MEMORY. */
int32_t bale_group_new(const uint32_t *dims, size_t ndims, uint32_t buffer, uint32_t slots,
                       bool steady, bale_group *group);

/* Makes a rank of the group, DORMANT, before its first epoch. Each number below the product of dims
   can be made once. The exchange ends only where all ranks are made and say that they are done.
   BALE_OK; BALE_IN_USE where rank is live; BALE_GONE where group is empty; BALE_NO_RANK;
   BALE_TAKEN; BALE_NO_MEMORY. */
int32_t bale_rank_new(bale_group *group, uint32_t number, bale_rank *rank);

/* Begins an epoch: DORMANT -> WORKING.
   BALE_OK; BALE_GONE; BALE_BEGUN in any other state. */
int32_t bale_begin(bale_rank *rank);

/* Pushes an item toward a rank; WORKING stays.
   BALE_OK; BALE_FULL where the open buffer toward it is full, and nothing is pushed; BALE_GONE;
   BALE_NOT_BEGUN; BALE_SAID_DONE; BALE_NO_RANK. */
int32_t bale_push(bale_rank *rank, const bale_item *item, uint32_t to);

/* Pulls the next item that came, with its sender; of one sender they come in the order in which it
   pushed them. The state stays.
   BALE_OK; BALE_NONE, and item and from are as before; BALE_GONE; BALE_NOT_BEGUN. */
int32_t bale_pull(bale_rank *rank, bale_item *item, uint32_t *from);

/* Puts the item back that the latest call pulled, so that the next pull gives it again. The state
   stays.
   BALE_OK; BALE_NONE where the latest call wasn't a pull that gave an item; BALE_GONE. */
int32_t bale_unpull(bale_rank *rank);

/* Sends and collects what can be sent and collected now, and tells how far the rank is. done says
   that this rank pushes nothing more in this epoch; once said it stays.
   BALE_MORE in WORKING and ENDGAME, BALE_NEAR in CLEANUP, BALE_COMPLETE in COMPLETE, by the state
   after it; BALE_GONE; BALE_NOT_BEGUN; BALE_SAID_DONE. */
int32_t bale_advance(bale_rank *rank, bool done);

/* Ends an epoch: COMPLETE -> DORMANT.
   BALE_OK; BALE_GONE; BALE_NOT_COMPLETE; BALE_LAST_EPOCH. */
int32_t bale_reset(bale_rank *rank);

/* Pushes items[0] toward to[0], items[1] toward to[1], and so on, as so many calls of bale_push,
   until one finds no room: how many were pushed. The numbers of both arrays are the same; if they
   differ, the lesser counts. Below 0 it is misuse, and nothing is pushed: BALE_GONE,
   BALE_NOT_BEGUN, BALE_SAID_DONE, or BALE_NO_RANK where any of the destinations is none. Each call
   looks at all destinations first, so give it no more at once than the open buffers hold. */
int64_t bale_push_many(bale_rank *rank, const bale_item *items, size_t nitems, const uint32_t *to,
                       size_t nto);

/* Pulls into items[0] and from[0], items[1] and from[1], and so on, as so many calls of bale_pull,
   until nothing is left to be pulled or no place is: how many were pulled. The places after them
   stay as they were. The numbers of both arrays are the same; if they differ, the lesser counts.
   Below 0 it is misuse: BALE_GONE or BALE_NOT_BEGUN. Whole buffers are pulled fastest: give it
   places for one at least. */
int64_t bale_pull_many(bale_rank *rank, bale_item *items, size_t nitems, uint32_t *from,
                       size_t nfrom);

/* Lends what the next pulls give, where it came, without a copy: entries[0].item is what the next
   bale_pull would give, entries[1].item what the one after it would, and so on. There are count of
   them, all in one buffer, and rank from pushed them all. Nothing is pulled; the rank is as before.

       const bale_entry *entries;
       size_t count;
       uint32_t from;
       while (bale_view(rank, &entries, &count, &from) == BALE_OK) {
           for (size_t k = 0; k < count; k++)
               use(entries[k].item, from);
           bale_pulled(rank, count);
       }

   The entries may be read, and not written, until the next call on this rank other than a push:
   bale_push and bale_push_many leave them where they are, so that answers may be pushed at once.
   (Proved is what the entries are until the next call of any kind. That a push leaves them is
   tested, and so is that the rank is as before.)
   BALE_OK, of at least one entry; BALE_NONE, BALE_GONE or BALE_NOT_BEGUN as bale_pull, and count
   is 0. */
static inline int32_t bale_view(bale_rank *rank, const bale_entry **entries, size_t *count,
                                uint32_t *from);

/* Pulls the first count items that a view lends now, as so many calls of bale_pull. It may be fewer
   than a view lent. The state stays.
   BALE_OK; BALE_NOT_LENT where a view lends fewer now, as after another call that pulled, and
   nothing is pulled; BALE_GONE; BALE_NOT_BEGUN. */
int32_t bale_pulled(bale_rank *rank, size_t count);

/* What bale_view calls. lent begins as an address that can be read, with count 0, and is as before
   unless the answer is BALE_OK. */
int32_t bale_lend(bale_rank *rank, bale_lent *lent);

/* How many ranks there are; 0 where the handle is empty. */
uint32_t bale_ranks(bale_rank *rank);

/* The state, BALE_STATE_DORMANT to BALE_STATE_COMPLETE; BALE_GONE if the handle is empty. */
int32_t bale_phase(bale_rank *rank);

/* Reports what the rank sent and received since it was made, in all its epochs, also to itself.
   items_sent / buffers_sent says how full its buffers are. A buffer is counted when advance sends or
   collects it, with all items in it, also those that only pass through this rank (on grids of two or
   three numbers). Each epoch ends with one last buffer on each link, which may be empty. A number
   that would be 2^64 or more stays at 2^64 - 1. The state stays.
   BALE_OK; BALE_GONE, and statistics is as before. */
int32_t bale_statistics(bale_rank *rank, bale_counts *statistics);

/* Frees a rank, or a group; the handle is empty after it, and may be used for another. The other
   handles go on.
   BALE_OK; BALE_GONE. */
int32_t bale_rank_free(bale_rank *rank);
int32_t bale_group_free(bale_group *group);

/* Strings of up to 65,535 bytes. A string is pushed as a whole or not at all, and pulled as a whole;
   of one sender strings come in the order in which it pushed them. It travels as items: the first
   has the length and 16 bytes, each further one 24 bytes.

       bale_elastic rank = {0};
       bale_elastic_new(&group, me, &rank);
       bale_elastic_begin(&rank);
       do {
           while (sent < all && bale_epush(&rank, word[sent], length[sent], to[sent]) == BALE_OK)
               sent++;
           answer = bale_elastic_advance(&rank, sent == all);
           while (bale_epull(&rank, &bytes, &nbytes, &from) == BALE_OK)
               use(bytes, nbytes, from);
       } while (answer != BALE_COMPLETE);

   All ranks of a group are made for strings, or all for items. (If some are not, no call does
   anything undefined: a rank for strings reads any items as strings, and drops at the end of an
   epoch what is not whole.)

   What is proved: with the strings that the items pushed toward a rank in this epoch spell, followed
   by those still to be pushed, as the strings pushed toward it, and those that the items pulled of a
   rank spell as the strings pulled of it, bale_epush that answers BALE_OK appends exactly this
   string to those pushed toward that rank, and bale_epull that answers BALE_OK appends exactly what
   bale_elastic_string lends to those pulled of that sender. No other answer and no other call changes
   any of these lists. So at each step the strings pulled are a prefix of those pushed, and all of
   them when the epoch is complete. One page: crates/rank_handles/specs/StringCalls.antt.

   These two calls take memory, for the items of a string that are still to be pushed or have come;
   it is kept for the next string. */

/* Makes a rank of the group for strings, as bale_rank_new makes one for items.
   BALE_OK; BALE_IN_USE where rank is live; BALE_GONE where group is empty; BALE_NO_RANK;
   BALE_TAKEN; BALE_NO_MEMORY. */
int32_t bale_elastic_new(bale_group *group, uint32_t number, bale_elastic *rank);

/* Pushes a string toward a rank; WORKING stays. What finds no room in the buffers is kept, and
   pushed by the advances that follow, before anything else.
   BALE_OK; BALE_FULL while a part of the string before it is kept so, and nothing is pushed;
   BALE_GONE; BALE_NOT_BEGUN; BALE_SAID_DONE; BALE_NO_RANK; BALE_TOO_LONG; BALE_NO_MEMORY. */
int32_t bale_epush(bale_elastic *rank, const uint8_t *bytes, size_t nbytes, uint32_t to);

/* Pulls the next string that came as a whole, with its sender, and lends its bytes until the next
   call on this rank. They may be read, and not written. The state stays.
   BALE_OK; BALE_NONE, BALE_GONE, BALE_NOT_BEGUN or BALE_NO_MEMORY, and nbytes is 0 and from as
   before. After BALE_NO_MEMORY the call may be made again. */
static inline int32_t bale_epull(bale_elastic *rank, const uint8_t **bytes, size_t *nbytes,
                                 uint32_t *from);

/* What bale_epull calls. bale_elastic_pull pulls a string, and bale_elastic_string lends the one
   that the latest bale_elastic_pull gave. string begins as an address that can be read, with nbytes
   0, and is as before unless the answer is BALE_OK. (What is lent is proved; that the rank is as
   before is tested.)
   bale_elastic_string: BALE_OK; BALE_NONE where the latest pull gave none; BALE_GONE. */
int32_t bale_elastic_pull(bale_elastic *rank, uint32_t *from);
int32_t bale_elastic_string(bale_elastic *rank, bale_string *string);

/* As the calls on a rank for items: begin, advance, reset, ranks, phase and free. advance pushes first
   what is kept of the latest string; as long as anything is kept it answers BALE_MORE, and the rank
   does not yet count as done. */
int32_t bale_elastic_begin(bale_elastic *rank);
int32_t bale_elastic_advance(bale_elastic *rank, bool done);
int32_t bale_elastic_reset(bale_elastic *rank);
uint32_t bale_elastic_ranks(bale_elastic *rank);
int32_t bale_elastic_phase(bale_elastic *rank);
int32_t bale_elastic_free(bale_elastic *rank);

/* The version of the library, as BALE_VERSION has it; " (unproved)" follows if c/build --unproved
   made the library. */
const char *bale_version(void);

static inline int32_t bale_view(bale_rank *rank, const bale_entry **entries, size_t *count,
                                uint32_t *from) {
    static const bale_entry none = {{0, 0, 0}, {0, 0, 0}};
    bale_lent lent = {&none, 0, 0};
    int32_t answer = bale_lend(rank, &lent);
    *entries = lent.entries;
    *count = lent.count;
    *from = lent.from;
    return answer;
}

static inline int32_t bale_epull(bale_elastic *rank, const uint8_t **bytes, size_t *nbytes,
                                 uint32_t *from) {
    static const uint8_t none = 0;
    bale_string string = {&none, 0};
    int32_t answer = bale_elastic_pull(rank, from);
    if (answer == BALE_OK)
        answer = bale_elastic_string(rank, &string);
    *bytes = string.bytes;
    *nbytes = string.nbytes;
    return answer;
}

/* An answer's name. */
static inline const char *bale_text(int32_t answer) {
    switch (answer) {
    /* answers: checks/answers writes these lines */
    case BALE_OK: return "ok";
    case BALE_FULL: return "the buffer is full";
    case BALE_NONE: return "there is none";
    case BALE_MORE: return "more to push or to send";
    case BALE_NEAR: return "all is sent, not all is pulled";
    case BALE_COMPLETE: return "the epoch is over";
    case BALE_NO_MEMORY: return "no memory";
    case BALE_NOT_BEGUN: return "the epoch has not begun";
    case BALE_BEGUN: return "the epoch has begun already";
    case BALE_SAID_DONE: return "the rank said that it is done";
    case BALE_NO_RANK: return "no rank has this number";
    case BALE_NOT_COMPLETE: return "the epoch isn't over";
    case BALE_GONE: return "the handle is empty";
    case BALE_BAD_NUMBERS: return "no grid, no capacity or no number of slots";
    case BALE_IN_USE: return "the handle is in use";
    case BALE_TAKEN: return "the rank was made before";
    case BALE_LAST_EPOCH: return "no number is left for another epoch";
    case BALE_NOT_LENT: return "a view lends fewer items";
    case BALE_TOO_LONG: return "a string has more than 65,535 bytes";
    /* end of answers */
    default: return "no answer";
    }
}

#ifdef __cplusplus
}
#endif

#endif
