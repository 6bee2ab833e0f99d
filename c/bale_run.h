/* Helpers over bale.h's calls, for C11 and C++17: ranks on threads, items of your own type, and
   epochs in a line. Header only; nothing in it is proved, and it uses the proved calls alone.

   A whole program: four ranks count how often each key is named.

       #include "bale_run.h"

       static uint64_t counts[4][250]; // key k is at rank k % 4, in place k / 4

       static void count(void *context, const void *item, uint32_t from) {
           (void)from;
           ((uint64_t *)context)[bale_value(uint32_t, item) / 4]++;
       }

       static void work(bale_rank *rank, uint32_t me, void *context) {
           uint32_t *keys = (uint32_t *)context;
           bale_begin(rank);
           for (uint32_t k = me; k < 1000; k += 4)
               bale_send(rank, &keys[k], keys[k] % 4, count, counts[me]);
           bale_finish(rank, count, counts[me]);
       }

       int main(void) {
           static uint32_t keys[1000];
           for (uint32_t k = 0; k < 1000; k++)
               keys[k] = k * k % 1000;
           bale_run(4, work, keys);
           printf("key 0 was named %llu times\n", (unsigned long long)counts[0][0]);
       }

   Build it with: cc program.c libbale_c.a -pthread

   A call that fails reports it by BALE_FAILED(call, answer), which writes both on standard error
   and aborts, so none of the answers below has to be looked at. A program that would rather go on
   defines BALE_FAILED before it includes this header. If that returns, so does the helper, with
   the answer, which is below 0. */
#ifndef BALE_RUN_H
#define BALE_RUN_H

#include "bale.h"
#include <pthread.h>
#include <sched.h>
#include <stdio.h>
#include <stdlib.h>
#include <string.h>
#ifdef __cplusplus
#include <type_traits>
#endif

#ifndef BALE_FAILED
#define BALE_FAILED(call, answer) (fprintf(stderr, "%s: %s\n", call, bale_text(answer)), abort())
#endif

/* What a helper calls with each item that it pulls: the context that the helper was given, the
   item, which bale_value reads, and its sender. It makes no call on the rank that it is called for:
   a send in it would pull later items before the earlier ones are handled. */
typedef void bale_take(void *context, const void *item, uint32_t from);

/* What each thread of bale_run does: me is the rank's own number, from 0 up. The rank is DORMANT,
   and each epoch that it begins it also finishes, since the other ranks wait for it. */
typedef void bale_work(bale_rank *rank, uint32_t me, void *context);

/* Pulls all that has come, and calls take with each item: how many there were, or below 0 what is
   wrong. */
static inline int64_t bale_drain(bale_rank *rank, bale_take *take, void *context) {
    const bale_entry *entries;
    size_t count;
    uint32_t from;
    int64_t all = 0;
    int32_t answer;
    while ((answer = bale_view(rank, &entries, &count, &from)) == BALE_OK) {
        for (size_t k = 0; k < count; k++)
            take(context, &entries[k].item, from);
        bale_pulled(rank, count);
        all += (int64_t)count;
    }
    if (answer < 0)
        BALE_FAILED("bale_drain", answer);
    return answer < 0 ? answer : all;
}

/* Drains, and gives the processor away if nothing had come. */
static inline int32_t bale_drain_or_yield_(bale_rank *rank, bale_take *take, void *context) {
    int64_t count = bale_drain(rank, take, context);
    if (count == 0)
        sched_yield();
    return count < 0 ? (int32_t)count : BALE_OK;
}

/* bale_send with the item's size, up to 24 bytes. */
static inline int32_t bale_send_(bale_rank *rank, const void *bytes, size_t size, uint32_t to,
                                 bale_take *take, void *context) {
    bale_item item = {0, 0, 0};
    int32_t answer;
    memcpy(&item, bytes, size);
    while ((answer = bale_push(rank, &item, to)) == BALE_FULL) {
        if ((answer = bale_advance(rank, false)) < 0)
            break;
        if ((answer = bale_drain_or_yield_(rank, take, context)) < 0)
            return answer;
    }
    if (answer < 0)
        BALE_FAILED("bale_send", answer);
    return answer;
}

/* bale_send(rank, pointer, to, take, context) sends *pointer to a rank. While there is no room for
   it, it advances and drains. The item has any type of 1 to 24 bytes, which are copied as they are;
   a larger one, or a void pointer, does not compile. A compound literal goes into parentheses:
   bale_send(rank, (&(edge){a, b}), to, take, context).
   BALE_OK, or what is wrong: as bale_push.

   bale_value(type, item) is the value of an item that was sent as that type. */
#ifdef __cplusplus
template <typename Type>
inline int32_t bale_send(bale_rank *rank, const Type *pointer, uint32_t to, bale_take *take,
                         void *context) {
    static_assert(std::is_trivially_copyable<Type>::value, "the bytes of an item are its value");
    static_assert(sizeof(Type) <= sizeof(bale_item), "an item has at most 24 bytes");
    return bale_send_(rank, pointer, sizeof(Type), to, take, context);
}
template <typename Type> inline Type bale_value_(const void *item) {
    static_assert(std::is_trivially_copyable<Type>::value, "the bytes of an item are its value");
    static_assert(sizeof(Type) <= sizeof(bale_item), "an item has at most 24 bytes");
    Type value;
    memcpy(&value, item, sizeof value);
    return value;
}
#define bale_value(type, item) bale_value_<type>(item)
#else
#define BALE_IF_(fact) sizeof(char[(fact) ? 1 : -1])
#define BALE_FITS_(type) BALE_IF_(sizeof(type) <= sizeof(bale_item))
#define BALE_NO_VOID_(pointer) BALE_IF_(_Generic((pointer), void *: 0, const void *: 0, default: 1))
#define bale_send(rank, pointer, to, take, context)                                        \
    bale_send_(rank, pointer,                                                              \
               sizeof(*(pointer)) * BALE_FITS_(*(pointer)) * BALE_NO_VOID_(pointer), to, take, \
               context)
#define bale_value(type, item) \
    (*(type *)memcpy(&(type){0}, (item), sizeof(type) * BALE_FITS_(type)))
#endif

/* Ends the epoch: says that this rank sends nothing more, drains until every rank has said so and
   all has come, and resets. The rank is DORMANT after it.
   BALE_OK, or what is wrong: as bale_advance and bale_reset. */
static inline int32_t bale_finish(bale_rank *rank, bale_take *take, void *context) {
    int32_t answer;
    while ((answer = bale_advance(rank, true)) != BALE_COMPLETE && answer >= 0)
        if ((answer = bale_drain_or_yield_(rank, take, context)) < 0)
            return answer;
    if (answer == BALE_COMPLETE)
        answer = bale_reset(rank);
    if (answer < 0)
        BALE_FAILED("bale_finish", answer);
    return answer;
}

/* bale_advance in the shape of libconvey's convey_advance: true while the exchange goes on, false
   once it is complete. Misuse is reported by BALE_FAILED; if that returns, false, and the rank's
   state is not COMPLETE. Gives the processor away while the exchange goes on.

       bale_begin(rank);
       while (bale_going(rank, sent == all)) {
           while (sent < all && bale_push(rank, &items[sent], to[sent]) == BALE_OK)
               sent++;
           while (bale_pull(rank, &item, &from) == BALE_OK)
               use(item, from);
       }
       bale_reset(rank); */
static inline bool bale_going(bale_rank *rank, bool done) {
    int32_t answer = bale_advance(rank, done);
    if (answer < 0) {
        BALE_FAILED("bale_going", answer);
        return false;
    }
    if (answer == BALE_COMPLETE)
        return false;
    sched_yield();
    return true;
}

/* How the reductions take a number of another rank. */
static inline void bale_take_sum_(void *all, const void *item, uint32_t from) {
    (void)from;
    *(uint64_t *)all += bale_value(uint64_t, item);
}

static inline void bale_take_min_(void *all, const void *item, uint32_t from) {
    uint64_t value = bale_value(uint64_t, item);
    (void)from;
    if (value < *(uint64_t *)all)
        *(uint64_t *)all = value;
}

static inline void bale_take_max_(void *all, const void *item, uint32_t from) {
    uint64_t value = bale_value(uint64_t, item);
    (void)from;
    if (value > *(uint64_t *)all)
        *(uint64_t *)all = value;
}

static inline uint64_t bale_reduce_(bale_rank *rank, uint64_t mine, uint64_t all, bale_take *take) {
    uint32_t ranks = bale_ranks(rank);
    int32_t answer = bale_begin(rank);
    if (answer < 0)
        BALE_FAILED("bale_begin of a reduction", answer);
    for (uint32_t to = 0; to < ranks && answer >= 0; to++)
        answer = bale_send(rank, &mine, to, take, &all);
    if (answer >= 0)
        bale_finish(rank, take, &all);
    return all;
}

/* The sum (modulo 2^64), the least and the greatest of one number of each rank, at every rank. Each
   is an epoch of its own, so the rank is DORMANT before and after it, and every rank makes the same
   call. */
static inline uint64_t bale_sum(bale_rank *rank, uint64_t mine) {
    return bale_reduce_(rank, mine, 0, bale_take_sum_);
}

static inline uint64_t bale_min(bale_rank *rank, uint64_t mine) {
    return bale_reduce_(rank, mine, UINT64_MAX, bale_take_min_);
}

static inline uint64_t bale_max(bale_rank *rank, uint64_t mine) {
    return bale_reduce_(rank, mine, 0, bale_take_max_);
}

/* Queries and replies, as libconvey's biconvey has them: each rank asks any other rank, and answers
   what it is asked. Queries go over one group and replies over another, and both epochs begin and
   end together. The reads of a table that is dealt out over all ranks:

       static void answer(void *context, void *item, uint32_t from) { // a: the place, b: which read
           bale_item *it = (bale_item *)item;
           (void)from;
           it->a = ((reader *)context)->table[it->a]; // b stays for the reader
       }

       static void heard(void *context, const void *item, uint32_t from) {
           const bale_item *it = (const bale_item *)item;
           (void)from;
           ((reader *)context)->values[it->b] = it->a;
       }

       static void work(bale_asker *asker, uint32_t me, void *context) {
           reader *my = (reader *)context + me;
           bale_ask_begin(asker, answer, heard, my);
           for (uint64_t k = 0; k < my->reads; k++) {
               bale_item query = {my->index[k] / 4, k, 0};
               bale_ask(asker, &query, my->index[k] % 4);
           }
           bale_ask_finish(asker); // all of my->values are there
       }

   with bale_run_asking(4, work, readers). Each query is answered once, and its reply is heard once.

   Order: the k-th reply that is heard from a rank belongs to the k-th query to that rank in this
   epoch. Replies of different ranks come in any order. A rank may tell the replies' group that it
   is done only when the queries' epoch is COMPLETE for it and its last reply is pushed, since only
   then no query can come any more; bale_ask_finish keeps to this. */

/* Makes a query its reply: item has the 24 bytes of the query, and is overwritten with the reply.
   from is the rank that asked. It is called once for each query, and makes no call on the asker. */
typedef void bale_answer(void *context, void *item, uint32_t from);

/* A rank that asks and answers: its rank in each of the two groups. The members are the helpers'
   own. */
typedef struct {
    bale_rank *queries;
    bale_rank *replies;
    bale_answer *answer;
    bale_take *heard;
    void *context;
    bale_item reply; /* the latest reply */
    uint32_t to;     /* the rank that it is for */
    bool waits;      /* whether it has found no room so far */
} bale_asker;

/* What each thread of bale_run_asking does: as a bale_work. */
typedef void bale_ask_work(bale_asker *asker, uint32_t me, void *context);

/* Begins an epoch of queries and replies. answer is called with each query that comes, and heard
   with each reply, and both with the context. heard makes no call on the asker.
   BALE_OK, or what is wrong: as bale_begin. */
static inline int32_t bale_ask_begin(bale_asker *asker, bale_answer *answer, bale_take *heard,
                                     void *context) {
    int32_t begun = bale_begin(asker->queries);
    if (begun == BALE_OK)
        begun = bale_begin(asker->replies);
    if (begun < 0) {
        BALE_FAILED("bale_ask_begin", begun);
        return begun;
    }
    asker->answer = answer;
    asker->heard = heard;
    asker->context = context;
    asker->waits = false;
    return begun;
}

/* Pushes the latest reply: below 0 what is wrong. */
static inline int32_t bale_reply_(bale_asker *asker) {
    int32_t answer = bale_push(asker->replies, &asker->reply, asker->to);
    asker->waits = answer == BALE_FULL;
    return answer;
}

/* Answers the queries that have come, until a reply finds no room: how many, or below 0 what is
   wrong. */
static inline int64_t bale_answer_all_(bale_asker *asker) {
    const bale_entry *entries;
    size_t count, done;
    int64_t all = 0;
    int32_t answer = asker->waits ? bale_reply_(asker) : BALE_OK;
    while (!asker->waits && answer >= 0) {
        answer = bale_view(asker->queries, &entries, &count, &asker->to);
        if (answer != BALE_OK)
            return answer < 0 ? answer : all;
        for (done = 0; done < count && !asker->waits && answer >= 0; done++) {
            asker->reply = entries[done].item;
            asker->answer(asker->context, &asker->reply, asker->to);
            answer = bale_reply_(asker);
        }
        bale_pulled(asker->queries, done);
        all += (int64_t)done;
    }
    return answer < 0 ? answer : all;
}

/* Advances both groups once, answers and hears, and gives the processor away if nothing had come.
   done says that this rank asks nothing more in this epoch. As bale_advance of the replies. */
static inline int32_t bale_ask_advance_(bale_asker *asker, bool done) {
    int32_t answer = bale_advance(asker->queries, done);
    bool last = answer == BALE_COMPLETE;
    int64_t answered = 0, heard;
    if (answer >= 0 && (answered = bale_answer_all_(asker)) < 0)
        answer = (int32_t)answered;
    if (answer >= 0)
        answer = bale_advance(asker->replies, last && !asker->waits);
    if (answer < 0) {
        BALE_FAILED("bale_ask_advance", answer);
        return answer;
    }
    heard = bale_drain(asker->replies, asker->heard, asker->context);
    if (answered + heard == 0)
        sched_yield();
    return heard < 0 ? (int32_t)heard : answer;
}

/* bale_ask with the query's size, up to 24 bytes. */
static inline int32_t bale_ask_(bale_asker *asker, const void *bytes, size_t size, uint32_t to) {
    bale_item item = {0, 0, 0};
    int32_t answer;
    memcpy(&item, bytes, size);
    while ((answer = bale_push(asker->queries, &item, to)) == BALE_FULL)
        if ((answer = bale_ask_advance_(asker, false)) < 0)
            return answer;
    if (answer < 0)
        BALE_FAILED("bale_ask", answer);
    return answer;
}

/* bale_ask(asker, pointer, to) asks a rank *pointer, of a type as bale_send takes it. While there
   is no room for it, it answers and hears.
   BALE_OK, or what is wrong: as bale_push. */
#ifdef __cplusplus
template <typename Type>
inline int32_t bale_ask(bale_asker *asker, const Type *pointer, uint32_t to) {
    static_assert(std::is_trivially_copyable<Type>::value, "the bytes of an item are its value");
    static_assert(sizeof(Type) <= sizeof(bale_item), "an item has at most 24 bytes");
    return bale_ask_(asker, pointer, sizeof(Type), to);
}
#else
#define bale_ask(asker, pointer, to) \
    bale_ask_(asker, pointer,        \
              sizeof(*(pointer)) * BALE_FITS_(*(pointer)) * BALE_NO_VOID_(pointer), to)
#endif

/* Ends the epoch of queries and replies: says that this rank asks nothing more, answers and hears
   until every rank has said so and every reply was heard, and resets. After it the asker may begin
   again.
   BALE_OK, or what is wrong: as bale_advance and bale_reset. */
static inline int32_t bale_ask_finish(bale_asker *asker) {
    int32_t answer;
    while ((answer = bale_ask_advance_(asker, true)) != BALE_COMPLETE)
        if (answer < 0)
            return answer;
    if ((answer = bale_reset(asker->queries)) == BALE_OK)
        answer = bale_reset(asker->replies);
    if (answer < 0)
        BALE_FAILED("bale_ask_finish", answer);
    return answer;
}

/* Strings, as bale_epush and bale_epull have them. What a helper calls with each string that it
   pulls, as it calls a bale_take; the bytes are there until it returns. */
typedef void bale_etake(void *context, const uint8_t *bytes, size_t nbytes, uint32_t from);

/* What each thread of bale_erun does: as a bale_work. */
typedef void bale_ework(bale_elastic *rank, uint32_t me, void *context);

/* Pulls all strings that have come, and calls take with each: how many there were, or below 0 what
   is wrong. */
static inline int64_t bale_edrain(bale_elastic *rank, bale_etake *take, void *context) {
    const uint8_t *bytes;
    size_t nbytes;
    uint32_t from;
    int64_t all = 0;
    int32_t answer;
    while ((answer = bale_epull(rank, &bytes, &nbytes, &from)) == BALE_OK) {
        take(context, bytes, nbytes, from);
        all++;
    }
    if (answer < 0)
        BALE_FAILED("bale_edrain", answer);
    return answer < 0 ? answer : all;
}

/* Advances once and drains, and gives the processor away if nothing had come: as
   bale_elastic_advance. */
static inline int32_t bale_eadvance_(bale_elastic *rank, bool done, bale_etake *take,
                                     void *context) {
    int32_t answer = bale_elastic_advance(rank, done);
    int64_t count = answer < 0 ? 0 : bale_edrain(rank, take, context);
    if (count == 0)
        sched_yield();
    return count < 0 ? (int32_t)count : answer;
}

/* Sends a string to a rank. While there is no room for it, it advances and drains.
   BALE_OK, or what is wrong: as bale_epush. */
static inline int32_t bale_esend(bale_elastic *rank, const void *bytes, size_t nbytes, uint32_t to,
                                 bale_etake *take, void *context) {
    int32_t answer;
    while ((answer = bale_epush(rank, (const uint8_t *)bytes, nbytes, to)) == BALE_FULL)
        if ((answer = bale_eadvance_(rank, false, take, context)) < 0)
            return answer;
    if (answer < 0)
        BALE_FAILED("bale_esend", answer);
    return answer;
}

/* Ends the epoch, as bale_finish.
   BALE_OK, or what is wrong: as bale_elastic_advance and bale_elastic_reset. */
static inline int32_t bale_efinish(bale_elastic *rank, bale_etake *take, void *context) {
    int32_t answer;
    do
        answer = bale_eadvance_(rank, true, take, context);
    while (answer >= 0 && answer != BALE_COMPLETE);
    if (answer == BALE_COMPLETE)
        answer = bale_elastic_reset(rank);
    if (answer < 0)
        BALE_FAILED("bale_efinish", answer);
    return answer;
}

/* A rank of bale_run, bale_run_asking or bale_erun, with what its thread does. */
typedef struct {
    bale_rank rank;
    bale_rank replies; /* of bale_run_asking */
    bale_elastic elastic; /* of bale_erun */
    uint32_t me;
    bale_work *work;
    bale_ask_work *ask_work; /* in place of work, if it is not NULL */
    bale_ework *ework;       /* the same */
    void *context;
    pthread_mutex_t *gate; /* held until all threads are there */
    const bool *all_there; /* whether they are; if not, no thread works */
} bale_thread_;

static inline void *bale_thread_main_(void *arg) {
    bale_thread_ *my = (bale_thread_ *)arg;
    bale_asker asker;
    memset(&asker, 0, sizeof asker);
    asker.queries = &my->rank;
    asker.replies = &my->replies;
    pthread_mutex_lock(my->gate);
    bool works = *my->all_there;
    pthread_mutex_unlock(my->gate);
    if (works && my->ask_work != NULL)
        my->ask_work(&asker, my->me, my->context);
    else if (works && my->ework != NULL)
        my->ework(&my->elastic, my->me, my->context);
    else if (works)
        my->work(&my->rank, my->me, my->context);
    return NULL;
}

/* Starts a thread for each rank and waits for all: whether all could be started. If not, none
   works. */
static inline bool bale_threads_(bale_thread_ *threads, uint32_t count) {
    pthread_mutex_t gate = PTHREAD_MUTEX_INITIALIZER;
    pthread_t started[64];
    bool all_there = false;
    uint32_t there = 0;
    pthread_mutex_lock(&gate);
    for (; there < count; there++) {
        threads[there].gate = &gate;
        threads[there].all_there = &all_there;
        if (pthread_create(&started[there], NULL, bale_thread_main_, &threads[there]) != 0)
            break;
    }
    all_there = there == count;
    pthread_mutex_unlock(&gate);
    while (there > 0)
        pthread_join(started[--there], NULL);
    pthread_mutex_destroy(&gate);
    return all_there;
}

/* As bale_run_on, bale_run_asking_on and bale_erun_on: calls that one of them that is not NULL. */
static inline int32_t bale_run_either_(const uint32_t *dims, size_t ndims, uint32_t buffer,
                                       uint32_t slots, bool steady, bale_work *work,
                                       bale_ask_work *ask_work, bale_ework *ework, void *context) {
    bale_thread_ threads[64];
    bale_group group, replies;
    memset(threads, 0, sizeof threads);
    memset(&group, 0, sizeof group);
    memset(&replies, 0, sizeof replies);
    int32_t answer = bale_group_new(dims, ndims, buffer, slots, steady, &group);
    uint32_t ranks = 1;
    if (answer == BALE_OK && ask_work != NULL)
        answer = bale_group_new(dims, ndims, buffer, slots, steady, &replies);
    for (size_t k = 0; k < ndims && answer == BALE_OK; k++)
        ranks *= dims[k];
    for (uint32_t r = 0; r < ranks && answer == BALE_OK; r++) {
        threads[r].me = r;
        threads[r].work = work;
        threads[r].ask_work = ask_work;
        threads[r].ework = ework;
        threads[r].context = context;
        answer = ework != NULL ? bale_elastic_new(&group, r, &threads[r].elastic)
                               : bale_rank_new(&group, r, &threads[r].rank);
        if (answer == BALE_OK && ask_work != NULL)
            answer = bale_rank_new(&replies, r, &threads[r].replies);
    }
    if (answer == BALE_OK && !bale_threads_(threads, ranks))
        answer = BALE_NO_MEMORY;
    for (uint32_t r = 0; r < 64; r++) { /* An empty handle stays as it is. */
        bale_rank_free(&threads[r].rank);
        bale_rank_free(&threads[r].replies);
        bale_elastic_free(&threads[r].elastic);
    }
    bale_group_free(&group);
    bale_group_free(&replies);
    return answer;
}

/* As bale_run, with the grid, buffer, slots and steady of bale_group_new. */
static inline int32_t bale_run_on(const uint32_t *dims, size_t ndims, uint32_t buffer,
                                  uint32_t slots, bool steady, bale_work *work, void *context) {
    int32_t answer =
        bale_run_either_(dims, ndims, buffer, slots, steady, work, NULL, NULL, context);
    if (answer < 0)
        BALE_FAILED("bale_run", answer);
    return answer;
}

/* As bale_run_asking, with the grid, buffer, slots and steady of both groups. */
static inline int32_t bale_run_asking_on(const uint32_t *dims, size_t ndims, uint32_t buffer,
                                         uint32_t slots, bool steady, bale_ask_work *work,
                                         void *context) {
    int32_t answer =
        bale_run_either_(dims, ndims, buffer, slots, steady, NULL, work, NULL, context);
    if (answer < 0)
        BALE_FAILED("bale_run_asking", answer);
    return answer;
}

/* As bale_erun, with the grid, buffer, slots and steady of bale_group_new. */
static inline int32_t bale_erun_on(const uint32_t *dims, size_t ndims, uint32_t buffer,
                                   uint32_t slots, bool steady, bale_ework *work, void *context) {
    int32_t answer =
        bale_run_either_(dims, ndims, buffer, slots, steady, NULL, NULL, work, context);
    if (answer < 0)
        BALE_FAILED("bale_erun", answer);
    return answer;
}

/* How many items travel together, if nothing else is said. */
static inline uint32_t bale_buffer_(uint32_t ranks) {
    return ranks <= 8 ? 1024 : ranks <= 16 ? 256 : 64;
}

/* Makes so many ranks, 1 to 64, calls work for each on a thread of its own, waits for all of them,
   and frees what it made. Items go straight to their rank, in buffers of 1,024 items up to 8 ranks,
   256 up to 16, and 64 for more.
   BALE_OK; BALE_BAD_NUMBERS; BALE_NO_MEMORY, also if a thread can't be started, and then work was
   not called. */
static inline int32_t bale_run(uint32_t ranks, bale_work *work, void *context) {
    return bale_run_on(&ranks, 1, bale_buffer_(ranks), 2, false, work, context);
}

/* As bale_run, for ranks that ask each other. */
static inline int32_t bale_run_asking(uint32_t ranks, bale_ask_work *work, void *context) {
    return bale_run_asking_on(&ranks, 1, bale_buffer_(ranks), 2, false, work, context);
}

/* As bale_run, for ranks that send strings. */
static inline int32_t bale_erun(uint32_t ranks, bale_ework *work, void *context) {
    return bale_erun_on(&ranks, 1, bale_buffer_(ranks), 2, false, work, context);
}

#endif
