/* What some examples and tests share: ranks on threads by hand, an end that says what was wrong, and random numbers. */
#ifndef RANKS_H
#define RANKS_H

#include <bale.h>
#include <pthread.h>
#include <sched.h>
#include <stdio.h>
#include <stdlib.h>

#define RANKS 4

/* Ends the program if an answer is not the one that was wanted. */
static inline void want(const char *what, int32_t answer, int32_t wanted) {
    if (answer != wanted) {
        fprintf(stderr, "%s: %s\n", what, bale_text(answer));
        exit(1);
    }
}

/* Runs work for each rank on a thread of its own, and waits for all of them. */
static inline void on_threads(void *(*work)(void *), void *ranks, size_t size) {
    pthread_t threads[RANKS];
    for (int r = 0; r < RANKS; r++)
        if (pthread_create(&threads[r], NULL, work, (char *)ranks + (size_t)r * size) != 0)
            exit(1);
    for (int r = 0; r < RANKS; r++)
        pthread_join(threads[r], NULL);
}

/* Makes a group of a grid of 2x2 ranks, and its ranks' handles, size bytes apart. */
static inline void make_ranks(bale_group *group, bale_rank *first, size_t size) {
    uint32_t dims[2] = {2, 2};
    want("bale_group_new", bale_group_new(dims, 2, 128, 2, false, group), BALE_OK);
    for (uint32_t r = 0; r < RANKS; r++)
        want("bale_rank_new", bale_rank_new(group, r, (bale_rank *)(void *)((char *)first + r * size)), BALE_OK);
}

/* A number that looks random: splitmix64. */
static inline uint64_t random_of(uint64_t *state) {
    uint64_t z = (*state += 0x9e3779b97f4a7c15u);
    z = (z ^ (z >> 30)) * 0xbf58476d1ce4e5b9u;
    z = (z ^ (z >> 27)) * 0x94d049bb133111ebu;
    return z ^ (z >> 31);
}

#endif
