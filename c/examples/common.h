/* What bfs, triangles and transpose share: arguments, times, and graphs as adjacency lists. */
#ifndef COMMON_H
#define COMMON_H

#define _POSIX_C_SOURCE 200809L
#include "ranks.h"
#include <bale_run.h>
#include <time.h>

/* The arguments of every example: a size, the number of ranks, and whether times are printed. */
typedef struct {
    uint64_t size;
    uint32_t ranks;
    bool times;
} options;

static inline options options_of(int argc, char **argv, const char *usage, uint64_t size, uint64_t most) {
    options o = {argc > 1 ? strtoull(argv[1], NULL, 10) : size, argc > 2 ? (uint32_t)strtoul(argv[2], NULL, 10) : 4, argc > 3};
    if (o.size < 1 || o.size > most || o.ranks < 1 || o.ranks > 64 || argc > 4 || (o.times && strcmp(argv[3], "times") != 0)) {
        fprintf(stderr, "usage: %s [ranks, 1 to 64 [times]]\n", usage);
        exit(2);
    }
    return o;
}

static inline double seconds(void) {
    struct timespec t;
    clock_gettime(CLOCK_MONOTONIC, &t);
    return (double)t.tv_sec + 1e-9 * (double)t.tv_nsec;
}

/* Prints how long something took that began then, if times are wanted. */
static inline void took(options o, const char *what, double began) {
    if (o.times)
        printf("  %-16s %8.3f s\n", what, seconds() - began);
}

static inline void *room(size_t count, size_t size) {
    void *p = calloc(count > 0 ? count : 1, size);
    if (p == NULL) {
        fprintf(stderr, "no memory\n");
        exit(1);
    }
    return p;
}

/* A graph without direction: the neighbours of v are targets[starts[v]] to targets[starts[v + 1] - 1], in order, each
   once, and never v itself. */
typedef struct {
    uint32_t vertices;
    uint64_t *starts;
    uint32_t *targets;
} graph;

static inline int by_number(const void *a, const void *b) {
    uint32_t x = *(const uint32_t *)a, y = *(const uint32_t *)b;
    return (x > y) - (x < y);
}

/* A list of edges as a graph: both directions of each, sorted, without loops and duplicates. */
static inline graph graph_of(uint32_t vertices, const uint32_t (*edges)[2], size_t count) {
    graph g = {vertices, room((size_t)vertices + 2, sizeof(uint64_t)), room(2 * count, sizeof(uint32_t))};
    for (size_t k = 0; k < count; k++)
        for (int end = 0; end < 2; end++)
            g.starts[edges[k][end] + 2] += edges[k][0] != edges[k][1];
    for (uint32_t v = 0; v < vertices; v++)
        g.starts[v + 2] += g.starts[v + 1];
    for (size_t k = 0; k < count; k++)
        for (int end = 0; end < 2 && edges[k][0] != edges[k][1]; end++)
            g.targets[g.starts[edges[k][end] + 1]++] = edges[k][1 - end];
    uint64_t kept = 0, first = 0;
    for (uint32_t v = 0; v < vertices; v++) {
        uint64_t end = g.starts[v + 1], begin = kept;
        qsort(g.targets + first, end - first, sizeof(uint32_t), by_number);
        for (uint64_t e = first; e < end; e++)
            if (kept == begin || g.targets[kept - 1] != g.targets[e])
                g.targets[kept++] = g.targets[e];
        g.starts[v] = begin;
        first = end;
    }
    g.starts[vertices] = kept;
    return g;
}

/* An R-MAT graph as Graph500 has it: 2^scale vertices, 16 edges for each, quadrants of probability 0.57, 0.19, 0.19 and
   0.05, and vertices renumbered so that a number says nothing of the degree. */
static inline graph rmat(uint32_t scale) {
    uint32_t vertices = (uint32_t)1 << scale;
    size_t count = (size_t)16 << scale;
    uint32_t(*edges)[2] = room(count, sizeof *edges);
    uint64_t seed = scale;
    for (size_t k = 0; k < count; k++) {
        uint32_t ends[2] = {0, 0};
        for (uint32_t bit = 0; bit < scale; bit++) {
            uint64_t hundredth = random_of(&seed) % 100;
            ends[0] = 2 * ends[0] + (hundredth >= 76);
            ends[1] = 2 * ends[1] + ((hundredth >= 57 && hundredth < 76) || hundredth >= 95);
        }
        for (int end = 0; end < 2; end++) {
            /* Each of these two steps is one to one on numbers below 2^scale. */
            uint32_t v = (ends[end] * 0x9e3779b1u + 12345) & (vertices - 1);
            edges[k][end] = ((v ^ (v >> (scale / 2 + 1))) * 0x85ebca6bu) & (vertices - 1);
        }
    }
    graph g = graph_of(vertices, (const uint32_t(*)[2])edges, count);
    free(edges);
    return g;
}

static inline void free_graph(graph g) {
    free(g.starts);
    free(g.targets);
}

#endif
