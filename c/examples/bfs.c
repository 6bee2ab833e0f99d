/* Breadth-first search as Graph500 does it: the parent of each vertex that a root reaches, on an R-MAT graph.
   Vertex v belongs to rank v % ranks. In each level a rank sends every edge of its new vertices to the rank that
   the other end belongs to, which gives that a parent if it has none.
   bfs [scale, 1 to 26 [ranks [times]]] */
#include "common.h"

enum { NONE = UINT32_MAX };

typedef struct {
    uint32_t parent, child;
} edge;

/* What one rank has: the vertices that it found in this level and in the one before. */
typedef struct {
    const graph *g;
    uint32_t *parents; /* of all ranks; each writes its own vertices' */
    uint32_t *next, *now;
    size_t next_count, ranks;
} search;

static void visit(void *context, const void *item, uint32_t from) {
    search *my = context;
    edge e = bale_value(edge, item);
    (void)from;
    if (my->parents[e.child] == NONE) {
        my->parents[e.child] = e.parent;
        my->next[my->next_count++] = e.child;
    }
}

/* Makes the vertices that were found those of this level: how many. */
static size_t next_level(search *my) {
    uint32_t *spare = my->now;
    size_t count = my->next_count;
    my->now = my->next, my->next = spare, my->next_count = 0;
    return count;
}

static void levels(bale_rank *rank, uint32_t me, void *context) {
    search *my = (search *)context + me;
    while (bale_sum(rank, my->next_count) > 0) {
        size_t count = next_level(my);
        bale_begin(rank);
        for (size_t k = 0; k < count; k++)
            for (uint64_t at = my->g->starts[my->now[k]]; at < my->g->starts[my->now[k] + 1]; at++) {
                edge e = {my->now[k], my->g->targets[at]};
                bale_send(rank, &e, e.child % my->ranks, visit, my);
            }
        bale_finish(rank, visit, my);
    }
}

static void by_ranks(const graph *g, uint32_t root, uint32_t ranks, uint32_t *parents) {
    search *all = room(ranks, sizeof(search));
    for (uint32_t r = 0; r < ranks; r++) {
        size_t own = g->vertices / ranks + 1;
        all[r] = (search){g, parents, room(own, sizeof(uint32_t)), room(own, sizeof(uint32_t)), 0, ranks};
    }
    edge first = {root, root};
    visit(&all[root % ranks], &first, 0);
    bale_run(ranks, levels, all);
    for (uint32_t r = 0; r < ranks; r++) {
        free(all[r].next);
        free(all[r].now);
    }
    free(all);
}

/* The same by one loop on one thread, with the level of each vertex. */
static void by_one(const graph *g, uint32_t root, uint32_t *parents, uint32_t *level) {
    uint32_t *found = room(g->vertices, sizeof(uint32_t));
    size_t count = 1;
    found[0] = parents[root] = root;
    level[root] = 0;
    for (size_t k = 0; k < count; k++)
        for (uint64_t at = g->starts[found[k]]; at < g->starts[found[k] + 1]; at++) {
            uint32_t child = g->targets[at];
            if (parents[child] == NONE) {
                parents[child] = found[k];
                level[child] = level[found[k]] + 1;
                found[count++] = child;
            }
        }
    free(found);
}

#ifdef _OPENMP
/* The same by OpenMP: each level's vertices are shared out, and a compare and exchange gives the parent. */
static void by_openmp(const graph *g, uint32_t root, int threads, uint32_t *parents) {
    uint32_t *now = room(g->vertices, sizeof(uint32_t)), *next = room(g->vertices, sizeof(uint32_t));
    size_t count = 1;
    now[0] = parents[root] = root;
    while (count > 0) {
        size_t next_count = 0;
#pragma omp parallel for schedule(dynamic, 64) num_threads(threads)
        for (size_t k = 0; k < count; k++)
            for (uint64_t at = g->starts[now[k]]; at < g->starts[now[k] + 1]; at++) {
                uint32_t child = g->targets[at], none = NONE;
                if (__atomic_load_n(&parents[child], __ATOMIC_RELAXED) == NONE &&
                    __atomic_compare_exchange_n(&parents[child], &none, now[k], false, __ATOMIC_RELAXED, __ATOMIC_RELAXED))
                    next[__atomic_fetch_add(&next_count, 1, __ATOMIC_RELAXED)] = child;
            }
        uint32_t *spare = now;
        now = next, next = spare, count = next_count;
    }
    free(now);
    free(next);
}
#endif

/* How many vertices have a wrong parent: each is reached if the loop reached it, by an edge from the level before. */
static uint32_t wrong_parents(const graph *g, uint32_t root, const uint32_t *parents, const uint32_t *level) {
    uint32_t wrong = 0;
    for (uint32_t v = 0; v < g->vertices; v++) {
        uint32_t p = parents[v];
        if (p == NONE || level[v] == NONE || v == root)
            wrong += (p == NONE) != (level[v] == NONE) || (v == root && p != root);
        else
            wrong += level[p] + 1 != level[v] ||
                     bsearch(&p, g->targets + g->starts[v], g->starts[v + 1] - g->starts[v], sizeof p, by_number) == NULL;
    }
    return wrong;
}

int main(int argc, char **argv) {
    options o = options_of(argc, argv, "bfs [scale, 1 to 26", 14, 26);
    graph g = rmat((uint32_t)o.size);
    size_t bytes = (size_t)g.vertices * sizeof(uint32_t);
    uint32_t *parents = room(g.vertices, sizeof(uint32_t)), *level = room(g.vertices, sizeof(uint32_t)), root = 0, reached = 0;
    while (root + 1 < g.vertices && g.starts[root] == g.starts[root + 1])
        root++;
    memset(parents, 0xff, bytes);
    memset(level, 0xff, bytes);
    double began = seconds();
    by_one(&g, root, parents, level);
    took(o, "one loop", began);
    for (uint32_t v = 0; v < g.vertices; v++)
        reached += level[v] != NONE;
    uint32_t wrong = wrong_parents(&g, root, parents, level);
#ifdef _OPENMP
    memset(parents, 0xff, bytes);
    began = seconds();
    by_openmp(&g, root, (int)o.ranks, parents);
    took(o, "OpenMP", began);
    wrong += wrong_parents(&g, root, parents, level);
#endif
    memset(parents, 0xff, bytes);
    began = seconds();
    by_ranks(&g, root, o.ranks, parents);
    took(o, "bale", began);
    wrong += wrong_parents(&g, root, parents, level);
    unsigned long long edges = g.starts[g.vertices] / 2;
    printf("bfs: %u vertices, %llu edges, %u reached, %u wrong\n", g.vertices, edges, reached, wrong);
    free(parents);
    free(level);
    free_graph(g);
    return wrong != 0 || reached == 0;
}
