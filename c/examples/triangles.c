/* How many triangles an R-MAT graph has. Vertices are numbered by degree, and each edge goes from the lesser number
   to the greater. Vertex v belongs to rank v % ranks. For every two edges u to v and u to w, with v before w, the
   rank of u asks the rank of v for the edge from v to w.
   triangles [scale, 1 to 24 [ranks [times]]] */
#include "common.h"

/* Two ends whose edge would close a triangle. */
typedef struct {
    uint32_t v, w;
} wedge;

typedef struct {
    const graph *g;
    uint64_t found; /* by this rank */
    uint64_t all;
} count;

static bool has_edge(const graph *g, wedge it) {
    return bsearch(&it.w, g->targets + g->starts[it.v], g->starts[it.v + 1] - g->starts[it.v], sizeof it.w, by_number) != NULL;
}

static void close_wedge(void *context, const void *item, uint32_t from) {
    count *my = context;
    (void)from;
    my->found += has_edge(my->g, bale_value(wedge, item));
}

static void triangles(bale_rank *rank, uint32_t me, void *context) {
    count *my = (count *)context + me;
    const graph *g = my->g;
    uint32_t ranks = bale_ranks(rank);
    bale_begin(rank);
    for (uint32_t u = me; u < g->vertices; u += ranks)
        for (uint64_t a = g->starts[u]; a < g->starts[u + 1]; a++)
            for (uint64_t b = a + 1; b < g->starts[u + 1]; b++) {
                wedge it = {g->targets[a], g->targets[b]};
                bale_send(rank, &it, it.v % ranks, close_wedge, my);
            }
    bale_finish(rank, close_wedge, my);
    my->all = bale_sum(rank, my->found);
}

static uint64_t by_ranks(const graph *g, uint32_t ranks) {
    count *all = room(ranks, sizeof(count));
    for (uint32_t r = 0; r < ranks; r++)
        all[r].g = g;
    bale_run(ranks, triangles, all);
    uint64_t found = all[0].all;
    for (uint32_t r = 1; r < ranks; r++)
        if (all[r].all != found)
            found = UINT64_MAX;
    free(all);
    return found;
}

/* The same on one thread, or by OpenMP on several: how many neighbours the ends of each edge have in common. */
static uint64_t by_loop(const graph *g, int threads) {
    uint64_t found = 0;
    (void)threads;
#ifdef _OPENMP
#pragma omp parallel for schedule(dynamic, 64) num_threads(threads) reduction(+ : found)
#endif
    for (uint32_t u = 0; u < g->vertices; u++)
        for (uint64_t at = g->starts[u]; at < g->starts[u + 1]; at++) {
            uint32_t v = g->targets[at];
            for (uint64_t a = at + 1, b = g->starts[v]; a < g->starts[u + 1] && b < g->starts[v + 1];) {
                uint32_t x = g->targets[a], y = g->targets[b];
                found += x == y;
                a += x <= y;
                b += y <= x;
            }
        }
    return found;
}

static const uint64_t *degrees_from;

static int by_degree(const void *a, const void *b) {
    uint32_t x = *(const uint32_t *)a, y = *(const uint32_t *)b;
    uint64_t dx = degrees_from[x + 1] - degrees_from[x], dy = degrees_from[y + 1] - degrees_from[y];
    return dx != dy ? (dx > dy) - (dx < dy) : (x > y) - (x < y);
}

/* The graph with its vertices numbered by degree, and of each edge only the direction to the greater number. */
static graph directed(graph g) {
    graph d = {g.vertices, room((size_t)g.vertices + 1, sizeof(uint64_t)), room(g.starts[g.vertices] / 2, sizeof(uint32_t))};
    uint32_t *order = room(g.vertices, sizeof(uint32_t)), *number = room(g.vertices, sizeof(uint32_t));
    for (uint32_t v = 0; v < g.vertices; v++)
        order[v] = v;
    degrees_from = g.starts;
    qsort(order, g.vertices, sizeof(uint32_t), by_degree);
    for (uint32_t k = 0; k < g.vertices; k++)
        number[order[k]] = k;
    uint64_t kept = 0;
    for (uint32_t k = 0; k < g.vertices; k++) {
        d.starts[k] = kept;
        for (uint64_t at = g.starts[order[k]]; at < g.starts[order[k] + 1]; at++)
            if (number[g.targets[at]] > k)
                d.targets[kept++] = number[g.targets[at]];
        qsort(d.targets + d.starts[k], kept - d.starts[k], sizeof(uint32_t), by_number);
    }
    d.starts[g.vertices] = kept;
    free(order);
    free(number);
    return d;
}

int main(int argc, char **argv) {
    options o = options_of(argc, argv, "triangles [scale, 1 to 24", 12, 24);
    graph g = rmat((uint32_t)o.size), d = directed(g);
    double began = seconds();
    uint64_t wanted = by_loop(&d, 1);
    took(o, "one loop", began);
    bool wrong = false;
#ifdef _OPENMP
    began = seconds();
    wrong |= by_loop(&d, (int)o.ranks) != wanted;
    took(o, "OpenMP", began);
#endif
    began = seconds();
    uint64_t found = by_ranks(&d, o.ranks);
    took(o, "bale", began);
    wrong |= found != wanted;
    unsigned long long edges = d.starts[d.vertices], all = found;
    printf("triangles: %u vertices, %llu edges, %llu triangles%s\n", g.vertices, edges, all, wrong ? ", which is wrong" : "");
    free_graph(g);
    free_graph(d);
    return wrong;
}
