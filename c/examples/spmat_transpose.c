/* The transpose of a sparse matrix in compressed rows (CSR) that is dealt out by rows over the
   ranks: each rank sends its entries to the ranks that will have their columns as rows, many a
   call. Twice transposed is the matrix itself, with the columns of each row in order. */
#include <bale_run.h>
#include "ranks.h"
#include <string.h>

enum { ROWS = 20000, MOST_A_ROW = 20, AT_ONCE = 512 };

/* The rows number, number + RANKS, .. of a square matrix: row k of these has the entries starts[k]
   to starts[k + 1], by column. */
typedef struct {
    uint32_t rows;
    size_t *starts;
    uint64_t *columns;
    uint64_t *values;
} part;

typedef struct {
    bale_rank handle;
    uint32_t number;
    part in;
    part out;
} rank;

static void *room(size_t count, size_t size) {
    void *p = calloc(count + 1, size);
    if (p == NULL)
        exit(1);
    return p;
}

typedef struct {
    uint64_t row, column, value;
} entry;

static int by_place(const void *a, const void *b) {
    const entry *x = a, *y = b;
    if (x->row != y->row)
        return x->row < y->row ? -1 : 1;
    return x->column < y->column ? -1 : x->column > y->column;
}

static void *transpose(void *arg) {
    rank *me = arg;
    size_t next = 0, all = me->in.starts[me->in.rows], came = 0, most = 1024;
    uint32_t row = 0;
    entry *entries = room(most, sizeof(entry));
    want("bale_begin", bale_begin(&me->handle), BALE_OK);
    while (bale_going(&me->handle, next == all)) {
        bale_item items[AT_ONCE];
        uint32_t to[AT_ONCE], from[AT_ONCE];
        size_t count = 0, at = next;
        for (uint32_t k = row; count < AT_ONCE && at < all; at++, count++) {
            while (me->in.starts[k + 1] <= at)
                k++;
            to[count] = (uint32_t)(me->in.columns[at] % RANKS);
            items[count] = (bale_item){me->in.columns[at], (uint64_t)k * RANKS + me->number, me->in.values[at]};
        }
        if (next < all) {
            int64_t pushed = bale_push_many(&me->handle, items, count, to, count);
            if (pushed < 0)
                want("bale_push_many", (int32_t)pushed, BALE_OK);
            next += (size_t)pushed;
        }
        while (row < me->in.rows && me->in.starts[row + 1] <= next)
            row++;
        int64_t pulled;
        while ((pulled = bale_pull_many(&me->handle, items, AT_ONCE, from, AT_ONCE)) > 0)
            for (int64_t k = 0; k < pulled; k++) {
                if (came == most) {
                    entry *more = realloc(entries, 2 * most * sizeof(entry));
                    if (more == NULL)
                        exit(1);
                    entries = more;
                    most *= 2;
                }
                entries[came++] = (entry){items[k].a, items[k].b, items[k].c};
            }
    }
    want("bale_reset", bale_reset(&me->handle), BALE_OK);
    qsort(entries, came, sizeof(entry), by_place);
    me->out = (part){me->in.rows, room(me->in.rows + 1, sizeof(size_t)), room(came, sizeof(uint64_t)), room(came, sizeof(uint64_t))};
    for (size_t k = 0; k < came; k++) {
        me->out.starts[entries[k].row / RANKS + 1]++;
        me->out.columns[k] = entries[k].column;
        me->out.values[k] = entries[k].value;
    }
    for (uint32_t k = 0; k < me->out.rows; k++)
        me->out.starts[k + 1] += me->out.starts[k];
    free(entries);
    return NULL;
}

static void free_part(part *p) {
    free(p->starts);
    free(p->columns);
    free(p->values);
}

/* A part with up to MOST_A_ROW entries a row. */
static part random_part(uint32_t number) {
    part p = {ROWS / RANKS, room(ROWS / RANKS + 1, sizeof(size_t)), room(ROWS / RANKS * MOST_A_ROW, sizeof(uint64_t)), room(ROWS / RANKS * MOST_A_ROW, sizeof(uint64_t))};
    uint64_t seed = number + 99;
    size_t at = 0;
    for (uint32_t k = 0; k < p.rows; k++) {
        uint64_t column = random_of(&seed) % 200;
        for (uint64_t many = random_of(&seed) % (MOST_A_ROW + 1); many > 0 && column < ROWS; many--) {
            p.columns[at] = column;
            p.values[at++] = random_of(&seed);
            column += 1 + random_of(&seed) % 2000;
        }
        p.starts[k + 1] = at;
    }
    return p;
}

int main(void) {
    bale_group group = {0};
    rank ranks[RANKS] = {0};
    part first[RANKS];
    make_ranks(&group, &ranks[0].handle, sizeof(rank));
    size_t entries = 0;
    for (uint32_t r = 0; r < RANKS; r++) {
        ranks[r].number = r;
        ranks[r].in = first[r] = random_part(r);
        entries += first[r].starts[first[r].rows];
    }
    on_threads(transpose, ranks, sizeof(rank));
    size_t moved = 0, wrong = 0;
    for (uint32_t r = 0; r < RANKS; r++) {
        part *p = &ranks[r].out;
        moved += p->starts[p->rows];
        for (size_t k = 0; k < p->starts[p->rows]; k++)
            wrong += p->columns[k] >= ROWS;
        ranks[r].in = ranks[r].out;
    }
    on_threads(transpose, ranks, sizeof(rank));
    for (uint32_t r = 0; r < RANKS; r++) {
        part *p = &ranks[r].out;
        size_t all = first[r].starts[first[r].rows];
        if (p->starts[p->rows] != all)
            wrong++;
        else
            wrong += memcmp(p->starts, first[r].starts, (p->rows + 1) * sizeof(size_t)) != 0 ||
                     memcmp(p->columns, first[r].columns, all * sizeof(uint64_t)) != 0 || memcmp(p->values, first[r].values, all * sizeof(uint64_t)) != 0;
        free_part(&ranks[r].in);
        free_part(p);
        free_part(&first[r]);
        want("bale_rank_free", bale_rank_free(&ranks[r].handle), BALE_OK);
    }
    want("bale_group_free", bale_group_free(&group), BALE_OK);
    printf("spmat_transpose: %zu entries, %zu moved, %zu wrong\n", entries, moved, wrong);
    return moved != entries || wrong != 0;
}
