/* The closure of a graph, as straight C: the same algorithm, the same four graphs and the same output
   as crates/bench_closure. Two depth-first walks find the strong classes, which are numbered by their
   least members; then each edge between classes joins one row of bits to another. */
#include <stdint.h>
#include <stdio.h>
#include <stdlib.h>
#include <string.h>

enum { SIZE = 16384, NONE = -1 };

typedef struct { uint32_t from, to; } Edge;

static void *room(size_t bytes) {
    void *p = malloc(bytes ? bytes : 1);
    if (!p) { fputs("out of memory\n", stderr); exit(1); }
    return p;
}

/* For each vertex the last edge that leaves it, and for each edge the one before it that leaves the same vertex. */
typedef struct { int64_t *last, *earlier; } Links;

static Links link_edges(uint32_t n, const Edge *edges, size_t m) {
    Links l = { room(n * sizeof *l.last), room(m * sizeof *l.earlier) };
    for (uint32_t v = 0; v < n; v++) l.last[v] = NONE;
    for (size_t e = 0; e < m; e++) {
        l.earlier[e] = l.last[edges[e].from];
        l.last[edges[e].from] = (int64_t)e;
    }
    return l;
}

static void search(uint32_t n, const Edge *edges, Links l, const uint32_t *roots, uint32_t *tree_of, uint32_t *finished) {
    uint8_t *seen = room(n);
    int64_t *next = room(n * sizeof *next);
    uint32_t *path = room(n * sizeof *path);
    uint32_t depth = 0, done = 0, trees = 0;
    memset(seen, 0, n);
    memcpy(next, l.last, n * sizeof *next);
    for (uint32_t r = 0; r < n; r++) {
        if (seen[roots[r]]) continue;
        path[depth++] = roots[r];
        seen[roots[r]] = 1;
        tree_of[roots[r]] = trees;
        while (depth) {
            uint32_t v = path[depth - 1];
            int64_t e = next[v];
            if (e == NONE) {
                depth--;
                finished[done++] = v;
                continue;
            }
            next[v] = l.earlier[e];
            uint32_t w = edges[e].to;
            if (!seen[w]) {
                path[depth++] = w;
                seen[w] = 1;
                tree_of[w] = trees;
            }
        }
        trees++;
    }
    free(seen);
    free(next);
    free(path);
}

typedef struct { uint32_t classes, *class_of; uint8_t *cyclic; size_t width; uint64_t *before; } Reached;

static Reached close_graph(uint32_t n, const Edge *edges, size_t m) {
    Links along = link_edges(n, edges, m);
    uint32_t *all = room(n * sizeof *all), *tree_of = room(n * sizeof *tree_of), *finished = room(n * sizeof *finished);
    for (uint32_t v = 0; v < n; v++) all[v] = v;
    search(n, edges, along, all, tree_of, finished);
    for (uint32_t v = 0; v < n; v++) all[v] = finished[n - 1 - v];
    Edge *turned = room(m * sizeof *turned);
    for (size_t e = 0; e < m; e++) turned[e] = (Edge){ edges[e].to, edges[e].from };
    Links against = link_edges(n, turned, m);
    search(n, turned, against, all, tree_of, finished);

    Reached r = { 0, room(n * sizeof *r.class_of), NULL, 0, NULL };
    int64_t *number_of = room(n * sizeof *number_of);
    for (uint32_t t = 0; t < n; t++) number_of[t] = NONE;
    for (uint32_t v = 0; v < n; v++) {
        if (number_of[tree_of[v]] == NONE) number_of[tree_of[v]] = r.classes++;
        r.class_of[v] = (uint32_t)number_of[tree_of[v]];
    }
    r.cyclic = room(r.classes);
    memset(r.cyclic, 0, r.classes);
    for (size_t e = 0; e < m; e++)
        if (r.class_of[edges[e].from] == r.class_of[edges[e].to]) r.cyclic[r.class_of[edges[e].from]] = 1;

    r.width = ((size_t)r.classes + 63) / 64;
    r.before = room(r.classes * r.width * sizeof *r.before);
    memset(r.before, 0, r.classes * r.width * sizeof *r.before);
    for (uint32_t p = n; p-- > 0;) {
        uint32_t class = r.class_of[finished[p]];
        for (int64_t e = along.last[finished[p]]; e != NONE; e = along.earlier[e]) {
            uint32_t other = r.class_of[edges[e].to];
            if (other == class) continue;
            uint64_t *into = r.before + class * r.width;
            const uint64_t *from = r.before + other * r.width;
            into[other / 64] |= (uint64_t)1 << (other % 64);
            for (size_t k = 0; k < r.width; k++) into[k] |= from[k];
        }
    }
    free(along.last); free(along.earlier); free(against.last); free(against.earlier);
    free(all); free(tree_of); free(finished); free(turned); free(number_of);
    return r;
}

static uint32_t next_seed(uint32_t seed) { return seed * 1664525u + 1013904223u; }
static uint32_t number_at(uint32_t place) { return (place * 6061u + 1) % SIZE; }

static size_t edges_of(const char *graph, Edge *edges) {
    size_t m = 0;
    if (!strcmp(graph, "chain"))
        for (int i = 0; i < 4; i++)
            for (uint32_t at = 0; at < SIZE - 1; at++) edges[m++] = (Edge){ at, at + 1 };
    else if (!strcmp(graph, "cycle"))
        for (uint32_t at = 0; at < SIZE; at++) edges[m++] = (Edge){ at, (at + 1) % SIZE };
    else if (!strcmp(graph, "random")) {
        uint32_t seed = 1;
        for (int i = 0; i < 65536; i++) {
            seed = next_seed(seed);
            uint32_t one = (seed >> 16) % SIZE;
            seed = next_seed(seed);
            uint32_t other = (one + 1 + (seed >> 16) % (SIZE - 1)) % SIZE;
            edges[m++] = (Edge){ number_at(one < other ? one : other), number_at(one < other ? other : one) };
        }
    }
    return m;
}

int main(int argc, char **argv) {
    if (argc < 3) return 2;
    static Edge edges[65536];
    size_t m = edges_of(argv[1], edges);
    uint32_t classes = 0, joined = 0, ordered = 0;
    for (long i = atol(argv[2]); i > 0; i--) {
        Reached r = close_graph(SIZE, edges, m);
        uint32_t first = r.class_of[0], last = r.class_of[SIZE - 1];
        classes = r.classes;
        joined = r.cyclic[first];
        ordered = r.before[first * r.width + last / 64] >> (last % 64) & 1;
        free(r.class_of); free(r.cyclic); free(r.before);
    }
    printf("%s: %zu edges, %u classes\n0 on a cycle: %u; 0 before %d: %u\n", argv[1], m, classes, joined, SIZE - 1, ordered);
    return 0;
}
