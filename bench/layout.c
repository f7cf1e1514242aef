/* The layout of a strict order of classes, as straight C: the six rules over rows of 64-bit words, the same
   four orders and the same output as crates/bench_layout. Linked sets are found by the rows of the order and
   of the order turned round; a tangle counts for each class how many of those left are before it. */
#include <stdint.h>
#include <stdio.h>
#include <stdlib.h>
#include <string.h>

enum { DEEPEST = 64 };

static void *room(size_t bytes) {
    void *p = malloc(bytes ? bytes : 1);
    if (!p) { fputs("out of memory\n", stderr); exit(1); }
    return p;
}

static void *cleared(size_t bytes) { return memset(room(bytes), 0, bytes); }

/* ---- rows of bits */

static uint32_t n;
static size_t width;

static uint64_t *row_of(uint64_t *rows, uint32_t row) { return rows + row * width; }
static void set(uint64_t *row, uint32_t at) { row[at / 64] |= (uint64_t)1 << (at % 64); }
static void clear(uint64_t *row, uint32_t at) { row[at / 64] &= ~((uint64_t)1 << (at % 64)); }
/* the class that the lowest bit of a word stands for */
static uint32_t first_of(size_t at, uint64_t bits) { return (uint32_t)at * 64 + (uint32_t)__builtin_ctzll(bits); }
static int has(const uint64_t *row, uint32_t at) { return row[at / 64] >> (at % 64) & 1; }

/* ---- layouts */

typedef enum { ONE, SERIES, SIDES, TANGLE } Kind;
typedef struct { uint32_t *at; uint32_t len; } Classes;
typedef struct Layout { Kind kind; Classes classes; struct Layout *parts; uint32_t len; } Layout;

static void drop(Layout *l) {
    for (uint32_t i = 0; i < l->len; i++) drop(&l->parts[i]);
    free(l->parts);
    free(l->classes.at);
}

static void print_classes(Classes c) {
    for (uint32_t i = 0; i < c.len; i++) printf(i ? ", %u" : "%u", c.at[i]);
}

static void print(const Layout *l) {
    static const char *const NAMES[] = { "One(", "Series([", "Sides([", "Tangle([" };
    fputs(NAMES[l->kind], stdout);
    print_classes(l->classes);
    for (uint32_t i = 0; i < l->len; i++) {
        if (i) fputs(", ", stdout);
        print(&l->parts[i]);
    }
    fputs(l->kind == ONE ? ")" : "])", stdout);
}

/* ---- the rules */

typedef struct { uint64_t *before, *after; uint32_t *ranks; } Order;

/* Moves from the rest to the frontier the classes that a class is linked to. */
static void follow(Order o, int ordered, uint32_t class, uint64_t *restrict rest, uint64_t *restrict frontier) {
    const uint64_t *before = row_of(o.before, class), *after = row_of(o.after, class);
    uint64_t turn = ordered ? 0 : ~(uint64_t)0;
    for (size_t k = 0; k < width; k++) {
        uint64_t near = ((before[k] | after[k]) ^ turn) & rest[k];
        rest[k] ^= near;
        frontier[k] |= near;
    }
}

/* Takes out of the rest the classes that links within it join to the start. */
static Classes linked_set(Order o, int ordered, uint64_t *rest, uint32_t start) {
    uint64_t *found = cleared(width * 8), *frontier = cleared(width * 8);
    uint32_t len = 0;
    clear(rest, start);
    set(frontier, start);
    for (uint32_t last = 0;; last = len) {
        for (size_t at = 0; at < width; at++)
            while (frontier[at]) {
                uint32_t class = first_of(at, frontier[at]);
                clear(frontier, class);
                set(found, class);
                len++;
                follow(o, ordered, class, rest, frontier);
            }
        if (len == last) break;
    }
    Classes members = { room(len * sizeof *members.at), 0 };
    for (size_t at = 0; at < width; at++)
        for (uint64_t bits = found[at]; bits; bits &= bits - 1) members.at[members.len++] = first_of(at, bits);
    free(found);
    free(frontier);
    return members;
}

/* The linked sets that make up the classes, in the order of their first classes. Their count is `len`. */
static Classes *linked_sets(Order o, int ordered, Classes classes, uint32_t *len) {
    uint64_t *rest = cleared(width * 8);
    uint32_t space = 4;
    Classes *sets = room(space * sizeof *sets);
    *len = 0;
    for (uint32_t i = 0; i < classes.len; i++) set(rest, classes.at[i]);
    for (uint32_t i = 0; i < classes.len; i++) {
        if (!has(rest, classes.at[i])) continue;
        if (*len == space) {
            space *= 2;
            sets = realloc(sets, space * sizeof *sets);
            if (!sets) { fputs("out of memory\n", stderr); exit(1); }
        }
        sets[(*len)++] = linked_set(o, ordered, rest, classes.at[i]);
    }
    free(rest);
    return sets;
}

/* The classes, of which the least one with none left before it is taken again and again. */
static Classes tangle(Order o, Classes classes) {
    uint64_t *rest = cleared(width * 8), *free_ones = cleared(width * 8);
    uint32_t *counts = room(n * sizeof *counts);
    Classes taken = { room(classes.len * sizeof *taken.at), 0 };
    for (uint32_t i = 0; i < classes.len; i++) set(rest, classes.at[i]);
    for (uint32_t i = 0; i < classes.len; i++) {
        const uint64_t *after = row_of(o.after, classes.at[i]);
        uint32_t count = 0;
        for (size_t k = 0; k < width; k++) count += (uint32_t)__builtin_popcountll(after[k] & rest[k]);
        counts[classes.at[i]] = count;
        if (!count) set(free_ones, classes.at[i]);
    }
    for (size_t at = 0; at < width;) {
        if (!free_ones[at]) { at++; continue; }
        uint32_t class = first_of(at, free_ones[at]);
        const uint64_t *before = row_of(o.before, class);
        clear(free_ones, class);
        taken.at[taken.len++] = class;
        for (size_t k = 0; k < width; k++)
            for (uint64_t bits = before[k] & rest[k]; bits; bits &= bits - 1) {
                uint32_t later = first_of(k, bits);
                if (--counts[later]) continue;
                set(free_ones, later);
                if (k < at) at = k;
            }
    }
    free(rest);
    free(free_ones);
    free(counts);
    return taken;
}

/* The classes by rising rank, the smaller ones first where ranks are equal. */
static Classes by_rank(Order o, Classes classes) {
    uint32_t *places = cleared((n + 1) * sizeof *places);
    Classes sorted = { room(classes.len * sizeof *sorted.at), classes.len };
    for (uint32_t i = 0; i < classes.len; i++) places[o.ranks[classes.at[i]] + 1]++;
    for (uint32_t r = 0; r < n; r++) places[r + 1] += places[r];
    for (uint32_t i = 0; i < classes.len; i++) sorted.at[places[o.ranks[classes.at[i]]]++] = classes.at[i];
    free(places);
    return sorted;
}

static Layout lay_set(Order o, int depth, Classes classes);

static Layout lay_sets(Order o, int depth, Kind kind, Classes *sets, uint32_t len) {
    Layout l = { kind, { NULL, 0 }, room(len * sizeof *l.parts), len };
    for (uint32_t i = 0; i < len; i++) {
        l.parts[i] = lay_set(o, depth, sets[i]);
        free(sets[i].at);
    }
    free(sets);
    return l;
}

static Layout lay_set(Order o, int depth, Classes classes) {
    if (!classes.len) return (Layout){ SERIES, { NULL, 0 }, NULL, 0 };
    if (classes.len == 1) {
        Layout l = { ONE, { room(sizeof *l.classes.at), 1 }, NULL, 0 };
        l.classes.at[0] = classes.at[0];
        return l;
    }
    if (depth < DEEPEST) {
        uint32_t len;
        Classes ranked = by_rank(o, classes);
        Classes *sets = linked_sets(o, 0, ranked, &len);
        free(ranked.at);
        if (len > 1) return lay_sets(o, depth + 1, SERIES, sets, len);
        free(sets[0].at);
        free(sets);
        sets = linked_sets(o, 1, classes, &len);
        if (len > 1) return lay_sets(o, depth + 1, SIDES, sets, len);
        free(sets[0].at);
        free(sets);
    }
    return (Layout){ TANGLE, tangle(o, classes), NULL, 0 };
}

static Layout lay(uint64_t *before) {
    Order o = { before, cleared(n * width * 8), room(n * sizeof *o.ranks) };
    Classes all = { room(n * sizeof *all.at), n };
    for (size_t block = 0; block < width; block++)
        for (uint32_t row = 0; row < n; row++)
            for (uint64_t bits = row_of(before, row)[block]; bits; bits &= bits - 1)
                set(row_of(o.after, first_of(block, bits)), row);
    for (uint32_t class = 0; class < n; class++) {
        all.at[class] = class;
        o.ranks[class] = 0;
        for (size_t k = 0; k < width; k++) o.ranks[class] += (uint32_t)__builtin_popcountll(row_of(o.after, class)[k]);
    }
    Layout l = lay_set(o, 0, all);
    free(o.after);
    free(o.ranks);
    free(all.at);
    return l;
}

/* ---- the orders */

static uint32_t next_seed(uint32_t seed) { return seed * 1664525u + 1013904223u; }

/* The class that has a place in the order. The places of all classes differ where n is a power of two. */
static uint32_t class_at(uint32_t place) { return (place * 6061u + 1) % n; }

/* Puts in what follows from the pairs, where the classes stand in an order of places. */
static void close_rows(uint64_t *before) {
    uint64_t *old = room(width * 8);
    for (uint32_t place = n; place-- > 0;) {
        uint64_t *row = row_of(before, class_at(place));
        memcpy(old, row, width * 8);
        for (size_t k = 0; k < width; k++)
            for (uint64_t bits = old[k]; bits; bits &= bits - 1) {
                const uint64_t *later = row_of(before, first_of(k, bits));
                for (size_t j = 0; j < width; j++) row[j] |= later[j];
            }
    }
    free(old);
}

static uint64_t *order_of(const char *word) {
    uint64_t *before = cleared(n * width * 8);
    if (!strcmp(word, "chain") || !strcmp(word, "nested"))
        for (uint32_t x = 0; x < n; x += word[0] == 'c' ? 1 : 2)
            for (uint32_t y = x + 1; y < n; y++) set(row_of(before, x), y);
    else if (!strcmp(word, "random")) {
        uint32_t seed = 1;
        for (uint32_t i = 0; i < 4 * n; i++) {
            seed = next_seed(seed);
            uint32_t one = (seed >> 16) % n;
            seed = next_seed(seed);
            uint32_t other = (seed >> 16) % n;
            if (one == other) continue;
            set(row_of(before, class_at(one < other ? one : other)), class_at(one < other ? other : one));
        }
        close_rows(before);
    }
    return before;
}

int main(int argc, char **argv) {
    if (argc < 4) return 2;
    n = (uint32_t)atol(argv[2]);
    width = ((size_t)n + 63) / 64;
    uint64_t *before = order_of(argv[1]);
    for (long i = atol(argv[3]); i > 1; i--) {
        Layout l = lay(before);
        drop(&l);
    }
    Layout l = lay(before);
    print(&l);
    puts("");
    drop(&l);
    free(before);
    return 0;
}
