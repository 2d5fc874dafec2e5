/* Builds the same functions, in the same order of flips, with the proved tables and with BuDDy, and prints nodes and times. */
#include <bdd.h>
#include <stdbool.h>
#include <stddef.h>
#include <stdint.h>
#include <stdio.h>
#include <stdlib.h>
#include <string.h>
#include <time.h>

/* As crates/diagram and crates/diagram_c declare them; a slice is a pointer and then a length. */
typedef struct { uint8_t flip; uint16_t low, high; } Node;
typedef struct { uint16_t first, second, third, result; } MemoItem;
typedef struct { size_t used; uint16_t reference; bool full; } Formed;
void diagram_clear(Node *nodes, size_t nodes_len, MemoItem *memo, size_t memo_len);
Formed diagram_outcome(Node *nodes, size_t nodes_len, MemoItem *memo, size_t memo_len, size_t used, uint8_t flip);
Formed diagram_if_then_else(Node *nodes, size_t nodes_len, MemoItem *memo, size_t memo_len, size_t used, uint16_t first, uint16_t second, uint16_t third);

#define MOST 16384

static Node nodes[MOST];
static MemoItem memo[MOST];
static size_t node_count, memo_count, used;
static bool was_full;

typedef struct {
    int (*flip)(int);
    int (*ite)(int, int, int);
} Engine;

static int keep(Formed f) {
    was_full |= f.full;
    used = f.used;
    return f.reference;
}
static int own_flip(int i) { return keep(diagram_outcome(nodes, node_count, memo, memo_count, used, (uint8_t)i)); }
static int own_ite(int f, int g, int h) {
    return keep(diagram_if_then_else(nodes, node_count, memo, memo_count, used, (uint16_t)f, (uint16_t)g, (uint16_t)h));
}
static int buddy_flip(int i) { return bdd_ithvar(i); }
static int buddy_ite(int f, int g, int h) { return bdd_addref(bdd_ite(f, g, h)); }
static const Engine own = { own_flip, own_ite };
static const Engine buddy = { buddy_flip, buddy_ite };

static int negate(const Engine *e, int f) { return e->ite(f, 0, 1); }
static int both(const Engine *e, int f, int g) { return e->ite(f, g, 0); }
static int either(const Engine *e, int f, int g) { return e->ite(f, 1, g); }
static int differ(const Engine *e, int f, int g) { return e->ite(f, negate(e, g), g); }
static int majority(const Engine *e, int a, int b, int c) { return either(e, both(e, a, b), both(e, c, either(e, a, b))); }

/* from the last flip to the first */
static int parity_up(const Engine *e, int n) {
    int r = 0;
    for (int i = n - 1; i >= 0; i--) r = differ(e, e->flip(i), r);
    return r;
}

/* from the first flip to the last: every step makes all nodes afresh */
static int parity_down(const Engine *e, int n) {
    int r = 0;
    for (int i = 0; i < n; i++) r = differ(e, r, e->flip(i));
    return r;
}

/* the carry and the sums of two n-bit numbers; `apart`: all flips of the first number before those of the second */
static int adder(const Engine *e, int n, bool apart) {
    int carry = 0;
    for (int i = 0; i < n; i++) {
        int a = e->flip(apart ? i : 2 * i), b = e->flip(apart ? n + i : 2 * i + 1);
        differ(e, differ(e, a, b), carry);
        carry = majority(e, a, b, carry);
    }
    return carry;
}
static int adder_interleaved(const Engine *e, int n) { return adder(e, n, false); }
static int adder_apart(const Engine *e, int n) { return adder(e, n, true); }

/* at least half of n, from the last flip to the first */
static int threshold_up(const Engine *e, int n) {
    int k = n / 2, row[257];
    for (int j = 0; j <= k; j++) row[j] = j == 0;
    for (int i = n - 1; i >= 0; i--) {
        int x = e->flip(i);
        for (int j = k; j > 0; j--) row[j] = e->ite(x, row[j - 1], row[j]);
    }
    return row[k];
}

/* at least half of n, from the first flip to the last: every step goes through all nodes so far */
static int threshold_down(const Engine *e, int n) {
    int k = n / 2, row[257];
    for (int j = 0; j <= k; j++) row[j] = j == 0;
    for (int i = 0; i < n; i++) {
        int x = e->flip(i);
        for (int j = k; j > 0; j--) row[j] = either(e, row[j], both(e, x, row[j - 1]));
    }
    return row[k];
}

/* the n lowest bits of the product of two n-bit numbers */
static int multiplier(const Engine *e, int n) {
    int sum[16] = { 0 };
    for (int i = 0; i < n; i++) {
        int carry = 0;
        for (int j = 0; i + j < n; j++) {
            int p = both(e, e->flip(i), e->flip(n + j)), s = sum[i + j];
            sum[i + j] = differ(e, differ(e, s, p), carry);
            carry = majority(e, s, p, carry);
        }
    }
    return sum[n - 1];
}

/* n queens, none of which attacks another */
static int queens(const Engine *e, int n) {
    int all = 1;
    for (int i = 0; i < n; i++) {
        int some = 0;
        for (int j = 0; j < n; j++) some = either(e, some, e->flip(i * n + j));
        all = both(e, all, some);
        for (int j = 0; j < n; j++)
            for (int k = 0; k < n; k++)
                for (int l = 0; l < n; l++) {
                    bool attacks = k >= i && (k != i || l > j) && (k == i || l == j || abs(k - i) == abs(l - j));
                    if (attacks) all = both(e, all, e->ite(e->flip(i * n + j), negate(e, e->flip(k * n + l)), 1));
                }
    }
    return all;
}

static double now(void) {
    struct timespec t;
    clock_gettime(CLOCK_MONOTONIC, &t);
    return t.tv_sec + t.tv_nsec * 1e-9;
}

typedef struct { double start, build; long made; } Run;

static Run run_own(int (*f)(const Engine *, int), int n, size_t size) {
    Run r;
    node_count = memo_count = size;
    double a = now();
    diagram_clear(nodes, node_count, memo, memo_count);
    used = 0;
    double b = now();
    f(&own, n);
    double c = now();
    r.start = b - a, r.build = c - b, r.made = (long)used;
    return r;
}
static Run run_buddy(int (*f)(const Engine *, int), int n, size_t size, int flips) {
    Run r;
    double a = now();
    bdd_init((int)size * 2, (int)size);
    bdd_setvarnum(flips);
    double b = now();
    f(&buddy, n);
    double c = now();
    r.start = b - a, r.build = c - b, r.made = bdd_getnodenum();
    bdd_done();
    return r;
}

static void least(Run *r, Run s) {
    if (s.start < r->start) r->start = s.start;
    if (s.build < r->build) r->build = s.build;
    r->made = s.made;
}

int main(void) {
    struct { const char *name; int (*f)(const Engine *, int); int n, flips; size_t size; } cases[] = {
        { "parity, from the last", parity_up, 100, 100, 2048 },
        { "parity, from the first", parity_down, 20, 20, 2048 },
        { "adder, interleaved", adder_interleaved, 8, 16, 2048 },
        { "adder, interleaved", adder_interleaved, 9, 18, 2048 },
        { "threshold, from the last", threshold_up, 36, 36, 2048 },
        { "threshold, from the first", threshold_down, 12, 12, 2048 },
        { "multiplier", multiplier, 4, 8, 2048 },
        { "queens", queens, 3, 9, 2048 },
        { "queens", queens, 4, 16, 2048 },
        { "threshold, from the last", threshold_up, 70, 70, 2048 },
        { "parity, from the first", parity_down, 120, 120, 16384 },
        { "adder, apart", adder_apart, 10, 20, 16384 },
        { "threshold, from the last", threshold_up, 204, 204, 16384 },
        { "threshold, from the first", threshold_down, 38, 38, 16384 },
        { "multiplier", multiplier, 6, 12, 16384 },
        { "multiplier", multiplier, 7, 14, 16384 },
        { "multiplier", multiplier, 8, 16, 16384 },
        { "queens", queens, 5, 25, 16384 },
    };
    bdd_gbc_hook(NULL);
    printf("%-27s %5s %8s %8s %11s %11s %7s %11s %11s %7s\n", "function", "n", "nodes", "BuDDy's", "build us", "BuDDy us", "ratio", "all us", "BuDDy us", "ratio");
    for (size_t i = 0; i < sizeof cases / sizeof *cases; i++) {
        was_full = false;
        Run a = { 1e9, 1e9, 0 }, b = { 1e9, 1e9, 0 };
        int times = cases[i].size > 2048 ? 5 : 200;
        for (int k = 0; k < times; k++) {
            least(&a, run_own(cases[i].f, cases[i].n, cases[i].size));
            least(&b, run_buddy(cases[i].f, cases[i].n, cases[i].size, cases[i].flips));
        }
        printf("%-27s %5d %8ld %8ld %11.1f %11.1f %7.2f %11.1f %11.1f %7.2f%s\n", cases[i].name, cases[i].n, a.made, b.made, a.build * 1e6, b.build * 1e6,
               a.build / b.build, (a.start + a.build) * 1e6, (b.start + b.build) * 1e6, (a.start + a.build) / (b.start + b.build), was_full ? " full" : "");
        fflush(stdout);
    }
    return 0;
}
