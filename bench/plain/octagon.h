/* The octagon in plain C: a limit for each pair of nodes, kept tight by taking in one cut at a time. */
#ifndef PLAIN_OCTAGON_H
#define PLAIN_OCTAGON_H

#include <stdbool.h>
#include <stdint.h>

#define NODES 16

/* limits[p][q] bounds v(p) + v(q); node 2k is setting k, node 2k + 1 its negative. All are 0 once it is empty. */
typedef struct {
    int n;
    bool empty;
    int32_t limits[NODES][NODES];
} Octagon;

typedef struct {
    int p, q;
    int32_t c;
} Cut;

static inline int32_t lesser(int32_t a, int32_t b) { return b < a ? b : a; }

static inline int32_t low(const Octagon *o, int k) { return -(o->limits[2 * k + 1][2 * k + 1] >> 1); }

static inline int32_t high(const Octagon *o, int k) { return o->limits[2 * k][2 * k] >> 1; }

static inline void start(Octagon *o, int n, const int32_t *lows, const int32_t *highs)
{
    int32_t top[NODES] = {0};
    o->n = n;
    o->empty = false;
    for (int k = 0; k < n; k++) {
        top[2 * k] = highs[k];
        top[2 * k + 1] = -lows[k];
    }
    for (int p = 0; p < NODES; p++)
        for (int q = 0; q < NODES; q++)
            o->limits[p][q] = p >= 2 * n || q >= 2 * n || q == (p ^ 1) ? 0 : top[p] + top[q];
}

/* Gives each limit the least of five ways: past the cut, once over it in either direction, twice in either order; then
   rounds the diagonal down to even numbers and joins its halves. The cut bounds v(a') + v(b') by c. */
static inline void lower(Octagon *o, int a, int b, int32_t c)
{
    int32_t to_a[NODES], to_b[NODES], by_a[NODES], by_b[NODES], half[NODES];
    int w = 2 * o->n;
    for (int i = 0; i < NODES; i++) {
        to_a[i] = o->limits[a][i];
        to_b[i] = o->limits[b][i];
    }
    for (int i = 0; i < NODES; i++) {
        by_b[i] = lesser(to_a[i] + c, to_b[i] + c + to_a[a] + c);
        by_a[i] = lesser(to_b[i] + c, to_a[i] + c + to_b[b] + c);
    }
    for (int i = 0; i < NODES; i++)
        half[i] = lesser(o->limits[i][i], lesser(by_b[i] + to_b[i], by_a[i] + to_a[i])) >> 1;
    for (int i = 0; i < w; i++)
        for (int j = 0; j < w; j++)
            o->limits[i][j] = lesser(lesser(o->limits[i][j], half[i] + half[j]),
                                     lesser(by_b[i] + to_b[j], by_a[i] + to_a[j]));
}

/* Keeps the points with v(p) + v(q) <= c; says whether a limit was lowered. A tight limit is reached by a point, so the
   two tests at the front decide whether anything changes and whether anything is left. */
static inline bool take_cut(Octagon *o, Cut t)
{
    if (o->empty || t.p >= 2 * o->n || t.q >= 2 * o->n || o->limits[t.p][t.q] <= t.c)
        return false;
    if (t.c + o->limits[t.p ^ 1][t.q ^ 1] < 0) {
        *o = (Octagon){.n = o->n, .empty = true};
        return true;
    }
    lower(o, t.p ^ 1, t.q ^ 1, t.c);
    return true;
}

/* Whether some setting has two values or more. */
static inline bool is_open(const Octagon *o)
{
    for (int k = 0; k < o->n; k++)
        if (low(o, k) < high(o, k))
            return true;
    return false;
}

/* Splits at the middle of the widest range, the first among equals: the octagon keeps the values above it. */
static inline void split(Octagon *upper, Octagon *lower_part)
{
    int k = 0;
    for (int i = 1; i < upper->n; i++)
        if (high(upper, i) - low(upper, i) > high(upper, k) - low(upper, k))
            k = i;
    int32_t middle = (low(upper, k) + high(upper, k)) >> 1;
    *lower_part = *upper;
    take_cut(lower_part, (Cut){2 * k, 2 * k, 2 * middle});
    take_cut(upper, (Cut){2 * k + 1, 2 * k + 1, -2 * (middle + 1)});
}

/* The least point, setting 0 compared first. */
static inline void least_point(const Octagon *o, int32_t *x)
{
    for (int k = 0; k < o->n; k++) {
        x[k] = low(o, k);
        for (int i = 0; i < k; i++) {
            int32_t above = x[i] - o->limits[2 * i][2 * k + 1];
            int32_t below = -x[i] - o->limits[2 * i + 1][2 * k + 1];
            x[k] = above > x[k] ? above : x[k];
            x[k] = below > x[k] ? below : x[k];
        }
    }
}

#endif
