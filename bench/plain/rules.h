/* The four rules in plain C: what they say of an octagon, and the cuts they propose (docs/RULES.md). */
#ifndef PLAIN_RULES_H
#define PLAIN_RULES_H

#include "octagon.h"

#define CUT_MOST 2000000

typedef enum { PAIR = 2, SUM = 3, APART = 5, STEP = 6 } Kind;
typedef enum { NOTHING, ALL, UNKNOWN } Verdict;

typedef struct {
    Kind kind;
    union {
        Cut pair;
        struct {
            int setting[3];
            int32_t coefficient[3], most;
        } sum;
        struct {
            int a, b;
            int32_t distance;
        } apart;
        struct {
            int a;
            int32_t modulus, rest;
        } step;
    };
} Rule;

/* What a divided by m leaves, rounded down, m above 0. */
static inline int32_t rest_of(int32_t a, int32_t m)
{
    int32_t r = a % m;
    return r < 0 ? r + m : r;
}

static inline int32_t divided(int32_t a, int32_t m) { return (a - rest_of(a, m)) / m; }

static inline int32_t term_least(const Rule *r, const Octagon *o, int i)
{
    int32_t k = r->sum.coefficient[i];
    return k * (k < 0 ? high(o, r->sum.setting[i]) : low(o, r->sum.setting[i]));
}

static inline int32_t term_most(const Rule *r, const Octagon *o, int i)
{
    int32_t k = r->sum.coefficient[i];
    return k * (k < 0 ? low(o, r->sum.setting[i]) : high(o, r->sum.setting[i]));
}

static inline int32_t gap_least(const Rule *r, const Octagon *o)
{
    return -o->limits[2 * r->apart.a + 1][2 * r->apart.b];
}

static inline int32_t gap_most(const Rule *r, const Octagon *o)
{
    return o->limits[2 * r->apart.a][2 * r->apart.b + 1];
}

/* The greatest value up to the high that leaves the rest, and the least from the low. */
static inline int32_t step_most(const Rule *r, const Octagon *o)
{
    int32_t z = high(o, r->step.a);
    return z - rest_of(z - r->step.rest, r->step.modulus);
}

static inline int32_t step_least(const Rule *r, const Octagon *o)
{
    int32_t z = low(o, r->step.a);
    return z + rest_of(r->step.rest - z, r->step.modulus);
}

static inline Verdict verdict(bool none, bool all) { return none ? NOTHING : all ? ALL : UNKNOWN; }

static inline Verdict judge(const Rule *r, const Octagon *o)
{
    int32_t least, most, d;
    switch (r->kind) {
    case PAIR:
        least = -o->limits[r->pair.p ^ 1][r->pair.q ^ 1];
        most = o->limits[r->pair.p][r->pair.q];
        return verdict(least > r->pair.c, most <= r->pair.c);
    case SUM:
        least = term_least(r, o, 0) + term_least(r, o, 1) + term_least(r, o, 2);
        most = term_most(r, o, 0) + term_most(r, o, 1) + term_most(r, o, 2);
        return verdict(least > r->sum.most, most <= r->sum.most);
    case APART:
        least = gap_least(r, o);
        most = gap_most(r, o);
        d = r->apart.distance;
        return verdict(most < d && least > -d, least >= d || most <= -d);
    default:
        least = low(o, r->step.a);
        return verdict(step_most(r, o) < least, least == high(o, r->step.a));
    }
}

/* The cut that bounds v(p) by b, if one can say so. */
static inline bool bound(int p, int32_t b, Cut *t)
{
    if (2 * b > CUT_MOST)
        return false;
    *t = (Cut){p, p, 2 * b < -CUT_MOST ? -CUT_MOST : 2 * b};
    return true;
}

static inline bool propose_sum(const Rule *r, const Octagon *o, int i, Cut *t)
{
    int32_t k = r->sum.coefficient[i];
    if (k == 0)
        return false;
    int32_t room = r->sum.most - term_least(r, o, (i + 1) % 3) - term_least(r, o, (i + 2) % 3);
    return k > 0 ? bound(2 * r->sum.setting[i], divided(room, k), t)
                 : bound(2 * r->sum.setting[i] + 1, divided(room, -k), t);
}

static inline bool propose_apart(const Rule *r, const Octagon *o, Cut *t)
{
    int a = 2 * r->apart.a, b = 2 * r->apart.b;
    int32_t d = r->apart.distance;
    if (gap_most(r, o) < d)
        *t = (Cut){a, b + 1, -d};
    else if (gap_least(r, o) > -d)
        *t = (Cut){a + 1, b, -d};
    else
        return false;
    return true;
}

/* How many cuts a rule may propose. */
static inline int proposals(const Rule *r)
{
    return r->kind == SUM ? 3 : r->kind == STEP ? 2 : 1;
}

/* Cut i of a rule, if it proposes one. */
static inline bool propose(const Rule *r, const Octagon *o, int i, Cut *t)
{
    switch (r->kind) {
    case PAIR:
        *t = r->pair;
        return true;
    case SUM:
        return propose_sum(r, o, i, t);
    case APART:
        return propose_apart(r, o, t);
    default:
        return i == 0 ? bound(2 * r->step.a, step_most(r, o), t)
                      : bound(2 * r->step.a + 1, -step_least(r, o), t);
    }
}

#endif
