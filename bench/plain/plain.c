/* The entry point of include/offsets.h in plain C, by the same algorithm: what the proved one is measured beside. */
#include "../../include/offsets.h"
#include "reading.h"

#define STACK_PLACES 169
#define ROUNDS 8

static uint8_t *put_byte(uint8_t *out, int byte)
{
    static const char digits[] = "0123456789ABCDEF";
    out[0] = (uint8_t)digits[byte >> 4 & 15];
    out[1] = (uint8_t)digits[byte & 15];
    return out + 2;
}

static uint8_t *put_word(uint8_t *out, int32_t word)
{
    for (int shift = 24; shift >= 0; shift -= 8)
        out = put_byte(out, (int)((uint32_t)word >> shift));
    return out;
}

static uint8_t *put_feed(uint8_t *out)
{
    *out = '\n';
    return out + 1;
}

static uint8_t *put_fault(uint8_t *out, Fault fault)
{
    out = put_byte(put_byte(put_byte(out, 0x1E), fault.number), fault.layer);
    out = put_byte(put_byte(out, fault.line >> 8), fault.line);
    return put_feed(put_byte(put_byte(out, fault.place >> 8), fault.place));
}

static uint8_t *put_end(uint8_t *out, int outcome, bool found, uint32_t steps)
{
    out = put_byte(put_byte(put_byte(out, 0x1F), outcome), found);
    return put_feed(put_word(out, (int32_t)steps));
}

/* A region's point, its ranges, and each limit that says more than the ranges do. */
static uint8_t *put_region(uint8_t *out, const Octagon *o)
{
    int32_t x[8];
    least_point(o, x);
    out = put_byte(put_byte(out, 0x10), o->n);
    for (int k = 0; k < o->n; k++)
        out = put_word(out, x[k]);
    out = put_byte(put_byte(put_feed(out), 0x01), o->n);
    for (int k = 0; k < o->n; k++)
        out = put_word(put_word(out, low(o, k)), high(o, k));
    out = put_feed(out);
    for (int p = 0; p < 2 * o->n; p++)
        for (int q = p + 1; q < 2 * o->n; q++)
            if (q != (p ^ 1) && o->limits[p][q] < (o->limits[p][p] + o->limits[q][q]) >> 1) {
                out = put_byte(put_byte(put_byte(out, 0x02), p), q);
                out = put_feed(put_word(out, o->limits[p][q]));
            }
    return out;
}

/* Up to eight rounds over the rules' cuts, until one lowers no limit or the region is no longer open. */
static void refine(const Problem *problem, Octagon *o)
{
    Cut t;
    bool altered = true;
    if (!is_open(o))
        return;
    for (int round = 0; round < ROUNDS && altered; round++) {
        altered = false;
        for (const Rule *r = problem->rules; r < problem->rules + problem->count; r++)
            for (int i = 0; i < proposals(r); i++)
                if (propose(r, o, i, &t) && take_cut(o, t)) {
                    altered = true;
                    if (!is_open(o))
                        return;
                }
    }
}

/* Nothing: no point of the region meets the rules. All: every one does. */
static Verdict classify(const Problem *problem, const Octagon *o)
{
    Verdict all = ALL;
    if (o->empty)
        return NOTHING;
    for (int i = 0; i < problem->count; i++) {
        Verdict one = judge(&problem->rules[i], o);
        if (one == NOTHING)
            return NOTHING;
        if (one == UNKNOWN)
            all = UNKNOWN;
    }
    return all;
}

/* The home, narrowed by what the pair rules say at once. */
static void begin(const Problem *problem, Octagon *o)
{
    start(o, problem->n, problem->lows, problem->highs);
    for (int i = 0; i < problem->count; i++)
        if (problem->rules[i].kind == PAIR)
            take_cut(o, problem->rules[i].pair);
}

/* Takes the last waiting region, step after step. Regions are written as they are found. */
static uint8_t *search(const Problem *problem, uint32_t budget, int room, uint8_t *out)
{
    Octagon stack[STACK_PLACES];
    int waiting = 1, count = 0, outcome = OFFSETS_DONE;
    uint32_t steps = 0;
    begin(problem, &stack[0]);
    for (; waiting > 0; steps++) {
        if (steps == budget) {
            outcome = OFFSETS_SPENT;
            break;
        }
        Octagon *o = &stack[waiting - 1];
        refine(problem, o);
        Verdict all = classify(problem, o);
        if (all == NOTHING) {
            waiting--;
        } else if (all == ALL) {
            if (count == room) {
                outcome = OFFSETS_LIST_FULL;
                break;
            }
            out = put_region(out, o);
            count++;
            waiting--;
        } else {
            if (waiting == STACK_PLACES) {
                outcome = OFFSETS_STACK_FULL;
                break;
            }
            split(o, &stack[waiting]);
            waiting++;
        }
    }
    return put_end(out, outcome, count > 0, steps);
}

size_t offsets_solve(const uint8_t *input, size_t input_len, uint32_t budget, uint8_t *output, size_t output_len)
{
    Problem problem;
    if (output_len < OFFSETS_OUTPUT_LEAST)
        return 0;
    Fault fault = read_problem(input, input_len, &problem);
    if (fault.number != 0)
        return (size_t)(put_fault(output, fault) - output);
    size_t room = (output_len - OFFSETS_END) / OFFSETS_REGION_MOST;
    if (room > OFFSETS_REGIONS)
        room = OFFSETS_REGIONS;
    return (size_t)(search(&problem, budget, (int)room, output) - output);
}
