/* A problem text read in plain C: home and rules, or the first fault (docs/FORMAT.md, docs/REFUSALS.md). */
#ifndef PLAIN_READING_H
#define PLAIN_READING_H

#include <stddef.h>
#include "rules.h"

#define TEXT_MOST 8192
#define DIGITS_MOST 132
#define RULES_MOST 32
#define SETTING_MOST 1000000
#define SUM_MOST 300000000

typedef struct {
    int n;
    int32_t lows[8], highs[8];
    int count;
    Rule rules[RULES_MOST];
} Problem;

/* Number 0: no fault. */
typedef struct {
    int number, layer, line, place;
} Fault;

static const Fault fine = {0, 0, 0, 0};

static inline Fault text_fault(int number, size_t place) { return (Fault){number, 1, 0, (int)place}; }
static inline Fault frame_fault(int number) { return (Fault){number, 2, 0, 1}; }
static inline Fault record_fault(int number, int place) { return (Fault){number, 3, 0, place}; }

static inline bool beyond(int32_t z, int32_t most) { return z < -most || most < z; }

static inline int digit(uint8_t c)
{
    return '0' <= c && c <= '9' ? c - '0' : 'A' <= c && c <= 'F' ? c - 'A' + 10 : -1;
}

static inline int32_t word(const uint8_t *f)
{
    return (int32_t)((uint32_t)f[0] << 24 | (uint32_t)f[1] << 16 | (uint32_t)f[2] << 8 | f[3]);
}

/* The bytes of the line at the text's front: *size of them, *taken bytes of text. */
static inline Fault read_line(const uint8_t *text, size_t length, uint8_t *frame, size_t *size, size_t *taken)
{
    size_t count = 0;
    for (; count < length && text[count] != '\n'; count++)
        if (digit(text[count]) < 0)
            return text_fault(2, count + 1);
    if (count > DIGITS_MOST)
        return text_fault(3, DIGITS_MOST + 1);
    if (count == 0 || count % 2 != 0)
        return text_fault(4, count + 1);
    if (count == length)
        return text_fault(5, count + 1);
    for (size_t i = 0; i < count / 2; i++)
        frame[i] = (uint8_t)(16 * digit(text[2 * i]) + digit(text[2 * i + 1]));
    *size = count / 2;
    *taken = count + 1;
    return fine;
}

static inline Fault check_frame(const uint8_t *f, size_t size, bool first)
{
    size_t due;
    switch (f[0]) {
    case 1: due = size > 1 ? 2 + 8 * (size_t)f[1] : 0; break;
    case PAIR: case APART: due = 7; break;
    case SUM: due = 11; break;
    case STEP: due = 10; break;
    default: return frame_fault(6);
    }
    if ((f[0] == 1) != first)
        return frame_fault(7);
    return size == due ? fine : frame_fault(8);
}

static inline Fault read_home(const uint8_t *f, Problem *problem)
{
    int n = f[1];
    if (n < 1 || n > 8)
        return record_fault(9, 2);
    problem->n = n;
    for (int k = 0; k < n; k++) {
        problem->lows[k] = word(f + 2 + 8 * k);
        problem->highs[k] = word(f + 6 + 8 * k);
        if (beyond(problem->lows[k], SETTING_MOST))
            return record_fault(10, 3 + 8 * k);
        if (beyond(problem->highs[k], SETTING_MOST))
            return record_fault(10, 7 + 8 * k);
    }
    for (int k = 0; k < n; k++)
        if (problem->lows[k] > problem->highs[k])
            return record_fault(11, 7 + 8 * k);
    return fine;
}

static inline Fault read_pair(const uint8_t *f, int n, Rule *r)
{
    r->pair = (Cut){f[1], f[2], word(f + 3)};
    if (f[1] >= 2 * n)
        return record_fault(12, 2);
    if (f[2] >= 2 * n)
        return record_fault(12, 3);
    if (f[2] == (f[1] ^ 1))
        return record_fault(13, 3);
    return beyond(r->pair.c, CUT_MOST) ? record_fault(14, 4) : fine;
}

static inline Fault read_sum(const uint8_t *f, int n, Rule *r)
{
    int *s = r->sum.setting;
    int32_t *k = r->sum.coefficient;
    for (int i = 0; i < 3; i++) {
        s[i] = f[1 + 2 * i];
        k[i] = (int8_t)f[2 + 2 * i];
    }
    r->sum.most = word(f + 7);
    for (int i = 0; i < 3; i++)
        if (s[i] >= n)
            return record_fault(12, 2 + 2 * i);
    for (int i = 1; i < 3; i++)
        for (int j = 0; j < i; j++)
            if (k[i] != 0 && k[j] != 0 && s[i] == s[j])
                return record_fault(13, 2 + 2 * i);
    for (int i = 0; i < 3; i++)
        if (beyond(k[i], 100) || (k[i] == 0 && s[i] != 0))
            return record_fault(14, 3 + 2 * i);
    if (beyond(r->sum.most, SUM_MOST))
        return record_fault(14, 8);
    return k[0] == 0 && k[1] == 0 && k[2] == 0 ? record_fault(15, 1) : fine;
}

static inline Fault read_apart(const uint8_t *f, int n, Rule *r)
{
    r->apart.a = f[1];
    r->apart.b = f[2];
    r->apart.distance = word(f + 3);
    if (f[1] >= n)
        return record_fault(12, 2);
    if (f[2] >= n)
        return record_fault(12, 3);
    if (f[1] == f[2])
        return record_fault(13, 3);
    return r->apart.distance < 1 || r->apart.distance > CUT_MOST ? record_fault(14, 4) : fine;
}

static inline Fault read_step(const uint8_t *f, int n, Rule *r)
{
    r->step.a = f[1];
    r->step.modulus = word(f + 2);
    r->step.rest = word(f + 6);
    if (f[1] >= n)
        return record_fault(12, 2);
    if (r->step.modulus < 2 || r->step.modulus > SETTING_MOST)
        return record_fault(14, 3);
    return r->step.rest < 0 || r->step.rest >= r->step.modulus ? record_fault(14, 7) : fine;
}

static inline Fault read_rule(const uint8_t *f, Problem *problem)
{
    Rule rule;
    Fault fault;
    rule.kind = (Kind)f[0];
    switch (rule.kind) {
    case PAIR: fault = read_pair(f, problem->n, &rule); break;
    case SUM: fault = read_sum(f, problem->n, &rule); break;
    case APART: fault = read_apart(f, problem->n, &rule); break;
    default: fault = read_step(f, problem->n, &rule); break;
    }
    if (fault.number != 0)
        return fault;
    if (problem->count == RULES_MOST)
        return (Fault){16, 4, 0, 0};
    problem->rules[problem->count++] = rule;
    return fine;
}

/* Each line passes every layer before the next is looked at. */
static inline Fault read_problem(const uint8_t *text, size_t length, Problem *problem)
{
    uint8_t frame[DIGITS_MOST / 2];
    size_t size, taken;
    if (length < 1 || length > TEXT_MOST)
        return text_fault(1, 0);
    problem->count = 0;
    for (int line = 1; length > 0; line++, text += taken, length -= taken) {
        Fault fault = read_line(text, length, frame, &size, &taken);
        if (fault.number == 0)
            fault = check_frame(frame, size, line == 1);
        if (fault.number == 0)
            fault = line == 1 ? read_home(frame, problem) : read_rule(frame, problem);
        if (fault.number != 0) {
            fault.line = line;
            return fault;
        }
    }
    return fine;
}

#endif
