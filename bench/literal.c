#include "literal.h"

#include <stdio.h>
#include <stdlib.h>
#include <string.h>

/* The readers below meet the rules of this benchmark only, so they look for no fault. Each returns what follows. */

static const char *read_byte(const char *p, uint8_t *c)
{
    p += *p == '\\';
    *c = (uint8_t)*p;
    return p + 1;
}

static const char *read_class(const char *p, uint8_t *set)
{
    int turned = *p == '^';
    for (p += turned; *p != ']';) {
        uint8_t lo, hi;
        p = read_byte(p, &lo);
        hi = lo;
        if (*p == '-')
            p = read_byte(p + 1, &hi);
        memset(set + lo, 1, (size_t)(hi - lo) + 1);
    }
    for (int c = 0; c < 256; c++)
        set[c] ^= (uint8_t)turned;
    return p + 1;
}

static const char *read_set(const char *p, uint8_t *set)
{
    uint8_t c;
    if (*p == '[')
        return read_class(p + 1, set);
    if (*p == '.') {
        memset(set, 1, 256);
        return p + 1;
    }
    p = read_byte(p, &c);
    set[c] = 1;
    return p;
}

static const char *read_gap(const char *p, positions *r)
{
    int a = 0, b = 0, used = 0;
    sscanf(p, "{%d,%d}%n", &a, &b, &used);
    for (int i = 0; i < b; i++) {
        position *q = &r->at[r->n++];
        memset(q->set, 1, 256);
        q->optional = i < b - a;
    }
    return p + used;
}

static const char *read_element(const char *p, positions *r)
{
    if (*p == '{')
        return read_gap(p, r);
    position *q = &r->at[r->n++];
    p = read_set(p, q->set);
    q->optional = *p == '?' || *p == '*';
    q->repeats = *p == '+' || *p == '*';
    return p + (q->optional || q->repeats);
}

positions *read_positions(const rule *r)
{
    positions *all = need(calloc(1, sizeof *all));
    for (const char *p = r->text; *p;)
        p = read_element(p, all);
    return all;
}

static uint64_t flooded(const literal *m, uint64_t d)
{
    uint64_t df = d | m->last;
    return d | (m->optional & (~(df - m->before) ^ df));
}

static void add_position(literal *m, const position *p, uint64_t bit)
{
    for (int c = 0; c < 256; c++) {
        m->admits[c] |= p->set[c] ? bit : 0;
        m->repeats[c] |= p->set[c] && p->repeats ? bit : 0;
    }
    m->optional |= p->optional ? bit : 0;
}

/* The rule's own tables, or those of its positions in reverse order. */
static literal *read_rule(const rule *r, int backwards)
{
    positions *all = read_positions(r);
    literal *m = need(calloc(1, sizeof *m));
    if (all->n > 63)
        die("too long for one word", r->text);
    for (int i = 0; i < all->n; i++)
        add_position(m, &all->at[backwards ? all->n - 1 - i : i], (uint64_t)2 << i);
    m->before = (m->optional >> 1) & ~m->optional;
    m->last = m->optional & ~(m->optional >> 1);
    m->top = (uint64_t)1 << all->n;
    m->opening = flooded(m, 1);
    free(all);
    return m;
}

static void *open_literal(const rule *r)
{
    return read_rule(r, 0);
}

static void scan_by(literal_loop *loop, const literal *m, bytes text, size_t piece, tally *found)
{
    static uint32_t ends[LONG_PIECE];
    uint64_t state = m->opening;
    for (size_t at = 0; at < text.length; at += piece) {
        size_t k = text.length - at < piece ? text.length - at : piece;
        add(found, ends, loop(m, &state, text.at + at, k, (uint32_t)at, ends));
    }
}

static void scan_gcc(void *opened, bytes text, size_t piece, tally *found)
{
    scan_by(literal_gcc, opened, text, piece, found);
}

static void scan_clang(void *opened, bytes text, size_t piece, tally *found)
{
    scan_by(literal_clang, opened, text, piece, found);
}

const scanner literal_gcc_scanner = {"formula in C, gcc", open_literal, scan_gcc, free};
const scanner literal_clang_scanner = {"formula in C, clang", open_literal, scan_clang, free};

/* A start is an end of the reversed rule in the reversed text. */
void literal_starts(const rule *r, bytes text, tally *found)
{
    static uint32_t ends[PIECE];
    literal *m = read_rule(r, 1);
    bytes back = reversed(text);
    uint64_t state = m->opening;
    for (size_t at = 0; at < back.length; at += PIECE) {
        size_t k = back.length - at < PIECE ? back.length - at : PIECE;
        size_t n = literal_gcc(m, &state, back.at + at, k, (uint32_t)at, ends);
        for (size_t i = 0; i < n; i++)
            ends[i] = (uint32_t)back.length - ends[i];
        add(found, ends, n);
    }
    free(back.at);
    free(m);
}
