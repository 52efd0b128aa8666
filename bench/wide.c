/* The formula in four words, for the long rules. */
#include "literal.h"

#include <stdlib.h>
#include <string.h>

static void set_bit(uint64_t *words, int i)
{
    words[i / 64] |= (uint64_t)1 << i % 64;
}

static void add_position(wide *m, const position *p, int i)
{
    for (int c = 0; c < 256; c++) {
        if (p->set[c])
            set_bit(m->admits[c], i);
        if (p->set[c] && p->repeats)
            set_bit(m->repeats[c], i);
    }
    if (p->optional)
        set_bit(m->optional, i);
}

/* The bit before each block of optional positions, and the block's last. */
static void add_blocks(wide *m, const positions *all)
{
    for (int i = 0; i < all->n; i++) {
        if (all->at[i].optional && (i == 0 || !all->at[i - 1].optional))
            set_bit(m->before, i);
        if (all->at[i].optional && (i + 1 == all->n || !all->at[i + 1].optional))
            set_bit(m->last, i + 1);
    }
}

static void *open_wide(const rule *r)
{
    positions *all = read_positions(r);
    wide *m = need(calloc(1, sizeof *m));
    for (int i = 0; i < all->n; i++)
        add_position(m, &all->at[i], i + 1);
    add_blocks(m, all);
    set_bit(m->top, all->n);
    set_bit(m->opening, 0);
    for (int i = 0; i < all->n && all->at[i].optional; i++)
        set_bit(m->opening, i + 1);
    free(all);
    return m;
}

static void scan_by(wide_loop *loop, const wide *m, bytes text, size_t piece, tally *found)
{
    static uint32_t ends[LONG_PIECE];
    uint64_t state[WORDS];
    memcpy(state, m->opening, sizeof state);
    for (size_t at = 0; at < text.length; at += piece) {
        size_t k = text.length - at < piece ? text.length - at : piece;
        add(found, ends, loop(m, state, text.at + at, k, (uint32_t)at, ends));
    }
}

static void scan_gcc(void *opened, bytes text, size_t piece, tally *found)
{
    scan_by(wide_gcc, opened, text, piece, found);
}

static void scan_clang(void *opened, bytes text, size_t piece, tally *found)
{
    scan_by(wide_clang, opened, text, piece, found);
}

const scanner wide_gcc_scanner = {"formula in four words in C, gcc", open_wide, scan_gcc, free};
const scanner wide_clang_scanner = {"formula in four words in C, clang", open_wide, scan_clang, free};
