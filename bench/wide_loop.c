/*
 * The forward step of document 01 in four words, byte by byte. LOOP is the function's name, one for each compiler.
 * The words have names of their own and the borrow is the processor's, as gcc makes a loop .85 as fast of arrays, and one .82 as
 * fast of comparisons; clang makes about the same of all of them.
 */
#include "literal.h"

#include <immintrin.h>

size_t LOOP(const wide *m, uint64_t *state, const uint8_t *piece, size_t length, uint32_t at, uint32_t *ends)
{
    uint64_t d0 = state[0], d1 = state[1], d2 = state[2], d3 = state[3];
    size_t n = 0;
    for (size_t i = 0; i < length; i++) {
        const uint64_t *b = m->admits[piece[i]], *s = m->repeats[piece[i]];
        uint64_t e0 = ((d0 << 1) & b[0]) | (d0 & s[0]) | 1;
        uint64_t e1 = (((d1 << 1) | (d0 >> 63)) & b[1]) | (d1 & s[1]);
        uint64_t e2 = (((d2 << 1) | (d1 >> 63)) & b[2]) | (d2 & s[2]);
        uint64_t e3 = (((d3 << 1) | (d2 >> 63)) & b[3]) | (d3 & s[3]);
        uint64_t f0 = e0 | m->last[0], f1 = e1 | m->last[1], f2 = e2 | m->last[2], f3 = e3 | m->last[3];
        unsigned long long x0, x1, x2, x3;
        unsigned char borrow = _subborrow_u64(0, f0, m->before[0], &x0);
        borrow = _subborrow_u64(borrow, f1, m->before[1], &x1);
        borrow = _subborrow_u64(borrow, f2, m->before[2], &x2);
        _subborrow_u64(borrow, f3, m->before[3], &x3);
        d0 = e0 | (m->optional[0] & (~x0 ^ f0));
        d1 = e1 | (m->optional[1] & (~x1 ^ f1));
        d2 = e2 | (m->optional[2] & (~x2 ^ f2));
        d3 = e3 | (m->optional[3] & (~x3 ^ f3));
        if ((d0 & m->top[0]) | (d1 & m->top[1]) | (d2 & m->top[2]) | (d3 & m->top[3]))
            ends[n++] = at + (uint32_t)i + 1;
    }
    state[0] = d0, state[1] = d1, state[2] = d2, state[3] = d3;
    return n;
}
