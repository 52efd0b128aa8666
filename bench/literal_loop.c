/* The forward step as document 01 words it, byte by byte. LOOP is the function's name, one for each compiler. */
#include "literal.h"

size_t LOOP(const literal *m, uint64_t *state, const uint8_t *piece, size_t length, uint32_t at, uint32_t *ends)
{
    uint64_t d = *state;
    size_t n = 0;
    for (size_t i = 0; i < length; i++) {
        uint8_t c = piece[i];
        d = ((d << 1) & m->admits[c]) | (d & m->repeats[c]) | 1;
        uint64_t df = d | m->last;
        d |= m->optional & (~(df - m->before) ^ df);
        if (d & m->top)
            ends[n++] = at + (uint32_t)i + 1;
    }
    *state = d;
    return n;
}
