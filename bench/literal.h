/* The tables and masks of document 01's forward step, read off a rule here and not by the library. */
#ifndef LITERAL_H
#define LITERAL_H

#include "bench.h"
#include "jazhuppe.h"

typedef struct {
    uint8_t set[256];
    int optional, repeats;
} position;

typedef struct {
    position at[JAZHUPPE_POSITIONS_MOST];
    int n;
} positions;

/* literal.c: the caller frees them. */
positions *read_positions(const rule *r);

/* In one word, for rules of at most 63 positions. */
typedef struct {
    uint64_t admits[256], repeats[256]; /* B and S */
    uint64_t optional, before, last;    /* A, I and F */
    uint64_t top, opening;
} literal;

/* Steps over a piece that begins at `at`; writes the ends and gives their count. Compiled by gcc and by clang. */
typedef size_t literal_loop(const literal *m, uint64_t *state, const uint8_t *piece, size_t length, uint32_t at, uint32_t *ends);
literal_loop literal_gcc, literal_clang;

/* The same in four words, the lowest first, for rules of any length. */
enum { WORDS = 4 };
typedef struct {
    uint64_t admits[256][WORDS], repeats[256][WORDS];
    uint64_t optional[WORDS], before[WORDS], last[WORDS];
    uint64_t top[WORDS], opening[WORDS];
} wide;

typedef size_t wide_loop(const wide *m, uint64_t *state, const uint8_t *piece, size_t length, uint32_t at, uint32_t *ends);
wide_loop wide_gcc, wide_clang;

#endif
