/* What the parts of the benchmark share. */
#ifndef BENCH_H
#define BENCH_H

#include <stddef.h>
#include <stdint.h>

/* A text of CACHED bytes that is read again and again stays in the processor's cache. */
enum { PIECE = 4096, LONG_PIECE = 65536, CACHED = 1 << 20 };

typedef struct {
    uint8_t *at;
    size_t length;
} bytes;

/* A rule, the same rule in Perl's syntax, and the least ratios to Hyperscan that we ask for (0: none). */
typedef struct {
    const char *name, *text, *pattern;
    double scan_target, search_target;
} rule;

/* All ends or starts of a reading: their count and, where readings are compared, a sum that no other set is likely to have. */
typedef struct {
    int summing;
    uint64_t count, sum;
} tally;

/* One who reports all ends of a rule, piece by piece. */
typedef struct {
    const char *name;
    void *(*open)(const rule *r); /* NULL: the rule is too much for it */
    void (*scan)(void *opened, bytes text, size_t piece, tally *found);
    void (*close)(void *opened);
} scanner;

/* One who finds leftmost matches that do not overlap, which is another job; it gives their count. */
typedef struct {
    const char *name;
    uint64_t (*count)(const rule *r, bytes text);
} matcher;

/* base.c */
void *need(void *memory);
bytes room(size_t length);
void die(const char *what, const char *about);
void add(tally *t, const uint32_t *places, size_t n);
int same(tally a, tally b);

/* rules.c */
enum { RULES = 8 };
extern const rule rules[RULES];
enum { LONG_RULES = 6 };
extern const rule long_rules[LONG_RULES];
extern const rule plus_rule, stuck_rule, absent_rule, near_blocks_rule;

/* texts.c: each text comes from a seed, and is the same in every run */
bytes plan_text(size_t length, int with_ampersands);
bytes raw_plan(bytes plan, size_t spacing, size_t length);
bytes repeated(const char *what, size_t length);
bytes own_letters(const rule *r, size_t length);
bytes part(bytes text, size_t length);
bytes cached_lines(bytes text);
bytes without_ampersands(bytes text);
bytes reversed(bytes text);

/* contenders */
extern const scanner jazhuppe_scanner, literal_gcc_scanner, literal_clang_scanner, wide_gcc_scanner, wide_clang_scanner;
extern const scanner copy_scanner, hyperscan_scanner;
extern const matcher re2_matcher, pcre2_matcher;
void literal_starts(const rule *r, bytes text, tally *found);
size_t expat_decode(bytes raw, uint8_t *out);

/* peers.c: a peer whose library is missing is NULL */
extern const scanner *const hyperscan_peer;
extern const matcher *const re2_peer, *const pcre2_peer;
extern size_t (*const expat_peer)(bytes raw, uint8_t *out);

/* race.c */
enum { MOST_RACERS = 6, MOST_REPEATS = 99 };
typedef struct {
    void (*run)(void *with); /* NULL: missing, and its time is 0 */
    void *with;
    double best; /* seconds */
} racer;
extern int repeats;
void race(racer *all, int n);
void print_noise(void);

/* cells.c: a Markdown table, cell by cell */
void heading(const char *title, const char *columns);
void word_cell(const char *word);
void count_cell(uint64_t n);
void speed_cell(size_t length, double seconds);
void ratio_cell(double over, double under);
void target_cell(double ratio, double least);
void end_row(void);

/* tables */
typedef struct {
    bytes plan, plan_with_ampersands; /* the same rows, with + and with & */
    size_t some;                      /* the length of what is not read over the whole plan */
} texts;
void scan_tables(const texts *t);
void long_table(const texts *t);
void hostile_table(const texts *t);
void raw_table(const texts *t);
void decode_table(const texts *t);
void search_tables(const texts *t);
void matcher_table(const texts *t);

#endif
