/* The forward scan on decoded text: ordinary plans, long rules, and texts made to hurt it. */
#include "bench.h"

#include <stdlib.h>

typedef struct {
    const scanner *who;
    void *opened;
    bytes text;
    size_t piece, times;
    tally found;
} reading;

static void read_all(void *with)
{
    reading *g = with;
    for (size_t i = 0; i < g->times; i++) {
        g->found.count = g->found.sum = 0;
        g->who->scan(g->opened, g->text, g->piece, &g->found);
    }
}

/* The ends that a reading finds, summed. */
static tally found_by(reading *g)
{
    g->found.summing = 1;
    read_all(g);
    g->found.summing = 0;
    return g->found;
}

enum { OURS, LONGER, GCC, CLANG, COPY, HYPERSCAN, CONTENDERS };

static void agree(reading *g, const rule *r)
{
    tally ours = found_by(&g[OURS]);
    for (int i = 0; i < CONTENDERS; i++)
        if (i != COPY && g[i].who && !same(ours, found_by(&g[i])))
            die("other ends than ours", r->text);
}

/* One that cannot open the rule is missing, as one that is NULL. */
static void enter(reading *g, racer *all, const scanner *const *who, const rule *r, bytes text, size_t times)
{
    for (int i = 0; i < CONTENDERS; i++) {
        void *opened = who[i] ? who[i]->open(r) : NULL;
        reading one = {opened ? who[i] : NULL, opened, text, i == LONGER ? LONG_PIECE : PIECE, times, {0, 0, 0}};
        g[i] = one;
        all[i] = (racer){opened ? read_all : NULL, &g[i], 0};
    }
}

/* The least times of all contenders, after they were found to agree; gives the count of ends. */
static uint64_t compete_by(racer *all, const scanner *const *who, const rule *r, bytes text, size_t times)
{
    reading g[CONTENDERS];
    enter(g, all, who, r, text, times);
    agree(g, r);
    race(all, CONTENDERS);
    for (int i = 0; i < CONTENDERS; i++)
        if (g[i].who)
            g[i].who->close(g[i].opened);
    return g[OURS].found.count;
}

static uint64_t compete(racer *all, const rule *r, bytes text, size_t times)
{
    const scanner *const who[CONTENDERS] = {&jazhuppe_scanner, &jazhuppe_scanner, &literal_gcc_scanner, &literal_clang_scanner, &copy_scanner, hyperscan_peer};
    return compete_by(all, who, r, text, times);
}

/* Rules over 63 positions, for which the formula needs four words. */
static uint64_t compete_long(racer *all, const rule *r, bytes text)
{
    const scanner *const who[CONTENDERS] = {&jazhuppe_scanner, NULL, &wide_gcc_scanner, &wide_clang_scanner, NULL, hyperscan_peer};
    return compete_by(all, who, r, text, 1);
}

static void scan_row(const char *of, const rule *r, bytes text, size_t times)
{
    racer all[CONTENDERS];
    uint64_t ends = compete(all, r, text, times);
    double t = all[OURS].best;
    word_cell(of);
    word_cell(r->name);
    count_cell(ends);
    speed_cell(text.length * times, t);
    ratio_cell(all[HYPERSCAN].best, t);
    target_cell(all[HYPERSCAN].best / t, r->scan_target);
    ratio_cell(all[COPY].best, t);
    ratio_cell(all[GCC].best, t);
    ratio_cell(all[CLANG].best, t);
    ratio_cell(all[LONGER].best, t);
    end_row();
}

static void hostile_row(const char *of, const rule *r, bytes text)
{
    racer all[CONTENDERS];
    uint64_t ends = compete(all, r, text, 1);
    double t = all[OURS].best, formula = all[GCC].best < all[CLANG].best ? all[GCC].best : all[CLANG].best;
    word_cell(of);
    word_cell(r->name);
    count_cell(ends);
    speed_cell(text.length, t);
    ratio_cell(all[HYPERSCAN].best, t);
    ratio_cell(all[GCC].best, t);
    ratio_cell(all[CLANG].best, t);
    target_cell(formula / t, 1);
    end_row();
}

static void long_row(const char *of, const rule *r, bytes text)
{
    racer all[CONTENDERS];
    uint64_t ends = compete_long(all, r, text);
    double t = all[OURS].best;
    word_cell(of);
    word_cell(r->name);
    count_cell(ends);
    speed_cell(text.length, t);
    ratio_cell(all[HYPERSCAN].best, t);
    ratio_cell(all[GCC].best, t);
    ratio_cell(all[CLANG].best, t);
    end_row();
}

static void repeated_rows(const char *shown, const char *what, size_t length, const rule *const *some, int n)
{
    bytes text = repeated(what, length);
    for (int i = 0; i < n; i++)
        hostile_row(shown, some[i], text);
    free(text.at);
}

static void own_letter_row(void (*row)(const char *of, const rule *r, bytes text), const rule *r, size_t length)
{
    bytes text = own_letters(r, length);
    row("the rule's letters, random", r, text);
    free(text.at);
}

static void own_letter_rows(size_t length)
{
    for (int i = 0; i < RULES; i++)
        own_letter_row(hostile_row, &rules[i], length);
    own_letter_row(hostile_row, &near_blocks_rule, length);
}

void hostile_table(const texts *t)
{
    const rule *const starts[] = {&rules[0], &rules[2], &rules[3]};
    const rule *const bare[] = {&plus_rule, &rules[2], &rules[3]}; /* the same with no & to look at */
    const rule *const near[] = {&rules[1], &rules[2], &rules[4]};
    const rule *const runs[] = {&rules[4]};
    const rule *const stuck[] = {&stuck_rule};
    heading("Scan of hostile texts", "| text | rule | ends | MB/s | to Hyperscan | to the formula, gcc | clang | at least |");
    repeated_rows("`R&` repeated", "R&", t->some, starts, 3);
    repeated_rows("`R+` repeated", "R+", t->some, bare, 3);
    repeated_rows("`Row A&` repeated", "Row A&", t->some, starts, 3);
    repeated_rows("`Row A+` repeated", "Row A+", t->some, bare, 3);
    repeated_rows("`Wheelchair bay Nx ` repeated", "Wheelchair bay Nx ", t->some, near, 3);
    own_letter_rows(t->some);
    repeated_rows("`a` repeated", "a", t->some, runs, 1);
    repeated_rows("`ab` repeated", "ab", t->some, stuck, 1);
    hostile_row("plan", &absent_rule, part(t->plan, t->some));
}

static void scan_table(const char *title, bytes plan, bytes with_ampersands, size_t times)
{
    heading(title, "| text | rule | ends | MB/s | to Hyperscan | at least | to memcpy | to the formula, gcc | clang | to pieces of 64 KiB |");
    scan_row("plan with `&`", &rules[0], with_ampersands, times);
    for (int i = 0; i < RULES; i++)
        scan_row("plan", &rules[i], plan, times);
}

void scan_tables(const texts *t)
{
    size_t times = t->some / CACHED ? t->some / CACHED : 1;
    scan_table("Scan, all ends, pieces of 4,096 bytes", t->plan, t->plan_with_ampersands, 1);
    scan_table("The same over 1 MiB that stays in the cache", part(t->plan, CACHED), part(t->plan_with_ampersands, CACHED), times);
}

void long_table(const texts *t)
{
    heading("Long rules, all ends, pieces of 4,096 bytes", "| text | rule | ends | MB/s | to Hyperscan | to the formula in four words, gcc | clang |");
    for (int i = 0; i < LONG_RULES; i++)
        long_row("plan", &long_rules[i], t->plan);
    for (int i = 0; i < LONG_RULES; i++)
        own_letter_row(long_row, &long_rules[i], t->some);
}
