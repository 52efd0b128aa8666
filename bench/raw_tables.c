/* Raw plans: decoding alone, and the scan that decodes as it goes. */
#include "bench.h"
#include "jazhuppe.h"

#include <stdlib.h>
#include <string.h>

typedef struct {
    bytes raw, out;
    size_t times, written;
} decoding;

static void decode_ours(void *with)
{
    decoding *d = with;
    for (size_t i = 0; i < d->times; i++) {
        jazhuppe_answer a = jazhuppe_decode(d->raw.at, d->raw.length, d->out.at, d->out.length);
        if (a.number)
            die("refused", "decode");
        d->written = a.count;
    }
}

static void decode_expat(void *with)
{
    decoding *d = with;
    for (size_t i = 0; i < d->times; i++)
        d->written = expat_peer(d->raw, d->out.at);
}

static void copy(void *with)
{
    decoding *d = with;
    for (size_t i = 0; i < d->times; i++) {
        memcpy(d->out.at, d->raw.at, d->raw.length);
        __asm__ volatile("" ::: "memory"); /* no copy is left out though nobody reads it */
    }
}

static bytes decoded(bytes raw)
{
    decoding d = {raw, room(raw.length), 1, 0};
    decode_ours(&d);
    d.out.length = d.written;
    return d.out;
}

static void agree_with_expat(bytes raw)
{
    bytes ours = decoded(raw), theirs = room(raw.length);
    theirs.length = expat_peer(raw, theirs.at);
    if (ours.length != theirs.length || memcmp(ours.at, theirs.at, ours.length))
        die("other bytes than expat's", "decode");
    free(ours.at);
    free(theirs.at);
}

enum { OURS, COPY, EXPAT, CONTENDERS };

static void decode_row(const char *of, const char *size, bytes raw, size_t times, double to_copy, double to_expat)
{
    decoding d = {raw, room(raw.length), times, 0};
    racer all[CONTENDERS] = {{decode_ours, &d, 0}, {copy, &d, 0}, {decode_expat, &d, 0}};
    if (expat_peer)
        agree_with_expat(raw);
    race(all, expat_peer ? CONTENDERS : EXPAT);
    double t = all[OURS].best;
    word_cell(of);
    word_cell(size);
    speed_cell(raw.length * times, t);
    ratio_cell(all[COPY].best, t);
    target_cell(all[COPY].best / t, to_copy);
    ratio_cell(all[EXPAT].best, t);
    target_cell(all[EXPAT].best / t, to_expat);
    end_row();
    free(d.out.at);
}

/* The whole plan once, and a plan that stays in the cache as often as makes the same length. */
static void decode_rows(const char *of, bytes raw, double to_copy, double to_expat)
{
    bytes some = cached_lines(raw);
    decode_row(of, "all", raw, 1, to_copy, to_expat);
    decode_row(of, "1 MiB", some, raw.length / some.length, to_copy, to_expat);
}

static bytes raw_of(const texts *t, size_t spacing)
{
    return raw_plan(t->plan_with_ampersands, spacing, t->plan.length);
}

void decode_table(const texts *t)
{
    bytes sparse = raw_of(t, 200), dense = raw_of(t, 12);
    heading("Decode", "| raw plan | size | MB/s | to memcpy | at least | to expat | at least |");
    decode_rows("no reference", t->plan, .4, 0);
    decode_rows("1 reference in 200 bytes", sparse, .2, 10);
    decode_rows("1 reference in 12 bytes", dense, 0, 0);
    free(sparse.at);
    free(dense.at);
}

typedef struct {
    const scanner *who;
    void *opened;
    bytes text;
    tally found;
} feeding;

static void feed_all(void *with)
{
    feeding *f = with;
    f->found.count = f->found.sum = 0;
    f->who->scan(f->opened, f->text, PIECE, &f->found);
}

static tally ends_in(const scanner *who, const rule *r, bytes text)
{
    feeding f = {who, who->open(r), text, {1, 0, 0}};
    feed_all(&f);
    who->close(f.opened);
    return f.found;
}

static void raw_row(const char *of, const rule *r, bytes raw, bytes text, bytes bare)
{
    void *opened = jazhuppe_scanner.open(r);
    feeding f[3] = {{&jazhuppe_scanner, opened, raw, {0, 0, 0}}, {&jazhuppe_scanner, opened, text, {0, 0, 0}}, {&jazhuppe_scanner, opened, bare, {0, 0, 0}}};
    racer all[3] = {{feed_all, &f[0], 0}, {feed_all, &f[1], 0}, {feed_all, &f[2], 0}};
    tally ends = ends_in(&jazhuppe_scanner, r, raw);
    if (!same(ends, ends_in(&literal_gcc_scanner, r, text)))
        die("other ends in the raw plan than in the decoded text", r->text);
    race(all, 3);
    word_cell(of);
    word_cell(r->name);
    count_cell(ends.count);
    speed_cell(raw.length, all[0].best);
    ratio_cell(all[1].best, all[0].best);
    target_cell(all[1].best / all[0].best, strstr(of, "200") ? .6 : 0);
    ratio_cell(all[2].best, all[0].best);
    end_row();
    jazhuppe_scanner.close(opened);
}

static void raw_rows(const char *of, bytes raw)
{
    bytes text = decoded(raw), bare = without_ampersands(text);
    for (int i = 0; i < RULES; i++)
        raw_row(of, &rules[i], raw, text, bare);
    free(bare.at);
    free(text.at);
    free(raw.at);
}

void raw_table(const texts *t)
{
    heading("Feed of raw plans, time of the decoded text to time of the raw plan",
            "| raw plan | rule | ends | MB/s | decoded text | at least | the same, `+` for `&` |");
    raw_rows("1 reference in 200 bytes", raw_of(t, 200));
    raw_rows("1 reference in 12 bytes", raw_of(t, 12));
}
