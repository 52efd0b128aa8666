/* Peers that find leftmost matches which do not overlap: another job, so no ratio is given. */
#include "bench.h"

typedef struct {
    const matcher *who;
    const rule *r;
    bytes text;
    uint64_t n;
} matching;

static void match_all(void *with)
{
    matching *m = with;
    m->n = m->who->count(m->r, m->text);
}

static uint64_t ends_in(const rule *r, bytes text)
{
    tally found = {0, 0, 0};
    void *opened = jazhuppe_scanner.open(r);
    jazhuppe_scanner.scan(opened, text, PIECE, &found);
    jazhuppe_scanner.close(opened);
    return found.count;
}

/* Both have Perl's rule for which match counts, so they must agree with each other, and with us on whether there is one. */
static void agree(const rule *r, bytes text)
{
    int any = ends_in(r, text) > 0;
    uint64_t a = re2_peer ? re2_peer->count(r, text) : 0, b = pcre2_peer ? pcre2_peer->count(r, text) : 0;
    if ((re2_peer && any != (a > 0)) || (pcre2_peer && any != (b > 0)))
        die("finds where we find nothing, or nothing where we find", r->text);
    if (re2_peer && pcre2_peer && a != b)
        die("RE2 and PCRE2 count otherwise", r->text);
}

static void matcher_row(const matcher *who, const rule *r, bytes text)
{
    matching m = {who, r, text, 0};
    racer one = {match_all, &m, 0};
    race(&one, 1);
    word_cell(who->name);
    word_cell(r->name);
    count_cell(m.n);
    speed_cell(text.length, one.best);
    end_row();
}

void matcher_table(const texts *t)
{
    const matcher *const all[] = {re2_peer, pcre2_peer};
    bytes text = part(t->plan_with_ampersands, t->some);
    if (!re2_peer && !pcre2_peer)
        return;
    heading("For orientation, another job: leftmost matches that do not overlap", "| peer | rule | matches | MB/s |");
    for (int i = 0; i < RULES; i++)
        agree(&rules[i], text);
    for (int k = 0; k < 2; k++)
        for (int i = 0; all[k] && i < RULES; i++)
            matcher_row(all[k], &rules[i], text);
}
