/* The window search: its speed, and that verifying is linear. */
#include "bench.h"
#include "jazhuppe.h"

#include <stdlib.h>
#include <string.h>

typedef struct {
    const rule *r;
    bytes text;
    uint32_t *starts;
    jazhuppe_answer answer;
} searching;

static void search_all(void *with)
{
    searching *s = with;
    s->answer = jazhuppe_search((const uint8_t *)s->r->text, strlen(s->r->text), 0, NULL, 0, NULL, 0, s->text.at, s->text.length, s->starts,
                                s->text.length);
    if (s->answer.number)
        die("refused", "search");
}

typedef struct {
    void *opened;
    bytes text;
} streaming;

static void stream_all(void *with)
{
    streaming *s = with;
    tally found = {0, 0, 0};
    hyperscan_peer->scan(s->opened, s->text, PIECE, &found);
}

static searching begin(const rule *r, bytes text)
{
    searching s = {r, text, (uint32_t *)room(text.length * sizeof *s.starts).at, {0, 0, 0, 0}};
    tally ours = {1, 0, 0}, formula = {1, 0, 0};
    search_all(&s);
    add(&ours, s.starts, s.answer.count);
    literal_starts(r, text, &formula);
    if (!same(ours, formula))
        die("other starts than the formula's", r->text);
    return s;
}

static void search_row(const char *of, const rule *r, bytes text)
{
    searching s = begin(r, text);
    streaming h = {hyperscan_peer ? hyperscan_peer->open(r) : NULL, text};
    racer all[2] = {{search_all, &s, 0}, {h.opened ? stream_all : NULL, &h, 0}};
    race(all, 2);
    word_cell(of);
    word_cell(r->name);
    count_cell(s.answer.count);
    count_cell(s.answer.windows);
    speed_cell(text.length, all[0].best);
    ratio_cell(all[1].best, all[0].best);
    target_cell(all[1].best / all[0].best, r->search_target);
    end_row();
    if (h.opened)
        hyperscan_peer->close(h.opened);
    free(s.starts);
}

static void linear_row(const char *of, const rule *r, bytes text)
{
    bytes half = part(text, text.length / 2);
    searching s[2] = {begin(r, half), begin(r, text)};
    racer all[2] = {{search_all, &s[0], 0}, {search_all, &s[1], 0}};
    race(all, 2);
    word_cell(of);
    word_cell(r->text);
    speed_cell(half.length, all[0].best);
    speed_cell(text.length, all[1].best);
    ratio_cell(all[1].best, all[0].best);
    word_cell(all[1].best <= 2.4 * all[0].best ? "2.4 met" : "2.4 **missed**");
    end_row();
    free(s[0].starts);
    free(s[1].starts);
}

static void linear_repeated(const char *of, const char *what, const rule *r, size_t length)
{
    bytes text = repeated(what, length);
    linear_row(of, r, text);
    free(text.at);
}

void search_tables(const texts *t)
{
    heading("Window search, to Hyperscan streaming", "| text | rule | starts | windows | MB/s | to Hyperscan | at least |");
    search_row("plan with `&`", &rules[0], t->plan_with_ampersands);
    for (int i = 0; i < RULES; i++)
        search_row("plan", &rules[i], t->plan);
    heading("Verification, time of a text to time of its half", "| text | rule | MB/s, half | MB/s, all | all to half | at most |");
    linear_repeated("`a` repeated", "a", &rules[4], t->some);
    linear_repeated("`ab` repeated", "ab", &stuck_rule, t->some);
    linear_row("plan", &absent_rule, part(t->plan, t->some));
}
