#include "bench.h"
#include "jazhuppe.h"

#include <stdio.h>
#include <string.h>

static uint64_t seed;

/* The top half of a linear congruence: the same numbers on every machine. */
static uint32_t number(uint32_t below)
{
    seed = seed * 6364136223846793005u + 1442695040888963407u;
    return (uint32_t)((seed >> 33) % below);
}

static const char *one_of(const char *const *words, size_t n)
{
    return words[number((uint32_t)n)];
}

#define ONE_OF(words) one_of(words, sizeof words / sizeof *words)

static const char *section(void)
{
    static const char *const names[] = {"Stalls", "Circle", "Upper Circle", "Balcony", "Gallery", "Left Box", "Right Box", "Pit"};
    return ONE_OF(names);
}

static const char *note(void)
{
    static const char *const notes[] = {"restricted view", "by the aisle", "next to exit", "with armrest", "reserved", "behind a pillar", "extra legroom"};
    return ONE_OF(notes);
}

static int price(char *to, size_t n)
{
    return snprintf(to, n, "%u.%02u EUR", 8 + number(110), number(4) * 25);
}

static int seats_line(char *to, size_t n)
{
    unsigned from = 1 + number(20);
    int k = snprintf(to, n, "%s, Row %c, seats %u to %u, ", section(), 'A' + (int)number(26), from, from + number(30));
    k += price(to + k, n - (size_t)k);
    return k + snprintf(to + k, n - (size_t)k, "\n");
}

static int seat_line(char *to, size_t n)
{
    return snprintf(to, n, "%s, Row %u, seat %u: %s\n", section(), 1 + number(40), 1 + number(60), note());
}

static int long_line(char *to, size_t n)
{
    return snprintf(to, n, "%s: %s and %s, doors open half an hour before the show, latecomers wait for the interval\n", section(), note(), note());
}

static int bay_line(char *to, size_t n)
{
    return snprintf(to, n, "Wheelchair bay No %u, companion seat %u\n", 1 + number(40), 1 + number(9));
}

static int pair_line(char *to, size_t n, int with_ampersands)
{
    return snprintf(to, n, "Row A%cB %u, sold together\n", with_ampersands ? '&' : '+', 1 + number(60));
}

static int line(char *to, size_t n, int with_ampersands)
{
    uint32_t kind = number(100);
    if (kind < 40)
        return seats_line(to, n);
    if (kind < 70)
        return seat_line(to, n);
    if (kind < 95)
        return long_line(to, n);
    if (kind < 97)
        return bay_line(to, n);
    return pair_line(to, n, with_ampersands);
}

/* Rows and seats as theatres have them; a bare & stands in some rows' names, or none stands anywhere. No ; and no <. */
bytes plan_text(size_t length, int with_ampersands)
{
    bytes text = room(length);
    seed = 1;
    for (size_t at = 0; at < length;) {
        char one[256];
        size_t k = (size_t)line(one, sizeof one, with_ampersands);
        k = k < length - at ? k : length - at;
        memcpy(text.at + at, one, k);
        at += k;
    }
    return text;
}

static const char *reference(void)
{
    static const char *const all[] = {"&amp;", "&#38;", "&lt;", "&gt;", "&apos;", "&quot;", "&#233;", "&#xE9;", "&#8364;"};
    return ONE_OF(all);
}

/*
 * A plan as XML has it: each & of the plan is &amp;, and other references are strewn in so that one begins every
 * `spacing` bytes on the average.
 */
bytes raw_plan(bytes plan, size_t spacing, size_t length)
{
    bytes raw = room(length);
    size_t i = 0, at = 0, next = 0;
    seed = 2;
    while (i < plan.length && at + 10 <= length) {
        int own = plan.at[i] == '&';
        if (own || at >= next) {
            const char *form = own ? "&amp;" : reference();
            memcpy(raw.at + at, form, strlen(form));
            next = at + spacing / 2 + number((uint32_t)spacing + 1);
            at += strlen(form);
            i += (size_t)own;
        } else {
            raw.at[at++] = plan.at[i++];
        }
    }
    raw.length = at;
    return raw;
}

bytes repeated(const char *what, size_t length)
{
    bytes text = room(length);
    size_t k = strlen(what);
    for (size_t i = 0; i < length; i++)
        text.at[i] = (uint8_t)what[i % k];
    return text;
}

/* Random bytes out of those that the rule's text has, marks aside. */
bytes own_letters(const rule *r, size_t length)
{
    char letters[JAZHUPPE_RULE_MOST];
    uint32_t n = 0;
    for (const char *p = r->text; *p; p++)
        if (!strchr(".[]{}?+*\\-^", *p))
            letters[n++] = *p;
    bytes text = room(length);
    seed = 3;
    for (size_t i = 0; i < length; i++)
        text.at[i] = (uint8_t)letters[number(n)];
    return text;
}

bytes part(bytes text, size_t length)
{
    bytes p = {text.at, length < text.length ? length : text.length};
    return p;
}

/* Up to a line's end, so that no reference is cut. */
bytes cached_lines(bytes text)
{
    bytes p = part(text, CACHED);
    while (p.length && p.at[p.length - 1] != '\n')
        p.length--;
    return p;
}

bytes without_ampersands(bytes text)
{
    bytes t = room(text.length);
    for (size_t i = 0; i < text.length; i++)
        t.at[i] = text.at[i] == '&' ? '+' : text.at[i];
    return t;
}

bytes reversed(bytes text)
{
    bytes t = room(text.length);
    for (size_t i = 0; i < text.length; i++)
        t.at[i] = text.at[text.length - 1 - i];
    return t;
}
