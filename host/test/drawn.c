/* drawn.c: see drawn.h. */
#include "drawn.h"

#include <stdio.h>
#include <string.h>

#include "testing.h"

random_source source;
drawn_case now;

uint32_t below(uint32_t most)
{
    return random_below(&source, most);
}

bool one_in(uint32_t n)
{
    return below(n) == 0;
}

/* ---- rules */

static const uint8_t alphabet[] = {'a', 'b', 'c',  'A',  'B',  'x',  '&',  ';',  '#', '1',
                                   '8', 0,   0xC3, 0xA9, 0xEF, 0xBF, 0xBD, '\n', '-'};

uint8_t any_letter(void)
{
    return one_in(40) ? (uint8_t)below(256) : alphabet[below(one_in(3) ? sizeof alphabet : 3)];
}

static void put(uint8_t c)
{
    if (now.rule_len < RULE_ROOM)
        now.rule[now.rule_len++] = c;
}

void put_text(const char *s)
{
    while (*s != '\0')
        put((uint8_t)*s++);
}

static void put_byte(uint8_t c)
{
    if (c != 0 && strchr(".[]{}?+*\\", c) != NULL)
        put('\\');
    put(c);
}

static void put_class_byte(uint8_t c)
{
    if (c == ']' || c == '\\' || c == '-' || c == '^' || one_in(50))
        put('\\');
    put(c);
}

static void put_class(void)
{
    put('[');
    if (one_in(3))
        put('^');
    for (uint32_t n = 1 + below(3); n > 0; n--) {
        uint8_t lo = any_letter(), hi = any_letter();

        put_class_byte(lo < hi || one_in(100) ? lo : hi);
        if (one_in(2)) {
            put('-');
            put_class_byte(lo < hi ? hi : lo);
        }
    }
    put(']');
}

/* Every byte but A, turned round: the fold flag leaves none of it. */
static void put_class_of_A(void)
{
    static const uint8_t class_of_A[] = {'[', '^', 0, '-', '@', 'B', '-', 255, ']'};

    for (size_t i = 0; i < sizeof class_of_A; i++)
        put(class_of_A[i]);
}

static void put_bounds(uint32_t lo, uint32_t hi)
{
    char gap[32];

    snprintf(gap, sizeof gap, one_in(20) ? "{%02lu,%02lu}" : "{%lu,%lu}", (unsigned long)lo, (unsigned long)hi);
    put_text(gap);
}

static void put_gap(void)
{
    uint32_t lo = below(one_in(6) ? 64 : 3), hi = lo + below(one_in(6) ? 64 : 3);

    put_bounds(lo, hi == 0 && !one_in(20) ? 1 : hi);
}

/* For the front or back of a rule: gaps, of which those from 0 bare the next, and what only looks like them. */
static void put_outer(void)
{
    static const char *const others[] = {
        "{2,2}", "{1,1}", "{00,03}", "{01,02}", "{98,99}", "\\{1,2\\}", "[{1,2}]", "[{0,1}]*", "[\\]{0,1}]", ".", "\\}",
    };

    for (uint32_t n = 1 + below(3); n > 0; n--)
        if (one_in(2))
            put_bounds(0, 1 + below(3));
        else if (one_in(2))
            put_gap();
        else
            put_text(others[below(sizeof others / sizeof others[0])]);
}

/* One long class after a gap, or between two: with dots for these it would end about the limit. */
static void put_wide(void)
{
    uint32_t front = below(99), back = one_in(2) ? 0 : below(99), finished = JAZHUPPE_RULE_MOST - 3 + below(7);

    put_bounds(front, front + 1 + below(99 - front));
    put('[');
    for (uint32_t n = finished - front - back - 2; n > 0; n--)
        put('a');
    put(']');
    if (back > 0 || one_in(2))
        put_bounds(back, back + 1 + below(99 - back));
}

static void put_element(void)
{
    static const char *const odd[] = {
        "[^]", "[]", "{0,0}", "\\", "]", "}", "[a-b-c]", "[", "{1,", "{2,1}", "[b-a]", "??", "[\\^-a]", "[+-\\-]",
        "{001,2}", "{1,63}", "{3,3}", "\\^\\-", "[^\\]]",
    };
    uint32_t kind = below(20);

    if (kind < 10)
        put_byte(any_letter());
    else if (kind < 12)
        put('.');
    else if (kind < 15)
        put_class();
    else if (kind < 18)
        put_gap();
    else if (one_in(20))
        put_class_of_A();
    else if (one_in(6))
        put_text(odd[below(sizeof odd / sizeof odd[0])]);
    if ((kind < 15 && one_in(2)) || one_in(60))
        put((uint8_t)"?+*"[below(3)]);
}

static void make_rule(void)
{
    uint32_t elements = one_in(30) ? below(90) : 1 + below(7);

    now.rule_len = 0;
    now.fold = one_in(3) ? (one_in(2) ? 1 : (uint32_t)1 << below(32)) : 0;
    if (one_in(100))
        elements = 0;
    if (one_in(100)) {
        put('[');
        while (now.rule_len < JAZHUPPE_RULE_MOST - 5 + below(10))
            put('a');
        put(']');
    }
    if (one_in(6))
        put_outer();
    while (elements-- > 0)
        put_element();
    if (one_in(6))
        put_outer();
    if (one_in(100))
        while (now.rule_len < JAZHUPPE_RULE_MOST + 1 + below(60))
            put_byte(any_letter());
    if (now.rule_len > 0 && one_in(25))
        now.rule[below((uint32_t)now.rule_len)] = (uint8_t)below(256);
}

void store_rule(void)
{
    memcpy(now.stored, now.rule, now.rule_len);
    now.stored_len = now.rule_len;
}

/* Goes on with the rewriting most often where outer gaps refuse the rule, as nothing more would come of it. */
static void retire_outer_gaps(void)
{
    second_rewriting w;

    if (second_read(now.rule, now.rule_len, now.fold).number != JAZHUPPE_OUTER_GAP || one_in(10))
        return;
    w = second_rewritten(now.rule, now.rule_len);
    if (w.length > JAZHUPPE_RULE_MOST)
        return;
    memcpy(now.rule, w.text, w.length);
    now.rule_len = w.length;
}

/* ---- codes */

static uint8_t *set_byte(size_t k, uint8_t x)
{
    return &now.sets[k * JAZHUPPE_SET_BYTES + x / 8];
}

void put_in_set(size_t k, uint8_t x)
{
    *set_byte(k, x) |= (uint8_t)(1 << x % 8);
}

static void put_range_in_set(size_t k, uint32_t lo, uint32_t hi)
{
    for (uint32_t x = lo; x <= hi; x++)
        put_in_set(k, (uint8_t)x);
}

/* Few letters, a range, or every byte, but for the codes; seldom with a code too. */
static void draw_set(size_t k)
{
    uint32_t letters = 1 + below(3), lo = below(256);

    switch (below(8)) {
    case 0: put_range_in_set(k, 0, 255); break;
    case 1: put_range_in_set(k, lo, lo + below(256 - lo)); break;
    case 2: put_in_set(k, one_in(2) ? 0 : 255); break;
    default:
        while (letters-- > 0)
            put_in_set(k, any_letter());
    }
    for (size_t i = 0; i < now.codes_len; i++)
        if (!one_in(80))
            *set_byte(k, now.codes[i]) &= (uint8_t)~(1 << now.codes[i] % 8);
}

/* Another than the first so many, which are drawn already; seldom one of them. */
static uint8_t draw_code(size_t drawn)
{
    uint8_t c;

    do {
        c = one_in(8) ? (uint8_t)(one_in(2) ? 0 : 255) : one_in(3) ? (uint8_t)below(256) : any_letter();
    } while (memchr(now.codes, c, drawn) != NULL && !one_in(50));
    return c;
}

/* None, some, one too many, or seldom many more; and sets for them, seldom of another length. */
static void draw_codes(void)
{
    size_t sets;

    now.codes_len = one_in(3) ? 0 : one_in(6) ? below(JAZHUPPE_CODES_MOST + 2) : 1 + below(one_in(100) ? CODES_ROOM : 3);
    for (size_t k = 0; k < now.codes_len; k++)
        now.codes[k] = draw_code(k);
    sets = now.codes_len < SETS_MOST ? now.codes_len : SETS_MOST;
    memset(now.sets, 0, sizeof now.sets);
    for (size_t k = 0; k < sets; k++)
        draw_set(k);
    now.sets_len = sets * JAZHUPPE_SET_BYTES;
    if (one_in(40))
        now.sets_len = one_in(2) && now.sets_len < SETS_ROOM ? now.sets_len + 1 : below(SETS_ROOM + 1);
}

/* Reads the rule that was drawn, and codes for it: most often such as are accepted with it. */
static void read_with_codes(void)
{
    second_rule alone;

    store_rule();
    retire_outer_gaps();
    alone = second_read(now.rule, now.rule_len, now.fold);
    do {
        draw_codes();
        now.read = alone;
        second_read_codes(&now.read, now.codes, now.codes_len, now.sets, now.sets_len);
    } while (now.read.number == JAZHUPPE_CODES && !one_in(6));
}

/* A letter, or often one of the codes. */
static uint8_t any_plan_letter(void)
{
    return now.read.codes_count > 0 && one_in(3) ? now.codes[below((uint32_t)now.read.codes_count)] : any_letter();
}

/* ---- plans */

static void plan_byte(uint8_t c)
{
    if (now.plan_len < now.plan_most)
        now.plan[now.plan_len++] = c;
}

void plan_text(const char *s)
{
    while (*s != '\0')
        plan_byte((uint8_t)*s++);
}

/* A reference to the byte; one in four is padded, to about as many bytes as a form may have. */
static void plan_reference(uint8_t c)
{
    int digits = one_in(4) ? 25 + (int)below(7) : 1;
    char form[48];

    snprintf(form, sizeof form, one_in(2) ? "&#%0*u;" : one_in(2) ? "&#x%0*X;" : "&#x%0*x;", digits, (unsigned)c);
    plan_text(form);
}

/* A byte as it is, or spelt as a reference. */
static void plan_spelt(uint8_t c)
{
    if (one_in(6))
        plan_reference(c);
    else
        plan_byte(c);
}

uint8_t any_that_fits(const second_rule *rule, size_t i)
{
    uint8_t c = any_plan_letter();

    for (int tries = 0; tries < 400 && !second_fits(rule, i, c); tries++)
        c = tries < 40 ? any_plan_letter() : (uint8_t)below(256);
    return c;
}

/* Bytes that fill the rule's positions, but for one that is left out now and then. */
static void plan_occurrence(void)
{
    uint32_t seldom = now.read.count > 30 ? 4 * (uint32_t)now.read.count : 30;

    for (size_t i = 0; i < now.read.count; i++) {
        const second_position *p = &now.read.positions[i];
        uint32_t bytes = p->repeatable ? 1 + below(3) : 1;

        if (one_in(seldom) || (p->optional && one_in(2)))
            continue;
        while (bytes-- > 0)
            plan_spelt(any_that_fits(&now.read, i));
    }
}

static void plan_part(void)
{
    static const char *const parts[] = {
        "&amp;", "&lt;", "&gt;", "&apos;", "&quot;", "&amp;amp;", "&#38;", "&#x26;", "&#xE9;", "&#0;", "&am", "&", "&#",
        "&#x", "&#12345678", "&#1234567", "&#xD7FF;", "&#xD800;", "&#xFFFE;", "&#x10FFFF;", "&#x110000;", "&#9;",
        "&#8;", "&#00000038;", "&#x00000026;", "&AMP;", "&#X26;", "&amp", "&#;", "&#x;", "&&amp;", ";",
        "&#4294967334;", "&#x10000000000000026;", "&#79228162514264337593543950374;", "&#65533;", "&#xDFFF;", "&#31;",
        "&#x0000000000000000000000000000;", "&#000000000000000000000000000000;", "&nbsp;",
    };

    if (one_in(3))
        plan_text(parts[below(sizeof parts / sizeof parts[0])]);
    else if (one_in(8))
        plan_reference(any_plan_letter());
    else if (one_in(2))
        plan_occurrence();
    else
        for (uint32_t n = below(6); n > 0; n--)
            plan_byte(any_plan_letter());
}

static void plan_run(uint8_t c)
{
    for (uint32_t n = below(150); n > 0; n--)
        plan_byte(c);
}

/* A short plan, or a longer one in which the same byte stands between the parts. */
static void make_plan(void)
{
    uint8_t between = any_plan_letter();

    now.plan_len = 0;
    now.plan_most = one_in(30) ? 400 : 64;
    for (uint32_t parts = below(7); parts > 0; parts--) {
        plan_part();
        if (now.plan_most > 64)
            plan_run(between);
    }
}

/* A rule and a plan for which verifying each start to its end would take the square of the plan's length. */
static void make_hostile(void)
{
    static const char *const rules[] = {"a.*b", "a+b", "a{0,2}.*b", "a.+c?b", "[ab]*c", "aa*[^a]"};

    now.rule_len = 0;
    now.fold = 0;
    put_text(rules[below(sizeof rules / sizeof rules[0])]);
    read_with_codes();
    now.plan_len = 0;
    now.plan_most = PLAN_MOST;
    while (now.plan_len < now.plan_most) {
        plan_run('a');
        if (one_in(12))
            plan_part();
    }
}

/* A rule with optional parts and a long plan of its own letters, on which it cannot be foreseen what a byte changes. */
static void make_dense(void)
{
    static const char *const rules[] = {"[0-9]+[.,]?[0-9]?[0-9]? ?E?U?R", "[0-9]+[.,]?[0-9] ?E?U?R", "ab?c?d?a", "a.*b", "[AZ][az]+ {0,9}[09]+", "xa*y?x"};
    const char *rule = rules[below(sizeof rules / sizeof rules[0])];
    char letters[32];
    uint32_t n = 0;

    now.rule_len = 0;
    now.fold = 0;
    put_text(rule);
    read_with_codes();
    for (const char *p = rule; *p; p++)
        if (!strchr(".[]{}?+*-", *p))
            letters[n++] = *p;
    now.plan_most = PLAN_MOST;
    for (now.plan_len = 0; now.plan_len < now.plan_most; now.plan_len++)
        now.plan[now.plan_len] = now.read.codes_count > 0 && one_in(8) ? any_plan_letter() : (uint8_t)letters[below(n)];
}

/* So many positions, of few letters; blocks of optional ones and repeats stand at the borders of words most often. */
static void put_positions(uint32_t count)
{
    uint32_t letters = one_in(10) ? 1 : 2 + below(2), marks = one_in(3) ? 0 : 8;

    while (count > 0) {
        uint32_t made = (uint32_t)JAZHUPPE_POSITIONS_MOST - count, border = 64 - (made + 1) % 64, most = count < 99 ? count : 99;

        if (marks > 0 && most > 1 && one_in(border < 4 ? 8 : 200)) {
            uint32_t hi = 1 + below(most);

            put_bounds(below(hi + 1), hi);
            count -= hi;
            continue;
        }
        put((uint8_t)('a' + below(letters)));
        if (marks > 0 && one_in(border < 4 || border > 62 ? 2 : marks))
            put((uint8_t)"?+*"[below(3)]);
        count--;
    }
}

/* A rule of many positions, as many as end about the border of a word or any number, and a plan of its occurrences, whole, in
 * part and nearly. */
static void make_long(void)
{
    static const uint32_t near[] = {62, 63, 64, 65, 126, 127, 128, 129, 190, 191, 192, 193, 253, 254, 255, 256, 257, 300};
    uint32_t count = one_in(2) ? near[below(sizeof near / sizeof near[0])] : 1 + below(256);

    now.rule_len = 0;
    now.fold = one_in(8);
    put_positions(count);
    read_with_codes();
    now.plan_len = 0;
    now.plan_most = 300 + below(400);
    while (now.plan_len < now.plan_most) {
        size_t before = now.plan_len;

        plan_occurrence();
        /* Of this one alone: the plan of a short rule would else not come to its length. */
        if (one_in(3))
            now.plan_len -= below((uint32_t)(now.plan_len - before) + 1);
        if (one_in(2))
            plan_part();
        else
            plan_byte((uint8_t)('a' + below(3)));
    }
}

/* A rule whose rewriting may be too long. */
static void make_wide(void)
{
    now.rule_len = 0;
    now.fold = one_in(3);
    put_wide();
    read_with_codes();
    make_plan();
}

void draw_rule_and_plan(void)
{
    if (one_in(150)) {
        make_wide();
    } else if (one_in(700)) {
        make_hostile();
    } else if (one_in(500)) {
        make_dense();
    } else if (one_in(40)) {
        make_long();
    } else {
        make_rule();
        read_with_codes();
        make_plan();
    }
}

/* ---- what is lent */

size_t list_length(size_t needed)
{
    switch (below(10)) {
    case 0: return needed == 0 ? 0 : needed - 1;
    case 1: return one_in(3) ? 0 : needed;
    case 2: return needed + 1 + below(5);
    default: return needed;
    }
}

const uint8_t *lend_rule(void)
{
    return lend_bytes(&rule_room, now.rule, now.rule_len);
}

const uint8_t *lend_codes(void)
{
    return lend_bytes(&codes_room, now.codes, now.codes_len);
}

const uint8_t *lend_sets(void)
{
    return lend_bytes(&sets_room, now.sets, now.sets_len);
}
