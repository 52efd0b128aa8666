/* marked.c: the requirement's marked table, its lister example, raw counts, the fold, codes, rewritings of stored rules,
 * whole names, imports of LIKE patterns, and the header's constants, through the header. */
#include <ctype.h>
#include <stdio.h>
#include <string.h>

#include "jazhuppe.h"
#include "scan_layout.h"
#include "testing.h"

enum { MOST = 64, NOT_MARKED = -1 };

/* U+FFFD, which a form becomes whose number is no Char. */
#define MARK "\xEF\xBF\xBD"

/* A list of places. */
typedef struct {
    size_t count;
    uint32_t at[MOST];
} places;

/* Ends, and the raw count of each. */
typedef struct {
    places ends, raws;
} pairs;

typedef struct {
    const char *name, *rule, *text;
    uint32_t positions, shortest;
    places ends, starts;
    int windows;
    places shown; /* for each start, the earliest end there */
} marked;

static const marked table[] = {
    {"M1", "abc{1,3}de", "abcabcffdee", 8, 6, {1, {10}}, {1, {3}}, 2, {1, {10}}},
    {"M2", "ab?c*de+f", "acccdfabdeeeef", 6, 4, {1, {14}}, {1, {6}}, NOT_MARKED, {1, {14}}},
    {"M3", "abc?d?efg?h", "abefh", 8, 5, {1, {5}}, {1, {0}}, 1, {1, {5}}},
    {"M4", "a+", "aaa", 1, 1, {3, {1, 2, 3}}, {3, {0, 1, 2}}, 3, {3, {1, 2, 3}}},
    {"M5", "ab?", "ab", 2, 1, {2, {1, 2}}, {1, {0}}, 2, {1, {1}}},
    {"M6", "a?b", "ab", 2, 1, {1, {2}}, {2, {0, 1}}, 2, {2, {2, 2}}},
    /* In M7's place, which is refused now: moving by the shortest length after an occurrence would lose start 1. */
    {".?.a", ".?.a", "xxa", 3, 2, {1, {3}}, {2, {0, 1}}, 2, {2, {3, 3}}},
    {"M7, rewritten", ".a", "xxa", 2, 2, {1, {3}}, {1, {1}}, 2, {1, {3}}},
    {"M8", "a", "", 1, 1, {0, {0}}, {0, {0}}, 0, {0, {0}}},
    {"lister", "Row A&B [0-9]+", "Row A&B 12;", 9, 9, {2, {9, 10}}, {1, {0}}, 1, {1, {9}}},
};
enum { MARKED = sizeof table / sizeof table[0] };

static bool same(const places *marked_places, const places *given)
{
    return marked_places->count == given->count &&
           memcmp(marked_places->at, given->at, given->count * sizeof given->at[0]) == 0;
}

static const uint8_t *lend_rule(const char *rule)
{
    return lend_bytes(&rule_room, rule, strlen(rule));
}

/* What every opening and search here is lent beside its rule. */
static code_list named;
static uint32_t fold;

static jazhuppe_prepared open_named(const uint8_t *rule, size_t length, uint64_t *scan)
{
    const uint8_t *codes = lend_bytes(&codes_room, named.codes, named.codes_len);
    const uint8_t *sets = lend_bytes(&sets_room, named.sets, named.sets_len);
    jazhuppe_prepared p = jazhuppe_open(rule, length, fold, codes, named.codes_len, sets, named.sets_len, scan,
                                        JAZHUPPE_SCAN_WORDS);

    CHECK(untouched(&codes_room) && untouched(&sets_room));
    return p;
}

/* The list has an entry for each byte of the text. */
static jazhuppe_answer search_named(const uint8_t *rule, size_t length, const uint8_t *text, size_t text_len,
                                    uint32_t *list)
{
    const uint8_t *codes = lend_bytes(&codes_room, named.codes, named.codes_len);
    const uint8_t *sets = lend_bytes(&sets_room, named.sets, named.sets_len);
    jazhuppe_answer a = jazhuppe_search(rule, length, fold, codes, named.codes_len, sets, named.sets_len, text, text_len,
                                        list, text_len);

    CHECK(untouched(&codes_room) && untouched(&sets_room));
    return a;
}

static uint64_t *open_scan(const char *rule)
{
    uint64_t *scan = lend(&scan_room, JAZHUPPE_SCAN_WORDS * sizeof *scan);
    jazhuppe_prepared p = open_named(lend_rule(rule), strlen(rule), scan);

    CHECK(p.number == 0 && p.place == 0);
    CHECK(untouched(&rule_room));
    return scan;
}

/* Adds of each entry that a call reported, of so many numbers, the one at `list`. */
static void add(places *all, jazhuppe_answer a, const uint32_t *list, size_t apart)
{
    CHECK(a.number == 0 && a.place == 0 && a.windows == 0);
    CHECK(untouched_past(&list_room, a.count * apart * sizeof *list));
    if (a.number != 0 || all->count + a.count > MOST)
        return;
    for (size_t i = 0; i < a.count; i++)
        all->at[all->count++] = list[i * apart];
}

static void add_pairs(pairs *all, jazhuppe_answer a, const uint32_t *list)
{
    add(&all->ends, a, list, JAZHUPPE_PAIR);
    add(&all->raws, a, list + 1, JAZHUPPE_PAIR);
}

static void feed(uint64_t *scan, const char *piece, size_t length, pairs *all)
{
    uint32_t *list = lend(&list_room, JAZHUPPE_FEED_LIST(length) * sizeof *list);
    const uint8_t *bytes = lend_bytes(&text_room, piece, length);

    add_pairs(all, jazhuppe_feed(scan, JAZHUPPE_SCAN_WORDS, bytes, length, list, JAZHUPPE_FEED_LIST(length)), list);
    CHECK(untouched(&text_room));
}

static void finish(uint64_t *scan, pairs *all)
{
    uint32_t *list = lend(&list_room, JAZHUPPE_FINISH_LIST * sizeof *list);

    add_pairs(all, jazhuppe_finish(scan, JAZHUPPE_SCAN_WORDS, list, JAZHUPPE_FINISH_LIST), list);
}

static pairs no_pairs(void)
{
    pairs none;

    memset(&none, 0, sizeof none);
    return none;
}

/* The ends of a plan that is fed in pieces of `step` bytes after a first one of `first`. */
static pairs scanned(const char *rule, const char *plan, size_t first, size_t step)
{
    pairs all = no_pairs();
    size_t length = strlen(plan);
    uint64_t *scan = open_scan(rule);

    feed(scan, plan, first, &all);
    for (size_t at = first; at < length; at += step)
        feed(scan, plan + at, length - at < step ? length - at : step, &all);
    finish(scan, &all);
    return all;
}

/* Scans a plan whole, byte by byte, and cut at every place. Where nothing is decoded in it, its raw counts are the ends. */
static void scan_every_way(const char *rule, const char *plan, const places *ends, const places *raws)
{
    size_t length = strlen(plan);
    pairs all = scanned(rule, plan, 0, 1);

    CHECK(same(ends, &all.ends) && same(raws, &all.raws));
    for (size_t first = 0; first <= length; first++) {
        all = scanned(rule, plan, first, length);
        CHECK(same(ends, &all.ends) && same(raws, &all.raws));
    }
}

/* Decodes into a buffer as long as the plan: the text's length. */
static size_t decoded(const char *plan, size_t length, uint8_t *text)
{
    uint8_t *out = lend(&list_room, length);
    jazhuppe_answer a = jazhuppe_decode(lend_bytes(&text_room, plan, length), length, out, length);

    CHECK(a.number == 0 && a.place == 0 && a.windows == 0 && a.count <= length);
    CHECK(untouched_past(&list_room, a.count) && untouched(&text_room));
    memcpy(text, out, a.count);
    return a.count;
}

static void search_marked(const marked *m)
{
    size_t length = strlen(m->text);
    places starts = {0, {0}};
    uint32_t *list = lend(&list_room, length * sizeof *list);
    const uint8_t *text = lend_bytes(&text_room, m->text, length), *rule = lend_rule(m->rule);
    jazhuppe_answer a = search_named(rule, strlen(m->rule), text, length, list);

    CHECK(m->windows == NOT_MARKED || a.windows == (uint32_t)m->windows);
    a.windows = 0;
    add(&starts, a, list, 1);
    CHECK(same(&m->starts, &starts));
    CHECK(untouched(&rule_room) && untouched(&text_room));
}

/* At each start of the text, and past it. */
static void show_marked(const marked *m)
{
    size_t length = strlen(m->text), shown = 0;
    const uint8_t *text = lend_bytes(&text_room, m->text, length), *rule = lend_rule(m->rule);

    for (size_t start = 0; start <= length + 1; start++) {
        jazhuppe_span s = jazhuppe_show(rule, strlen(m->rule), 0, text, length, start);

        if (shown < m->starts.count && start == m->starts.at[shown]) {
            CHECK(s.from == start && s.to == m->shown.at[shown]);
            shown++;
        } else {
            CHECK(s.from == length && s.to == length);
        }
    }
    CHECK(shown == m->starts.count);
}

static void hold_row(const marked *m)
{
    jazhuppe_prepared p = jazhuppe_prepare(lend_rule(m->rule), strlen(m->rule), 0);
    static uint8_t text[2048];

    about("%s", m->name);
    CHECK(p.number == 0 && p.place == 0 && p.positions == m->positions && p.shortest == m->shortest);
    CHECK(decoded(m->text, strlen(m->text), text) == strlen(m->text));
    scan_every_way(m->rule, m->text, &m->ends, &m->ends);
    search_marked(m);
    show_marked(m);
}

static void test_rows(void)
{
    for (size_t i = 0; i < MARKED; i++)
        hold_row(&table[i]);
}

/* ---- long rules */

static char long_rule[2048], long_text[2048];

static void put(char *to, const char *part, size_t times)
{
    while (times-- > 0)
        strcat(to, part);
}

/* What stands for itself, both in a rule and in a text. */
static void put_both(const char *part, size_t times)
{
    put(long_rule, part, times);
    put(long_text, part, times);
}

static void begin(void)
{
    long_rule[0] = long_text[0] = '\0';
}

/* The rule begins once in the text, at `start`, and ends there once, at `end`; or it does not, where `end` is 0. */
static void hold_once(const char *name, uint32_t positions, uint32_t shortest, uint32_t start, uint32_t end)
{
    marked m = {name, long_rule, long_text, positions, shortest, {end > 0, {end}}, {end > 0, {start}}, NOT_MARKED, {end > 0, {end}}};

    hold_row(&m);
}

/* Every letter of the alphabet in turn, n of them: the top position stands at bit n, in each word and at its borders. */
static void test_top_in_each_word(void)
{
    static const uint32_t lengths[] = {62, 63, 64, 65, 100, 127, 128, 129, 160, 191, 192, 193, 254, 255};

    for (size_t i = 0; i < sizeof lengths / sizeof lengths[0]; i++) {
        char name[32];

        begin();
        put(long_text, "-", 3);
        for (uint32_t n = 0; n < lengths[i]; n++)
            put_both((char[]){(char)('a' + n % 26), '\0'}, 1);
        put(long_text, "-", 1);
        snprintf(name, sizeof name, "%lu letters", (unsigned long)lengths[i]);
        hold_once(name, lengths[i], lengths[i], 3, 3 + lengths[i]);
        /* The last letter is another one. */
        long_text[2 + lengths[i]] = '-';
        hold_once(name, lengths[i], lengths[i], 0, 0);
    }
}

/* A block of eight optional positions over a border, of which so many are filled. */
static void test_blocks_over_borders(void)
{
    for (uint32_t border = 64; border < 256; border += 64)
        for (uint32_t before = border - 8; before <= border; before++)
            for (uint32_t filled = 0; filled <= 9; filled++) {
                char name[64];

                begin();
                put_both("a", before - 1);
                put(long_rule, "b?", 8);
                put(long_text, "b", filled);
                put_both("c", 1);
                snprintf(name, sizeof name, "block from bit %lu, %lu filled", (unsigned long)before, (unsigned long)filled);
                hold_once(name, before + 8, before, 0, filled <= 8 ? before + filled : 0);
            }
}

/* The same by a gap, from a byte of its own to one of its own. */
static void test_gaps_over_borders(void)
{
    for (uint32_t gap = 0; gap <= 91; gap++) {
        char name[32];

        begin();
        put(long_rule, "R{0,90}S{0,90}H", 1);
        put(long_text, "R", 1);
        put(long_text, "x", gap);
        put(long_text, "S", 1);
        put(long_text, "x", 90 - gap % 91);
        put(long_text, "H", 1);
        snprintf(name, sizeof name, "gaps, the first of %lu", (unsigned long)gap);
        hold_once(name, 183, 3, 0, gap <= 90 ? 93 : 0);
    }
}

/* A repeat at a bit, of none to five bytes; at the last position each byte ends an occurrence. */
static void test_repeats_at_borders(void)
{
    static const uint32_t bits[] = {62, 63, 64, 65, 127, 128, 191, 192, 254, 255};

    for (size_t i = 0; i < sizeof bits / sizeof bits[0]; i++)
        for (uint32_t times = 0; times <= 5; times++) {
            bool last = bits[i] == 255;
            marked m = {"the last position repeats", long_rule, long_text, 255, 255, {times, {255, 256, 257, 258, 259}},
                        {times > 0, {0}}, NOT_MARKED, {times > 0, {255}}};
            char name[64];

            begin();
            put_both("a", bits[i] - 1);
            put(long_rule, "b+", 1);
            put(long_text, "b", times);
            put_both("c", !last);
            snprintf(name, sizeof name, "repeat at bit %lu, %lu times", (unsigned long)bits[i], (unsigned long)times);
            if (last)
                hold_row(&m);
            else
                hold_once(name, bits[i] + 1, bits[i] + 1, 0, times > 0 ? bits[i] + times : 0);
        }
}

/* 254 optional positions, and one that is not. */
static void test_all_but_one_optional(void)
{
    marked m = {"254 a? and a", long_rule, "aaab", 255, 1, {3, {1, 2, 3}}, {3, {0, 1, 2}}, 4, {3, {1, 2, 3}}};

    begin();
    put(long_rule, "a?", 254);
    put(long_rule, "a", 1);
    hold_row(&m);
}

/* The shortest length is 255: one window, and two. */
static void test_longest_window(void)
{
    marked one = {"255 a in 255 a", long_rule, long_text, 255, 255, {1, {255}}, {1, {0}}, 1, {1, {255}}};
    marked two = {"255 a in 256 a", long_rule, long_text, 255, 255, {2, {255, 256}}, {2, {0, 1}}, 2, {2, {255, 256}}};

    begin();
    put_both("a", 255);
    hold_row(&one);
    put(long_text, "a", 1);
    hold_row(&two);
}

/* ---- references */

static void test_lister_plan(void)
{
    const char *plan = "Row A&amp;B 12;", *text = "Row A&B 12;";
    uint8_t out[64];

    CHECK(decoded(plan, strlen(plan), out) == strlen(text) && memcmp(out, text, strlen(text)) == 0);
    scan_every_way("Row A&B [0-9]+", plan, &table[MARKED - 1].ends, &(const places){2, {13, 14}});
}

static void decodes(const char *name, const char *plan, const char *text)
{
    uint8_t out[64];

    about("%s", name);
    CHECK(decoded(plan, strlen(plan), out) == strlen(text) && memcmp(out, text, strlen(text)) == 0);
}

static void stays(const char *name, const char *plan)
{
    decodes(name, plan, plan);
}

/* The decoded text occurs in the plan, however it is cut, and ends where it ends, there and in the plan as it is spelt. */
static void occurs(const char *rule, const char *plan, uint32_t end, uint32_t raw)
{
    places ends = {1, {end}}, raws = {1, {raw}};

    about("%s in %s", rule, plan);
    scan_every_way(rule, plan, &ends, &raws);
}

static void test_references(void)
{
    decodes("M9", "&amp;amp;", "&amp;");
    decodes("M10", "&#xE9;", "\xC3\xA9");
    decodes("M11", "&#0;", MARK);
    stays("M11", "&am");
    occurs("&amp;", "&amp;amp;", 5, 9);
    occurs("\xC3\xA9", "&#xE9;", 2, 6);
    occurs(MARK, "&#0;", 3, 4);
    occurs("&am", "&am", 3, 3);
}

/* A form of so many bytes, padded with zeros to that length. */
static const char *padded(const char *mark, const char *digits, size_t bytes)
{
    static char form[64];
    size_t front = strlen(mark), back = strlen(digits) + 1;

    memset(form, '0', bytes);
    memcpy(form, mark, front);
    memcpy(form + bytes - back, digits, back - 1);
    form[bytes - 1] = ';';
    form[bytes] = '\0';
    return form;
}

/* Decoded up to 32 bytes, in both bases and wherever it is cut; from 33 on it stays as it came. */
static void test_padded_forms(void)
{
    for (size_t bytes = 8; bytes <= 32; bytes++) {
        decodes("padded", padded("&#", "38", bytes), "&");
        decodes("padded", padded("&#x", "e9", bytes), "\xC3\xA9");
        occurs("&", padded("&#", "38", bytes), 1, (uint32_t)bytes);
        occurs("\xC3\xA9", padded("&#x", "e9", bytes), 2, (uint32_t)bytes);
        decodes("zeros", padded("&#", "0", bytes), MARK);
        decodes("zeros", padded("&#x", "0", bytes), MARK);
    }
    for (size_t bytes = 33; bytes <= 35; bytes++) {
        stays("too long", padded("&#", "38", bytes));
        stays("too long", padded("&#x", "e9", bytes));
        occurs("&#0+38;", padded("&#", "38", bytes), (uint32_t)bytes, (uint32_t)bytes);
        occurs("&#x0+e9;", padded("&#x", "e9", bytes), (uint32_t)bytes, (uint32_t)bytes);
    }
}

/* 2^32 + 38, 2^64 + 38 and 2^96 + 38, and the greatest numbers that 32 bytes spell: no Char. */
static void test_great_numbers(void)
{
    static const char *const forms[] = {
        "&#4294967334;", "&#x100000026;", "&#18446744073709551654;", "&#x10000000000000026;",
        "&#79228162514264337593543950374;", "&#x0001000000000000000000000026;",
        "&#99999999999999999999999999999;", "&#xFFFFFFFFFFFFFFFFFFFFFFFFFFFF;",
    };

    for (size_t i = 0; i < sizeof forms / sizeof forms[0]; i++) {
        decodes("a great number", forms[i], MARK);
        occurs(MARK, forms[i], 3, (uint32_t)strlen(forms[i]));
    }
}

/* Each border of Char, and what each number there decodes to, in both bases, as short as it is and padded to 32 bytes.
 * Of 33 bytes it is no form. */
static void test_borders_of_char(void)
{
    static const struct {
        unsigned number;
        const char *text;
    } borders[] = {
        {0, MARK}, {1, MARK}, {8, MARK}, {9, "\t"}, {10, "\n"}, {11, MARK}, {12, MARK}, {13, "\r"}, {14, MARK}, {31, MARK},
        {32, " "}, {127, "\x7F"}, {128, "\xC2\x80"}, {159, "\xC2\x9F"}, /* Chars: not what Windows-1252 has there */
        {0xD7FF, "\xED\x9F\xBF"}, {0xD800, MARK}, {0xDFFF, MARK}, {0xE000, "\xEE\x80\x80"}, {0xFFFD, MARK},
        {0xFFFE, MARK}, {0xFFFF, MARK}, {0x10000, "\xF0\x90\x80\x80"}, {0x10FFFF, "\xF4\x8F\xBF\xBF"}, {0x110000, MARK},
    };
    static const char *const spellings[] = {"%u", "%X", "%x"};

    for (size_t i = 0; i < sizeof borders / sizeof borders[0]; i++) {
        for (size_t k = 0; k < sizeof spellings / sizeof spellings[0]; k++) {
            const char *mark = k == 0 ? "&#" : "&#x";
            char digits[16];
            int count = snprintf(digits, sizeof digits, spellings[k], borders[i].number);

            decodes(digits, padded(mark, digits, strlen(mark) + (size_t)count + 1), borders[i].text);
            decodes(digits, padded(mark, digits, 32), borders[i].text);
            stays(digits, padded(mark, digits, 33));
        }
    }
}

/* The mark's bytes are three places: a rule for one of them ends inside the reference, however the plan is cut, and has the
 * reference's raw count. */
static void test_inside_one_reference(void)
{
    static const char *const plans[] = {"a&#0;b", "a&#xD800;b", "a&#65533;b", "a&#xFFFFFFFFFFFFFFFFFFFFFFFFFFFF;b"};

    for (size_t i = 0; i < sizeof plans / sizeof plans[0]; i++) {
        uint32_t length = (uint32_t)strlen(plans[i]);

        decodes(plans[i], plans[i], "a" MARK "b");
        occurs("\xEF", plans[i], 2, length - 1);
        occurs("\xBF", plans[i], 3, length - 1);
        occurs("\xBD", plans[i], 4, length - 1);
        occurs("a..", plans[i], 3, length - 1);
        occurs("a[\x80-\xFF]+b", plans[i], 5, length);
    }
}

/* Misspelled, and unfinished: no forms. */
static void test_no_forms(void)
{
    static const char *const plans[] = {"&nbsp;", "&null;", "&AMP;", "&#X0;", "&#;", "&#x;", "&#-1;", "&#xD800", "&#0"};

    for (size_t i = 0; i < sizeof plans / sizeof plans[0]; i++)
        stays(plans[i], plans[i]);
}

/* "Two finished plans that decode alike, one padded and one short, still get the same ends and starts"; "their raw counts may
 * differ." */
static void test_padded_and_short(void)
{
    static const struct {
        const char *plan;
        places raws;
    } spellings[] = {
        {"Row A&#0000000038;B 12;", {2, {21, 22}}}, {"Row A&#38;B 12;", {2, {13, 14}}}, {"Row A&B 12;", {2, {9, 10}}},
        {"Row A&B 1&#50;", {2, {9, 14}}}, {"&#82;&#111;w A&#x26;B &#49;2;", {2, {27, 28}}},
    };
    const marked *m = &table[MARKED - 1];

    for (size_t i = 0; i < sizeof spellings / sizeof spellings[0]; i++) {
        about("%s", spellings[i].plan);
        scan_every_way(m->rule, spellings[i].plan, &m->ends, &spellings[i].raws);
    }
    decodes("padded", spellings[0].plan, m->text);
    decodes("short", spellings[1].plan, m->text);
    search_marked(m);
}

/* ---- raw counts */

typedef struct {
    const char *rule, *plan;
    places ends, raws;
} raw_row;

#define PADDED "&#00000000000000000000000000038;"

static const raw_row raw_table[] = {
    /* The bytes of one reference share its count: two, three, four of them. */
    {".", "&#xE9;", {2, {1, 2}}, {2, {6, 6}}},
    {".", "a&#xE9;b", {4, {1, 2, 3, 4}}, {4, {1, 7, 7, 8}}},
    {".", "&#0;", {3, {1, 2, 3}}, {3, {4, 4, 4}}},
    {".", "a&#xD800;b", {5, {1, 2, 3, 4, 5}}, {5, {1, 9, 9, 9, 10}}},
    {".", "&#x1F600;", {4, {1, 2, 3, 4}}, {4, {9, 9, 9, 9}}},
    {".", "a&#128512;b", {6, {1, 2, 3, 4, 5, 6}}, {6, {1, 10, 10, 10, 10, 11}}},
    {".", "\xC3\xA9", {2, {1, 2}}, {2, {1, 2}}},
    /* An end inside a reference has the count of the whole. */
    {"\xC3", "&#xE9;", {1, {1}}, {1, {6}}},
    {"a\xF0\x9F", "a&#x1F600;", {1, {3}}, {1, {10}}},
    /* One after the other. */
    {".", "&lt;&gt;", {2, {1, 2}}, {2, {4, 8}}},
    {".", "&&amp;", {2, {1, 2}}, {2, {1, 6}}},
    {".", "&&&amp;", {3, {1, 2, 3}}, {3, {1, 2, 7}}},
    {".", "&amp;amp;", {5, {1, 2, 3, 4, 5}}, {5, {5, 6, 7, 8, 9}}},
    {"a+", "a&#97;a", {3, {1, 2, 3}}, {3, {1, 6, 7}}},
    /* A tail that is let through, by &, by another byte, by the plan's end: byte by byte. */
    {".", "&am", {3, {1, 2, 3}}, {3, {1, 2, 3}}},
    {".", "&am&", {4, {1, 2, 3, 4}}, {4, {1, 2, 3, 4}}},
    {".", "&am&amp;", {4, {1, 2, 3, 4}}, {4, {1, 2, 3, 8}}},
    {".", "&amq", {4, {1, 2, 3, 4}}, {4, {1, 2, 3, 4}}},
    {".", "&amq&lt;", {5, {1, 2, 3, 4, 5}}, {5, {1, 2, 3, 4, 8}}},
    {".", "&lt;&#xE", {5, {1, 2, 3, 4, 5}}, {5, {4, 5, 6, 7, 8}}},
    {"m", "&lt;&am", {1, {4}}, {1, {7}}},
    /* As long as a form may be. */
    {".", PADDED, {1, {1}}, {1, {32}}},
    {".", "a" PADDED "b", {3, {1, 2, 3}}, {3, {1, 33, 34}}},
    {"&+", PADDED PADDED, {2, {1, 2}}, {2, {32, 64}}},
    {"[^0-9]", "&#000000000000000000000000000038;", {3, {1, 2, 33}}, {3, {1, 2, 33}}},
    {"Row A&B [0-9]+", "Row A&amp;B 12;", {2, {9, 10}}, {2, {13, 14}}},
};

static void test_raw_counts(void)
{
    for (size_t i = 0; i < sizeof raw_table / sizeof raw_table[0]; i++) {
        const raw_row *row = &raw_table[i];

        about("%s in %s", row->rule, row->plan);
        scan_every_way(row->rule, row->plan, &row->ends, &row->raws);
    }
}

/* The next call on a scan for every byte: what it alone reports. A finish where there is no piece. */
static void next_gives(uint64_t *scan, const char *piece, places ends, places raws)
{
    pairs all = no_pairs();

    about("next, %s", piece == NULL ? "a finish" : piece);
    if (piece == NULL)
        finish(scan, &all);
    else
        feed(scan, piece, strlen(piece), &all);
    CHECK(same(&ends, &all.ends) && same(&raws, &all.raws));
}

/* A reference over three pieces counts where its ; stands, and what comes after it goes on from there. */
static void test_raw_over_pieces(void)
{
    const places none = {0, {0}};
    uint64_t *scan = open_scan(".");

    next_gives(scan, "a&#", (places){1, {1}}, (places){1, {1}});
    next_gives(scan, "x1F6", none, none);
    next_gives(scan, "", none, none);
    next_gives(scan, "00;b&am", (places){5, {2, 3, 4, 5, 6}}, (places){5, {10, 10, 10, 10, 11}});
    next_gives(scan, "p", none, none);
    next_gives(scan, ";", (places){1, {7}}, (places){1, {16}});
    next_gives(scan, "&#0", none, none);
    next_gives(scan, NULL, (places){3, {8, 9, 10}}, (places){3, {17, 18, 19}});
}

/* What a later piece lets through has the places where it stood, and not that piece's. */
static void test_raw_let_through(void)
{
    const places none = {0, {0}};
    uint64_t *scan = open_scan(".");

    next_gives(scan, "&am", none, none);
    next_gives(scan, "q", (places){4, {1, 2, 3, 4}}, (places){4, {1, 2, 3, 4}});
    next_gives(scan, "&#", none, none);
    next_gives(scan, "&lt;", (places){3, {5, 6, 7}}, (places){3, {5, 6, 10}});
    next_gives(scan, "&a", none, none);
    next_gives(scan, "&", (places){2, {8, 9}}, (places){2, {11, 12}});
    next_gives(scan, "gt", none, none);
    next_gives(scan, NULL, (places){3, {10, 11, 12}}, (places){3, {13, 14, 15}});
}

/* ---- codes */

/* A row of the scan and the search alone, as nothing is shown by codes. Its codes are words, a code and then its set. */
typedef struct {
    const char *codes;
    uint32_t fold;
    const char *rule, *text;
    places ends, starts;
    int windows;
} smudged;

static const smudged smudged_table[] = {
    /* Each place by itself. */
    {"?ab", 0, "ab", "??", {1, {2}}, {1, {0}}, 1},
    {"?ab", 0, "ab", "???", {2, {2, 3}}, {2, {0, 1}}, 2},
    {"?ab ~ab", 0, "ab", "?~", {1, {2}}, {1, {0}}, 1},
    {"?a ~b", 0, "ab", "~??~", {1, {4}}, {1, {2}}, 3},
    {"?0123456789 ~&8", 0, "Row A&B [0-9]+", "Row A~B ?2;", {2, {9, 10}}, {1, {0}}, 1},
    /* A code in a rule's own set counts for nothing. */
    {"?b", 0, "[?a]", "?a", {1, {2}}, {1, {1}}, 2},
    {"?a", 0, "[?a]", "?a", {2, {1, 2}}, {2, {0, 1}}, 2},
    {"?a", 0, "[^?]", "?a", {2, {1, 2}}, {2, {0, 1}}, 2},
    {"?a", 0, "[^a]", "?ab", {1, {3}}, {1, {2}}, 3},
    {"?ab", 0, "[^a]", "?ab", {2, {1, 3}}, {2, {0, 2}}, 3},
    {"?a", 0, "[^?a]", "?ab", {1, {3}}, {1, {2}}, 3},
    {"?b", 0, ".", "?", {1, {1}}, {1, {0}}, 1},
    /* A byte that a set holds is still itself. */
    {"?b", 0, "a", "?ab", {1, {2}}, {1, {1}}, 3},
    /* Repeats, optional positions and gaps. */
    {"?a", 0, "a+", "a?a", {3, {1, 2, 3}}, {3, {0, 1, 2}}, 3},
    {"?bc", 0, "ab?c", "a??", {2, {2, 3}}, {1, {0}}, 1},
    {"?a", 0, "xa*y", "x??ay", {1, {5}}, {1, {0}}, 2},
    {"?-", 0, ".?.a", "??a", {1, {3}}, {2, {0, 1}}, 2},
    {"?a", 0, "a{1,2}b", "??xb", {1, {4}}, {2, {0, 1}}, 2},
    /* Windows 0, 1 and 3: a code in a window shortens the move from it. */
    {"?abc", 0, "abc", "a??abc", {2, {3, 6}}, {2, {0, 3}}, 3},
    {"?x", 0, "abc", "a??abc", {1, {6}}, {1, {3}}, 2},
    /* The fold flag widens the rule, and neither the codes nor their sets: {a} would else hold the code A. */
    {"?A", 0, "a", "?aA", {1, {2}}, {1, {1}}, 3},
    {"?A", 1, "a", "?aA", {3, {1, 2, 3}}, {3, {0, 1, 2}}, 3},
    {"Ax", 1, "x", "AaX", {2, {1, 3}}, {2, {0, 2}}, 3},
    {"Aa", 1, "A", "Aa", {2, {1, 2}}, {2, {0, 1}}, 2},
    {"Ab", 1, "A", "Aa", {1, {2}}, {1, {1}}, 2},
    /* As many as there may be, each with a set of its own. */
    {"1a 2b 3c 4d 5e 6f 7g 8h", 0, "abcdefgh", "12345678", {1, {8}}, {1, {0}}, 1},
    {"1a 2b 3c 4d 5e 6f 7g 8h", 0, "abcdefgh", "12345687", {0, {0}}, {0, {0}}, 1},
};

static void name_nothing(void)
{
    named = no_codes();
    fold = 0;
}

static void name(uint8_t code, const char *set)
{
    name_code(&named, code, set, strlen(set));
}

static void name_words(const char *words)
{
    while (*words != '\0') {
        size_t length = strcspn(words, " ");

        name_code(&named, (uint8_t)words[0], words + 1, length - 1);
        words += length + (words[length] == ' ');
    }
}

/* With the codes that are named, by both searches. */
static void hold_both(const char *rule, const char *text, places ends, places starts, int windows)
{
    marked m = {"codes", rule, text, 0, 0, ends, starts, windows, {0, {0}}};

    scan_every_way(rule, text, &ends, &ends);
    search_marked(&m);
}

static void test_codes(void)
{
    for (size_t i = 0; i < sizeof smudged_table / sizeof smudged_table[0]; i++) {
        const smudged *m = &smudged_table[i];

        about("%s in %s, codes %s", m->rule, m->text, m->codes);
        name_words(m->codes);
        fold = m->fold;
        hold_both(m->rule, m->text, m->ends, m->starts, m->windows);
        name_nothing();
    }
}

/* A reference that decodes to a code byte, a code byte in a character of UTF-8, and & itself as a code. */
static void test_codes_decoded(void)
{
    name('?', "b");
    occurs("xb", "x?", 2, 2);
    occurs("xb", "x&#63;", 2, 6);
    occurs("xb", "x&#x3F;", 2, 7);
    occurs("xb", "x&#000000000000000000000000063;", 2, 31);
    name(0xA9, "b");
    occurs("\xC3" "b", "&#xE9;", 2, 6);
    name('&', "b");
    occurs("xb", "x&amp;", 2, 6);
    occurs("xbamp", "x&amp;amp", 5, 9);
    occurs("xb", "x&", 2, 2);
    occurs("xbam", "x&am", 4, 4);
    name_nothing();
}

/* Whether a rule of one byte occurs in a text of one, by both searches. */
static bool occurs_alone(uint8_t b, uint8_t text)
{
    bool escaped = b != 0 && strchr(".[]{}?+*\\", b) != NULL;
    const char spelt[] = {'\\', (char)b}, byte = (char)text;
    const uint8_t *rule = lend_bytes(&rule_room, spelt + !escaped, 1 + escaped);
    uint64_t *scan = lend(&scan_room, JAZHUPPE_SCAN_WORDS * sizeof *scan);
    pairs all = no_pairs();
    jazhuppe_answer a;

    CHECK(open_named(rule, 1 + escaped, scan).number == 0);
    feed(scan, &byte, 1, &all);
    finish(scan, &all);
    a = search_named(rule, 1 + escaped, lend_bytes(&text_room, &byte, 1), 1, lend(&list_room, sizeof(uint32_t)));
    CHECK(a.number == 0 && a.count == all.ends.count && a.windows == 1);
    return all.ends.count == 1;
}

/* A set of one byte x is bit x % 8 of byte x / 8, and fits a rule of that byte and of no other. */
static void test_bit_order(void)
{
    static const uint8_t bytes[] = {0, 1, 7, 8, 9, 15, 16, 64, 127, 128, 246, 247, 248, 254, 255};

    for (size_t i = 0; i < sizeof bytes; i++) {
        uint8_t x = bytes[i];

        named.codes_len = 1;
        named.codes[0] = '~';
        named.sets_len = JAZHUPPE_SET_BYTES;
        named.sets[x / 8] = (uint8_t)(1u << x % 8);
        for (int b = 0; b < 256; b++) {
            about("a set of %d, a rule of %d", x, b);
            CHECK(b == '~' || occurs_alone((uint8_t)b, '~') == (b == x));
        }
        name_nothing();
    }
}

/* Each byte as a code for an a: it stands for that, and not for itself. */
static void test_each_code(void)
{
    for (int c = 0; c < 256; c++) {
        if (c == 'a' || c == 'b')
            continue;
        about("code %d", c);
        name((uint8_t)c, "a");
        CHECK(occurs_alone('a', (uint8_t)c) && occurs_alone('a', 'a'));
        CHECK(!occurs_alone('b', (uint8_t)c) && occurs_alone('b', 'b') && !occurs_alone('b', 'a'));
        name_nothing();
    }
}

static void test_codes_0_and_255(void)
{
    const char text[] = {0, (char)255, 'a', (char)255, 0, 'b'};
    places starts = {0, {0}}, marked_ends = {3, {2, 4, 6}}, marked_starts = {3, {0, 2, 4}};
    pairs all = no_pairs();
    uint32_t *list;
    jazhuppe_answer a;

    name(0, "a");
    name(255, "b");
    feed(open_scan("ab"), text, sizeof text, &all);
    CHECK(same(&marked_ends, &all.ends) && same(&marked_ends, &all.raws));
    list = lend(&list_room, sizeof text * sizeof *list);
    a = search_named(lend_rule("ab"), 2, lend_bytes(&text_room, text, sizeof text), sizeof text, list);
    CHECK(a.windows == 3);
    a.windows = 0;
    add(&starts, a, list, 1);
    CHECK(same(&marked_starts, &starts));
    name_nothing();
}

/* The code A and a rule of A alone: with fold it has an a too. */
static void test_code_alone(void)
{
    uint64_t *scan = lend(&scan_room, JAZHUPPE_SCAN_WORDS * sizeof *scan);
    uint32_t *list = lend(&list_room, sizeof *list);
    const uint8_t *rule = lend_rule("A"), *text = lend_bytes(&text_room, "A", 1);

    name('A', "b");
    CHECK(open_named(rule, 1, scan).number == JAZHUPPE_CODES && untouched(&scan_room));
    CHECK(search_named(rule, 1, text, 1, list).number == JAZHUPPE_CODES && untouched(&list_room));
    fold = 1;
    CHECK(open_named(rule, 1, scan).number == 0 && search_named(rule, 1, text, 1, list).number == 0);
    name_nothing();
}

/* JAZHUPPE_CODES_MOST codes are accepted, and one more is not. */
static void test_codes_most(void)
{
    uint64_t *scan = lend(&scan_room, JAZHUPPE_SCAN_WORDS * sizeof *scan);

    while (named.codes_len < JAZHUPPE_CODES_MOST)
        name((uint8_t)named.codes_len, "a");
    CHECK(open_named(lend_rule("a"), 1, scan).number == 0);
    lent_anew(&scan_room);
    name((uint8_t)named.codes_len, "a");
    CHECK(open_named(lend_rule("a"), 1, scan).number == JAZHUPPE_CODES && untouched(&scan_room));
    name_nothing();
}

/* A rule of so many letters, and a text of them after three other bytes, in which a code stands at one place: for the letter
 * there it is found, for the next one it is not. */
static void hold_smudge_at(uint32_t letters, uint32_t at)
{
    const places none = {0, {0}}, end = {1, {3 + letters}}, start = {1, {3}};
    char letter[2] = {(char)('a' + at % 26), '\0'};

    begin();
    put(long_text, "-", 3);
    for (uint32_t n = 0; n < letters; n++)
        put_both((char[]){(char)('a' + n % 26), '\0'}, 1);
    long_text[3 + at] = '?';
    about("%lu letters, a code for that at %lu", (unsigned long)letters, (unsigned long)at);
    name('?', letter);
    hold_both(long_rule, long_text, end, start, NOT_MARKED);
    name_nothing();
    letter[0] = (char)('a' + (at + 1) % 26);
    about("%lu letters, a code for another at %lu", (unsigned long)letters, (unsigned long)at);
    name('?', letter);
    hold_both(long_rule, long_text, none, none, NOT_MARKED);
    name_nothing();
}

/* In each word and at its borders, in rules of one word and of four. */
static void test_codes_in_each_word(void)
{
    static const uint32_t lengths[] = {1, 62, 63, 64, 65, 127, 128, 191, 192, 254};
    static const uint32_t places_of_255[] = {0, 62, 63, 64, 126, 127, 190, 191, 254};

    for (size_t i = 0; i < sizeof lengths / sizeof lengths[0]; i++)
        hold_smudge_at(lengths[i], lengths[i] - 1);
    for (size_t i = 0; i < sizeof places_of_255 / sizeof places_of_255[0]; i++)
        hold_smudge_at(255, places_of_255[i]);
}

/* Nothing but codes, as many as the rule has letters, and one more. */
static void test_codes_only(void)
{
    static const uint32_t lengths[] = {1, 62, 63, 64, 65, 128, 255};

    name('?', "abcdefghijklmnopqrstuvwxyz");
    for (size_t i = 0; i < sizeof lengths / sizeof lengths[0]; i++) {
        const places ends = {2, {lengths[i], lengths[i] + 1}}, starts = {2, {0, 1}};

        begin();
        for (uint32_t n = 0; n < lengths[i]; n++)
            put(long_rule, (char[]){(char)('a' + n % 26), '\0'}, 1);
        put(long_text, "?", lengths[i] + 1);
        about("%lu letters, codes only", (unsigned long)lengths[i]);
        hold_both(long_rule, long_text, ends, starts, 2);
    }
    name_nothing();
}

/* What an opening and a prepared rule say of the rule is the same with codes, and show knows none. */
static void test_codes_and_other_answers(void)
{
    uint64_t *scan = lend(&scan_room, JAZHUPPE_SCAN_WORDS * sizeof *scan);
    const uint8_t *rule = lend_rule("ab?c"), *text = lend_bytes(&text_room, "a?c", 3);
    jazhuppe_prepared p = jazhuppe_prepare(rule, 4, 0), o;
    jazhuppe_span s = jazhuppe_show(rule, 4, 0, text, 3, 0);

    name('?', "b");
    o = open_named(rule, 4, scan);
    CHECK(o.number == 0 && o.place == 0 && o.positions == p.positions && o.shortest == p.shortest);
    CHECK(s.from == 3 && s.to == 3);
    name_nothing();
}

/* ---- stored rules */

/* Into a buffer of so many bytes, in which it writes as many as it reports and no other. */
static jazhuppe_text rewrite(const char *rule, size_t length, uint32_t folded, size_t room)
{
    uint8_t *out = lend(&list_room, room);
    jazhuppe_text t = jazhuppe_rewrite(lend_bytes(&rule_room, rule, length), length, folded, out, room);

    CHECK(t.length <= room && (t.number == 0 || t.length == 0));
    CHECK(untouched_past(&list_room, t.length) && untouched(&rule_room));
    return t;
}

static bool is_rewritten(const char *rule, uint32_t folded, size_t room, const char *text)
{
    jazhuppe_text t = rewrite(rule, strlen(rule), folded, room);

    return t.number == 0 && t.place == 0 && t.length == strlen(text) && memcmp(list_room.slice, text, t.length) == 0;
}

/* The stored rule becomes the text, which is accepted and stays as it is. */
static void becomes(const char *rule, const char *text)
{
    about("%.200s, rewritten", rule);
    CHECK(is_rewritten(rule, 0, JAZHUPPE_REWRITE_BUFFER, text));
    CHECK(is_rewritten(rule, 1, JAZHUPPE_REWRITE_BUFFER + 7, text));
    CHECK(is_rewritten(text, 0, JAZHUPPE_REWRITE_BUFFER, text));
    CHECK(jazhuppe_prepare(lend_rule(text), strlen(text), 0).number == 0);
}

static void test_rewritings(void)
{
    static const char *const stored[][2] = {
        {"{1,2}a", ".a"}, {"a{1,2}", "a."}, {"{3,5}", "..."}, {"{1,2}a{2,4}", ".a.."}, {"{1,99}", "."},
        /* None where a is 0: the next element is bared, and may be a gap. */
        {"{0,1}a", "a"}, {"a{0,1}", "a"}, {"{0,2}{1,3}", "."}, {"{1,3}{0,2}", "."}, {"{0,2}{0,1}a{0,3}{0,2}", "a"},
        {"{0,1}{2,3}{0,4}a", "..{0,4}a"}, {"a{0,4}{2,3}{0,1}", "a{0,4}.."}, {"{0,1}a?{1,2}", "a?."},
        /* Dots bare nothing, nor does an equal gap. */
        {"{1,2}{0,3}a", ".{0,3}a"}, {"a{0,3}{1,2}", "a{0,3}."}, {"{1,2}{0,3}", "."}, {"{1,2}{3,4}", "...."},
        {"{0,1}{2,2}a", "{2,2}a"}, {"{2,2}{0,3}a", "{2,2}{0,3}a"}, {"{2,2}", "{2,2}"}, {"{2,2}{0,3}", "{2,2}"},
        /* What stays, stays byte for byte. */
        {"{0,1}{01,02}{1,1}{3,4}", ".{1,1}..."}, {"a{01,02}b{00,09}", "a{01,02}b"},
        {"{00,02}[^\\]]*\\-+{02,03}", "[^\\]]*\\-+.."},
        {"a", "a"}, {"a{1,2}b", "a{1,2}b"}, {".?.a", ".?.a"}, {"Row A&B [0-9]+", "Row A&B [0-9]+"},
        /* No gaps. */
        {"a\\{1,2\\}", "a\\{1,2\\}"}, {"[{1,2}]+", "[{1,2}]+"}, {"\\{[}{0,1}]", "\\{[}{0,1}]"},
        {"{0,1}\\{1,2\\}{0,1}", "\\{1,2\\}"}, {"\\\\{1,2}", "\\\\."}, {"[[]{1,2}", "[[]."},
    };

    for (size_t i = 0; i < sizeof stored / sizeof stored[0]; i++)
        becomes(stored[i][0], stored[i][1]);
}

/* In so many bytes. */
static void put_class(char *to, size_t bytes)
{
    put(to, "[", 1);
    put(to, "a", bytes - 2);
    put(to, "]", 1);
}

static void put_class_between(const char *front, size_t bytes, const char *back)
{
    begin();
    put(long_rule, front, 1);
    put_class(long_rule, bytes);
    put(long_rule, back, 1);
}

/* The long rule becomes the class between so many dots. */
static void becomes_dotted(size_t front, size_t bytes, size_t back)
{
    put(long_text, ".", front);
    put_class(long_text, bytes);
    put(long_text, ".", back);
    becomes(long_rule, long_text);
}

static void becomes_too_long(void)
{
    jazhuppe_text t = rewrite(long_rule, strlen(long_rule), 0, 2 * JAZHUPPE_REWRITE_BUFFER);

    about("%.200s, rewritten", long_rule);
    CHECK(t.number == JAZHUPPE_RULE_LONG && t.place == JAZHUPPE_RULE_MOST);
}

/* As long as may be, longer between the steps, and one byte too long in the end. */
static void test_rewriting_lengths(void)
{
    put_class_between("{98,99}", 925, "");
    becomes_dotted(98, 925, 0);
    put_class_between("{50,99}", 923, "{50,99}");
    becomes_dotted(50, 923, 50);
    put_class_between("", JAZHUPPE_RULE_MOST, "");
    becomes_dotted(0, JAZHUPPE_RULE_MOST, 0);
    put_class_between("{98,99}", 922, "{0,1}");
    becomes_dotted(98, 922, 0);
    put_class_between("{98,99}", 926, "");
    becomes_too_long();
    put_class_between("", 926, "{98,99}");
    becomes_too_long();
    put_class_between("{50,99}", 924, "{50,99}");
    becomes_too_long();
}

/* A rule of 1,024 bytes, which its steps would shorten; the class that the fold flag leaves with no byte. */
static void test_rewriting_old_answers(void)
{
    static const char large[] = {'[', '^', 0, '-', '@', 'B', '-', (char)255, ']'};
    jazhuppe_text t;

    put_class_between("{0,1}", JAZHUPPE_RULE_MOST - 9, "{0,1}");
    becomes_too_long();
    t = rewrite(large, sizeof large, 0, JAZHUPPE_REWRITE_BUFFER);
    CHECK(t.number == 0 && t.length == sizeof large && memcmp(list_room.slice, large, sizeof large) == 0);
    t = rewrite(large, sizeof large, 256, JAZHUPPE_REWRITE_BUFFER);
    CHECK(t.number == JAZHUPPE_CLASS && t.place == 0);
}

/* Just long enough, one byte too short, and as long as the text alone. */
static void test_rewrite_buffer(void)
{
    CHECK(is_rewritten("a{0,1}", 0, JAZHUPPE_REWRITE_BUFFER, "a"));
    CHECK(rewrite("a{0,1}", 6, 0, JAZHUPPE_REWRITE_BUFFER - 1).number == JAZHUPPE_TOO_SHORT);
    CHECK(rewrite("a{0,1}", 6, 0, 1).number == JAZHUPPE_TOO_SHORT);
}

/* ---- whole names */

/* Of a rule that is not refused. */
static bool covers(const char *rule, uint32_t folded, const char *bytes, size_t length)
{
    const uint8_t *whole = lend_bytes(&text_room, bytes, length);
    jazhuppe_covered c = jazhuppe_covers(lend_rule(rule), strlen(rule), folded, whole, length);

    CHECK(c.number == 0 && c.place == 0 && c.covered <= 1);
    CHECK(untouched(&rule_room) && untouched(&text_room));
    return c.covered == 1;
}

static void test_covers(void)
{
    static const struct {
        const char *rule;
        uint32_t fold;
        const char *name;
        bool covered;
    } rows[] = {
        {"a", 0, "a", true}, {"a", 0, "", false}, {"a", 0, "b", false}, {"a", 0, "aa", false}, {"a?b?c", 0, "", false},
        {".", 0, "\n", true}, {".", 0, "", false}, {"[^a]", 0, "b", true}, {"[^a]", 0, "a", false},
        /* Its front, its back or its middle alone is not the whole name, nor is it twice an occurrence. */
        {"ab", 0, "ab", true}, {"ab", 0, "abx", false}, {"ab", 0, "xab", false}, {"ab", 0, "xabx", false},
        {"ab", 0, "abab", false}, {"ab", 0, "aab", false}, {"ab", 0, "abb", false}, {"ab", 0, "a", false},
        {"Row A&B [0-9]+", 0, "Row A&B 12", true}, {"Row A&B [0-9]+", 0, "Row A&B 12;", false},
        {"Row A&B [0-9]+", 0, " Row A&B 12", false}, {"Row A&B [0-9]+", 0, "Row A&B ", false},
        /* The name is taken as it comes. */
        {"a&b", 0, "a&b", true}, {"a&b", 0, "a&amp;b", false}, {"a&b", 0, "a&#38;b", false}, {"a&amp;b", 0, "a&amp;b", true},
        {"a&amp;b", 0, "a&b", false}, {"a{5,5}b", 0, "a&amp;b", true}, {"&am", 0, "&am", true},
        /* Optional positions, repeats and gaps: not the first or the longest way through them, but any. */
        {"ab?", 0, "a", true}, {"ab?", 0, "ab", true}, {"a?b", 0, "b", true}, {"a?a", 0, "a", true}, {"a?a", 0, "aa", true},
        {"a?a", 0, "aaa", false}, {"a*a", 0, "aaaa", true}, {"a+a", 0, "a", false}, {"a+ab", 0, "aaab", true},
        {"a+", 0, "aaa", true}, {"a+", 0, "aab", false}, {"a{1,3}b", 0, "ab", false}, {"a{1,3}b", 0, "abb", true},
        {"a{1,3}b", 0, "abbbb", true}, {"a{1,3}b", 0, "axxxxb", false}, {"{2,2}", 0, "ab", true}, {"{2,2}", 0, "abc", false},
        {"a.*b", 0, "ab", true}, {"a.*b", 0, "a\nb", true}, {"a.*b", 0, "abab", true}, {"a.*b", 0, "aba", false},
        {"a.*b", 0, "b", false}, {"a.*b.*c", 0, "abcbc", true}, {"a.*b.*c", 0, "acb", false}, {".*a", 0, "bab", false},
        {".*a", 0, "baa", true}, {"a.*", 0, "a", true}, {"a.*", 0, "ba", false}, {".*a.*", 0, "bab", true},
        {"abc{1,3}de", 0, "abcffde", true}, {"abc{1,3}de", 0, "abcabcffdee", false}, {"abc?d?efg?h", 0, "abefh", true},
        /* The fold flag. */
        {"row a", 0, "Row A", false}, {"row a", 1, "Row A", true}, {"ROW [a-c]+", 1, "rOw aBcC", true},
        {"ROW [a-c]+", 256, "rOw aBcD", false}, {"[^a]", 1, "A", false}, {"[^a]", 0, "A", true}, {"@", 1, "`", false},
    };

    for (size_t i = 0; i < sizeof rows / sizeof rows[0]; i++) {
        about("%s covers %s, fold %lu", rows[i].rule, rows[i].name, (unsigned long)rows[i].fold);
        CHECK(covers(rows[i].rule, rows[i].fold, rows[i].name, strlen(rows[i].name)) == rows[i].covered);
    }
}

/* Bytes that C's strings do not hold, or that are more than one character to another eye. */
static void test_covers_any_bytes(void)
{
    const char bytes[] = {0, (char)255, '\r', '\n', (char)0xC3, (char)0xA9, 0};

    CHECK(covers(".......", 0, bytes, sizeof bytes));
    CHECK(!covers("......", 0, bytes, sizeof bytes) && !covers("........", 0, bytes, sizeof bytes));
    CHECK(covers(".\xFF.*", 1, bytes, sizeof bytes) && !covers(".\xFE.*", 1, bytes, sizeof bytes));
    CHECK(covers("[^a]+", 0, bytes, sizeof bytes) && !covers("[^\r]+", 0, bytes, sizeof bytes));
}

/* Letters in turn, as many as the rule has positions; then a byte less in front or behind, a byte more, another last. */
static void test_covers_long_rules(void)
{
    static const uint32_t lengths[] = {1, 62, 63, 64, 65, 127, 128, 129, 191, 192, 193, 254, 255};

    for (size_t i = 0; i < sizeof lengths / sizeof lengths[0]; i++) {
        uint32_t letters = lengths[i];

        begin();
        for (uint32_t n = 0; n < letters; n++)
            put_both((char[]){(char)('a' + n % 26), '\0'}, 1);
        put(long_text, "a", 1);
        about("a name of %lu letters", (unsigned long)letters);
        CHECK(covers(long_rule, 0, long_text, letters) && !covers(long_rule, 0, long_text, letters + 1));
        CHECK(!covers(long_rule, 0, long_text, letters - 1) && !covers(long_rule, 0, long_text + 1, letters - 1));
        long_text[letters - 1] = '-';
        CHECK(!covers(long_rule, 0, long_text, letters));
    }
}

/* 254 optional positions, and one that is not: names of 1 to 255 bytes, and no others. */
static void test_covers_optional(void)
{
    begin();
    put(long_rule, "a?", 254);
    put(long_rule, "a", 1);
    put(long_text, "a", 300);
    for (size_t length = 0; length <= 300; length++) {
        about("254 a? and a, of %zu", length);
        CHECK(covers(long_rule, 0, long_text, length) == (length >= 1 && length <= 255));
    }
}

/* A block of eight optional positions over each border, of which so many are filled, and a repeat behind them. */
static void test_covers_over_borders(void)
{
    for (uint32_t before = 56; before <= 192; before += before % 64 == 0 ? 56 : 1)
        for (uint32_t filled = 0; filled <= 9; filled++) {
            begin();
            put_both("a", before - 1);
            put(long_rule, "b?", 8);
            put(long_text, "b", filled);
            put(long_rule, ".*c+d", 1);
            put(long_text, "ccd", 1);
            about("block from bit %lu, %lu filled", (unsigned long)before, (unsigned long)filled);
            CHECK(covers(long_rule, 0, long_text, strlen(long_text)));
            CHECK(!covers(long_rule, 0, long_text, strlen(long_text) - 1));
            CHECK(!covers(long_rule, 0, long_text + 1, strlen(long_text) - 1));
            long_rule[strlen(long_rule) - 5] = '\0';
            CHECK(covers(long_rule, 0, long_text, before - 1 + filled) == (filled <= 8));
        }
}

/* ---- LIKE */

/* Into a buffer of so many bytes, in which it writes as many as it reports and no other. */
static jazhuppe_text import(const char *pattern, size_t length, size_t room)
{
    uint8_t *out = lend(&list_room, room);
    jazhuppe_text t = jazhuppe_import_like(lend_bytes(&rule_room, pattern, length), length, out, room);

    CHECK(t.length <= room && (t.number == 0 || t.length == 0));
    CHECK(untouched_past(&list_room, t.length) && untouched(&rule_room));
    return t;
}

static bool is_imported(const char *pattern, size_t length, size_t room, const char *text, size_t text_len)
{
    jazhuppe_text t = import(pattern, length, room);

    return t.number == 0 && t.place == 0 && t.length == text_len && memcmp(list_room.slice, text, text_len) == 0;
}

/* The pattern becomes the text, which is accepted with any fold flag. */
static void imports(const char *pattern, const char *text)
{
    size_t length = strlen(pattern), text_len = strlen(text);

    about("%.200s, imported", pattern);
    CHECK(is_imported(pattern, length, JAZHUPPE_IMPORT_BUFFER, text, text_len));
    CHECK(is_imported(pattern, length, JAZHUPPE_IMPORT_BUFFER + 7, text, text_len));
    CHECK(jazhuppe_prepare(lend_rule(text), text_len, 0).number == 0);
    CHECK(jazhuppe_prepare(lend_rule(text), text_len, 1).number == 0);
}

/* A pattern, its rule, and names that LIKE accepts, and does not. */
static void test_imports(void)
{
    enum { NAMES = 5 };
    static const struct {
        const char *pattern, *text, *accepted[NAMES], *declined[NAMES];
    } rows[] = {
        {"Row A&B %", "Row A&B .*", {"Row A&B ", "Row A&B 12"}, {"Row A&B", "row A&B 12", "Row A&amp;B 12", "xRow A&B 1", ""}},
        {"Row A&amp;B _", "Row A&amp;B .", {"Row A&amp;B 1"}, {"Row A&B 1"}},
        {"A", "A", {"A"}, {"a", "AA", ""}},
        {"_", ".", {"a", "_", "%"}, {"", "aa", "\xC3\xA9"}},
        {"__", "..", {"ab", "\xC3\xA9"}, {"a", "abc"}},
        {"%a", ".*a", {"a", "ba", "aa"}, {"ab", "A", ""}},
        {"a%", "a.*", {"a", "ab", "a\nb"}, {"ba"}},
        {"%a%", ".*a.*", {"a", "bab"}, {"b", ""}},
        {"a%b", "a.*b", {"ab", "axb", "abab"}, {"a", "b", "aba"}},
        {"a_b", "a.b", {"a&b", "a\nb"}, {"ab", "a&amp;b"}},
        {"%_", ".*.", {"a", "ab"}, {""}},
        {"_%", "..*", {"a", "ab"}, {""}},
        {"_%_", "..*.", {"ab", "abc"}, {"a"}},
        {"%%a", ".*.*a", {"a", "bca"}, {"ab"}},
        /* A \ takes %, _ and itself. */
        {"\\%", "%", {"%"}, {"", "a", "\\%"}},
        {"\\_", "_", {"_"}, {"a", "\\_"}},
        {"\\\\", "\\\\", {"\\"}, {"\\\\", ""}},
        {"\\%%", "%.*", {"%", "%%", "%a"}, {"a%"}},
        {"\\\\%", "\\\\.*", {"\\", "\\a"}, {"%", "a"}},
        {"\\\\\\%", "\\\\%", {"\\%"}, {"\\", "\\a"}},
        {"Row _\\_%", "Row ._.*", {"Row A_", "Row A_12"}, {"Row AB12", "Row _"}},
        {"100\\%", "100%", {"100%"}, {"100", "1000"}},
        /* The marks of rules, and what is none. */
        {".", "\\.", {"."}, {"a"}},
        {"{1,2}", "\\{1,2\\}", {"{1,2}"}, {"a", "aa"}},
        {"a{1,2}b", "a\\{1,2\\}b", {"a{1,2}b"}, {"axb"}},
        {"[a-c]", "\\[a-c\\]", {"[a-c]"}, {"b"}},
        {"a?b+c*", "a\\?b\\+c\\*", {"a?b+c*"}, {"abc", "bc"}},
        {".*", "\\.\\*", {".*"}, {"", "a"}},
        {"%.%", ".*\\..*", {".", "a.b"}, {"ab"}},
        {"^a-b,c$", "^a-b,c$", {"^a-b,c$"}, {"a-b,c"}},
        {"caf\xC3\xA9 __", "caf\xC3\xA9 ..", {"caf\xC3\xA9 12"}, {"cafe 12", "CAF\xC3\xA9 12"}},
    };

    for (size_t i = 0; i < sizeof rows / sizeof rows[0]; i++) {
        imports(rows[i].pattern, rows[i].text);
        for (size_t k = 0; k < NAMES && rows[i].accepted[k] != NULL; k++)
            CHECK(covers(rows[i].text, 0, rows[i].accepted[k], strlen(rows[i].accepted[k])));
        for (size_t k = 0; k < NAMES && rows[i].declined[k] != NULL; k++)
            CHECK(!covers(rows[i].text, 0, rows[i].declined[k], strlen(rows[i].declined[k])));
    }
}

/* Of a rule that was imported, which may hold any byte. */
static bool accepts(const char *text, size_t length, uint8_t name_byte)
{
    const uint8_t *whole = lend_bytes(&text_room, &name_byte, 1);
    jazhuppe_covered c = jazhuppe_covers(lend_bytes(&rule_room, text, length), length, 0, whole, 1);

    CHECK(c.number == 0);
    return c.covered == 1;
}

/* Each of the 256 as a pattern, and behind a \ ; then names of one byte. */
static void test_each_byte_imported(void)
{
    for (int b = 0; b < 256; b++) {
        const char alone[] = {(char)b}, behind[] = {'\\', (char)b};
        bool taken = b != 0 && strchr("%_\\", b) != NULL, mark = b != 0 && strchr(".[]{}?+*\\", b) != NULL;
        const char *text = b == '_' ? "." : mark ? behind : alone;
        jazhuppe_text t = import(behind, 2, JAZHUPPE_IMPORT_BUFFER);

        about("byte %d as a pattern", b);
        if (taken)
            CHECK(is_imported(behind, 2, JAZHUPPE_IMPORT_BUFFER, behind + !mark, 1 + mark));
        else
            CHECK(t.number == JAZHUPPE_LIKE && t.place == 0);
        t = import(alone, 1, JAZHUPPE_IMPORT_BUFFER);
        if (b == '%')
            CHECK(t.number == JAZHUPPE_ADMITS_EMPTY && t.place == 2);
        else if (b == '\\')
            CHECK(t.number == JAZHUPPE_LIKE && t.place == 0);
        else
            CHECK(is_imported(alone, 1, JAZHUPPE_IMPORT_BUFFER, text, 1 + mark));
        if (b == '%' || b == '\\')
            continue;
        CHECK(accepts(text, 1 + mark, (uint8_t)b));
        for (int c = b % 8; c < 256; c += 8)
            CHECK(accepts(text, 1 + mark, (uint8_t)c) == (c == b || b == '_'));
    }
}

/* A row of one item, as many as there may be, and what makes it no longer optional. */
static void imports_row(const char *item, size_t times, const char *back, const char *text_item, const char *text_back)
{
    begin();
    put(long_rule, item, times);
    put(long_rule, back, 1);
    put(long_text, text_item, times);
    put(long_text, text_back, 1);
    imports(long_rule, long_text);
}

static void test_import_lengths(void)
{
    imports_row("%", 254, "a", ".*", "a");
    CHECK(covers(long_text, 0, "a", 1) && covers(long_text, 0, "bca", 3) && !covers(long_text, 0, "ab", 2));
    imports_row("\\%", 255, "", "%", "");
    CHECK(covers(long_text, 0, long_text, 255) && !covers(long_text, 0, long_text, 254));
    imports_row("_", 255, "", ".", "");
    CHECK(covers(long_text, 0, long_rule, 255) && !covers(long_text, 0, long_rule, 254));
    imports_row("a", 255, "", "a", "");
    imports_row("a", 254, "%", "a", ".*");
    imports_row("\\\\", 255, "", "\\\\", "");
    imports_row(".", 255, "", "\\.", "");
    CHECK(covers(long_text, 0, long_rule, 255));
}

/* Just long enough, one byte too short, and as long as the text alone. */
static void test_import_buffer(void)
{
    CHECK(is_imported("%a", 2, JAZHUPPE_IMPORT_BUFFER, ".*a", 3));
    CHECK(import("%a", 2, JAZHUPPE_IMPORT_BUFFER - 1).number == JAZHUPPE_TOO_SHORT);
    CHECK(import("%a", 2, 3).number == JAZHUPPE_TOO_SHORT);
}

/* ---- refusals and limits */

static void hold_refused(const char *spelt, const char *plan, uint32_t number, uint32_t place)
{
    size_t length = strlen(spelt), text_len = strlen(plan);
    uint64_t *scan = lend(&scan_room, JAZHUPPE_SCAN_WORDS * sizeof *scan);
    uint32_t *list = lend(&list_room, text_len * sizeof *list);
    const uint8_t *text = lend_bytes(&text_room, plan, text_len), *rule = lend_rule(spelt);
    jazhuppe_prepared p = jazhuppe_prepare(rule, length, 0);
    jazhuppe_prepared o = jazhuppe_open(rule, length, 0, NO_CODES, scan, JAZHUPPE_SCAN_WORDS);
    jazhuppe_answer a = jazhuppe_search(rule, length, 0, NO_CODES, text, text_len, list, text_len);
    jazhuppe_span s = jazhuppe_show(rule, length, 0, text, text_len, 0);
    jazhuppe_covered c = jazhuppe_covers(rule, length, 0, text, text_len);

    about("%s is refused", spelt);
    CHECK(p.number == number && p.place == place && p.positions == 0 && p.shortest == 0);
    CHECK(o.number == number && o.place == place && o.positions == 0 && o.shortest == 0);
    CHECK(a.number == number && a.place == place && a.count == 0 && a.windows == 0);
    CHECK(s.from == text_len && s.to == text_len);
    CHECK(c.number == number && c.place == place && c.covered == 0);
    CHECK(untouched(&scan_room) && untouched(&list_room));
}

static void test_M12(void)
{
    hold_refused("a?", "a", JAZHUPPE_ADMITS_EMPTY, 2);
}

static void test_M7(void)
{
    hold_refused("{1,2}a", "xxa", JAZHUPPE_OUTER_GAP, 0);
    hold_refused("{1,63}", "a", JAZHUPPE_OUTER_GAP, 0);
    hold_refused("{1,63}a", "aa", JAZHUPPE_OUTER_GAP, 0);
}

/* A scan of JAZHUPPE_SCAN_WORDS opens; one of another length does not. */
static void test_scan_words(void)
{
    const uint8_t *rule = lend_rule("a");

    for (size_t words = JAZHUPPE_SCAN_WORDS - 1; words <= JAZHUPPE_SCAN_WORDS + 1; words++) {
        uint64_t *scan = lend(&scan_room, words * sizeof *scan);
        jazhuppe_prepared p = jazhuppe_open(rule, 1, 0, NO_CODES, scan, words);

        CHECK(p.number == (words == JAZHUPPE_SCAN_WORDS ? 0 : JAZHUPPE_IMPOSSIBLE));
        CHECK(p.number == 0 ? p.positions == 1 : untouched(&scan_room));
    }
}

/* A scan for every byte that has taken a tail of JAZHUPPE_HELD_MOST bytes, and holds it back whole. */
static uint64_t *hold_most(void)
{
    const char *tail = "&#00000000000000000000000000038";
    pairs none = no_pairs();
    uint64_t *scan = open_scan(".");

    feed(scan, tail, strlen(tail), &none);
    CHECK(strlen(tail) == JAZHUPPE_HELD_MOST && none.ends.count == 0 && scan[HELD] == JAZHUPPE_HELD_MOST);
    return scan;
}

/* The list that was lent last begins with so many pairs, ends from 1 on and raw counts from `raw` on, and past them is as it
 * was. */
static void holds_pairs(jazhuppe_answer a, uint32_t count, uint32_t raw)
{
    const uint32_t *list = (const uint32_t *)(const void *)list_room.slice;

    CHECK(a.number == 0 && a.count == count && untouched_past(&list_room, count * JAZHUPPE_PAIR * sizeof *list));
    for (uint32_t i = 0; i < a.count; i++)
        CHECK(list[2 * i] == i + 1 && list[2 * i + 1] == raw + i);
}

/* Feeds one byte more, with a list one number too short and then just long enough: so many pairs, the first with this raw
 * count, and so many bytes held. */
static void feed_one_more(const char *byte, uint32_t count, uint32_t raw, uint64_t held)
{
    uint64_t *scan = hold_most();
    uint32_t *list = lend(&list_room, (JAZHUPPE_FEED_LIST(1) - 1) * sizeof *list);
    const uint8_t *piece = lend_bytes(&text_room, byte, 1);
    jazhuppe_answer a = jazhuppe_feed(scan, JAZHUPPE_SCAN_WORDS, piece, 1, list, JAZHUPPE_FEED_LIST(1) - 1);

    about("%d bytes held, then %s", JAZHUPPE_HELD_MOST, byte);
    CHECK(a.number == JAZHUPPE_TOO_SHORT && untouched(&list_room));
    list = lend(&list_room, JAZHUPPE_FEED_LIST(1) * sizeof *list);
    holds_pairs(jazhuppe_feed(scan, JAZHUPPE_SCAN_WORDS, piece, 1, list, JAZHUPPE_FEED_LIST(1)), count, raw);
    CHECK(scan[HELD] == held);
}

/* As many bytes held back as may be. A digit more lets all through: a feed of one byte then fills its list, 32 pairs in 64
 * numbers. */
static void test_held_most(void)
{
    CHECK(JAZHUPPE_FEED_LIST(1) == 64 && JAZHUPPE_FEED_LIST(0) == 62 && JAZHUPPE_FEED_LIST(2 - 1) == 64);
    CHECK(JAZHUPPE_FEED_LIST(JAZHUPPE_TEXT_MOST) == ((uint64_t)1 << 33) + 60);
    feed_one_more(";", 1, 32, 0);
    feed_one_more("0", 32, 1, 0);
    feed_one_more("x", 32, 1, 0);
    feed_one_more("&", 31, 1, 1);
}

/* A finish's list, one number too short and just long enough: it is filled, 31 pairs in 62 numbers. */
static void test_finish_list(void)
{
    uint64_t *scan = hold_most();
    uint32_t *list = lend(&list_room, (JAZHUPPE_FINISH_LIST - 1) * sizeof *list);
    jazhuppe_answer a = jazhuppe_finish(scan, JAZHUPPE_SCAN_WORDS, list, JAZHUPPE_FINISH_LIST - 1);

    CHECK(a.number == JAZHUPPE_TOO_SHORT && untouched(&list_room));
    list = lend(&list_room, JAZHUPPE_FINISH_LIST * sizeof *list);
    holds_pairs(jazhuppe_finish(scan, JAZHUPPE_SCAN_WORDS, list, JAZHUPPE_FINISH_LIST), 31, 1);
    CHECK(JAZHUPPE_FINISH_LIST == 62);
}

/* A search's list and a decoder's buffer. */
static void test_whole_lists(void)
{
    const uint8_t *rule = lend_rule("a"), *text = lend_bytes(&text_room, "aaaa", 4);
    uint32_t *starts = lend(&list_room, 4 * sizeof *starts);
    uint8_t *out;

    CHECK(jazhuppe_search(rule, 1, 0, NO_CODES, text, 4, starts, 4).count == 4);
    starts = lend(&list_room, 3 * sizeof *starts);
    CHECK(jazhuppe_search(rule, 1, 0, NO_CODES, text, 4, starts, 3).number == JAZHUPPE_TOO_SHORT);
    out = lend(&list_room, 4);
    CHECK(jazhuppe_decode(text, 4, out, 4).count == 4);
    out = lend(&list_room, 3);
    CHECK(jazhuppe_decode(text, 4, out, 3).number == JAZHUPPE_TOO_SHORT);
}

static void test_rule_most(void)
{
    char rule[JAZHUPPE_RULE_MOST + 1];
    jazhuppe_prepared p;

    /* One position, spelt as long as may be. */
    memset(rule, 'a', sizeof rule);
    rule[0] = '[';
    rule[JAZHUPPE_RULE_MOST - 1] = ']';
    p = jazhuppe_prepare(lend_bytes(&rule_room, rule, JAZHUPPE_RULE_MOST), JAZHUPPE_RULE_MOST, 0);
    CHECK(p.number == 0 && p.positions == 1 && p.shortest == 1);
    p = jazhuppe_prepare(lend_bytes(&rule_room, rule, sizeof rule), sizeof rule, 0);
    CHECK(p.number == JAZHUPPE_RULE_LONG && p.place == JAZHUPPE_RULE_MOST);
}

static void test_positions_most(void)
{
    jazhuppe_prepared p = jazhuppe_prepare(lend_rule("a{1,99}{1,99}{1,55}b"), 20, 0);

    CHECK(p.number == 0 && p.positions == JAZHUPPE_POSITIONS_MOST && p.shortest == 5);
    p = jazhuppe_prepare(lend_rule("a{1,99}{1,99}{1,55}bc"), 21, 0);
    CHECK(p.number == JAZHUPPE_POSITIONS && p.place == 20);
    p = jazhuppe_prepare(lend_rule("{99,99}{99,99}{57,57}"), 21, 0);
    CHECK(p.number == 0 && p.positions == JAZHUPPE_POSITIONS_MOST && p.shortest == JAZHUPPE_POSITIONS_MOST);
    p = jazhuppe_prepare(lend_rule("a{1,62}b"), 8, 0);
    CHECK(p.number == 0 && p.positions == 64 && p.shortest == 3);
}

static void test_empty_piece(void)
{
    pairs all = no_pairs();
    uint64_t *scan = open_scan("a");

    feed(scan, "", 0, &all);
    CHECK(all.ends.count == 0);
}

/* The starts of a folded rule in a text of all 256 bytes: exactly b and its other case, or exactly the other bytes. */
static void folds(const char *rule, size_t length, int b, bool turned)
{
    uint8_t bytes[256];
    uint32_t *starts = lend(&list_room, sizeof bytes * sizeof *starts);
    int other = isupper(b) ? tolower(b) : toupper(b);
    size_t found = 0;
    jazhuppe_answer a;

    for (int c = 0; c < 256; c++)
        bytes[c] = (uint8_t)c;
    about("byte %d as %.*s", b, (int)length, rule);
    a = jazhuppe_search(lend_bytes(&rule_room, rule, length), length, 1, NO_CODES,
                        lend_bytes(&text_room, bytes, sizeof bytes), sizeof bytes, starts, sizeof bytes);
    for (int c = 0; c < 256; c++)
        if ((c == b || c == other) != turned)
            CHECK(found < a.count && starts[found++] == (uint32_t)c);
    CHECK(a.number == 0 && a.count == found);
    CHECK(untouched(&rule_room) && untouched(&text_room) && untouched_past(&list_room, found * sizeof *starts));
}

/* Each byte alone and in classes, escaped where it may be; its other case by the C library. */
static void test_fold(void)
{
    static const char *const spellings[] = {"b", "[b]", "[b-b]", "[^b]"};

    for (int b = 0; b < 256; b++)
        for (size_t i = 0; i < sizeof spellings / sizeof spellings[0]; i++) {
            char rule[8];
            size_t length = 0;

            for (const char *s = spellings[i]; *s != 0; s++) {
                if (*s == 'b' && b != 0 && strchr(".[]{}?+*\\^-", b) != NULL)
                    rule[length++] = '\\';
                rule[length++] = *s == 'b' ? (char)b : *s;
            }
            folds(rule, length, b, strchr(spellings[i], '^') != NULL);
        }
}

static void run_all(void)
{
    run("M1 to M6, M8 and the lister's example: scan, search, show", test_rows);
    run("long rules: the top position in each word", test_top_in_each_word);
    run("long rules: blocks of optional positions over each border", test_blocks_over_borders);
    run("long rules: gaps over each border", test_gaps_over_borders);
    run("long rules: repeats at the borders", test_repeats_at_borders);
    run("long rules: all positions optional but one", test_all_but_one_optional);
    run("long rules: the longest window", test_longest_window);
    run("the lister's plan, with its reference", test_lister_plan);
    run("M9 to M11: references", test_references);
    run("padded forms of up to 32 bytes, and longer ones", test_padded_forms);
    run("numbers over every Char", test_great_numbers);
    run("the borders of Char, and U+FFFD beyond them", test_borders_of_char);
    run("ends inside one reference", test_inside_one_reference);
    run("misspelled references stay", test_no_forms);
    run("a padded plan and a short one", test_padded_and_short);
    run("raw counts", test_raw_counts);
    run("raw counts over pieces", test_raw_over_pieces);
    run("raw counts of what a later piece lets through", test_raw_let_through);
    run("codes: scan and search", test_codes);
    run("codes in the decoded plan", test_codes_decoded);
    run("codes: the order of a set's bits", test_bit_order);
    run("codes: each byte", test_each_code);
    run("codes 0 and 255", test_codes_0_and_255);
    run("codes: a position of codes alone, and the fold flag", test_code_alone);
    run("codes: one in each word of a long rule", test_codes_in_each_word);
    run("codes: a text of nothing else", test_codes_only);
    run("codes: what a rule comes to, and what is shown", test_codes_and_other_answers);
    run("stored rules and their rewritings", test_rewritings);
    run("rewritings as long as may be", test_rewriting_lengths);
    run("rewritings of rules that were too long, and the fold flag", test_rewriting_old_answers);
    run("whole names", test_covers);
    run("whole names: any bytes", test_covers_any_bytes);
    run("whole names: long rules", test_covers_long_rules);
    run("whole names: all positions optional but one", test_covers_optional);
    run("whole names: blocks, repeats and .* over each border", test_covers_over_borders);
    run("LIKE patterns and their rules", test_imports);
    run("LIKE: each byte as a pattern", test_each_byte_imported);
    run("LIKE: patterns as long as may be", test_import_lengths);
    run("M7: a gap of unequal bounds at the front", test_M7);
    run("M12: the empty string is admitted", test_M12);
    run("an empty piece reports no end", test_empty_piece);
    run("the fold flag with each of the 256 bytes", test_fold);
    run("JAZHUPPE_SCAN_WORDS", test_scan_words);
    run("JAZHUPPE_FEED_LIST", test_held_most);
    run("JAZHUPPE_FINISH_LIST", test_finish_list);
    run("JAZHUPPE_REWRITE_BUFFER", test_rewrite_buffer);
    run("JAZHUPPE_IMPORT_BUFFER", test_import_buffer);
    run("a search's list and a decoder's buffer", test_whole_lists);
    run("JAZHUPPE_RULE_MOST", test_rule_most);
    run("JAZHUPPE_POSITIONS_MOST", test_positions_most);
    run("JAZHUPPE_CODES_MOST", test_codes_most);
}

int main(void)
{
    return run_in_small_rooms("marked", run_all);
}
