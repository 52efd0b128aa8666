/* refusals.c: every refusal through every call that can give it, and what is lent then. limits.c has the rest of 10. */
#include <string.h>

#include "jazhuppe.h"
#include "scan_layout.h"
#include "testing.h"


typedef struct {
    const char *rule;
    uint32_t fold, number, place;
} refused_rule;

/* 255 positions, in 18 bytes, which begin and end with a gap of unequal bounds; and in 20 that do not. */
#define FULL "{1,99}{1,99}{1,57}"
#define FULL_INSIDE "a{1,99}{1,99}{1,55}b"

/* The requirement's rows 1 to 8 and 16, its edges, and how docs/DECISIONS.md reads its open corners. */
static const refused_rule refused_rules[] = {
    {"", 0, 1, 0},
    {"[a", 0, 3, 0}, {"[", 0, 3, 0}, {"x[]", 0, 3, 1}, {"[^]", 0, 3, 0}, {"[]a]", 0, 3, 0}, {"[b-a]", 0, 3, 0},
    {"[-a]", 0, 3, 0}, {"[a-]", 0, 3, 0}, {"[--a]", 0, 3, 0}, {"[^-a]", 0, 3, 0}, {"[a-b-c]", 0, 3, 0},
    {"[\\a]", 0, 3, 0}, {"[a\\", 0, 3, 0}, {"[a\\]", 0, 3, 0}, {"x[^\x01-\xFF", 0, 3, 1}, {"ab[z-a]c", 1, 3, 2},
    {"[a-Z]", 1, 3, 0},
    {"{", 0, 4, 0}, {"a{1}", 0, 4, 1}, {"{1,", 0, 4, 0}, {"{1,}", 0, 4, 0}, {"{,1}", 0, 4, 0}, {"{0,0}", 0, 4, 0},
    {"{2,1}", 0, 4, 0}, {"{99,98}", 0, 4, 0}, {"{001,2}", 0, 4, 0}, {"{1,002}", 0, 4, 0}, {"{1, 2}", 0, 4, 0},
    {"{1;2}", 0, 4, 0}, {"ab{1,2", 0, 4, 2},
    {"?", 0, 5, 0}, {"+a", 0, 5, 0}, {"*", 0, 5, 0}, {"a??", 0, 5, 2}, {"a+*", 0, 5, 2}, {"{1,2}?", 0, 5, 5},
    {"{1,63}?", 0, 5, 6}, {FULL "?", 0, 5, 18}, {"{1,99}?", 0, 5, 6}, {"{1,63}a??", 0, 5, 8},
    {"]", 0, 6, 0}, {"a}", 0, 6, 1}, {"\\", 0, 6, 0}, {"ab\\", 0, 6, 2}, {"\\a", 0, 6, 0}, {"a\\&", 0, 6, 1},
    {"[a]]", 0, 6, 3},
    {"{1,99}{1,99}{1,58}", 0, 7, 12}, {"{1,99}{1,99}{1,99}", 0, 7, 12}, {FULL "a", 0, 7, 18}, {"{1,99}{1,99}{1,99}?", 0, 7, 12},
    {FULL "a??", 0, 7, 18}, {"a{99,99}{99,99}{57,57}", 0, 7, 15}, {FULL "\\.", 0, 7, 18}, {FULL "[a]", 0, 7, 18},
    {FULL "[b-a]", 0, 3, 18}, {FULL "{2,1}", 0, 4, 18}, {FULL "]", 0, 6, 18}, {FULL_INSIDE "c", 0, 7, 20},
    {"a?", 0, 8, 2}, {"a*b?", 0, 8, 4}, {"{0,63}", 0, 8, 6}, {"{0,99}{0,99}{0,57}", 0, 8, 18}, {"{0,1}.*", 0, 8, 7},
    {".*{0,1}", 0, 8, 7},
    /* Front, back, both, alone; the first such gap, and no other than the first or last element. */
    {"{1,2}a", 0, 16, 0}, {"a{1,2}", 0, 16, 1}, {"{1,2}a{1,2}", 1, 16, 0}, {"{1,63}", 0, 16, 0}, {"{1,63}a", 0, 16, 0},
    {"{1,64}", 0, 16, 0}, {"{1,99}", 0, 16, 0}, {"{98,99}", 0, 16, 0}, {FULL, 0, 16, 0}, {"{1,99}{1,99}{1,56}a", 0, 16, 0},
    {"{0,1}a", 0, 16, 0}, {"a{0,1}", 0, 16, 1}, {"{01,02}", 0, 16, 0}, {"{1,02}", 0, 16, 0}, {"{00,1}a", 0, 16, 0},
    {"{2,2}{0,3}", 0, 16, 5}, {"{0,3}{2,2}", 0, 16, 0}, {"{2,2}{0,3}{1,2}", 0, 16, 10}, {"{2,2}a{0,3}", 0, 16, 6},
    {"a?{1,2}", 0, 16, 2}, {"a+{0,9}", 1, 16, 2}, {"{1,63}[a]", 0, 16, 0}, {"[a]{1,2}", 0, 16, 3}, {"\\\\{1,2}", 0, 16, 2},
    {"\\{{1,2}", 0, 16, 2}, {"[{1,2}]{0,1}", 0, 16, 7}, {"[\\]]{1,9}", 0, 16, 4}, {"{1,2}\\{1,2\\}", 0, 16, 0},
    /* A fault of 3 to 7, further right too, and 8 go before it. */
    {"{1,2}[b-a]", 0, 3, 5}, {"{1,2}a{2,1}", 0, 4, 6}, {"{1,2}a??", 0, 5, 7}, {"{1,2}]", 0, 6, 5},
    {"{0,2}a?{0,2}", 0, 8, 12},
};

/* Rules that pass, beside those. */
static const char *const accepted_rules[] = {
    "^", "-", ",", "1", "&amp;", "[^^]", "[a^]", "[\\^a]", "[\\--a]", "[+-\\-]", "[.?+*{}[]", "[\\]]",
    "a{01,02}b", "a{1,63}b", "a{1,64}b", "a{1,99}b", "{63,63}", "a{63,63}", "{01,1}", "{2,2}{0,3}a", "a{0,3}{2,2}",
    "{1,1}{0,1}{1,1}", FULL_INSIDE, "{99,99}{99,99}{57,57}", "\\.\\[\\]\\{\\}\\?\\+\\*\\\\\\^\\-", "\\{1,2\\}", "[{1,2}]",
    "[{0,1}]a[{0,1}]+", "a?b", ".?.a", "\n",
};

static jazhuppe_answer refusal(uint32_t number, uint32_t place)
{
    jazhuppe_answer a = {number, place, 0, 0};

    return a;
}

static bool same_answer(jazhuppe_answer a, jazhuppe_answer b)
{
    return a.number == b.number && a.place == b.place && a.count == b.count && a.windows == b.windows;
}

static bool same_prepared(jazhuppe_prepared p, uint32_t number, uint32_t place)
{
    return p.number == number && p.place == place && p.positions == 0 && p.shortest == 0;
}

static bool same_text(jazhuppe_text t, uint32_t number, uint32_t place)
{
    return t.number == number && t.place == place && t.length == 0;
}

static bool same_covered(jazhuppe_covered c, uint32_t number, uint32_t place)
{
    return c.number == number && c.place == place && c.covered == 0;
}

/* A stored rule is judged by 1 to 8 alone, and after 9. */
static void rewriting_refuses(const uint8_t *bytes, size_t length, uint32_t fold, uint32_t number, uint32_t place)
{
    const uint8_t *rule = lend_bytes(&rule_room, bytes, length);
    uint8_t *out = lend(&list_room, JAZHUPPE_REWRITE_BUFFER);
    jazhuppe_text t = jazhuppe_rewrite(rule, length, fold, out, JAZHUPPE_REWRITE_BUFFER - 1);

    CHECK(same_text(t, JAZHUPPE_TOO_SHORT, 0) && untouched(&list_room));
    t = jazhuppe_rewrite(rule, length, fold, out, JAZHUPPE_REWRITE_BUFFER);
    if (number == JAZHUPPE_OUTER_GAP)
        CHECK(t.number == 0 && t.place == 0 && t.length > 0);
    else
        CHECK(same_text(t, number, place));
    CHECK(untouched_past(&list_room, t.length) && untouched(&rule_room));
}

/* Through prepare, open, search, show, covers and rewrite; open and search are lent too little besides, or a code without
 * a set, which come later. */
static void refuses(const uint8_t *bytes, size_t length, uint32_t fold, uint32_t number, uint32_t place)
{
    const uint8_t *rule = lend_bytes(&rule_room, bytes, length), *text = lend_bytes(&text_room, "abc", 3);
    uint64_t *scan = lend(&scan_room, JAZHUPPE_SCAN_WORDS * sizeof *scan);
    uint32_t *starts = lend(&list_room, 3 * sizeof *starts);
    jazhuppe_span shown = jazhuppe_show(rule, length, fold, text, 3, 0);

    CHECK(same_prepared(jazhuppe_prepare(rule, length, fold), number, place));
    CHECK(same_prepared(jazhuppe_open(rule, length, fold, NO_CODES, scan, JAZHUPPE_SCAN_WORDS), number, place));
    CHECK(same_prepared(jazhuppe_open(rule, length, fold, NO_CODES, scan, JAZHUPPE_SCAN_WORDS - 1), number, place));
    CHECK(same_prepared(jazhuppe_open(rule, length, fold, text, 1, NULL, 0, scan, JAZHUPPE_SCAN_WORDS), number, place));
    CHECK(same_answer(jazhuppe_search(rule, length, fold, NO_CODES, text, 3, starts, 3), refusal(number, place)));
    CHECK(same_answer(jazhuppe_search(rule, length, fold, NO_CODES, text, 3, starts, 2), refusal(number, place)));
    CHECK(same_answer(jazhuppe_search(rule, length, fold, text, 1, NULL, 0, text, 3, starts, 3), refusal(number, place)));
    CHECK(shown.from == 3 && shown.to == 3);
    CHECK(same_covered(jazhuppe_covers(rule, length, fold, text, 3), number, place));
    CHECK(same_covered(jazhuppe_covers(rule, length, fold, NULL, 0), number, place));
    CHECK(untouched(&rule_room) && untouched(&text_room) && untouched(&scan_room) && untouched(&list_room));
    rewriting_refuses(bytes, length, fold, number, place);
}

static void test_rules(void)
{
    for (size_t i = 0; i < sizeof refused_rules / sizeof refused_rules[0]; i++) {
        const refused_rule *r = &refused_rules[i];

        about("rule %s", r->rule);
        refuses((const uint8_t *)r->rule, strlen(r->rule), r->fold, r->number, r->place);
    }
}

/* 2 goes before every fault inside the rule. */
static void test_long_rules(void)
{
    uint8_t rule[2000];

    memset(rule, '?', sizeof rule);
    refuses(rule, 1024, 0, JAZHUPPE_RULE_LONG, 1023);
    refuses(rule, sizeof rule, 0, JAZHUPPE_RULE_LONG, 1023);
    refuses(rule, 1023, 0, JAZHUPPE_MARK, 0);
    memset(rule, 'a', sizeof rule);
    refuses(rule, 1024, 1, JAZHUPPE_RULE_LONG, 1023);
    refuses(rule, 1023, 1, JAZHUPPE_POSITIONS, 255);
    refuses(rule, 256, 0, JAZHUPPE_POSITIONS, 255);
}

/* [^..] with every byte: left with none. And without the letters' small case, where the fold flag alone decides. */
static void test_classes_left_empty(void)
{
    uint8_t all[] = {'[', '^', 0, '-', 255, ']'};
    uint8_t large[] = {'[', '^', 0, '-', '`', '{', '-', 255, ']'};

    refuses(all, sizeof all, 0, JAZHUPPE_CLASS, 0);
    refuses(large, sizeof large, 1, JAZHUPPE_CLASS, 0);
    refuses(large, sizeof large, 256, JAZHUPPE_CLASS, 0);
    refuses(large, sizeof large, 0x80000000u, JAZHUPPE_CLASS, 0);
    CHECK(jazhuppe_prepare(lend_bytes(&rule_room, large, sizeof large), sizeof large, 0).number == 0);
}

static void test_accepted_rules(void)
{
    for (size_t i = 0; i < sizeof accepted_rules / sizeof accepted_rules[0]; i++) {
        size_t length = strlen(accepted_rules[i]);
        const uint8_t *rule = lend_bytes(&rule_room, accepted_rules[i], length);
        jazhuppe_prepared p = jazhuppe_prepare(rule, length, 0);

        about("rule %s", accepted_rules[i]);
        CHECK(p.number == 0 && p.place == 0 && p.positions >= p.shortest && p.shortest >= 1);
    }
}

/* ---- patterns */

/* After 9; the buffer stays as it was, however long it is. */
static void import_refuses(const char *bytes, size_t length, uint32_t number, uint32_t place)
{
    static const size_t rooms[] = {0, 1, JAZHUPPE_IMPORT_BUFFER - 1, JAZHUPPE_IMPORT_BUFFER, 3 * JAZHUPPE_IMPORT_BUFFER};
    const uint8_t *pattern = lend_bytes(&rule_room, bytes, length);

    for (size_t i = 0; i < sizeof rooms / sizeof rooms[0]; i++) {
        uint8_t *out = lend(&list_room, rooms[i]);
        bool too_short = rooms[i] < JAZHUPPE_IMPORT_BUFFER;
        jazhuppe_text t = jazhuppe_import_like(pattern, length, out, rooms[i]);

        CHECK(same_text(t, too_short ? JAZHUPPE_TOO_SHORT : number, too_short ? 0 : place));
        CHECK(untouched(&list_room) && untouched(&rule_room));
    }
}

static void test_patterns(void)
{
    static const struct {
        const char *pattern;
        uint32_t number, place;
    } rows[] = {
        {"", 1, 0}, {"%", 8, 2}, {"%%", 8, 4}, {"%%%", 8, 6},
        {"\\", 14, 0}, {"\\a", 14, 0}, {"\\.", 14, 0}, {"\\[", 14, 0}, {"\\^", 14, 0}, {"\\-", 14, 0}, {"\\\xC3", 14, 0},
        {"a\\", 14, 1}, {"a\\b", 14, 1}, {"_\\", 14, 1}, {"\\\\\\", 14, 2}, {"\\\\\\a", 14, 2}, {"\\\\\\\\\\", 14, 4},
        {"\\%\\", 14, 2}, {"\\_\\a", 14, 2}, {"\\%\\_\\\\\\ %", 14, 6},
        /* The first of them; and before 8. */
        {"\\a\\", 14, 0}, {"a\\b\\c", 14, 1}, {"%\\", 14, 1}, {"%%\\%%\\", 14, 5}, {"\\a%", 14, 0},
    };

    for (size_t i = 0; i < sizeof rows / sizeof rows[0]; i++) {
        about("pattern %s", rows[i].pattern);
        import_refuses(rows[i].pattern, strlen(rows[i].pattern), rows[i].number, rows[i].place);
    }
}

/* So many times an item, and one more: 14 wherever it stands, then 2, then 7, then 8. */
static void test_long_patterns(void)
{
    static const struct {
        const char *item;
        size_t times;
        const char *back;
        uint32_t number, place;
    } rows[] = {
        {"%", 255, "", 8, 510}, {"%", 256, "", 7, 510}, {"%", 511, "", 7, 510}, {"%", 512, "", 2, 1023},
        {"%", 255, "a", 7, 510}, {"%", 511, "a", 7, 510}, {"%", 511, "%", 2, 1023}, {"%", 511, "_a", 2, 1023},
        {"a", 256, "", 7, 255}, {"a", 1023, "", 7, 255}, {"a", 1024, "", 2, 1023}, {"a", 1022, "%", 2, 1023},
        {"a", 1022, ".", 2, 1023}, {"a", 1022, "\\%", 7, 255}, {"a", 255, "%", 7, 255}, {"_", 256, "", 7, 255},
        {"_", 1023, "", 7, 255}, {"_", 1024, "", 2, 1023}, {".", 256, "", 7, 510}, {".", 511, "a", 7, 510},
        {".", 512, "", 2, 1023}, {"\\%", 256, "", 7, 255}, {"\\%", 1023, "", 7, 255}, {"\\%", 1024, "", 2, 1023},
        {"\\\\", 256, "", 7, 510}, {"\\\\", 512, "", 2, 1023}, {"a%", 127, "bcd", 7, 382}, {"a%", 128, "", 7, 382},
        {"%", 2000, "", 2, 1023}, {"a", 2000, "", 2, 1023},
        {"a", 255, "\\", 14, 255}, {"a", 256, "\\", 14, 256}, {"a", 1023, "\\", 14, 1023}, {"a", 1100, "\\", 14, 1100},
        {"a", 2000, "\\", 14, 2000}, {"a", 2000, "\\b", 14, 2000}, {"%", 2000, "\\a%", 14, 2000}, {"\\%", 1000, "\\", 14, 2000},
        {"\\\\", 1000, "\\.", 14, 2000}, {".", 2000, "\\", 14, 2000},
    };

    for (size_t i = 0; i < sizeof rows / sizeof rows[0]; i++) {
        char pattern[2100] = "";

        for (size_t n = 0; n < rows[i].times; n++)
            strcat(pattern, rows[i].item);
        strcat(pattern, rows[i].back);
        about("pattern of %zu %s and %s", rows[i].times, rows[i].item, rows[i].back);
        import_refuses(pattern, strlen(pattern), rows[i].number, rows[i].place);
    }
}

/* ---- 15 */

/* 1 to 9 are codes, as many as are asked for, each for an a. */
static code_list some_codes(size_t count)
{
    code_list list = no_codes();

    for (size_t k = 0; k < count; k++)
        name_code(&list, (uint8_t)('1' + k), "a", 1);
    return list;
}

/* The text for a search with codes. */
static const char smudged[] = "abc";
enum { SMUDGED = 3 };

/* By an opening and a search, also where these are lent too little besides, which comes later: all by this number, and
 * everything lent is as before. Or neither is refused, where the number is 0, but for that. */
static void codes_come_to(const char *bytes, uint32_t fold, const code_list *list, uint32_t number)
{
    size_t length = strlen(bytes), n = list->codes_len, m = list->sets_len;
    const uint8_t *rule = lend_bytes(&rule_room, bytes, length), *text = lend_bytes(&text_room, smudged, SMUDGED);
    const uint8_t *codes = lend_bytes(&codes_room, list->codes, n), *sets = lend_bytes(&sets_room, list->sets, m);
    uint64_t *scan = lend(&scan_room, JAZHUPPE_SCAN_WORDS * sizeof *scan);
    uint32_t *starts = lend(&list_room, SMUDGED * sizeof *starts);
    uint32_t short_scan = number == 0 ? JAZHUPPE_IMPOSSIBLE : number, short_list = number == 0 ? JAZHUPPE_TOO_SHORT : number;

    CHECK(same_prepared(jazhuppe_open(rule, length, fold, codes, n, sets, m, scan, JAZHUPPE_SCAN_WORDS - 1), short_scan, 0));
    CHECK(same_prepared(jazhuppe_open(rule, length, fold, codes, n, sets, m, NULL, 0), short_scan, 0));
    CHECK(same_answer(jazhuppe_search(rule, length, fold, codes, n, sets, m, text, SMUDGED, starts, SMUDGED - 1),
                      refusal(short_list, 0)));
    CHECK(untouched(&scan_room) && untouched(&list_room));
    CHECK(jazhuppe_open(rule, length, fold, codes, n, sets, m, scan, JAZHUPPE_SCAN_WORDS).number == number);
    CHECK(jazhuppe_search(rule, length, fold, codes, n, sets, m, text, SMUDGED, starts, SMUDGED).number == number);
    CHECK(number == 0 || (untouched(&scan_room) && untouched(&list_room)));
    CHECK(untouched(&rule_room) && untouched(&codes_room) && untouched(&sets_room) && untouched(&text_room));
}

/* The place and the counts of a refusal by 15 are 0. */
static void test_codes_answer(void)
{
    code_list list = some_codes(1);
    const uint8_t *rule = lend_bytes(&rule_room, "x1", 2), *text = lend_bytes(&text_room, "xa", 2);
    const uint8_t *codes = lend_bytes(&codes_room, list.codes, 1), *sets = lend_bytes(&sets_room, list.sets, 32);
    uint64_t *scan = lend(&scan_room, JAZHUPPE_SCAN_WORDS * sizeof *scan);
    uint32_t *starts = lend(&list_room, 2 * sizeof *starts);

    CHECK(same_prepared(jazhuppe_open(rule, 2, 0, codes, 1, sets, 32, scan, JAZHUPPE_SCAN_WORDS), JAZHUPPE_CODES, 0));
    CHECK(same_answer(jazhuppe_search(rule, 2, 0, codes, 1, sets, 32, text, 2, starts, 2), refusal(JAZHUPPE_CODES, 0)));
    CHECK(untouched(&scan_room) && untouched(&list_room));
}

/* Up to 8 are accepted; 9 are not, nor are more with any sets. */
static void test_codes_most(void)
{
    code_list list;

    for (size_t count = 0; count <= 9; count++) {
        list = some_codes(count);
        about("%zu codes", count);
        codes_come_to("abc", 0, &list, count <= JAZHUPPE_CODES_MOST ? 0 : JAZHUPPE_CODES);
    }
    list.sets_len = 8 * JAZHUPPE_SET_BYTES;
    codes_come_to("abc", 0, &list, JAZHUPPE_CODES);
    list.codes_len = sizeof list.codes;
    for (size_t k = 0; k < list.codes_len; k++)
        list.codes[k] = (uint8_t)k;
    codes_come_to("abc", 0, &list, JAZHUPPE_CODES);
    list.sets_len = 0;
    codes_come_to("abc", 0, &list, JAZHUPPE_CODES);
    /* As many as a byte counts none of. */
    list.codes_len = 256;
    codes_come_to("abc", 0, &list, JAZHUPPE_CODES);
}

/* Sets without codes, codes without sets, and every other length. */
static void test_sets_length(void)
{
    for (size_t count = 0; count <= JAZHUPPE_CODES_MOST; count++) {
        code_list list = some_codes(count);

        for (list.sets_len = 0; list.sets_len <= sizeof list.sets; list.sets_len++) {
            about("%zu codes, %zu bytes of sets", count, list.sets_len);
            codes_come_to("abc", 0, &list, list.sets_len == count * JAZHUPPE_SET_BYTES ? 0 : JAZHUPPE_CODES);
        }
    }
}

/* Each two of eight codes alike, which are accepted otherwise. */
static void test_code_twice(void)
{
    for (size_t k = 0; k < JAZHUPPE_CODES_MOST; k++)
        for (size_t i = 0; i < k; i++) {
            code_list list = some_codes(JAZHUPPE_CODES_MOST);

            list.codes[k] = list.codes[i];
            about("codes %zu and %zu are alike", i, k);
            codes_come_to("abc", 0, &list, JAZHUPPE_CODES);
        }
}

/* The set of each of eight codes empty, and each holding each of them. */
static void test_sets(void)
{
    for (size_t k = 0; k < JAZHUPPE_CODES_MOST; k++) {
        code_list list = some_codes(JAZHUPPE_CODES_MOST);
        uint8_t *set = list.sets + k * JAZHUPPE_SET_BYTES;

        for (size_t i = 0; i < JAZHUPPE_CODES_MOST; i++) {
            uint8_t *byte = &set[list.codes[i] / 8], before = *byte;

            *byte |= (uint8_t)(1 << list.codes[i] % 8);
            about("set %zu holds code %zu", k, i);
            codes_come_to("abc", 0, &list, JAZHUPPE_CODES);
            *byte = before;
        }
        about("set %zu is empty", k);
        memset(set, 0, JAZHUPPE_SET_BYTES);
        codes_come_to("abc", 0, &list, JAZHUPPE_CODES);
    }
}

/* With the codes ?, A and 0, each for a b. After fold, an A stands for an a too. */
static void test_codes_alone(void)
{
    static const struct {
        const char *rule;
        uint32_t fold, number;
    } rows[] = {
        {"A", 0, 15}, {"A", 1, 0}, {"[A]", 0, 15}, {"[A-A]", 1, 0}, {"a", 0, 0}, {"[?A]", 0, 15}, {"[?A]", 1, 0},
        {"[?Ax]", 0, 0}, {"\\?", 0, 15}, {"\\?", 1, 15}, {"x\\?", 0, 15}, {"\\?x", 1, 15}, {"x\\??", 0, 15}, {"x\\?*", 1, 15},
        {"x[?]+", 0, 15}, {"xA?", 0, 15}, {"xA?", 1, 0}, {"[^?]", 0, 0}, {"[^?A]", 0, 0}, {".", 0, 0}, {"{9,9}", 0, 0},
        {"[^\x01->@C-\xFF]", 0, 0}, {"[^\x01->@B-\xFF]", 0, 15}, {"a{1,99}{1,99}{1,55}A", 0, 15},
        {"a{1,99}{1,99}{1,55}A", 1, 0}, {"a{1,62}A", 0, 15}, {"a{1,61}A", 0, 15}, {"A{1,99}{1,99}{1,55}b", 0, 15},
        /* 16 goes before. */
        {"{1,9}A", 0, 16}, {"{1,9}", 0, 16},
    };
    code_list list = no_codes();

    name_code(&list, '?', "b", 1);
    name_code(&list, 'A', "b", 1);
    name_code(&list, 0, "b", 1);
    for (size_t i = 0; i < sizeof rows / sizeof rows[0]; i++) {
        about("rule %s, fold %lu, codes ?, A and 0", rows[i].rule, (unsigned long)rows[i].fold);
        codes_come_to(rows[i].rule, rows[i].fold, &list, rows[i].number);
    }
}

/* NULL with length 0 where there are codes and no sets, or sets and no codes. */
static void test_null_codes(void)
{
    code_list list = some_codes(1);
    const uint8_t *rule = lend_bytes(&rule_room, "a", 1), *codes = lend_bytes(&codes_room, list.codes, 1);
    const uint8_t *sets = lend_bytes(&sets_room, list.sets, 32);
    uint64_t *scan = lend(&scan_room, JAZHUPPE_SCAN_WORDS * sizeof *scan);

    CHECK(same_prepared(jazhuppe_open(rule, 1, 0, codes, 1, NULL, 0, scan, JAZHUPPE_SCAN_WORDS), JAZHUPPE_CODES, 0));
    CHECK(same_prepared(jazhuppe_open(rule, 1, 0, NULL, 0, sets, 32, scan, JAZHUPPE_SCAN_WORDS), JAZHUPPE_CODES, 0));
    CHECK(same_answer(jazhuppe_search(rule, 1, 0, codes, 1, NULL, 0, NULL, 0, NULL, 0), refusal(JAZHUPPE_CODES, 0)));
    CHECK(same_answer(jazhuppe_search(rule, 1, 0, NULL, 0, sets, 32, NULL, 0, NULL, 0), refusal(JAZHUPPE_CODES, 0)));
    CHECK(same_answer(jazhuppe_search(rule, 1, 0, codes, 1, sets, 32, NULL, 0, NULL, 0), refusal(0, 0)));
    CHECK(untouched(&scan_room) && untouched(&codes_room) && untouched(&sets_room));
}

/* ---- lists, scans */

/* 9: a search's list and a decoder's buffer, of every length that is too short. */
static void test_short_whole(void)
{
    const uint8_t *text = lend_bytes(&text_room, "a&lt;aaa", 8), *rule = lend_bytes(&rule_room, "a", 1);

    for (size_t length = 0; length < 8; length++) {
        uint32_t *starts = lend(&list_room, length * sizeof *starts);
        jazhuppe_answer a = jazhuppe_search(rule, 1, 0, NO_CODES, text, 8, starts, length);
        uint8_t *out;

        CHECK(same_answer(a, refusal(JAZHUPPE_TOO_SHORT, 0)) && untouched(&list_room));
        out = lend(&list_room, length);
        CHECK(same_answer(jazhuppe_decode(text, 8, out, length), refusal(JAZHUPPE_TOO_SHORT, 0)));
        CHECK(untouched(&list_room));
    }
    CHECK(untouched(&text_room) && untouched(&rule_room));
}

static uint64_t *open_scan(const char *bytes)
{
    uint64_t *scan = lend(&scan_room, JAZHUPPE_SCAN_WORDS * sizeof *scan);
    const uint8_t *rule = lend_bytes(&rule_room, bytes, strlen(bytes));

    CHECK(jazhuppe_open(rule, strlen(bytes), 0, NO_CODES, scan, JAZHUPPE_SCAN_WORDS).number == 0);
    lent_anew(&scan_room);
    return scan;
}

/* A feed of so many bytes and a finish, with these lengths of lists, are both refused by this number. */
static void both_refuse(size_t scan_len, size_t piece_len, size_t feed_list, size_t finish_list, uint32_t number)
{
    uint64_t *scan = (uint64_t *)(void *)scan_room.slice;
    const uint8_t *piece = lend(&text_room, piece_len);
    uint32_t *ends = lend(&list_room, feed_list * sizeof *ends);

    CHECK(same_answer(jazhuppe_feed(scan, scan_len, piece, piece_len, ends, feed_list), refusal(number, 0)));
    CHECK(untouched(&scan_room) && untouched(&text_room) && untouched(&list_room));
    ends = lend(&list_room, finish_list * sizeof *ends);
    CHECK(same_answer(jazhuppe_finish(scan, scan_len, ends, finish_list), refusal(number, 0)));
    CHECK(untouched(&scan_room) && untouched(&list_room));
}

/* 9: a scan call's list, of every length that is too short; and the scan goes on as if nothing had been asked. */
static void test_short_scan(void)
{
    uint64_t *scan = open_scan("a");
    uint32_t *ends;
    jazhuppe_answer a;

    for (size_t piece = 0; piece < 20; piece++)
        for (size_t list = 0; list < JAZHUPPE_FEED_LIST(piece); list++)
            both_refuse(JAZHUPPE_SCAN_WORDS, piece, list, list % JAZHUPPE_FINISH_LIST, JAZHUPPE_TOO_SHORT);
    ends = lend(&list_room, JAZHUPPE_FEED_LIST(1) * sizeof *ends);
    a = jazhuppe_feed(scan, JAZHUPPE_SCAN_WORDS, lend_bytes(&text_room, "a", 1), 1, ends, JAZHUPPE_FEED_LIST(1));
    CHECK(a.number == 0 && a.count == 1 && ends[0] == 1 && ends[1] == 1);
    CHECK(untouched_past(&list_room, JAZHUPPE_PAIR * sizeof *ends));
}

/* A list is counted in numbers, two for each pair: one number less than it needs is 9, as much and one more, or any, pass. */
static void test_list_numbers(void)
{
    for (size_t piece = 0; piece < 20; piece++)
        for (size_t more = 0; more < 4; more++) {
            size_t needed = 2 * (piece + 31), list = needed - 1 + more;
            uint64_t *scan = open_scan("a");
            const uint8_t *bytes = lend(&text_room, piece);
            uint32_t number = more == 0 ? JAZHUPPE_TOO_SHORT : 0, *ends = lend(&list_room, list * sizeof *ends);

            CHECK(same_answer(jazhuppe_feed(scan, JAZHUPPE_SCAN_WORDS, bytes, piece, ends, list), refusal(number, 0)));
            ends = lend(&list_room, (61 + more) * sizeof *ends);
            CHECK(same_answer(jazhuppe_finish(scan, JAZHUPPE_SCAN_WORDS, ends, 61 + more), refusal(number, 0)));
            CHECK(untouched(&list_room));
        }
}

/* 12: after a finish every call is refused, with any piece and list, and a new opening takes the value up again. */
static void test_finished(void)
{
    uint64_t *scan = open_scan("a");
    uint32_t *ends = lend(&list_room, JAZHUPPE_FINISH_LIST * sizeof *ends);

    CHECK(jazhuppe_finish(scan, JAZHUPPE_SCAN_WORDS, ends, JAZHUPPE_FINISH_LIST).number == 0);
    lent_anew(&scan_room);
    both_refuse(JAZHUPPE_SCAN_WORDS, 3, JAZHUPPE_FEED_LIST(3), JAZHUPPE_FINISH_LIST, JAZHUPPE_FINISHED);
    both_refuse(JAZHUPPE_SCAN_WORDS, 0, JAZHUPPE_FEED_LIST(0), JAZHUPPE_FINISH_LIST, JAZHUPPE_FINISHED);
    both_refuse(JAZHUPPE_SCAN_WORDS, 3, 0, 0, JAZHUPPE_FINISHED);
    CHECK(jazhuppe_open(rule_room.slice, 1, 0, NO_CODES, scan, JAZHUPPE_SCAN_WORDS).number == 0);
    CHECK(jazhuppe_finish(scan, JAZHUPPE_SCAN_WORDS, ends, JAZHUPPE_FINISH_LIST).number == 0);
}

/* 11, 12, 10, 9: each goes before the later ones. */
static void test_order_of_scan_calls(void)
{
    uint64_t *scan = open_scan("a");

    scan[RAW] = JAZHUPPE_TEXT_MOST;
    scan[FINISHED] = 1;
    scan[POSITIONS] = JAZHUPPE_POSITIONS_MOST + 1;
    lent_anew(&scan_room);
    both_refuse(JAZHUPPE_SCAN_WORDS, 1, 0, 0, JAZHUPPE_IMPOSSIBLE);
    scan[POSITIONS] = JAZHUPPE_POSITIONS_MOST;
    lent_anew(&scan_room);
    both_refuse(JAZHUPPE_SCAN_WORDS - 1, 1, 0, 0, JAZHUPPE_IMPOSSIBLE);
    both_refuse(JAZHUPPE_SCAN_WORDS, 1, 0, 0, JAZHUPPE_FINISHED);
    scan[FINISHED] = 0;
    lent_anew(&scan_room);
    CHECK(same_answer(jazhuppe_feed(scan, JAZHUPPE_SCAN_WORDS, lend(&text_room, 1), 1, lend(&list_room, 0), 0),
                      refusal(JAZHUPPE_TOO_MUCH, 0)));
    /* An empty piece is not over the limit, and a finish never is. */
    both_refuse(JAZHUPPE_SCAN_WORDS, 0, JAZHUPPE_FEED_LIST(0) - 1, JAZHUPPE_FINISH_LIST - 1, JAZHUPPE_TOO_SHORT);
}

/* NULL with length 0, in every place. */
static void test_null(void)
{
    uint64_t *scan = open_scan("a");
    uint32_t *ends = lend(&list_room, JAZHUPPE_FINISH_LIST * sizeof *ends);
    const uint8_t *rule = rule_room.slice, *text = lend_bytes(&text_room, "a", 1);
    jazhuppe_span shown = jazhuppe_show(rule, 1, 0, NULL, 0, 0);

    CHECK(same_prepared(jazhuppe_prepare(NULL, 0, 0), JAZHUPPE_RULE_EMPTY, 0));
    CHECK(same_prepared(jazhuppe_open(NULL, 0, 0, NO_CODES, NULL, 0), JAZHUPPE_RULE_EMPTY, 0));
    CHECK(same_prepared(jazhuppe_open(rule, 1, 0, NO_CODES, NULL, 0), JAZHUPPE_IMPOSSIBLE, 0));
    CHECK(same_answer(jazhuppe_feed(NULL, 0, NULL, 0, NULL, 0), refusal(JAZHUPPE_IMPOSSIBLE, 0)));
    CHECK(same_answer(jazhuppe_finish(NULL, 0, NULL, 0), refusal(JAZHUPPE_IMPOSSIBLE, 0)));
    CHECK(same_answer(jazhuppe_feed(scan, JAZHUPPE_SCAN_WORDS, NULL, 0, NULL, 0), refusal(JAZHUPPE_TOO_SHORT, 0)));
    CHECK(same_answer(jazhuppe_feed(scan, JAZHUPPE_SCAN_WORDS, text, 1, NULL, 0), refusal(JAZHUPPE_TOO_SHORT, 0)));
    CHECK(same_answer(jazhuppe_feed(scan, JAZHUPPE_SCAN_WORDS, NULL, 0, ends, JAZHUPPE_FEED_LIST(0)), refusal(0, 0)));
    CHECK(same_answer(jazhuppe_finish(scan, JAZHUPPE_SCAN_WORDS, NULL, 0), refusal(JAZHUPPE_TOO_SHORT, 0)));
    CHECK(same_answer(jazhuppe_decode(NULL, 0, NULL, 0), refusal(0, 0)));
    CHECK(same_answer(jazhuppe_decode(text, 1, NULL, 0), refusal(JAZHUPPE_TOO_SHORT, 0)));
    CHECK(same_answer(jazhuppe_search(NULL, 0, 0, NO_CODES, NULL, 0, NULL, 0), refusal(JAZHUPPE_RULE_EMPTY, 0)));
    CHECK(same_answer(jazhuppe_search(rule, 1, 0, NO_CODES, NULL, 0, NULL, 0), refusal(0, 0)));
    CHECK(same_answer(jazhuppe_search(rule, 1, 0, NO_CODES, text, 1, NULL, 0), refusal(JAZHUPPE_TOO_SHORT, 0)));
    CHECK(shown.from == 0 && shown.to == 0);
    shown = jazhuppe_show(NULL, 0, 0, NULL, 0, 7);
    CHECK(shown.from == 0 && shown.to == 0);
    CHECK(untouched(&scan_room) && untouched(&list_room));
}

static void test_null_rewriting(void)
{
    uint8_t *out = lend(&list_room, JAZHUPPE_REWRITE_BUFFER);
    const uint8_t *rule = lend_bytes(&rule_room, "a", 1);

    CHECK(same_text(jazhuppe_rewrite(NULL, 0, 0, NULL, 0), JAZHUPPE_TOO_SHORT, 0));
    CHECK(same_text(jazhuppe_rewrite(rule, 1, 0, NULL, 0), JAZHUPPE_TOO_SHORT, 0));
    CHECK(same_text(jazhuppe_rewrite(NULL, 0, 0, out, JAZHUPPE_REWRITE_BUFFER), JAZHUPPE_RULE_EMPTY, 0));
    CHECK(untouched(&list_room) && untouched(&rule_room));
}

static void test_null_names(void)
{
    uint8_t *out = lend(&list_room, JAZHUPPE_IMPORT_BUFFER);
    const uint8_t *bytes = lend_bytes(&rule_room, "a", 1);

    CHECK(same_covered(jazhuppe_covers(NULL, 0, 0, NULL, 0), JAZHUPPE_RULE_EMPTY, 0));
    CHECK(same_covered(jazhuppe_covers(NULL, 0, 0, bytes, 1), JAZHUPPE_RULE_EMPTY, 0));
    CHECK(same_covered(jazhuppe_covers(bytes, 1, 0, NULL, 0), 0, 0));
    CHECK(same_text(jazhuppe_import_like(NULL, 0, NULL, 0), JAZHUPPE_TOO_SHORT, 0));
    CHECK(same_text(jazhuppe_import_like(bytes, 1, NULL, 0), JAZHUPPE_TOO_SHORT, 0));
    CHECK(same_text(jazhuppe_import_like(NULL, 0, out, JAZHUPPE_IMPORT_BUFFER), JAZHUPPE_RULE_EMPTY, 0));
    CHECK(untouched(&list_room) && untouched(&rule_room));
}

/* An offer is lent nothing; a refused one hands the dispatcher's numbers back as they came. turns.c has the rest. */
static void test_offers(void)
{
    static const struct {
        uint32_t waiting, last, feed, number;
    } offers[] = {
        {0, 7, 0, 0}, {0, 7, 7, 0}, {0, 7, 8, 18}, {0, 7, UINT32_MAX, 18}, {0x01, 7, 0, 18}, {0x01, 7, 1, 0},
        {0xFFFFFF7F, 200, 7, 0}, {0xFFFFFFFF, 200, 7, 18}, {0xFFFFFEFF, 8, 8, 18}, {0x100, 9, 0, 0},
    };

    for (size_t i = 0; i < sizeof offers / sizeof offers[0]; i++) {
        jazhuppe_offered o = jazhuppe_offer(offers[i].waiting, offers[i].last, offers[i].feed);
        bool refused = offers[i].number != 0;

        about("offer of feed %lu, waiting %08lX", (unsigned long)offers[i].feed, (unsigned long)offers[i].waiting);
        CHECK(o.number == offers[i].number && o.place == 0 && o.last == offers[i].last);
        CHECK((o.waiting == offers[i].waiting) == refused);
    }
}

static void test_show(void)
{
    const uint8_t *rule = lend_bytes(&rule_room, "a", 1), *text = lend_bytes(&text_room, "ba", 2);
    static const size_t starts[] = {0, 2, 3, (size_t)1 << 32, SIZE_MAX};
    jazhuppe_span shown = jazhuppe_show(rule, 1, 0, text, 2, 1);

    CHECK(shown.from == 1 && shown.to == 2);
    for (size_t i = 0; i < sizeof starts / sizeof starts[0]; i++) {
        shown = jazhuppe_show(rule, 1, 0, text, 2, starts[i]);
        CHECK(shown.from == 2 && shown.to == 2);
    }
}

static void run_all(void)
{
    run("1, 3 to 8 and 16 of a rule: number and place, by every call that takes one", test_rules);
    run("2 of a rule, before any other fault", test_long_rules);
    run("3: a class left with no byte, and the fold flag", test_classes_left_empty);
    run("rules that pass", test_accepted_rules);
    run("14, 1 and 8 of a pattern, after 9", test_patterns);
    run("14, then 2, then 7, then 8 of a long pattern", test_long_patterns);
    run("15: its answer, place 0", test_codes_answer);
    run("15: more than 8 codes", test_codes_most);
    run("15: sets that are not 32 bytes for each code", test_sets_length);
    run("15: a code named twice", test_code_twice);
    run("15: a set that is empty or holds a code", test_sets);
    run("15: a position that holds codes alone", test_codes_alone);
    run("15: NULL with length 0", test_null_codes);
    run("9: a search's list, a decoder's buffer", test_short_whole);
    run("9: a feed's and a finish's list", test_short_scan);
    run("9: lists are counted in numbers", test_list_numbers);
    run("12: a finished scan", test_finished);
    run("a scan call checks 11, 12, 10, 9", test_order_of_scan_calls);
    run("NULL with length 0", test_null);
    run("NULL with length 0, rewriting", test_null_rewriting);
    run("NULL with length 0, whole names and patterns", test_null_names);
    run("18: an offer", test_offers);
    run("show gives no number", test_show);
}

int main(void)
{
    return run_in_small_rooms("refusals", run_all);
}
