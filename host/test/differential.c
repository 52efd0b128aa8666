/* differential.c: cases through the header, each answer and every lent number held against the second implementation.
 * `differential [SEED [CASES]]` draws them; `differential - FILE` reads them from lines, each with what it is first:
 *   ? rule, tab, plan          a case of document 01 or an edge, with the plan cut in many ways
 *   ! rule, tab, plan          the same with the fold flag set
 *                              both with codes where they follow, each a tab, the byte, = and its set, spelt as one
 *                              position of a rule, or with no byte
 *   = raw, tab, hexadecimal    a text with references and the bytes that it decodes to, by XML 1.0
 *   + rule, tab, name          a name that the rule covers
 *   - rule, tab, name          a name that it does not cover
 *   % pattern, tab, rule       a LIKE pattern and the text of its rule; then names, each a tab, + or - as LIKE accepts it or
 *                              not, and the name
 *   ~ pattern, tab, number, tab, place    a pattern whose import is refused
 * A difference prints the whole case and ends the run. */
#include <stdarg.h>
#include <stdio.h>
#include <stdlib.h>
#include <string.h>

#include "drawn.h"
#include "jazhuppe.h"
#include "scan_layout.h"
#include "second.h"
#include "testing.h"

enum { WORDS = JAZHUPPE_SCAN_WORDS, REFUSALS = JAZHUPPE_OUTER_GAP, PATTERN_MOST = 2100, FORM_MOST = 32,
       SPELT_MOST = PLAN_MOST * FORM_MOST };

/* Beside what drawn.h draws: the plan decoded, with the raw count of each byte, its text spelt otherwise, a LIKE pattern, and
 * a name for it, or before that for the rule. */
static struct {
    uint8_t text[PLAN_MOST], spelt[SPELT_MOST], pattern[PATTERN_MOST], name[PLAN_MOST];
    uint32_t raws[PLAN_MOST], spelt_raws[PLAN_MOST];
    size_t text_len, spelt_len, pattern_len, name_len;
} beside;

static unsigned long long seed = 1;
static unsigned cases = 20000, case_number;

/* Memory for a text over the limit, which nobody may touch. */
static const size_t over = (size_t)JAZHUPPE_TEXT_MOST + 1;
static const uint8_t *too_much;

/* ---- what was asked, for the report of a difference */

enum { PREPARE, REWRITE, OPEN, FEED, FINISH, DECODE, SEARCH, SHOW, COVERS, IMPORT, CALLS };
static const char *const call_names[CALLS] = {"prepare", "rewrite", "open", "feed", "finish",
                                              "decode", "search", "show", "covers", "import_like"};
static unsigned long counts[CALLS][REFUSALS + 1], ends_seen, starts_seen, shown_seen, windows_seen, held_seen, decoded_seen,
    smudged_seen, smudges_seen, rewritten_seen, kept_ends_seen, kept_starts_seen, covered_seen, accepted_seen, declined_seen,
    apart_seen, shared_seen, spelt_seen;

static char asked[16384];
static size_t asked_len;

static void note(const char *format, ...)
{
    va_list args;
    size_t room = sizeof asked - asked_len;
    int n;

    va_start(args, format);
    n = vsnprintf(asked + asked_len, room, format, args);
    va_end(args);
    if (n > 0)
        asked_len += (size_t)n < room ? (size_t)n : room - 1;
}

static void print_bytes(const char *name, const uint8_t *bytes, size_t length)
{
    printf("%s (%zu bytes): ", name, length);
    for (size_t i = 0; i < length; i++)
        printf(bytes[i] >= ' ' && bytes[i] < 127 ? "%c" : "\\x%02X", bytes[i]);
    putchar('\n');
}

static void print_list(const char *name, const uint32_t *list, size_t count)
{
    printf("%s:", name);
    for (size_t i = 0; i < count; i++)
        printf(" %lu", (unsigned long)list[i]);
    putchar('\n');
}

static void different(const char *what)
{
    printf("DIFFERENCE in %s: seed %llu, case %u\n", what, seed, case_number);
    print_bytes("stored", now.stored, now.stored_len);
    print_bytes("rule", now.rule, now.rule_len);
    printf("fold: %lu\n", (unsigned long)now.fold);
    print_bytes("codes", now.codes, now.codes_len);
    print_bytes("sets", now.sets, now.sets_len);
    print_bytes("plan", now.plan, now.plan_len);
    print_bytes("text", beside.text, beside.text_len);
    print_bytes("spelt", beside.spelt, beside.spelt_len);
    print_bytes("pattern", beside.pattern, beside.pattern_len);
    print_bytes("name", beside.name, beside.name_len);
    printf("calls, in order:\n%s", asked);
    printf("differential: 0 ok, 1 failed\n");
    exit(EXIT_FAILURE);
}

static void hold_prepared(int call, jazhuppe_prepared given, jazhuppe_prepared expected)
{
    counts[call][expected.number % (REFUSALS + 1)]++;
    if (memcmp(&given, &expected, sizeof given) == 0)
        return;
    printf("given %lu at %lu, positions %lu, shortest %lu\n", (unsigned long)given.number, (unsigned long)given.place,
           (unsigned long)given.positions, (unsigned long)given.shortest);
    printf("expected %lu at %lu, positions %lu, shortest %lu\n", (unsigned long)expected.number,
           (unsigned long)expected.place, (unsigned long)expected.positions, (unsigned long)expected.shortest);
    different(call_names[call]);
}

static void hold_text(int call, jazhuppe_text given, jazhuppe_text expected)
{
    counts[call][expected.number % (REFUSALS + 1)]++;
    if (memcmp(&given, &expected, sizeof given) == 0)
        return;
    printf("given %lu at %lu, length %lu\n", (unsigned long)given.number, (unsigned long)given.place,
           (unsigned long)given.length);
    printf("expected %lu at %lu, length %lu\n", (unsigned long)expected.number, (unsigned long)expected.place,
           (unsigned long)expected.length);
    different(call_names[call]);
}

static void hold_covered(jazhuppe_covered given, jazhuppe_covered expected)
{
    counts[COVERS][expected.number % (REFUSALS + 1)]++;
    if (memcmp(&given, &expected, sizeof given) == 0)
        return;
    printf("given %lu at %lu, covered %lu\n", (unsigned long)given.number, (unsigned long)given.place,
           (unsigned long)given.covered);
    printf("expected %lu at %lu, covered %lu\n", (unsigned long)expected.number, (unsigned long)expected.place,
           (unsigned long)expected.covered);
    different(call_names[COVERS]);
}

static void print_answer(const char *name, jazhuppe_answer a)
{
    printf("%s %lu at %lu, count %lu, windows %lu\n", name, (unsigned long)a.number, (unsigned long)a.place,
           (unsigned long)a.count, (unsigned long)a.windows);
}

static void hold_answer(int call, jazhuppe_answer given, jazhuppe_answer expected)
{
    counts[call][expected.number % (REFUSALS + 1)]++;
    if (memcmp(&given, &expected, sizeof given) == 0)
        return;
    print_answer("given", given);
    print_answer("expected", expected);
    different(call_names[call]);
}

/* The list that was lent last: so many numbers that are expected, and past them what stood there. */
static void hold_list(int call, const uint32_t *expected, size_t count)
{
    const uint32_t *given = (const uint32_t *)(const void *)list_room.slice;

    if (!untouched_past(&list_room, count * sizeof *expected))
        different("numbers past those reported, or around the list");
    if (memcmp(given, expected, count * sizeof *expected) == 0)
        return;
    print_list("given", given, count);
    print_list("expected", expected, count);
    different(call_names[call]);
}

/* The buffer that was lent last: the expected bytes, and past them what stood there. */
static void hold_buffer(int call, const uint8_t *expected, size_t length)
{
    if (!untouched_past(&list_room, length))
        different("bytes past those reported, or around the buffer");
    if (memcmp(list_room.slice, expected, length) == 0)
        return;
    print_bytes("given", list_room.slice, length);
    different(call_names[call]);
}

static void hold_lent(void)
{
    if (!untouched(&rule_room) || !untouched(&codes_room) || !untouched(&sets_room) || !untouched(&text_room))
        different("what was lent for reading");
}

/* ---- names and patterns */

static void name_byte(uint8_t c)
{
    if (beside.name_len < PLAN_MOST)
        beside.name[beside.name_len++] = c;
}

static void name_letters(uint32_t count)
{
    while (count-- > 0)
        name_byte(any_letter());
}

/* One byte more, less or other, or none is left; most often it stays. */
static void spoil_name(void)
{
    size_t at = below((uint32_t)beside.name_len + 1), behind = beside.name_len - at;

    if (one_in(30)) {
        beside.name_len = 0;
    } else if (one_in(6) && beside.name_len < PLAN_MOST) {
        memmove(beside.name + at + 1, beside.name + at, behind);
        beside.name[at] = any_letter();
        beside.name_len++;
    } else if (one_in(6) && behind > 0) {
        memmove(beside.name + at, beside.name + at + 1, behind - 1);
        beside.name_len--;
    } else if (one_in(6) && behind > 0) {
        beside.name[at] = one_in(2) ? beside.name[at] ^ 0x20 : any_letter();
    }
}

/* An occurrence of the rule, twice, nearly one or with more about it; or the raw plan. */
static void make_name(const second_rule *rule)
{
    uint32_t more = one_in(6) ? 1 + below(2) : 0, times = one_in(12) ? 2 : 1;

    beside.name_len = 0;
    if (one_in(10)) {
        memcpy(beside.name, now.plan, now.plan_len);
        beside.name_len = now.plan_len;
        return;
    }
    name_letters(one_in(2) ? more : 0);
    while (times-- > 0)
        for (size_t i = 0; i < rule->count; i++)
            if (!rule->positions[i].optional || one_in(2))
                for (uint32_t bytes = rule->positions[i].repeatable ? 1 + below(3) : 1; bytes > 0; bytes--)
                    name_byte(any_that_fits(rule, i));
    name_letters(one_in(2) ? more : 0);
    spoil_name();
}

static void pattern_byte(uint8_t c)
{
    if (beside.pattern_len < PATTERN_MOST)
        beside.pattern[beside.pattern_len++] = c;
}

static void pattern_item(void)
{
    static const char plain[] = "%_\\.[]{}?+*^-,";
    uint32_t kind = below(10);
    uint8_t c = kind < 6 ? (uint8_t)plain[below(sizeof plain - 1)] : any_letter();

    if (kind < 4) {
        pattern_byte((uint8_t)"%_"[one_in(3)]);
        return;
    }
    if (strchr("%_\\", c) != NULL && c != 0)
        pattern_byte('\\');
    pattern_byte(c);
}

/* One item again and again, about as often as a rule has positions, or fills the text. */
static void pattern_row(void)
{
    static const char *const items[] = {"%", "_", "a", ".", "\\%", "\\\\"};
    static const uint32_t near[] = {3, 255, 511, 1023, 2048};
    const char *item = items[below(sizeof items / sizeof items[0])];

    for (uint32_t n = near[below(sizeof near / sizeof near[0])] - 2 + below(5); n > 0; n--)
        for (const char *c = item; *c != '\0'; c++)
            pattern_byte((uint8_t)*c);
    if (one_in(2))
        pattern_item();
}

/* Few items most often; seldom as many as a rule may have positions; and now and then a \ in any place of it. */
static void make_pattern(void)
{
    uint32_t items = one_in(20) ? 230 + below(50) : one_in(40) ? 0 : 1 + below(8);

    beside.pattern_len = 0;
    if (one_in(8))
        pattern_row();
    else
        while (items-- > 0)
            pattern_item();
    if (beside.pattern_len > 0 && one_in(10))
        beside.pattern[one_in(3) ? beside.pattern_len - 1 : below((uint32_t)beside.pattern_len)] = '\\';
}

/* A name that the pattern accepts, or nearly one. */
static void make_name_of_pattern(void)
{
    beside.name_len = 0;
    for (size_t at = 0; at < beside.pattern_len; at++) {
        uint8_t c = beside.pattern[at];

        if (c == '%')
            name_letters(one_in(2) ? below(4) : 0);
        else if (c == '_')
            name_letters(1);
        else if (c != '\\')
            name_byte(c);
        else if (++at < beside.pattern_len)
            name_byte(beside.pattern[at]);
    }
    spoil_name();
}

/* ---- the scan */

static bool scanning;
static second_scan plain;
static uint64_t *scan;

/* What the calls on it have reported, pair after pair. */
static uint32_t reported[JAZHUPPE_PAIR * SECOND_PLAN_MOST];
static size_t reported_count;

/* What the scan value must be, told from the bytes taken: every word of it. */
static void expected_value(uint64_t *value)
{
    uint8_t text[SECOND_PLAN_MOST];
    size_t length = second_text(&plain, text, NULL), held = plain.finished ? 0 : second_held(plain.taken, plain.length);
    bool filled[JAZHUPPE_POSITIONS_MOST + 1];

    memset(value, 0, WORDS * sizeof *value);
    second_filled(&plain.rule, text, length, filled);
    value[STATE] = 1;
    for (size_t i = 1; i <= plain.rule.count; i++) {
        const second_position *p = &plain.rule.positions[i - 1];
        size_t word = i / 64, bit = i % 64;

        for (size_t c = 0; c < PLANE; c++)
            value[word * PLANE + c] |= (uint64_t)second_fits(&plain.rule, i - 1, (uint8_t)c) << bit;
        value[REPEATS + word] |= (uint64_t)p->repeatable << bit;
        value[OPTIONAL + word] |= (uint64_t)p->optional << bit;
        value[STATE + word] |= (uint64_t)filled[i] << bit;
    }
    value[POSITIONS] = plain.rule.count;
    value[FINISHED] = plain.finished;
    value[RAW] = plain.length;
    value[DECODED] = length;
    value[HELD] = held;
    for (size_t i = 0; i < held; i++)
        value[HELD_WORDS + i / 8] |= (uint64_t)plain.taken[plain.length - held + i] << (8 * (i % 8));
}

static void hold_value(void)
{
    uint64_t value[WORDS];

    expected_value(value);
    if (!untouched_past(&scan_room, sizeof value))
        different("words around the scan value");
    for (size_t i = 0; i < WORDS; i++) {
        if (scan[i] == value[i])
            continue;
        printf("word %zu: given %llX, expected %llX\n", i, (unsigned long long)scan[i], (unsigned long long)value[i]);
        different("the scan value");
    }
    lent_anew(&scan_room);
}

static void try_open(void)
{
    size_t words = one_in(20) ? WORDS - 1 + 2 * below(2) : WORDS;
    jazhuppe_prepared expected = second_open(now.rule, now.rule_len, now.fold, now.codes, now.codes_len, now.sets,
                                             now.sets_len, &plain);
    jazhuppe_prepared impossible = {JAZHUPPE_IMPOSSIBLE, 0, 0, 0};

    if (expected.number == 0 && words != WORDS)
        expected = impossible;
    scan = lend(&scan_room, words * sizeof *scan);
    note("open, %zu words\n", words);
    hold_prepared(OPEN,
                  jazhuppe_open(lend_rule(), now.rule_len, now.fold, lend_codes(), now.codes_len, lend_sets(),
                                now.sets_len, scan, words),
                  expected);
    hold_lent();
    scanning = expected.number == 0;
    reported_count = 0;
    if (scanning)
        hold_value();
    else if (!untouched(&scan_room))
        different("a refused opening's scan value");
}

/* A call that the plain scan knows nothing of: a scan value of another length, or a piece over the limit. */
static void try_odd_call(size_t length, size_t list)
{
    jazhuppe_answer expected = {JAZHUPPE_IMPOSSIBLE, 0, 0, 0};
    uint32_t *ends = lend(&list_room, list * sizeof *ends);
    const uint8_t *piece = lend(&text_room, length);

    if (one_in(2)) {
        note("feed of %zu and finish with a scan value one word short\n", length);
        hold_answer(FEED, jazhuppe_feed(scan, WORDS - 1, piece, length, ends, list), expected);
        hold_answer(FINISH, jazhuppe_finish(scan, WORDS - 1, ends, list), expected);
    } else {
        note("feed of %zu bytes\n", over);
        expected = second_feed(&plain, too_much, over, ends, list);
        hold_answer(FEED, jazhuppe_feed(scan, WORDS, too_much, over, ends, list), expected);
    }
    if (!untouched(&scan_room) || !untouched(&list_room))
        different("what was lent to a refused call");
}

/* Whether it was accepted. */
static bool try_scan_call(bool finish, const uint8_t *bytes, size_t length)
{
    static uint32_t expected_pairs[JAZHUPPE_PAIR * SECOND_PLAN_MOST];
    size_t list = list_length(finish ? JAZHUPPE_FINISH_LIST : JAZHUPPE_FEED_LIST(length));
    uint32_t *ends = lend(&list_room, list * sizeof *ends);
    const uint8_t *piece = lend_bytes(&text_room, bytes, length);
    jazhuppe_answer expected = finish ? second_finish(&plain, expected_pairs, list)
                                      : second_feed(&plain, bytes, length, expected_pairs, list);
    size_t numbers = (size_t)JAZHUPPE_PAIR * expected.count;

    note("%s of %zu with a list of %zu\n", finish ? "finish" : "feed", length, list);
    hold_answer(finish ? FINISH : FEED,
                finish ? jazhuppe_finish(scan, WORDS, ends, list)
                       : jazhuppe_feed(scan, WORDS, piece, length, ends, list),
                expected);
    hold_list(finish ? FINISH : FEED, expected_pairs, numbers);
    memcpy(reported + JAZHUPPE_PAIR * reported_count, ends, numbers * sizeof *ends);
    reported_count += expected.count;
    hold_lent();
    if (expected.number != 0 && !untouched(&scan_room))
        different("a refused call's scan value");
    if (expected.number == 0)
        hold_value();
    held_seen += expected.number == 0 && scan[HELD] > 0;
    ends_seen += expected.count;
    return expected.number == 0;
}

/* ---- raw counts */

/* The length of some raw bytes, decoded by the finder. */
static size_t finder_decoded(const uint8_t *raw, size_t length, uint8_t *out)
{
    jazhuppe_answer a = jazhuppe_decode(raw, length, out, length);

    if (a.number != 0)
        different("a decoding of a part");
    return a.count;
}

/* Whether the plan, cut there, decodes in its two parts to what it decodes to whole; and how long the first part's text is.
 * In a reference it does not: its bytes would stay, and they are more than it gives. */
static bool cut_between(size_t cut, size_t *first)
{
    static uint8_t parts[PLAN_MOST];
    size_t length = *first = finder_decoded(now.plan, cut, parts);

    length += finder_decoded(now.plan + cut, now.plan_len - cut, parts + length);
    return length == beside.text_len && memcmp(parts, beside.text, length) == 0;
}

/* Each raw count that was reported, told from decoding alone: the earliest such cut up to which the end is decoded. There the
 * reference has given four bytes at most. */
static void hold_raw_counts(void)
{
    size_t i = 0;

    for (size_t cut = 1; cut <= now.plan_len && i < reported_count; cut++) {
        size_t decoded;

        if (!cut_between(cut, &decoded))
            continue;
        for (; i < reported_count && reported[2 * i] <= decoded; i++) {
            if (reported[2 * i + 1] != cut || decoded - reported[2 * i] > 3) {
                print_list("a pair", reported + 2 * i, JAZHUPPE_PAIR);
                different("a raw count, by the plan cut in two");
            }
            apart_seen += reported[2 * i] != cut;
            shared_seen += i > 0 && reported[2 * i - 1] == cut;
        }
    }
    if (i < reported_count)
        different("an end past the plan");
}

/* One character of the text, by a reference of any length that it may have: its number, in either base. */
static void spell_by_number(unsigned number)
{
    char digits[16];
    bool hexadecimal = one_in(2);
    size_t front = hexadecimal ? 3 : 2, most = FORM_MOST - front - 1;
    size_t length = (size_t)snprintf(digits, sizeof digits, hexadecimal ? "%x" : "%u", number);
    size_t zeros = one_in(2) ? 0 : below((uint32_t)(most - length) + 1);

    memcpy(beside.spelt + beside.spelt_len, "&#x", front);
    memset(beside.spelt + beside.spelt_len + front, '0', zeros);
    memcpy(beside.spelt + beside.spelt_len + front + zeros, digits, length);
    beside.spelt_len += front + zeros + length;
    beside.spelt[beside.spelt_len++] = ';';
}

/* How many of the text's bytes there a reference can give: those of a mark, of a character of two bytes, or one printable
 * byte; else 0. The number that it would have comes out too. */
static size_t character_at(size_t at, unsigned *number)
{
    const uint8_t *t = beside.text + at;
    size_t left = beside.text_len - at;

    if (left >= 3 && memcmp(t, "\xEF\xBF\xBD", 3) == 0) {
        *number = one_in(2) ? 0 : 0xFFFD;
        return 3;
    }
    if (left >= 2 && t[0] >= 0xC2 && t[0] <= 0xDF && t[1] >= 0x80 && t[1] <= 0xBF) {
        *number = (unsigned)(t[0] & 0x1F) << 6 | (t[1] & 0x3F);
        return 2;
    }
    *number = t[0];
    return t[0] >= ' ' && t[0] < 127;
}

/* Spells the text anew, with more references or fewer; every & is one, so that no other comes about. What is spelt last has
 * given the bytes so far, which is their raw count. */
static void spell_anew(void)
{
    uint32_t often = 1 + below(8);
    size_t at = 0;

    beside.spelt_len = 0;
    while (at < beside.text_len) {
        unsigned number;
        size_t from = at, gives = character_at(at, &number);

        if (gives > 0 && (beside.text[at] == '&' || one_in(often))) {
            spell_by_number(number);
            at += gives;
        } else {
            beside.spelt[beside.spelt_len++] = beside.text[at++];
        }
        while (from < at)
            beside.spelt_raws[from++] = (uint32_t)beside.spelt_len;
    }
}

/* The pairs that the finder gives of a rule in a plan, which is cut somewhere: their count. */
static size_t finder_pairs(const uint8_t *rule, size_t length, const uint8_t *plan, size_t plan_len, uint32_t *pairs)
{
    static uint64_t value[WORDS];
    size_t cut = below((uint32_t)plan_len + 1), rest = plan_len - cut, count;

    if (jazhuppe_open(rule, length, now.fold, now.codes, now.codes_len, now.sets, now.sets_len, value, WORDS).number != 0)
        different("an opening with a rule that was accepted");
    note("a plan of %zu bytes, cut at %zu\n", plan_len, cut);
    count = jazhuppe_feed(value, WORDS, plan, cut, pairs, JAZHUPPE_FEED_LIST(cut)).count;
    count += jazhuppe_feed(value, WORDS, plan + cut, rest, pairs + JAZHUPPE_PAIR * count, JAZHUPPE_FEED_LIST(rest)).count;
    return count + jazhuppe_finish(value, WORDS, pairs + JAZHUPPE_PAIR * count, JAZHUPPE_FINISH_LIST).count;
}

static void hold_numbers(const char *what, const uint32_t *given, size_t count, const uint32_t *expected, size_t numbers)
{
    if (count == numbers && memcmp(given, expected, count * sizeof *given) == 0)
        return;
    print_list("given", given, count);
    print_list("expected", expected, numbers);
    different(what);
}

/* "Two spellings of one plan still agree in decoded ends": the raw counts are those of the new one. */
static void try_spelt(void)
{
    static uint32_t given[JAZHUPPE_FEED_LIST(SPELT_MOST) + JAZHUPPE_FINISH_LIST], expected[JAZHUPPE_PAIR * SECOND_PLAN_MOST];
    size_t count;

    spell_anew();
    for (size_t i = 0; i < reported_count; i++) {
        expected[2 * i] = reported[2 * i];
        expected[2 * i + 1] = beside.spelt_raws[reported[2 * i] - 1];
    }
    count = finder_pairs(now.rule, now.rule_len, beside.spelt, beside.spelt_len, given);
    hold_numbers("another spelling's ends", given, JAZHUPPE_PAIR * count, expected, JAZHUPPE_PAIR * reported_count);
    spelt_seen += count;
}

/* Feeds the plan in random pieces until all are taken, with refused calls in between; then finishes it. */
static void try_scan(void)
{
    size_t at = 0;
    uint32_t longest = one_in(16) && now.plan_len <= 64 ? 1 : 1 + below(30) + (uint32_t)now.plan_len / (one_in(4) ? 1 : 4);

    try_open();
    if (!scanning)
        return;
    while (at < now.plan_len) {
        size_t length = one_in(12) ? 0 : 1 + below(longest);

        length = length < now.plan_len - at ? length : now.plan_len - at;
        if (try_scan_call(false, now.plan + at, length))
            at += length;
        if (one_in(20))
            try_odd_call(length, JAZHUPPE_FEED_LIST(length));
    }
    while (!try_scan_call(true, NULL, 0))
        continue;
    hold_raw_counts();
    try_spelt();
    if (one_in(4)) {
        try_scan_call(one_in(2), NULL, 0);
        try_odd_call(3, JAZHUPPE_FEED_LIST(3));
    }
}

/* ---- stored rules */

/* Into a buffer of as many bytes as it needs, fewer or more. */
static void try_rewrite(uint32_t fold)
{
    uint8_t expected_out[JAZHUPPE_REWRITE_BUFFER];
    size_t room = list_length(JAZHUPPE_REWRITE_BUFFER);
    jazhuppe_text expected = second_rewrite(now.stored, now.stored_len, fold, expected_out, room);
    const uint8_t *stored = lend_bytes(&rule_room, now.stored, now.stored_len);
    uint8_t *out = lend(&list_room, room);

    note("rewrite of the stored rule with fold %lu into %zu\n", (unsigned long)fold, room);
    hold_text(REWRITE, jazhuppe_rewrite(stored, now.stored_len, fold, out, room), expected);
    hold_lent();
    hold_buffer(REWRITE, expected_out, expected.length);
}

/* A rewriting is accepted, and is its own rewriting. */
static void try_again(const uint8_t *rewritten, size_t length)
{
    const uint8_t *rule = lend_bytes(&rule_room, rewritten, length);
    uint8_t *out = lend(&list_room, JAZHUPPE_REWRITE_BUFFER);
    jazhuppe_text same = {0, 0, (uint32_t)length};

    note("prepare and rewrite of the rewriting\n");
    if (jazhuppe_prepare(rule, length, now.fold).number != 0)
        different("a rewriting that is refused");
    hold_text(REWRITE, jazhuppe_rewrite(rule, length, now.fold, out, JAZHUPPE_REWRITE_BUFFER), same);
    if (memcmp(out, rewritten, length) != 0)
        different("a rewriting rewritten");
}

static size_t finder_starts(const uint8_t *rule, size_t length, uint32_t *starts)
{
    jazhuppe_answer a = jazhuppe_search(rule, length, now.fold, now.codes, now.codes_len, now.sets, now.sets_len,
                                        beside.text, beside.text_len, starts, beside.text_len);

    if (a.number != 0)
        different("a search with a rewriting");
    return a.count;
}

/* What the finder finds with the rewriting, where all its steps were at one side: the stored rule's own ends or starts. */
static void try_kept(const second_rule *stored, const second_rewriting *w)
{
    static uint32_t given[JAZHUPPE_FEED_LIST(PLAN_MOST) + JAZHUPPE_FINISH_LIST], expected[PLAN_MOST], pairs[2 * PLAN_MOST];
    size_t count, kept;

    if (w->back == 0) {
        kept = second_pairs(expected, second_ends(stored, beside.text, beside.text_len, expected), beside.raws, pairs);
        count = finder_pairs(w->text, w->length, now.plan, now.plan_len, given);
        hold_numbers("the ends of a rewriting", given, JAZHUPPE_PAIR * count, pairs, JAZHUPPE_PAIR * kept);
        kept_ends_seen += kept;
    } else if (w->front == 0) {
        kept = second_starts(stored, beside.text, beside.text_len, expected);
        hold_numbers("the starts of a rewriting", given, finder_starts(w->text, w->length, given), expected, kept);
        kept_starts_seen += kept;
    }
}

static void try_stored(void)
{
    second_rule stored = second_read_stored(now.stored, now.stored_len, now.fold);
    second_rewriting w;

    note("prepare of the stored rule\n");
    hold_prepared(PREPARE, jazhuppe_prepare(lend_bytes(&rule_room, now.stored, now.stored_len), now.stored_len, now.fold),
                  second_prepare(now.stored, now.stored_len, now.fold));
    try_rewrite(now.fold);
    try_rewrite(!now.fold);
    if (stored.number != 0)
        return;
    w = second_rewritten(now.stored, now.stored_len);
    if (w.length > JAZHUPPE_RULE_MOST)
        return;
    try_again(w.text, w.length);
    second_read_codes(&stored, now.codes, now.codes_len, now.sets, now.sets_len);
    if (w.front + w.back == 0 || stored.number != 0)
        return;
    rewritten_seen++;
    try_kept(&stored, &w);
}

/* ---- calls on a whole text */

static void try_decode(void)
{
    static uint8_t expected_out[PLAN_MOST];
    bool big = one_in(50);
    size_t length = big ? over : now.plan_len, room = list_length(now.plan_len);
    const uint8_t *raw = big ? too_much : lend_bytes(&text_room, now.plan, now.plan_len);
    jazhuppe_answer expected = second_decode(big ? too_much : now.plan, length, expected_out, room);
    uint8_t *out = lend(&list_room, room);

    note("decode of %zu into %zu\n", length, room);
    hold_answer(DECODE, jazhuppe_decode(raw, length, out, room), expected);
    hold_lent();
    hold_buffer(DECODE, expected_out, expected.count);
}

static void try_search(void)
{
    static uint32_t expected_starts[PLAN_MOST];
    bool big = one_in(50);
    size_t length = big ? over : beside.text_len, list = list_length(beside.text_len);
    const uint8_t *text = big ? too_much : lend_bytes(&text_room, beside.text, beside.text_len);
    jazhuppe_answer expected = second_search(now.rule, now.rule_len, now.fold, now.codes, now.codes_len, now.sets,
                                             now.sets_len, big ? too_much : beside.text, length, expected_starts, list);
    uint32_t *starts = lend(&list_room, list * sizeof *starts);

    note("search of %zu with a list of %zu\n", length, list);
    hold_answer(SEARCH,
                jazhuppe_search(lend_rule(), now.rule_len, now.fold, lend_codes(), now.codes_len, lend_sets(),
                                now.sets_len, text, length, starts, list),
                expected);
    hold_list(SEARCH, expected_starts, expected.count);
    hold_lent();
    starts_seen += expected.count;
    windows_seen += expected.windows;
}

static void try_show(void)
{
    const uint8_t *text = lend_bytes(&text_room, beside.text, beside.text_len), *rule = lend_rule();

    for (size_t start = 0; start <= beside.text_len + 1; start++) {
        jazhuppe_span given = jazhuppe_show(rule, now.rule_len, now.fold, text, beside.text_len, start);
        jazhuppe_span expected = second_show(now.rule, now.rule_len, now.fold, beside.text, beside.text_len, start);

        counts[SHOW][0]++;
        shown_seen += expected.from < expected.to;
        if (given.from == expected.from && given.to == expected.to)
            continue;
        printf("given %zu to %zu, expected %zu to %zu\n", given.from, given.to, expected.from, expected.to);
        note("show at %zu\n", start);
        different("show");
    }
    hold_lent();
}

/* ---- whole names and LIKE */

/* The name that was made, or memory over the limit: whether it is covered. */
static bool try_covers(const uint8_t *rule, size_t rule_len, uint32_t fold, bool big)
{
    size_t length = big ? over : beside.name_len;
    const uint8_t *name = big ? too_much : lend_bytes(&text_room, beside.name, beside.name_len);
    jazhuppe_covered expected = second_covers(rule, rule_len, fold, big ? too_much : beside.name, length);

    note("covers with fold %lu, of %zu\n", (unsigned long)fold, length);
    hold_covered(jazhuppe_covers(lend_bytes(&rule_room, rule, rule_len), rule_len, fold, name, length), expected);
    hold_lent();
    return expected.covered != 0;
}

/* Names for the rule of now, which is read without its codes. */
static void try_names(void)
{
    second_rule alone = second_read(now.rule, now.rule_len, now.fold);

    for (int names = 0; names < 3; names++) {
        make_name(&alone);
        covered_seen += try_covers(now.rule, now.rule_len, one_in(8) ? !now.fold : now.fold, one_in(100));
    }
}

/* Into a buffer of so many bytes: the text's length. */
static size_t try_import(size_t room, bool big, uint8_t *text)
{
    size_t length = big ? over : beside.pattern_len;
    const uint8_t *pattern = big ? too_much : lend_bytes(&rule_room, beside.pattern, beside.pattern_len);
    jazhuppe_text expected = second_import_like(big ? too_much : beside.pattern, length, text, room);
    uint8_t *out = lend(&list_room, room);

    note("import of %zu into %zu\n", length, room);
    hold_text(IMPORT, jazhuppe_import_like(pattern, length, out, room), expected);
    hold_lent();
    hold_buffer(IMPORT, text, expected.length);
    return expected.length;
}

/* The imported rule covers the name that was made exactly where LIKE accepts it. */
static void try_like(const uint8_t *text, size_t length)
{
    bool accepted = second_like(beside.pattern, beside.pattern_len, beside.name, beside.name_len);

    if (try_covers(text, length, 0, false) != accepted)
        different(accepted ? "a name that LIKE accepts" : "a name that LIKE does not accept");
    accepted_seen += accepted;
    declined_seen += !accepted;
}

static void try_pattern(void)
{
    uint8_t text[JAZHUPPE_IMPORT_BUFFER];
    size_t length;

    try_import(list_length(JAZHUPPE_IMPORT_BUFFER), one_in(50), text);
    length = try_import(JAZHUPPE_IMPORT_BUFFER, false, text);
    if (length == 0)
        return;
    note("prepare of the imported rule\n");
    hold_prepared(PREPARE, jazhuppe_prepare(lend_bytes(&rule_room, text, length), length, now.fold),
                  second_prepare(text, length, now.fold));
    for (int names = 0; names < 3; names++) {
        make_name_of_pattern();
        try_like(text, length);
    }
}

static void count_smudges(void)
{
    smudged_seen += now.read.codes_count > 0;
    for (size_t i = 0; i < beside.text_len; i++)
        smudges_seen += now.read.codes_count > 0 && memchr(now.codes, beside.text[i], now.codes_len) != NULL;
}

static void begin_case(void)
{
    asked_len = beside.spelt_len = 0;
    asked[0] = '\0';
    lent_in_front = one_in(2);
    /* So that each room has a slice to look at, also where the first call is lent none of it. */
    lend_rule();
    lend_codes();
    lend_sets();
    lend(&text_room, 0);
}

/* Every call on the rule, the codes and the plan of now. */
static void try_case(void)
{
    begin_case();
    beside.text_len = second_decoded(now.plan, now.plan_len, beside.text, beside.raws);
    decoded_seen += beside.text_len < now.plan_len;
    count_smudges();
    note("prepare\n");
    hold_prepared(PREPARE, jazhuppe_prepare(lend_rule(), now.rule_len, now.fold),
                  second_prepare(now.rule, now.rule_len, now.fold));
    try_stored();
    try_decode();
    try_scan();
    try_search();
    if (one_in(4))
        try_show();
    try_names();
}

static void draw_case(void)
{
    draw_rule_and_plan();
    try_case();
    make_pattern();
    try_pattern();
}

/* ---- cases that are written down */

/* So often is a plan cut anew that each place of it is a cut at least once. */
enum { CUTS = 60, LINE_ROOM = 4096 };

/* The code, =, and its set, which the second implementation reads as a rule; of no length, it is empty. */
static void take_written_code(const char *written)
{
    size_t k = now.codes_len;
    second_rule set;

    if (written[0] == '\0' || written[1] != '=' || k == SETS_MOST)
        different("a written code");
    set = second_read((const uint8_t *)written + 2, strlen(written + 2), 0);
    if (set.number > JAZHUPPE_RULE_EMPTY || set.count > 1)
        different("a written set");
    now.codes[now.codes_len++] = (uint8_t)written[0];
    now.sets_len = now.codes_len * JAZHUPPE_SET_BYTES;
    for (int c = 0; c < 256; c++)
        if (set.positions[0].admits[c])
            put_in_set(k, (uint8_t)c);
}

/* Where a tab ends what is written, or the line does: what comes after the tab, or NULL. */
static char *cut_at_tab(char *written)
{
    char *tab = strchr(written, '\t');

    if (tab != NULL)
        *tab++ = '\0';
    return tab;
}

static void take_written_codes(char *written)
{
    now.codes_len = now.sets_len = 0;
    memset(now.sets, 0, sizeof now.sets);
    while (written != NULL) {
        char *rest = cut_at_tab(written);

        take_written_code(written);
        written = rest;
    }
}

static void try_often(const char *rule, uint32_t fold, const char *plan, char *codes)
{
    now.rule_len = 0;
    now.fold = fold;
    put_text(rule);
    store_rule();
    now.read = second_read(now.rule, now.rule_len, now.fold);
    take_written_codes(codes);
    second_read_codes(&now.read, now.codes, now.codes_len, now.sets, now.sets_len);
    now.plan_len = 0;
    now.plan_most = PLAN_MOST;
    plan_text(plan);
    for (int cut = 0; cut < CUTS; cut++)
        try_case();
}

/* Whether the second implementation, which the finder is held to, gives the bytes that are written in hexadecimal. */
static bool decodes_to(const char *raw, const char *hexadecimal)
{
    static uint8_t out[LINE_ROOM];
    size_t n = second_decoded((const uint8_t *)raw, strlen(raw), out, NULL);

    if (strlen(hexadecimal) != 2 * n)
        return false;
    for (size_t i = 0; i < n; i++) {
        const char digits[3] = {hexadecimal[2 * i], hexadecimal[2 * i + 1], '\0'};

        if (strtoul(digits, NULL, 16) != out[i])
            return false;
    }
    return true;
}

static void take_name(const char *name)
{
    beside.name_len = 0;
    while (*name != '\0')
        name_byte((uint8_t)*name++);
}

static void take_pattern(const char *pattern)
{
    beside.pattern_len = 0;
    while (*pattern != '\0')
        pattern_byte((uint8_t)*pattern++);
}

static void try_written_name(const char *rule, const char *name, bool covered)
{
    begin_case();
    take_name(name);
    if (second_read((const uint8_t *)rule, strlen(rule), 0).number != 0)
        different("a written name's rule");
    if (try_covers((const uint8_t *)rule, strlen(rule), 0, false) != covered)
        different("a written name");
}

/* The second implementation, which the finder is held to, gives the rule that is written, and LIKE what the names say. */
static void try_written_pattern(const char *pattern, const char *rule, char *names)
{
    uint8_t text[JAZHUPPE_IMPORT_BUFFER];
    size_t length;

    begin_case();
    take_pattern(pattern);
    length = try_import(JAZHUPPE_IMPORT_BUFFER, false, text);
    if (length == 0 || length != strlen(rule) || memcmp(text, rule, length) != 0)
        different("a written pattern");
    while (names != NULL) {
        char *rest = cut_at_tab(names);

        take_name(names + 1);
        if ((names[0] != '+' && names[0] != '-') ||
            second_like(beside.pattern, beside.pattern_len, beside.name, beside.name_len) != (names[0] == '+'))
            different("a written name");
        try_like(text, length);
        names = rest;
    }
}

static void try_written_refusal(const char *pattern, const char *number, const char *place)
{
    uint8_t text[JAZHUPPE_IMPORT_BUFFER];
    jazhuppe_text t;

    begin_case();
    take_pattern(pattern);
    t = second_import_like(beside.pattern, beside.pattern_len, text, sizeof text);
    if (place == NULL || t.number != strtoul(number, NULL, 10) || t.place != strtoul(place, NULL, 10))
        different("a written refusal");
    try_import(JAZHUPPE_IMPORT_BUFFER, false, text);
}

static void try_line(char *line)
{
    char *second = cut_at_tab(line), *more = second == NULL ? NULL : cut_at_tab(second);

    if (second == NULL)
        different("a line without a tab");
    if (line[0] == '=' && !decodes_to(line + 1, second))
        different("a published reference");
    if (line[0] == '=')
        try_often(".", 0, line + 1, NULL);
    else if (line[0] == '?' || line[0] == '!')
        try_often(line + 1, line[0] == '!', second, more);
    else if (line[0] == '+' || line[0] == '-')
        try_written_name(line + 1, second, line[0] == '+');
    else if (line[0] == '%')
        try_written_pattern(line + 1, second, more);
    else if (line[0] == '~')
        try_written_refusal(line + 1, second, more);
    else
        different("a line that begins otherwise");
}

static void try_lines(const char *name)
{
    static char line[LINE_ROOM];
    FILE *file = fopen(name, "r");

    if (file == NULL) {
        perror(name);
        exit(EXIT_FAILURE);
    }
    for (cases = 0; fgets(line, sizeof line, file) != NULL; cases++) {
        case_number = cases;
        line[strcspn(line, "\n")] = '\0';
        try_line(line);
    }
    fclose(file);
}

static void print_counts(void)
{
    for (int call = 0; call < CALLS; call++) {
        printf("ok %s: %lu finished", call_names[call], counts[call][0]);
        for (int number = 1; number <= REFUSALS; number++)
            if (counts[call][number] > 0)
                printf(", %lu refused by %d", counts[call][number], number);
        putchar('\n');
    }
    printf("plans with references %lu, calls that held bytes back %lu\n", decoded_seen, held_seen);
    printf("cases with codes %lu, code bytes in their texts %lu\n", smudged_seen, smudges_seen);
    printf("rules with outer gaps, rewritten %lu, ends kept %lu, starts kept %lu\n", rewritten_seen, kept_ends_seen,
           kept_starts_seen);
    printf("names covered %lu, by LIKE accepted %lu, not accepted %lu\n", covered_seen, accepted_seen, declined_seen);
    printf("ends %lu, starts %lu, shown %lu, windows %lu\n", ends_seen, starts_seen, shown_seen, windows_seen);
    printf("raw counts other than the end %lu, shared with the end before %lu, in plans spelt anew %lu\n", apart_seen,
           shared_seen, spelt_seen);
}

/* Whether something came up so often in a thousand cases. */
static bool enough(const char *what, unsigned long count, unsigned long often)
{
    bool is = count * 1000 >= often * cases;

    if (!is)
        printf("FAILED too few: %s, %lu in %u cases\n", what, count, cases);
    return is;
}

/* Names, patterns and references of every kind were drawn, so that their answers say something. */
static bool enough_drawn(void)
{
    static const int rule_numbers[] = {1, 2, 3, 4, 5, 6, 7, 8, 10, 16}, import_numbers[] = {1, 2, 7, 8, 9, 10, 14};
    bool all = enough("names covered", covered_seen, 500);
    char what[64];

    all = enough("raw counts other than the end", apart_seen, 1000) && all;
    all = enough("raw counts shared with the end before", shared_seen, 20) && all;
    all = enough("names that LIKE accepts", accepted_seen, 500) && all;
    all = enough("names that LIKE does not accept", declined_seen, 500) && all;
    for (size_t i = 0; i < sizeof rule_numbers / sizeof rule_numbers[0]; i++) {
        snprintf(what, sizeof what, "names refused by %d", rule_numbers[i]);
        all = enough(what, counts[COVERS][rule_numbers[i]], 1) && all;
    }
    for (size_t i = 0; i < sizeof import_numbers / sizeof import_numbers[0]; i++) {
        snprintf(what, sizeof what, "patterns refused by %d", import_numbers[i]);
        all = enough(what, counts[IMPORT][import_numbers[i]], 5) && all;
    }
    return all;
}

int main(int argc, char **argv)
{
    const char *file = argc > 2 && strcmp(argv[1], "-") == 0 ? argv[2] : NULL;

    if (file == NULL && argc > 1)
        seed = strtoull(argv[1], NULL, 10);
    if (file == NULL && argc > 2)
        cases = (unsigned)strtoul(argv[2], NULL, 10);
    source = random_from(seed);
    rule_room = lent_room(PATTERN_MOST);
    codes_room = lent_room(CODES_ROOM);
    sets_room = lent_room(SETS_ROOM);
    text_room = lent_room(PLAN_MOST);
    scan_room = lent_room((WORDS + 1) * sizeof(uint64_t));
    list_room = lent_room((JAZHUPPE_FEED_LIST(PLAN_MOST) + JAZHUPPE_FINISH_LIST) * sizeof(uint32_t));
    too_much = untouchable_memory(over);
    if (file != NULL)
        try_lines(file);
    else
        for (case_number = 0; case_number < cases; case_number++)
            draw_case();
    printf("differential: seed %llu, %u %s\n", seed, cases, file != NULL ? "lines" : "cases");
    print_counts();
    if (file == NULL && cases >= 1000 && !enough_drawn())
        return EXIT_FAILURE;
    printf("differential: %d ok, 0 failed\n", CALLS);
    return EXIT_SUCCESS;
}
