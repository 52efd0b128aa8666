/* limits.c: the limit of 4,294,967,295 bytes, in memory that is mapped and, as far as it can be, never touched. */
#define _DEFAULT_SOURCE
#include <stdio.h>
#include <string.h>
#include <sys/mman.h>

#include "jazhuppe.h"
#include "scan_layout.h"
#include "testing.h"

enum { WORDS = JAZHUPPE_SCAN_WORDS };

/* One byte over the limit, and as much as may be. */
static const size_t over = (size_t)JAZHUPPE_TEXT_MOST + 1, most = JAZHUPPE_TEXT_MOST;


static bool answers(jazhuppe_answer a, uint32_t number, uint32_t place)
{
    return a.number == number && a.place == place && a.count == 0 && a.windows == 0;
}

static uint64_t *open_scan(const char *rule)
{
    uint64_t *scan = lend(&scan_room, WORDS * sizeof *scan);

    CHECK(jazhuppe_open((const uint8_t *)rule, strlen(rule), 0, NO_CODES, scan, WORDS).number == 0);
    lent_anew(&scan_room);
    return scan;
}

/* The rule, then 10, then 9; no byte of the text is touched. */
static void test_whole_text(void)
{
    const uint8_t *text = untouchable_memory(over), *rule = (const uint8_t *)"a?";
    void *list = lend(&list_room, 9 * sizeof(uint32_t));
    jazhuppe_span shown = jazhuppe_show(rule, 1, 0, text, over, 0);

    CHECK(answers(jazhuppe_search(rule, 2, 0, NO_CODES, text, over, list, 9), JAZHUPPE_ADMITS_EMPTY, 2));
    CHECK(answers(jazhuppe_search((const uint8_t *)"a{1,2}", 6, 0, NO_CODES, text, over, list, 9), JAZHUPPE_OUTER_GAP, 1));
    CHECK(answers(jazhuppe_search(rule, 1, 0, NO_CODES, text, over, list, 9), JAZHUPPE_TOO_MUCH, 0));
    CHECK(answers(jazhuppe_search(rule, 1, 0, NO_CODES, text, most, list, 9), JAZHUPPE_TOO_SHORT, 0));
    CHECK(answers(jazhuppe_decode(text, over, list, 9), JAZHUPPE_TOO_MUCH, 0));
    CHECK(answers(jazhuppe_decode(text, most, list, 9), JAZHUPPE_TOO_SHORT, 0));
    CHECK(shown.from == over && shown.to == over);
    CHECK(untouched(&list_room));
    munmap((void *)text, over);
}

/* A list that is long enough does not help; nor is it touched. */
static void test_long_lists(void)
{
    size_t bytes = over * sizeof(uint32_t);
    void *text = untouchable_memory(over), *list = untouchable_memory(bytes);

    CHECK(answers(jazhuppe_search((const uint8_t *)"a", 1, 0, NO_CODES, text, over, list, over), JAZHUPPE_TOO_MUCH, 0));
    CHECK(answers(jazhuppe_decode(text, over, list, over), JAZHUPPE_TOO_MUCH, 0));
    munmap(text, over);
    munmap(list, bytes);
}

/* The rule, then 15, then 10; no byte of the text, and none of codes or sets that are too many, is touched. */
static void test_codes(void)
{
    const uint8_t *text = untouchable_memory(over), *many = untouchable_memory(over + JAZHUPPE_SET_BYTES);
    const uint8_t *rule = (const uint8_t *)"a?", *code = (const uint8_t *)"!";
    void *list = lend(&list_room, 9 * sizeof(uint32_t));
    uint64_t *scan = lend(&scan_room, WORDS * sizeof *scan);
    size_t set = JAZHUPPE_SET_BYTES;

    CHECK(answers(jazhuppe_search(rule, 2, 0, many, 9, many, 9 * set, text, over, list, 9), JAZHUPPE_ADMITS_EMPTY, 2));
    CHECK(jazhuppe_open((const uint8_t *)"{1,2}", 5, 0, many, over, NULL, 0, scan, WORDS).number == JAZHUPPE_OUTER_GAP);
    CHECK(answers(jazhuppe_search(rule, 1, 0, many, 9, many, 9 * set, text, over, list, 9), JAZHUPPE_CODES, 0));
    CHECK(answers(jazhuppe_search(rule, 1, 0, many, 9, NULL, 0, text, over, list, 9), JAZHUPPE_CODES, 0));
    CHECK(answers(jazhuppe_search(rule, 1, 0, code, 1, many, set - 1, text, over, list, 9), JAZHUPPE_CODES, 0));
    /* Cut to 32 bits, these lengths are 0, 1 and 32. */
    CHECK(answers(jazhuppe_search(rule, 1, 0, many, over, NULL, 0, text, most, list, 9), JAZHUPPE_CODES, 0));
    CHECK(answers(jazhuppe_search(rule, 1, 0, many, over + 1, many, set, text, most, list, 9), JAZHUPPE_CODES, 0));
    CHECK(answers(jazhuppe_search(rule, 1, 0, code, 1, many, over + set, text, most, list, 9), JAZHUPPE_CODES, 0));
    CHECK(jazhuppe_open(rule, 1, 0, many, over, NULL, 0, scan, WORDS).number == JAZHUPPE_CODES);
    CHECK(jazhuppe_open(rule, 1, 0, NULL, 0, many, over, scan, WORDS).number == JAZHUPPE_CODES);
    CHECK(jazhuppe_open(rule, 1, 0, code, 1, many, over + set, scan, WORDS).number == JAZHUPPE_CODES);
    CHECK(untouched(&list_room) && untouched(&scan_room));
    munmap((void *)text, over);
    munmap((void *)many, over + JAZHUPPE_SET_BYTES);
}

/* 9, then the rule: no byte of one that is too long is touched, nor any of the buffer but those of the text. */
static void test_rewriting(void)
{
    const uint8_t *rule = untouchable_memory(over + 1);
    uint8_t *out = lazy_memory(over + JAZHUPPE_REWRITE_BUFFER);
    jazhuppe_text t = jazhuppe_rewrite(rule, over + 1, 0, out, JAZHUPPE_REWRITE_BUFFER - 1);

    CHECK(t.number == JAZHUPPE_TOO_SHORT && t.place == 0 && t.length == 0);
    /* Cut to 32 bits, these lengths are 1 and 1,022. */
    t = jazhuppe_rewrite(rule, over + 1, 0, out, JAZHUPPE_REWRITE_BUFFER);
    CHECK(t.number == JAZHUPPE_RULE_LONG && t.place == JAZHUPPE_RULE_MOST && t.length == 0);
    t = jazhuppe_rewrite((const uint8_t *)"{1,2}a", 6, 0, out, over + JAZHUPPE_REWRITE_BUFFER - 1);
    CHECK(t.number == 0 && t.place == 0 && t.length == 2 && memcmp(out, ".a", 3) == 0);
    munmap((void *)rule, over + 1);
    munmap(out, over + JAZHUPPE_REWRITE_BUFFER);
}

static bool comes_to(jazhuppe_covered c, uint32_t number, uint32_t place)
{
    return c.number == number && c.place == place && c.covered == 0;
}

/* The rule, then 10; no byte of the name is touched. */
static void test_name(void)
{
    const uint8_t *name = untouchable_memory(over + 1), *rule = (const uint8_t *)"a?";

    CHECK(comes_to(jazhuppe_covers(rule, 2, 0, name, over), JAZHUPPE_ADMITS_EMPTY, 2));
    CHECK(comes_to(jazhuppe_covers((const uint8_t *)"a{1,2}", 6, 0, name, over), JAZHUPPE_OUTER_GAP, 1));
    CHECK(comes_to(jazhuppe_covers(rule, 1, 0, name, over), JAZHUPPE_TOO_MUCH, 0));
    /* Cut to 32 bits, these lengths are 1. */
    CHECK(comes_to(jazhuppe_covers(rule, 1, 0, name, over + 1), JAZHUPPE_TOO_MUCH, 0));
    CHECK(comes_to(jazhuppe_covers(name, over + 1, 0, name, over + 1), JAZHUPPE_RULE_LONG, JAZHUPPE_RULE_MOST));
    munmap((void *)name, over + 1);
}

/* 9, then 10: no byte of a pattern that is too long is touched, nor any of the buffer but those of the text. */
static void test_pattern(void)
{
    const uint8_t *pattern = untouchable_memory(over + 1);
    uint8_t *out = lazy_memory(over + JAZHUPPE_IMPORT_BUFFER);
    jazhuppe_text t = jazhuppe_import_like(pattern, over, out, JAZHUPPE_IMPORT_BUFFER - 1);

    CHECK(t.number == JAZHUPPE_TOO_SHORT && t.place == 0 && t.length == 0);
    t = jazhuppe_import_like(pattern, over, out, JAZHUPPE_IMPORT_BUFFER);
    CHECK(t.number == JAZHUPPE_TOO_MUCH && t.place == 0 && t.length == 0);
    /* Cut to 32 bits, these lengths are 1 and 1,022. */
    t = jazhuppe_import_like(pattern, over + 1, out, JAZHUPPE_IMPORT_BUFFER);
    CHECK(t.number == JAZHUPPE_TOO_MUCH && t.place == 0 && t.length == 0);
    t = jazhuppe_import_like((const uint8_t *)"%a", 2, out, over + JAZHUPPE_IMPORT_BUFFER - 1);
    CHECK(t.number == 0 && t.place == 0 && t.length == 3 && memcmp(out, ".*a", 4) == 0);
    munmap((void *)pattern, over + 1);
    munmap(out, over + JAZHUPPE_IMPORT_BUFFER);
}

/* One piece over the limit; and the needed length, JAZHUPPE_FEED_LIST, is not cut to 32 bits, which would make it 60. */
static void test_piece(void)
{
    uint64_t *scan = open_scan("a");
    const uint8_t *piece = untouchable_memory(over);
    uint32_t *ends = lend(&list_room, JAZHUPPE_FINISH_LIST * sizeof *ends);

    CHECK(answers(jazhuppe_feed(scan, WORDS, piece, over, ends, JAZHUPPE_FINISH_LIST), JAZHUPPE_TOO_MUCH, 0));
    for (size_t list = 59; list <= JAZHUPPE_FINISH_LIST; list++)
        CHECK(answers(jazhuppe_feed(scan, WORDS, piece, most, ends, list), JAZHUPPE_TOO_SHORT, 0));
    CHECK(untouched(&scan_room) && untouched(&list_room));
    munmap((void *)piece, over);
}

/* One number short of what the longest piece needs, and as many as it has bytes, or as its pairs would be: no number of it is
 * touched. */
static void test_long_list_too_short(void)
{
    size_t needed = JAZHUPPE_FEED_LIST(most), lists[] = {most, most + JAZHUPPE_HELD_MOST, 2 * most, needed - 1};
    uint64_t *scan = open_scan("a");
    const uint8_t *piece = untouchable_memory(over);
    uint32_t *ends = untouchable_memory(needed * sizeof *ends);

    for (size_t i = 0; i < sizeof lists / sizeof lists[0]; i++)
        CHECK(answers(jazhuppe_feed(scan, WORDS, piece, most, ends, lists[i]), JAZHUPPE_TOO_SHORT, 0));
    CHECK(answers(jazhuppe_feed(scan, WORDS, piece, over, ends, needed), JAZHUPPE_TOO_MUCH, 0));
    CHECK(untouched(&scan_room));
    munmap((void *)piece, over);
    munmap(ends, needed * sizeof *ends);
}

/* Pairs one after the other, up to the last one. */
static bool rising_to(jazhuppe_answer a, const uint32_t *ends, uint32_t count, size_t end, size_t raw)
{
    if (a.number != 0 || a.count != count)
        return false;
    for (uint32_t i = 0; i < count; i++)
        if (ends[2 * i] != end - count + 1 + i || ends[2 * i + 1] != raw - count + 1 + i)
            return false;
    return true;
}

/* A scan that has taken nearly all it may, and decoded most of it or little. */
static void take_last_bytes(size_t decoded)
{
    uint64_t *scan = open_scan("a");
    const uint8_t *piece = (const uint8_t *)"aaaaaa";
    uint32_t *ends = lend(&list_room, JAZHUPPE_FEED_LIST(6) * sizeof *ends);

    scan[RAW] = most - 5;
    scan[DECODED] = decoded - 5;
    lent_anew(&scan_room);
    CHECK(answers(jazhuppe_feed(scan, WORDS, piece, 6, ends, JAZHUPPE_FEED_LIST(6)), JAZHUPPE_TOO_MUCH, 0));
    CHECK(untouched(&scan_room) && untouched(&list_room));
    CHECK(rising_to(jazhuppe_feed(scan, WORDS, piece, 5, ends, JAZHUPPE_FEED_LIST(5)), ends, 5, decoded, most));
    CHECK(scan[RAW] == most && scan[DECODED] == decoded);
    lent_anew(&scan_room);
    CHECK(answers(jazhuppe_feed(scan, WORDS, piece, 1, ends, JAZHUPPE_FEED_LIST(1)), JAZHUPPE_TOO_MUCH, 0));
    CHECK(untouched(&scan_room));
    CHECK(answers(jazhuppe_feed(scan, WORDS, piece, 0, ends, JAZHUPPE_FEED_LIST(0)), 0, 0));
    CHECK(answers(jazhuppe_finish(scan, WORDS, ends, JAZHUPPE_FINISH_LIST), 0, 0));
}

static void test_last_bytes(void)
{
    take_last_bytes(most);
    take_last_bytes(most / 2 + 3);
    take_last_bytes(5);
}

/* A reference whose ; is the last byte that may be: all that it gives has that count. */
static void test_last_reference(void)
{
    uint64_t *scan = open_scan(".");
    uint32_t *ends = lend(&list_room, JAZHUPPE_FEED_LIST(9) * sizeof *ends);
    jazhuppe_answer a;

    scan[RAW] = scan[DECODED] = most - 9;
    a = jazhuppe_feed(scan, WORDS, (const uint8_t *)"&#x1F600;", 9, ends, JAZHUPPE_FEED_LIST(9));
    CHECK(a.number == 0 && a.count == 4 && scan[RAW] == most && scan[DECODED] == most - 5);
    for (uint32_t i = 0; i < 4; i++)
        CHECK(ends[2 * i] == most - 8 + i && ends[2 * i + 1] == most);
}

/* Held bytes count as taken, and the finish may let them through up to the limit. */
static void test_last_held(void)
{
    uint64_t *scan = open_scan(".");
    uint32_t *ends = lend(&list_room, JAZHUPPE_FEED_LIST(3) * sizeof *ends);

    scan[RAW] = scan[DECODED] = most - 3;
    CHECK(answers(jazhuppe_feed(scan, WORDS, (const uint8_t *)"&am", 3, ends, JAZHUPPE_FEED_LIST(3)), 0, 0));
    CHECK(answers(jazhuppe_feed(scan, WORDS, (const uint8_t *)"p", 1, ends, JAZHUPPE_FEED_LIST(1)), JAZHUPPE_TOO_MUCH, 0));
    CHECK(rising_to(jazhuppe_finish(scan, WORDS, ends, JAZHUPPE_FINISH_LIST), ends, 3, most, most));
}

/* As much as may be, searched and scanned: a seat at the very end is found. The reference at the front is four bytes less when
 * it is decoded. */
static void test_longest(void)
{
    size_t list = JAZHUPPE_FEED_LIST(most);
    uint8_t *text = lazy_memory(most);
    uint32_t *places = lazy_memory(list * sizeof *places);
    uint64_t *scan = open_scan("A[0-9]+");
    jazhuppe_answer a;

    memcpy(text, "&amp;", 5);
    memcpy(text + most - 3, "A12", 3);
    a = jazhuppe_search((const uint8_t *)"A[0-9]+", 7, 0, NO_CODES, text, most, places, most);
    CHECK(a.number == 0 && a.count == 1 && places[0] == most - 3);
    CHECK(rising_to(jazhuppe_feed(scan, WORDS, text, most, places, list), places, 2, most - 4, most));
    munmap(text, most);
    munmap(places, list * sizeof *places);
}

/* A name of as many bytes as may be, of which the last decides. */
static void test_longest_name(void)
{
    uint8_t *name = lazy_memory(most);
    jazhuppe_covered c;

    name[most - 1] = 'A';
    c = jazhuppe_covers((const uint8_t *)".+A", 3, 0, name, most);
    CHECK(c.number == 0 && c.place == 0 && c.covered == 1);
    munmap(name, most);
}

/* A pattern of as many bytes as may be, with a bad \ at its very end: that is 14, and not 2. */
static void test_longest_pattern(void)
{
    uint8_t *pattern = lazy_memory(most), out[JAZHUPPE_IMPORT_BUFFER];
    jazhuppe_text t;

    pattern[most - 1] = '\\';
    t = jazhuppe_import_like(pattern, most, out, sizeof out);
    CHECK(t.number == JAZHUPPE_LIKE && t.place == most - 1 && t.length == 0);
    munmap(pattern, most);
}

int main(void)
{
    scan_room = lent_room(WORDS * sizeof(uint64_t));
    list_room = lent_room(1024);
    run("10: a text over the limit, after the rule and before 9, untouched", test_whole_text);
    run("10: with lists that are long enough", test_long_lists);
    run("15: before 10, and lengths that are not cut to 32 bits", test_codes);
    run("a rewriting, and lengths that are not cut to 32 bits", test_rewriting);
    run("10: a name over the limit, after the rule, untouched", test_name);
    run("10: a pattern over the limit, after 9, untouched", test_pattern);
    run("10: a piece over the limit; 9 just below it", test_piece);
    run("9: a list of gigabytes, one number too short", test_long_list_too_short);
    run("10: the last bytes of a plan, one by one", test_last_bytes);
    run("a reference that ends at the limit", test_last_reference);
    run("10: held bytes at the limit", test_last_held);
    run("the longest text, searched and scanned", test_longest);
    run("the longest name", test_longest_name);
    run("the longest pattern, and 14 at its end", test_longest_pattern);
    return finished("limits");
}
