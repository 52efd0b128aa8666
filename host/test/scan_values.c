/* scan_values.c: scan values that are impossible, each by one field; and possible ones made by hand, which step
 * exactly by the requirement's formula, whatever their masks and state. */
#include <stdio.h>
#include <string.h>

#include "jazhuppe.h"
#include "random.h"
#include "scan_layout.h"
#include "second.h"
#include "testing.h"

enum { WORDS = JAZHUPPE_SCAN_WORDS, HELD_MOST = JAZHUPPE_HELD_MOST, PIECE_MOST = 3000 };

static bool answers(jazhuppe_answer a, uint32_t number, uint32_t count)
{
    return a.number == number && a.place == 0 && a.count == count && a.windows == 0;
}

/* Lends the value and asks for a feed of one byte and for a finish, both of which leave everything as it is. */
static void both_refuse(const uint64_t *value, size_t words, uint32_t number)
{
    uint64_t *scan = lend_bytes(&scan_room, value, words * sizeof *scan);
    const uint8_t *piece = lend_bytes(&text_room, "a", 1);
    uint32_t *ends = lend(&list_room, JAZHUPPE_FEED_LIST(1) * sizeof *ends);

    CHECK(answers(jazhuppe_feed(scan, words, piece, 1, ends, JAZHUPPE_FEED_LIST(1)), number, 0));
    CHECK(answers(jazhuppe_finish(scan, words, ends, JAZHUPPE_FEED_LIST(1)), number, 0));
    CHECK(untouched(&scan_room) && untouched(&text_room) && untouched(&list_room));
}

/* Lends the value and finishes it: it is possible. */
static void finishes(const uint64_t *value)
{
    uint64_t *scan = lend_bytes(&scan_room, value, WORDS * sizeof *scan);

    CHECK(jazhuppe_finish(scan, WORDS, lend(&list_room, JAZHUPPE_FINISH_LIST * sizeof(uint32_t)), JAZHUPPE_FINISH_LIST).number == 0);
}

/* An opened scan that has taken 100 bytes and holds none back. */
static void usual(uint64_t *value)
{
    jazhuppe_prepared p = jazhuppe_open((const uint8_t *)"a", 1, 0, NO_CODES, value, WORDS);

    CHECK(p.number == 0);
    value[RAW] = value[DECODED] = 100;
}

/* Eight held bytes to a word, the first lowest. */
static uint8_t held_byte(const uint64_t *value, size_t j)
{
    return (uint8_t)(value[HELD_WORDS + j / 8] >> (8 * (j % 8)));
}

static void put_held_byte(uint64_t *value, size_t j, uint8_t c)
{
    uint64_t *word = &value[HELD_WORDS + j / 8];

    *word = (*word & ~((uint64_t)0xFF << (8 * (j % 8)))) | (uint64_t)c << (8 * (j % 8));
}

static void hold(uint64_t *value, const char *tail)
{
    value[HELD] = strlen(tail);
    value[DECODED] = value[RAW] - value[HELD];
    for (size_t j = 0; j < value[HELD] && HELD_WORDS + j / 8 < WORDS; j++)
        put_held_byte(value, j, (uint8_t)tail[j]);
}

/* Sets one field of a possible value to a number that it cannot hold. */
static void field_refused(size_t field, uint64_t number)
{
    uint64_t value[WORDS];

    about("field %zu, number %llu", field, (unsigned long long)number);
    usual(value);
    value[field] = number;
    both_refuse(value, WORDS, JAZHUPPE_IMPOSSIBLE);
}

static void test_fields(void)
{
    static const uint64_t over[] = {(uint64_t)1 << 32, (uint64_t)1 << 63, UINT64_MAX};

    field_refused(POSITIONS, 0);
    field_refused(POSITIONS, JAZHUPPE_POSITIONS_MOST + 1);
    field_refused(FINISHED, 2);
    field_refused(HELD, HELD_MOST + 1);
    field_refused(DECODED, 101);
    field_refused(RAW, 99);
    for (size_t i = 0; i < sizeof over / sizeof over[0]; i++) {
        /* Cut to 32 bits, most of these would pass. */
        field_refused(POSITIONS, over[i] | 1);
        field_refused(FINISHED, over[i]);
        field_refused(RAW, over[i] | 100);
        field_refused(DECODED, over[i] | 100);
        field_refused(HELD, over[i]);
    }
}

/* A held word holds any number: past the held bytes any others may stand, and they count for nothing. */
static void test_held_words(void)
{
    uint64_t value[WORDS];

    usual(value);
    for (size_t i = HELD_WORDS; i < WORDS; i++)
        value[i] = UINT64_MAX;
    finishes(value);
    hold(value, "&am");
    finishes(value);
    hold(value, "&#x0000000000000000000000000026");
    finishes(value);
}

/* decoded + held is over the count taken, or would wrap round to less. */
static void test_counts(void)
{
    uint64_t value[WORDS];

    usual(value);
    hold(value, "&am");
    finishes(value);
    value[DECODED]++;
    both_refuse(value, WORDS, JAZHUPPE_IMPOSSIBLE);
    value[DECODED] = UINT64_MAX - 2;
    both_refuse(value, WORDS, JAZHUPPE_IMPOSSIBLE);
    value[RAW] = value[DECODED] = JAZHUPPE_TEXT_MOST;
    both_refuse(value, WORDS, JAZHUPPE_IMPOSSIBLE);
}

static void test_held_bytes(void)
{
    static const char *const tails[] = {
        "&", "&a", "&am", "&amp", "&ap", "&apo", "&apos", "&l", "&lt", "&g", "&gt", "&q", "&qu", "&quo", "&quot",
        "&#", "&#0", "&#1234567", "&#x", "&#xD800", "&#xaBcDeF", "&#00000000000000000000000000038",
        "&#x0000000000000000000000000026", "&#99999999999999999999999999999", "&#xFFFFFFFFFFFFFFFFFFFFFFFFFFFF",
    };
    static const char *const others[] = {
        "a", "a&", "&amp;", "&A", "&ax", "&&", "&#x1;", "&#;", "&#X", "&#12a", "&#xG", "&lt;", "&b", ";", "&x",
        "&#000000000000000000000000000038", "&#x00000000000000000000000000026", "&#0000000000000000000000000003;",
        "&#0000000000000000000000000003a", "&00amp",
    };
    uint64_t value[WORDS];

    for (size_t i = 0; i < sizeof tails / sizeof tails[0]; i++) {
        about("held %s", tails[i]);
        usual(value);
        hold(value, tails[i]);
        finishes(value);
        value[FINISHED] = 1;
        both_refuse(value, WORDS, JAZHUPPE_FINISHED);
    }
    for (size_t i = 0; i < sizeof others / sizeof others[0]; i++) {
        about("held %s", others[i]);
        usual(value);
        hold(value, others[i]);
        both_refuse(value, WORDS, JAZHUPPE_IMPOSSIBLE);
    }
    about("a held 0");
    usual(value);
    value[HELD] = 1;
    value[DECODED] = 99;
    both_refuse(value, WORDS, JAZHUPPE_IMPOSSIBLE);
}

static void test_lengths(void)
{
    uint64_t value[2 * WORDS];

    memset(value, 0, sizeof value);
    usual(value);
    for (size_t words = 0; words <= 2 * WORDS; words++)
        if (words != WORDS)
            both_refuse(value, words, JAZHUPPE_IMPOSSIBLE);
}

static void test_all_alike(void)
{
    uint64_t value[WORDS];

    memset(value, 0, sizeof value);
    both_refuse(value, WORDS, JAZHUPPE_IMPOSSIBLE);
    memset(value, 0xFF, sizeof value);
    both_refuse(value, WORDS, JAZHUPPE_IMPOSSIBLE);
}

/* ---- by hand */

/* Numbers of 256 bits, in limbs of 32, the lowest first. */
enum { LIMBS = 8 };

typedef struct {
    uint64_t limb[LIMBS];
} number;

static number number_of(const uint64_t *words, size_t apart)
{
    number n;

    for (size_t i = 0; i < LIMBS; i++)
        n.limb[i] = words[i / 2 * apart] >> (32 * (i % 2)) & 0xFFFFFFFFu;
    return n;
}

static void put_number(uint64_t *words, number n)
{
    for (size_t i = 0; i < FOUR; i++)
        words[i] = n.limb[2 * i] | n.limb[2 * i + 1] << 32;
}

static number both(number a, number b)
{
    for (size_t i = 0; i < LIMBS; i++)
        a.limb[i] &= b.limb[i];
    return a;
}

static number either(number a, number b)
{
    for (size_t i = 0; i < LIMBS; i++)
        a.limb[i] |= b.limb[i];
    return a;
}

static number differing(number a, number b)
{
    for (size_t i = 0; i < LIMBS; i++)
        a.limb[i] ^= b.limb[i];
    return a;
}

static number others_of(number a)
{
    for (size_t i = 0; i < LIMBS; i++)
        a.limb[i] ^= 0xFFFFFFFFu;
    return a;
}

static number up_by_one(number a)
{
    for (size_t i = LIMBS; i-- > 0;)
        a.limb[i] = (a.limb[i] << 1 | (i == 0 ? 0 : a.limb[i - 1] >> 31)) & 0xFFFFFFFFu;
    return a;
}

static number down_by_one(number a)
{
    for (size_t i = 0; i < LIMBS; i++)
        a.limb[i] = a.limb[i] >> 1 | (i + 1 == LIMBS ? 0 : (a.limb[i + 1] & 1) << 31);
    return a;
}

static number minus(number a, number b)
{
    uint64_t borrow = 0;

    for (size_t i = 0; i < LIMBS; i++) {
        uint64_t difference = a.limb[i] - b.limb[i] - borrow;

        borrow = difference >> 63;
        a.limb[i] = difference & 0xFFFFFFFFu;
    }
    return a;
}

/* "Then Df = D or F, and D gains A and ((not (Df - I)) xor Df)." */
static number second_half(number d, number a)
{
    number i = both(down_by_one(a), others_of(a)), f = both(a, others_of(down_by_one(a))), df = either(d, f);

    return either(d, both(a, differing(others_of(minus(df, i)), df)));
}

/* "((D shifted up by one, bit 255 dropping out) and B[c]) or (D and S[c]) or 1" */
static number step(const uint64_t *value, number d, uint8_t c)
{
    number b = number_of(value + c, PLANE), s = both(b, number_of(value + REPEATS, 1));
    number moved = either(both(up_by_one(d), b), both(d, s));

    moved.limb[0] |= 1;
    return second_half(moved, number_of(value + OPTIONAL, 1));
}

/* What a call makes of a possible value: the value after it, and the ends with their raw counts, which go on from the first
 * byte that was not let through. */
static size_t stepped(uint64_t *value, const uint8_t *piece, size_t length, bool finish, uint32_t *pairs)
{
    static uint8_t raw[PIECE_MOST + HELD_MOST], text[PIECE_MOST + HELD_MOST];
    static uint32_t raws[PIECE_MOST + HELD_MOST];
    size_t taken = value[HELD], held, decoded, count = 0, top = value[POSITIONS], from = value[RAW] - value[HELD];
    number d = number_of(value + STATE, 1);

    for (size_t i = 0; i < taken; i++)
        raw[i] = held_byte(value, i);
    memcpy(raw + taken, piece, length);
    taken += length;
    held = finish ? 0 : second_held(raw, taken);
    decoded = second_decoded(raw, taken - held, text, raws);
    for (size_t i = 0; i < decoded; i++) {
        d = step(value, d, text[i]);
        if ((d.limb[top / 32] >> top % 32 & 1) != 0) {
            pairs[2 * count] = (uint32_t)(value[DECODED] + i + 1);
            pairs[2 * count + 1] = (uint32_t)(from + raws[i]);
            count++;
        }
    }
    put_number(value + STATE, d);
    value[FINISHED] = finish;
    value[RAW] += length;
    value[DECODED] += decoded;
    value[HELD] = held;
    for (size_t i = 0; i <= HELD_MOST; i++)
        put_held_byte(value, i, i < held ? raw[taken - held + i] : 0);
    return count;
}

/* Any bits; few, many, or all alike. */
static uint64_t random_mask(random_source *r)
{
    uint64_t w = random_word(r);

    switch (random_below(r, 6)) {
    case 0: return w & random_word(r) & random_word(r);
    case 1: return w | random_word(r) | random_word(r);
    case 2: return w << random_below(r, 64);
    case 3: return 0;
    case 4: return UINT64_MAX;
    default: return w;
    }
}

static void random_words(random_source *r, uint64_t *words, size_t used)
{
    for (size_t i = 0; i < used; i++)
        words[i] = random_mask(r);
}

/* Any table, masks and state in the first so many words, the others empty. */
static void any_rule(random_source *r, uint64_t *value, size_t used)
{
    for (size_t c = 0; c < used * PLANE; c++)
        value[c] = random_mask(r);
    random_words(r, value + REPEATS, used);
    random_words(r, value + OPTIONAL, used);
    random_words(r, value + STATE, used);
    value[POSITIONS] = 1 + random_below(r, JAZHUPPE_POSITIONS_MOST);
}

static void set_bit(uint64_t *words, size_t apart, size_t bit)
{
    words[bit / 64 * apart] |= (uint64_t)1 << bit % 64;
}

/* Such a value as a rule of letters makes, with so many positions, some of them optional or repeatable; a few bits may be
 * wrong. The letters of its positions come out too. */
static void likely_rule(random_source *r, uint64_t *value, char *letters)
{
    size_t positions = 1 + random_below(r, JAZHUPPE_POSITIONS_MOST);
    uint32_t optional = random_below(r, 4), repeats = random_below(r, 3);

    for (size_t i = 1; i <= positions; i++) {
        letters[i - 1] = (char)('a' + random_below(r, 3));
        set_bit(value + letters[i - 1], PLANE, i);
        if (random_below(r, 8) < optional)
            set_bit(value + OPTIONAL, 1, i);
        if (random_below(r, 8) < repeats)
            set_bit(value + REPEATS, 1, i);
    }
    letters[positions] = '\0';
    value[POSITIONS] = positions;
    value[STATE] = 1;
    for (uint32_t wrong = random_below(r, 3); wrong > 0; wrong--)
        set_bit(value + random_below(r, 2) * OPTIONAL + random_below(r, FOUR), 1, random_below(r, 64));
}

static void random_value(random_source *r, uint64_t *value, char *letters)
{
    static const char *const tails[] = {"", "", "&", "&am", "&#", "&#00000000000000000000000000038", "&#x1F60", "&quot"};

    memset(value, 0, WORDS * sizeof *value);
    letters[0] = '\0';
    if (random_below(r, 2) == 0)
        any_rule(r, value, 1 + random_below(r, FOUR));
    else
        likely_rule(r, value, letters);
    value[RAW] = 40 + random_below(r, random_below(r, 2) == 0 ? 100 : 4000000000u);
    hold(value, tails[random_below(r, 8)]);
    value[DECODED] -= random_below(r, (uint32_t)value[DECODED]);
    /* Past the held bytes any byte may stand. */
    for (size_t i = value[HELD]; i <= HELD_MOST; i++)
        put_held_byte(value, i, (uint8_t)random_below(r, 256));
}

/* Parts of references, bytes of any kind, and runs of the letters, some of them whole. */
static size_t random_piece(random_source *r, const char *letters, uint8_t *piece)
{
    static const char *const parts[] = {"&amp;", "&", "&#", "38;", "amp;", "x26;", "&#x1F600;", ";", "&#00000000000000000000000000038",
                                        "0000000000000000000038;"};
    size_t length = 0, most = random_below(r, random_below(r, 4) == 0 ? PIECE_MOST : 80);

    while (length < most) {
        bool reference = random_below(r, letters[0] == '\0' ? 3 : 12) == 0;
        const char *part = reference ? parts[random_below(r, sizeof parts / sizeof parts[0])] : letters;
        size_t from = reference || random_below(r, 2) == 0 ? 0 : random_below(r, 1 + (uint32_t)strlen(part));

        if ((reference || letters[0] != '\0') && length + strlen(part + from) <= most && random_below(r, 8) > 0) {
            memcpy(piece + length, part + from, strlen(part + from));
            length += strlen(part + from);
        } else {
            piece[length++] = letters[0] != '\0' && random_below(r, 4) > 0 ? (uint8_t)('a' + random_below(r, 3)) : (uint8_t)random_below(r, 256);
        }
    }
    return length;
}

/* Some feeds and a finish, each held against the formula. */
static void by_hand(random_source *r)
{
    static uint64_t expected[WORDS], *scan;
    static uint32_t pairs[JAZHUPPE_FEED_LIST(PIECE_MOST)];
    static uint8_t piece[PIECE_MOST];
    char letters[JAZHUPPE_POSITIONS_MOST + 1];

    random_value(r, expected, letters);
    scan = lend_bytes(&scan_room, expected, sizeof expected);
    for (int call = 0; call < 4; call++) {
        bool finish = call == 3;
        size_t length = finish ? 0 : random_piece(r, letters, piece), list = JAZHUPPE_FEED_LIST(length);
        size_t count = stepped(expected, piece, length, finish, pairs), bytes_written = count * JAZHUPPE_PAIR * sizeof *pairs;
        uint32_t *given = lend(&list_room, list * sizeof *given);
        const uint8_t *bytes = lend_bytes(&text_room, piece, length);
        jazhuppe_answer a = finish ? jazhuppe_finish(scan, WORDS, given, list)
                                   : jazhuppe_feed(scan, WORDS, bytes, length, given, list);

        CHECK(answers(a, 0, (uint32_t)count));
        CHECK(memcmp(given, pairs, bytes_written) == 0);
        CHECK(untouched_past(&list_room, bytes_written) && untouched(&text_room));
        CHECK(memcmp(scan, expected, sizeof expected) == 0);
        CHECK(untouched_past(&scan_room, sizeof expected));
    }
}

static void test_by_hand(void)
{
    random_source r = random_from(1);

    for (int i = 0; i < 5000; i++) {
        about("value %d made by hand", i);
        lent_in_front = i % 2 == 1;
        by_hand(&r);
    }
}

/* A value with the rule `.` that has taken so many bytes, decoded half as many and holds a tail back. */
static void held_by_hand(uint64_t *value, uint64_t taken, const char *tail)
{
    CHECK(jazhuppe_open((const uint8_t *)".", 1, 0, NO_CODES, value, WORDS).number == 0);
    value[RAW] = taken;
    hold(value, tail);
    value[DECODED] = taken / 2;
}

/* Feeds the piece, or finishes where there is none: so many pairs, whose ends follow the bytes decoded so far, and these raw
 * counts. */
static void gives_raws(const uint64_t *value, const char *piece, uint32_t count, const uint32_t *raws)
{
    uint64_t *scan = lend_bytes(&scan_room, value, WORDS * sizeof *scan);
    size_t length = piece == NULL ? 0 : strlen(piece), list = JAZHUPPE_FEED_LIST(length);
    const uint8_t *bytes = lend_bytes(&text_room, piece, length);
    uint32_t *pairs = lend(&list_room, list * sizeof *pairs);
    jazhuppe_answer a = piece == NULL ? jazhuppe_finish(scan, WORDS, pairs, list)
                                      : jazhuppe_feed(scan, WORDS, bytes, length, pairs, list);

    about("%llu taken, %s", (unsigned long long)value[RAW], piece == NULL ? "a finish" : piece);
    CHECK(answers(a, 0, count) && untouched_past(&list_room, count * JAZHUPPE_PAIR * sizeof *pairs));
    for (uint32_t i = 0; i < count; i++)
        CHECK(pairs[2 * i] == value[DECODED] + i + 1 && pairs[2 * i + 1] == raws[i]);
}

/* The first byte that comes out is the first that is held back, wherever the counts stand. */
static void test_raws_by_hand(void)
{
    static const uint64_t taken[] = {62, 100, 1000000, JAZHUPPE_TEXT_MOST - 9};

    for (size_t i = 0; i < sizeof taken / sizeof taken[0]; i++) {
        uint64_t value[WORDS];
        uint32_t t = (uint32_t)taken[i];

        held_by_hand(value, t, "&am");
        gives_raws(value, NULL, 3, (const uint32_t[]){t - 2, t - 1, t});
        gives_raws(value, "p;", 1, (const uint32_t[]){t + 2});
        gives_raws(value, "p;b", 2, (const uint32_t[]){t + 2, t + 3});
        gives_raws(value, "q", 4, (const uint32_t[]){t - 2, t - 1, t, t + 1});
        gives_raws(value, "&", 3, (const uint32_t[]){t - 2, t - 1, t});
        gives_raws(value, "&lt;", 4, (const uint32_t[]){t - 2, t - 1, t, t + 4});
        gives_raws(value, "p", 0, NULL);
        held_by_hand(value, t, "&#x1F60");
        gives_raws(value, "0;b", 5, (const uint32_t[]){t + 2, t + 2, t + 2, t + 2, t + 3});
        held_by_hand(value, t, "&#00000000000000000000000000038");
        gives_raws(value, ";", 1, (const uint32_t[]){t + 1});
        held_by_hand(value, t, "");
        gives_raws(value, "b&#xE9;", 3, (const uint32_t[]){t + 1, t + 7, t + 7});
        gives_raws(value, NULL, 0, NULL);
    }
}

int main(void)
{
    scan_room = lent_room(2 * WORDS * sizeof(uint64_t));
    text_room = lent_room(PIECE_MOST);
    list_room = lent_room(JAZHUPPE_FEED_LIST(PIECE_MOST) * sizeof(uint32_t));
    run("11: each field with a number that it cannot hold", test_fields);
    run("a held word with any number", test_held_words);
    run("11: decoded and held counts over the count taken", test_counts);
    run("11: held bytes that are not such a tail; 12 before them where they are", test_held_bytes);
    run("11: every other length", test_lengths);
    run("11: all zeros, all ones", test_all_alike);
    run("raw counts of values made by hand", test_raws_by_hand);
    run("5,000 values made by hand step by the formula", test_by_hand);
    return finished("scan_values");
}
