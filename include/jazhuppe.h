/* jazhuppe.h: finds where a seat rule occurs in a seating plan, after the plan's references have been decoded.
 *
 * Two searches give the same occurrences:
 *
 *   the forward scan   jazhuppe_open, then jazhuppe_feed for each piece of the raw plan, then jazhuppe_finish:
 *                      the ends of occurrences, decoded and in the raw plan, with the same memory for a plan of any length;
 *   the window search  jazhuppe_decode the raw plan, then jazhuppe_search its decoded text: the starts.
 *
 * Beside them jazhuppe_covers says whether a rule covers a seat name whole, and jazhuppe_turn whose piece is next where
 * up to eight feeds arrive together.
 *
 * RULE. 1 to 1,023 bytes, never decoded. Any byte but a mark (. [ ] { } ? + * \) stands for itself; \ before a mark, ^ or -
 * gives that byte; . is any byte; [..] is a class of bytes and ranges lo-hi, turned round by a first ^; {a,b} is a gap
 * of a to b bytes of any kind; ? + * after an element other than a gap make it optional, repeatable, or both. A gap makes b
 * positions, every other element one; a rule has at most 255. With fold set (any number but 0) letters of A to Z and a to z
 * stand for both cases. The first and the last element may not be a gap with a < b, which gives crowds of starts or ends for
 * one seat; a stored rule goes through jazhuppe_rewrite, whose text is accepted with the same fold flag. A pattern of SQL's
 * LIKE goes through jazhuppe_import_like, whose text is accepted with any.
 *
 * TEXT. Places count decoded bytes: a start is counted from 0, an end is the count of bytes up to and including the
 * occurrence's last. A reference (&amp; &lt; &gt; &apos; &quot; &#38; &#x26; of at most 32 bytes, leading zeros included) is
 * decoded to its UTF-8 bytes, once; one whose number is no Char of XML 1.0, as &#0; and &#xD800;, to U+FFFD (EF BF BD).
 * Anything else stays as it is. With each end goes its raw count: the bytes of the raw plan, from its first one over all the
 * pieces, up to and including the byte, or the whole reference, that gave the occurrence's last byte. All bytes of one
 * reference share one raw count; a byte that stays as it is has its own, also where it was held back. So raw counts never
 * fall from end to end. Plans that decode alike have the same ends; their raw counts may differ.
 *
 * CODES. A scanned plan holds bytes for characters that could not be read. An opening and a search take up to 8 such codes:
 * `codes` has a byte for each, `sets` 32 bytes for each, in the same order, where bit x % 8, the lowest being 0, of byte
 * x / 8 stands for x. A code byte in the decoded text fits a position when its set and the position's share a byte, each
 * place by itself; any other byte fits when it is in the position's set. So a code in a rule's own set counts for nothing.
 * Fold does nothing to codes and their sets. Without codes both lengths are 0.
 *
 * TURNS. Feeds 0 to 7 arrive together, each with its own scan, and a dispatcher says whose piece is next. It is two numbers,
 * which the host keeps and hands on from call to call: bit f of `waiting`, the lowest being 0, says that feed f has a piece
 * waiting, and bits 8 to 31 are ignored and kept; `last` is the feed last served, and above 7 it reads as 7. It opens with
 * waiting 0 and last JAZHUPPE_LAST_AT_OPENING. jazhuppe_offer takes the number of a feed that has a piece, whose bytes stay
 * with the host; jazhuppe_turn names the next waiting feed, and the host then feeds that piece to its scan. A piece that the
 * scan refuses counts as served; finishes are the host's own, and are not offered. Over calls each handed what the last one
 * left, an accepted offer's piece is served within 8 turns, and never before an earlier one of its feed. Each feed's ends
 * are those that it gets alone from the same feeds and finishes, in the same order, with the same list lengths.
 *
 * LENDER'S DUTIES. A call is lent slices, each a pointer and a length in the bytes or numbers that it points to:
 *
 *   - each slice is memory of the length named, aligned for what it holds;
 *   - a slice that the call writes (pointer not to const) lies apart from every other slice of that call;
 *   - nobody else touches the slices until the call returns;
 *   - a pointer may be NULL where its length is 0.
 *
 * Nothing else is asked: whatever the bytes and numbers in them, a call returns a finished result or one of the sixteen
 * refusals below. A call keeps no pointer, allocates nothing and has no other state than what it is lent or handed, so calls
 * on different slices may run at the same time.
 *
 * REFUSALS. A finished result has number 0 and place 0. A refusal has its number, its place (0 where none is given) and
 * zeros beside them (an offer's has the dispatcher's numbers there, as they were handed over), and leaves lists, buffers and
 * the scan value as they were. A finished call writes as many entries as it reports, an entry being a pair of numbers in a
 * feed's or finish's list, a number in a search's, a byte in a buffer; past them a list or buffer is as it was.
 */
#ifndef JAZHUPPE_H
#define JAZHUPPE_H

#include <stddef.h>
#include <stdint.h>

#ifdef __cplusplus
extern "C" {
#endif

#define JAZHUPPE_VERSION "1.0.0"

/* The refusals. 1 and 2 come first, then the leftmost of 3 to 7 (an element's own fault before 7), then 8, then 16.
 * An opening checks the rule, then 15, then 11; a call on a whole text or name the rule, then 15, 10, 9; a scan call
 * 11, 12, 10, 9; a rewriting 9, then the rule by 1 to 8 alone, then its finished text by 2; an import 9, 10, 14, then its
 * finished text by 1, 2, 7, 8, whose places count there; an offer 18 alone. No call gives 13 or 17. */
#define JAZHUPPE_RULE_EMPTY 1    /* rule, or an import's pattern, of length 0; place 0 */
#define JAZHUPPE_RULE_LONG 2     /* rule, or the finished text of a rewriting or an import, over 1,023 bytes; place 1,023 */
#define JAZHUPPE_CLASS 3         /* class unclosed, empty, with a reversed range, a bad \ or misplaced -, or left with
                                    no byte; place of the [ */
#define JAZHUPPE_GAP 4           /* gap not of the given form, a > b, or b = 0; place of the { */
#define JAZHUPPE_MARK 5          /* ?, +, * first, after a gap, or after another of them; place of the mark */
#define JAZHUPPE_BYTE 6          /* outside a class: bad or last \, or stray ] or }; place of the byte */
#define JAZHUPPE_POSITIONS 7     /* an element takes the positions past 255; place of the element */
#define JAZHUPPE_ADMITS_EMPTY 8  /* the empty string is admitted: every position is optional; place = rule length */
#define JAZHUPPE_TOO_SHORT 9     /* list or buffer too short */
#define JAZHUPPE_TOO_MUCH 10     /* more than 4,294,967,295 bytes in the text, name or pattern, or in all the pieces */
#define JAZHUPPE_IMPOSSIBLE 11   /* impossible scan value */
#define JAZHUPPE_FINISHED 12     /* scan already finished */
#define JAZHUPPE_LIKE 14         /* in an import: a \ last, or before another byte than %, _ or \ ; place of the first
                                    such \ in the pattern */
#define JAZHUPPE_CODES 15        /* more than 8 codes, sets not of 32 bytes for each code, a code named twice, a set
                                    empty or with a code in it, or a position whose set, folded, is of codes alone;
                                    place 0 */
#define JAZHUPPE_OUTER_GAP 16    /* the first or last element is a gap with a < b; place of the { of the first such gap */
#define JAZHUPPE_OFFER 18        /* an offer's feed number above 7, or of a feed that has a piece waiting already; place 0 */

/* The limits. */
#define JAZHUPPE_RULE_MOST 1023          /* bytes of a rule */
#define JAZHUPPE_POSITIONS_MOST 255      /* positions of a rule */
#define JAZHUPPE_CODES_MOST 8            /* codes of an opening or a search */
#define JAZHUPPE_SET_BYTES 32            /* bytes of a code's set */
#define JAZHUPPE_TEXT_MOST 4294967295u   /* bytes of a text, a name or a pattern, or of all the pieces of a plan */
#define JAZHUPPE_SCAN_WORDS 1045         /* the length of a scan value */
#define JAZHUPPE_HELD_MOST 31            /* bytes that a scan holds back between pieces */
#define JAZHUPPE_FEEDS 8                 /* feeds of a dispatcher: 0 to 7 */

/* What counts as last served where a dispatcher opens; nobody waits then. */
#define JAZHUPPE_LAST_AT_OPENING 7

/* The numbers of an entry of a feed's or finish's list: entry i is the end, at 2 * i, and its raw count, at 2 * i + 1. */
#define JAZHUPPE_PAIR 2

/* The numbers, two for each pair, that the list of a feed with a piece of so many bytes needs, and that of a finish. */
#define JAZHUPPE_FEED_LIST(piece_len) (JAZHUPPE_PAIR * ((size_t)(piece_len) + JAZHUPPE_HELD_MOST))
#define JAZHUPPE_FINISH_LIST (JAZHUPPE_PAIR * JAZHUPPE_HELD_MOST)

/* The bytes that the buffer of a rewriting needs, however short the rule. */
#define JAZHUPPE_REWRITE_BUFFER JAZHUPPE_RULE_MOST

/* And that of an import, however short the pattern. */
#define JAZHUPPE_IMPORT_BUFFER JAZHUPPE_RULE_MOST

/* What a rule comes to. */
typedef struct {
    uint32_t number;     /* 0, or the refusal */
    uint32_t place;      /* where in the rule */
    uint32_t positions;  /* how many, 1 to 255 */
    uint32_t shortest;   /* the shortest length of an occurrence: the positions that are not optional */
} jazhuppe_prepared;

/* What a call on a plan or a text comes to. */
typedef struct {
    uint32_t number;   /* 0, or the refusal */
    uint32_t place;    /* where in the rule */
    uint32_t count;    /* entries written: pairs by a feed or finish, starts by a search, bytes by a decoding */
    uint32_t windows;  /* windows tried by a search; 0 in every other answer */
} jazhuppe_answer;

/* What a call that writes a rule's text comes to. */
typedef struct {
    uint32_t number;  /* 0, or the refusal */
    uint32_t place;   /* where in the rule, in the finished text, or, for 14, in the pattern */
    uint32_t length;  /* bytes written */
} jazhuppe_text;

/* What a rule and a name come to. */
typedef struct {
    uint32_t number;   /* 0, or the refusal */
    uint32_t place;    /* where in the rule */
    uint32_t covered;  /* 1 if the rule covers the name, else 0 */
} jazhuppe_covered;

/* What an offer comes to. */
typedef struct {
    uint32_t number;   /* 0, or the refusal */
    uint32_t place;    /* 0 */
    uint32_t waiting;  /* the dispatcher's numbers, for the next call */
    uint32_t last;
} jazhuppe_offered;

/* What a turn comes to. */
typedef struct {
    uint32_t served;   /* 1, or 0 where nobody waits */
    uint32_t feed;     /* whose piece is served, 0 to 7; 0 where nobody waits */
    uint32_t waiting;  /* the dispatcher's numbers, for the next call */
    uint32_t last;
} jazhuppe_served;

/* A part of a text: its bytes from `from` up to, but without, `to`. */
typedef struct {
    size_t from;
    size_t to;
} jazhuppe_span;

/* Looks at a rule. Refusals 1 to 8, 16. */
jazhuppe_prepared jazhuppe_prepare(const uint8_t *rule, size_t rule_len, uint32_t fold);

/* Rewrites a stored rule, with its fold flag, into one that 16 does not refuse. While the first element is a gap with
 * a < b, it becomes a dots: none where a is 0, which bares the next element. Then the same from the back. A step at the
 * front keeps the list of ends, one at the back the list of starts. Every other byte stays, and a rule without such gaps
 * is copied. The buffer needs JAZHUPPE_REWRITE_BUFFER bytes.
 * Refusals 9, 1 to 8, then 2 where the finished text is over 1,023 bytes. */
jazhuppe_text jazhuppe_rewrite(const uint8_t *rule, size_t rule_len, uint32_t fold, uint8_t *out, size_t out_len);

/* Turns a pattern of SQL's LIKE into a rule that, fold off, covers exactly the names that LIKE accepts, case respected:
 * % (any bytes) becomes .* and _ (one byte) a dot; \ before %, _ or another \ takes that as a plain byte; a plain byte that
 * is a mark gains a \, and every other stays. The buffer needs JAZHUPPE_IMPORT_BUFFER bytes.
 * Refusals 9, 10, 14 wherever in the pattern, then of the finished text 1, 2, 7, and 8 where there is nothing but %. */
jazhuppe_text jazhuppe_import_like(const uint8_t *pattern, size_t pattern_len, uint8_t *out, size_t out_len);

/* Opens a scan: writes the scan value, whole, whatever stood there. Its feeds read the plan with these codes.
 * Refusals 1 to 8, 16, 15, then 11 where scan_len is not JAZHUPPE_SCAN_WORDS. */
jazhuppe_prepared jazhuppe_open(const uint8_t *rule, size_t rule_len, uint32_t fold, const uint8_t *codes,
                                size_t codes_len, const uint8_t *sets, size_t sets_len, uint64_t *scan, size_t scan_len);

/* Feeds the next piece of the raw plan, of any length and cut anywhere: writes the ends of the occurrences that it
 * completes, each once, rising, each followed by its raw count, and moves the scan value on; count counts these pairs. A
 * tail that could still grow into a reference is held back for the next call. The list needs
 * JAZHUPPE_FEED_LIST(piece_len) numbers, 2 * (piece_len + 31).
 * Refusals 11, 12, 10 (all the pieces together), 9. */
jazhuppe_answer jazhuppe_feed(uint64_t *scan, size_t scan_len, const uint8_t *piece, size_t piece_len, uint32_t *ends,
                              size_t ends_len);

/* Finishes the scan: what is held back is let through as it came, byte by byte, and the ends in it are written in pairs, as a
 * feed writes them. The list needs JAZHUPPE_FINISH_LIST numbers, 62. A finished scan takes no more calls; the value may be
 * opened again.
 * Refusals 11, 12, 9. */
jazhuppe_answer jazhuppe_finish(uint64_t *scan, size_t scan_len, uint32_t *ends, size_t ends_len);

/* Decodes a whole raw plan; count is the bytes written. The buffer needs raw_len bytes. Refusals 10, 9. */
jazhuppe_answer jazhuppe_decode(const uint8_t *raw, size_t raw_len, uint8_t *out, size_t out_len);

/* Searches a whole decoded text (it decodes nothing): writes the starts of occurrences, each once, rising. The list
 * needs text_len numbers, one for each start. Refusals 1 to 8, 16, 15, 10, 9. */
jazhuppe_answer jazhuppe_search(const uint8_t *rule, size_t rule_len, uint32_t fold, const uint8_t *codes,
                                size_t codes_len, const uint8_t *sets, size_t sets_len, const uint8_t *text,
                                size_t text_len, uint32_t *starts, size_t starts_len);

/* Shows the occurrence at a start of a decoded text: the part from the start to the earliest end there. It takes no
 * codes, so that what a search finds by codes alone starts nothing here. It gives no number: both ends of the span are
 * text_len where the rule is refused, the text is over its limit, the start is past the text, or nothing starts there. */
jazhuppe_span jazhuppe_show(const uint8_t *rule, size_t rule_len, uint32_t fold, const uint8_t *text, size_t text_len,
                            size_t start);

/* Says whether a rule covers a name: whether all of the name, from its first byte to its last, is one occurrence. The name
 * is taken as it comes, with nothing decoded, and it takes no codes. No rule covers the empty name.
 * Refusals 1 to 8, 16, then 10. */
jazhuppe_covered jazhuppe_covers(const uint8_t *rule, size_t rule_len, uint32_t fold, const uint8_t *name, size_t name_len);

/* Offers a piece of a feed, of any length, also empty: says that it waits. The host keeps its bytes until the turn that
 * names the feed. The dispatcher's `last` stays as it was.
 * Refusal 18, which leaves both its numbers as they were. */
jazhuppe_offered jazhuppe_offer(uint32_t waiting, uint32_t last, uint32_t feed);

/* Takes a turn: names the next waiting feed after the one last served, going round, the last served itself coming last. Its
 * piece no longer waits, and it is the last served. It gives no number: where nobody of 0 to 7 waits it says so, and both
 * the dispatcher's numbers stay as they were. */
jazhuppe_served jazhuppe_turn(uint32_t waiting, uint32_t last);

/* THE SCAN VALUE is JAZHUPPE_SCAN_WORDS numbers. It may be copied, kept and taken up again, in another process too:
 *
 *   0 to 1023     for each byte c, the positions that it fits, in four numbers: bit i of number c + 256 w is position
 *                 64 w + i, counted from 1. Nothing else of the codes is kept
 *   1024 to 1027  the repeatable positions, in four numbers, position 64 w + i at bit i of the w-th
 *   1028 to 1031  the optional positions
 *   1032          how many positions, 1 to 255
 *   1033 to 1036  the state: bit i of the w-th says that some tail of the text so far fills the first 64 w + i positions
 *   1037          1 if it is finished, else 0
 *   1038          the bytes taken, up to 4,294,967,295; raw counts go on from these, less those held back
 *   1039          the bytes decoded from them
 *   1040          how many bytes are held back, at most 31
 *   1041 to 1044  the bytes held back: byte j is byte j % 8, the lowest being 0, of number 1041 + j / 8; 0 past their count
 *
 * It is impossible (11) when it has another length, over 255 positions or none, a finished field other than 0 or 1, a count
 * over what its field holds, held bytes that are not a tail that could still grow into a reference, or decoded and held
 * counts that together exceed the bytes taken. Words 0 to 1031, 1033 to 1036 and 1041 to 1044 may
 * else be any numbers. */

#ifdef __cplusplus
}
#endif

#endif
