/* jazhuppe.c: finds where a seat rule occurs in seating plans. See jazhuppe.1, and jazhuppe.h for the finder. */
#define _POSIX_C_SOURCE 200809L
#define _DEFAULT_SOURCE /* MAP_ANONYMOUS, MAP_NORESERVE */
#define _FILE_OFFSET_BITS 64
#include <ctype.h>
#include <errno.h>
#include <fcntl.h>
#include <inttypes.h>
#include <signal.h>
#include <stdbool.h>
#include <stdio.h>
#include <stdlib.h>
#include <string.h>
#include <sys/mman.h>
#include <sys/stat.h>
#include <unistd.h>

#include "jazhuppe.h"

/* As grep's. */
enum { FOUND = 0, NONE = 1, TROUBLE = 2 };

enum { PIECE = 4096 };
static const uint64_t mebibyte = 1024 * 1024;

/* What is printed: of each occurrence, or the rule itself, rewritten, or what a LIKE pattern comes to. */
typedef enum { ENDS, RAW_ENDS, STARTS, TEXTS, REWRITTEN, LIKE } output;

/* A rule, and the codes that a plan is read with. */
typedef struct {
    const uint8_t *bytes;
    size_t length;
    uint32_t fold;
    size_t codes_count;
    uint8_t codes[JAZHUPPE_CODES_MOST], sets[JAZHUPPE_CODES_MOST * JAZHUPPE_SET_BYTES];
} rule;

/* One plan: its descriptor, its name, and what its lines begin with. */
typedef struct {
    int descriptor;
    const char *name;
    bool named;
    uint64_t size; /* 0 where it is not known */
} plan;

static const char usage_lines[] = "usage: jazhuppe [-i] [-c CODE=SET]... [-e | -r | -s | -t] RULE [FILE...]\n"
                                  "       jazhuppe [-i] --rewrite RULE\n"
                                  "       jazhuppe --like PATTERN [NAME...]\n";

static const char help_text[] =
    "Finds where a seat rule occurs in seating plans, after references such as &amp;\n"
    "and &#38; have been decoded. Without FILE, or where FILE is -, it reads standard\n"
    "input.\n"
    "\n"
    "  -e         print where occurrences end, reading on with constant memory (default)\n"
    "  -r         print where they end in FILE itself: head -c PLACE FILE ends with the\n"
    "             byte, or the whole reference, that ends the occurrence\n"
    "  -s         print where occurrences start\n"
    "  -t         print FILE:START:TEXT, from each start to the earliest end there\n"
    "  -i         small and capital letters A to Z are alike in RULE\n"
    "  -c CODE=SET\n"
    "             the byte CODE, or 0xHH, stands in the plan for a character that could\n"
    "             not be read, and may be any byte of SET, which is written as in a rule:\n"
    "             -c '?=[0-9]'; up to 8 times\n"
    "  --rewrite  print a stored RULE with the gaps {a,b}, a < b, at its front and back\n"
    "             turned into a dots each, so that it is no longer refused\n"
    "  --like     print the rule for a PATTERN of SQL's LIKE; or, of the NAMEs, each that\n"
    "             the pattern accepts: % is any bytes, _ one byte, and \\ before %, _ or \\\n"
    "             takes that byte as it is\n"
    "  --         no more options: RULE or PATTERN may begin with -\n"
    "  --help     print this and exit\n"
    "  --version  print the version and exit\n"
    "\n"
    "Places count decoded bytes, with -r those of FILE: a start from 0, an end up to and\n"
    "including the last byte. Each is printed on a line of its own, after FILE: where\n"
    "there are several.\n"
    "In TEXT and NAME a control byte or \\ is printed as \\n, \\t, \\r, \\\\ or \\xHH.\n"
    "\n"
    "In a rule . is any byte, [a-z] [^a-z] a class, {a,b} a gap of a to b bytes; ? + *\n"
    "after an element make it optional, repeatable, or both; \\ takes a mark as it is.\n"
    "A rule may not begin or end with a gap with a < b.\n"
    "\n"
    "Exit status: 0 something was found, rewritten, imported or accepted, 1 nothing,\n"
    "2 trouble.\n";

/* The requirement's words for each refusal, of 15 those that a command line can come to; some numbers have none. */
static const char *refusal_words(uint32_t number)
{
    static const char *const words[] = {
        [JAZHUPPE_RULE_EMPTY] = "the rule is empty",
        [JAZHUPPE_RULE_LONG] = "the rule is over 1,023 bytes",
        [JAZHUPPE_CLASS] = "class unclosed, empty, with a reversed range, a bad \\ or misplaced -, or left with no byte",
        [JAZHUPPE_GAP] = "gap not of the form {a,b} with one or two digits each, a > b, or b = 0",
        [JAZHUPPE_MARK] = "?, + or * first, after a gap, or after another of them",
        [JAZHUPPE_BYTE] = "bad or last \\, or stray ] or }",
        [JAZHUPPE_POSITIONS] = "this element takes the positions past 255",
        [JAZHUPPE_ADMITS_EMPTY] = "the rule admits the empty string",
        [JAZHUPPE_TOO_SHORT] = "list or buffer too short",
        [JAZHUPPE_TOO_MUCH] = "more than 4294967295 bytes",
        [JAZHUPPE_IMPOSSIBLE] = "impossible scan value",
        [JAZHUPPE_FINISHED] = "scan already finished",
        [JAZHUPPE_LIKE] = "\\ last, or before another byte than %, _ or \\",
        [JAZHUPPE_CODES] = "a code named twice, a SET with a code in it, or a position of the rule that holds codes alone",
        [JAZHUPPE_OUTER_GAP] = "the rule begins or ends with a gap {a,b} with a < b",
    };

    return number < sizeof words / sizeof words[0] && words[number] != NULL ? words[number] : "a refusal without words";
}

/* ---- progress, on a terminal */

static struct {
    bool wanted, shown;
    uint64_t next;
} progress;

static void hide_progress(void)
{
    if (!progress.shown)
        return;
    fputs("\r\033[K", stderr);
    progress.shown = false;
}

/* After each 64 MiB. */
static void show_progress(const plan *p, const char *doing, uint64_t bytes)
{
    if (!progress.wanted || bytes < progress.next)
        return;
    progress.next = bytes + 64 * mebibyte;
    fprintf(stderr, "\rjazhuppe: %s: %s %" PRIu64, p->name, doing, bytes / mebibyte);
    if (p->size > bytes)
        fprintf(stderr, " of %" PRIu64, p->size / mebibyte);
    fputs(" MiB\033[K", stderr);
    progress.shown = true;
}

static void begin_progress(void)
{
    hide_progress();
    progress.next = 64 * mebibyte;
}

/* ---- trouble */

static void trouble(const char *name, const char *words)
{
    hide_progress();
    fprintf(stderr, "jazhuppe: %s: %s\n", name, words);
}

/* What errno says of a plan. */
static int failed(const plan *p)
{
    trouble(p->name, strerror(errno));
    return TROUBLE;
}

static void refused_plan(const plan *p, uint32_t number)
{
    hide_progress();
    fprintf(stderr, "jazhuppe: %s: refused %" PRIu32 ": %s\n", p->name, number, refusal_words(number));
}

/* A byte that goes on a character of UTF-8 takes no column of its own. */
static bool begins_character(uint8_t c)
{
    return (c & 0xC0) != 0x80;
}

static void print_rule_byte(uint8_t c)
{
    putc(c < ' ' || c == 127 ? '?' : c, stderr);
}

/* Prints the rule, or the part of a long one around the place, and a caret under the place. */
static void point_at(const rule *r, size_t place)
{
    enum { BEFORE = 60, AFTER = 16 };
    size_t from = place > BEFORE ? place - BEFORE : 0;
    size_t to = r->length - place > AFTER ? place + AFTER : r->length, column = 2;

    while (from > 0 && !begins_character(r->bytes[from]))
        from--;
    while (to < r->length && !begins_character(r->bytes[to]))
        to++;
    fputs("  ", stderr);
    for (size_t i = from; i < to; i++) {
        print_rule_byte(r->bytes[i]);
        column += i < place && begins_character(r->bytes[i]);
    }
    if (place < r->length && !begins_character(r->bytes[place]))
        column--;
    fprintf(stderr, "\n%*s^\n", (int)column, "");
}

static void refused_rule(const rule *r, uint32_t number, uint32_t place)
{
    fprintf(stderr, "jazhuppe: refused %" PRIu32 " at %" PRIu32 ": %s\n", number, place, refusal_words(number));
    point_at(r, place);
    if (number == JAZHUPPE_OUTER_GAP)
        fputs("Try 'jazhuppe --rewrite RULE'.\n", stderr);
}

/* By 2, whose place is in the finished text and not in the rule. */
static void refused_rewriting(void)
{
    fprintf(stderr, "jazhuppe: refused %d at %d: the rewritten rule is over 1,023 bytes\n", JAZHUPPE_RULE_LONG,
            JAZHUPPE_RULE_MOST);
}

/* 14 and 1 have their places in the pattern; 2, 7 and 8 in a text that the refusal keeps back. No argument comes to 10. */
static void refused_import(const rule *pattern, uint32_t number, uint32_t place)
{
    if (number == JAZHUPPE_LIKE || number == JAZHUPPE_RULE_EMPTY)
        refused_rule(pattern, number, place);
    else
        fprintf(stderr, "jazhuppe: refused %" PRIu32 " at %" PRIu32 " of the imported rule: %s\n", number, place,
                refusal_words(number));
}

/* That has no place in the rule. */
static void refused_codes(void)
{
    fprintf(stderr, "jazhuppe: refused %d: %s\n", JAZHUPPE_CODES, refusal_words(JAZHUPPE_CODES));
}

/* ---- the finder, with a rule and its codes */

static jazhuppe_prepared open_scan(const rule *r, uint64_t *scan)
{
    return jazhuppe_open(r->bytes, r->length, r->fold, r->codes, r->codes_count, r->sets,
                         r->codes_count * JAZHUPPE_SET_BYTES, scan, JAZHUPPE_SCAN_WORDS);
}

/* The list has an entry for each byte of the text. */
static jazhuppe_answer search(const rule *r, const uint8_t *text, size_t length, uint32_t *starts)
{
    return jazhuppe_search(r->bytes, r->length, r->fold, r->codes, r->codes_count, r->sets,
                           r->codes_count * JAZHUPPE_SET_BYTES, text, length, starts, length);
}

/* The earliest end of what starts there by codes, of which jazhuppe_show takes none: the first end in a scan of the text
 * from the start on. What starts later does not end before it: side by side, the way through the rule's positions that
 * is ahead stays ahead, or could go on as the other does. */
static size_t first_end(const rule *r, const uint8_t *text, size_t length, size_t start)
{
    uint64_t scan[JAZHUPPE_SCAN_WORDS];
    uint32_t ends[JAZHUPPE_FEED_LIST(5)];

    open_scan(r, scan);
    for (size_t at = start; at < length; at++) {
        /* The text is decoded already: an & in it goes through once more as one. */
        bool spelt = text[at] == '&';
        const uint8_t *piece = spelt ? (const uint8_t *)"&amp;" : text + at;
        size_t bytes = spelt ? 5 : 1;

        if (jazhuppe_feed(scan, JAZHUPPE_SCAN_WORDS, piece, bytes, ends, JAZHUPPE_FEED_LIST(bytes)).count > 0)
            return at + 1;
    }
    return length;
}

/* The part of the text from a start to the earliest end there. */
static jazhuppe_span shown_at(const rule *r, const uint8_t *text, size_t length, size_t start)
{
    jazhuppe_span shown = {start, 0};

    if (r->codes_count == 0)
        return jazhuppe_show(r->bytes, r->length, r->fold, text, length, start);
    shown.to = first_end(r, text, length, start);
    return shown;
}

/* ---- lines */

/* What went wrong when a line was first lost, or 0. */
static int write_error;

static void begin_line(const plan *p)
{
    hide_progress();
    if (p->named)
        printf("%s:", p->name);
}

static void end_line(void)
{
    putchar('\n');
    if (ferror(stdout) && write_error == 0)
        write_error = errno;
}

/* So many places, each so many numbers after the one before it. */
static void print_places(const plan *p, const uint32_t *places, uint32_t count, size_t apart)
{
    for (size_t i = 0; i < count && write_error == 0; i++) {
        begin_line(p);
        printf("%" PRIu32, places[i * apart]);
        end_line();
    }
}

/* So that an occurrence is one line, can be told apart from another, and does nothing to a terminal. */
static void print_text_byte(uint8_t c)
{
    static const char escaped[] = "\n\t\r\\", letters[] = "ntr\\";
    const char *at = c == 0 ? NULL : strchr(escaped, c);

    if (at != NULL)
        printf("\\%c", letters[at - escaped]);
    else if (c < ' ' || c == 127)
        printf("\\x%02X", c);
    else
        putchar(c);
}

static void print_texts(const plan *p, const rule *r, const uint8_t *text, size_t length, const uint32_t *starts,
                        uint32_t count)
{
    for (uint32_t i = 0; i < count && write_error == 0; i++) {
        jazhuppe_span shown = shown_at(r, text, length, starts[i]);

        begin_line(p);
        printf("%" PRIu32 ":", starts[i]);
        for (size_t at = shown.from; at < shown.to; at++)
            print_text_byte(text[at]);
        end_line();
    }
}

/* ---- the forward scan */

/* As read(2), begun again after a signal; -1 has been told. */
static ssize_t read_some(const plan *p, uint8_t *bytes, size_t room)
{
    ssize_t n;

    do {
        n = read(p->descriptor, bytes, room);
    } while (n < 0 && errno == EINTR);
    if (n < 0)
        failed(p);
    return n;
}

/* Trouble in one is trouble in both; else something found in one is. */
static int both(int a, int b)
{
    if (a == TROUBLE || b == TROUBLE)
        return TROUBLE;
    return a == FOUND || b == FOUND ? FOUND : NONE;
}

/* Prints a scan call's ends, or their raw counts: the exit status that they come to. */
static int take_ends(const plan *p, output printed, jazhuppe_answer a, const uint32_t *ends)
{
    if (a.number != 0) {
        refused_plan(p, a.number);
        return TROUBLE;
    }
    print_places(p, ends + (printed == RAW_ENDS), a.count, JAZHUPPE_PAIR);
    return a.count > 0 ? FOUND : NONE;
}

static int feed_piece(const plan *p, output printed, uint64_t *scan, const uint8_t *piece, size_t length)
{
    uint32_t ends[JAZHUPPE_FEED_LIST(PIECE)];
    size_t list = JAZHUPPE_FEED_LIST(length);

    return take_ends(p, printed, jazhuppe_feed(scan, JAZHUPPE_SCAN_WORDS, piece, length, ends, list), ends);
}

static int finish_plan(const plan *p, output printed, uint64_t *scan)
{
    uint32_t ends[JAZHUPPE_FINISH_LIST];

    return take_ends(p, printed, jazhuppe_finish(scan, JAZHUPPE_SCAN_WORDS, ends, JAZHUPPE_FINISH_LIST), ends);
}

static int scan_plan(const plan *p, const rule *r, output printed)
{
    uint64_t scan[JAZHUPPE_SCAN_WORDS], taken = 0;
    uint8_t piece[PIECE];
    int status = NONE;
    ssize_t n;

    open_scan(r, scan);
    while ((n = read_some(p, piece, PIECE)) > 0) {
        status = both(status, feed_piece(p, printed, scan, piece, (size_t)n));
        if (status == TROUBLE || write_error != 0)
            return TROUBLE;
        taken += (uint64_t)n;
        show_progress(p, "scanned", taken);
    }
    return n < 0 ? TROUBLE : both(status, finish_plan(p, printed, scan));
}

/* ---- the window search */

/* A list whose entries take no memory until they are written: most of a search's never are. */
static uint32_t *reserve_list(size_t entries)
{
    void *list = mmap(NULL, (entries + 1) * sizeof(uint32_t), PROT_READ | PROT_WRITE,
                      MAP_PRIVATE | MAP_ANONYMOUS | MAP_NORESERVE, -1, 0);

    return list == MAP_FAILED ? NULL : list;
}

static void release_list(uint32_t *list, size_t entries)
{
    munmap(list, (entries + 1) * sizeof *list);
}

/* Searches a decoded text and prints what it finds. */
static int search_text(const plan *p, const rule *r, output printed, const uint8_t *text, size_t length)
{
    uint32_t *starts = reserve_list(length);
    jazhuppe_answer a;

    if (starts == NULL)
        return failed(p);
    begin_progress();
    show_progress(p, "searching", length);
    a = search(r, text, length, starts);
    if (a.number != 0)
        refused_plan(p, a.number);
    else if (printed == STARTS)
        print_places(p, starts, a.count, 1);
    else
        print_texts(p, r, text, length, starts, a.count);
    release_list(starts, length);
    return a.number != 0 ? TROUBLE : a.count > 0 ? FOUND : NONE;
}

/* A plan's bytes, read whole. */
typedef struct {
    uint8_t *bytes;
    size_t length, room;
} whole;

/* Makes room for more, up to one byte over the limit. */
static bool grow(whole *w)
{
    size_t most = (size_t)JAZHUPPE_TEXT_MOST + 1, room = w->room < most / 2 ? 2 * w->room : most;
    uint8_t *bytes = realloc(w->bytes, room);

    if (bytes == NULL)
        return false;
    w->bytes = bytes;
    w->room = room;
    return true;
}

/* Reads the plan up to its end, or up to one byte over the limit. The file is read and not mapped, as another process
 * may write it meanwhile. */
static int read_whole(const plan *p, whole *w)
{
    ssize_t n;

    w->room = p->size + mebibyte;
    w->bytes = malloc(w->room);
    if (w->bytes == NULL)
        return failed(p);
    while ((n = read_some(p, w->bytes + w->length, w->room - w->length)) > 0) {
        w->length += (size_t)n;
        show_progress(p, "read", w->length);
        if (w->length > JAZHUPPE_TEXT_MOST)
            break;
        if (w->length == w->room && !grow(w))
            return failed(p);
    }
    return n < 0 ? TROUBLE : NONE;
}

/* Decodes the plan and searches the text. */
static int search_whole(const plan *p, const rule *r, output printed, const whole *raw)
{
    uint8_t *text = malloc(raw->length + 1);
    jazhuppe_answer a;
    int status = TROUBLE;

    if (text == NULL)
        return failed(p);
    a = jazhuppe_decode(raw->bytes, raw->length, text, raw->length);
    if (a.number != 0)
        refused_plan(p, a.number);
    else
        status = search_text(p, r, printed, text, a.count);
    free(text);
    return status;
}

static int search_plan(const plan *p, const rule *r, output printed)
{
    whole raw = {NULL, 0, 0};
    int status;

    if (p->size > JAZHUPPE_TEXT_MOST) {
        refused_plan(p, JAZHUPPE_TOO_MUCH);
        return TROUBLE;
    }
    status = read_whole(p, &raw);
    if (status != TROUBLE)
        status = search_whole(p, r, printed, &raw);
    free(raw.bytes);
    return status;
}

/* ---- plans */

static uint64_t known_size(int descriptor)
{
    struct stat s;

    return fstat(descriptor, &s) == 0 && S_ISREG(s.st_mode) ? (uint64_t)s.st_size : 0;
}

static int find_in(const char *name, bool named, const rule *r, output printed)
{
    bool standard = strcmp(name, "-") == 0;
    plan p = {standard ? STDIN_FILENO : open(name, O_RDONLY), name, named, 0};
    int status;

    if (p.descriptor < 0)
        return failed(&p);
    p.size = known_size(p.descriptor);
    begin_progress();
    status = printed == ENDS || printed == RAW_ENDS ? scan_plan(&p, r, printed) : search_plan(&p, r, printed);
    hide_progress();
    if (!standard)
        close(p.descriptor);
    return status;
}

static int find(const rule *r, output printed, char **names, int count)
{
    bool named = count > 1 || printed == TEXTS;
    int status = NONE;

    if (count == 0)
        return find_in("-", named, r, printed);
    for (int i = 0; i < count && write_error == 0; i++)
        status = both(status, find_in(names[i], named, r, printed));
    return status;
}

/* Nothing printed may be lost without a word; a reader that has gone away needs none. */
static int closed(int status)
{
    if (fflush(stdout) != 0 && write_error == 0)
        write_error = errno;
    if (write_error == 0)
        return status;
    if (write_error != EPIPE)
        trouble("standard output", strerror(write_error));
    return TROUBLE;
}

/* ---- options */

static int misused(const char *words, const char *argument)
{
    fprintf(stderr, "jazhuppe: %s%s\n%sTry 'jazhuppe --help'.\n", words, argument, usage_lines);
    return TROUBLE;
}

static int print_help(void)
{
    fputs(usage_lines, stdout);
    fputs(help_text, stdout);
    return closed(FOUND);
}

static int print_version(void)
{
    puts("jazhuppe " JAZHUPPE_VERSION);
    return closed(FOUND);
}

/* What comes after the code and a =, or NULL: a code is one byte as it is, or 0xHH. */
static const char *read_code(const char *argument, uint8_t *code)
{
    if (argument[0] != '\0' && argument[1] == '=') {
        *code = (uint8_t)argument[0];
        return argument + 2;
    }
    if (strncmp(argument, "0x", 2) != 0 || !isxdigit((unsigned char)argument[2]) ||
        !isxdigit((unsigned char)argument[3]) || argument[4] != '=')
        return NULL;
    *code = (uint8_t)strtoul(argument, NULL, 16);
    return argument + 5;
}

/* The bytes of a rule of one position: where it is found in a text of each byte once. */
static void read_set(const rule *set, uint8_t *bits)
{
    uint8_t each[256];
    uint32_t found[256];
    jazhuppe_answer a;

    for (int c = 0; c < 256; c++)
        each[c] = (uint8_t)c;
    a = search(set, each, sizeof each, found);
    for (uint32_t i = 0; i < a.count; i++)
        bits[found[i] / 8] |= (uint8_t)(1 << found[i] % 8);
}

static rule rule_of(const char *bytes)
{
    rule r;

    memset(&r, 0, sizeof r);
    r.bytes = (const uint8_t *)bytes;
    r.length = strlen(bytes);
    return r;
}

/* Whether a SET is one position of a rule; if not, it has been told. What 16 refuses is more than one: where its gap makes
 * but one, that is optional, and stands beside another. */
static bool one_position(const rule *set)
{
    jazhuppe_prepared p = jazhuppe_prepare(set->bytes, set->length, set->fold);
    bool more = p.positions > 1 || p.number == JAZHUPPE_OUTER_GAP;

    if (more)
        misused("SET is not one position of a rule: ", (const char *)set->bytes);
    else if (p.number != 0)
        refused_rule(set, p.number, p.place);
    return p.number == 0 && !more;
}

/* Adds what -c was given to the rule's codes; false where it has said what is wrong. */
static bool take_code(const char *argument, rule *r)
{
    uint8_t code = 0;
    const char *spelt = argument == NULL ? NULL : read_code(argument, &code);
    rule set = rule_of(spelt == NULL ? "" : spelt);

    if (argument == NULL) {
        misused("-c needs CODE=SET", "");
        return false;
    }
    if (spelt == NULL || r->codes_count == JAZHUPPE_CODES_MOST) {
        misused(spelt == NULL ? "not CODE=SET, with CODE one byte or 0xHH: " : "more than 8 codes: ", argument);
        return false;
    }
    if (!one_position(&set))
        return false;
    r->codes[r->codes_count] = code;
    read_set(&set, r->sets + r->codes_count * JAZHUPPE_SET_BYTES);
    r->codes_count++;
    return true;
}

/* The letters of one argument; -c takes the rest of it, or the next one. False where it has said what is wrong. */
static bool take_letters(char **argv, int *at, rule *r, output *printed)
{
    const char *option = argv[*at];

    for (const char *letter = option + 1; *letter != '\0'; letter++) {
        switch (*letter) {
        case 'i': r->fold = 1; break;
        case 'e': *printed = ENDS; break;
        case 'r': *printed = RAW_ENDS; break;
        case 's': *printed = STARTS; break;
        case 't': *printed = TEXTS; break;
        case 'c': return take_code(letter[1] != '\0' ? letter + 1 : argv[++*at], r);
        default: misused("no such option: ", option); return false;
        }
    }
    return true;
}

/* Whether the finder takes the rule and its codes; if not, it has been told. */
static bool accepted(const rule *r)
{
    uint64_t scan[JAZHUPPE_SCAN_WORDS];
    jazhuppe_prepared p = open_scan(r, scan);

    if (p.number == JAZHUPPE_CODES)
        refused_codes();
    else if (p.number != 0)
        refused_rule(r, p.number, p.place);
    return p.number == 0;
}

/* Prints a stored rule's new text. */
static int rewrite(const rule *r)
{
    uint8_t text[JAZHUPPE_REWRITE_BUFFER];
    jazhuppe_text t = jazhuppe_rewrite(r->bytes, r->length, r->fold, text, sizeof text);

    if (t.number == JAZHUPPE_RULE_LONG && r->length <= JAZHUPPE_RULE_MOST)
        refused_rewriting();
    else if (t.number != 0)
        refused_rule(r, t.number, t.place);
    if (t.number != 0)
        return TROUBLE;
    fwrite(text, 1, t.length, stdout);
    end_line();
    return FOUND;
}

/* Prints a name that the imported rule covers. */
static int accept_name(const uint8_t *text, size_t length, const char *name)
{
    size_t bytes = strlen(name);
    jazhuppe_covered c = jazhuppe_covers(text, length, 0, (const uint8_t *)name, bytes);

    if (c.number != 0) {
        trouble("NAME", refusal_words(c.number));
        return TROUBLE;
    }
    if (c.covered == 0)
        return NONE;
    for (size_t i = 0; i < bytes; i++)
        print_text_byte((uint8_t)name[i]);
    end_line();
    return FOUND;
}

/* Prints the rule for a LIKE pattern; or, of names, those that the pattern accepts. */
static int like(const rule *pattern, char **names, int count)
{
    uint8_t text[JAZHUPPE_IMPORT_BUFFER];
    jazhuppe_text t = jazhuppe_import_like(pattern->bytes, pattern->length, text, sizeof text);
    int status = NONE;

    if (t.number != 0) {
        refused_import(pattern, t.number, t.place);
        return TROUBLE;
    }
    if (count == 0) {
        fwrite(text, 1, t.length, stdout);
        end_line();
        return FOUND;
    }
    for (int i = 0; i < count && write_error == 0; i++)
        status = both(status, accept_name(text, t.length, names[i]));
    return status;
}

int main(int argc, char **argv)
{
    rule r = rule_of("");
    output printed = ENDS;
    int at = 1;

    for (; at < argc && argv[at][0] == '-' && argv[at][1] != '\0'; at++) {
        if (strcmp(argv[at], "--") == 0) {
            at++;
            break;
        }
        if (strcmp(argv[at], "--help") == 0)
            return print_help();
        if (strcmp(argv[at], "--version") == 0)
            return print_version();
        if (strcmp(argv[at], "--rewrite") == 0)
            printed = REWRITTEN;
        else if (strcmp(argv[at], "--like") == 0)
            printed = LIKE;
        else if (!take_letters(argv, &at, &r, &printed))
            return TROUBLE;
    }
    if (at == argc)
        return misused(printed == LIKE ? "PATTERN is missing" : "RULE is missing", "");
    r.bytes = (const uint8_t *)argv[at];
    r.length = strlen(argv[at]);
    signal(SIGPIPE, SIG_IGN);
    if (printed == REWRITTEN && (at + 1 < argc || r.codes_count > 0))
        return misused("--rewrite takes no FILE and no -c", "");
    if (printed == REWRITTEN)
        return closed(rewrite(&r));
    if (printed == LIKE && (r.fold != 0 || r.codes_count > 0))
        return misused("--like takes no -i and no -c", "");
    if (printed == LIKE)
        return closed(like(&r, argv + at + 1, argc - at - 1));
    if (!accepted(&r))
        return TROUBLE;
    progress.wanted = isatty(STDERR_FILENO) != 0;
    return closed(find(&r, printed, argv + at + 1, argc - at - 1));
}
