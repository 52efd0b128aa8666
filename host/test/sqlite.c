/* sqlite.c: draws LIKE patterns and names, and writes them as questions to SQLite, and beside that what the archive answers:
 * `sqlite SQL ANSWERS`. sqlite.sh puts the questions, and holds the answers against each other. The bytes are 1 to 127, as
 * SQLite's _ is a character of UTF-8 and not a byte, and 0 ends its texts. */
#include <stdbool.h>
#include <stdio.h>
#include <stdlib.h>
#include <string.h>

#include "jazhuppe.h"
#include "random.h"

enum { PATTERNS = 4000, NAMES = 4, ROOM = 2000, REFUSALS = JAZHUPPE_OUTER_GAP };

typedef struct {
    uint8_t bytes[ROOM];
    size_t length;
} string;

static random_source source;
static unsigned long refused[REFUSALS + 1], asked, accepted;

static uint32_t below(uint32_t most)
{
    return random_below(&source, most);
}

static bool one_in(uint32_t n)
{
    return below(n) == 0;
}

/* ---- patterns and names */

static void put(string *s, uint8_t c)
{
    if (s->length < ROOM)
        s->bytes[s->length++] = c;
}

/* Few letters, in both cases, so that a good part fits; what SQL or a rule may take otherwise; and seldom any byte. */
static uint8_t any_byte(void)
{
    static const char letters[] = "aaabAB", others[] = "%_\\.[]{}?+*^-,019 '\"&;|\n";

    if (one_in(30))
        return (uint8_t)(1 + below(127));
    return (uint8_t)(one_in(3) ? others[below(sizeof others - 1)] : letters[below(sizeof letters - 1)]);
}

static void put_any(string *s, uint32_t count)
{
    while (count-- > 0)
        put(s, any_byte());
}

static void put_item(string *s)
{
    uint8_t c = any_byte();

    if (one_in(3)) {
        put(s, (uint8_t)"%%_"[below(3)]);
        return;
    }
    if (strchr("%_\\", c) != NULL)
        put(s, '\\');
    put(s, c);
}

/* Few items most often, none, or about as many as a rule has positions; and seldom a \ behind them that takes what comes. */
static void draw_pattern(string *s)
{
    uint32_t items = one_in(50) ? 240 + below(20) : one_in(60) ? 0 : 1 + below(7);

    s->length = 0;
    while (items-- > 0)
        put_item(s);
    if (one_in(12)) {
        put(s, '\\');
        put_any(s, below(3));
    }
}

/* A name that the pattern accepts, or by one byte other, less or more nearly one. */
static void draw_name(string *s, const string *pattern)
{
    s->length = 0;
    for (size_t at = 0; at < pattern->length; at++) {
        uint8_t c = pattern->bytes[at];

        if (c == '%')
            put_any(s, one_in(2) ? below(4) : 0);
        else if (c == '_')
            put_any(s, 1);
        else
            put(s, c == '\\' ? pattern->bytes[++at] : c);
    }
    if (s->length > 0 && one_in(3))
        s->bytes[below((uint32_t)s->length)] = any_byte();
    if (s->length > 0 && one_in(6))
        s->length--;
    if (one_in(6))
        put_any(s, 1);
}

/* ---- questions and answers */

static void write_hexadecimal(FILE *file, const string *s)
{
    for (size_t i = 0; i < s->length; i++)
        fprintf(file, "%02X", s->bytes[i]);
}

/* In hexadecimal, so that no quote, newline or \ comes between. */
static void write_text(FILE *file, const string *s)
{
    fputs("CAST(X'", file);
    write_hexadecimal(file, s);
    fputs("' AS TEXT)", file);
}

static void write_question(FILE *file, const string *pattern, const string *name)
{
    fputs("SELECT hex(", file);
    write_text(file, pattern);
    fputs("), hex(", file);
    write_text(file, name);
    fputs("), ", file);
    write_text(file, name);
    fputs(" LIKE ", file);
    write_text(file, pattern);
    fputs(" ESCAPE '\\';\n", file);
}

/* As SQLite prints what it was asked. */
static void write_answer(FILE *file, const string *pattern, const string *name, uint32_t covered)
{
    write_hexadecimal(file, pattern);
    putc('|', file);
    write_hexadecimal(file, name);
    fprintf(file, "|%lu\n", (unsigned long)covered);
}

/* What is refused is left out: SQLite reads a \ before any byte as that byte, and has no rules to refuse. */
static void ask(FILE *sql, FILE *answers)
{
    static string pattern, name;
    uint8_t rule[JAZHUPPE_IMPORT_BUFFER];
    jazhuppe_text t;

    draw_pattern(&pattern);
    t = jazhuppe_import_like(pattern.bytes, pattern.length, rule, sizeof rule);
    refused[t.number % (REFUSALS + 1)]++;
    for (int n = 0; n < NAMES && t.number == 0; n++) {
        jazhuppe_covered c;

        draw_name(&name, &pattern);
        c = jazhuppe_covers(rule, t.length, 0, name.bytes, name.length);
        write_question(sql, &pattern, &name);
        write_answer(answers, &pattern, &name, c.covered);
        asked++;
        accepted += c.covered;
    }
}

static FILE *written(const char *name)
{
    FILE *file = fopen(name, "w");

    if (file == NULL) {
        perror(name);
        exit(EXIT_FAILURE);
    }
    return file;
}

/* Enough of each kind, so that the answers say something. */
static bool enough(void)
{
    return accepted > PATTERNS && asked - accepted > PATTERNS / 2 && refused[JAZHUPPE_LIKE] > 50 &&
           refused[JAZHUPPE_RULE_EMPTY] > 10 && refused[JAZHUPPE_ADMITS_EMPTY] > 50;
}

int main(int argc, char **argv)
{
    FILE *sql, *answers;
    bool lost;

    if (argc != 3)
        return EXIT_FAILURE;
    sql = written(argv[1]);
    answers = written(argv[2]);
    source = random_from(1);
    fputs("PRAGMA case_sensitive_like=ON;\n", sql);
    for (int n = 0; n < PATTERNS; n++)
        ask(sql, answers);
    lost = fclose(sql) != 0;
    lost = fclose(answers) != 0 || lost;
    printf("%d patterns", PATTERNS);
    for (int number = 1; number <= REFUSALS; number++)
        if (refused[number] > 0)
            printf(", %lu refused by %d", refused[number], number);
    printf("; %lu names, %lu accepted\n", asked, accepted);
    return lost || !enough() ? EXIT_FAILURE : EXIT_SUCCESS;
}
