/* second.c: see second.h. */
#include "second.h"

#include <stdlib.h>
#include <string.h>

/* ---- rule text */

static bool among(uint8_t c, const char *bytes)
{
    return c != 0 && strchr(bytes, c) != NULL;
}

static bool is_mark(uint8_t c)
{
    return among(c, ".[]{}?+*\\");
}

static uint8_t other_case(uint8_t c)
{
    if (c >= 'a' && c <= 'z')
        return (uint8_t)(c - 'a' + 'A');
    if (c >= 'A' && c <= 'Z')
        return (uint8_t)(c - 'A' + 'a');
    return c;
}

static void widen(bool *admits)
{
    bool before[256];

    memcpy(before, admits, sizeof before);
    for (int c = 0; c < 256; c++)
        if (before[c])
            admits[other_case((uint8_t)c)] = true;
}

typedef struct {
    const uint8_t *bytes;
    size_t length, at;
    bool fold;
} reader;

static bool more(const reader *r)
{
    return r->at < r->length;
}

static bool next_is(const reader *r, uint8_t c)
{
    return more(r) && r->bytes[r->at] == c;
}

/* After a \: the byte that it gives. */
static bool read_escaped(reader *r, uint8_t *c)
{
    if (!more(r) || !(is_mark(r->bytes[r->at]) || among(r->bytes[r->at], "^-")))
        return false;
    *c = r->bytes[r->at++];
    return true;
}

/* A single byte of a class, or an end of a range. */
static bool read_class_byte(reader *r, uint8_t *c)
{
    if (!more(r) || next_is(r, '-') || next_is(r, ']'))
        return false;
    *c = r->bytes[r->at++];
    return *c != '\\' || read_escaped(r, c);
}

static bool read_class_item(reader *r, bool *admits)
{
    uint8_t lo, hi;

    if (!read_class_byte(r, &lo))
        return false;
    hi = lo;
    if (next_is(r, '-')) {
        r->at++;
        if (!read_class_byte(r, &hi) || hi < lo)
            return false;
    }
    for (int c = lo; c <= hi; c++)
        admits[c] = true;
    return true;
}

/* After the [. */
static bool read_class(reader *r, bool *admits)
{
    bool turned = next_is(r, '^'), some = false;

    if (turned)
        r->at++;
    do {
        if (!read_class_item(r, admits))
            return false;
    } while (!next_is(r, ']'));
    r->at++;
    if (r->fold)
        widen(admits);
    for (int c = 0; c < 256; c++) {
        admits[c] = admits[c] != turned;
        some = some || admits[c];
    }
    return some;
}

static bool read_bound(reader *r, int *bound)
{
    int digits = 0;

    *bound = 0;
    while (more(r) && r->bytes[r->at] >= '0' && r->bytes[r->at] <= '9') {
        if (++digits > 2)
            return false;
        *bound = *bound * 10 + (r->bytes[r->at++] - '0');
    }
    return digits > 0;
}

/* After the {. */
static bool read_gap(reader *r, int *least, int *most)
{
    if (!read_bound(r, least) || !next_is(r, ','))
        return false;
    r->at++;
    if (!read_bound(r, most) || !next_is(r, '}'))
        return false;
    r->at++;
    return *least <= *most && *most >= 1;
}

/* One element but its mark: the fault's number, or 0. It makes `most` positions, `least` of them not optional. */
static uint32_t read_kind(reader *r, bool *admits, int *least, int *most)
{
    uint8_t c = r->bytes[r->at++];

    memset(admits, 0, 256 * sizeof *admits);
    *least = *most = 1;
    if (c == '[')
        return read_class(r, admits) ? 0 : JAZHUPPE_CLASS;
    if (c == '{' || c == '.') {
        memset(admits, 1, 256 * sizeof *admits);
        return c == '.' || read_gap(r, least, most) ? 0 : JAZHUPPE_GAP;
    }
    if (among(c, "?+*"))
        return JAZHUPPE_MARK;
    if (among(c, "]}") || (c == '\\' && !read_escaped(r, &c)))
        return JAZHUPPE_BYTE;
    admits[c] = true;
    if (r->fold)
        widen(admits);
    return 0;
}

/* The next element, into the rule's positions. */
static uint32_t read_element(reader *r, second_rule *rule)
{
    bool admits[256], gap = next_is(r, '{'), optional = false, repeatable = false;
    int least, most;
    uint32_t fault = read_kind(r, admits, &least, &most);

    if (fault != 0)
        return fault;
    if (rule->count + (size_t)most > JAZHUPPE_POSITIONS_MOST)
        return JAZHUPPE_POSITIONS;
    if (!gap && more(r) && among(r->bytes[r->at], "?+*")) {
        optional = !next_is(r, '+');
        repeatable = !next_is(r, '?');
        r->at++;
    }
    for (int i = 0; i < most; i++) {
        second_position *p = &rule->positions[rule->count++];

        memcpy(p->admits, admits, sizeof admits);
        p->optional = optional || i < most - least;
        p->repeatable = repeatable;
    }
    return 0;
}

/* A mark that follows an element which takes none, or has taken one, begins an element: so its fault is found there. */
static void read_elements(reader *r, second_rule *rule)
{
    while (more(r)) {
        size_t at = r->at;

        rule->number = read_element(r, rule);
        if (rule->number != 0) {
            rule->place = (uint32_t)at;
            return;
        }
    }
}

static size_t shortest(const second_rule *rule)
{
    size_t m = 0;

    for (size_t i = 0; i < rule->count; i++)
        m += !rule->positions[i].optional;
    return m;
}

second_rule second_read_stored(const uint8_t *rule, size_t rule_len, uint32_t fold)
{
    reader r = {rule, rule_len, 0, fold != 0};
    second_rule read;

    memset(&read, 0, sizeof read);
    if (rule_len == 0) {
        read.number = JAZHUPPE_RULE_EMPTY;
    } else if (rule_len > JAZHUPPE_RULE_MOST) {
        read.number = JAZHUPPE_RULE_LONG;
        read.place = JAZHUPPE_RULE_MOST;
    } else {
        read_elements(&r, &read);
        if (read.number == 0 && shortest(&read) == 0) {
            read.number = JAZHUPPE_ADMITS_EMPTY;
            read.place = (uint32_t)rule_len;
        }
    }
    return read;
}

/* ---- outer gaps */

/* An element of a rule's text: its spelling, and its bounds, which are unequal in some gaps alone. */
typedef struct {
    size_t from, to;
    int least, most;
} element;

static element element_at(const uint8_t *text, size_t length, size_t at)
{
    reader r = {text, length, at, false};
    bool admits[256];
    element e;

    e.from = at;
    read_kind(&r, admits, &e.least, &e.most);
    e.to = r.at + (more(&r) && among(text[r.at], "?+*"));
    return e;
}

static element last_element(const uint8_t *text, size_t length)
{
    element e = element_at(text, length, 0);

    while (e.to < length)
        e = element_at(text, length, e.to);
    return e;
}

static bool unequal(element e)
{
    return e.least < e.most;
}

second_rule second_read(const uint8_t *rule, size_t rule_len, uint32_t fold)
{
    second_rule read = second_read_stored(rule, rule_len, fold);
    element first, last;

    if (read.number != 0)
        return read;
    first = element_at(rule, rule_len, 0);
    last = last_element(rule, rule_len);
    if (unequal(first) || unequal(last)) {
        read.number = JAZHUPPE_OUTER_GAP;
        read.place = (uint32_t)(unequal(first) ? first.from : last.from);
    }
    return read;
}

/* The text anew: what stands before the gap, the dots, what stands after it. */
static void turn_into_dots(second_rewriting *w, element gap)
{
    uint8_t before[SECOND_STORED_MOST];
    size_t dots = (size_t)gap.least, after = w->length - gap.to;

    memcpy(before, w->text, w->length);
    w->length = gap.from + dots + after;
    if (w->length > sizeof w->text)
        abort();
    memset(w->text + gap.from, '.', dots);
    memcpy(w->text + gap.from + dots, before + gap.to, after);
}

second_rewriting second_rewritten(const uint8_t *rule, size_t rule_len)
{
    second_rewriting w;

    memset(&w, 0, sizeof w);
    memcpy(w.text, rule, rule_len);
    w.length = rule_len;
    for (; unequal(element_at(w.text, w.length, 0)); w.front++)
        turn_into_dots(&w, element_at(w.text, w.length, 0));
    for (; unequal(last_element(w.text, w.length)); w.back++)
        turn_into_dots(&w, last_element(w.text, w.length));
    return w;
}

/* ---- LIKE */

/* The place of the first \ that stands last or before another byte than %, _ or \ ; the length where there is none. */
static size_t bad_backslash(const uint8_t *pattern, size_t length)
{
    for (size_t at = 0; at < length; at++) {
        if (pattern[at] != '\\')
            continue;
        if (at + 1 == length || !among(pattern[at + 1], "%_\\"))
            return at;
        at++;
    }
    return length;
}

/* The rule's text, however long: its length. */
static size_t put_imported(const uint8_t *pattern, size_t length, uint8_t *text)
{
    size_t wrote = 0;

    for (size_t at = 0; at < length; at++) {
        if (pattern[at] == '%') {
            text[wrote++] = '.';
            text[wrote++] = '*';
        } else if (pattern[at] == '_') {
            text[wrote++] = '.';
        } else {
            at += pattern[at] == '\\';
            if (is_mark(pattern[at]))
                text[wrote++] = '\\';
            text[wrote++] = pattern[at];
        }
    }
    return wrote;
}

/* For each count of the name's first bytes, whether what has been read of the pattern accepts them. */
bool second_like(const uint8_t *pattern, size_t pattern_len, const uint8_t *name, size_t name_len)
{
    bool accepted[SECOND_PLAN_MOST + 1] = {true};

    if (name_len > SECOND_PLAN_MOST)
        abort();
    for (size_t at = 0; at < pattern_len; at++) {
        bool any = pattern[at] == '_';

        if (pattern[at] == '%') {
            for (size_t n = 1; n <= name_len; n++)
                accepted[n] = accepted[n] || accepted[n - 1];
            continue;
        }
        at += pattern[at] == '\\';
        for (size_t n = name_len; n > 0; n--)
            accepted[n] = accepted[n - 1] && (any || name[n - 1] == pattern[at]);
        accepted[0] = false;
    }
    return accepted[name_len];
}

/* ---- codes */

/* Bit x % 8, the lowest being 0, of byte x / 8 stands for x. */
static bool has(const uint8_t *set, int x)
{
    return (set[x / 8] >> (x % 8)) % 2 == 1;
}

static const uint8_t *set_of(const uint8_t *sets, size_t k)
{
    return sets + k * JAZHUPPE_SET_BYTES;
}

static bool is_code(const uint8_t *codes, size_t codes_len, int c)
{
    for (size_t k = 0; k < codes_len; k++)
        if (codes[k] == c)
            return true;
    return false;
}

static bool some_code_twice(const uint8_t *codes, size_t codes_len)
{
    for (size_t k = 0; k < codes_len; k++)
        if (is_code(codes, k, codes[k]))
            return true;
    return false;
}

static bool is_empty(const uint8_t *set)
{
    for (int x = 0; x < 256; x++)
        if (has(set, x))
            return false;
    return true;
}

static bool holds_code(const uint8_t *set, const uint8_t *codes, size_t codes_len)
{
    for (size_t k = 0; k < codes_len; k++)
        if (has(set, codes[k]))
            return true;
    return false;
}

static bool codes_alone(const second_position *p, const uint8_t *codes, size_t codes_len)
{
    for (int c = 0; c < 256; c++)
        if (p->admits[c] && !is_code(codes, codes_len, c))
            return false;
    return true;
}

/* Whether 15 refuses them. The sets are looked at only where they are as long as they must be. */
static bool codes_refused(const second_rule *rule, const uint8_t *codes, size_t codes_len, const uint8_t *sets,
                          size_t sets_len)
{
    if (codes_len > JAZHUPPE_CODES_MOST || sets_len != codes_len * JAZHUPPE_SET_BYTES || some_code_twice(codes, codes_len))
        return true;
    for (size_t k = 0; k < codes_len; k++)
        if (is_empty(set_of(sets, k)) || holds_code(set_of(sets, k), codes, codes_len))
            return true;
    for (size_t i = 0; i < rule->count; i++)
        if (codes_alone(&rule->positions[i], codes, codes_len))
            return true;
    return false;
}

static bool share_a_byte(const bool *admits, const uint8_t *set)
{
    for (int x = 0; x < 256; x++)
        if (admits[x] && has(set, x))
            return true;
    return false;
}

void second_read_codes(second_rule *rule, const uint8_t *codes, size_t codes_len, const uint8_t *sets, size_t sets_len)
{
    if (rule->number != 0)
        return;
    if (codes_refused(rule, codes, codes_len, sets, sets_len)) {
        rule->number = JAZHUPPE_CODES;
        return;
    }
    rule->codes_count = codes_len;
    for (size_t k = 0; k < codes_len; k++) {
        rule->codes[k] = codes[k];
        for (size_t i = 0; i < rule->count; i++)
            rule->positions[i].code_fits[k] = share_a_byte(rule->positions[i].admits, set_of(sets, k));
    }
}

bool second_fits(const second_rule *rule, size_t i, uint8_t c)
{
    for (size_t k = 0; k < rule->codes_count; k++)
        if (rule->codes[k] == c)
            return rule->positions[i].code_fits[k];
    return rule->positions[i].admits[c];
}

/* ---- references */

static const char *const names[] = {"&amp;", "&lt;", "&gt;", "&apos;", "&quot;"};
static const char name_bytes[] = "&<>'\"";
enum { NAMES = 5, FORM_MOST = 32, REPLACEMENT = 0xFFFD };

static int digit_value(uint8_t c, int base)
{
    const char *digits = "0123456789abcdef";
    const char *at = c == 0 ? NULL : strchr(digits, c >= 'A' && c <= 'F' ? other_case(c) : c);

    return at == NULL || at - digits >= base ? -1 : (int)(at - digits);
}

static bool is_char(uint32_t n)
{
    return n == 9 || n == 10 || n == 13 || (n >= 32 && n <= 55295) || (n >= 57344 && n <= 65533) ||
           (n >= 65536 && n <= 1114111);
}

/* The code point that a form, the ; included, becomes; 0 if these bytes are no form. Eight digits after the zeros in
 * front are over every Char. */
static uint32_t form_becomes(const uint8_t *s, size_t n)
{
    uint32_t value = 0;
    size_t i = 2, digits = 0;
    int base = 10;

    for (int k = 0; k < NAMES; k++)
        if (n == strlen(names[k]) && memcmp(s, names[k], n) == 0)
            return (uint8_t)name_bytes[k];
    if (n < 4 || s[1] != '#')
        return 0;
    if (s[2] == 'x') {
        base = 16;
        i = 3;
        if (n < 5)
            return 0;
    }
    for (; i < n - 1; i++) {
        int d = digit_value(s[i], base);

        if (d < 0)
            return 0;
        digits += digits > 0 || d > 0;
        if (digits < 8)
            value = value * (uint32_t)base + (uint32_t)d;
    }
    return digits < 8 && is_char(value) ? value : REPLACEMENT;
}

static size_t put_utf8(uint32_t n, uint8_t *out)
{
    size_t tail = n < 0x80 ? 0 : n < 0x800 ? 1 : n < 0x10000 ? 2 : 3;
    static const uint8_t lead[] = {0, 0xC0, 0xE0, 0xF0};

    out[0] = (uint8_t)(lead[tail] | (n >> (6 * tail)));
    for (size_t i = 1; i <= tail; i++)
        out[i] = (uint8_t)(0x80 | ((n >> (6 * (tail - i))) & 0x3F));
    return tail + 1;
}

/* How many bytes a form at the beginning takes, and the code point that it becomes; 0 if there is none. */
static size_t reference(const uint8_t *s, size_t n, uint32_t *code)
{
    for (size_t k = 0; s[0] == '&' && k < n && k < FORM_MOST; k++) {
        if (s[k] == ';') {
            *code = form_becomes(s, k + 1);
            return *code != 0 ? k + 1 : 0;
        }
    }
    return 0;
}

size_t second_decoded(const uint8_t *raw, size_t raw_len, uint8_t *out, uint32_t *raws)
{
    size_t at = 0, wrote = 0;

    while (at < raw_len) {
        uint32_t code;
        size_t takes = reference(raw + at, raw_len - at, &code), from = wrote;

        if (takes > 0) {
            wrote += put_utf8(code, out + wrote);
            at += takes;
        } else {
            out[wrote++] = raw[at++];
        }
        for (size_t i = from; raws != NULL && i < wrote; i++)
            raws[i] = (uint32_t)at;
    }
    return wrote;
}

/* Whether a tail is a beginning of a form, and shorter than one. */
static bool could_grow(const uint8_t *s, size_t n)
{
    int base = 10;
    size_t i = 2;

    for (int k = 0; k < NAMES; k++)
        if (n < strlen(names[k]) && memcmp(s, names[k], n) == 0)
            return true;
    if (n < 2 || n >= FORM_MOST || s[0] != '&' || s[1] != '#')
        return false;
    if (n > 2 && s[2] == 'x') {
        base = 16;
        i = 3;
    }
    for (; i < n; i++)
        if (digit_value(s[i], base) < 0)
            return false;
    return true;
}

size_t second_held(const uint8_t *raw, size_t raw_len)
{
    size_t n = raw_len < FORM_MOST - 1 ? raw_len : FORM_MOST - 1;

    while (n > 0 && !could_grow(raw + raw_len - n, n))
        n--;
    return n;
}

/* ---- occurrences */

/* What shares reach from one start: where tried[i][at] is `turn`, the first i positions can fill the bytes from the start to
 * at. Each start has its turn, so that nothing need be cleared. */
typedef struct {
    const second_rule *rule;
    const uint8_t *text;
    size_t length;
    uint64_t turn, tried[JAZHUPPE_POSITIONS_MOST + 1][SECOND_PLAN_MOST + 1];
} cutting;

static bool fills(const cutting *c, size_t i, size_t at)
{
    return c->tried[i][at] == c->turn;
}

static void cut(cutting *c, size_t i, size_t at)
{
    const second_position *p;

    if (fills(c, i, at))
        return;
    c->tried[i][at] = c->turn;
    if (i == c->rule->count)
        return;
    p = &c->rule->positions[i];
    if (p->optional)
        cut(c, i + 1, at);
    for (size_t to = at; to < c->length && second_fits(c->rule, i, c->text[to]); to++) {
        cut(c, i + 1, to + 1);
        if (!p->repeatable)
            break;
    }
}

/* All cuts of the text from a start on. The caller's text is at most SECOND_PLAN_MOST bytes. */
static cutting *cuts_from(const second_rule *rule, const uint8_t *text, size_t length, size_t start)
{
    static cutting c;

    if (length > SECOND_PLAN_MOST)
        abort();
    c.rule = rule;
    c.text = text;
    c.length = length;
    c.turn++;
    cut(&c, 0, start);
    return &c;
}

void second_filled(const second_rule *rule, const uint8_t *text, size_t text_len, bool *filled)
{
    memset(filled, 0, (rule->count + 1) * sizeof *filled);
    for (size_t start = 0; start <= text_len; start++) {
        const cutting *c = cuts_from(rule, text, text_len, start);

        for (size_t i = 0; i <= rule->count; i++)
            filled[i] = filled[i] || fills(c, i, text_len);
    }
}

/* The earliest end of an occurrence that starts there, or 0. */
static size_t earliest_end(const second_rule *rule, const uint8_t *text, size_t length, size_t start)
{
    const cutting *c = cuts_from(rule, text, length, start);

    for (size_t end = start; end <= length; end++)
        if (fills(c, rule->count, end))
            return end;
    return 0;
}

/* The ends over `from`, rising. */
static size_t ends_over(const second_rule *rule, const uint8_t *text, size_t length, size_t from, uint32_t *ends)
{
    bool is_end[SECOND_PLAN_MOST + 1] = {false};
    size_t count = 0;

    for (size_t start = 0; start < length; start++) {
        const cutting *c = cuts_from(rule, text, length, start);

        for (size_t end = from + 1; end <= length; end++)
            is_end[end] = is_end[end] || fills(c, rule->count, end);
    }
    for (size_t end = from + 1; end <= length; end++)
        if (is_end[end])
            ends[count++] = (uint32_t)end;
    return count;
}

size_t second_ends(const second_rule *rule, const uint8_t *text, size_t text_len, uint32_t *ends)
{
    return ends_over(rule, text, text_len, 0, ends);
}

size_t second_pairs(const uint32_t *ends, size_t count, const uint32_t *raws, uint32_t *pairs)
{
    for (size_t i = 0; i < count; i++) {
        pairs[2 * i] = ends[i];
        pairs[2 * i + 1] = raws[ends[i] - 1];
    }
    return count;
}

size_t second_starts(const second_rule *rule, const uint8_t *text, size_t text_len, uint32_t *starts)
{
    size_t count = 0;

    for (size_t start = 0; start < text_len; start++)
        if (earliest_end(rule, text, text_len, start) != 0)
            starts[count++] = (uint32_t)start;
    return count;
}

/* ---- windows */

/* Whether the bytes begin some string that the rule admits: some first positions can fill them, as some byte fits every
 * position for what comes after. */
static bool begins(const second_rule *rule, const uint8_t *bytes, size_t length)
{
    const cutting *c = cuts_from(rule, bytes, length, 0);

    for (size_t i = 0; i <= rule->count; i++)
        if (fills(c, i, length))
            return true;
    return false;
}

static size_t shift(const second_rule *rule, const uint8_t *window, size_t m)
{
    for (size_t j = 1; j < m; j++)
        if (begins(rule, window + j, m - j))
            return j;
    return m;
}

static uint32_t windows(const second_rule *rule, const uint8_t *text, size_t length)
{
    size_t m = shortest(rule);
    uint32_t count = 0;

    for (size_t w = 0; w + m <= length; w += shift(rule, text + w, m))
        count++;
    return count;
}

/* ---- calls */

static jazhuppe_answer answer(uint32_t number, uint32_t place, size_t count, uint32_t tried)
{
    jazhuppe_answer a = {number, place, (uint32_t)count, tried};

    return a;
}

static jazhuppe_prepared prepared(const second_rule *rule)
{
    jazhuppe_prepared p = {rule->number, rule->place, 0, 0};

    if (rule->number == 0) {
        p.positions = (uint32_t)rule->count;
        p.shortest = (uint32_t)shortest(rule);
    }
    return p;
}

static uint32_t whole_refusal(size_t text, size_t list)
{
    if (text > JAZHUPPE_TEXT_MOST)
        return JAZHUPPE_TOO_MUCH;
    return list < text ? JAZHUPPE_TOO_SHORT : 0;
}

jazhuppe_prepared second_prepare(const uint8_t *rule, size_t rule_len, uint32_t fold)
{
    second_rule read = second_read(rule, rule_len, fold);

    return prepared(&read);
}

static jazhuppe_text written(uint32_t number, uint32_t place, size_t length)
{
    jazhuppe_text t = {number, place, (uint32_t)length};

    return t;
}

jazhuppe_text second_rewrite(const uint8_t *rule, size_t rule_len, uint32_t fold, uint8_t *out, size_t out_len)
{
    second_rule read = second_read_stored(rule, rule_len, fold);
    second_rewriting w;

    if (out_len < JAZHUPPE_REWRITE_BUFFER)
        return written(JAZHUPPE_TOO_SHORT, 0, 0);
    if (read.number != 0)
        return written(read.number, read.place, 0);
    w = second_rewritten(rule, rule_len);
    if (w.length > JAZHUPPE_RULE_MOST)
        return written(JAZHUPPE_RULE_LONG, JAZHUPPE_RULE_MOST, 0);
    memcpy(out, w.text, w.length);
    return written(0, 0, w.length);
}

/* The text is made whole, and read as any rule is. */
jazhuppe_text second_import_like(const uint8_t *pattern, size_t pattern_len, uint8_t *out, size_t out_len)
{
    static uint8_t text[2 * SECOND_PATTERN_MOST];
    second_rule read;
    size_t length;

    if (out_len < JAZHUPPE_IMPORT_BUFFER)
        return written(JAZHUPPE_TOO_SHORT, 0, 0);
    if (pattern_len > JAZHUPPE_TEXT_MOST)
        return written(JAZHUPPE_TOO_MUCH, 0, 0);
    if (pattern_len > SECOND_PATTERN_MOST)
        abort();
    if (bad_backslash(pattern, pattern_len) < pattern_len)
        return written(JAZHUPPE_LIKE, (uint32_t)bad_backslash(pattern, pattern_len), 0);
    length = put_imported(pattern, pattern_len, text);
    read = second_read(text, length, 0);
    if (read.number != 0)
        return written(read.number, read.place, 0);
    memcpy(out, text, length);
    return written(0, 0, length);
}

jazhuppe_prepared second_open(const uint8_t *rule, size_t rule_len, uint32_t fold, const uint8_t *codes,
                              size_t codes_len, const uint8_t *sets, size_t sets_len, second_scan *scan)
{
    second_rule read = second_read(rule, rule_len, fold);

    second_read_codes(&read, codes, codes_len, sets, sets_len);
    if (read.number == 0) {
        scan->rule = read;
        scan->length = 0;
        scan->finished = false;
    }
    return prepared(&read);
}

size_t second_text(const second_scan *scan, uint8_t *out, uint32_t *raws)
{
    size_t held = scan->finished ? 0 : second_held(scan->taken, scan->length);

    return second_decoded(scan->taken, scan->length - held, out, raws);
}

static uint32_t scan_refusal(const second_scan *scan, size_t piece_len, size_t pairs_len)
{
    if (scan->finished)
        return JAZHUPPE_FINISHED;
    if (scan->length + piece_len > JAZHUPPE_TEXT_MOST)
        return JAZHUPPE_TOO_MUCH;
    return pairs_len < 2 * (piece_len + 31) ? JAZHUPPE_TOO_SHORT : 0;
}

static jazhuppe_answer scan_call(second_scan *scan, const uint8_t *piece, size_t piece_len, bool finish, uint32_t *pairs,
                                 size_t pairs_len)
{
    uint8_t text[SECOND_PLAN_MOST];
    uint32_t raws[SECOND_PLAN_MOST], ends[SECOND_PLAN_MOST];
    size_t before, after;
    uint32_t number = scan_refusal(scan, piece_len, pairs_len);

    if (number != 0)
        return answer(number, 0, 0, 0);
    if (scan->length + piece_len > SECOND_PLAN_MOST)
        abort();
    before = second_text(scan, text, NULL);
    if (piece_len > 0)
        memcpy(scan->taken + scan->length, piece, piece_len);
    scan->length += piece_len;
    scan->finished = finish;
    after = second_text(scan, text, raws);
    return answer(0, 0, second_pairs(ends, ends_over(&scan->rule, text, after, before, ends), raws, pairs), 0);
}

jazhuppe_answer second_feed(second_scan *scan, const uint8_t *piece, size_t piece_len, uint32_t *pairs, size_t pairs_len)
{
    return scan_call(scan, piece, piece_len, false, pairs, pairs_len);
}

jazhuppe_answer second_finish(second_scan *scan, uint32_t *pairs, size_t pairs_len)
{
    return scan_call(scan, NULL, 0, true, pairs, pairs_len);
}

jazhuppe_answer second_decode(const uint8_t *raw, size_t raw_len, uint8_t *out, size_t out_len)
{
    uint32_t number = whole_refusal(raw_len, out_len);

    if (number != 0)
        return answer(number, 0, 0, 0);
    return answer(0, 0, second_decoded(raw, raw_len, out, NULL), 0);
}

jazhuppe_answer second_search(const uint8_t *rule, size_t rule_len, uint32_t fold, const uint8_t *codes,
                              size_t codes_len, const uint8_t *sets, size_t sets_len, const uint8_t *text,
                              size_t text_len, uint32_t *starts, size_t starts_len)
{
    second_rule read = second_read(rule, rule_len, fold);
    uint32_t number = whole_refusal(text_len, starts_len);

    second_read_codes(&read, codes, codes_len, sets, sets_len);
    if (read.number != 0)
        return answer(read.number, read.place, 0, 0);
    if (number != 0)
        return answer(number, 0, 0, 0);
    return answer(0, 0, second_starts(&read, text, text_len, starts), windows(&read, text, text_len));
}

jazhuppe_span second_show(const uint8_t *rule, size_t rule_len, uint32_t fold, const uint8_t *text, size_t text_len,
                          size_t start)
{
    second_rule read = second_read(rule, rule_len, fold);
    jazhuppe_span none = {text_len, text_len}, shown = {start, 0};

    if (read.number != 0 || text_len > JAZHUPPE_TEXT_MOST || start > text_len)
        return none;
    shown.to = earliest_end(&read, text, text_len, start);
    return shown.to == 0 ? none : shown;
}

jazhuppe_covered second_covers(const uint8_t *rule, size_t rule_len, uint32_t fold, const uint8_t *name, size_t name_len)
{
    second_rule read = second_read(rule, rule_len, fold);
    jazhuppe_covered c = {read.number, read.place, 0};

    if (read.number == 0 && name_len > JAZHUPPE_TEXT_MOST)
        c.number = JAZHUPPE_TOO_MUCH;
    else if (read.number == 0)
        c.covered = fills(cuts_from(&read, name, name_len, 0), read.count, name_len);
    return c;
}

/* ---- turns */

/* Whether bit f, the lowest being 0, is set. */
static bool waits(uint32_t waiting, uint32_t f)
{
    return (waiting >> f) % 2 == 1;
}

jazhuppe_offered second_offer(uint32_t waiting, uint32_t last, uint32_t feed)
{
    jazhuppe_offered o = {0, 0, waiting, last};

    if (feed > 7 || waits(waiting, feed))
        o.number = JAZHUPPE_OFFER;
    else
        o.waiting += (uint32_t)1 << feed;
    return o;
}

jazhuppe_served second_turn(uint32_t waiting, uint32_t last)
{
    jazhuppe_served s = {0, 0, waiting, last};
    uint32_t from = last > 7 ? 7 : last;

    for (uint32_t step = 1; step <= 8 && s.served == 0; step++) {
        uint32_t f = (from + step) % 8;

        if (waits(waiting, f)) {
            s.served = 1;
            s.feed = s.last = f;
            s.waiting -= (uint32_t)1 << f;
        }
    }
    return s;
}
