/* PCRE2 with its compiler: leftmost matches that do not overlap. */
#define PCRE2_CODE_UNIT_WIDTH 8
#include "bench.h"

#include <pcre2.h>

static uint64_t count_matches(const pcre2_code *code, pcre2_match_data *match, bytes text)
{
    uint64_t n = 0;
    size_t at = 0;
    while (pcre2_match(code, text.at, text.length, at, PCRE2_NO_UTF_CHECK, match, NULL) > 0) {
        at = pcre2_get_ovector_pointer(match)[1];
        n++;
    }
    return n;
}

static uint64_t count(const rule *r, bytes text)
{
    int error;
    size_t place;
    pcre2_code *code = pcre2_compile((PCRE2_SPTR)r->pattern, PCRE2_ZERO_TERMINATED, PCRE2_DOTALL, &error, &place, NULL);
    if (!code || pcre2_jit_compile(code, PCRE2_JIT_COMPLETE))
        die("PCRE2 refused", r->pattern);
    pcre2_match_data *match = pcre2_match_data_create_from_pattern(code, NULL);
    uint64_t n = count_matches(code, match, text);
    pcre2_match_data_free(match);
    pcre2_code_free(code);
    return n;
}

const matcher pcre2_matcher = {"PCRE2", count};
