// RE2 on bytes: leftmost matches that do not overlap.
extern "C" {
#include "bench.h"
}

#include <re2/re2.h>

static uint64_t count(const rule *r, bytes text)
{
    RE2::Options options(RE2::Latin1);
    options.set_dot_nl(true);
    RE2 re(r->pattern, options);
    if (!re.ok())
        die("RE2 refused", r->pattern);
    re2::StringPiece all(reinterpret_cast<const char *>(text.at), text.length), match;
    uint64_t n = 0;
    for (size_t at = 0; re.Match(all, at, all.size(), RE2::UNANCHORED, &match, 1); n++)
        at = static_cast<size_t>(match.end() - all.begin());
    return n;
}

extern "C" const matcher re2_matcher = {"RE2", count};
