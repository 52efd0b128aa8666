#include "bench.h"

#ifdef WITH_HYPERSCAN
const scanner *const hyperscan_peer = &hyperscan_scanner;
#else
const scanner *const hyperscan_peer = NULL;
#endif

#ifdef WITH_RE2
const matcher *const re2_peer = &re2_matcher;
#else
const matcher *const re2_peer = NULL;
#endif

#ifdef WITH_PCRE2
const matcher *const pcre2_peer = &pcre2_matcher;
#else
const matcher *const pcre2_peer = NULL;
#endif

#ifdef WITH_EXPAT
size_t (*const expat_peer)(bytes raw, uint8_t *out) = expat_decode;
#else
size_t (*const expat_peer)(bytes raw, uint8_t *out) = NULL;
#endif
