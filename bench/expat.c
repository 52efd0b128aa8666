/* Expat as a decoder: its character data, put together. */
#include "bench.h"

#include <expat.h>
#include <string.h>

typedef struct {
    uint8_t *out;
    size_t n;
} written;

static void put(void *context, const XML_Char *text, int length)
{
    written *w = context;
    memcpy(w->out + w->n, text, (size_t)length);
    w->n += (size_t)length;
}

static void parse(XML_Parser p, const void *text, size_t length, int last)
{
    if (XML_Parse(p, text, (int)length, last) != XML_STATUS_OK)
        die(XML_ErrorString(XML_GetErrorCode(p)), "expat");
}

size_t expat_decode(bytes raw, uint8_t *out)
{
    written w = {out, 0};
    XML_Parser p = need(XML_ParserCreate("UTF-8"));
    XML_SetUserData(p, &w);
    XML_SetCharacterDataHandler(p, put);
    parse(p, "<p>", 3, 0);
    parse(p, raw.at, raw.length, 0);
    parse(p, "</p>", 4, 1);
    XML_ParserFree(p);
    return w.n;
}
