/* bench [--size MiB] [--repeats n] [--only table]: prints the tables, or those of one name. */
#include "bench.h"

#include <stdio.h>
#include <stdlib.h>
#include <string.h>
#include <time.h>

static size_t mebibytes = 64;
static const char *only;

static const struct {
    const char *name;
    void (*print)(const texts *t);
} tables[] = {
    {"scan", scan_tables},
    {"long", long_table},
    {"hostile", hostile_table},
    {"raw", raw_table},
    {"decode", decode_table},
    {"search", search_tables},
    {"matcher", matcher_table},
};
enum { TABLES = sizeof tables / sizeof *tables };

static const char *table_after(int argc, char **argv, int i)
{
    for (int k = 0; i + 1 < argc && k < TABLES; k++)
        if (!strcmp(argv[i + 1], tables[k].name))
            return tables[k].name;
    die("wants scan, long, hostile, raw, decode, search or matcher", argv[i]);
    return NULL;
}

static long number_after(int argc, char **argv, int i, long most)
{
    long n = i + 1 < argc ? strtol(argv[i + 1], NULL, 10) : 0;
    if (n < 1 || n > most)
        die("wants a number in range", argv[i]);
    return n;
}

static void read_options(int argc, char **argv)
{
    for (int i = 1; i < argc; i += 2) {
        if (!strcmp(argv[i], "--size"))
            mebibytes = (size_t)number_after(argc, argv, i, 1024);
        else if (!strcmp(argv[i], "--repeats"))
            repeats = (int)number_after(argc, argv, i, MOST_REPEATS);
        else if (!strcmp(argv[i], "--only"))
            only = table_after(argc, argv, i);
        else
            die("unknown option", argv[i]);
    }
}

static void print_processor(void)
{
    char line[512];
    FILE *f = fopen("/proc/cpuinfo", "r");
    while (f && fgets(line, sizeof line, f))
        if (!strncmp(line, "model name", 10)) {
            printf("%.*s", (int)strcspn(strchr(line, ':') + 2, "\n"), strchr(line, ':') + 2);
            break;
        }
    if (f)
        fclose(f);
}

static void print_title(void)
{
    char day[32];
    time_t t = time(NULL);
    strftime(day, sizeof day, "%Y-%m-%d", gmtime(&t));
    printf("Measured on %s, ", day);
    print_processor();
    printf(". Plans of %zu MiB, least of %d interleaved repeats. MB are 10^6 bytes. A ratio above 1 means that Jazhuppe is faster.\n", mebibytes, repeats);
    if (!hyperscan_peer)
        printf("Hyperscan is left out: libhyperscan-dev is missing.\n");
    if (!expat_peer)
        printf("Expat is left out: libexpat1-dev is missing.\n");
    if (!re2_peer)
        printf("RE2 is left out: libre2-dev is missing.\n");
    if (!pcre2_peer)
        printf("PCRE2 is left out: libpcre2-dev is missing.\n");
}

int main(int argc, char **argv)
{
    read_options(argc, argv);
    size_t length = mebibytes << 20;
    texts t = {plan_text(length, 0), plan_text(length, 1), length / 4};
    print_title();
    for (int i = 0; i < TABLES; i++)
        if (!only || !strcmp(only, tables[i].name))
            tables[i].print(&t);
    print_noise();
    free(t.plan.at);
    free(t.plan_with_ampersands.at);
    return 0;
}
