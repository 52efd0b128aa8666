#include "bench.h"

#include <inttypes.h>
#include <stdio.h>

void heading(const char *title, const char *columns)
{
    printf("\n### %s\n\n%s\n|", title, columns);
    for (const char *p = columns + 1; *p; p++)
        if (*p == '|')
            printf("---|");
    printf("\n");
}

void word_cell(const char *word)
{
    printf("| %s ", word);
}

void count_cell(uint64_t n)
{
    printf("| %" PRIu64 " ", n);
}

void speed_cell(size_t length, double seconds)
{
    if (seconds > 0)
        printf("| %.0f ", 1e-6 * (double)length / seconds);
    else
        printf("| - ");
}

/* A contender that is missing has the time 0. */
void ratio_cell(double over, double under)
{
    double ratio = under > 0 ? over / under : 0;
    if (ratio > 0)
        printf("| %.*f ", ratio < .1 ? 3 : ratio < 10 ? 2 : 1, ratio);
    else
        printf("| - ");
}

void target_cell(double ratio, double least)
{
    if (least > 0 && ratio > 0)
        printf("| %.2f %s ", least, ratio >= least ? "met" : "**missed**");
    else
        printf("| ");
}

void end_row(void)
{
    printf("|\n");
    fflush(stdout);
}
