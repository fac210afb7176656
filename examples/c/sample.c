/* Runs the sample sheet of docs/RULES.md, section 12, and prints its report. */

#include <inttypes.h>
#include <stdio.h>
#include <stdlib.h>

#include "zaldrif.h"

static const char sheet[] =
    "INS,0,S,60000,1,10,500\n"
    "DEP,1,P,102\n"
    "DEP,2,P,200\n"
    "DEP,1,C,2020\n"
    "ORD,1,1,B,0,1010,2,\n"
    "ORD,2,2,S,0,1000,2,\n"
    "TRD,1,1,2,1010,1\n"
    "WDR,1,P,1\n"
    "EOT\n"
    "FND,1\n"
    "DLV,1,30000\n";

static uint64_t money[128];
static uint64_t goods[1024];

static uint64_t run(uint8_t *report, size_t report_len)
{
    /* The zero byte that ends a C string is no part of the sheet. */
    return zaldrif_run_day((const uint8_t *)sheet, sizeof sheet - 1, money, 128, goods, 1024,
                           report, report_len);
}

int main(void)
{
    uint8_t small[10];
    uint64_t needed = run(small, sizeof small);
    if (needed == ZALDRIF_NO_MEMORY) {
        fputs("memory was wanting\n", stderr);
        return EXIT_FAILURE;
    }
    fprintf(stderr, "a buffer of %zu bytes is too small, %" PRIu64 " are needed\n", sizeof small,
            needed);

    uint8_t *report = malloc((size_t)needed);
    if (report == NULL || run(report, (size_t)needed) != needed) {
        fputs("memory was wanting\n", stderr);
        free(report);
        return EXIT_FAILURE;
    }
    size_t written = fwrite(report, 1, (size_t)needed, stdout);
    free(report);
    return written == needed ? EXIT_SUCCESS : EXIT_FAILURE;
}
