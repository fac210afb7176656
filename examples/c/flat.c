/*
 * Runs a day by the flat rule, of the members with the greatest numbers, over arrays that are longer than what a run
 * uses, prints its report, and looks at every register afterwards.
 */

#include <inttypes.h>
#include <stdio.h>
#include <stdlib.h>
#include <string.h>

#include "zaldrif.h"

#define USED 1024
#define PLACES 1100

static const uint64_t pattern = UINT64_C(0xA5A5A5A5A5A5A5A5);

static const char sheet[] =
    "INS,15,W,100,1,10,1000000000\n"
    "DEP,63,P,2000000000\n"
    "DEP,63,C,1500\n"
    "GIN,62,15,300\n"
    "ORD,1,63,B,15,700,2,\n"
    "ORD,2,62,S,15,600,3,\n"
    "ORD,3,63,B,15,700,1,\n"
    "TRD,1,1,2,650,2\n"
    "DEP,64,P,1\n"
    "EOT\n"
    "FND,1\n"
    "DLV,1,150\n";

static uint64_t money[PLACES];
static uint64_t goods[PLACES];

static void fill(uint64_t *places)
{
    for (size_t i = 0; i < PLACES; i++)
        places[i] = pattern;
}

/* Whether every used place but those named is 0, and every place beyond them as it was. */
static int rest_is_clear(const char *name, const uint64_t *places, const size_t *named, size_t count)
{
    for (size_t i = 0; i < PLACES; i++) {
        int is_named = 0;
        for (size_t k = 0; k < count; k++)
            is_named |= named[k] == i;
        uint64_t wanted = i < USED ? 0 : pattern;
        if (!is_named && places[i] != wanted) {
            fprintf(stderr, "place %zu of %s is %" PRIu64 "\n", i, name, places[i]);
            return 0;
        }
    }
    return 1;
}

static int is(const char *name, const uint64_t *places, size_t place, uint64_t wanted)
{
    if (places[place] == wanted)
        return 1;
    fprintf(stderr, "place %zu of %s is %" PRIu64 ", and not %" PRIu64 "\n", place, name, places[place], wanted);
    return 0;
}

int main(void)
{
    static uint8_t report[4096];
    fill(money);
    fill(goods);
    memset(report, 0xA5, sizeof report);
    uint64_t length = zaldrif_run_flat_day((const uint8_t *)sheet, sizeof sheet - 1, money, PLACES, goods, PLACES,
                                           report, sizeof report);
    if (length > sizeof report) {
        fputs("memory was wanting, or the report is too long\n", stderr);
        return EXIT_FAILURE;
    }
    if (report[length] != 0xA5) {
        fputs("the buffer was written behind the report\n", stderr);
        return EXIT_FAILURE;
    }
    /* Position and clearing register of member m are at 2m and 2m + 1, goods of instrument i at 16m + i. */
    const size_t named_money[] = {125, 126, 127};
    const size_t named_goods[] = {1007, 1023};
    int right = is("money", money, 125, 975) && is("money", money, 126, UINT64_C(2000000000)) &&
                is("money", money, 127, 525) && is("goods", goods, 1007, 150) && is("goods", goods, 1023, 150) &&
                rest_is_clear("money", money, named_money, 3) && rest_is_clear("goods", goods, named_goods, 2);
    size_t written = fwrite(report, 1, (size_t)length, stdout);
    return right && written == length ? EXIT_SUCCESS : EXIT_FAILURE;
}
