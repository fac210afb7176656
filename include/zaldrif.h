/*
 * Zaldrif: a day sheet run through the clearing book of a commodity section.
 *
 * The rules, the sheet and the report are described in docs/RULES.md.
 */
#ifndef ZALDRIF_H
#define ZALDRIF_H

#include <stddef.h>
#include <stdint.h>

#ifdef __cplusplus
extern "C" {
#endif

/*
 * Returned where memory was wanting. No report has this length. A run takes memory by itself for rows,
 * orders, contracts and the text of the report, and gives it back before it returns.
 */
#define ZALDRIF_NO_MEMORY UINT64_MAX

/*
 * Runs a day sheet by the percent rule and writes its report.
 *
 *   sheet, sheet_len    the bytes of the sheet. Above 65,536 bytes none of it is run, and the
 *                       report is the one line 0,R,S,56,0
 *   money, money_len    working memory for the money registers. The position register of member m
 *                       is at place 2m, his clearing register at 2m + 1
 *   goods, goods_len    working memory for the goods registers. That of member m for instrument i
 *                       is at place 16m + i
 *   report, report_len  the buffer for the report
 *
 * Of money and of goods at most the first 1,024 places are used, one for each register. A run sets
 * them to 0 at its start, so that what was in them before has no effect, and leaves in them what the
 * registers hold at the end of the sheet. Later places are left alone. A sheet of more than 65,536
 * bytes, and want of memory, leave all places as they were. Members 0 to 63 are known as far as all
 * their registers are there: 128 places of money and 1,024 of goods make all 64 known, fewer places
 * fewer members.
 *
 * Returns the length of the report in bytes:
 *
 *   at most report_len  that many bytes at the start of the buffer are the report, without a zero
 *                       byte after it; the rest of the buffer is untouched
 *   more                nothing of the buffer is touched. Call again with a buffer of this length:
 *                       the same sheet gives the same report
 *   ZALDRIF_NO_MEMORY   memory was wanting; nothing of money, goods and the buffer is touched
 *
 * All pointers must be valid for their lengths and not null, even where a length is 0, and the four
 * areas must not overlap.
 */
uint64_t zaldrif_run_day(const uint8_t *sheet, size_t sheet_len,
                         uint64_t *money, size_t money_len,
                         uint64_t *goods, size_t goods_len,
                         uint8_t *report, size_t report_len);

/*
 * The same by the flat rule, where the rate of an instrument is the charge for a lot in kopecks, up
 * to 1,000,000,000.
 */
uint64_t zaldrif_run_flat_day(const uint8_t *sheet, size_t sheet_len,
                              uint64_t *money, size_t money_len,
                              uint64_t *goods, size_t goods_len,
                              uint8_t *report, size_t report_len);

#ifdef __cplusplus
}
#endif

#endif
