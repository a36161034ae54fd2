/*
 * Checking reel files from C. Link target/staticlib/libreport.a, which `tools/build` makes; it needs memcpy,
 * memmove and memset of the C library and nothing else. The file, the report and the numbers are described in docs/FORMAT.md,
 * docs/REFUSALS.md and docs/RULES.md.
 *
 * Both calls keep no state and allocate nothing, so threads may call them at the same time, each with a buffer of its own.
 *
 * What they answer is proved for any bytes whatever. What is not checked, and so is for the caller to ensure:
 * - file points to file_len bytes, and out to out_len bytes that have been given some value;
 * - the two do not overlap, and while the call runs nobody else writes either or reads out;
 * - a null pointer goes only with a length of 0.
 */
#ifndef REEL_H
#define REEL_H

#include <stddef.h>
#include <stdint.h>

#ifdef __cplusplus
extern "C" {
#endif

/* The longest file that is reported on, and the shortest buffer for a report. No report is longer than that buffer. */
#define REEL_LONGEST_FILE 65536
#define REEL_SHORTEST_BUFFER 64

/* The answer of reel_report for a buffer that is too short. */
#define REEL_SHORT_BUFFER 7

/*
 * Reports on a file in lines of text, each ended by a newline, with no zero byte after them.
 *
 * Where out_len is under 64 it answers 7 and writes nothing. Otherwise it writes the report at the front of out and answers
 * how many bytes that took, 10 to 64, so that 7 is never such a number. The rest of out stays as it was, and file always does.
 *
 * The report is one of
 *   REFUSED 9     the file has more than 65,536 bytes, and was not read
 *   REFUSED n     the file is refused, by n from 1 to 5
 *   REEL N L      the file holds N packets and L entries, and then one of
 *     APPROVED      no number of rounds breaks a rule
 *     BREACH r p q  the first breach: in round r, 0 or 1, packet p, counted from 0, breaks rule q, 20 to 31;
 *                   for rule 31 p is N, one past the last
 */
size_t reel_report(const uint8_t *file, size_t file_len, uint8_t *out, size_t out_len);

/*
 * Checks a file of any length, and writes nothing. It answers
 *   0          no number of rounds breaks a rule
 *   1 to 5     the file is refused by that number
 *   20 to 31   the rule of the first breach
 */
uint64_t reel_check(const uint8_t *file, size_t file_len);

#ifdef __cplusplus
}
#endif

#endif
