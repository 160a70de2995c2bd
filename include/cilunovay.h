/* The release monitor, for C and C++.
 *
 * Links with libcilunovay.a, which `tools/library DIRECTORY` makes, for x86-64 Linux.
 *
 * cilunovay_run, cilunovay_check and cilunovay_convert are proved to do what stands
 * above them below, for every container, all overlays and every length, and to return.
 * Not proved, but seen in the archive: they call only memcpy and memset and keep
 * nothing between calls, so that several threads may call them at once, each with
 * slices of its own.
 *
 * Each slice is lent as a pointer and a number of elements. The caller owes, and
 * nothing tests: a pointer is not null, also where the number is 0, is aligned
 * for its type, and points to that many elements; no slice that is lent for writing
 * overlaps another; and until the call returns nobody else writes the container, the
 * draws or the overlays or touches the other slices.
 */
#ifndef CILUNOVAY_H
#define CILUNOVAY_H

#include <stddef.h>
#include <stdint.h>

/* Elements that a run needs in each slice; more are allowed and stay as they are. */
#define CILUNOVAY_WORK 8192   /* work values, and work labels */
#define CILUNOVAY_MARKS 1024  /* marks, one for each row of work memory */
#define CILUNOVAY_OUTPUT 2048 /* released values */
#define CILUNOVAY_TRACE 256   /* four for each of at most 64 steps */
#define CILUNOVAY_ANSWER 4
#define CILUNOVAY_CHECK_ANSWER 2

/* Elements that a conversion needs, beside as many for the new container as the old
 * one has; more are allowed and stay as they are. */
#define CILUNOVAY_OFFSETS 8192 /* offsets of the labels changed */
#define CILUNOVAY_CONVERT_ANSWER 2

/* The longest text of a release, in bytes: lend so many and 51 never occurs. */
#define CILUNOVAY_TEXT 35097

/* The longest container, in bytes. A longer slice is refused with 11. */
#define CILUNOVAY_CONTAINER 65536

/* No plan uses more draws than these: at most 63 steps NOISE, of 256 rows each. */
#define CILUNOVAY_DRAWS 16128

/* How many overlays a run is lent, and the longest one, in bytes. A longer slice is
 * refused with 21. */
#define CILUNOVAY_OVERLAYS 4
#define CILUNOVAY_OVERLAY 65536

/* The numbers that cilunovay_run returns and writes to answer[0], and of these 0, 1
 * and 11 to 20 cilunovay_check and cilunovay_convert too; docs/REFUSALS.md says what
 * causes each and what to do. */
#define CILUNOVAY_RELEASED 0 /* cilunovay_check: accepted; cilunovay_convert: converted */

/* A slice lent for writing is too short, other than that of the text. */
#define CILUNOVAY_TOO_SHORT 1

/* Refused because of the input; the place is a byte offset in the container. */
#define CILUNOVAY_BAD_CONTAINER 11 /* its length, rule year or part count */
#define CILUNOVAY_BAD_DIRECTORY 12 /* a pair of the directory */
#define CILUNOVAY_BAD_TABLE 13     /* a table's header or length */
#define CILUNOVAY_BAD_VALUE 14     /* a value out of range */
#define CILUNOVAY_BAD_LABEL 15     /* an ill-formed label */
#define CILUNOVAY_BAD_PLAN 16      /* the plan's length */
#define CILUNOVAY_BAD_STEP 17      /* a field of a step */
#define CILUNOVAY_BAD_TABLES 18    /* too few tables for a step, or too many */
#define CILUNOVAY_BAD_COLUMNS 19   /* a table or a column that is not there */
#define CILUNOVAY_BAD_SHEETS 20    /* a table's column of sheet numbers */

/* Refused because of an overlay; the place is a byte offset in that overlay. */
#define CILUNOVAY_BAD_OVERLAY 21       /* its length, count or directory, or one of its parts */
#define CILUNOVAY_BAD_OVERLAY_LABEL 22 /* an ill-formed label, or one on a sheet number */

/* Refused because of the state; the place is step, row and column. */
#define CILUNOVAY_NOT_CLEAR 31         /* a FILTER operand, JOIN key or GROUP key has a label */
#define CILUNOVAY_FORBIDDEN 32         /* APPLY, GROUP or NOISE forbidden by a label */
#define CILUNOVAY_OPERAND_NOT_CLEAR 33 /* APPLY's second operand has a label */
#define CILUNOVAY_TOO_MANY 34          /* UNION or JOIN would make more than 256 rows */
#define CILUNOVAY_STAGE_LEFT 35        /* a cell of the last table has a stage left */
#define CILUNOVAY_OVER 36              /* a cell of the last table is OVER */
#define CILUNOVAY_NO_DRAW 37           /* no draw is left for a row of NOISE */

/* Refused because of the text; the place is the number of steps, 0 and 0. */
#define CILUNOVAY_NO_ROOM 51 /* the slice lent for the text is shorter than the text */

#ifdef __cplusplus
extern "C" {
#endif

/* Evaluates the container's plan over its tables, and releases a table with a
 * trace, or refuses and says where. Writes four numbers to the start of answer
 * and returns the first:
 *
 *   0, rows, columns, length    released: output begins with the table's values,
 *                               row by row, and text with the table's text, of so
 *                               many bytes
 *   1, 0, 0, 0                  values, labels, marks, output or trace is too short;
 *                               this is tested before the container is read
 *   11 to 20, offset, 0, 0      refused because of the container
 *   21 or 22, offset, 0, 0      refused because of an overlay
 *   31 to 37, step, row, column refused because of the state
 *   51, steps, 0, 0             refused because text is shorter than the table's
 *                               text; this is tested last, where the table would
 *                               be released otherwise; steps are those of the plan
 *
 * The text is the table as comma-separated values (RFC 4180), in ASCII. The first
 * line has a name for each column of the released table: c0,c1 and so on. Then each
 * row has a line: its values in decimal, with a minus sign where one is below zero
 * and without leading zeros, zero being 0, and commas between them. Nothing is
 * quoted, and every line ends in CR LF, the last one too. A table of no rows has the
 * line of names alone. No zero byte ends the text: its length is answer[3].
 *
 * The draws are the numbers that NOISE adds to values: one for each row of the table
 * that the step reads, in row order and over the whole plan, so that a second NOISE
 * goes on where the first one stopped. A draw may be any 64-bit number; a sum outside
 * the range of values is OVER. A run only reads the draws. There may be more than the
 * plan uses, and none at all; 1 does not test them, and 37 is the answer where a row
 * finds none left. How they are distributed is the caller's care, and so is that none
 * is used twice: docs/DRAWS.md.
 *
 * The overlays are labels for the cells of the container's tables, delivered apart
 * from them: docs/CONTAINER.md has the layout. They are composed onto the tables'
 * labels before step 0, and values and marks stay as they are; so each can ask for
 * more than the tables do and for no less, and their order makes no difference. An
 * empty slice, in any of the four places, is no overlay. A run only reads them. 1 does
 * not test them. They are checked after the whole container, one after the other, and
 * which one is refused is not said. The place of 21 is 0 where the overlay is too long,
 * too short for its directory or has a count other than the number of tables; or the
 * first pair of its directory that is wrong, and the last one where only the end is; or
 * the part that has another length than its table asks for, or another header than its
 * table. The place of 22, which comes after every 21 of the same overlay, is the label:
 * one that is ill-formed, or not zero in a column of sheet numbers.
 *
 * Byte 0 of the container is its part count and byte 1 its rule year (#108), 0 or 1:
 * docs/CONTAINER.md has the layout. Under rule year 1 each group minimum below ten is
 * read as ten, after the overlays are composed and before step 0; nothing else depends
 * on it. What is released under 1 is released under 0 too, with the same rows and text.
 *
 * Values, labels and marks are work memory: the cells of the tables that steps make,
 * and for each row its mark, which says of which ballot sheet it is.
 *
 * After 1 and after 11 to 22 nothing else has changed. After a release, 31 to 37 and
 * 51, trace begins with four numbers for each finished step (kind, rows, columns,
 * stages left; after a release, 35, 36 and 51 every step is finished, and
 * cilunovay_finished below says how many there are), and the first CILUNOVAY_WORK
 * elements of values and of labels and the first CILUNOVAY_MARKS of marks are zero. A
 * refusal leaves output and text as they were. Everything else lent is as it was,
 * what lies past the text in its slice included.
 *
 * 1 does not test text: it may have any length, 0 included. As many elements as the
 * text has bytes are enough.
 *
 * Where answer has fewer than CILUNOVAY_ANSWER elements, nothing lent changes at
 * all, the answer included, and 1 is returned: a lent slice is too short.
 *
 * What values, labels, marks, output, trace and text hold before the call plays no
 * part in the answer, the rows, the text and the trace lines.
 */
uint32_t cilunovay_run(const uint8_t *container, size_t container_length,
                       const int64_t *draws, size_t draws_length,
                       const uint8_t *overlay_0, size_t overlay_0_length,
                       const uint8_t *overlay_1, size_t overlay_1_length,
                       const uint8_t *overlay_2, size_t overlay_2_length,
                       const uint8_t *overlay_3, size_t overlay_3_length,
                       int64_t *values, size_t values_length,
                       uint32_t *labels, size_t labels_length,
                       uint64_t *marks, size_t marks_length,
                       int64_t *output, size_t output_length,
                       uint32_t *trace, size_t trace_length,
                       uint8_t *text, size_t text_length,
                       uint64_t *answer, size_t answer_length);

/* How many steps a call of cilunovay_run has finished, and so how many lines trace
 * begins with: what lies past them is as it was before the call, lines of an
 * earlier call included, and the trace alone does not tell them apart. Takes the
 * container and the answer of that call, of at least CILUNOVAY_ANSWER elements.
 * After 31 to 37 and after 51 it is the step of the answer; after a release every
 * step of the plan, whose length in bytes, at most 1,024, the container has at its
 * bytes 6 and 7; after 1 and 11 to 22 it is 0. This function is tested and not
 * proved.
 */
static inline size_t cilunovay_finished(const uint8_t *container, const uint64_t *answer)
{
    if (answer[0] == CILUNOVAY_RELEASED)
        return ((size_t)container[6] + 256 * (size_t)container[7]) / 16;
    return answer[0] >= CILUNOVAY_NOT_CLEAR ? (size_t)answer[1] : 0;
}

/* The checks of a container alone, those of cilunovay_run before its overlays. Writes
 * two numbers to the start of answer and returns the first: 0, 0 where the container
 * is accepted, else 11 to 20 and the offset. The rest of answer is as it was. Where
 * answer has fewer than CILUNOVAY_CHECK_ANSWER elements it is left as it was, and 1 is
 * returned.
 */
uint32_t cilunovay_check(const uint8_t *container, size_t container_length,
                         uint64_t *answer, size_t answer_length);

/* Converts a container that was written when a group minimum could be 1: each label
 * with a minimum of 1 gets a minimum of 2, and every other byte stays. Writes two
 * numbers to the start of answer and returns the first:
 *
 *   0, count             converted: converted begins with the new container, as long as
 *                        the old one, and offsets with so many numbers, the byte offset
 *                        in the container of each label that was changed, in rising
 *                        order; a container without a minimum of 1 comes back byte for
 *                        byte, and the count is 0
 *   1, 0                 converted has fewer elements than the container, or offsets
 *                        fewer than CILUNOVAY_OFFSETS; this is tested before the
 *                        container is read
 *   11 to 20, offset     refused: the checks are those of cilunovay_check, with the same
 *                        numbers, places and order, but for a minimum under stage A,
 *                        which is 1 to 1,023 here and not 2 to 1,023, and for the rule
 *                        year, which is 0 here and not 0 or 1
 *
 * What was converted is accepted by cilunovay_check. Overlays are not converted: one
 * with a minimum of 1 is refused with 22 and has to be delivered anew.
 *
 * After 1 and after 11 to 20 converted and offsets are as they were. After 0 what lies
 * past the new container in converted, and past the count in offsets, is as it was. The
 * rest of answer is as it was in each case. Where answer has fewer than
 * CILUNOVAY_CONVERT_ANSWER elements, nothing lent changes at all, the answer included,
 * and 1 is returned.
 *
 * The container is only read. What converted and offsets hold before the call plays no
 * part in the answer, the new container and the offsets.
 */
uint32_t cilunovay_convert(const uint8_t *container, size_t container_length,
                           uint8_t *converted, size_t converted_length,
                           uint32_t *offsets, size_t offsets_length,
                           uint64_t *answer, size_t answer_length);

#ifdef __cplusplus
}
#endif

#endif
