/* slots.h: the proved slot-table checker as C functions, for x86-64 Linux.
 *
 * `./library` builds them, as a static and as a shared library, and prints where the two lie. They call memcpy and memset, and nothing else.
 *
 * Files. A file of tables is passed as its bytes; every number in it has its low byte first. The first two bytes are k, the count of tables. Then each table
 * has 6 bytes: its kind (one byte, SLOTS_KIND_*), n, the count of its states (one byte), m, the count of its rows (two), and the offset of its rows in the
 * file (two). Then come the rows of all tables, in the tables' order and without gaps, 4 bytes each: the state that the row leaves (one byte), the state that
 * it leads to (one), and its set of resources (two), in which resource r is the bit 1 << r. The rows of a table rise by the state left, then the set, then the
 * state led to, each above the one before. Tables, states and rows are numbered from 0, rows in their table. State 0 is the final one, which no row leaves; the
 * usual start is state 1, or 0 where n is 1. A buffer of SLOTS_FILE_BYTES + 1 bytes is enough to read a file into: one that it cuts is too long in any case.
 *
 * Slices. Each slice is two parameters, a pointer and a length in bytes. Any length will do, 0 and more than is needed included, and any alignment. A C program
 * has to see to three things:
 *   1. The memory is there for the whole length. Where the length is 0 the pointer may be NULL.
 *   2. A slice that is written (`marks`, `steps`, `report`) lies apart from the other slices of the call. It need not be set beforehand.
 *   3. Nothing else writes a slice, or reads a written one, while the call runs.
 * Beyond that nothing is asked: each file, number and length gets an answer. The calls keep nothing between them and take no memory from the heap, so several
 * threads may call at once; each of them needs SLOTS_STACK_BYTES of stack, which is more than some C libraries give a thread.
 *
 * What is returned. SLOTS_OK where the call is carried out, else the reason that turns it back (SLOTS_REASON_*), the first that applies. A report under
 * SLOTS_REPORT_BYTES comes first of all: then SLOTS_REASON_NO_ROOM is returned, nothing is written, and there is no report to read. Next come the reasons of
 * the file: its start, table by table, the length, then row by row, at each in their order below; then those of the question, in their order below.
 *
 * The report. Three 64-bit numbers, low byte first, in its first SLOTS_REPORT_BYTES; each call below says what they are. A call that is turned back reports a
 * place and two zeros, and writes no other slice. The place is an offset in the file: that of the field at fault, or as said below. Bytes past the 24th stay as
 * they are.
 *
 * Marks and steps. 16-bit numbers, two bytes each, low byte first. Bytes after those that are written stay as they are, an odd last byte too. */
#ifndef SLOTS_H
#define SLOTS_H

#include <stddef.h>
#include <stdint.h>

#ifdef __cplusplus
extern "C" {
#endif

#define SLOTS_OK 0

/* Reasons of the file. */
#define SLOTS_REASON_SHORT 1       /* under 2 bytes, or under 2 + 6 * k bytes; the place is the file's length */
#define SLOTS_REASON_TABLE_COUNT 2 /* k is 0 or above 16; in a file of 2 bytes or more this comes before the one above; the place is 0 */
#define SLOTS_REASON_KIND 3        /* a kind is not SLOTS_KIND_DEMAND or SLOTS_KIND_SUPPLY */
#define SLOTS_REASON_STATE_COUNT 4 /* n is 0 or above 64 */
#define SLOTS_REASON_ROW_COUNT 5   /* m is above 512 */
#define SLOTS_REASON_OFFSET 6      /* an offset is not where the rows of the tables before end */
#define SLOTS_REASON_LENGTH 7      /* the file does not end where its rows end; the place is its length */
#define SLOTS_REASON_FROM 8        /* the state that a row leaves is 0 or not below n */
#define SLOTS_REASON_TARGET 9      /* the state that a row leads to is not below n */
#define SLOTS_REASON_ORDER 10      /* a row is not above the one before it in its table; the place is the row */

/* Reasons of the question, the first three each for the demand and then for the supply. The place is 0. */
#define SLOTS_REASON_NO_TABLE 11   /* a table number is not below k */
#define SLOTS_REASON_WRONG_KIND 12 /* `demand` is no demand table, or `supply` no supply table */
#define SLOTS_REASON_NO_STATE 13   /* a state is not below its table's n */
#define SLOTS_REASON_NO_MODE 15    /* `mode` is not SLOTS_MODE_FULL or SLOTS_MODE_PARTIAL */
#define SLOTS_REASON_NO_ROOM 14    /* `marks` is too short, or `steps`; or, before all other reasons, `report` */

#define SLOTS_KIND_DEMAND 1
#define SLOTS_KIND_SUPPLY 2

/* Modes: every greedy choice of the task succeeds, or some choice does. */
#define SLOTS_MODE_FULL 0
#define SLOTS_MODE_PARTIAL 1

/* What a step has for a row where there is none: in the final state, which idles; and where no row answers, or the supply is stuck. */
#define SLOTS_ROW_IDLE 65535
#define SLOTS_ROW_NONE 65534

/* Bytes of a report; of the longest file; the most that a call can ask for marks, and for steps; of stack. */
#define SLOTS_REPORT_BYTES 24
#define SLOTS_FILE_BYTES 32866
#define SLOTS_MARKS_BYTES 8192
#define SLOTS_STEPS_BYTES 16384
#define SLOTS_STACK_BYTES 262144

/* Checks a file. Reports k, the count of its tables, then 0 and 0. */
uint64_t slots_open(const uint8_t *file, size_t file_length, uint8_t *report, size_t report_length);

/* Decides whether the task fits the supply: table `demand` from `demand_state`, beside table `supply` from `supply_state`. `standing` is a set of resources
 * that every slot grants besides, 0 for none; C cuts a larger number to 16 bits without a word.
 * Every pair of a state t of the demand and a state s of the supply gets a mark: the round that first loses the pair, or 0 where it is kept. It is number
 * t * (supply n) + s in `marks`, from 0, so 2 * (demand n) * (supply n) bytes are needed, and written.
 * Reports 1 for yes or 0 for no, then how many pairs are kept, then rounds, the highest mark. */
uint64_t slots_decide(const uint8_t *file, size_t file_length, uint64_t demand, uint64_t supply, uint64_t demand_state, uint64_t supply_state,
                      uint64_t mode, uint16_t standing, uint8_t *marks, size_t marks_length, uint8_t *report, size_t report_length);

/* As slots_decide, with the run that shows a no. A step is two numbers in `steps`: the row that the supply takes, and the row with which the task answers.
 * 4 * (demand n) * (supply n) bytes are needed for the steps, and 4 are written for each.
 * Reports the count of steps, which is the mark of the pair that was asked about, 0 for a yes; then 0 and 0. */
uint64_t slots_run(const uint8_t *file, size_t file_length, uint64_t demand, uint64_t supply, uint64_t demand_state, uint64_t supply_state, uint64_t mode,
                   uint16_t standing, uint8_t *marks, size_t marks_length, uint8_t *steps, size_t steps_length, uint8_t *report, size_t report_length);

#ifdef __cplusplus
}
#endif

#endif
