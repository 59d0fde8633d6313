/* Sifthorma: the sequents of an Event-B machine and its refinement, replays of its recorded runs, and steps pressed on a state.
 *
 * A table is rows of 38 bytes: a tag in 4 columns, three numbers in 11 columns each, byte 10 (docs/GUIDE.md). A log is such rows too.
 * Link with libsifthorma.a, which `rt lib` writes in crates/sifthorma to crates/sifthorma/out/. It is for x86-64.
 *
 * Replies. Every function returns 0, or the number of a refusal, and sets *value in either case:
 *
 *   return   *value                      meaning
 *   0        see each function           the reply
 *   1        0                           frame: over 65,536 bytes, or not whole rows of 38
 *   2        row                         column: the row isn't in the row form
 *   3        row                         tag: unknown, lower than the one before it, or a column that the tag doesn't use isn't 0
 *   4        row                         full: one row more than its limit
 *   5        row                         event: bad machine, class or refined event; machines or initialisations out of order
 *   6        row                         identifier: bad kind, type or owning event
 *   7        row                         reference: unknown operator, unused node column not 0, or a number that names nothing fitting
 *   8        row                         sort: an operand or a root of the wrong sort
 *   9        row of the node             use: a node that isn't used exactly once
 *   10       row that names the root     sight: the formula mentions what it may not
 *   11       row                         twice: a second action or witness of one event for one target
 *   12       0                           missing: an initialisation, an initial action (of a shared variable, in both machines), a witness, a variant for convergent events, or convergent or anticipated events for a variant
 *   13       0                           sequent: k isn't from 1 to the count of sequents
 *   14       0                           entry: j isn't from 1 to the number of the sequent's entries
 *   15       0                           room: the buffer is shorter than the rows
 *   16       row 90 of the step          outside: a term that is read leaves signed 64 bits
 *   17       row 90 of the step          undefined: a term that is read divides by 0, or is a mod b without 0 <= a and 0 < b
 *   18       row, or 0                   log: the row is bad, torn or not the one that is expected; or it is the row 90 of a step that isn't allowed; 0 where the log is empty or ends inside a step
 *
 * sifthorma_press and sifthorma_preview give 16, 17 and 18 with 0 in place of the row.
 *
 * Rows are counted from 1, those of 1 to 11 in the table, those of 16 to 18 in the log. Checks of the table run in the order of their
 * numbers, each over the whole table, and the first row that offends is named; the log is read only where the table is accepted, and
 * its first fault is named. Between 16 and 17 the leftmost operand of a formula decides, operands before their operator. Every input
 * gets a reply; none is too damaged.
 *
 * Buffers. On a refusal no byte of `out` and no record changes. On 0 the rows stand at the start of `out`, and every byte past them keeps
 * its value.
 *
 * Pointers. No pointer may be null, also where its length is 0: any other pointer then does (such as the address of a
 * variable), and nothing is read or written through it. `table` points to table_length readable bytes, `run` to run_length readable
 * ones, `step` to step_length, `out` to out_length writable ones, `value` to an aligned uint64_t, `state`, `first` and `second` to that many
 * aligned records, `first` readable, the others writable. Those of one call don't overlap. No length in bytes is above PTRDIFF_MAX; a log
 * may be as long as that.
 *
 * Lifetimes. Nothing is kept after the call: no pointer, no table, no state. Nothing is allocated. Calls from several threads
 * don't meet, as long as their buffers don't.
 *
 * Stack. A thread that calls is created with SIFTHORMA_STACK bytes of stack or more (pthread_attr_setstacksize); what its own
 * code and thread-local variables use comes on top. With less a call can run off the stack, which ends the program. Arrays have
 * fixed lengths, and recursion goes by rows of the table or by nodes, whose numbers are limited, so no input needs more than the
 * tables at the limits, and a long log no more than a short one. What these need was measured and a third added; it isn't proved
 * (docs/MEASUREMENTS.md).
 */
#ifndef SIFTHORMA_H
#define SIFTHORMA_H

#include <stddef.h>
#include <stdint.h>

#ifdef __cplusplus
extern "C" {
#endif

/* The bytes of a row: a buffer for n rows has n * SIFTHORMA_ROW bytes. */
#define SIFTHORMA_ROW 38

/* The bytes of stack of a thread that calls: see Stack above. */
#define SIFTHORMA_STACK 393216

/* The refusals, by the numbers that the functions return. */
enum {
    SIFTHORMA_FRAME = 1,
    SIFTHORMA_COLUMN = 2,
    SIFTHORMA_TAG = 3,
    SIFTHORMA_FULL = 4,
    SIFTHORMA_EVENT = 5,
    SIFTHORMA_IDENTIFIER = 6,
    SIFTHORMA_REFERENCE = 7,
    SIFTHORMA_SORT = 8,
    SIFTHORMA_USE = 9,
    SIFTHORMA_SIGHT = 10,
    SIFTHORMA_TWICE = 11,
    SIFTHORMA_MISSING = 12,
    SIFTHORMA_SEQUENT = 13,
    SIFTHORMA_ENTRY = 14,
    SIFTHORMA_ROOM = 15,
    SIFTHORMA_OUTSIDE = 16,
    SIFTHORMA_UNDEFINED = 17,
    SIFTHORMA_LOG = 18
};

/* Checks the table. 0: it is accepted, and *value is the count of its sequents. Refusals 1 to 12. */
uint64_t sifthorma_check(const uint8_t *table, size_t table_length, uint64_t *value);

/* Writes sequent k, counted from 1: a row 80 (kind, event or 0, item), a row 84 (of the goal spelled out: how many identifiers it
 * mentions, the lowest and the highest, 0 where there are none), rows 81 (hypotheses), a row 82 (goal). Room is needed for all of them;
 * rows 80 and 84 are no entries. 0: *value is the number of rows written. Refusals 1 to 13 and 15. The longest sequent that was seen has
 * 179 rows: measured, not proved. A caller who is refused with 15 may lend a larger buffer. */
uint64_t sifthorma_write_sequent(const uint8_t *table, size_t table_length, uint64_t k, uint8_t *out, size_t out_length, uint64_t *value);

/* Spells entry j of sequent k, both counted from 1: the hypotheses in the order of the rows 81, then the goal. Writes rows 83
 * (operator, identifier or literal or 0, 0) in prefix order. 0: *value is the number of rows written. Refusals 1 to 15. The longest entry
 * has 67,576 rows: worked out over all formulas of 512 nodes, not proved. */
uint64_t sifthorma_spell_entry(const uint8_t *table, size_t table_length, uint64_t k, uint64_t j, uint8_t *out, size_t out_length, uint64_t *value);

/* Replays a recorded run: whether the log is a run of the table's refined machine, with no term on the way that leaves signed 64 bits.
 * The log is a row 90 (event, 0, 0) for each step, the concrete initialisation first, each with rows 91 (identifier, value, 0; booleans 0
 * or 1) behind it in the order of the identifiers: constants and all concrete and shared variables after the initialisation, else the
 * event's parameters and those variables' after values. It is read once, step by step: the rows of a step, axioms at the initialisation,
 * guards, then each variable, assigned or not, up to the first fault. Memory doesn't grow with the log.
 * 0: it is a run, and *value is the number of its steps after the initialisation. Refusals 1 to 12, 16, 17 and 18. */
uint64_t sifthorma_replay(const uint8_t *table, size_t table_length, const uint8_t *run, size_t run_length, uint64_t *value);

/* The record of one identifier: its value, for a boolean 0 or 1, and its type, 1 integer or 2 boolean. 16 bytes, the value first, no
 * padding. A state is a list of them, one for each identifier of the table in its order: record i, counted from 0, is that of identifier
 * i + 1. Records of constants, variables and parameters of either machine all have to be there and right. */
struct sifthorma_record {
    int64_t value;
    uint64_t type;
};

/* Presses an event: performs one step of the refined machine on a state. The step is a row 90 (event, 0, 0) of a concrete event that is no
 * initialisation, and rows 91 (identifier, value, 0; booleans 0 or 1) for the event's parameters and the variables that it assigns by a row
 * 52, in the order of the identifiers, and nothing else. First the lists and rows are looked at (18), then axioms, guards and each variable
 * are read in replay's order, with the state's values and the step's parameters, up to the first fault.
 * 0: it was performed, and the records of the concrete and shared variables have the values after it; all others are as before. *value is 0.
 * Refusals 1 to 12, 16, 17 and 18. */
uint64_t sifthorma_press(const uint8_t *table, size_t table_length, const uint8_t *step, size_t step_length, struct sifthorma_record *state, size_t state_length, uint64_t *value);

/* Only looks: writes into `second`, which has as many records as `first`, what pressing would make of `first`, values and types. What `second`
 * held doesn't matter. Replies as those of sifthorma_press; `first` never changes, and `second` only on 0. */
uint64_t sifthorma_preview(const uint8_t *table, size_t table_length, const uint8_t *step, size_t step_length, const struct sifthorma_record *first, size_t first_length, struct sifthorma_record *second, size_t second_length, uint64_t *value);

#ifdef __cplusplus
}
#endif

#endif
