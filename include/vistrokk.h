/* The calls of the Vistrokk library. Link libvistrokk.a: `rt lib` in crates/vistrokk makes it, for x86-64 (ELF, System V calls).
 * docs/FORMAT.md says what the records are.
 *
 * Lent memory: a buffer is a pointer and its length in bytes; its first `used` bytes are the record. A store is a pointer to
 * 32-bit values, aligned to 4 bytes, and their number; its first value is variable 1's. So are a batch's budgets, values and answers.
 * A state is a pointer to 189 words, aligned to 4 bytes. Memory lent to one call must not overlap. NULL may be lent only with length
 * 0. No call keeps a pointer.
 *
 * Reentrant, no statics, no allocation: the archive has code and constants alone, and the one symbol that it needs from outside
 * is memset. No call needs more than about 2 KB of stack (run_batch: 2.2 KB).
 *
 * Records: a program or a term is of edition 1 (kind 7 or 40, a header of 8 bytes) or of edition 2 (kind 9 or 41, a header of 12), whose
 * header holds a ceiling behind k. Calls that are lent a record take both. No value may be above the ceiling; edition 1 counts as
 * the largest value, 4,294,967,295. A call that writes a record keeps the edition and the ceiling of the one that it was lent; only the
 * four calls that move a record to the other edition do not, and each of them takes the one edition that it moves from.
 *
 * Every call ends, and answers VISTROKK_ACCEPTED or the number of the first refusal that applies. A refusal gives 0 for everything
 * else and changes no byte that was lent.
 */
#ifndef VISTROKK_H
#define VISTROKK_H

#include <stddef.h>
#include <stdint.h>

#ifdef __cplusplus
extern "C" {
#endif

/* The longest buffer that may be lent, in bytes; the most variables of a program, and a store has at most as many values; the most
 * stores of a batch. */
#define VISTROKK_BUFFER_MOST 16384
#define VISTROKK_VARIABLES_MOST 16
#define VISTROKK_BATCH_MOST 64

/* The refusals: the number that a call answers. They are tested in the order of this list, which is not that of the numbers. */
enum vistrokk_refusal {
    VISTROKK_ACCEPTED = 0,
    VISTROKK_BAD_BUFFER = 1,             /* a buffer above 16,384 bytes, or `used` above its buffer */
    VISTROKK_BAD_BATCH = 14,             /* batch: no store, or more than 64 */
    VISTROKK_BAD_HEADER = 2,             /* under 8 bytes used, under 12 with kind 9 or 41, wrong kind, or the record's length not `used`;
                                          * moving to an edition: also the kind of that edition */
    VISTROKK_BAD_K = 3,                  /* k not 1 to 16 */
    VISTROKK_MALFORMED = 4,              /* bytes outside the grammar, variable numbers disregarded */
    VISTROKK_BAD_VARIABLE = 5,           /* a variable number not 1 to k */
    VISTROKK_TOO_DEEP = 12,              /* counting: blocks and loops nested over 32 deep, the outermost block counted */
    VISTROKK_LITERAL_ABOVE_CEILING = 15, /* a literal of the program, or a numeral of the term, above the header's ceiling */
    VISTROKK_SMALL_CEILING = 17,         /* moving to edition 1: the header's ceiling is smaller than 4,294,967,295 */
    VISTROKK_BAD_STORE = 6,              /* store: not k values; weighing: not 1 to 16; batch: values, or answers, of another length */
    VISTROKK_BAD_RULE = 11,              /* weighing: a rule number other than 1 or 2 */
    VISTROKK_BAD_STATE = 13,             /* counting: words that hold no state of the program */
    VISTROKK_VALUE_ABOVE_CEILING = 16,   /* a value above the ceiling in a store that is read; counting: also a top, or a sum that waits */
    VISTROKK_BOUND_ASSIGNED = 18,        /* forecast: a command, or a loop as its index, assigns a variable that is some loop's bound */
    VISTROKK_FREE_VARIABLE = 7,          /* a free variable in the term */
    VISTROKK_UNFINISHED = 8,             /* the term is not finished */
    VISTROKK_NO_PROGRAM = 9,             /* no program translates to the term */
    VISTROKK_OUTPUT_TOO_SHORT = 10,      /* the answer is longer than the output buffer; batch: the term than one of the two */
    VISTROKK_FIGURE_TOO_LARGE = 19       /* forecast: a figure above 18,446,744,073,709,551,615 */
};

/* number: VISTROKK_ACCEPTED or the refusal; k: the record's number of variables, 0 with a refusal. */
typedef struct { uint32_t number, k; } vistrokk_checked;

/* Is it a program's record, of k variables? Refusals 1 to 5 and 15. Writes nothing. */
vistrokk_checked vistrokk_check_program(const uint8_t *buf, size_t buf_len, size_t used);

/* Is it a term's record, of k variables? Refusals 1 to 5 and 15. Writes nothing. */
vistrokk_checked vistrokk_check_term(const uint8_t *buf, size_t buf_len, size_t used);

/* number: VISTROKK_ACCEPTED or the refusal; used: the length of the record in the written buffer, 0 with a refusal. Every byte
 * behind that record is zero. */
typedef struct { uint32_t number, used; } vistrokk_written;

/* The term of the program in `src`, into `out`. Refusals 1 (either buffer), 2 to 5, 15 and 10. Writes `out` alone. */
vistrokk_written vistrokk_translate(const uint8_t *src, size_t src_len, size_t used, uint8_t *out, size_t out_len);

/* The program that translates to the term in `src`, into `out`. Refusals 1 (either buffer), 2 to 5, 15, 9 and 10. Writes `out`
 * alone. */
vistrokk_written vistrokk_read_back(const uint8_t *src, size_t src_len, size_t used, uint8_t *out, size_t out_len);

/* The program of edition 1 (kind 7) in `src`, into `out` as one of edition 2 (kind 9) with the largest ceiling, 4,294,967,295: k and the
 * block are the same, and the record is 4 bytes longer. It runs as before in a buffer of 4 bytes more. A program that is of edition 2
 * already has the wrong kind. Refusals 1 (either buffer), 2 to 5, 15 and 10. Writes `out` alone. */
vistrokk_written vistrokk_program_to_edition_2(const uint8_t *src, size_t src_len, size_t used, uint8_t *out, size_t out_len);

/* The way back, to the same bytes: the program of edition 2 in `src`, into `out` as one of edition 1, without its ceiling and so 4 bytes
 * shorter. Edition 1 has the largest ceiling, so one that is smaller would be lost: that is refusal 17. A program that is of edition 1
 * already has the wrong kind. Refusals 1 (either buffer), 2 to 5, 15, 17 and 10. Writes `out` alone. */
vistrokk_written vistrokk_program_to_edition_1(const uint8_t *src, size_t src_len, size_t used, uint8_t *out, size_t out_len);

/* The same of a term: from kind 40 to 41. Refusals 1 (either buffer), 2 to 5, 15 and 10. Writes `out` alone. */
vistrokk_written vistrokk_term_to_edition_2(const uint8_t *src, size_t src_len, size_t used, uint8_t *out, size_t out_len);

/* And back: from kind 41 to 40. Refusals 1 (either buffer), 2 to 5, 15, 17 and 10. Writes `out` alone. */
vistrokk_written vistrokk_term_to_edition_1(const uint8_t *src, size_t src_len, size_t used, uint8_t *out, size_t out_len);

/* number and used: as above. replaced: how many variable records were turned into numerals, 0 with a refusal. */
typedef struct { uint32_t number, used, replaced; } vistrokk_substituted;

/* The store's values for the free variables of the term in `buf`, in place: `used` stays. Refusals 1 to 5, 15, 6 and 16. Writes `buf`
 * alone. */
vistrokk_substituted vistrokk_substitute(uint8_t *buf, size_t buf_len, size_t used, const uint32_t *store, size_t store_len);

/* The values of the finished term in `buf`, into the store. Answers VISTROKK_ACCEPTED, or a refusal 1 to 5, 15, 6, 7 or 8 with the
 * store as it was. Writes the store alone, and does not read it: what it held may be above the ceiling. */
uint32_t vistrokk_result(const uint8_t *buf, size_t buf_len, size_t used, uint32_t *store, size_t store_len);

/* The rules of weighing. A reprint names the rule of its first print. */
enum vistrokk_rule {
    VISTROKK_ROUND_DOWN = 1,   /* to the lower 20 kg */
    VISTROKK_ROUND_NEAREST = 2 /* to the nearest 20 kg; 10 kg over goes up */
};

/* A start store from gross and tare in kilograms. Variable 1 gets their difference, whichever is larger, divided by 20 and rounded
 * by the rule; variable 2 gets 1 when tare is larger (the load left heavier than it came) and otherwise 0; every other variable
 * 0. A store of one value takes only the first. Any gross and tare will do: nothing wraps. It knows no ceiling: a call that reads
 * the store takes it where its values, variable 2's 1 too, are within its record's. Answers VISTROKK_ACCEPTED, or
 * VISTROKK_BAD_STORE or VISTROKK_BAD_RULE with the store as it was. Writes the store alone. */
uint32_t vistrokk_weigh(uint32_t rule, uint32_t gross, uint32_t tare, uint32_t *store, size_t store_len);

/* The outcomes of a run, read from the state that is left, first match. Over: the next step would give a value above the ceiling
 * (in edition 1: 4,294,967,296). No room: the next state is longer than the buffer. Spent: the whole budget was used, and a further
 * step is possible. */
enum vistrokk_outcome {
    VISTROKK_REFUSED = 0,
    VISTROKK_FINISHED = 1,
    VISTROKK_OVER = 2,
    VISTROKK_NO_ROOM = 3,
    VISTROKK_SPENT = 4
};

/* How a run ended. number: VISTROKK_ACCEPTED or the refusal. outcome: one of the above. steps: made in this run; left: budget
 * left; used: the new used length. These three are 0 with a refusal. */
typedef struct { uint32_t number, outcome, steps, left, used; } vistrokk_ran;

/* Makes up to `budget` steps of a program. Lent: the program's record in buf, of which the whole of buf_len is room to grow,
 * and its store of k values; both are changed in place. Refusals 1 to 5, 15, 6 and 16. Accepted, buf holds the record of the program
 * that is left and zeros behind it up to buf_len, also after 0 steps, and the store has its values. */
vistrokk_ran vistrokk_run_stepper(uint8_t *buf, size_t buf_len, size_t used, uint32_t *store, size_t store_len, uint32_t budget);

/* What is foretold of a run. number: VISTROKK_ACCEPTED or the refusal. steps: how many it takes to its end. program_bytes and term_bytes:
 * how long its longest program and its longest term are, the start included, each a whole record with its header. These three are 0
 * with a refusal. */
typedef struct { uint32_t number; uint64_t steps, program_bytes, term_bytes; } vistrokk_forecast;

/* Foretells the run of the program in `buf` from this store, without a run: that is quick however many steps there are. The figures
 * are those of a run with no largest value, no ceiling and buffers of any length. So wherever a run of any engine finishes, it does so
 * after `steps`; for that vistrokk_run_stepper needs a buffer of `program_bytes`, and vistrokk_run_reducer, from the program's term with
 * the store substituted, one of `term_bytes`, and no less. A run that is over has made fewer steps, in no more room. Only of a program
 * can it be foretold in which no command assigns a variable that is the bound of some loop, wherever the two stand; a loop assigns its
 * index. Refusals 1 to 5, 15, 6, 16, 18 and 19. Writes nothing. */
vistrokk_forecast vistrokk_forecast_run(const uint8_t *buf, size_t buf_len, size_t used, const uint32_t *store, size_t store_len);

/* The state of the counting stepper, in words of the caller. It holds each loop in play as counts and unrolls nothing, so it never
 * lacks room. All zeros is the start. A place is a distance in bytes from the outermost block's first command, which is at 0.
 *
 *   [0] the place in the outermost block, of a command or its end     [1] not 0: a sum is worked out and waits     [2] the sum
 *   [3 + 6 j ..], for j = 0 to 30: what is open, the outermost first
 *     + 0  0 nothing more is open; 1 a block; 2 a loop in play        + 1  the place of its record
 *     + 2  a loop's top count                                         + 3  the count it has reached
 *     + 4  a loop: 0 it is unrolling, with the count reached now left in it; not 0 it is running, and the count is the turn it is
 *          in, or 0 where it became an empty block
 *     + 5  a block: its place. A loop in a turn: 1 its index is still to be stored, p + 2 its body's place p; else 0
 *
 * What a state does not hold is not looked at: the entries from the first with 0 on, + 2 to + 4 of a block, the sum where none
 * waits. An accepted run leaves 0 there, and 0 or 1 in [1] and + 4, also after 0 steps. Top counts and a sum that waits are values, so
 * none of them may be above the ceiling (refusal 16). The words do not depend on the edition: places start behind the header. */
enum { VISTROKK_STATE_WORDS = 189 };

/* How a run of the counting stepper ended: as above. It has no used length, and is never VISTROKK_NO_ROOM. */
typedef struct { uint32_t number, outcome, steps, left; } vistrokk_counted;

/* Makes up to `budget` steps of a program, loops carried as counts: the steps of vistrokk_run_stepper, in a state of 189 words and
 * not in the record. Lent: the program's record, the same with every order from the start on and never changed; the state and the
 * store of k values, both changed in place. Refusals 1 to 5, 12, 15, 6, 13 and 16. Accepted, the state and the store have their
 * values. */
vistrokk_counted vistrokk_run_counting(const uint8_t *program, size_t program_len, size_t used,
    uint32_t state[VISTROKK_STATE_WORDS], uint32_t *store, size_t store_len, uint32_t budget);

/* What the state stands for, written out as a program's record into `out`: the one that vistrokk_run_stepper has after the same
 * steps. With it and the store that stepper goes on, and no step is lost. Refusals 1 (either buffer), 2 to 5, 12, 15, 6, 13, 16 and
 * 10. Writes `out` alone. */
vistrokk_written vistrokk_expand(const uint8_t *program, size_t program_len, size_t used,
    const uint32_t state[VISTROKK_STATE_WORDS], const uint32_t *store, size_t store_len, uint8_t *out, size_t out_len);

/* How a run of the reducer ended: as of vistrokk_run_stepper, and replaced: how many variable records its reductions turned into
 * numerals, all of them together; 0 with a refusal. What vistrokk_substitute replaced before the run is not in it. */
typedef struct { uint32_t number, outcome, steps, left, used; uint64_t replaced; } vistrokk_reduced;

/* Makes up to `budget` reductions of a closed term. Lent: the term's record in buf, of which the whole of buf_len is room to
 * grow; it is changed in place. Refusals 1 to 5, 15 and 7. Accepted, buf holds the record of the term that is left and zeros behind
 * it up to buf_len, also after 0 reductions. */
vistrokk_reduced vistrokk_run_reducer(uint8_t *buf, size_t buf_len, size_t used, uint32_t budget);

/* Runs the reducer on each of 1 to 64 start stores of one program, which is checked and translated once. `budgets` has one budget for
 * each store, so its length tells how many there are. `values` has k values for each and `answers` takes k + 2 for each, store after
 * store in the order of the budgets: the outcome's number (of enum vistrokk_outcome), the steps made, and the k end values, or k zeros
 * where the run is not finished. Each answer is that of vistrokk_substitute, vistrokk_run_reducer and vistrokk_result on that store
 * alone, in a buffer of work_len bytes; none depends on another. Refusals 1 (all three buffers), 14, 2 to 5, 15, 6 (values not
 * budgets_len times k, or answers not budgets_len times k + 2), 16 (of any store's values) and 10. Accepted, `term` holds the program's
 * term, of which `used` is the length, and zeros behind it; `work` is all zero; `answers` has its values. */
vistrokk_written vistrokk_run_batch(const uint8_t *program, size_t program_len, size_t used, uint8_t *term, size_t term_len,
    uint8_t *work, size_t work_len, const uint32_t *budgets, size_t budgets_len, const uint32_t *values, size_t values_len,
    uint32_t *answers, size_t answers_len);

#ifdef __cplusplus
}
#endif

#endif
