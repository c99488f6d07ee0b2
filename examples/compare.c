/* One program on both engines, as an integrator would write it: checked, translated, the store substituted, run in slices of
 * different lengths, and compared whenever both have made the same number of steps. Then the same program by the counting stepper, which
 * needs no room: where the stepper has stopped, its state is written out and is the stepper's, and it goes on from there. It ends
 * whatever the outcomes are, and names them, and how many variables became numerals: where the store was substituted, and in the
 * reductions. `./test` builds and runs it:
 *
 *    cc -I include examples/compare.c crates/vistrokk/out/libvistrokk.a -o compare
 *    ./compare [FILE [BUDGET [STEPPER_ROOM [REDUCER_ROOM]]]]
 *
 * FILE: a program's record, of either edition, and its k values, as in inputs/ (docs/FORMAT.md); without one, ADD under a ceiling of 10 on
 * 7, 3, 0, 0, the 7 weighed. BUDGET: the most steps of each engine, 1,000,000 if not given. The rooms: the bytes of each engine's
 * buffer, 16,384 if not given.
 * Exit status: 0 when both have stopped and agree, 1 with a refusal or where they differ, 2 if it cannot read what it was given.
 */
#include <inttypes.h>
#include <stdio.h>
#include <stdlib.h>
#include <string.h>

#include "vistrokk.h"

/* How many steps an engine gets at a time: different numbers, so that the engines are seldom level. */
#define STEPPER_SLICE 3
#define REDUCER_SLICE 2
#define COUNTING_SLICE 5

/* k = 4, {x3 := x1; for x4 := 1 to x2 {x3 := x3 + 1}}, with a ceiling of 10: every engine stops, over, before a larger value. In edition 1
 * the header is 64, 0, 7, 0, 4, 0, 0, 0, and the ceiling the largest value. */
static const uint8_t add[68] = {
    68, 0, 9,  0, 4, 0, 0, 0, 10, 0, 0, 0,               /* program of edition 2: 68 bytes, kind 9, k = 4, the ceiling */
    56, 0, 1,  0,                                        /* block */
    16, 0, 2,  0, 3, 0, 0, 0, 8, 0, 17, 0, 1, 0, 0, 0,   /* x3 := x1 */
    36, 0, 3,  0, 4, 0, 0, 0, 8, 0, 17, 0, 2, 0, 0, 0,   /* for x4 := 1 to x2 */
    20, 0, 1,  0,                                        /* block */
    16, 0, 2,  0, 3, 0, 0, 0, 8, 0, 18, 0, 3, 0, 0, 0,   /* x3 := x3 + 1 */
};

static const char *const refusals[] = {
    [VISTROKK_ACCEPTED] = "accepted",
    [VISTROKK_BAD_BUFFER] = "bad buffer",
    [VISTROKK_BAD_HEADER] = "bad header",
    [VISTROKK_BAD_K] = "bad k",
    [VISTROKK_MALFORMED] = "malformed",
    [VISTROKK_BAD_VARIABLE] = "bad variable",
    [VISTROKK_TOO_DEEP] = "too deep",
    [VISTROKK_LITERAL_ABOVE_CEILING] = "literal above ceiling",
    [VISTROKK_BAD_STORE] = "bad store",
    [VISTROKK_BAD_RULE] = "bad rule",
    [VISTROKK_BAD_STATE] = "bad state",
    [VISTROKK_VALUE_ABOVE_CEILING] = "value above ceiling",
    [VISTROKK_FREE_VARIABLE] = "free variable",
    [VISTROKK_UNFINISHED] = "unfinished",
    [VISTROKK_NO_PROGRAM] = "no program",
    [VISTROKK_OUTPUT_TOO_SHORT] = "output too short",
};

static const char *const outcomes[] = {
    [VISTROKK_REFUSED] = "refused",
    [VISTROKK_FINISHED] = "finished",
    [VISTROKK_OVER] = "over",
    [VISTROKK_NO_ROOM] = "noroom",
    [VISTROKK_SPENT] = "spent",
};

/* What both engines start from. */
typedef struct {
    uint8_t record[VISTROKK_BUFFER_MOST];
    uint32_t used, k;
    uint32_t store[VISTROKK_VARIABLES_MOST];
} load;

/* An engine: its buffer, the budget it was not yet given, the steps it made in all, and the answer to its last order. */
typedef struct {
    uint8_t buf[VISTROKK_BUFFER_MOST];
    size_t room;
    uint32_t left, steps;
    vistrokk_ran last;
} engine;

/* The counting stepper: its state, which is all zeros at the start, its store, its steps, and the answer to its last order. It is lent
 * the program of the start with every order. */
static struct {
    uint32_t state[VISTROKK_STATE_WORDS];
    uint32_t store[VISTROKK_VARIABLES_MOST];
    uint32_t steps;
    vistrokk_counted last;
} counting;

static load start;
static engine stepper, reducer;
static uint32_t store[VISTROKK_VARIABLES_MOST];

/* How many variables became numerals: at the start, where the store was substituted, and in all orders of the reducer together. */
static uint32_t replaced_at_start;
static uint64_t replaced_by_reductions;

static int refused(const char *call, uint32_t number)
{
    fprintf(stderr, "%s: refused %u (%s)\n", call, (unsigned) number, refusals[number]);
    return 1;
}

static uint32_t word(const uint8_t *at)
{
    return at[0] | (uint32_t) at[1] << 8 | (uint32_t) at[2] << 16 | (uint32_t) at[3] << 24;
}

/* ADD, and a store whose first value comes from the scales: 130 kg are 10 over 6 · 20, so 7 by the nearest 20. Weighing leaves in
 * variable 2 whether tare is larger, here 0; ADD adds variable 2 to variable 1, so 3 is written over it. No call that reads the store
 * takes a value above the ceiling: 7 and 3 are within it, and so is their sum. */
static uint32_t weighed(void)
{
    uint32_t number;
    memcpy(start.record, add, sizeof add);
    start.used = sizeof add;
    start.k = 4;
    number = vistrokk_weigh(VISTROKK_ROUND_NEAREST, 1500, 1370, start.store, start.k);
    start.store[1] = 3;
    return number;
}

/* The record and its values from the bytes of a file. */
static uint32_t taken_from(const uint8_t *bytes, size_t count)
{
    vistrokk_checked checked;
    uint32_t i;
    if (count < 2)
        return VISTROKK_BAD_HEADER;
    start.used = bytes[0] | (uint32_t) bytes[1] << 8;
    if (start.used > VISTROKK_BUFFER_MOST)
        return VISTROKK_BAD_BUFFER;
    if (start.used > count)
        return VISTROKK_BAD_HEADER;
    memcpy(start.record, bytes, start.used);
    checked = vistrokk_check_program(start.record, sizeof start.record, start.used);
    if (checked.number != VISTROKK_ACCEPTED)
        return checked.number;
    if (count - start.used != 4 * checked.k)
        return VISTROKK_BAD_STORE;
    start.k = checked.k;
    for (i = 0; i < start.k; i++)
        start.store[i] = word(bytes + start.used + 4 * i);
    return VISTROKK_ACCEPTED;
}

/* An order to the reducer. What it replaced is added up; no order has in it what an earlier one told, nor the start's. */
static vistrokk_ran reduce(size_t used, uint32_t budget)
{
    vistrokk_reduced r = vistrokk_run_reducer(reducer.buf, reducer.room, used, budget);
    vistrokk_ran ran = { r.number, r.outcome, r.steps, r.left, r.used };
    replaced_by_reductions += r.replaced;
    return ran;
}

/* Both engines at their start: the stepper has the program and the store, the reducer the program's term with the store's values in
 * it. A budget of 0 makes no step: it tells where each engine stands. */
static int begin(void)
{
    vistrokk_written term;
    vistrokk_substituted substituted;
    memcpy(stepper.buf, start.record, start.used);
    memcpy(store, start.store, sizeof store);
    stepper.last = vistrokk_run_stepper(stepper.buf, stepper.room, start.used, store, start.k, 0);
    if (stepper.last.number != VISTROKK_ACCEPTED)
        return refused("run_stepper", stepper.last.number);
    term = vistrokk_translate(start.record, sizeof start.record, start.used, reducer.buf, reducer.room);
    if (term.number != VISTROKK_ACCEPTED)
        return refused("translate", term.number);
    substituted = vistrokk_substitute(reducer.buf, reducer.room, term.used, store, start.k);
    if (substituted.number != VISTROKK_ACCEPTED)
        return refused("substitute", substituted.number);
    replaced_at_start = substituted.replaced;
    reducer.last = reduce(substituted.used, 0);
    if (reducer.last.number != VISTROKK_ACCEPTED)
        return refused("run_reducer", reducer.last.number);
    return 0;
}

/* Only a spent engine can go on: finished, over and no room are what its state says, and every further order would say so again. */
static int goes_on(const engine *e)
{
    return e->last.outcome == VISTROKK_SPENT && e->left > 0;
}

/* The budget of an engine's next order. It counts as given whatever the answer is, so the orders come to an end. */
static uint32_t slice(engine *e, uint32_t most)
{
    uint32_t budget = most < e->left ? most : e->left;
    e->left -= budget;
    return budget;
}

/* Is the reducer's term the translation of the stepper's program with the store substituted? */
static int agree(void)
{
    static uint8_t wanted[VISTROKK_BUFFER_MOST];
    vistrokk_written w = vistrokk_translate(stepper.buf, stepper.room, stepper.last.used, wanted, sizeof wanted);
    vistrokk_substituted s;
    if (w.number != VISTROKK_ACCEPTED)
        return 0;
    s = vistrokk_substitute(wanted, sizeof wanted, w.used, store, start.k);
    return s.number == VISTROKK_ACCEPTED && s.used == reducer.last.used && memcmp(wanted, reducer.buf, s.used) == 0;
}

/* One order to the engine that is behind, or to the other where that one has stopped; 0 where both have. */
static int next_order(void)
{
    if (goes_on(&stepper) && (stepper.steps <= reducer.steps || !goes_on(&reducer))) {
        stepper.last = vistrokk_run_stepper(stepper.buf, stepper.room, stepper.last.used, store, start.k,
                                            slice(&stepper, STEPPER_SLICE));
        stepper.steps += stepper.last.steps;
        return 1;
    }
    if (goes_on(&reducer)) {
        reducer.last = reduce(reducer.last.used, slice(&reducer, REDUCER_SLICE));
        reducer.steps += reducer.last.steps;
        return 1;
    }
    return 0;
}

/* Up to `budget` further steps of the counting stepper. The first order makes none: it tells where the stepper stands. */
static int count(uint32_t budget)
{
    uint32_t most = 0;
    do {
        counting.last = vistrokk_run_counting(start.record, sizeof start.record, start.used, counting.state, counting.store,
                                              start.k, most);
        if (counting.last.number != VISTROKK_ACCEPTED)
            return refused("run_counting", counting.last.number);
        counting.steps += counting.last.steps;
        budget -= most;
        most = budget < COUNTING_SLICE ? budget : COUNTING_SLICE;
    } while (counting.last.outcome == VISTROKK_SPENT && most > 0);
    return 0;
}

/* Is the counting stepper's state, written out, the stepper's record, and its store the stepper's? */
static int level(void)
{
    static uint8_t out[VISTROKK_BUFFER_MOST];
    vistrokk_written w = vistrokk_expand(start.record, sizeof start.record, start.used, counting.state, counting.store, start.k,
                                         out, sizeof out);
    return w.number == VISTROKK_ACCEPTED && w.used == stepper.last.used && memcmp(out, stepper.buf, w.used) == 0 &&
           counting.steps == stepper.steps && memcmp(counting.store, store, sizeof store) == 0;
}

/* The counting stepper, as far as the stepper came, where it is compared; then as far as the budget reaches. */
static int count_all(uint32_t budget)
{
    memcpy(counting.store, start.store, sizeof store);
    if (count(stepper.steps) != 0)
        return 1;
    if (!level()) {
        fprintf(stderr, "the steppers differ after %u steps\n", (unsigned) stepper.steps);
        return 1;
    }
    return count(budget - stepper.steps);
}

/* Where the reducer and a stepper have finished, the reducer's values are that stepper's store. */
static int same_result(uint32_t outcome, const uint32_t *values)
{
    uint32_t shown[VISTROKK_VARIABLES_MOST];
    if (outcome != VISTROKK_FINISHED || reducer.last.outcome != VISTROKK_FINISHED)
        return 1;
    return vistrokk_result(reducer.buf, reducer.room, reducer.last.used, shown, start.k) == VISTROKK_ACCEPTED &&
           memcmp(shown, values, start.k * sizeof values[0]) == 0;
}

static int compare(uint32_t budget)
{
    uint32_t compared = 0, i;
    do {
        int same_total = stepper.steps == reducer.steps;
        if (same_total && !agree()) {
            fprintf(stderr, "the engines differ after %u steps\n", (unsigned) stepper.steps);
            return 1;
        }
        compared += same_total;
    } while (next_order());
    if (stepper.last.number != VISTROKK_ACCEPTED)
        return refused("run_stepper", stepper.last.number);
    if (reducer.last.number != VISTROKK_ACCEPTED)
        return refused("run_reducer", reducer.last.number);
    if (count_all(budget) != 0)
        return 1;
    if (!same_result(stepper.last.outcome, store) || !same_result(counting.last.outcome, counting.store)) {
        fprintf(stderr, "the engines show different results\n");
        return 1;
    }
    printf("stepper %s after %u, counting %s after %u, ", outcomes[stepper.last.outcome], (unsigned) stepper.steps,
           outcomes[counting.last.outcome], (unsigned) counting.steps);
    printf("reducer %s after %u, comparisons: %u, ", outcomes[reducer.last.outcome], (unsigned) reducer.steps,
           (unsigned) compared);
    printf("replaced: %" PRIu32 " at the start and %" PRIu64 " by reductions, store:", replaced_at_start, replaced_by_reductions);
    for (i = 0; i < start.k; i++)
        printf(" %u", (unsigned) store[i]);
    printf("\n");
    return 0;
}

/* The number that an argument says, `otherwise` where there is none. */
static uint32_t argument(int argc, char **argv, int which, uint32_t most, uint32_t otherwise)
{
    char *end;
    unsigned long number;
    if (which >= argc)
        return otherwise;
    number = strtoul(argv[which], &end, 10);
    if (end == argv[which] || *end != '\0' || number > most) {
        fprintf(stderr, "%s is not a number from 0 to %u\n", argv[which], (unsigned) most);
        exit(2);
    }
    return (uint32_t) number;
}

int main(int argc, char **argv)
{
    static uint8_t bytes[VISTROKK_BUFFER_MOST + 4 * VISTROKK_VARIABLES_MOST + 1];
    uint32_t number, budget = argument(argc, argv, 2, UINT32_MAX, 1000000);
    stepper.left = reducer.left = budget;
    stepper.room = argument(argc, argv, 3, VISTROKK_BUFFER_MOST, VISTROKK_BUFFER_MOST);
    reducer.room = argument(argc, argv, 4, VISTROKK_BUFFER_MOST, VISTROKK_BUFFER_MOST);
    if (argc > 1) {
        FILE *file = fopen(argv[1], "rb");
        size_t count = file == NULL ? 0 : fread(bytes, 1, sizeof bytes, file);
        if (file == NULL || ferror(file)) {
            fprintf(stderr, "cannot read %s\n", argv[1]);
            return 2;
        }
        fclose(file);
        number = taken_from(bytes, count);
    } else {
        number = weighed();
    }
    if (number != VISTROKK_ACCEPTED)
        return refused("the load", number);
    return begin() != 0 || compare(budget) != 0;
}
