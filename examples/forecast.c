/* Whether a load fits, as an integrator would ask before a program goes on the terminal: its steps and the longest configuration and term
 * are foretold without a run, and held against the buffers that the terminal has. Then the stepper and the reducer run in those buffers
 * with the steps foretold as their budget, and must do what was said: finish after just so many, or lack the room; one that is over,
 * as a value would be above the ceiling, has made fewer. `./test` builds and runs it:
 *
 *    cc -I include examples/forecast.c crates/vistrokk/out/libvistrokk.a -o forecast
 *    ./forecast [FILE [STEPPER_ROOM [REDUCER_ROOM]]]
 *
 * FILE: a program's record, of either edition, and its k values, as in inputs/ (docs/FORMAT.md); without one, ADD on 7, 3, 0, 0. The rooms:
 * the bytes of each engine's buffer, 16,384 if not given.
 * Exit status: 0; 1 with a refusal, or where a run is not as foretold; 2 if it cannot read what it was given.
 */
#include <inttypes.h>
#include <stdio.h>
#include <stdlib.h>
#include <string.h>

#include "vistrokk.h"

/* No run is longer, whatever is foretold. */
#define BUDGET_MOST 10000000

/* k = 4, {x3 := x1; for x4 := 1 to x2 {x3 := x3 + 1}}, of edition 1, and the values 7, 3, 0, 0; compare.c says which bytes are what. */
static const uint8_t add[80] = {
    64, 0, 7, 0, 4, 0, 0, 0, 56, 0, 1, 0, 16, 0, 2, 0, 3, 0, 0, 0, 8, 0, 17, 0, 1, 0, 0, 0, 36, 0, 3, 0,
    4, 0, 0, 0, 8, 0, 17, 0, 2, 0, 0, 0, 20, 0, 1, 0, 16, 0, 2, 0, 3, 0, 0, 0, 8, 0, 18, 0, 3, 0, 0, 0,
    7, 0, 0, 0, 3, 0, 0, 0, 0, 0, 0, 0, 0, 0, 0, 0,
};

/* Those that the calls here can give. */
static const char *const refusals[] = {
    [VISTROKK_ACCEPTED] = "accepted",
    [VISTROKK_BAD_BUFFER] = "bad buffer",
    [VISTROKK_BAD_HEADER] = "bad header",
    [VISTROKK_BAD_K] = "bad k",
    [VISTROKK_MALFORMED] = "malformed",
    [VISTROKK_BAD_VARIABLE] = "bad variable",
    [VISTROKK_LITERAL_ABOVE_CEILING] = "literal above ceiling",
    [VISTROKK_BAD_STORE] = "bad store",
    [VISTROKK_VALUE_ABOVE_CEILING] = "value above ceiling",
    [VISTROKK_BOUND_ASSIGNED] = "bound assigned",
    [VISTROKK_OUTPUT_TOO_SHORT] = "output too short",
    [VISTROKK_FIGURE_TOO_LARGE] = "figure too large",
};

static const char *const outcomes[] = {
    [VISTROKK_REFUSED] = "refused",
    [VISTROKK_FINISHED] = "finished",
    [VISTROKK_OVER] = "over",
    [VISTROKK_NO_ROOM] = "noroom",
    [VISTROKK_SPENT] = "spent",
};

/* The program, the start store, and what is foretold of it. */
static uint8_t program[VISTROKK_BUFFER_MOST];
static size_t used;
static uint32_t start[VISTROKK_VARIABLES_MOST], k;
static vistrokk_forecast foretold;

/* An engine's buffer, and how its run ended. */
typedef struct {
    uint8_t buf[VISTROKK_BUFFER_MOST];
    size_t room;
    uint32_t outcome, steps;
} engine;

static int refused(const char *name, uint32_t number)
{
    fprintf(stderr, "%s: refused %u (%s)\n", name, (unsigned) number, refusals[number]);
    return 1;
}

static uint32_t word(const uint8_t *at)
{
    return at[0] | (uint32_t) at[1] << 8 | (uint32_t) at[2] << 16 | (uint32_t) at[3] << 24;
}

/* The program and its values from the bytes of a file; or the number of a refusal. */
static uint32_t taken_from(const uint8_t *bytes, size_t count)
{
    vistrokk_checked checked;
    uint32_t i;
    if (count < 2)
        return VISTROKK_BAD_HEADER;
    used = bytes[0] | (size_t) bytes[1] << 8;
    if (used > sizeof program)
        return VISTROKK_BAD_BUFFER;
    if (used > count)
        return VISTROKK_BAD_HEADER;
    memcpy(program, bytes, used);
    checked = vistrokk_check_program(program, sizeof program, used);
    if (checked.number != VISTROKK_ACCEPTED)
        return checked.number;
    if (count - used != 4 * checked.k)
        return VISTROKK_BAD_STORE;
    k = checked.k;
    for (i = 0; i < k; i++)
        start[i] = word(bytes + used + 4 * i);
    return VISTROKK_ACCEPTED;
}

static const char *whether_enough(uint64_t bytes, size_t room)
{
    return bytes <= room ? "enough" : "too short";
}

/* What is foretold, and whether the two buffers are long enough for it. */
static int show(size_t stepper_room, size_t reducer_room)
{
    foretold = vistrokk_forecast_run(program, sizeof program, used, start, k);
    if (foretold.number != VISTROKK_ACCEPTED)
        return refused("forecast_run", foretold.number);
    printf("steps %" PRIu64 ", configuration %" PRIu64 " bytes, term %" PRIu64 " bytes\n", foretold.steps, foretold.program_bytes,
           foretold.term_bytes);
    printf("stepper in %lu: %s, reducer in %lu: %s\n", (unsigned long) stepper_room, whether_enough(foretold.program_bytes, stepper_room),
           (unsigned long) reducer_room, whether_enough(foretold.term_bytes, reducer_room));
    return 0;
}

static uint32_t budget(void)
{
    return foretold.steps < BUDGET_MOST ? (uint32_t) foretold.steps : BUDGET_MOST;
}

static int run_stepper(engine *e)
{
    uint32_t store[VISTROKK_VARIABLES_MOST];
    vistrokk_ran ran;
    memcpy(store, start, sizeof start);
    memcpy(e->buf, program, used);
    ran = vistrokk_run_stepper(e->buf, e->room, used, store, k, budget());
    if (ran.number != VISTROKK_ACCEPTED)
        return refused("run_stepper", ran.number);
    e->outcome = ran.outcome;
    e->steps = ran.steps;
    return 0;
}

static int run_reducer(engine *e)
{
    vistrokk_written written;
    vistrokk_substituted substituted;
    vistrokk_reduced ran;
    written = vistrokk_translate(program, sizeof program, used, e->buf, e->room);
    if (written.number != VISTROKK_ACCEPTED)
        return refused("translate", written.number);
    substituted = vistrokk_substitute(e->buf, e->room, written.used, start, k);
    if (substituted.number != VISTROKK_ACCEPTED)
        return refused("substitute", substituted.number);
    ran = vistrokk_run_reducer(e->buf, e->room, substituted.used, budget());
    if (ran.number != VISTROKK_ACCEPTED)
        return refused("run_reducer", ran.number);
    e->outcome = ran.outcome;
    e->steps = ran.steps;
    return 0;
}

/* Of an engine that needs so many bytes. */
static int is_as_foretold(const engine *e, uint64_t bytes)
{
    switch (e->outcome) {
    case VISTROKK_FINISHED:
        return e->steps == foretold.steps && bytes <= e->room;
    case VISTROKK_NO_ROOM:
        return e->steps < foretold.steps && bytes > e->room;
    default: /* Over, or spent, so that a step was left. */
        return e->steps < foretold.steps;
    }
}

static uint32_t argument(int argc, char **argv, int which)
{
    unsigned long number;
    char *end;
    if (argc <= which)
        return VISTROKK_BUFFER_MOST;
    number = strtoul(argv[which], &end, 10);
    if (end == argv[which] || *end != '\0' || number > VISTROKK_BUFFER_MOST) {
        fprintf(stderr, "%s is not a number from 0 to %u\n", argv[which], (unsigned) VISTROKK_BUFFER_MOST);
        exit(2);
    }
    return (uint32_t) number;
}

int main(int argc, char **argv)
{
    static uint8_t bytes[VISTROKK_BUFFER_MOST + 4 * VISTROKK_VARIABLES_MOST + 1];
    static engine stepper, reducer;
    size_t count = sizeof add;
    uint32_t number;
    int good;
    stepper.room = argument(argc, argv, 2);
    reducer.room = argument(argc, argv, 3);
    if (argc > 1) {
        FILE *file = fopen(argv[1], "rb");
        count = file == NULL ? 0 : fread(bytes, 1, sizeof bytes, file);
        if (file == NULL || ferror(file)) {
            fprintf(stderr, "cannot read %s\n", argv[1]);
            return 2;
        }
        fclose(file);
    } else {
        memcpy(bytes, add, sizeof add);
    }
    number = taken_from(bytes, count);
    if (number != VISTROKK_ACCEPTED)
        return refused("the load", number);
    if (show(stepper.room, reducer.room) != 0)
        return 1;
    fflush(stdout);
    if (run_stepper(&stepper) != 0 || run_reducer(&reducer) != 0)
        return 1;
    good = is_as_foretold(&stepper, foretold.program_bytes) && is_as_foretold(&reducer, foretold.term_bytes);
    printf("stepper %s after %u, reducer %s after %u: %s\n", outcomes[stepper.outcome], (unsigned) stepper.steps,
           outcomes[reducer.outcome], (unsigned) reducer.steps, good ? "as foretold" : "not as foretold");
    return good ? 0 : 1;
}
