/* A program of edition 1 moved to edition 2 and back, as an integrator would write it who has many of them: it is moved with its term, both
 * are run in both editions, and then it is moved back, to the same bytes. Two refusals follow: what is in edition 2 already is not moved
 * there once more, and under a ceiling of its own it has no way back. `./test` builds and runs it:
 *
 *    cc -I include examples/editions.c crates/vistrokk/out/libvistrokk.a -o editions
 *    ./editions [FILE]
 *
 * FILE: a program's record of edition 1 and its k values, as in inputs/ (docs/FORMAT.md); without one, ADD on 7, 3, 0, 0.
 * Exit status: 0; 1 with a refusal, or where the editions differ; 2 if it cannot read what it was given.
 */
#include <stdio.h>
#include <string.h>

#include "vistrokk.h"

#define BUDGET 1000000

/* k = 4, {x3 := x1; for x4 := 1 to x2 {x3 := x3 + 1}}, of edition 1, and the values 7, 3, 0, 0; compare.c says which bytes are what. */
static const uint8_t add[80] = {
    64, 0, 7, 0, 4, 0, 0, 0, 56, 0, 1, 0, 16, 0, 2, 0, 3, 0, 0, 0, 8, 0, 17, 0, 1, 0, 0, 0, 36, 0, 3, 0,
    4, 0, 0, 0, 8, 0, 17, 0, 2, 0, 0, 0, 20, 0, 1, 0, 16, 0, 2, 0, 3, 0, 0, 0, 8, 0, 18, 0, 3, 0, 0, 0,
    7, 0, 0, 0, 3, 0, 0, 0, 0, 0, 0, 0, 0, 0, 0, 0,
};

/* Those that the calls here can give. */
static const char *const refusals[] = {
    [VISTROKK_ACCEPTED] = "accepted",
    [VISTROKK_BAD_BUFFER] = "bad buffer",
    [VISTROKK_BAD_HEADER] = "bad header",
    [VISTROKK_BAD_K] = "bad k",
    [VISTROKK_MALFORMED] = "malformed",
    [VISTROKK_BAD_VARIABLE] = "bad variable",
    [VISTROKK_LITERAL_ABOVE_CEILING] = "literal above ceiling",
    [VISTROKK_SMALL_CEILING] = "small ceiling",
    [VISTROKK_BAD_STORE] = "bad store",
    [VISTROKK_VALUE_ABOVE_CEILING] = "value above ceiling",
    [VISTROKK_OUTPUT_TOO_SHORT] = "output too short",
};

static const char *const outcomes[] = {
    [VISTROKK_REFUSED] = "refused",
    [VISTROKK_FINISHED] = "finished",
    [VISTROKK_OVER] = "over",
    [VISTROKK_NO_ROOM] = "noroom",
    [VISTROKK_SPENT] = "spent",
};

/* A record in a buffer. */
typedef struct {
    uint8_t bytes[VISTROKK_BUFFER_MOST];
    size_t used;
} record;

/* A program and its term in edition 1 and in edition 2, and the start store. */
static record first, first_term, second, second_term;
static uint32_t start[VISTROKK_VARIABLES_MOST], k;

/* The four calls that move a record, and translate, are called alike. */
typedef vistrokk_written (*call)(const uint8_t *, size_t, size_t, uint8_t *, size_t);

static int refused(const char *name, uint32_t number)
{
    fprintf(stderr, "%s: refused %u (%s)\n", name, (unsigned) number, refusals[number]);
    return 1;
}

/* What the call writes from one record into another; 0 where it is accepted. A refused one leaves the other as it was. */
static int write_from(const char *name, call f, const record *from, record *to)
{
    vistrokk_written w = f(from->bytes, sizeof from->bytes, from->used, to->bytes, sizeof to->bytes);
    if (w.number != VISTROKK_ACCEPTED)
        return refused(name, w.number);
    to->used = w.used;
    return 0;
}

static int same(const record *one, const record *other)
{
    return one->used == other->used && memcmp(one->bytes, other->bytes, one->used) == 0;
}

static uint32_t word(const uint8_t *at)
{
    return at[0] | (uint32_t) at[1] << 8 | (uint32_t) at[2] << 16 | (uint32_t) at[3] << 24;
}

/* The program and its values from the bytes of a file; or the number of a refusal. */
static uint32_t taken_from(const uint8_t *bytes, size_t count)
{
    vistrokk_checked checked;
    uint32_t i;
    if (count < 2)
        return VISTROKK_BAD_HEADER;
    first.used = bytes[0] | (size_t) bytes[1] << 8;
    if (first.used > sizeof first.bytes)
        return VISTROKK_BAD_BUFFER;
    if (first.used > count)
        return VISTROKK_BAD_HEADER;
    memcpy(first.bytes, bytes, first.used);
    checked = vistrokk_check_program(first.bytes, sizeof first.bytes, first.used);
    if (checked.number != VISTROKK_ACCEPTED)
        return checked.number;
    if (count - first.used != 4 * checked.k)
        return VISTROKK_BAD_STORE;
    k = checked.k;
    for (i = 0; i < k; i++)
        start[i] = word(bytes + first.used + 4 * i);
    return VISTROKK_ACCEPTED;
}

/* To edition 2: the program, and its term. The moved program's own translation must be the moved term. */
static int move_there(void)
{
    static record translated;
    if (write_from("program_to_edition_2", vistrokk_program_to_edition_2, &first, &second) != 0 ||
        write_from("translate", vistrokk_translate, &first, &first_term) != 0 ||
        write_from("term_to_edition_2", vistrokk_term_to_edition_2, &first_term, &second_term) != 0 ||
        write_from("translate", vistrokk_translate, &second, &translated) != 0)
        return 1;
    if (!same(&translated, &second_term)) {
        fprintf(stderr, "the terms differ\n");
        return 1;
    }
    return 0;
}

/* How the two engines ended, and the stepper's store. */
typedef struct {
    vistrokk_ran stepper;
    vistrokk_reduced reducer;
    uint32_t store[VISTROKK_VARIABLES_MOST];
} end;

/* Runs copies of a program and its term in buffers of `room` bytes, and says how that ended. */
static int run(int edition, const record *program, const record *term, size_t room, end *e)
{
    static uint8_t buf[VISTROKK_BUFFER_MOST];
    vistrokk_substituted substituted;
    uint32_t i;
    memcpy(e->store, start, sizeof start);
    memcpy(buf, program->bytes, program->used);
    e->stepper = vistrokk_run_stepper(buf, room, program->used, e->store, k, BUDGET);
    if (e->stepper.number != VISTROKK_ACCEPTED)
        return refused("run_stepper", e->stepper.number);
    memcpy(buf, term->bytes, term->used);
    substituted = vistrokk_substitute(buf, room, term->used, start, k);
    if (substituted.number != VISTROKK_ACCEPTED)
        return refused("substitute", substituted.number);
    e->reducer = vistrokk_run_reducer(buf, room, substituted.used, BUDGET);
    if (e->reducer.number != VISTROKK_ACCEPTED)
        return refused("run_reducer", e->reducer.number);
    printf("edition %d: %u bytes, its term %u, ", edition, (unsigned) program->used, (unsigned) term->used);
    printf("stepper %s after %u, reducer %s after %u, store:", outcomes[e->stepper.outcome], (unsigned) e->stepper.steps,
           outcomes[e->reducer.outcome], (unsigned) e->reducer.steps);
    for (i = 0; i < k; i++)
        printf(" %u", (unsigned) e->store[i]);
    printf("\n");
    return 0;
}

/* Both editions, edition 2 in buffers of 4 bytes more: its header takes them, so the room is the same. */
static int run_both(void)
{
    static end ends[2];
    if (run(1, &first, &first_term, VISTROKK_BUFFER_MOST - 4, &ends[0]) != 0 ||
        run(2, &second, &second_term, VISTROKK_BUFFER_MOST, &ends[1]) != 0)
        return 1;
    if (ends[0].stepper.outcome != ends[1].stepper.outcome || ends[0].stepper.steps != ends[1].stepper.steps ||
        ends[0].reducer.outcome != ends[1].reducer.outcome || ends[0].reducer.steps != ends[1].reducer.steps ||
        ends[0].reducer.replaced != ends[1].reducer.replaced || memcmp(ends[0].store, ends[1].store, sizeof start) != 0) {
        fprintf(stderr, "the editions run otherwise\n");
        return 1;
    }
    return 0;
}

/* To edition 1 again: the bytes that they were. */
static int move_back(void)
{
    static record program, term;
    if (write_from("program_to_edition_1", vistrokk_program_to_edition_1, &second, &program) != 0 ||
        write_from("term_to_edition_1", vistrokk_term_to_edition_1, &second_term, &term) != 0)
        return 1;
    if (!same(&program, &first) || !same(&term, &first_term)) {
        fprintf(stderr, "moved back, it differs\n");
        return 1;
    }
    printf("moved back: the same bytes\n");
    return 0;
}

/* Neither of these writes anything. */
static void show_refusals(void)
{
    static uint8_t out[VISTROKK_BUFFER_MOST];
    vistrokk_written w = vistrokk_program_to_edition_2(second.bytes, sizeof second.bytes, second.used, out, sizeof out);
    printf("moved once more: refused %u (%s)\n", (unsigned) w.number, refusals[w.number]);
    second.bytes[8] = 0xFE; /* The ceiling's lowest byte: one below the largest value. */
    w = vistrokk_program_to_edition_1(second.bytes, sizeof second.bytes, second.used, out, sizeof out);
    printf("moved back from a ceiling of %u: refused %u (%s)\n", (unsigned) word(second.bytes + 8), (unsigned) w.number,
           refusals[w.number]);
}

int main(int argc, char **argv)
{
    static uint8_t bytes[VISTROKK_BUFFER_MOST + 4 * VISTROKK_VARIABLES_MOST + 1];
    size_t count = sizeof add;
    uint32_t number;
    if (argc > 1) {
        FILE *file = fopen(argv[1], "rb");
        count = file == NULL ? 0 : fread(bytes, 1, sizeof bytes, file);
        if (file == NULL || ferror(file)) {
            fprintf(stderr, "cannot read %s\n", argv[1]);
            return 2;
        }
        fclose(file);
    } else {
        memcpy(bytes, add, sizeof add);
    }
    number = taken_from(bytes, count);
    if (number != VISTROKK_ACCEPTED)
        return refused("the load", number);
    if (move_there() != 0 || run_both() != 0 || move_back() != 0)
        return 1;
    show_refusals();
    return 0;
}
