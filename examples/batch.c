/* A batch, as an integrator would write it: several start stores of one program, which is checked and translated once for all of them.
 * Each has its own budget and its own answer, and none changes another's. It prints a line for each: the outcome, the steps made, and the
 * end values of one that is finished. `./test` builds and runs it:
 *
 *    cc -I include examples/batch.c crates/vistrokk/out/libvistrokk.a -o batch
 *    ./batch [ROOM]
 *
 * ROOM: the bytes of the reducer's buffer, 16,384 if not given. Exit status: 0; 1 with a refusal; 2 if that is no such number.
 */
#include <stdio.h>
#include <stdlib.h>

#include "vistrokk.h"

/* k = 4, {x3 := x1; for x4 := 1 to x2 {x3 := x3 + 1}}, of edition 1; compare.c says which bytes are what. */
#define K 4
static const uint8_t add[64] = {
    64, 0, 7, 0, 4, 0, 0, 0, 56, 0, 1, 0, 16, 0, 2, 0, 3, 0, 0, 0, 8, 0, 17, 0, 1, 0, 0, 0, 36, 0, 3, 0,
    4, 0, 0, 0, 8, 0, 17, 0, 2, 0, 0, 0, 20, 0, 1, 0, 16, 0, 2, 0, 3, 0, 0, 0, 8, 0, 18, 0, 3, 0, 0, 0,
};

/* The budgets tell how many stores there are, at most VISTROKK_BATCH_MOST. The values and the answers stand store after store. */
#define STORES 5
static const uint32_t budgets[STORES] = { 1000000, 1000000, 1000000, 17, 18 };
static const uint32_t values[STORES * K] = {
    7, 3, 0, 0,
    4294967295u, 1, 0, 0, /* the sum is too large for a value */
    0, 1000, 0, 0,        /* so many turns do not fit the reducer's buffer */
    7, 3, 0, 0,           /* a step more is needed than the budget has */
    7, 3, 0, 0,
};
static uint32_t answers[STORES * (K + 2)];

/* What is left in them is of no use here: the program's term, and zeros. */
static uint8_t term[VISTROKK_BUFFER_MOST], work[VISTROKK_BUFFER_MOST];

/* Those that a batch can give. */
static const char *const refusals[] = {
    [VISTROKK_BAD_BUFFER] = "bad buffer",
    [VISTROKK_BAD_BATCH] = "bad batch",
    [VISTROKK_BAD_HEADER] = "bad header",
    [VISTROKK_BAD_K] = "bad k",
    [VISTROKK_MALFORMED] = "malformed",
    [VISTROKK_BAD_VARIABLE] = "bad variable",
    [VISTROKK_LITERAL_ABOVE_CEILING] = "literal above ceiling",
    [VISTROKK_BAD_STORE] = "bad store",
    [VISTROKK_VALUE_ABOVE_CEILING] = "value above ceiling",
    [VISTROKK_OUTPUT_TOO_SHORT] = "output too short",
};

static const char *const outcomes[] = {
    [VISTROKK_FINISHED] = "finished",
    [VISTROKK_OVER] = "over",
    [VISTROKK_NO_ROOM] = "noroom",
    [VISTROKK_SPENT] = "spent",
};

/* Outcome, count and k end values. The zeros of a store that is not finished are no result, so they are not shown. */
static void show(const uint32_t *answer)
{
    uint32_t i;
    printf("%s after %u", outcomes[answer[0]], (unsigned) answer[1]);
    if (answer[0] == VISTROKK_FINISHED) {
        printf(":");
        for (i = 0; i < K; i++)
            printf(" %u", (unsigned) answer[2 + i]);
    }
    printf("\n");
}

int main(int argc, char **argv)
{
    unsigned long room = VISTROKK_BUFFER_MOST;
    vistrokk_written written;
    uint32_t i;
    if (argc > 1) {
        char *end;
        room = strtoul(argv[1], &end, 10);
        if (end == argv[1] || *end != '\0' || room > VISTROKK_BUFFER_MOST) {
            fprintf(stderr, "%s is not a number from 0 to %d\n", argv[1], VISTROKK_BUFFER_MOST);
            return 2;
        }
    }
    written = vistrokk_run_batch(add, sizeof add, sizeof add, term, sizeof term, work, room, budgets, STORES,
                                 values, STORES * K, answers, STORES * (K + 2));
    if (written.number != VISTROKK_ACCEPTED) {
        fprintf(stderr, "run_batch: refused %u (%s)\n", (unsigned) written.number, refusals[written.number]);
        return 1;
    }
    for (i = 0; i < STORES; i++)
        show(answers + i * (K + 2));
    return 0;
}
