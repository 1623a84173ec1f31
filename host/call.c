/* The RIP's host program in small: a plan's text is read, its stations and turns are run, and each refusal that a run call can meet is shown. */
#include "gang.h"

#include <inttypes.h>
#include <stdio.h>
#include <string.h>

static void show(const char *what, uint32_t returned)
{
    if (returned == GANG_DONE) printf("%s: done\n", what);
    else printf("%s: refusal %" PRIu32 " at %" PRIu32 "\n", what, GANG_REFUSAL(returned), GANG_PLACE(returned));
}

static uint64_t word(const uint8_t *b)
{
    uint64_t x = 0;
    for (int k = 7; k >= 0; k--) x = x << 8 | b[k];
    return x;
}

static void run_plan(const char *text)
{
    static uint64_t sets[GANG_MOST_STATIONS];
    static uint8_t codes[GANG_CODES_BYTES], turns[GANG_MOST_TURNS];
    static size_t lens[GANG_MOST_STOCKS], told[GANG_TOLD_NUMBERS];
    static uint8_t inputs[GANG_MOST_STATIONS * GANG_INPUT_BYTES], answer[GANG_MOST_STATIONS * GANG_ROW_BYTES];
    uint32_t returned = gang_read_plan((const uint8_t *)text, strlen(text), sets, codes, lens, turns, told);
    show("the plan is read", returned);
    if (returned != GANG_DONE) return;
    size_t n = told[GANG_TOLD_STATIONS];
    for (size_t i = 0; i < n; i++)
        for (int k = 0; k < GANG_INPUT_BYTES; k++) inputs[GANG_INPUT_BYTES * i + (size_t)k] = (uint8_t)(sets[i] >> 8 * k);
    returned = gang_run(n, inputs, GANG_INPUT_BYTES * n, turns, told[GANG_TOLD_TURNS], answer, sizeof answer);
    show("its turns are run", returned);
    for (size_t i = 0; i < n && returned == GANG_DONE; i++) {
        const uint8_t *row = answer + GANG_ROW_BYTES * i;
        printf("station %zu: state %u, count %u, stations %04" PRIx64 ", stocks %016" PRIx64 "\n", i + 1, row[0], row[2] | row[3] << 8, word(row + 4), word(row + 12));
    }
}

int main(void)
{
    const uint8_t inputs[2 * GANG_INPUT_BYTES] = {1, 0, 0, 0, 0, 0, 0, 0, 3};
    const uint8_t turns[11] = {1, 1, 1, 1, 1, 2, 2, 2, 2, 2, 1};
    static uint8_t many[GANG_MOST_TURNS + 1];
    uint8_t answer[2 * GANG_ROW_BYTES];
    run_plan("GANG\t2\nHAS\t1\tKR90\nHAS\t2\tKR90  \tSB70\nTURN\t1\t1\t1\t1\t1\t2\t2\t2\t2\t2\t1\n");
    run_plan("GANG\t2\nTURN\t1\t3\n");
    show("two stations", gang_run(2, inputs, sizeof inputs, turns, sizeof turns, answer, sizeof answer));
    show("no stations", gang_run(0, inputs, 0, turns, 0, answer, sizeof answer));
    show("one station too many", gang_run(GANG_MOST_STATIONS + 1, inputs, sizeof inputs, turns, sizeof turns, answer, sizeof answer));
    show("one input for two", gang_run(2, inputs, GANG_INPUT_BYTES, turns, sizeof turns, answer, sizeof answer));
    memset(many, 1, sizeof many);
    show("one turn too many", gang_run(2, inputs, sizeof inputs, many, sizeof many, answer, sizeof answer));
    show("turn 5 names station 2 of 1", gang_run(1, inputs, GANG_INPUT_BYTES, turns, sizeof turns, answer, sizeof answer));
    show("a byte too few for the answer", gang_run(2, inputs, sizeof inputs, turns, sizeof turns, answer, sizeof answer - 1));
    return 0;
}
