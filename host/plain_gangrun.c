/* gangrun once more, plainly: a plan on standard input, its report on standard output. */
#include "plain.h"
#include "plan_plain.h"

#include <stdio.h>

static uint64_t number(const uint8_t *b, int bytes)
{
    uint64_t x = 0;
    while (bytes-- > 0) x = x << 8 | b[bytes];
    return x;
}

int main(void)
{
    static unsigned char text[GANG_MOST_TEXT_BYTES + 1];
    static struct plain_plan plan;
    static uint8_t inputs[GANG_MOST_STATIONS * GANG_INPUT_BYTES], answer[GANG_MOST_STATIONS * GANG_ROW_BYTES];
    size_t place, size = fread(text, 1, sizeof text, stdin);
    unsigned no = plain_read(text, size, &plan, &place), counts = 0;
    uint32_t r;
    if (no != 0) {
        printf("NO\t%u\t%zu\n", no, place);
        return 0;
    }
    for (unsigned i = 0; i < plan.stations; i++)
        for (int k = 0; k < GANG_INPUT_BYTES; k++) inputs[GANG_INPUT_BYTES * i + k] = (uint8_t)(plan.set[i] >> 8 * k);
    r = plain_run(plan.stations, inputs, GANG_INPUT_BYTES * plan.stations, plan.turn, plan.turns, answer, sizeof answer);
    if (r != 0) {
        printf("NO\t%u\t%u\n", r % 100, r / 100);
        return 0;
    }
    for (unsigned i = 0; i < plan.stations; i++) counts += (unsigned)number(answer + GANG_ROW_BYTES * i + 2, 2);
    printf("RUN\t%u\t%u\t%u\n", plan.stations, plan.turns, plan.turns - counts);
    for (unsigned s = 0; s < plan.stocks; s++) printf("STOCK\t%u\t%.*s\n", s, plan.length[s], plan.code[s]);
    for (unsigned i = 0; i < plan.stations; i++) {
        const uint8_t *row = answer + GANG_ROW_BYTES * i;
        printf("ST\t%u\t%u\t%u\t", i + 1, row[0], (unsigned)number(row + 2, 2));
        if (row[0] == GANG_STATE_SETTLED) printf("%04llx\t%016llx\n", (unsigned long long)number(row + 4, 8), (unsigned long long)number(row + 12, 8));
        else printf("-\t-\n");
    }
    return 0;
}
