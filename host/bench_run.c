/* One full run call, all stations and as many turns as may be, made so many times: the library's or the plain one's. */
#include "gang.h"
#include "plain.h"

#include <stdlib.h>
#include <string.h>

int main(int argc, char **argv)
{
    static uint8_t inputs[GANG_MOST_STATIONS * GANG_INPUT_BYTES], turns[GANG_MOST_TURNS], answer[GANG_MOST_STATIONS * GANG_ROW_BYTES];
    int plainly = argc > 1 && strcmp(argv[1], "plain") == 0, times = argc > 2 ? atoi(argv[2]) : 1;
    uint32_t x = 1, sum = 0;
    for (int i = 0; i < GANG_MOST_STATIONS; i++) {
        inputs[GANG_INPUT_BYTES * i] = (uint8_t)(1 << i % 8);
        inputs[GANG_INPUT_BYTES * i + 1] = (uint8_t)(i / 8);
    }
    for (int t = 0; t < GANG_MOST_TURNS; t++) {
        x = x * 1664525u + 1013904223u;
        turns[t] = (uint8_t)(1 + (x >> 16) * GANG_MOST_STATIONS / 65536);
    }
    for (int k = 0; k < times; k++)
        sum += (plainly ? plain_run : gang_run)(GANG_MOST_STATIONS, inputs, sizeof inputs, turns, sizeof turns, answer, sizeof answer)
               + answer[(size_t)k % sizeof answer];
    return sum == 12345;
}
