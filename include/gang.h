/* The gang model for a program in C: a run from bytes, and a plan text read into arrays.
 *
 * `rt lib` in crates/gang proves the library and writes crates/gang/out/libgang.a. Build with
 *
 *     cc -Iinclude program.c crates/gang/out/libgang.a
 *
 * docs/MODEL.md has the rules, in sections 7 (the run call) and 8 (the plan text).
 */
#ifndef GANG_H
#define GANG_H

#include <stddef.h>
#include <stdint.h>

#ifdef __cplusplus
extern "C" {
#endif

/* The most that is taken. Arrays are made with these names, so that they grow with the library. */
#define GANG_MOST_STATIONS 16
#define GANG_MOST_STOCKS 64
#define GANG_MOST_TURNS 4096
#define GANG_MOST_TEXT_BYTES 32768
#define GANG_MOST_CODE_BYTES 12 /* without the spaces at its end */

/* What a call returns: GANG_DONE, or a refusal's number and 100 times its place. */
#define GANG_DONE 0
#define GANG_REFUSAL(returned) ((returned) % 100)
#define GANG_PLACE(returned) ((returned) / 100)

/* What every call promises: a refusal is given exactly when its row below says, the first in the order of the tests, and leaves every lent byte
 * as it was.
 *
 * What every caller owes, and no more: a pointer is not null, also where the length behind it is 0; it points to as many bytes as that length
 * says, or to an array of the length that is declared; and what a call writes overlaps nothing else that it is given.
 */

/* Refusals of a run call, in the order of the tests. The place is 0 where none is named. */
#define GANG_BAD_STATION_COUNT 1 /* n is 0, or more than GANG_MOST_STATIONS */
#define GANG_BAD_INPUT_BYTES 2   /* not just GANG_INPUT_BYTES for each station */
#define GANG_TOO_MANY_TURNS 3    /* more than GANG_MOST_TURNS */
#define GANG_BAD_TURN 4          /* a turn is 0, or more than n; place: the first such turn, from 0 */
#define GANG_SHORT_ANSWER 5      /* fewer than GANG_ROW_BYTES for each station */
#define GANG_UNWRITTEN_LINE 6    /* a turn would read a line X that was never written; place: that turn, from 0 */

/* Refusals of a plan text. The place is 0 for GANG_LONG_TEXT, and else the line, from 1. */
#define GANG_LONG_TEXT 11      /* more than GANG_MOST_TEXT_BYTES */
#define GANG_BAD_FIRST_LINE 12 /* no line 1, or it is not GANG and one number from 1 to GANG_MOST_STATIONS */
#define GANG_STRAY_BYTE 13     /* a byte that is neither a tab nor from 20 to 7E hex */
#define GANG_OTHER_WORD 14     /* a later line that begins with neither HAS nor TURN */
#define GANG_FEW_FIELDS 15     /* HAS with fewer than two fields behind it, or TURN with none */
#define GANG_BAD_STATION 16    /* a station that is no number from 1 to n */
#define GANG_BAD_CODE 17       /* without the spaces at its end, a code of more than GANG_MOST_CODE_BYTES or of none */
#define GANG_MORE_STOCKS 18    /* one stock more than GANG_MOST_STOCKS */
#define GANG_MORE_TURNS 19     /* one turn more than GANG_MOST_TURNS */

/* An input: the stocks of a station, bit b for stock b, little-endian. */
#define GANG_INPUT_BYTES 8

/* A row of the answer, station 1 first, all little-endian:
 *   0       state
 *   1       zero
 *   2..3    count: the turns that named the station before it had settled
 *   4..11   the settled set of stations, bit i-1 for station i
 *   12..19  the settled set of stocks, bit b for stock b
 * Both sets are zero until the station has settled.
 */
#define GANG_ROW_BYTES 20
#define GANG_STATE_NOT_BEGUN 0
#define GANG_STATE_UNDER_WAY 1
#define GANG_STATE_SETTLED 2

/* Plays an order of turns on a fresh board.
 *   n       stations, tested at its full width
 *   inputs  GANG_INPUT_BYTES for each station
 *   turns   a byte for each turn: the number of a station, from 1
 *   answer  on GANG_DONE a row for each station; the bytes behind them stay as they were
 */
uint32_t gang_run(uint64_t n,
                  const uint8_t *inputs, size_t input_bytes,
                  const uint8_t *turns, size_t turn_bytes,
                  uint8_t *answer, size_t answer_bytes);

/* A plan that was read: its cells of codes, and its counts. */
#define GANG_CODES_BYTES (GANG_MOST_STOCKS * GANG_MOST_CODE_BYTES)
#define GANG_TOLD_NUMBERS 3
#define GANG_TOLD_STATIONS 0
#define GANG_TOLD_STOCKS 1
#define GANG_TOLD_TURNS 2

/* Reads a plan text. On GANG_DONE every array is written whole:
 *   sets    the stocks of each station, bit b for stock b
 *   codes   the code of stock b, without the spaces at its end, from byte GANG_MOST_CODE_BYTES * b on
 *   lens    how many bytes the code of stock b has
 *   turns   a byte for each turn: the number of a station, from 1
 *   told    how many stations, stocks and turns there are
 * What lies behind the last station, stock, byte of a code or turn is 0.
 */
uint32_t gang_read_plan(const uint8_t *text, size_t text_bytes,
                        uint64_t sets[GANG_MOST_STATIONS],
                        uint8_t codes[GANG_CODES_BYTES],
                        size_t lens[GANG_MOST_STOCKS],
                        uint8_t turns[GANG_MOST_TURNS],
                        size_t told[GANG_TOLD_NUMBERS]);

#ifdef __cplusplus
}
#endif

#endif
