/* Calls of the library beside the plain implementation: random ones, valid and damaged, and stored ones.
   calls COUNT [FILE ..]    COUNT random calls, and all calls of the files */
#include "gang.h"
#include "plain.h"

#include <stdio.h>
#include <stdlib.h>
#include <string.h>

static uint64_t seed = 88172645463325252ull;

static uint64_t draw(void)
{
    seed ^= seed << 13;
    seed ^= seed >> 7;
    seed ^= seed << 17;
    return seed;
}

static unsigned below(unsigned m) { return (unsigned)(draw() >> 33) % m; }

static long passed, failed, by_refusal[GANG_UNWRITTEN_LINE + 1];

/* the buffer is longer than any call is told, and every byte of it is compared */
#define ROOM (GANG_MOST_STATIONS * GANG_ROW_BYTES + 192)
static uint8_t ours[ROOM], theirs[ROOM];

static void compare(uint64_t n, const uint8_t *in, size_t nin, const uint8_t *tu, size_t ntu, size_t nans)
{
    for (int k = 0; k < ROOM; k++) ours[k] = theirs[k] = (uint8_t)(k * 7 + 3);
    uint32_t a = gang_run(n, in, nin, tu, ntu, ours, nans);
    uint32_t b = plain_run(n, in, nin, tu, ntu, theirs, nans);
    if (a == b && memcmp(ours, theirs, ROOM) == 0) {
        passed++;
        by_refusal[GANG_REFUSAL(a) <= GANG_UNWRITTEN_LINE ? GANG_REFUSAL(a) : 0]++;
    } else {
        failed++;
        if (failed < 10) printf("n %llu, %zu inputs, %zu turns, %zu answer: %u, plainly %u\n", (unsigned long long)n, nin, ntu, nans, a, b);
    }
}

static void random_call(void)
{
    static uint8_t in[GANG_MOST_STATIONS * GANG_INPUT_BYTES + GANG_INPUT_BYTES], tu[GANG_MOST_TURNS + 900];
    static const unsigned lengths[] = {0, 1, 2, 5, 12, 30, 80, 200, 600, 1700, GANG_MOST_TURNS - 1, GANG_MOST_TURNS};
    uint64_t n = 1 + below(GANG_MOST_STATIONS);
    size_t nin = GANG_INPUT_BYTES * n, ntu = below(4) ? below(400) : lengths[below(12)], nans = GANG_ROW_BYTES * n + below(3) * below(60);
    unsigned last = 1 + below((unsigned)n); /* a stalled hall: only some stations are named */
    for (size_t k = 0; k < sizeof in; k++) in[k] = below(4) ? 0 : (uint8_t)draw();
    unsigned run = 1, who = 1;
    for (size_t t = 0; t < ntu; t++) {
        if (--run == 0) {
            run = 1 + (below(3) ? 0 : below(12));
            who = 1 + below(below(3) ? (unsigned)n : last);
        }
        tu[t] = (uint8_t)who;
    }
    switch (below(12)) { /* damaged calls */
    case 0: n = (uint64_t[]){0, GANG_MOST_STATIONS + 1, GANG_MOST_STATIONS + 2, 255, 256, 257, 65536, 4294967295u, 4294967296u, 4294967297u, (uint64_t)1 << 63, ~(uint64_t)0}[below(12)]; break;
    case 1: nin = (size_t[]){0, nin - 1, nin + 1, nin + GANG_INPUT_BYTES, nin - GANG_INPUT_BYTES, 1}[below(6)]; break;
    case 2: ntu = GANG_MOST_TURNS + 1 + below(899); for (size_t t = 0; t < ntu; t++) tu[t] = (uint8_t)(below(40) ? 1 + below((unsigned)n) : below(256)); break;
    case 3: if (ntu) tu[below((unsigned)ntu)] = (uint8_t)(below(2) ? 0 : n + 1 + below(256 - (unsigned)n - 1)); break;
    case 4: nans = (size_t[]){0, GANG_ROW_BYTES * n - 1, GANG_ROW_BYTES * (n - 1), GANG_ROW_BYTES - 1}[below(4)]; break;
    case 5: if (ntu) tu[below((unsigned)ntu)] = 0; nans = below((unsigned)(GANG_ROW_BYTES * n)); break; /* two faults: the first in the table counts */
    default: break;
    }
    compare(n, in, nin, tu, ntu, nans);
}

static uint32_t four(const uint8_t *b) { return b[0] | b[1] << 8 | b[2] << 16 | (uint32_t)b[3] << 24; }

static long stored(const char *path)
{
    FILE *f = fopen(path, "rb");
    if (!f) return -1;
    static uint8_t all[1 << 24];
    size_t m = fread(all, 1, sizeof all, f), at = 0;
    long calls = 0;
    fclose(f);
    while (at + 4 <= m) {
        uint32_t n = four(all + at), nin = four(all + at + 4);
        const uint8_t *in = all + at + 8;
        at += 8 + nin;
        uint32_t ntu = four(all + at);
        const uint8_t *tu = all + at + 4;
        at += 4 + ntu;
        uint32_t nans = four(all + at), number = four(all + at + 4);
        const uint8_t *answer = all + at + 8;
        at += 8 + nans;
        uint8_t *got = malloc(nans + 1);
        memset(got, 0xEE, nans + 1);
        uint32_t r = gang_run(n, in, nin, tu, ntu, got, nans);
        if (r == number && memcmp(got, answer, nans) == 0 && got[nans] == 0xEE) passed++;
        else { failed++; printf("stored call %ld: %u, not %u\n", calls, r, number); }
        free(got);
        calls++;
    }
    return calls;
}

int main(int argc, char **argv)
{
    long calls = argc > 1 ? atol(argv[1]) : 20000;
    for (long k = 0; k < calls; k++) random_call();
    printf("random calls: %ld; results %ld, refusals", calls, by_refusal[0]);
    for (int k = 1; k <= GANG_UNWRITTEN_LINE; k++) printf(" %d: %ld%s", k, by_refusal[k], k < GANG_UNWRITTEN_LINE ? "," : "\n");
    for (int f = 2; f < argc; f++) {
        long s = stored(argv[f]);
        if (s > 0) printf("%s: %ld calls\n", argv[f], s);
        else failed++, printf("%s: no calls\n", argv[f]);
    }
    printf("%ld passed, %ld failed\n", passed, failed);
    return failed != 0;
}
