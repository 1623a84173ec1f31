/* The run call once more, plainly: written from the rules alone (docs/MODEL.md, 2 to 7), to compare with. It shares nothing with the library
   but the names of the limits, by which its arrays are made. */
#include "gang.h"
#include "plain.h"

#include <string.h>

#define LEVELS 4

enum phase { POST, BRING, READ, HELP, GATHER, REST };

struct station {
    enum phase phase;
    unsigned count;
    int level, side, first, changed;
    int at, upto;       /* register, or station whose line is read next */
    uint64_t set;       /* what it brings to a level, and then its gang set */
    uint64_t last[2];   /* the last results: own, other */
    uint64_t stocks;
};

struct hall {
    int n, depth;
    uint64_t reg[LEVELS + 1][GANG_MOST_STATIONS + 1]; /* level from 1, place in the row from 1 */
    uint64_t line[GANG_MOST_STATIONS + 1];
    int written[GANG_MOST_STATIONS + 1];
    struct station st[GANG_MOST_STATIONS + 1];
};

static int size(uint64_t s) { return __builtin_popcountll(s); }

static int place(const struct hall *h, int i, int side, int j)
{
    int length = 1 << (h->st[i].level - 1);
    int g = (i + length - 1) / length;
    if (side) g = g % 2 ? g + 1 : g - 1;
    return (g - 1) * length + j;
}

static void next_line(struct station *s)
{
    do s->at++; while (s->at <= 64 && !(s->set >> (s->at - 1) & 1));
    if (s->at > 64) s->phase = REST;
}

static void enter(struct hall *h, struct station *s)
{
    if (s->level > h->depth) {
        s->phase = GATHER;
        s->at = 0;
        next_line(s);
        return;
    }
    s->phase = BRING;
    s->at = 1;
    s->last[0] = s->set;
    s->last[1] = 0;
    s->side = 0;
    s->first = 1;
    s->changed = 0;
}

/* this reading is over, as far as no operation is needed to know it */
static void go_on(struct hall *h, struct station *s, int over)
{
    for (;;) {
        if (!over && size(s->last[s->side]) < 1 << (s->level - 1)) {
            s->phase = READ;
            return;
        }
        over = 0;
        if (s->side == 0) {
            s->side = 1;
        } else if (!s->first && !s->changed) {
            s->set = s->last[0] | s->last[1];
            s->level++;
            enter(h, s);
            return;
        } else {
            s->first = s->changed = s->side = 0;
        }
    }
}

/* one turn; 0 if it would read a line never written */
static int turn(struct hall *h, int i)
{
    struct station *s = &h->st[i];
    if (s->phase == REST) return 1;
    if (s->phase == GATHER && !h->written[s->at]) return 0;
    s->count++;
    switch (s->phase) {
    case POST:
        h->line[i] = s->stocks;
        h->written[i] = 1;
        s->stocks = 0;
        s->set = (uint64_t)1 << (i - 1);
        s->level = 1;
        enter(h, s);
        break;
    case BRING:
        h->reg[s->level][place(h, i, 0, s->at)] = s->set;
        if (s->at++ == size(s->set)) go_on(h, s, 0);
        break;
    case READ: {
        int known = size(s->last[s->side]);
        uint64_t t = h->reg[s->level][place(h, i, s->side, known + 1)];
        if (t == 0) {
            go_on(h, s, 1);
            break;
        }
        s->last[s->side] = t;
        s->changed = 1;
        if (size(t) > known + 1) {
            s->phase = HELP;
            s->at = known + 2;
            s->upto = size(t);
        } else {
            go_on(h, s, 0);
        }
        break;
    }
    case HELP:
        h->reg[s->level][place(h, i, s->side, s->at)] = s->last[s->side];
        if (s->at++ == s->upto) go_on(h, s, 0);
        break;
    case GATHER:
        s->stocks |= h->line[s->at];
        next_line(s);
        break;
    case REST:
        break;
    }
    return 1;
}

static uint64_t word(const uint8_t *b)
{
    uint64_t x = 0;
    for (int k = 7; k >= 0; k--) x = x << 8 | b[k];
    return x;
}

static void put(uint8_t *b, uint64_t x, int bytes)
{
    for (int k = 0; k < bytes; k++, x >>= 8) b[k] = (uint8_t)x;
}

uint32_t plain_run(uint64_t n, const uint8_t *inputs, size_t input_bytes, const uint8_t *turns, size_t turn_bytes, uint8_t *answer, size_t answer_bytes)
{
    struct hall h;
    if (n == 0 || n > GANG_MOST_STATIONS) return 1;
    if (input_bytes != GANG_INPUT_BYTES * n) return 2;
    if (turn_bytes > GANG_MOST_TURNS) return 3;
    for (size_t t = 0; t < turn_bytes; t++)
        if (turns[t] == 0 || turns[t] > n) return (uint32_t)(4 + 100 * t);
    if (answer_bytes < GANG_ROW_BYTES * n) return 5;
    memset(&h, 0, sizeof h);
    h.n = (int)n;
    while (1u << h.depth < n) h.depth++;
    for (int i = 1; i <= h.n; i++) h.st[i].stocks = word(inputs + GANG_INPUT_BYTES * (i - 1));
    for (size_t t = 0; t < turn_bytes; t++)
        if (!turn(&h, turns[t])) return (uint32_t)(6 + 100 * t);
    for (int i = 1; i <= h.n; i++) {
        struct station *s = &h.st[i];
        uint8_t *row = answer + GANG_ROW_BYTES * (i - 1);
        int settled = s->phase == REST;
        row[0] = s->phase == POST ? 0 : settled ? 2 : 1;
        row[1] = 0;
        put(row + 2, s->count, 2);
        put(row + 4, settled ? s->set : 0, 8);
        put(row + 12, settled ? s->stocks : 0, 8);
    }
    return 0;
}
