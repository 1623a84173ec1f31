/* A plain reader of the plan text, written from the rules alone (docs/MODEL.md, 8), to compare with. */
#ifndef PLAN_PLAIN_H
#define PLAN_PLAIN_H

#include "gang.h"

struct plain_plan {
    unsigned stations;
    unsigned stocks;
    unsigned turns;
    unsigned char code[GANG_MOST_STOCKS][GANG_MOST_CODE_BYTES];
    unsigned char length[GANG_MOST_STOCKS];
    uint64_t set[GANG_MOST_STATIONS];
    unsigned char turn[GANG_MOST_TURNS];
};

/* 0, with the plan; or the refusal's number, with its place. */
unsigned plain_read(const unsigned char *text, size_t size, struct plain_plan *plan, size_t *place);

#endif
