/* A plain reader of the plan text: one line at a time, one field at a time. */
#include "plan_plain.h"

#include <string.h>

struct field {
    const unsigned char *start;
    size_t size;
};

/* The next field of the line, or 0 where there is none. */
static int next_field(const unsigned char **at, const unsigned char *end, struct field *f)
{
    const unsigned char *p = *at;
    if (p > end)
        return 0;
    f->start = p;
    while (p < end && *p != '\t')
        p++;
    f->size = (size_t)(p - f->start);
    *at = p + 1;
    return 1;
}

static int is_word(struct field f, const char *word)
{
    return f.size == strlen(word) && memcmp(f.start, word, f.size) == 0;
}

/* The number from 1 to most, or 0. */
static unsigned number(struct field f, unsigned most)
{
    unsigned value = 0;
    if (f.size == 0 || f.start[0] == '0')
        return 0;
    for (size_t i = 0; i < f.size; i++) {
        unsigned char b = f.start[i];
        if (b < '0' || b > '9')
            return 0;
        value = value * 10 + (unsigned)(b - '0');
        if (value > most)
            return 0;
    }
    return value;
}

static unsigned take_code(struct plain_plan *plan, unsigned station, struct field f)
{
    unsigned k;
    while (f.size > 0 && f.start[f.size - 1] == ' ')
        f.size--;
    if (f.size == 0 || f.size > GANG_MOST_CODE_BYTES)
        return 17;
    for (k = 0; k < plan->stocks; k++)
        if (plan->length[k] == f.size && memcmp(plan->code[k], f.start, f.size) == 0)
            break;
    if (k == plan->stocks) {
        if (k == GANG_MOST_STOCKS)
            return 18;
        memcpy(plan->code[k], f.start, f.size);
        plan->length[k] = (unsigned char)f.size;
        plan->stocks++;
    }
    plan->set[station - 1] |= (uint64_t)1 << k;
    return 0;
}

static unsigned has_line(struct plain_plan *plan, const unsigned char *at, const unsigned char *end)
{
    struct field station, f;
    unsigned i;
    if (!next_field(&at, end, &station) || at > end)
        return 15;
    i = number(station, plan->stations);
    if (i == 0)
        return 16;
    while (next_field(&at, end, &f)) {
        unsigned no = take_code(plan, i, f);
        if (no != 0)
            return no;
    }
    return 0;
}

static unsigned turn_line(struct plain_plan *plan, const unsigned char *at, const unsigned char *end)
{
    struct field f;
    if (at > end)
        return 15;
    while (next_field(&at, end, &f)) {
        unsigned i = number(f, plan->stations);
        if (i == 0)
            return 16;
        if (plan->turns == GANG_MOST_TURNS)
            return 19;
        plan->turn[plan->turns++] = (unsigned char)i;
    }
    return 0;
}

static unsigned gang_line(struct plain_plan *plan, const unsigned char *at, const unsigned char *end)
{
    struct field word = {at, 0}, f;
    next_field(&at, end, &word);
    if (!is_word(word, "GANG") || !next_field(&at, end, &f) || at <= end)
        return 12;
    plan->stations = number(f, GANG_MOST_STATIONS);
    return plan->stations == 0 ? 12 : 0;
}

static unsigned later_line(struct plain_plan *plan, const unsigned char *at, const unsigned char *end)
{
    struct field word = {at, 0};
    next_field(&at, end, &word);
    if (is_word(word, "HAS"))
        return has_line(plan, at, end);
    if (is_word(word, "TURN"))
        return turn_line(plan, at, end);
    return 14;
}

unsigned plain_read(const unsigned char *text, size_t size, struct plain_plan *plan, size_t *place)
{
    const unsigned char *at = text, *last = text + size;
    size_t line = 0;
    memset(plan, 0, sizeof *plan);
    *place = 0;
    if (size > GANG_MOST_TEXT_BYTES)
        return 11;
    do {
        const unsigned char *end = at;
        unsigned no;
        *place = ++line;
        while (end < last && *end != '\n')
            end++;
        for (const unsigned char *p = at; p < end; p++)
            if (*p != '\t' && (*p < 0x20 || *p > 0x7e))
                return 13;
        no = line == 1 ? gang_line(plan, at, end) : later_line(plan, at, end);
        if (no != 0)
            return no;
        at = end + 1;
    } while (at < last);
    return 0;
}
