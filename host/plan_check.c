/* Compares the proved reader with the plain one: on random plans, half of them damaged, and on the vectors where they are given.
   plan_check SEED COUNT [FILE ..]    compares, and says how many were taken and how often each refusal was given
   plan_check figure TEXT WHICH       reads one text by the reader `ours` or `plain`, for callgrind: `full`, as long as may be and with as many turns,
                                      `padded`, the same with every code padded to 20 bytes, or a number: a code field of so many spaces */
#include "gang.h"
#include "plan_plain.h"

#include <stdio.h>
#include <stdlib.h>
#include <string.h>

static uint64_t seed;

static unsigned draw(unsigned below)
{
    seed = seed * 6364136223846793005u + 1442695040888963407u;
    return (unsigned)((seed >> 33) % below);
}

static unsigned char text[GANG_MOST_TEXT_BYTES + 8000];
static size_t size;

static void put(const char *s)
{
    size_t n = strlen(s);
    if (size + n < sizeof text) {
        memcpy(text + size, s, n);
        size += n;
    }
}

static void put_number(unsigned n)
{
    char s[16];
    snprintf(s, sizeof s, "%u", n);
    put(s);
}

/* A code, and spaces behind it up to a width. */
static void put_padded(const char *code, size_t width)
{
    size_t end = size + width;
    put(code);
    while (size < end && size + 1 < sizeof text)
        put(" ");
}

/* How the codes of a plan are padded: not, as the clerk's export pads them, or each as it comes. */
enum padding { BARE, EXPORTED, MIXED };
#define EXPORT_WIDTH 20
#define MOST_WIDTH 40

static void put_code(unsigned kinds, enum padding padding)
{
    static const char *front[] = {"", " ", "K", "KR", "  X", "LONGPREFIX"};
    char s[40];
    unsigned k = draw(kinds);
    snprintf(s, sizeof s, "%s%u", front[k % 6], k);
    put_padded(s, padding == BARE ? 0 : padding == EXPORTED ? EXPORT_WIDTH : 1 + draw(MOST_WIDTH));
}

/* A field at the edge of what a code may be: no byte to 14 of them, and spaces. */
static void put_odd_code(void)
{
    char s[16] = "ABCDEFGHIJKLMN";
    s[draw(15)] = 0;
    if (draw(4) == 0)
        memset(s, ' ', draw((unsigned)strlen(s) + 1));
    put_padded(s, 1 + draw(MOST_WIDTH));
}

static void make_plan(void)
{
    unsigned n = 1 + draw(GANG_MOST_STATIONS), lines = draw(12), kinds = draw(8) ? 1 + draw(60) : 120, wide = draw(10) ? 12 : 700;
    enum padding padding = (enum padding)draw(3);
    size = 0;
    put("GANG\t");
    put_number(n);
    for (unsigned i = 0; i < lines; i++) {
        unsigned fields = 1 + draw(wide);
        put("\n");
        if (draw(2)) {
            put("HAS\t");
            put_number(1 + draw(n));
            while (fields-- > 0) {
                put("\t");
                put_code(kinds, padding);
            }
        } else {
            put("TURN");
            while (fields-- > 0) {
                put("\t");
                put_number(1 + draw(n));
            }
        }
    }
    if (draw(2))
        put("\n");
}

/* One byte, field or line is spoiled. */
static void damage(void)
{
    static const char *tails[] = {"\n\n", "\nGANG\t1", "\nHAS\t1", "\nHAS\t1\t", "\nTURN", "\nTURN\t", "\nTURN\t0", "\nTURN\t01", "\nTURN\t17",
                                  "\nTURN\t4294967297", "\nHAS\t1\t   ", "\nHAS\t1\tABCDEFGHIJKLM", "\nHAS\t1\tABCDEFGHIJKL", "\nOUT\t1", "\nTURN \t1", "\n \t1",
                                  "\nHAS\t\tA", "\nHAS\t1\tA\t\tB", "\nTURN\t1 ", "\nTURN\t+1", "\nTURN\t18446744073709551617"};
    switch (draw(7)) {
    case 0:
        if (size > 0)
            text[draw((unsigned)size)] = (unsigned char)draw(256);
        break;
    case 1:
        if (size > 0) {
            size_t at = draw((unsigned)size);
            memmove(text + at, text + at + 1, size - at - 1);
            size--;
        }
        break;
    case 2:
        if (size > 0 && size + 1 < sizeof text) {
            static const char bytes[] = "\t\n 09AZ";
            size_t at = draw((unsigned)size);
            memmove(text + at + 1, text + at, size - at);
            text[at] = (unsigned char)bytes[draw(7)];
            size++;
        }
        break;
    case 3:
        size = size == 0 ? 0 : draw((unsigned)size);
        break;
    case 4:
        put(tails[draw(sizeof tails / sizeof *tails)]);
        break;
    case 5:
        put("\nHAS\t1");
        for (unsigned fields = 1 + draw(3); fields > 0; fields--) {
            put("\t");
            put_odd_code();
        }
        break;
    default:
        switch (draw(4)) {
        case 0: /* too long, or as long as may be */
            put("\nTURN\t1");
            while (size < GANG_MOST_TEXT_BYTES - 2 + draw(6))
                put("\t1");
            break;
        case 1: /* in one line as many turns as may be, one less, one more or two more */
            size = 0;
            put("GANG\t3\nTURN\t3");
            for (unsigned t = GANG_MOST_TURNS - 2 + draw(4); t > 0; t--)
                put("\t2");
            if (draw(2))
                put("\nTURN\t4");
            break;
        case 2: /* the same of stocks */
            size = 0;
            put("GANG\t2\nHAS\t2\tA");
            for (unsigned c = GANG_MOST_STOCKS - 2 + draw(4); c > 0; c--) {
                put("\tB");
                put_number(c);
            }
            if (draw(2))
                put("\t");
            break;
        default:
            size = draw(3);
            break;
        }
    }
}

static unsigned long given[GANG_MORE_TURNS + 1];

/* All that a call may write, one behind the other, and bytes behind it. */
struct lent {
    uint64_t sets[GANG_MOST_STATIONS];
    uint8_t codes[GANG_CODES_BYTES];
    size_t lens[GANG_MOST_STOCKS];
    uint8_t turns[GANG_MOST_TURNS];
    size_t told[GANG_TOLD_NUMBERS];
    uint8_t behind[64];
};

/* What the lent bytes hold after a plan that is taken. */
static void hand_out(const struct plain_plan *plan, struct lent *l)
{
    memcpy(l->sets, plan->set, sizeof l->sets);
    memset(l->codes, 0, sizeof l->codes);
    for (unsigned k = 0; k < GANG_MOST_STOCKS; k++) {
        memcpy(l->codes + GANG_MOST_CODE_BYTES * k, plan->code[k], plan->length[k]);
        l->lens[k] = plan->length[k];
    }
    memcpy(l->turns, plan->turn, sizeof l->turns);
    l->told[GANG_TOLD_STATIONS] = plan->stations;
    l->told[GANG_TOLD_STOCKS] = plan->stocks;
    l->told[GANG_TOLD_TURNS] = plan->turns;
}

/* The number returned and every lent byte are those of the plain reading; a refusal leaves all of them as they were. */
static int compare(const unsigned char *t, size_t n)
{
    static struct lent ours, plainly;
    static struct plain_plan plan;
    size_t place;
    unsigned no = plain_read(t, n, &plan, &place);
    size_t returned = no == 0 ? GANG_DONE : no + 100 * place;
    memset(&ours, 0xee, sizeof ours);
    memset(&plainly, 0xee, sizeof plainly);
    if (no == 0)
        hand_out(&plan, &plainly);
    given[no]++;
    return gang_read_plan(t, n, ours.sets, ours.codes, ours.lens, ours.turns, ours.told) == returned
           && memcmp(&ours, &plainly, sizeof ours) == 0;
}

static int four(FILE *f, size_t *n)
{
    unsigned char b[4];
    if (fread(b, 1, 4, f) != 4)
        return 0;
    *n = b[0] | b[1] << 8 | b[2] << 16 | (size_t)b[3] << 24;
    return 1;
}

/* Some bytes behind their length, with a 0 after them. */
static unsigned char *some(FILE *f, size_t *n)
{
    unsigned char *b = NULL;
    if (!four(f, n))
        return NULL;
    b = malloc(*n + 1);
    if (fread(b, 1, *n, f) != *n) {
        free(b);
        return NULL;
    }
    b[*n] = 0;
    return b;
}

/* Of a report its first line and its stocks concern the reader. */
static int as_reported(const unsigned char *t, size_t n, const char *report)
{
    static struct plain_plan plan;
    size_t place;
    char want[64];
    unsigned no = plain_read(t, n, &plan, &place);
    if (no != 0)
        snprintf(want, sizeof want, "NO\t%u\t%zu\n", no, place);
    else
        snprintf(want, sizeof want, "RUN\t%u\t%u\t", plan.stations, plan.turns);
    if (strncmp(report, want, strlen(want)) != 0)
        return 0;
    for (unsigned k = 0; no == 0 && k < plan.stocks; k++) {
        snprintf(want, sizeof want, "\nSTOCK\t%u\t%.*s\n", k, (int)plan.length[k], plan.code[k]);
        if (strstr(report, want) == NULL)
            return 0;
    }
    return 1;
}

/* A file of plans and their reports, each behind its length in 4 bytes. */
static int compare_stored(const char *name)
{
    FILE *f = fopen(name, "rb");
    unsigned long count = 0;
    size_t n, m;
    unsigned char *plan_text, *report;
    if (f == NULL) {
        printf("%s: no plans\n", name);
        return 0;
    }
    while ((plan_text = some(f, &n)) != NULL && (report = some(f, &m)) != NULL) {
        int alike = compare(plan_text, n) && as_reported(plan_text, n, (char *)report);
        free(plan_text);
        free(report);
        if (!alike) {
            printf("%s: plan %lu differs\n", name, count);
            return 0;
        }
        count++;
    }
    fclose(f);
    printf("%s: %lu plans alike\n", name, count);
    return count > 0;
}

/* As long a text as may be, with as many turns; HAS lines with codes of 60 stocks, padded to the width, and one more fill what the turns leave. */
static void full_text(size_t width)
{
    const size_t most = GANG_MOST_TEXT_BYTES;
    unsigned k = 0;
    size = 0;
    put("GANG\t");
    put_number(GANG_MOST_STATIONS);
    for (unsigned t = 0; t < GANG_MOST_TURNS; t++) {
        put(t % 64 ? "\t" : "\nTURN\t");
        put_number(1 + t % GANG_MOST_STATIONS);
    }
    while (size < most - 40) {
        put("\nHAS\t");
        put_number(1 + k % GANG_MOST_STATIONS);
        for (unsigned c = 0; c < 16 && size < most - EXPORT_WIDTH; c++) {
            char code[16];
            snprintf(code, sizeof code, "STOCK-%u", 10 + k++ % 60);
            put("\t");
            put_padded(code, width);
        }
    }
    while (width == 0 && size < most - 10)
        put("\tSTOCK-10");
    if (size < most - 1) {
        put("\tA");
        while (size < most)
            put(width > 0 ? " " : "A");
    }
    if (size < most)
        put("\n");
}

static void spaces_text(size_t spaces)
{
    size = 0;
    put("GANG\t1\nHAS\t1\t");
    put_padded("", spaces);
}

/* Reads the text; fails where it is not read as it must be. */
static int figure(const char *what, const char *which)
{
    static struct lent ours;
    static struct plain_plan plan;
    size_t place;
    unsigned no, want = GANG_DONE;
    if (strcmp(what, "full") == 0)
        full_text(0);
    else if (strcmp(what, "padded") == 0)
        full_text(EXPORT_WIDTH);
    else {
        spaces_text(strtoul(what, NULL, 10));
        want = GANG_BAD_CODE;
    }
    if (strcmp(which, "ours") == 0)
        no = GANG_REFUSAL(gang_read_plan(text, size, ours.sets, ours.codes, ours.lens, ours.turns, ours.told));
    else
        no = plain_read(text, size, &plan, &place);
    printf("%zu bytes: %u\n", size, no);
    return no != want;
}

int main(int argc, char **argv)
{
    unsigned long count;
    int alike = 1;
    if (argc == 4 && strcmp(argv[1], "figure") == 0)
        return figure(argv[2], argv[3]);
    if (argc < 3)
        return 2;
    seed = strtoull(argv[1], NULL, 10);
    count = strtoul(argv[2], NULL, 10);
    for (unsigned long i = 0; i < count; i++) {
        make_plan();
        if (i % 2)
            for (unsigned d = 1 + draw(2); d > 0; d--)
                damage();
        if (!compare(text, size)) {
            printf("plan %lu: the readers differ\n", i);
            fwrite(text, 1, size < 2000 ? size : 2000, stdout);
            return 1;
        }
    }
    printf("%lu plans alike: %lu taken", count, given[0]);
    for (unsigned no = GANG_LONG_TEXT; no <= GANG_MORE_TURNS; no++)
        printf(", %u: %lu", no, given[no]);
    printf("\n");
    for (int f = 3; f < argc; f++)
        alike &= compare_stored(argv[f]);
    return !alike;
}
