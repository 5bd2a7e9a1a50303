/* check: checks a plan for a line, from anyone, at prices, with the proved checker (include/melyonva.h, docs/CHECKING.md).
 *
 *   check BOOK PLAN PRICES   PLAN: one line a kept request, "NUMBER WAY CHANNEL" (lines with way and channel 0 0 are taken too); PRICES: one a line, span 0 first,
 *                            no more than the book has spans. One of the three may be "-", standard input.
 *                            Writes `yes`, `no: ..` with the first broken rule or the two sums, or `refused N at P`.
 *   check --plan BOOK        our own planner's plan, in that form
 *   check --prices BOOK      our own planner's prices, in that form (a line's book)
 * Exit status: 0 yes or written, 1 no, 3 refused, 2 anything else (a file that cannot be read, text of another form).
 */
#include "melyonva.h"

#include <stdio.h>
#include <stdlib.h>
#include <string.h>

enum { ROOM = 8192 };

static size_t read_book(const char *name, uint8_t *to)
{
    FILE *f = strcmp(name, "-") ? fopen(name, "rb") : stdin;
    if (!f) { perror(name); exit(2); }
    size_t n = fread(to, 1, ROOM, f);
    if (ferror(f)) { perror(name); exit(2); }
    if (f != stdin) fclose(f);
    return n;
}

static int refused(uint64_t answer)
{
    if (answer == MELYONVA_BAD_ARGUMENTS) { fprintf(stderr, "check: bad arguments\n"); exit(2); }
    if (!melyonva_is_refusal(answer)) return 0;
    printf("refused %u at %u\n", melyonva_refusal_number(answer), melyonva_refusal_place(answer));
    return 1;
}

/* Fields of an accepted book. */
static unsigned two(const uint8_t *at) { return (unsigned)at[0] << 8 | at[1]; }
static unsigned nodes(const uint8_t *book) { return two(book + 2); }
static unsigned channels(const uint8_t *book) { return two(book + 4); }
static unsigned spans(const uint8_t *book) { return book[1] == 2 ? nodes(book) : nodes(book) - 1; }
static unsigned limit(const uint8_t *book, unsigned s) { return two(book + 16 * (1 + s) + 4); }
static const uint8_t *request(const uint8_t *book, unsigned i) { return book + 16 * (1 + spans(book) + i); }

static void wrong_line(const char *name, unsigned number, int each)
{
    fprintf(stderr, each == 1 ? "%s:%u: one whole number expected\n" : "%s:%u: three whole numbers expected\n", name, number);
    exit(2);
}

/* What was said is written, or the status is 2. */
static int ended(int status)
{
    if (fflush(stdout) || ferror(stdout)) { perror("check"); return 2; }
    return status;
}

/* Reads whole numbers, so many a line, and hands each line on; anything else is an error. */
static void lines(const char *name, int each, void (*take)(void *, const unsigned long *, unsigned), void *to)
{
    FILE *f = strcmp(name, "-") ? fopen(name, "r") : stdin;
    char line[256];
    unsigned number = 0;
    if (!f) { perror(name); exit(2); }
    while (fgets(line, sizeof line, f)) {
        unsigned long v[3] = {0, 0, 0};
        char *p = line;
        number++;
        if (!memchr(line, '\n', strlen(line)) && !feof(f)) { fprintf(stderr, "%s:%u: a line too long, or a zero byte\n", name, number); exit(2); }
        if (line[strspn(line, " \t\r\n")] == '\0') continue;
        for (int i = 0; i < each; i++) {
            char *end;
            p += strspn(p, " \t");
            if (*p < '0' || *p > '9') wrong_line(name, number, each);
            v[i] = strtoul(p, &end, 10);
            p = end;
        }
        if (p[strspn(p, " \t\r\n")] != '\0') wrong_line(name, number, each);
        take(to, v, number);
    }
    if (ferror(f)) { perror(name); exit(2); }
    if (f != stdin) fclose(f);
}

/* the entries, and for each request the line of the plan that names it, 0 for none */
struct entries { uint8_t bytes[MELYONVA_MAX_ENTRY_BYTES]; unsigned line[MELYONVA_MAX_REQUESTS]; };
struct prices { uint8_t bytes[4 * MELYONVA_MAX_SPANS]; size_t count; };

static void take_entry(void *to, const unsigned long *v, unsigned line)
{
    struct entries *e = to;
    if (v[0] >= MELYONVA_MAX_REQUESTS || v[1] > 255 || v[2] > 255) { fprintf(stderr, "plan line %u: no such request, way or channel\n", line); exit(2); }
    if (e->line[v[0]] != 0) { fprintf(stderr, "plan line %u: request %lu is named on line %u already\n", line, v[0], e->line[v[0]]); exit(2); }
    e->line[v[0]] = line;
    e->bytes[2 * v[0]] = (uint8_t)v[1];
    e->bytes[2 * v[0] + 1] = (uint8_t)v[2];
}

static void take_price(void *to, const unsigned long *v, unsigned line)
{
    struct prices *p = to;
    /* a price that four bytes do not hold is above 1,000,000 like the largest that they do, and is refused at its span */
    unsigned long price = v[0] > 0xffffffffUL ? 0xffffffffUL : v[0];
    if (p->count >= MELYONVA_MAX_SPANS) { fprintf(stderr, "prices line %u: no line has so many spans\n", line); exit(2); }
    for (int i = 0; i < 4; i++) p->bytes[4 * p->count + i] = (uint8_t)(price >> (24 - 8 * i));
    p->count++;
}

/* Why a plan on a line got a no, for a person: the first broken rule, or the two sums. The verdict itself is the proved checker's. */
static void explain(const uint8_t *book, unsigned m, const uint8_t *entries, const uint8_t *prices)
{
    uint64_t earnings = 0, ceiling = 0;
    for (unsigned i = 0; i < m; i++) {
        unsigned e = melyonva_entry(entries, i), a = two(request(book, i) + 4), b = two(request(book, i) + 6);
        if (e == 0) continue;
        if (melyonva_way(e) != (a < b ? 1u : 2u)) { printf("no: request %u has no way %u\n", i, melyonva_way(e)); return; }
        if (melyonva_channel(e) < 1 || melyonva_channel(e) > channels(book)) { printf("no: request %u is on channel %u of %u\n", i, melyonva_channel(e), channels(book)); return; }
    }
    for (unsigned s = 0; s < spans(book); s++) {
        int on[256];
        unsigned load = 0;
        memset(on, -1, sizeof on);
        for (unsigned i = 0; i < m; i++) {
            unsigned e = melyonva_entry(entries, i), a = two(request(book, i) + 4), b = two(request(book, i) + 6);
            if (e == 0 || s < (a < b ? a : b) || s >= (a < b ? b : a)) continue;
            if (on[melyonva_channel(e)] >= 0) { printf("no: requests %d and %u are both on channel %u of span %u\n", on[melyonva_channel(e)], i, melyonva_channel(e), s); return; }
            on[melyonva_channel(e)] = (int)i;
            load++;
        }
        if (load > limit(book, s)) { printf("no: %u requests cross span %u, whose limit is %u\n", load, s, limit(book, s)); return; }
        ceiling += (uint64_t)limit(book, s) * melyonva_price(prices, s);
    }
    for (unsigned i = 0; i < m; i++) {
        const uint8_t *q = request(book, i);
        unsigned a = two(q + 4), b = two(q + 6);
        uint64_t profit = (uint64_t)two(q + 8) << 16 | two(q + 10), cost = 0;
        for (unsigned s = a < b ? a : b; s < (a < b ? b : a); s++) cost += melyonva_price(prices, s);
        if (profit > cost) ceiling += profit - cost;
        if (melyonva_entry(entries, i) != 0) earnings += profit;
    }
    printf("no: it earns %llu, and the ceiling of these prices is %llu\n", (unsigned long long)earnings, (unsigned long long)ceiling);
}

static int ours(const char *name, int wants_prices)
{
    uint8_t book[ROOM], entries[MELYONVA_MAX_ENTRY_BYTES] = {0}, prices[4 * MELYONVA_MAX_SPANS] = {0};
    size_t n = read_book(name, book);
    uint64_t answer = melyonva_plan_checked(book, n, entries, sizeof entries, prices, sizeof prices);
    if (refused(answer)) return ended(3);
    if (wants_prices && book[1] == 2) { fprintf(stderr, "check: a ring has no prices\n"); return 2; }
    if (wants_prices)
        for (unsigned s = 0; s < spans(book); s++) printf("%u\n", melyonva_price(prices, s));
    else
        for (unsigned i = 0; i < n / 16 - 1 - spans(book); i++)
            if (melyonva_entry(entries, i) != 0) printf("%u %u %u\n", i, melyonva_way(melyonva_entry(entries, i)), melyonva_channel(melyonva_entry(entries, i)));
    return ended(0);
}

int main(int argc, char **argv)
{
    if (argc == 3 && !strcmp(argv[1], "--plan")) return ours(argv[2], 0);
    if (argc == 3 && !strcmp(argv[1], "--prices")) return ours(argv[2], 1);
    if (argc != 4) { fprintf(stderr, "usage: check BOOK PLAN PRICES | check --plan BOOK | check --prices BOOK\n"); return 2; }
    static uint8_t book[ROOM];
    static struct entries e;
    static struct prices p;
    size_t n = read_book(argv[1], book);
    lines(argv[2], 3, take_entry, &e);
    lines(argv[3], 1, take_price, &p);
    uint64_t answer = melyonva_check_checked(book, n, e.bytes, sizeof e.bytes, p.bytes, 4 * p.count);
    if (refused(answer)) return ended(3);
    if (p.count > spans(book)) { fprintf(stderr, "prices: the book has %u spans\n", spans(book)); return 2; }
    unsigned m = (unsigned)(n / 16 - 1 - spans(book));
    for (unsigned i = m; i < MELYONVA_MAX_REQUESTS; i++)
        if (e.line[i] != 0) { fprintf(stderr, "plan line %u: the book has no request %u\n", e.line[i], i); return 2; }
    if (melyonva_is_yes(answer)) { printf("yes\n"); return ended(0); }
    explain(book, m, e.bytes, p.bytes);
    return ended(1);
}
