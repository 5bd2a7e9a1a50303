/* hostile: calls both functions of the desk's library on hostile input, each list in a block of its own of exactly its length, so that valgrind sees any access
 * outside it. hostile [CALLS [SEED]]. It asserts that refusals write nothing and that nothing after the written part changes. */
#include "melyonva.h"

#include <stdio.h>
#include <stdlib.h>
#include <string.h>

static uint64_t state = 88172645463325252ull;
static uint32_t some(uint32_t below)
{
    state ^= state << 13, state ^= state >> 7, state ^= state << 17;
    return (uint32_t)((state >> 16) % below);
}

static void put(uint8_t *at, int bytes, uint32_t v)
{
    for (int i = 0; i < bytes; i++) at[i] = (uint8_t)(v >> (8 * (bytes - 1 - i)));
}

/* A book that is mostly in order, then damaged in up to three bytes. */
static size_t make(uint8_t *b)
{
    uint32_t ring = some(2), n = 2 + ring + some(5), k = 1 + some(4), spans = ring ? n : n - 1, m = some(7);
    size_t len = 16 * (size_t)(1 + spans + m);
    memset(b, 0, len);
    b[0] = 1, b[1] = (uint8_t)(1 + ring), put(b + 2, 2, n), put(b + 4, 2, k);
    for (uint32_t s = 0; s < spans; s++) b[16 * (1 + s)] = 2, b[16 * (1 + s) + 1] = 1, put(b + 16 * (1 + s) + 2, 2, s), put(b + 16 * (1 + s) + 4, 2, some(k + 1));
    for (uint32_t i = 0; i < m; i++) {
        uint8_t *q = b + 16 * (1 + spans + i);
        uint32_t a = some(n), c = (a + 1 + some(n - 1)) % n;
        q[0] = 3, put(q + 2, 2, i), put(q + 4, 2, a), put(q + 6, 2, c), put(q + 8, 4, 1 + some(1000000));
    }
    for (uint32_t d = some(4); d > 0; d--) b[some((uint32_t)len)] = (uint8_t)some(256);
    if (some(8) == 0) len = some((uint32_t)len + 1);
    return len;
}

/* The wrappers refuse NULL with a length, and the planner's lists that overlap; lists side by side are fine. */
static int wrappers_right(void)
{
    uint8_t all[64] = {0};
    uint64_t bad = MELYONVA_BAD_ARGUMENTS;
    if (melyonva_plan_checked(NULL, 1, all, 8, all + 8, 8) != bad || melyonva_plan_checked(all, 8, NULL, 1, all + 8, 8) != bad || melyonva_plan_checked(all, 8, all + 8, 8, NULL, 1) != bad) return 0;
    if (melyonva_plan_checked(all, 9, all + 8, 8, all + 32, 8) != bad || melyonva_plan_checked(all, 8, all + 32, 8, all + 7, 8) != bad || melyonva_plan_checked(all, 8, all + 16, 8, all + 23, 8) != bad) return 0;
    if (melyonva_plan_checked(all, SIZE_MAX, all, 0, all, 1) != bad) return 0;
    if (melyonva_check_checked(NULL, 1, all, 8, all, 8) != bad || melyonva_check_checked(all, 8, NULL, 1, all, 8) != bad || melyonva_check_checked(all, 8, all, 8, NULL, 1) != bad) return 0;
    return melyonva_plan_checked(all, 8, all + 8, 8, all + 16, 8) != bad && melyonva_plan_checked(NULL, 0, NULL, 0, NULL, 0) != bad && melyonva_check_checked(all, 8, all, 8, all, 8) != bad;
}

int main(int argc, char **argv)
{
    if (!wrappers_right()) { puts("hostile: a wrapper lets bad arguments through, or refuses good ones"); return 1; }
    unsigned long calls = argc > 1 ? strtoul(argv[1], NULL, 10) : 1000000, refusals = 0, yes = 0;
    if (argc > 2) state ^= strtoull(argv[2], NULL, 10) * 2654435761u;
    for (unsigned long c = 0; c < calls; c += 2) {
        uint8_t made[4096], was_e[64], was_p[64];
        size_t n = make(made), en = some(24), pn = some(40);
        uint8_t *b = malloc(n ? n : 1), *e = malloc(en ? en : 1), *p = malloc(pn ? pn : 1);
        if (!b || !e || !p) return 2;
        memcpy(b, made, n);
        for (size_t i = 0; i < en; i++) e[i] = was_e[i] = (uint8_t)some(3);
        for (size_t i = 0; i < pn; i++) p[i] = was_p[i] = (uint8_t)(some(4) ? 0 : some(256));
        uint64_t v = melyonva_check(n ? b : NULL, n, en ? e : NULL, en, pn ? p : NULL, pn);
        if (memcmp(e, was_e, en) || memcmp(p, was_p, pn)) { puts("hostile: the checker wrote"); return 1; }
        uint64_t a = melyonva_plan(n ? b : NULL, n, en ? e : NULL, en, pn ? p : NULL, pn);
        if (memcmp(b, made, n)) { puts("hostile: the book was written"); return 1; }
        if (melyonva_is_refusal(a)) {
            refusals++;
            if (memcmp(e, was_e, en) || memcmp(p, was_p, pn)) { puts("hostile: a refusal wrote"); return 1; }
        } else {
            uint32_t nodes = (uint32_t)b[2] << 8 | b[3], spans = b[1] == 2 ? nodes : nodes - 1, m = (uint32_t)(n / 16) - 1 - spans;
            if (memcmp(e + 2 * m, was_e + 2 * m, en - 2 * m)) { puts("hostile: bytes after the entries changed"); return 1; }
            size_t from = b[1] == 2 ? 0 : 4 * (size_t)spans;
            if (memcmp(p + from, was_p + from, pn - from)) { puts("hostile: bytes after the prices changed"); return 1; }
            if (b[1] == 1 && !melyonva_is_yes(melyonva_check(b, n, e, en, p, pn))) { puts("hostile: our own plan got no yes"); return 1; }
        }
        yes += v == 1;
        free(b), free(e), free(p);
    }
    printf("hostile: %lu calls, %lu refusals, %lu yes\n", calls, refusals, yes);
    return 0;
}
