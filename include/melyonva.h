/* melyonva.h: planning and checking wavelength plans, for C and C++ programs.
 *
 * Link with libdesk.a (./desk_library writes it; ./check builds it). The two functions below are proved, in Rattle, to answer as docs/DESK.md says
 * for every input: nothing is assumed of the bytes. They keep no state, allocate nothing, call nothing but the C library's memcpy and memset, and may be called
 * from several threads at once.
 *
 * What they do take from the caller, as any C function does (docs/TRUST.md): a pointer with a length points to that many bytes that stay readable (and, for
 * lists that are written, writable) during the call, and the lists that melyonva_plan() writes overlap neither each other nor the book. (The checker only reads,
 * so its lists may overlap.) During the call nobody else writes to any of them, or reads those that are written: a book in memory that others may change is
 * copied first. A NULL pointer with length 0 is an empty list and safe. melyonva_plan_checked() below tests for NULL with a length and for overlap
 * before it calls, melyonva_check_checked() for NULL with a length.
 *
 * A call needs about 99 KiB of stack (99,528 bytes were used by a plan of the largest books, 59,584 by a check).
 */
#ifndef MELYONVA_H
#define MELYONVA_H

#include <stddef.h>
#include <stdint.h>

#ifdef __cplusplus
extern "C" {
#endif

/* Limits of document 01. Entry and price lists of this many bytes are long enough for every book. A file is read into MELYONVA_BOOK_ROOM bytes or more: one that
 * is too long is then refused (1), whereas cut to the longest length it might be another book, and in order. */
#define MELYONVA_MAX_BOOK_BYTES 5136u
#define MELYONVA_BOOK_ROOM (MELYONVA_MAX_BOOK_BYTES + 1u)
#define MELYONVA_MAX_REQUESTS 256u
#define MELYONVA_MAX_SPANS 64u
#define MELYONVA_MAX_ENTRY_BYTES (2u * MELYONVA_MAX_REQUESTS)
#define MELYONVA_MAX_PRICE_BYTES (4u * 63u)
#define MELYONVA_NO_CUT 65535u
#define MELYONVA_MAX_PRICE 1000000u

/* Plans an order book. On success the first 2 m bytes of `entries` (m requests) and, on a line of n nodes, the first 4 (n - 1) bytes of `prices` are written, high
 * byte first, and no byte after them; the answer packs earnings, number kept and cut. On a refusal nothing is written, and the answer packs its number and place.
 * On a ring `prices` is neither read nor written. */
uint64_t melyonva_plan(const uint8_t *book, size_t book_len, uint8_t *entries, size_t entries_len, uint8_t *prices, size_t prices_len);

/* Checks a plan at prices, for a line's book: 1 is yes, 0 is no, anything else is a packed refusal, so ask melyonva_is_yes() below. It writes nothing. */
uint64_t melyonva_check(const uint8_t *book, size_t book_len, const uint8_t *entries, size_t entries_len, const uint8_t *prices, size_t prices_len);

/* ---- the answer: bit 63 set is a refusal */

static inline int melyonva_is_refusal(uint64_t answer) { return (int)(answer >> 63); }
/* of a check: yes, and neither no nor a refusal */
static inline int melyonva_is_yes(uint64_t answer) { return answer == 1; }
/* of a refusal: its number (1 to 15 today) and its place */
static inline uint32_t melyonva_refusal_number(uint64_t answer) { return (uint32_t)((answer >> 32) & 0x7fffffffu); }
static inline uint32_t melyonva_refusal_place(uint64_t answer) { return (uint32_t)(answer & 0xffffffffu); }
/* of a plan: what it earns, how many requests it keeps, and the cut span (MELYONVA_NO_CUT on a line) */
static inline uint32_t melyonva_earnings(uint64_t answer) { return (uint32_t)((answer >> 32) & 0x7fffffffu); }
static inline uint32_t melyonva_number_kept(uint64_t answer) { return (uint32_t)((answer >> 16) & 0xffffu); }
static inline uint32_t melyonva_cut(uint64_t answer) { return (uint32_t)(answer & 0xffffu); }

/* ---- the lists, i counted from 0 */

static inline uint32_t melyonva_entry(const uint8_t *entries, size_t i) { return (uint32_t)entries[2 * i] << 8 | entries[2 * i + 1]; }
static inline uint32_t melyonva_way(uint32_t entry) { return entry >> 8; }
static inline uint32_t melyonva_channel(uint32_t entry) { return entry & 0xffu; }
static inline uint32_t melyonva_price(const uint8_t *prices, size_t j)
{
    return (uint32_t)prices[4 * j] << 24 | (uint32_t)prices[4 * j + 1] << 16 | (uint32_t)prices[4 * j + 2] << 8 | prices[4 * j + 3];
}

/* ---- the same calls, with what the proof takes from the caller tested first */

/* An answer that no call gives: the arguments were not what the proof takes from the caller. Its highest bit is set too, so look for it first. */
#define MELYONVA_BAD_ARGUMENTS UINT64_MAX

static inline int melyonva_lists_ok(const void *p, size_t p_len, const void *q, size_t q_len)
{
    uintptr_t a = (uintptr_t)p, b = (uintptr_t)q;
    if ((p == NULL && p_len != 0) || (q == NULL && q_len != 0)) return 0;
    if (p_len == 0 || q_len == 0) return 1;
    if (p_len > UINTPTR_MAX - a || q_len > UINTPTR_MAX - b) return 0;
    return a + p_len <= b || b + q_len <= a;
}

static inline uint64_t melyonva_plan_checked(const uint8_t *book, size_t book_len, uint8_t *entries, size_t entries_len, uint8_t *prices, size_t prices_len)
{
    if (!melyonva_lists_ok(book, book_len, entries, entries_len) || !melyonva_lists_ok(book, book_len, prices, prices_len) ||
        !melyonva_lists_ok(entries, entries_len, prices, prices_len))
        return MELYONVA_BAD_ARGUMENTS;
    return melyonva_plan(book, book_len, entries, entries_len, prices, prices_len);
}

/* The checker only reads, so its lists may overlap; only NULL with a length is refused. */
static inline uint64_t melyonva_check_checked(const uint8_t *book, size_t book_len, const uint8_t *entries, size_t entries_len, const uint8_t *prices, size_t prices_len)
{
    if ((book == NULL && book_len != 0) || (entries == NULL && entries_len != 0) || (prices == NULL && prices_len != 0)) return MELYONVA_BAD_ARGUMENTS;
    return melyonva_check(book, book_len, entries, entries_len, prices, prices_len);
}

#ifdef __cplusplus
}
#endif

#endif
