// The C interface of the labelled view filter, for C and C++: the two functions of crate filter_c. `compare/library` makes the library,
// target/staticlib/libfilter.a: it runs `rt lib` in crates/filter_c, which proves the two and writes out/libfilter_c.a, and copies that.
// Document 01 has the five files and the numbers; docs/PROMISES.md says what is proved of both functions.
#ifndef WAYRINKA_H
#define WAYRINKA_H

#include <stddef.h>
#include <stdint.h>

#ifdef __cplusplus
extern "C" {
#endif

// Both take any bytes. A slice is a pointer and a length in bytes; the pointer isn't null, also where the length is 0. `cat`, `view` and `store`
// are only read. `tree` and `out` lie apart from each other and from the files, and may hold anything before the call; neither needs an alignment.
// Nothing is allocated or kept: a call needs stack alone, and calls on separate buffers may run side by side.
//
// The result is number + 65536 * place + 2^32 * count. Accepted: number 0, place 0, the count of records or rows. Refused: count 0, and
//   21 22 23 24   the catalogue: its head; its count or length; a rule broken; a name used before
//   31 32 33      the store: its head; its count or length; a row class or cell that breaks its rule (Answer only)
//   1 2 3 4 5     the view: its head; its count or length; a kind, op or field out of rule; a kind not allowed here or a wrong end; deeper than 16
//   6 7 8 9       no such table; no such column; an ambiguous name; a type rule broken
//   10            the tree needs more than 8,190 records or more than its buffer holds
//   41            the answer doesn't fit its buffer or 65,535 rows (Answer only)
// The place is a record's number from 0 (23, 24, 3 to 9), a byte's offset in the store (33), or 0. The first fault is the one told, in 01's order.
//
// Limits: a catalogue of 32 tables with 64 columns each (16,648 bytes), a view of 1,024 records (8,200 bytes) and depth 16, a store of 65,528 bytes.
// A tree buffer of 65,528 bytes is always enough for the tree. An answer of n rows and b values needs 8 + 8 * n * b bytes.

static inline uint16_t wayrinka_number(uint64_t result) { return (uint16_t)result; }
static inline uint16_t wayrinka_place(uint64_t result) { return (uint16_t)(result >> 16); }
static inline uint32_t wayrinka_count(uint64_t result) { return (uint32_t)(result >> 32); }

// TRANSLATE: the tree of a view (a DRT file of 8 + 8 * count bytes) goes to `tree`. k is the class of the view's constants, q the reader's clearance.
// The count is the tree's records. A refusal leaves every byte of `tree` as it was; acceptance leaves those past the tree.
uint64_t wayrinka_translate(const uint8_t *cat, size_t cat_len, const uint8_t *view, size_t view_len, uint16_t k, uint16_t q,
                            uint8_t *tree, size_t tree_len);

// ANSWER: the same, and the tree's answer over the store (a DRA file) goes to `out`. The count is the answer's rows.
// A refusal leaves every byte of both buffers as it was; 41 alone leaves the whole tree in `tree`, and `out` as it was.
// Acceptance leaves the bytes past the tree and past the answer.
uint64_t wayrinka_answer(const uint8_t *cat, size_t cat_len, const uint8_t *view, size_t view_len, uint16_t k, uint16_t q,
                         uint8_t *tree, size_t tree_len, const uint8_t *store, size_t store_len, uint8_t *out, size_t out_len);

#ifdef __cplusplus
}
#endif
#endif
