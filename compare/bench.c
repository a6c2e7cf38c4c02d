// The product and the plain C implementation, timed in one process on the same inputs; prints a ratio for each workload.
// Built and run by compare/bench. A ratio below 1 says that the product is the faster one.
#include <stdio.h>
#include <stdlib.h>
#include <string.h>
#include <time.h>
#include "../include/wayrinka.h"
#include "reference.h"

enum { TREE = 8 + 8 * 8190, OUT = 8 + 65535 * 8 * 4, STORE = 65528 };

typedef struct { uint8_t bytes[STORE + 8]; size_t len; } File;
typedef struct { const char *name; File cat, view, store; uint16_t k, q; int answer; } Work;

static uint8_t tree_p[TREE], tree_c[TREE], out_p[OUT], out_c[OUT];

static void put16(File *f, unsigned x) { f->bytes[f->len++] = x & 255; f->bytes[f->len++] = x >> 8 & 255; }
static void put32(File *f, uint32_t x) { put16(f, x & 65535); put16(f, x >> 16); }
static void open_file(File *f, const char *mark) { memcpy(f->bytes, mark, 4); f->len = 4; put16(f, 1); put16(f, 0); }
static void record(File *f, unsigned kind, unsigned op, unsigned a, unsigned b, unsigned c)
{
    f->bytes[f->len++] = (uint8_t)kind; f->bytes[f->len++] = (uint8_t)op;
    put16(f, a); put16(f, b); put16(f, c);
    unsigned n = (f->bytes[6] | f->bytes[7] << 8) + 1u;
    f->bytes[6] = n & 255; f->bytes[7] = n >> 8 & 255;
}
static void counted(File *f, unsigned n) { f->bytes[6] = n & 255; f->bytes[7] = n >> 8 & 255; }
static void cell(File *f, unsigned null, unsigned class, int32_t value) { f->bytes[f->len++] = (uint8_t)null; f->bytes[f->len++] = 0; put16(f, class); put32(f, (uint32_t)value); }

enum { FIXED50 = 2 * 256 + 5 * 16, FIXED90 = 2 * 256 + 9 * 16 };
enum { BOOL = 2, FIXED = 3, BIN = 7, NOT = 8, EXISTS = 10, TAB = 12, SEL = 13, COL = 14, CLASSOF = 15 };
enum { PLUS = 1, TIMES = 3, AND = 5, LT = 7, EQ = 9 };

static void number(File *f, unsigned digits, int32_t v) { record(f, FIXED, digits * 16, 0, (uint32_t)v & 65535, (uint32_t)v >> 16); }

// Tables 1..t with a number column 10 + t, a second one 20 + t with stored classes, both fixed (5, 0), and stored row classes.
static void tables(Work *w, unsigned t, unsigned rows)
{
    open_file(&w->cat, "DRC"); open_file(&w->store, "DRS"); counted(&w->store, t);
    for (unsigned i = 1; i <= t; i++) {
        record(&w->cat, 1, 1, i, 4097, 0);
        record(&w->cat, 2, 0, 10 + i, 0, FIXED50);
        record(&w->cat, 2, 1, 20 + i, 8193, FIXED50);
        put16(&w->store, rows);
        for (unsigned r = 0; r < rows; r++) {
            put16(&w->store, r % 3 ? 0 : 1);
            cell(&w->store, 0, 0, (int32_t)r);
            cell(&w->store, 0, r % 5 ? 4096 : 8193, (int32_t)(r * 7 % 1000));
        }
    }
}

// A sum of so many columns, as flat as can be: 2 * leaves - 1 records.
static void sum(File *f, unsigned leaves)
{
    if (leaves == 1) { record(f, COL, 0, 11, 0, 0); return; }
    record(f, BIN, PLUS, 0, 0, 0);
    sum(f, leaves / 2);
    sum(f, leaves - leaves / 2);
}

// A view of 1,024 records: 31 sums of 31 records, and a test of two more in the last value.
static void long_view(Work *w)
{
    tables(w, 1, 1);
    w->q = 4096;
    File *v = &w->view;
    open_file(v, "DRQ");
    record(v, SEL, 0, 1, 32, 0); record(v, TAB, 0, 1, 0, 0); record(v, BOOL, 1, 0, 0, 0);
    for (int i = 0; i < 31; i++) sum(v, 16);
    record(v, NOT, 0, 0, 0, 0); record(v, BIN, LT, 0, 0, 0); sum(v, 15); sum(v, 15);
}

// 2,080 records: 32 tables of 64 columns, and a store as full as such rows let it be.
static void full_files(Work *w)
{
    open_file(&w->cat, "DRC"); open_file(&w->store, "DRS"); counted(&w->store, 32);
    for (unsigned t = 0; t < 32; t++) {
        record(&w->cat, 1, t & 1, 100 + t, 4097, 0);
        for (unsigned c = 0; c < 64; c++) record(&w->cat, 2, c & 1, 1000 + c, 4096, FIXED90);
        unsigned rows = (unsigned)((STORE - w->store.len - 2 * (32 - t)) / 514 / (32 - t));
        put16(&w->store, rows);
        for (unsigned r = 0; r < rows; r++) {
            put16(&w->store, t & 1 ? 1 : 4097);
            for (unsigned c = 0; c < 64; c++) cell(&w->store, 0, c & 1 ? c % 3 ? 4096 : 0 : 4096, (int32_t)(r * 1000 + c));
        }
    }
    w->q = 4097;
    open_file(&w->view, "DRQ");
    record(&w->view, SEL, 0, 1, 1, 0); record(&w->view, TAB, 0, 100, 0, 0); record(&w->view, BOOL, 1, 0, 0, 0); record(&w->view, COL, 0, 1003, 0, 0);
}

// A join of two tables with a where that few pairs meet.
static void join(Work *w)
{
    tables(w, 2, 400); w->q = 8193;
    File *v = &w->view;
    open_file(v, "DRQ");
    record(v, SEL, 0, 2, 2, 0); record(v, TAB, 0, 1, 0, 0); record(v, TAB, 0, 2, 0, 0);
    record(v, BIN, AND, 0, 0, 0); record(v, BIN, EQ, 0, 0, 0); record(v, COL, 0, 11, 0, 0); record(v, COL, 0, 12, 0, 0);
    record(v, BIN, LT, 0, 0, 0); record(v, COL, 0, 21, 0, 0); number(v, 5, 900);
    record(v, COL, 0, 21, 0, 0); record(v, BIN, PLUS, 0, 0, 0); record(v, COL, 0, 22, 0, 0); number(v, 5, 1);
}

// Rows of one table for which another has a match; where `class` says so, the rows' classes are tested too.
static void exists(Work *w, int class)
{
    tables(w, 2, 600); w->q = 8193;
    File *v = &w->view;
    open_file(v, "DRQ");
    record(v, SEL, 0, 1, 1, 0); record(v, TAB, 0, 1, 0, 0);
    record(v, EXISTS, 0, 1, 0, 0); record(v, TAB, 0, 2, 0, 0);
    if (class) record(v, BIN, AND, 0, 0, 0);
    record(v, BIN, EQ, 0, 0, 0); record(v, COL, 0, 21, 0, 0); record(v, COL, 0, 22, 0, 0);
    if (class) { record(v, BIN, EQ, 0, 0, 0); record(v, CLASSOF, 0, 21, 0, 0); record(v, CLASSOF, 0, 22, 0, 0); }
    record(v, COL, 0, 11, 0, 0);
    if (class) w->q = 4096;
}

// 32 values over the rows of one table.
static void many_values(Work *w)
{
    tables(w, 1, 3000); w->q = 8193;
    File *v = &w->view;
    open_file(v, "DRQ");
    record(v, SEL, 0, 1, 32, 0); record(v, TAB, 0, 1, 0, 0); record(v, BOOL, 1, 0, 0, 0);
    for (int i = 0; i < 32; i++) {
        record(v, BIN, i % 2 ? PLUS : TIMES, 0, 0, 0); record(v, COL, 0, 11, 0, 0);
        if (i % 4) record(v, COL, 0, 21, 0, 0); else number(v, 3, i);
    }
}

// The product of four tables.
static void four_tables(Work *w)
{
    tables(w, 4, 20); w->q = 8193;
    File *v = &w->view;
    open_file(v, "DRQ");
    record(v, SEL, 0, 4, 1, 0);
    for (unsigned i = 1; i <= 4; i++) record(v, TAB, 0, i, 0, 0);
    record(v, BIN, EQ, 0, 0, 0);
    record(v, BIN, PLUS, 0, 0, 0); record(v, COL, 0, 11, 0, 0); record(v, COL, 0, 12, 0, 0);
    record(v, BIN, PLUS, 0, 0, 0); record(v, COL, 0, 13, 0, 0); record(v, COL, 0, 14, 0, 0);
    record(v, COL, 0, 21, 0, 0);
}

static double now(void) { struct timespec t; clock_gettime(CLOCK_MONOTONIC, &t); return (double)t.tv_sec + 1e-9 * (double)t.tv_nsec; }

static uint64_t product(const Work *w)
{
    if (w->answer) return wayrinka_answer(w->cat.bytes, w->cat.len, w->view.bytes, w->view.len, w->k, w->q, tree_p, TREE, w->store.bytes, w->store.len, out_p, OUT);
    return wayrinka_translate(w->cat.bytes, w->cat.len, w->view.bytes, w->view.len, w->k, w->q, tree_p, TREE);
}
static uint64_t plain(const Work *w)
{
    RefResult r = w->answer ? ref_answer(w->cat.bytes, w->cat.len, w->view.bytes, w->view.len, w->k, w->q, tree_c, TREE, w->store.bytes, w->store.len, out_c, OUT)
                            : ref_translate(w->cat.bytes, w->cat.len, w->view.bytes, w->view.len, w->k, w->q, tree_c, TREE);
    return r.number + ((uint64_t)r.place << 16) + ((uint64_t)r.count << 32);
}

// The best time of one call, in seconds, over rounds of both in turn.
static void timed(const Work *w, double *p, double *c)
{
    *p = *c = 1e9;
    double one = now(); product(w); plain(w); one = now() - one;
    int calls = one > 0.02 ? 1 : (int)(0.02 / one) + 1;
    for (int round = 0; round < 12; round++) {
        double a = now(); for (int i = 0; i < calls; i++) product(w);
        double b = now(); for (int i = 0; i < calls; i++) plain(w);
        double d = now();
        if ((b - a) / calls < *p) *p = (b - a) / calls;
        if ((d - b) / calls < *c) *c = (d - b) / calls;
    }
}

int main(void)
{
    static Work w[7] = {
        { .name = "1,024-record view translated" }, { .name = "2,080-record catalogue, full store" }, { .name = "join of 400 x 400 rows, where" },
        { .name = "EXISTS inside, 600 x 600" }, { .name = "the same, class tested" }, { .name = "32 values over 3,000 rows" }, { .name = "4 tables of 20 rows" },
    };
    long_view(&w[0]); full_files(&w[1]); join(&w[2]); exists(&w[3], 0); exists(&w[4], 1); many_values(&w[5]); four_tables(&w[6]);
    int bad = 0;
    printf("%-36s %12s %12s %7s %8s\n", "workload", "product, ms", "plain C, ms", "ratio", "count");
    for (int i = 0; i < 7; i++) {
        w[i].answer = i != 0;
        memset(tree_p, 0, TREE); memset(tree_c, 0, TREE); memset(out_p, 0, OUT); memset(out_c, 0, OUT);
        uint64_t r = product(&w[i]), s = plain(&w[i]);
        if (r != s || memcmp(tree_p, tree_c, TREE) || memcmp(out_p, out_c, OUT) || (r & 65535)) {
            printf("%-36s differs or is refused: %llu at %llu, %llu at %llu\n", w[i].name, (unsigned long long)(r & 65535), (unsigned long long)(r >> 16 & 65535),
                   (unsigned long long)(s & 65535), (unsigned long long)(s >> 16 & 65535));
            bad = 1;
            continue;
        }
        double p, c;
        timed(&w[i], &p, &c);
        printf("%-36s %12.4f %12.4f %7.2f %8llu\n", w[i].name, 1e3 * p, 1e3 * c, p / c, (unsigned long long)(r >> 32));
    }
    return bad;
}
