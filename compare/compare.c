// The comparison: the library's two functions and the reference, on the same cases, byte for byte. compare/run builds and runs it.
//   compare SEED CASES     generated cases, both jobs on each
//   compare replay FILE    cases of a file, one a line: `T k q treelen cathex viewhex` or `A k q treelen anslen cathex viewhex storehex`, `-` for no bytes;
//                          a line that begins with # is a comment
// Both sides get copies of their own: files that end where memory ends, buffers of one pattern between guard bytes. A difference is printed as such a line.
#define _DEFAULT_SOURCE
#include "../include/wayrinka.h"
#include "generate.h"
#include "reference.h"
#include <signal.h>
#include <stdio.h>
#include <stdlib.h>
#include <string.h>
#include <sys/mman.h>
#include <unistd.h>

enum { GUARD = 64, TREE_FULL = 8 + 8 * 8190, TREE_ROOM = 70000, OUT_ROOM = 2 << 20, FILE_ROOM = 1 << 17, MOST_WORK = 20000000, MOST_SHOWN = 10 };
enum { TRANSLATE, ANSWER };

typedef struct { size_t tree, out, most; } Lengths;
typedef struct { uint8_t *cat, *view, *store, *tree, *out; } Lent;               // what one call is given
typedef struct { uint8_t *end[3], *tree, *out; } Side;                           // where its copies stand

static Side ours, theirs;
static uint8_t pattern[OUT_ROOM + 2 * GUARD + 256];
static Case now;                                                                 // the case being run, its job and lengths
static int job;
static Lengths lengths;

static uint64_t met[2][100], tree_kinds[256], cell_marks[256], rows_given, emptied, differences;
static struct { size_t catalogue, view, tree, store, rows; } largest;             // of what was accepted

static const int numbers[20] = { 0, 21, 22, 23, 24, 31, 32, 33, 1, 2, 3, 4, 5, 6, 7, 8, 9, 10, 41, -1 };
static int of_answer_alone(int number) { return (number >= 31 && number <= 33) || number == 41; }

static uint16_t get16(const uint8_t *b) { return (uint16_t)(b[0] | b[1] << 8); }

// ---- a case as a line

static void print_bytes(const uint8_t *b, size_t len) {
    printf(len ? " " : " -");
    for (size_t i = 0; i < len; i++) printf("%02x", b[i]);
}

static void print_case(void) {
    printf("%c %u %u %zu", "TA"[job], now.k, now.q, lengths.tree);
    if (job == ANSWER) printf(" %zu", lengths.out);
    print_bytes(now.cat, now.cat_len);
    print_bytes(now.view, now.view_len);
    if (job == ANSWER) print_bytes(now.store, now.store_len);
    printf("\n");
    fflush(stdout);
}

static void stopped(int number) {
    printf("signal %d in\n", number);
    print_case();
    _exit(1);
}

// ---- the two sides

// Memory of FILE_ROOM bytes, after which nothing can be read: its end.
static uint8_t *files_end(void) {
    size_t page = (size_t)sysconf(_SC_PAGESIZE);
    uint8_t *m = mmap(NULL, FILE_ROOM + page, PROT_READ | PROT_WRITE, MAP_PRIVATE | MAP_ANONYMOUS, -1, 0);
    if (m == MAP_FAILED || mprotect(m + FILE_ROOM, page, PROT_NONE)) { perror("compare"); exit(2); }
    return m + FILE_ROOM;
}

static void open_side(Side *s) {
    for (int i = 0; i < 3; i++) s->end[i] = files_end();
    s->tree = malloc(TREE_ROOM + 2 * GUARD);
    s->out = malloc(OUT_ROOM + 2 * GUARD);
    if (!s->tree || !s->out) { perror("compare"); exit(2); }
}

static uint8_t *lend_file(uint8_t *end, const uint8_t *from, size_t len) {
    memcpy(end - len, from, len);
    memcpy(end - len - GUARD, pattern, GUARD);
    return end - len;
}

static int file_kept(const uint8_t *at, const uint8_t *from, size_t len) { return !memcmp(at, from, len) && !memcmp(at - GUARD, pattern, GUARD); }

static uint8_t *lend_buffer(uint8_t *room, size_t len, const uint8_t *fill) { memcpy(room, fill, len + 2 * GUARD); return room + GUARD; }

static Lent lend(const Side *s, const uint8_t *fill) {
    Lent l = { lend_file(s->end[0], now.cat, now.cat_len), lend_file(s->end[1], now.view, now.view_len), lend_file(s->end[2], now.store, now.store_len),
               lend_buffer(s->tree, lengths.tree, fill), lend_buffer(s->out, lengths.out, fill) };
    return l;
}

static int files_kept(const Lent *l) {
    return file_kept(l->cat, now.cat, now.cat_len) && file_kept(l->view, now.view, now.view_len) && file_kept(l->store, now.store, now.store_len);
}

static RefResult call_ours(const Lent *l) {
    uint64_t r = job == TRANSLATE
        ? wayrinka_translate(l->cat, now.cat_len, l->view, now.view_len, now.k, now.q, l->tree, lengths.tree)
        : wayrinka_answer(l->cat, now.cat_len, l->view, now.view_len, now.k, now.q, l->tree, lengths.tree, l->store, now.store_len, l->out, lengths.out);
    RefResult result = { wayrinka_number(r), wayrinka_place(r), wayrinka_count(r) };
    return result;
}

static RefResult call_theirs(const Lent *l) {
    if (job == TRANSLATE) return ref_translate(l->cat, now.cat_len, l->view, now.view_len, now.k, now.q, l->tree, lengths.tree);
    return ref_answer(l->cat, now.cat_len, l->view, now.view_len, now.k, now.q, l->tree, lengths.tree, l->store, now.store_len, l->out, lengths.out);
}

// ---- what is compared

// Whether a buffer keeps its pattern from its byte `from` on, and before its first byte.
static int kept(const uint8_t *buffer, size_t len, size_t from, const uint8_t *fill) {
    return !memcmp(buffer - GUARD, fill, GUARD) && !memcmp(buffer + from, fill + GUARD + from, len - from + GUARD);
}

// The bytes that 01 lets a call write, by its result: a refusal none, 41 the tree.
static size_t tree_written(const RefResult *r, const Lent *l) {
    if (r->number == 41 || (job == ANSWER && !r->number)) return 8 + 8 * (size_t)get16(l->tree + 6);
    return r->number ? 0 : 8 + 8 * (size_t)r->count;
}
static size_t out_written(const RefResult *r) { return r->number || job == TRANSLATE ? 0 : 8 + 8 * (size_t)r->count * get16(now.view + 12); }

static const char *difference(const RefResult *a, const RefResult *b, const Lent *mine, const Lent *other, const uint8_t *fill) {
    if (a->number != b->number || a->place != b->place || a->count != b->count) return "result";
    if (memcmp(mine->tree - GUARD, other->tree - GUARD, lengths.tree + 2 * GUARD)) return "tree";
    if (memcmp(mine->out - GUARD, other->out - GUARD, lengths.out + 2 * GUARD)) return "answer";
    size_t tree = tree_written(a, mine), out = out_written(a);
    if (tree > lengths.tree || !kept(mine->tree, lengths.tree, tree, fill)) return "bytes around the tree";
    if (out > lengths.out || !kept(mine->out, lengths.out, out, fill)) return "bytes around the answer";
    return files_kept(mine) && files_kept(other) ? NULL : "files";
}

static void grow(size_t *most, size_t n) { if (*most < n) *most = n; }

static void note_tree(const RefResult *r, const Lent *l) {
    grow(&largest.catalogue, now.cat_len / 8 - 1);
    grow(&largest.view, now.view_len / 8 - 1);
    grow(&largest.tree, r->count);
    for (uint32_t i = 0; i < r->count; i++) tree_kinds[l->tree[8 + 8 * i]]++;
}

static void note_answer(const RefResult *r, const Lent *l) {
    grow(&largest.store, now.store_len);
    grow(&largest.rows, r->count);
    rows_given += r->count;
    for (size_t i = 8; i < out_written(r); i += 8) cell_marks[l->out[i]]++;
}

static void note(const RefResult *r, const Lent *l) {
    met[job][r->number < 100 ? r->number : 99]++;
    if (!r->number && job == TRANSLATE) note_tree(r, l);
    if (!r->number && job == ANSWER) note_answer(r, l);
}

static void compare(uint64_t number) {
    const uint8_t *fill = pattern + (number & 127);
    Lent mine = lend(&ours, fill), other = lend(&theirs, fill);
    RefResult a = call_ours(&mine), b = call_theirs(&other);
    const char *what = difference(&a, &b, &mine, &other, fill);
    note(&a, &mine);
    if (!what) return;
    if (++differences > MOST_SHOWN) return;
    printf("case %llu, %s: library %u %u %u, reference %u %u %u\n", (unsigned long long)number, what, a.number, a.place, a.count, b.number, b.place, b.count);
    print_case();
}

// ---- lengths, and the work that a case takes

static int64_t table_rows[32];

static void read_rows(void) {
    size_t at = 8;
    int table = -1, n = get16(now.cat + 6);
    memset(table_rows, 0, sizeof table_rows);
    for (int i = 0; i < n && at + 2 <= now.store_len; ) {
        size_t columns = 0;
        for (i++; i < n && now.cat[8 + 8 * i] == 2; i++) columns++;
        table_rows[++table] = get16(now.store + at);
        at += 2 + (size_t)table_rows[table] * (2 + 8 * columns);
    }
}

// The steps of a tree's run, at most: each record as often as the rows around it are met; a block's tables stand before its children.
static int64_t work(const uint8_t *tree, int *at, int64_t times) {
    const uint8_t *r = tree + 8 + 8 * (*at)++;
    int children = 0, tables = 0;
    int64_t steps = times;
    switch (r[0]) {
    case 7: case 23: case 25: case 26: children = 2; break;
    case 8: case 22: children = 1; break;
    case 9: case 24: children = 3; break;
    case 10: case 27: case 28: tables = get16(r + 2); children = 1; break;
    case 11: case 29: case 30: tables = get16(r + 2); children = 2; break;
    case 13: tables = get16(r + 2); children = 1 + 2 * get16(r + 4); break;
    }
    for (; tables > 0; tables--) {
        times *= table_rows[get16(tree + 10 + 8 * (*at)++)];
        if (times > MOST_WORK) times = MOST_WORK;
    }
    for (; children > 0; children--) steps += work(tree, at, times);
    return steps;
}

static size_t length_for(Room r, size_t needed, size_t largest) {
    size_t len = needed;
    switch (r.mode) {
    case ROOM_MORE: len = needed + r.by % 300; break;
    case ROOM_EXACT: break;
    case ROOM_BYTE_SHORT: len = needed - 1; break;
    case ROOM_RECORD_SHORT: len = needed - 8; break;
    case ROOM_SMALLER: len = r.by % needed; break;
    case ROOM_TINY: len = r.by % 9; break;
    default: len = largest; break;
    }
    return len < largest ? len : largest;
}

// The bytes of an answer of all the rows that a tree's SELECT meets, up to OUT_ROOM: enough whatever is kept.
static size_t enough(const uint8_t *tree) {
    int64_t bytes = 8 * get16(tree + 12);
    for (int i = 0; i < get16(tree + 10); i++) {
        bytes *= table_rows[get16(tree + 18 + 8 * i)];
        if (bytes > OUT_ROOM) bytes = OUT_ROOM;
    }
    return (size_t)(bytes + 8 < OUT_ROOM ? bytes + 8 : OUT_ROOM);
}

// Whether the catalogue and the store are sound: then an empty view is what is refused.
static int store_accepted(void) {
    return ref_answer(now.cat, now.cat_len, now.view, 0, now.k, now.q, theirs.tree, 0, now.store, now.store_len, theirs.out, 0).number == 1;
}

// The bytes that the tree and the answer need, told by the reference in the largest buffers; 8 where there is none. `most` is enough for any answer.
static Lengths needed(void) {
    Lengths l = { 8, 8, 8 };
    RefResult r = ref_translate(now.cat, now.cat_len, now.view, now.view_len, now.k, now.q, theirs.tree, TREE_ROOM);
    if (r.number) return l;
    l.tree = 8 + 8 * (size_t)r.count;
    int at = 0;
    read_rows();
    if (store_accepted() && work(theirs.tree, &at, 1) > MOST_WORK) { without_rows(&now); read_rows(); emptied++; }
    l.most = enough(theirs.tree);
    r = ref_answer(now.cat, now.cat_len, now.view, now.view_len, now.k, now.q, theirs.tree, TREE_ROOM, now.store, now.store_len, theirs.out, OUT_ROOM);
    if (!r.number) l.out = 8 + 8 * (size_t)r.count * get16(now.view + 12);
    return l;
}

// ---- the two ways to run

static void run_generated(uint64_t seed, uint64_t cases) {
    for (uint64_t i = 0; i < cases; i++) {
        generate(&now, seed, i);
        Lengths need = needed();
        lengths.tree = length_for(now.tree, need.tree, now.tree.by & 1 ? TREE_ROOM : TREE_FULL);
        lengths.out = 0;
        job = TRANSLATE;
        compare(i);
        lengths.out = length_for(now.out, need.out, now.out.mode == ROOM_LARGEST ? need.most : OUT_ROOM);
        job = ANSWER;
        compare(i);
    }
}

static int digit(char c) { return c >= '0' && c <= '9' ? c - '0' : c >= 'a' && c <= 'f' ? c - 'a' + 10 : -1; }

static size_t read_bytes(const char *hex, uint8_t *to, size_t room) {
    size_t n = 0;
    for (; n < room && digit(hex[2 * n]) >= 0 && digit(hex[2 * n + 1]) >= 0; n++) to[n] = (uint8_t)(16 * digit(hex[2 * n]) + digit(hex[2 * n + 1]));
    return n;
}

static int read_case(char *line) {
    char *word[9] = { 0 };
    int n = 0;
    for (char *w = strtok(line, " \n"); w && n < 9; w = strtok(NULL, " \n")) word[n++] = w;
    job = n == 8 ? ANSWER : TRANSLATE;
    if (n != 6 && n != 8) return 0;
    now.k = (uint16_t)atoi(word[1]);
    now.q = (uint16_t)atoi(word[2]);
    lengths.tree = strtoul(word[3], NULL, 10);
    lengths.out = job == ANSWER ? strtoul(word[4], NULL, 10) : 0;
    now.cat_len = read_bytes(word[n == 8 ? 5 : 4], now.cat, CATALOGUE_ROOM);
    now.view_len = read_bytes(word[n == 8 ? 6 : 5], now.view, VIEW_ROOM);
    now.store_len = job == ANSWER ? read_bytes(word[7], now.store, STORE_ROOM) : 0;
    return lengths.tree <= TREE_ROOM && lengths.out <= OUT_ROOM;
}

static uint64_t run_file(const char *name) {
    static char line[400000];
    uint64_t lines = 0, cases = 0;
    FILE *f = fopen(name, "r");
    if (!f) { perror(name); exit(2); }
    while (lines++, fgets(line, sizeof line, f)) {
        if (line[0] == '#') continue;
        if (!read_case(line)) { fprintf(stderr, "%s: line %llu isn't a case\n", name, (unsigned long long)lines); exit(2); }
        compare(++cases);
    }
    fclose(f);
    return cases;
}

// ---- the report

static int report(void) {
    int missed = 0;
    printf("number   Translate      Answer\n");
    for (int i = 0; numbers[i] >= 0; i++) {
        int n = numbers[i], miss = !met[ANSWER][n] || (!met[TRANSLATE][n] && !of_answer_alone(n));
        printf("%6d %11llu %11llu%s\n", n, (unsigned long long)met[TRANSLATE][n], (unsigned long long)met[ANSWER][n], miss ? "   not met" : "");
        missed += miss;
    }
    printf("tree records of accepted views by kind:");
    for (int i = 1; i < 31; i++) if (i < 14 || i > 16) printf(" %d:%llu", i, (unsigned long long)tree_kinds[i]);
    printf("\nlargest accepted: catalogue %zu records, view %zu records, tree %zu records, store %zu bytes, answer %zu rows", largest.catalogue, largest.view,
           largest.tree, largest.store, largest.rows);
    printf("\nrows of accepted answers: %llu; cells with a value %llu, null %llu, withheld %llu\n", (unsigned long long)rows_given,
           (unsigned long long)cell_marks[0], (unsigned long long)cell_marks[1], (unsigned long long)cell_marks[2]);
    printf("cases run with no rows, since their own would take too long: %llu\n", (unsigned long long)emptied);
    return missed;
}

int main(int words, char **word) {
    if (words != 3) { fprintf(stderr, "usage: compare SEED CASES | compare replay FILE\n"); return 2; }
    int replay = !strcmp(word[1], "replay");
    uint64_t cases = replay ? 0 : strtoull(word[2], NULL, 10);
    for (size_t i = 0; i < sizeof pattern; i++) pattern[i] = (uint8_t)(i % 251 ^ i / 251 * 7);
    open_side(&ours);
    open_side(&theirs);
    signal(SIGSEGV, stopped);
    signal(SIGBUS, stopped);
    signal(SIGILL, stopped);
    if (replay) cases = run_file(word[2]); else run_generated(strtoull(word[1], NULL, 10), cases);
    int missed = report();
    if (!replay && missed) printf("%d numbers weren't met\n", missed);
    printf("%llu cases, %llu differences\n", (unsigned long long)cases, (unsigned long long)differences);
    return differences || (!replay && missed) ? 1 : 0;
}
