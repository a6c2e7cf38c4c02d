// The generator of the comparison: catalogues, stores and views, first sound and of fitting types, then a share of them damaged.
// compare/run builds and runs it; every choice comes from one generator of random numbers, below, that starts anew for each case.
#include "generate.h"
#include "reference.h"
#include <string.h>

// ---- random numbers (splitmix64)

static uint64_t state;

static uint64_t next(void) {
    uint64_t z = state += 0x9e3779b97f4a7c15u;
    z = (z ^ z >> 30) * 0xbf58476d1ce4e5b9u;
    z = (z ^ z >> 27) * 0x94d049bb133111ebu;
    return z ^ z >> 31;
}
static uint32_t below(uint32_t n) { return (uint32_t)((next() >> 32) * n >> 32); }
static int between(int low, int high) { return low + (int)below((uint32_t)(high - low + 1)); }
static int once_in(uint32_t n) { return below(n) == 0; }

static int64_t ten(int n) { int64_t r = 1; while (n-- > 0) r *= 10; return r; }
static void put16(uint8_t *b, uint32_t v) { b[0] = (uint8_t)v; b[1] = (uint8_t)(v >> 8); }
static void put32(uint8_t *b, uint32_t v) { put16(b, v); put16(b + 2, v >> 16); }
static uint16_t get16(const uint8_t *b) { return (uint16_t)(b[0] | b[1] << 8); }

static void header(uint8_t *b, const char *mark, uint32_t n) { memcpy(b, mark, 4); put16(b + 4, 1); put16(b + 6, n); }

// ---- a case's plan

enum { MOST_TABLES = 33, MOST_COLUMNS = 65 };
enum { NO_CLASSES, FEW_CLASSES, ALL_CLASSES };
enum { FEW_ROWS, SOME_ROWS, BRIM_ROWS, PRODUCT_ROWS };
enum { PLAIN_VIEW, LARGE_VIEW, DEEP_VIEW, BRIM_VIEW, SHORT_VIEW };

typedef uint16_t Type;                       // as in the catalogue: high byte 1 boolean, 2 fixed, 3 time, 4 interval, 5 class; 0 is null
enum { NULL_TAG, BOOL_TAG, FIXED_TAG, TIME_TAG, INTERVAL_TAG, CLASS_TAG };

typedef struct { uint16_t name, class; uint8_t stored; Type type; } Column;
typedef struct { uint16_t name, class, row; uint8_t stored; int columns, rows; Column column[MOST_COLUMNS]; } Table;

static struct {
    int classes, rows, view;
    uint32_t wild;                           // one choice in so many is made blindly; 0 for none
    int depth;                               // 16, or more where number 5 is wanted
    int64_t cost;                            // the largest product of rows in one place of the view
    uint16_t names, base;                    // column names and locals: base and the names - 1 after it
    int tables;
    Table table[MOST_TABLES];
} plan;

static uint16_t some_name(void) { return (uint16_t)(plan.base + below(plan.names)); }

static uint16_t some_class(void) {
    switch (plan.classes) {
    case NO_CLASSES: return 0;
    case FEW_CLASSES: return (uint16_t)(below(3) << 12 | (next() & next() & 7));
    default: return (uint16_t)(once_in(4) ? next() : below(16) << 12 | (next() & next() & 0xfff));
    }
}

static uint16_t dominated(uint16_t bound) {
    uint16_t level = (uint16_t)(once_in(3) ? bound >> 12 : below((bound >> 12) + 1u)), marks = bound & 0xfff;
    return (uint16_t)(level << 12 | (once_in(3) ? marks : marks & next()));
}

static uint8_t some_format(void) { return (uint8_t)(once_in(16) ? next() : once_in(8) ? 255 : below(2)); }

static uint8_t some_digits(void) {
    int p = once_in(3) ? 9 : between(1, once_in(2) ? 3 : 9);
    return (uint8_t)(16 * p + between(0, p < 4 ? p : 4));
}

static Type some_type(int tag) {
    return (Type)(tag << 8 | (tag == FIXED_TAG ? some_digits() : tag == TIME_TAG || tag == INTERVAL_TAG ? some_format() : 0));
}

static int32_t some_word(void) {
    switch (below(8)) {
    case 0: return INT32_MAX - (int32_t)below(2);
    case 1: return INT32_MIN + (int32_t)below(2);
    case 2: return (int32_t)next();
    case 3: return 0;
    default: return between(-100, 100);
    }
}

static int32_t some_value(Type t) {
    int64_t limit;
    switch (t >> 8) {
    case BOOL_TAG: return (int32_t)below(2);
    case FIXED_TAG:
        limit = ten(t >> 4 & 15);
        switch (below(4)) {
        case 0: return (int32_t)((limit - 1) * (once_in(2) ? 1 : -1));
        case 1: return limit < 20 ? (int32_t)below(2) : between(-19, 19);
        default: return (int32_t)((int64_t)(next() % (uint64_t)(2 * limit - 1)) - limit + 1);
        }
    case CLASS_TAG: return once_in(2) ? some_class() : (int32_t)below(65536);
    default: return some_word();
    }
}

// ---- the catalogue

static int column_taken(const Table *t, uint16_t name) {
    for (int i = 0; i < t->columns; i++) if (t->column[i].name == name) return 1;
    return 0;
}

static void add_column(Table *t) {
    Column *c = &t->column[t->columns];
    do c->name = some_name(); while (column_taken(t, c->name));
    c->stored = (uint8_t)!once_in(3);
    c->class = some_class();
    c->type = some_type(once_in(3) ? FIXED_TAG : between(BOOL_TAG, CLASS_TAG));
    if (plan.view == BRIM_VIEW && !t->columns) { c->type = BOOL_TAG << 8; c->stored = 1; }
    t->columns++;
}

static void add_table(int columns) {
    Table *t = &plan.table[plan.tables];
    memset(t, 0, sizeof *t);
    t->name = (uint16_t)(plan.base + 2 * plan.tables);               // some are names of columns too
    t->class = once_in(2) ? 0 : some_class();
    t->row = once_in(2) ? 0 : some_class();
    t->stored = (uint8_t)below(2);
    for (int i = 0; i < columns; i++) add_column(t);
    plan.tables++;
}

static void plan_catalogue(void) {
    int tables = between(1, 3), columns = between(1, 5);
    if (plan.rows == PRODUCT_ROWS || plan.rows == BRIM_ROWS) { tables = 4; columns = between(1, 3); }
    else if (once_in(16)) { tables = once_in(16) ? 33 : between(30, 32); columns = between(1, 3); }
    else if (once_in(16)) columns = once_in(16) ? 65 : between(60, 64);
    else if (once_in(8)) { tables = between(1, 8); columns = between(1, 12); }
    else if (once_in(400)) { tables = 32; columns = 64; }
    plan.base = (uint16_t)(once_in(8) ? 65400 : between(1, 300));
    plan.names = (uint16_t)(columns + between(1, 6));
    plan.tables = 0;
    for (int i = 0; i < tables; i++)
        add_table(plan.rows == PRODUCT_ROWS || (plan.rows == BRIM_ROWS && i == 0) ? 1 : tables > 8 && columns == 64 ? 64 : between(1, columns));
    if (columns > 59 && tables < 8) while (plan.table[0].columns < columns) add_column(&plan.table[0]);
}

static void write_catalogue(Case *c) {
    uint8_t *b = c->cat + 8;
    for (int i = 0; i < plan.tables; i++) {
        const Table *t = &plan.table[i];
        b[0] = 1; b[1] = t->stored; put16(b + 2, t->name); put16(b + 4, t->row); put16(b + 6, t->class);
        b += 8;
        for (int j = 0; j < t->columns; j++, b += 8) {
            const Column *l = &t->column[j];
            b[0] = 2; b[1] = l->stored; put16(b + 2, l->name); put16(b + 4, l->class); put16(b + 6, l->type);
        }
    }
    c->cat_len = (size_t)(b - c->cat);
    header(c->cat, "DRC", (uint32_t)(c->cat_len / 8 - 1));
}

// ---- the store

static int row_size(int table) { return 2 + 8 * plan.table[table].columns; }

static int64_t store_size(void) {
    int64_t n = 8;
    for (int i = 0; i < plan.tables; i++) n += 2 + (int64_t)plan.table[i].rows * row_size(i);
    return n;
}

// Rows of the first table, of ten bytes each, and a few of the second, up to a length on one side or the other of 65,528 bytes.
static void brim_rows(void) {
    int64_t wanted = 65524 + 2 * between(0, 4);
    for (int i = 0; i < plan.tables; i++) plan.table[i].rows = i < 2 ? 0 : between(0, 2);
    while (plan.table[1].rows < 10 && (wanted - store_size()) % row_size(0)) plan.table[1].rows++;
    plan.table[0].rows = (int)((wanted - store_size()) / row_size(0));
}

// Products of 65,535 rows and of 65,536.
static void product_rows(void) {
    static const int rows[5][4] = { { 16, 16, 16, 16 }, { 3, 5, 17, 257 }, { 255, 257, 1, 1 }, { 256, 1, 1, 256 }, { 257, 15, 17, 1 } };
    int row = between(0, 4);
    for (int i = 0; i < 4; i++) plan.table[i].rows = rows[row][i];
}

static void plan_rows(void) {
    if (plan.rows == BRIM_ROWS) { brim_rows(); return; }
    if (plan.rows == PRODUCT_ROWS) { product_rows(); return; }
    for (int i = 0; i < plan.tables; i++) {
        int most = plan.rows == SOME_ROWS && once_in(2) ? 40 : plan.tables > 8 ? 2 : 4;
        plan.table[i].rows = once_in(8) ? 0 : between(1, most);
    }
    for (int i = 0; store_size() > 65528; i++) plan.table[i].rows = 0;
}

static uint8_t *write_cell(uint8_t *b, const Column *l) {
    memset(b, 0, 8);
    b[0] = (uint8_t)once_in(6);
    put16(b + 2, l->stored ? dominated(l->class) : l->class);
    if (!b[0]) put32(b + 4, (uint32_t)some_value(l->type));
    return b + 8;
}

static void write_store(Case *c) {
    uint8_t *b = c->store + 8;
    for (int i = 0; i < plan.tables; i++) {
        const Table *t = &plan.table[i];
        put16(b, (uint32_t)t->rows);
        b += 2;
        for (int r = 0; r < t->rows; r++) {
            put16(b, t->stored ? dominated(t->row) : t->row);
            b += 2;
            for (int j = 0; j < t->columns; j++) b = write_cell(b, &t->column[j]);
        }
    }
    c->store_len = (size_t)(b - c->store);
    header(c->store, "DRS", (uint32_t)plan.tables);
}

void without_rows(Case *c) {
    int tables = 0, n = get16(c->cat + 6);
    for (int i = 0; i < n; i++) tables += c->cat[8 + 8 * i] == 1;
    c->store_len = 8 + 2 * (size_t)tables;
    memset(c->store, 0, c->store_len);
    header(c->store, "DRS", (uint32_t)tables);
}

// ---- names, as a view's writer looks them up

typedef struct Scope {
    const struct Scope *outer;
    int tables, table[4];                    // 0 tables: a LET's body
    uint16_t name;
    Type type;
    int64_t rows;                            // the product of the rows of this scope and those around it
} Scope;

typedef struct { int hits, local; Type type; } Found;

static Found found_in(const Scope *s, uint16_t name, uint16_t table) {
    Found f = { 0, 0, 0 };
    if (!s->tables && !table && s->name == name) { f.hits = 1; f.local = 1; f.type = s->type; }
    for (int i = 0; i < s->tables; i++) {
        const Table *t = &plan.table[s->table[i]];
        for (int j = 0; j < t->columns; j++)
            if ((!table || t->name == table) && t->column[j].name == name) { f.hits++; f.type = t->column[j].type; }
    }
    return f;
}

static Found found(const Scope *s, uint16_t name, uint16_t table) {
    Found f = { 0, 0, 0 };
    for (; s && !f.hits; s = s->outer) f = found_in(s, name, table);
    return f;
}

// ---- the view

enum { ANY = 0x10000, MOST_RECORDS = 1200 };   // a wanted type: tag and low byte, or ANY low byte

static uint8_t *records;                       // where the view's records go
static int count;

static void record(int kind, int op, int a, int b, int c) {
    uint8_t *r = records + 8 * count++;
    r[0] = (uint8_t)kind; r[1] = (uint8_t)op; put16(r + 2, (uint32_t)a); put16(r + 4, (uint32_t)b); put16(r + 6, (uint32_t)c);
}

static int wild(void) { return plan.wild && once_in(plan.wild); }
static int some_want(void) { return (once_in(12) ? NULL_TAG : between(BOOL_TAG, CLASS_TAG)) << 8 | ANY; }
static int fits(Type t, int want) { return want & ANY ? t >> 8 == (want >> 8 & 255) : t == want; }
static int tag_of(int want) { return want >> 8 & 255; }

// A constant. A FIXED's, TIME's or INTERVAL's value has its low half in b, its high half in c.
static Type constant(int want) {
    int tag = tag_of(want);
    Type t = want & ANY ? some_type(tag) : (Type)want;
    uint32_t v = tag ? (uint32_t)some_value(t) : 0;
    switch (tag) {
    case NULL_TAG: record(1, 0, 0, 0, 0); break;
    case BOOL_TAG: record(2, (int)v, 0, 0, 0); break;
    case CLASS_TAG: record(6, 0, (int)v, 0, 0); break;
    default: record(tag + 1, t & 255, 0, (int)(v & 0xffff), (int)(v >> 16)); break;
    }
    return t;
}

// One pick of a column or local of the open scopes, by its name as it is found from the innermost: true if it is written.
static int picked(int want, const Scope *inner, Type *t) {
    const Scope *s = inner;
    uint16_t name = 0, table = 0;
    for (int out = (int)below(4); out > 0 && s->outer; out--) s = s->outer;
    if (s->tables) {
        const Table *from = &plan.table[s->table[below((uint32_t)s->tables)]];
        name = from->column[below((uint32_t)from->columns)].name;
        if (once_in(3)) table = from->name;
    } else name = s->name;
    int classof = tag_of(want) == CLASS_TAG && once_in(3);
    Found f = found(inner, name, table);
    if (f.hits != 1 || (classof ? f.local : !fits(f.type, want))) return 0;
    record(classof ? 15 : 14, 0, name, table, 0);
    *t = classof ? (Type)(CLASS_TAG << 8) : f.type;
    return 1;
}

static Type leaf(int want, const Scope *s) {
    Type t = (Type)want;
    if (wild()) {
        record(once_in(4) ? 15 : 14, 0, some_name(), once_in(3) ? plan.table[below((uint32_t)plan.tables)].name : once_in(8) ? some_name() : 0, 0);
        return t;
    }
    if (!once_in(4)) for (int i = 0; i < 8; i++) if (picked(want, s, &t)) return t;
    return constant(want);
}

// A child's part of the records left: a deep view gives all to one child.
static int part(int *budget, int children) {
    int n = children < 2 ? *budget : plan.view == DEEP_VIEW ? (once_in((uint32_t)children) ? *budget : 1)
        : 1 + (int)below((uint32_t)(2 * *budget / children > 0 ? 2 * *budget / children : 1));
    *budget = *budget > n ? *budget - n : 1;
    return n;
}

static Type value(int want, int depth, int budget, const Scope *s);

static Type wider(Type a, Type b) {
    int p = (a >> 4 & 15) > (b >> 4 & 15) ? a >> 4 & 15 : b >> 4 & 15, s = (a & 15) > (b & 15) ? a & 15 : b & 15;
    return (Type)(FIXED_TAG << 8 | p << 4 | s);
}

// The tables of a block, as many as the cost allows: 0 if none.
static int open_tables(Scope *s, const Scope *outer, int most) {
    s->outer = outer;
    s->tables = 0;
    s->name = 0;
    s->rows = outer ? outer->rows : 1;
    for (int i = 0; i < most; i++)
        for (int try = 0; try < 4; try++) {
            int table = (int)below((uint32_t)plan.tables), rows = plan.table[table].rows;
            int64_t all = s->rows * (rows > 0 ? rows : 1);
            if (all > plan.cost) continue;
            s->rows = all;
            s->table[s->tables++] = table;
            break;
        }
    return s->tables;
}

static void write_tables(const Scope *s) {
    for (int i = 0; i < s->tables; i++) record(12, 0, wild() ? some_name() : plan.table[s->table[i]].name, 0, 0);
}

enum { EXISTS = 10, VALUE = 11, COUNT = 28, MAX = 29, MIN = 30 };

// A block of one of these kinds; one digit in every second COUNT, so that a few rows are too many for it.
static Type block(int kind, int want, int depth, int budget, const Scope *s) {
    Scope inner;
    int op = kind == COUNT ? 16 * (once_in(2) ? 1 : between(1, 9)) : 0, has_value = kind != EXISTS && kind != COUNT;
    if (!open_tables(&inner, s, once_in(3) ? between(2, 4) : 1)) return leaf(want, s);
    record(kind, op, inner.tables, 0, 0);
    write_tables(&inner);
    if (kind != EXISTS && once_in(4)) record(2, 1, 0, 0, 0);
    else value(BOOL_TAG << 8, depth + 1, has_value ? part(&budget, 2) : budget, &inner);
    if (has_value) return value(want, depth + 1, budget, &inner);
    return (Type)(kind == EXISTS ? BOOL_TAG << 8 : FIXED_TAG << 8 | op);
}

// VALUE, MAX or MIN: the last two where the wanted type has an order, or blindly.
static int valued_kind(int want) {
    int tag = tag_of(want), ordered = tag == FIXED_TAG || tag == TIME_TAG || tag == INTERVAL_TAG;
    return !once_in(3) && (ordered || wild()) ? between(MAX, MIN) : VALUE;
}

static Type choice(int want, int depth, int budget, const Scope *s) {
    record(9, 0, 0, 0, 0);
    value(BOOL_TAG << 8, depth + 1, part(&budget, 3), s);
    Type a = value(want, depth + 1, part(&budget, 2), s);
    Type b = value(a >> 8 == FIXED_TAG ? FIXED_TAG << 8 | ANY : a, depth + 1, budget, s);
    return a >> 8 == FIXED_TAG ? wider(a, b) : a;
}

static Type let(int want, int depth, int budget, const Scope *s) {
    Scope inner = { s, 0, { 0 }, some_name(), 0, s->rows };
    record(16, 0, inner.name, 0, 0);
    inner.type = value(some_want(), depth + 1, part(&budget, 2), s);
    return value(want, depth + 1, budget, &inner);
}

static void two(int op, int left, int right, int depth, int budget, const Scope *s, Type *a, Type *b) {
    record(7, op, 0, 0, 0);
    *a = value(left, depth + 1, part(&budget, 2), s);
    *b = value(right ? right : *a, depth + 1, budget, s);
}

static Type boolean(int depth, int budget, const Scope *s) {
    static const int ordered[3] = { FIXED_TAG << 8 | ANY, TIME_TAG << 8 | ANY, INTERVAL_TAG << 8 | ANY }, tests[4] = { 7, 8, 11, 12 };
    Type a, b;
    int any = some_want();
    switch (below(10)) {
    case 0: record(8, 0, 0, 0, 0); value(BOOL_TAG << 8, depth + 1, budget, s); break;
    case 1: case 2: return block(EXISTS, BOOL_TAG << 8, depth, budget, s);
    case 3: case 4: two(between(5, 6), BOOL_TAG << 8, BOOL_TAG << 8, depth, budget, s, &a, &b); break;
    case 5: case 6: two(between(9, 10), any, once_in(8) ? NULL_TAG << 8 | ANY : tag_of(any) ? any : some_want(), depth, budget, s, &a, &b); break;
    default: any = ordered[below(3)]; two(once_in(4) ? between(9, 10) : tests[below(4)], any, any, depth, budget, s, &a, &b); break;
    }
    return BOOL_TAG << 8;
}

// An operator whose result is of the wanted type; classes and nulls have none.
static Type operation(int want, int depth, int budget, const Scope *s) {
    Type a, b;
    switch (tag_of(want)) {
    case BOOL_TAG: return boolean(depth, budget, s);
    case FIXED_TAG:
        if (once_in(4)) return block(COUNT, want, depth, budget, s);
        two(between(1, 4), want, want, depth, budget, s, &a, &b);
        return wider(a, b);
    case TIME_TAG: two(between(1, 2), want, INTERVAL_TAG << 8 | ANY, depth, budget, s, &a, &b); return a;
    case INTERVAL_TAG:
        if (once_in(2)) two(between(1, 2), want, 0, depth, budget, s, &a, &b);
        else two(between(3, 4), want, FIXED_TAG << 8 | ANY, depth, budget, s, &a, &b);
        return a;
    default: return leaf(want, s);
    }
}

static Type value(int want, int depth, int budget, const Scope *s) {
    if (wild() && once_in(4)) want = some_want();
    if (depth >= plan.depth || budget < 2 || count > MOST_RECORDS || (plan.view != DEEP_VIEW && once_in(10))) return leaf(want, s);
    switch (below(10)) {
    case 0: case 1: return choice(want, depth, budget, s);
    case 2: return let(want, depth, budget, s);
    case 3: return block(valued_kind(want), want, depth, budget, s);
    default: return tag_of(want) == CLASS_TAG || tag_of(want) == NULL_TAG ? choice(want, depth, budget, s) : operation(want, depth, budget, s);
    }
}

static void finish(Case *c, int values) {
    put16(records + 4, (uint32_t)values);
    c->view_len = 8 + 8 * (size_t)count;
    header(c->view, "DRQ", (uint32_t)count);
}

static void open_select(Case *c, Scope *s, int tables) {
    records = c->view + 8;
    count = 0;
    if (!open_tables(s, NULL, tables)) { s->tables = 1; s->table[0] = 0; }
    if (plan.rows == PRODUCT_ROWS) for (s->tables = 0; s->tables < 4; s->tables++) s->table[s->tables] = s->tables;
    record(13, 0, s->tables, 0, 0);
    write_tables(s);
}

// A value of so many records, at most 15: NOTs over a constant.
static void chain(int n) {
    for (; n > 1; n--) record(8, 0, 0, 0, 0);
    record(2, (int)below(2), 0, 0, 0);
}

static int padded(int values, int wanted) {
    for (; count < wanted && values < 32; values++) chain(wanted - count < 15 ? wanted - count : 15);
    return values;
}

static void write_view(Case *c) {
    Scope s;
    int budget = plan.view == LARGE_VIEW ? between(100, 800) : plan.view == SHORT_VIEW ? 4 : between(2, 50);
    int values = plan.rows == PRODUCT_ROWS ? between(1, 2) : once_in(16) ? between(20, 32) : between(1, 4);
    open_select(c, &s, once_in(2) ? 1 : between(1, 4));
    if (once_in(3)) record(2, !once_in(16), 0, 0, 0);
    else value(BOOL_TAG << 8, 2, plan.view == DEEP_VIEW ? budget : part(&budget, values + 1), &s);
    for (int i = 0; i < values; i++) value(some_want(), 2, plan.view == DEEP_VIEW ? budget : part(&budget, values - i), &s);
    if (plan.view == LARGE_VIEW && once_in(2)) values = padded(values, between(1022, 1026));
    finish(c, values);
}

// ---- views whose tree stands near 8,190 records

static void bush(int depth, int height, const Scope *s) {
    if (!height || depth >= 16) { leaf(BOOL_TAG << 8, s); return; }
    record(7, between(5, 6), 0, 0, 0);
    bush(depth + 1, height - 1, s);
    bush(depth + 1, height - 1, s);
}

// A bush under conditions, wheres and LETs: its class tree has the data of each of them once more.
static void spine(int depth, int left, int height, const Scope *s) {
    Scope inner;
    int kind = once_in(2) ? 0 : (int)below(left < 2 ? 4 : 5);
    if (!left) { bush(depth, height, s); return; }
    if (kind > 1 && !open_tables(&inner, s, 1)) kind = 0;
    switch (kind) {
    case 0:
        record(9, 0, 0, 0, 0);
        spine(depth + 1, left - 1, height, s);
        leaf(BOOL_TAG << 8, s);
        leaf(BOOL_TAG << 8, s);
        return;
    case 1:
        inner = (Scope){ s, 0, { 0 }, some_name(), BOOL_TAG << 8, s->rows };
        record(16, 0, inner.name, 0, 0);
        spine(depth + 1, left - 1, height, s);
        record(14, 0, inner.name, 0, 0);
        return;
    case 2: case 3:
        record(kind == 2 ? EXISTS : VALUE, 0, 1, 0, 0);
        write_tables(&inner);
        spine(depth + 1, left - 1, height, &inner);
        if (kind == 3) leaf(BOOL_TAG << 8, &inner);
        return;
    default:
        record(7, between(7, 12), 0, 0, 0);
        record(COUNT, 16, 1, 0, 0);
        write_tables(&inner);
        spine(depth + 2, left - 2, height, &inner);
        constant(FIXED_TAG << 8 | ANY);
    }
}

static int tree_records(Case *c, int values) {
    static uint8_t tree[8 + 8 * 8190];
    finish(c, values);
    RefResult r = ref_translate(c->cat, c->cat_len, c->view, c->view_len, c->k, c->q, tree, sizeof tree);
    return r.number ? 8191 : (int)r.count;
}

// Heavy values while they fit, then lighter ones, then chains of NOT up to the wanted number of records.
static void brim_view(Case *c) {
    Scope s;
    int wanted = between(8187, 8193), values = 1, have, height = between(4, 5), tries = 8;
    open_select(c, &s, 1);
    record(2, 1, 0, 0, 0);
    record(1, 0, 0, 0, 0);
    have = tree_records(c, values);
    while (tries > 0 && values < 26) {
        int start = count, now;
        spine(2, height ? 14 - height : between(1, 14), height, &s);
        now = count > 1000 ? 8191 : tree_records(c, values + 1);
        if (now <= wanted - 2 && now <= 8190) { have = now; values++; continue; }
        count = start;
        if (height) height--; else tries--;
    }
    for (int left = wanted - have; left > 1 && values < 32 && count < 1008; values++) {
        int add = left == 17 ? 15 : left < 16 ? left : 16;            // a chain's records and its class
        chain(add - 1);
        left -= add;
    }
    finish(c, values);
}

// ---- damage

static uint16_t edge_word(void) {
    static const uint16_t edges[24] = { 0, 1, 2, 3, 4, 5, 9, 10, 16, 17, 31, 32, 33, 64, 65, 255, 256, 1280, 1536, 32768, 65535,
                                        0x295, 0x2a0, 0x212 };               // the last three: digits out of rule
    return once_in(4) ? some_name() : once_in(4) ? (uint16_t)next() : edges[below(24)];
}

static void damage_head(uint8_t *f, size_t *len) {
    switch (below(8)) {
    case 0: *len = 0; return;
    case 1: *len = below(8); return;
    case 2: f[below(3)] ^= (uint8_t)(1 << below(8)); return;
    case 3: f[3] = (uint8_t)(1 + below(255)); return;
    case 4: put16(f + 4, once_in(2) ? below(3) : (uint32_t)next()); return;
    case 5: put16(f + 6, get16(f + 6) + (once_in(2) ? 1u : 65535u)); return;
    case 6: put16(f + 6, (uint32_t)next()); return;
    default: put16(f + 6, 0); if (once_in(2)) *len = 8; return;
    }
}

// Records dropped at the end or another one added, with the count that fits.
static void damage_count(uint8_t *f, size_t *len) {
    size_t n = *len / 8 - 1;
    if (once_in(2) && n > 1) n = once_in(2) ? n - 1 : once_in(2) ? 1 : 1 + below((uint32_t)n - 1);
    else { memcpy(f + *len, f + 8 + 8 * below((uint32_t)n), 8); n++; }
    *len = 8 + 8 * n;
    put16(f + 6, (uint32_t)n);
}

// Kinds from 0 to 18, and those of COUNT, MAX and MIN.
static uint8_t edge_kind(void) { uint32_t kind = below(22); return (uint8_t)(kind < 19 ? kind : COUNT + kind - 19); }

static uint8_t edge_op(void) { return (uint8_t)(once_in(2) ? below(14) : 16 * below(11)); }

static void damage_record(uint8_t *f, size_t len) {
    uint32_t n = (uint32_t)(len / 8 - 1);
    uint8_t *r = f + 8 + 8 * below(n), *other = f + 8 + 8 * below(n), kept[8];
    switch (below(6)) {
    case 0: r[0] = once_in(8) ? (uint8_t)next() : edge_kind(); return;
    case 1: r[1] = once_in(2) ? (uint8_t)next() : edge_op(); return;
    case 2: case 3: put16(r + 2 + 2 * below(3), edge_word()); return;
    case 4: memcpy(r, other, 8); return;
    default: memcpy(kept, r, 8); memcpy(r, other, 8); memcpy(other, kept, 8); return;
    }
}

static void damage(uint8_t *f, size_t *len) {
    if (*len <= 8) return;
    switch (below(12)) {
    case 0: case 1: damage_head(f, len); return;
    case 2: *len = once_in(2) ? *len - 1 : below((uint32_t)*len); return;
    case 3: for (uint32_t add = 1 + below(16); add > 0; add--) f[(*len)++] = (uint8_t)next(); return;
    case 4: if (*len >= 16) damage_count(f, len); return;
    case 5: case 6: f[8 + below((uint32_t)*len - 8)] ^= (uint8_t)(1 << below(8)); return;
    case 7: f[8 + below((uint32_t)*len - 8)] = (uint8_t)(once_in(2) ? next() : below(3)); return;
    default: if (*len >= 16) damage_record(f, *len); return;
    }
}

// A count or a cell at one edge of its rule, found by the catalogue's plan.
static void damage_store(Case *c) {
    int table = (int)below((uint32_t)plan.tables);
    size_t at = 8;
    for (int i = 0; i < table; i++) at += 2 + (size_t)(plan.table[i].rows * row_size(i));
    const Table *t = &plan.table[table];
    if (!t->rows || once_in(16)) { put16(c->store + at, get16(c->store + at) + (once_in(2) ? 1u : 65535u)); return; }
    at += 2 + below((uint32_t)t->rows) * (size_t)row_size(table);
    if (once_in(6)) { put16(c->store + at, once_in(2) ? some_class() : t->row ^ 1u << below(16)); return; }
    int column = (int)below((uint32_t)t->columns);
    const Column *l = &t->column[column];
    uint8_t *b = c->store + at + 2 + 8 * (size_t)column;
    switch (below(6)) {
    case 0: b[0] = (uint8_t)(once_in(2) ? 2 : next()); return;
    case 1: b[1] = (uint8_t)(1 << below(8)); return;
    case 2: put16(b + 2, once_in(2) ? some_class() : l->class ^ 1u << below(16)); return;
    case 3: b[0] = 1; return;
    case 4: put32(b + 4, (uint32_t)(ten(l->type >> 4 & 15) * (once_in(2) ? 1 : -1))); return;
    default: put32(b + 4, once_in(2) ? 65535 + below(2) : (uint32_t)(int32_t)between(-1, 2)); return;
    }
}

static void damage_case(Case *c) {
    switch (below(8)) {
    case 0: case 1: damage(c->cat, &c->cat_len); return;
    case 2: damage(c->store, &c->store_len); return;
    case 3: damage_store(c); return;
    case 4: damage(c->cat, &c->cat_len); damage(c->view, &c->view_len); damage(c->store, &c->store_len); return;
    default: for (int i = between(1, 2); i > 0; i--) damage(c->view, &c->view_len); return;
    }
}

// ---- a case

static Room some_room(void) {
    int mode = once_in(12) ? between(ROOM_BYTE_SHORT, ROOM_TINY) : once_in(4) ? ROOM_EXACT : once_in(4) ? ROOM_LARGEST : ROOM_MORE;
    Room r = { mode, (uint32_t)next() };
    return r;
}

static uint16_t lub(uint16_t a, uint16_t b) { return (uint16_t)((a >> 12 > b >> 12 ? a & 0xf000 : b & 0xf000) | ((a | b) & 0xfff)); }

// Often just enough for the tables, their rows and the constants, so that rows are shown and cells withheld.
static uint16_t some_clearance(uint16_t k) {
    uint16_t enough = k;
    switch (below(8)) {
    case 0: return some_class();
    case 1: return (uint16_t)next();
    case 2: case 3: return 65535;
    default:
        for (int i = 0; i < plan.tables; i++) enough = lub(enough, lub(plan.table[i].class, plan.table[i].row));
        return once_in(4) ? lub(enough, some_class()) : once_in(8) ? dominated(enough) : enough;
    }
}

static void plan_case(void) {
    uint32_t pick = below(2000);
    plan.classes = (int)below(3);
    plan.rows = pick == 0 ? PRODUCT_ROWS : pick < 20 ? BRIM_ROWS : pick < 200 ? SOME_ROWS : FEW_ROWS;
    plan.view = pick < 20 ? SHORT_VIEW : pick < 32 ? BRIM_VIEW : once_in(16) ? LARGE_VIEW : once_in(5) ? DEEP_VIEW : PLAIN_VIEW;
    if (pick >= 20 && pick < 32) plan.rows = FEW_ROWS;
    plan.wild = pick >= 32 && once_in(4) ? (once_in(2) ? 12 : 60) : 0;
    plan.depth = pick >= 32 && once_in(20) ? 17 : 16;
    plan.cost = plan.rows == PRODUCT_ROWS ? 70000 : plan.rows == BRIM_ROWS ? 7000 : plan.view == BRIM_VIEW ? 30 : once_in(16) ? 3000 : 300;
}

void generate(Case *c, uint64_t seed, uint64_t number) {
    state = seed * 0x9e3779b97f4a7c15u ^ number * 0xd1342543de82ef95u;
    next();
    plan_case();
    plan_catalogue();
    plan_rows();
    c->k = once_in(2) ? 0 : some_class();
    c->q = some_clearance(c->k);
    c->tree = some_room();
    c->out = some_room();
    write_catalogue(c);
    write_store(c);
    if (plan.view == BRIM_VIEW) brim_view(c); else write_view(c);
    int at_limits = plan.view == BRIM_VIEW || plan.rows == PRODUCT_ROWS;
    if (at_limits && !once_in(4)) c->tree.mode = ROOM_LARGEST;
    if (at_limits && !once_in(4)) c->out.mode = ROOM_LARGEST;
    if (!at_limits && once_in(4)) damage_case(c);
}
