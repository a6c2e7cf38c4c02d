// Cases for the comparison: a catalogue, a view, a store, k and q, and how much room the two buffers have.
// A case depends on its seed and its number alone, on any machine.
#ifndef GENERATE_H
#define GENERATE_H
#include <stddef.h>
#include <stdint.h>

enum { CATALOGUE_ROOM = 20000, VIEW_ROOM = 20000, STORE_ROOM = 80000 };

// A buffer's length, against the bytes that the result needs: some more, exactly these, one fewer, eight fewer, any smaller length, under nine, the largest.
enum { ROOM_MORE, ROOM_EXACT, ROOM_BYTE_SHORT, ROOM_RECORD_SHORT, ROOM_SMALLER, ROOM_TINY, ROOM_LARGEST };

typedef struct { int mode; uint32_t by; } Room;

typedef struct {
    uint16_t k, q;
    size_t cat_len, view_len, store_len;
    Room tree, out;
    uint8_t cat[CATALOGUE_ROOM], view[VIEW_ROOM], store[STORE_ROOM];
} Case;

void generate(Case *c, uint64_t seed, uint64_t number);

// The same catalogue's store with no rows: for a case whose rows would take too long.
void without_rows(Case *c);
#endif
