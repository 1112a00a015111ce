/* A record, built item by item (docs/FORMATS.md, "Record bytes"). */
#ifndef RECORD_H
#define RECORD_H

#include <stddef.h>
#include <stdint.h>

/* The kinds of items that the neighbour program's runs have. */
enum kind {
    KIND_LOAD = 1,
    KIND_STORE = 2,
    KIND_WRITE = 6,
    KIND_POPA = 7,
    KIND_POPB = 8,
    KIND_BAR = 9
};

/* The most items that a record may have, and the bytes of the longest item of these runs, whose
 * transitions are few. */
enum { MOST_ITEMS = 1024, MOST_ITEM_BYTES = 9 };

/* A cell of some rank. */
struct place {
    uint8_t rank;
    uint16_t cell;
};

/* The items so far; the first two bytes are their count, so that it is a record at every time. */
struct record {
    uint16_t items;
    size_t length;
    uint8_t bytes[2 + MOST_ITEMS * MOST_ITEM_BYTES];
};

/* Makes it a record of no items. */
void record_begin(struct record *record);

/* Appends a command that touches no cell: here a write or a bar. */
void record_command(struct record *record, enum kind kind, uint8_t rank, uint8_t transition);

/* Appends a load or store, with the value that it read or wrote at that place. */
void record_access(struct record *record, enum kind kind, uint8_t rank, uint8_t transition,
                   struct place place, uint16_t value);

/* Appends a popa or popb of that rank's queue, with the value that it read or wrote there. */
void record_pop(struct record *record, enum kind kind, uint8_t rank, uint8_t queue,
                struct place place, uint16_t value);

#endif
