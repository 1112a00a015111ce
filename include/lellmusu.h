/*
 * Lellmusu checks a recorded run of a one-sided program: whether it equals a run that does one
 * transfer at a time. docs/FORMATS.md has the bytes of programs, starts, records and slips and the
 * text of a listing, docs/RECORDER.md how to link and call the library.
 *
 * Of every function: what is lent is lent for the length of the call. Nothing is kept after it,
 * nothing is allocated, and there is no global state, so threads may call at the same time, each
 * with memory of its own to be written. The areas and *value must not overlap, and nobody may write
 * to any of them, or read those that are written, during the call. A null pointer with length 0 is
 * an empty area. `value` must not be null. On a refusal nothing but *value changes, except that
 * lellmusu_list writes its `refused` line.
 */
#ifndef LELLMUSU_H
#define LELLMUSU_H

#include <stddef.h>
#include <stdint.h>

#ifdef __cplusplus
extern "C" {
#endif

/* The version of this header. The minor number is raised with each change of a signature;
 * CHANGELOG.md says what each one changed. */
#define LELLMUSU_VERSION "0.5.0"
#define LELLMUSU_VERSION_MAJOR 0
#define LELLMUSU_VERSION_MINOR 5
#define LELLMUSU_VERSION_PATCH 0

/* The same as one number, which can be compared: 500 for 0.5.0. */
#define LELLMUSU_VERSION_NUMBER \
    (LELLMUSU_VERSION_MAJOR * 10000 + LELLMUSU_VERSION_MINOR * 100 + LELLMUSU_VERSION_PATCH)

/*
 * Returns the LELLMUSU_VERSION_NUMBER of the library that is linked. Where it is not the header's,
 * header and library are of different versions, and a call may be made with the wrong parameters.
 */
uint32_t lellmusu_version(void);

/* What the functions return: an order, a ring, or the number of a refusal in document 01's table
 * or, from 17 on, in document 02, with their words. Before each colon stands what *value counts.
 * Bytes and items are counted from 0. */
enum {
    /* Groups: the run equals the one in the order listed. */
    LELLMUSU_ORDER = 0,
    /* Byte: program ends early (place: its length), or bytes left over (first one). */
    LELLMUSU_PROGRAM_LENGTH = 1,
    /* Byte: header number, state or register outside its range. */
    LELLMUSU_PROGRAM_RANGE = 2,
    /* Byte: unknown kind, then map not the kind's; unknown token; sixteenth token. */
    LELLMUSU_PROGRAM_FORM = 3,
    /* Byte: record ends early or has bytes left over, placed as in 1. */
    LELLMUSU_RECORD_LENGTH = 4,
    /* Byte: item count above 1,024, or an item's rank, transition, queue, place or remote rank
     * outside its range. */
    LELLMUSU_RECORD_RANGE = 5,
    /* Byte: item's unknown kind, then map not among its kind's. */
    LELLMUSU_RECORD_FORM = 6,
    /* Item: transition not from the rank's state, or of another kind. */
    LELLMUSU_WRONG_TRANSITION = 7,
    /* Item: evaluated own cell, remote rank, remote cell or queue outside its range. */
    LELLMUSU_OPERAND_RANGE = 8,
    /* Item: assume gives 0. */
    LELLMUSU_ASSUME_FAILS = 9,
    /* Item: pop of an empty queue, or of one with no entry for the remote rank that it names. */
    LELLMUSU_EMPTY_QUEUE = 10,
    /* Item: place or given value differs from the replay. */
    LELLMUSU_ACCESS_DIFFERS = 11,
    /* Item: bar whose rank is not the next of its row (rank 1 opens one), or another item in an
     * open row. */
    LELLMUSU_BARRIER_ROW = 12,
    /* Item count: requests or deliveries left. */
    LELLMUSU_QUEUES_LEFT = 13,
    /* Entries needed: order list shorter than the group count (also when a ring would fit). */
    LELLMUSU_ORDER_TOO_SHORT = 14,
    /* Entries or bytes needed: cell list, slip, start, counts or listing memory too short. */
    LELLMUSU_MEMORY_TOO_SHORT = 15,
    /* Byte: slip not as document 01 says. Only lellmusu_read_slip returns this. */
    LELLMUSU_SLIP_FORM = 16,
    /* Item: an expression of its transition has no value, since a sum or product passes 65,535 or a
     * difference falls below 0. Told after 7 and before 8 and 9. */
    LELLMUSU_NO_VALUE = 18,
    /* Byte: start not as document 02 says: a missing or left-over byte (a missing one placed at the
     * length), a bit for a cell A or above, or a listed 0. Judged after the program and before the
     * record. */
    LELLMUSU_START_FORM = 19,
    /* Groups: no run that does one transfer at a time has this run's trace. */
    LELLMUSU_RING = 255
};

/* Lengths in bytes that are enough for every run: an entry for each of 1,024 items, and one for
 * each of the 64 cells of 16 ranks. */
#define LELLMUSU_ORDER_BYTES (2 * 1024)
#define LELLMUSU_CELLS_BYTES (2 * 16 * 64)

/* Likewise for a slip, its map and a count for each of 16 ranks; for the counts of a slip, in
 * entries; and for the text of a listing. */
#define LELLMUSU_SLIP_BYTES (2 + 2 * 16)
#define LELLMUSU_COUNTS 16
#define LELLMUSU_LISTING_BYTES 44043

/* Likewise for a start: for each of 16 ranks a map of eight bytes and a value for each of its 64
 * cells. */
#define LELLMUSU_START_BYTES (16 * (8 + 2 * 64))

/*
 * Checks the record of a run of the program that began with the cells that the start says.
 *
 *   program  the program's bytes; they may be any bytes, and are only read
 *   start    the start's bytes; likewise. No bytes at all mean that all cells are 0 at the start
 *   record   the record's bytes; likewise
 *   order    gets the group numbers of the order or ring, from its first byte on
 *   cells    gets the last value of every cell, N x A entries: rank 1's cells first, each rank's
 *            rising
 *   value    gets the count of groups listed in `order` or, of a refusal, its place
 *
 * In `order` and `cells` an entry is two bytes, high byte first. A list has half as many entries
 * as bytes, rounded down: an odd last byte is never used. Bytes beyond the entries filled stay as
 * they were. On a refusal both lists stay as they were, and only *value changes.
 */
uint8_t lellmusu_check(const uint8_t *program, size_t program_length, const uint8_t *start,
                       size_t start_length, const uint8_t *record, size_t record_length,
                       uint8_t *order, size_t order_length, uint8_t *cells, size_t cells_length,
                       size_t *value);

/*
 * Writes the slip of a run: a map of the ranks that have a command item, in two bytes for a program
 * of more than 8 ranks and in one for others, then for each of them a two-byte count of those
 * items. Program, start and record are refused as lellmusu_check refuses them, by 1 to 13, 18 or
 * 19; then a memory that is too short, by 15 with the bytes needed.
 *
 *   slip     gets the slip's bytes, from its first byte on
 *   value    gets the count of bytes written or, of a refusal, its place
 *
 * Returns 0 (LELLMUSU_ORDER) where the slip is written, whether the run is an order or a ring.
 */
uint8_t lellmusu_write_slip(const uint8_t *program, size_t program_length, const uint8_t *start,
                            size_t start_length, const uint8_t *record, size_t record_length,
                            uint8_t *slip, size_t slip_length, size_t *value);

/*
 * Reads a slip of a program with so many ranks. What is no slip of such a program is refused by 16;
 * then counts that are too few, by 15 with the entries needed.
 *
 *   ranks    N, the program's ranks
 *   slip     the slip's bytes; they may be any bytes, and are only read
 *   counts   gets for each rank, rank 1 first, how many command items it has; 0 for a rank that
 *            the slip does not name. `counts_length` is in entries, not in bytes.
 *   value    gets the count of entries filled, N, or, of a refusal, its place
 *
 * Returns 0 (LELLMUSU_ORDER) where the counts are filled.
 */
uint8_t lellmusu_read_slip(uint8_t ranks, const uint8_t *slip, size_t slip_length,
                           uint16_t *counts, size_t counts_length, size_t *value);

/*
 * Writes the listing of a run: a first line `order`, `ring` or `refused` with its numbers, then a
 * line for each group listed and for each cell that is not 0. Lines end in a line feed; no byte 0
 * is written behind the last.
 *
 *   text     gets the listing's bytes, from its first byte on
 *   value    gets the count of bytes written or, where the text is too short, the bytes needed
 *
 * Returns what lellmusu_check would with long enough lists: 0 for an order, 255 for a ring, or the
 * number of a refusal, whose place stands in the line that is written. Where the text does not fit
 * nothing is written, and 15 is returned.
 */
uint8_t lellmusu_list(const uint8_t *program, size_t program_length, const uint8_t *start,
                      size_t start_length, const uint8_t *record, size_t record_length,
                      uint8_t *text, size_t text_length, size_t *value);

/*
 * Writes the start of a run that begins with these cells: for each rank an eight-byte map of its
 * cells that are not 0, high byte first, cell 0 the lowest bit, then a two-byte value for each of
 * them, cells rising. The maps are always written, also where all cells are 0. The program is
 * refused as lellmusu_check refuses it, by 1 to 3; then a list that has too few entries, by 15 with
 * the entries needed, N x A; then a memory that is too short, by 15 with the bytes needed.
 *
 *   cells    the value of every cell, a list as lellmusu_check fills it; it is only read, and
 *            entries beyond N x A and an odd last byte are not looked at
 *   start    gets the start's bytes, from its first byte on
 *   value    gets the count of bytes written or, of a refusal, its place
 *
 * Returns 0 (LELLMUSU_ORDER) where the start is written.
 */
uint8_t lellmusu_write_start(const uint8_t *program, size_t program_length, const uint8_t *cells,
                             size_t cells_length, uint8_t *start, size_t start_length,
                             size_t *value);

/*
 * Reads a start of the program. The program is refused as lellmusu_check refuses it, by 1 to 3;
 * then what is no start of it, by 19; then a list that has too few entries, by 15 with the entries
 * needed, N x A.
 *
 *   start    the start's bytes; they may be any bytes, and are only read. No bytes at all are read
 *            as 0 in every cell
 *   cells    gets the value of every cell at the start, a list as lellmusu_check fills it
 *   value    gets the count of entries filled, N x A, or, of a refusal, its place
 *
 * Returns 0 (LELLMUSU_ORDER) where the list is filled.
 */
uint8_t lellmusu_read_start(const uint8_t *program, size_t program_length, const uint8_t *start,
                            size_t start_length, uint8_t *cells, size_t cells_length,
                            size_t *value);

#ifdef __cplusplus
}
#endif

#endif
