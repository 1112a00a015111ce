/* The gauges' readings: they are in the cells before the run begins. */
#ifndef READINGS_H
#define READINGS_H

#include <stdbool.h>
#include <stddef.h>
#include <stdint.h>

#include "lellmusu.h"

/* What rank 1's gauge reads, in millimetres, and how much more each further rank's reads than the
 * one before it, so that all differ. */
enum { FIRST_READING = 2314, MORE_A_RANK = 17 };

/* Start bytes (docs/FORMATS.md, "Start bytes"). */
struct start {
    size_t length;
    uint8_t bytes[LELLMUSU_START_BYTES];
};

/* Fills a list of cells with what is in them before the run: the reading in each rank's gauge cell,
 * and 0 in all others. */
void take_readings(unsigned ranks, uint8_t cells[LELLMUSU_CELLS_BYTES]);

/* Writes the start of a run of the program that begins with these cells. False if the library
 * refuses that. */
bool write_start(const uint8_t *program, const uint8_t cells[LELLMUSU_CELLS_BYTES],
                 struct start *start);

/* Prints for each rank its reading and which cells of a list hold it. */
void print_readings(unsigned ranks, const uint8_t *cells);

#endif
