/* The library's lists: two bytes an entry, the high one first (docs/RECORDER.md, "What to
 * lend"). */
#ifndef LISTS_H
#define LISTS_H

#include <stddef.h>
#include <stdint.h>

#include "record.h"

/* An entry of a list. */
uint16_t entry(const uint8_t *list, size_t index);

/* Makes an entry of a list this number. */
void set_entry(uint8_t *list, size_t index, uint16_t number);

/* The cell that an entry of a list of cells is for: rank 1's cells first, each rank's rising. */
struct place cell_of(size_t index);

#endif
