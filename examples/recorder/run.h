/* A run of the neighbour program on real threads, recorded as it goes. */
#ifndef RUN_H
#define RUN_H

#include <stdbool.h>
#include <stdint.h>

#include "record.h"

/* How the program is run. */
struct settings {
    /* The number of ranks. */
    uint8_t ranks;
    /* How often each rank goes through the program's body. */
    unsigned rounds;
    /* Whether transfers land late. */
    bool late;
};

/* The most rounds whose record has no more than MOST_ITEMS items. */
unsigned most_rounds(uint8_t ranks);

/* Runs the program from the values in a list of cells, and fills the record. False if its threads
 * could not be made; then no step was taken. */
bool run_program(const struct settings *settings, const uint8_t *cells, struct record *record);

#endif
