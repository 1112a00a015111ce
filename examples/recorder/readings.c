#include "readings.h"

#include <stdio.h>

#include "lists.h"
#include "neighbour.h"

/* What a rank's gauge reads. */
static uint16_t reading_of(unsigned rank)
{
    return (uint16_t)(FIRST_READING + (rank - 1) * MORE_A_RANK);
}

void take_readings(unsigned ranks, uint8_t cells[LELLMUSU_CELLS_BYTES])
{
    for (size_t i = 0; i < ranks * CELLS; i++) {
        const struct place place = cell_of(i);
        set_entry(cells, i, place.cell == GAUGE_CELL ? reading_of(place.rank) : 0);
    }
}

bool write_start(const uint8_t *program, const uint8_t cells[LELLMUSU_CELLS_BYTES],
                 struct start *start)
{
    const uint8_t answer =
        lellmusu_write_start(program, PROGRAM_BYTES, cells, LELLMUSU_CELLS_BYTES, start->bytes,
                             sizeof start->bytes, &start->length);
    return answer == LELLMUSU_ORDER;
}

/* Prints each cell of a list that holds this value. */
static void print_holders(unsigned ranks, const uint8_t *cells, uint16_t value)
{
    for (size_t i = 0; i < ranks * CELLS; i++) {
        if (entry(cells, i) == value) {
            const struct place place = cell_of(i);
            printf(" %u.%u", (unsigned)place.rank, (unsigned)place.cell);
        }
    }
}

void print_readings(unsigned ranks, const uint8_t *cells)
{
    for (unsigned rank = 1; rank <= ranks; rank++) {
        printf("reading %u %u in", rank, (unsigned)reading_of(rank));
        print_holders(ranks, cells, reading_of(rank));
        printf("\n");
    }
}
