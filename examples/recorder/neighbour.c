#include "neighbour.h"

#include <string.h>

#include "record.h"

/* The maps of the transitions, which say what fields follow. */
enum { MAP_LOAD = 0x03, MAP_STORE = 0x06, MAP_WRITE = 0x1e, MAP_BAR = 0x00 };

/* Tokens of expressions, as far as they are needed; two operands follow those from SUM on. */
enum { OWN_RANK = 0x02, ALL_RANKS = 0x03, SUM = 0x10, PRODUCT = 0x12, LESS = 0x14 };

/* A constant below 256, and a register's value. */
#define CONSTANT(number) 0x00, 0x00, number
#define REGISTER(number) 0x01, number

/* The one register of each rank, where loads go. */
enum { LOADED = 0 };

/* The program's bytes but for the first, the number of ranks. There is no remainder among the
 * operators, so the rank written to is 1 + own rank * (own rank < N): for the last rank the
 * comparison gives 0. */
static const uint8_t after_ranks[] = {
    /* Cells, registers, queues, states, transitions. */
    CELLS, 1, 1, 5, TRANSITIONS,
    /* LOAD_GAUGE, from state 0 to 1: the gauge's reading into the register. */
    MAP_LOAD, KIND_LOAD, 0, 1, LOADED, CONSTANT(GAUGE_CELL),
    /* STORE_OWN, from state 1 to 2: the own cell takes what was loaded. */
    MAP_STORE, KIND_STORE, 1, 2, CONSTANT(OWN_CELL), REGISTER(LOADED),
    /* WRITE_NEXT, from state 2 to 3: the own cell to the next rank's, on the queue. */
    MAP_WRITE, KIND_WRITE, 2, 3, CONSTANT(OWN_CELL),
    SUM, CONSTANT(1), PRODUCT, OWN_RANK, LESS, OWN_RANK, ALL_RANKS,
    CONSTANT(RECEIVED_CELL), CONSTANT(QUEUE),
    /* MEET, from state 3 to 4. */
    MAP_BAR, KIND_BAR, 3, 4,
    /* LOAD_RECEIVED, from state 4 to 0, so that a further round may follow: into the register. */
    MAP_LOAD, KIND_LOAD, 4, 0, LOADED, CONSTANT(RECEIVED_CELL),
};

_Static_assert(1 + sizeof after_ranks == PROGRAM_BYTES, "PROGRAM_BYTES is the program's length");

void neighbour_program(uint8_t ranks, uint8_t bytes[PROGRAM_BYTES])
{
    bytes[0] = ranks;
    memcpy(bytes + 1, after_ranks, sizeof after_ranks);
}

uint8_t neighbour_of(uint8_t rank, uint8_t ranks)
{
    return (uint8_t)(rank % ranks + 1);
}
