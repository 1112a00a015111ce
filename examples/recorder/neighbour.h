/* The neighbour program: each rank loads its gauge's reading, stores it into its own cell, writes
 * that cell to the next rank, meets all others in a barrier, and loads what the rank before it has
 * sent. */
#ifndef NEIGHBOUR_H
#define NEIGHBOUR_H

#include <stddef.h>
#include <stdint.h>

/* How many ranks the program may have; a lone one has no neighbour. */
enum { FEWEST_RANKS = 2, MOST_RANKS = 16 };

/* The cells of each rank: its gauge's reading, which is there before the run begins, its own
 * height, and the height that it gets. */
enum { GAUGE_CELL, OWN_CELL, RECEIVED_CELL, CELLS };

/* The one queue of each rank. */
enum { QUEUE = 0 };

/* The transitions, in the order in which a rank takes them; after the last it may begin again. */
enum { LOAD_GAUGE, STORE_OWN, WRITE_NEXT, MEET, LOAD_RECEIVED, TRANSITIONS };

/* The items that one round of one rank comes to: its five commands, a popa and a popb. */
enum { ITEMS_A_ROUND = TRANSITIONS + 2 };

/* The program's length in bytes. */
enum { PROGRAM_BYTES = 57 };

/* Writes the program for so many ranks. */
void neighbour_program(uint8_t ranks, uint8_t bytes[PROGRAM_BYTES]);

/* The rank that a rank writes to: the next one, and after the last the first. */
uint8_t neighbour_of(uint8_t rank, uint8_t ranks);

#endif
