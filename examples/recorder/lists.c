#include "lists.h"

#include "neighbour.h"

uint16_t entry(const uint8_t *list, size_t index)
{
    return (uint16_t)(list[2 * index] << 8 | list[2 * index + 1]);
}

void set_entry(uint8_t *list, size_t index, uint16_t number)
{
    list[2 * index] = (uint8_t)(number >> 8);
    list[2 * index + 1] = (uint8_t)(number & 0xff);
}

struct place cell_of(size_t index)
{
    return (struct place){(uint8_t)(index / CELLS + 1), (uint16_t)(index % CELLS)};
}
