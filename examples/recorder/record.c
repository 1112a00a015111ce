#include "record.h"

#include <assert.h>
#include <string.h>

/* An item's map has a bit for each field that stands in it, and the fields follow in bit order. */
enum {
    HAS_RANK = 1 << 0,
    HAS_TRANSITION = 1 << 1,
    HAS_QUEUE = 1 << 2,
    HAS_PLACE = 1 << 3 | 1 << 4,
    HAS_VALUE = 1 << 5
};

/* The two bytes of a number, of which the high one goes first. */
static uint8_t high(uint16_t number)
{
    return (uint8_t)(number >> 8);
}

static uint8_t low(uint16_t number)
{
    return (uint8_t)(number & 0xff);
}

/* Appends an item of these bytes, and counts it. */
static void append(struct record *record, const uint8_t *item, size_t length)
{
    assert(record->items < MOST_ITEMS && length <= MOST_ITEM_BYTES);
    memcpy(record->bytes + record->length, item, length);
    record->length += length;
    record->items++;
    record->bytes[0] = high(record->items);
    record->bytes[1] = low(record->items);
}

/* Appends an item with a place and a value; `third` is the transition or the queue, as the map
 * says. */
static void append_access(struct record *record, uint8_t map, enum kind kind, uint8_t rank,
                          uint8_t third, struct place place, uint16_t value)
{
    const uint8_t item[] = {
        map, (uint8_t)kind, rank, third, place.rank,
        high(place.cell), low(place.cell), high(value), low(value),
    };
    append(record, item, sizeof item);
}

void record_begin(struct record *record)
{
    record->items = 0;
    record->length = 2;
    record->bytes[0] = 0;
    record->bytes[1] = 0;
}

void record_command(struct record *record, enum kind kind, uint8_t rank, uint8_t transition)
{
    const uint8_t item[] = {HAS_RANK | HAS_TRANSITION, (uint8_t)kind, rank, transition};
    append(record, item, sizeof item);
}

void record_access(struct record *record, enum kind kind, uint8_t rank, uint8_t transition,
                   struct place place, uint16_t value)
{
    const uint8_t map = HAS_RANK | HAS_TRANSITION | HAS_PLACE | HAS_VALUE;
    append_access(record, map, kind, rank, transition, place, value);
}

void record_pop(struct record *record, enum kind kind, uint8_t rank, uint8_t queue,
                struct place place, uint16_t value)
{
    const uint8_t map = HAS_RANK | HAS_QUEUE | HAS_PLACE | HAS_VALUE;
    append_access(record, map, kind, rank, queue, place, value);
}
