/* Holds the library to what its header says of lent memory, on document 01's run b in a folder
 * given: memory that is just long enough, too short, odd or not there. Ends with 1 and a line for
 * each case that fails. */

#include <stdbool.h>
#include <stdio.h>
#include <string.h>

#include "lellmusu.h"

/* The groups of run b, its ring, and its last cells, as bytes of the two lists. */
enum { GROUPS = 6, RING = 3, CELLS = 4 };
static const uint8_t ring[2 * RING] = {0, 3, 0, 4, 0, 5};
static const uint8_t last[2 * CELLS] = {0, 1, 0, 2, 0, 2, 0, 1};

/* What every byte lent holds before a call; no byte of any answer here is this one. */
enum { UNTOUCHED = 0xa5 };

/* No start at all, and the start that has 0 in every cell, with a byte left over behind it. */
#define NONE NULL, 0
enum { ZEROS = 16 };
static const uint8_t zeros[ZEROS + 1] = {0};

/* A start with readings only in cells that run b writes before it reads them: rank 1's first cell
 * and both of rank 2. And one with a reading in the cell that item 8 loads as 0. */
static const uint8_t written_over[] = {0, 0, 0, 0, 0, 0, 0, 1, 9, 10,
                                       0, 0, 0, 0, 0, 0, 0, 3, 9, 27, 9, 44};
static const uint8_t loaded[] = {0, 0, 0, 0, 0, 0, 0, 2, 9, 10, 0, 0, 0, 0, 0, 0, 0, 0};
enum { WRITTEN_OVER = sizeof written_over, LOADED = sizeof loaded };

/* A start that lists a 0, and one with a bit for cell 63, each for rank 2. */
static const uint8_t listed_zero[] = {0, 0, 0, 0, 0, 0, 0, 0, 0, 0, 0, 0, 0, 0, 0, 1, 0, 0};
static const uint8_t beyond[] = {0, 0, 0, 0, 0, 0, 0, 0, 128, 0, 0, 0, 0, 0, 0, 0, 0, 1};
enum { LISTED_ZERO = sizeof listed_zero, BEYOND = sizeof beyond };

/* The slip of run b, its listing, and the listings of refusals: of the program without its last
 * byte, of the zero start without its last, and of the load. */
static const uint8_t slip[] = {0x03, 0, 4, 0, 3};
static const char listing[] = "ring 3\n"
                              "group 3 write 2 3\n"
                              "group 4 bar 0 6\n"
                              "group 5 load 1 8\n"
                              "cell 1 0 1\n"
                              "cell 1 1 2\n"
                              "cell 2 0 2\n"
                              "cell 2 1 1\n";
static const char refused[] = "refused 1 43\n";
static const char refused_start[] = "refused 19 15\n";
static const char refused_load[] = "refused 11 8\n";
enum {
    SLIP = sizeof slip,
    LISTING = sizeof listing - 1,
    REFUSED = sizeof refused - 1,
    REFUSED_START = sizeof refused_start - 1,
    REFUSED_LOAD = sizeof refused_load - 1
};

/* One call of the check: the start, the lengths of what is lent, and the answer due. */
struct call {
    size_t program_length;
    const uint8_t *start;
    size_t start_length, record_length, order_length, cells_length;
    uint8_t answer;
    size_t value;
};

/* The lengths of run b's two files. */
enum { PROGRAM = 44, RECORD = 69 };

static const struct call calls[] = {
    {PROGRAM, NONE, RECORD, LELLMUSU_ORDER_BYTES, LELLMUSU_CELLS_BYTES, LELLMUSU_RING, RING},
    {PROGRAM, NONE, RECORD, 2 * GROUPS, 2 * CELLS, LELLMUSU_RING, RING},
    {PROGRAM, NONE, RECORD, 2 * GROUPS + 1, 2 * CELLS + 1, LELLMUSU_RING, RING},
    {PROGRAM, NONE, RECORD, 2 * GROUPS - 1, 2 * CELLS, LELLMUSU_ORDER_TOO_SHORT, GROUPS},
    {PROGRAM, NONE, RECORD, 2 * GROUPS, 2 * CELLS - 1, LELLMUSU_MEMORY_TOO_SHORT, CELLS},
    {PROGRAM, NONE, RECORD, 0, 0, LELLMUSU_ORDER_TOO_SHORT, GROUPS},
    {PROGRAM, NONE, RECORD, 2 * GROUPS, 0, LELLMUSU_MEMORY_TOO_SHORT, CELLS},
    {PROGRAM, NONE, RECORD - 1, 2 * GROUPS, 2 * CELLS, LELLMUSU_RECORD_LENGTH, RECORD - 1},
    {PROGRAM, NONE, 0, 2 * GROUPS, 2 * CELLS, LELLMUSU_RECORD_LENGTH, 0},
    {PROGRAM - 1, NONE, RECORD, 2 * GROUPS, 2 * CELLS, LELLMUSU_PROGRAM_LENGTH, PROGRAM - 1},
    {0, NONE, RECORD, 2 * GROUPS, 2 * CELLS, LELLMUSU_PROGRAM_LENGTH, 0},
    {0, NONE, 0, 0, 0, LELLMUSU_PROGRAM_LENGTH, 0},
    /* Starts from which run b is accepted, and one from which it is not. */
    {PROGRAM, zeros, 0, RECORD, 2 * GROUPS, 2 * CELLS, LELLMUSU_RING, RING},
    {PROGRAM, zeros, ZEROS, RECORD, 2 * GROUPS, 2 * CELLS, LELLMUSU_RING, RING},
    {PROGRAM, written_over, WRITTEN_OVER, RECORD, 2 * GROUPS, 2 * CELLS, LELLMUSU_RING, RING},
    {PROGRAM, loaded, LOADED, RECORD, 2 * GROUPS, 2 * CELLS, LELLMUSU_ACCESS_DIFFERS, 8},
    {PROGRAM, loaded, LOADED, RECORD, 0, 0, LELLMUSU_ACCESS_DIFFERS, 8},
    /* What is no start: a byte missing, one left over, a listed 0, a bit for no cell; a missing
     * byte of a map comes before what is in it. */
    {PROGRAM, zeros, 1, RECORD, 2 * GROUPS, 2 * CELLS, LELLMUSU_START_FORM, 1},
    {PROGRAM, zeros, 8, RECORD, 2 * GROUPS, 2 * CELLS, LELLMUSU_START_FORM, 8},
    {PROGRAM, zeros, ZEROS - 1, RECORD, 2 * GROUPS, 2 * CELLS, LELLMUSU_START_FORM, ZEROS - 1},
    {PROGRAM, zeros, ZEROS + 1, RECORD, 2 * GROUPS, 2 * CELLS, LELLMUSU_START_FORM, ZEROS},
    {PROGRAM, listed_zero, LISTED_ZERO, RECORD, 2 * GROUPS, 2 * CELLS, LELLMUSU_START_FORM, 16},
    {PROGRAM, listed_zero, 17, RECORD, 2 * GROUPS, 2 * CELLS, LELLMUSU_START_FORM, 17},
    {PROGRAM, beyond, BEYOND, RECORD, 2 * GROUPS, 2 * CELLS, LELLMUSU_START_FORM, 8},
    {PROGRAM, beyond, 15, RECORD, 2 * GROUPS, 2 * CELLS, LELLMUSU_START_FORM, 15},
    /* It is told after the program's faults, and before the record's and the lists'. */
    {PROGRAM - 1, zeros, 1, RECORD, 2 * GROUPS, 2 * CELLS, LELLMUSU_PROGRAM_LENGTH, PROGRAM - 1},
    {0, zeros, 1, 0, 0, 0, LELLMUSU_PROGRAM_LENGTH, 0},
    {PROGRAM, zeros, 1, RECORD - 1, 2 * GROUPS, 2 * CELLS, LELLMUSU_START_FORM, 1},
    {PROGRAM, zeros, 1, 0, 0, 0, LELLMUSU_START_FORM, 1},
};

/* One call that fills one area from program, start and record: the start, the lengths of what is
 * lent, the answer due, and what the area begins with then. */
typedef uint8_t fills(const uint8_t *program, size_t program_length, const uint8_t *start,
                      size_t start_length, const uint8_t *record, size_t record_length,
                      uint8_t *memory, size_t memory_length, size_t *value);
struct filling {
    fills *function;
    size_t program_length;
    const uint8_t *start;
    size_t start_length, memory_length;
    uint8_t answer;
    size_t value;
    const void *bytes;
    size_t length;
};

static const struct filling fillings[] = {
    {lellmusu_write_slip, PROGRAM, NONE, LELLMUSU_SLIP_BYTES, LELLMUSU_ORDER, SLIP, slip, SLIP},
    {lellmusu_write_slip, PROGRAM, NONE, SLIP, LELLMUSU_ORDER, SLIP, slip, SLIP},
    {lellmusu_write_slip, PROGRAM, NONE, SLIP - 1, LELLMUSU_MEMORY_TOO_SHORT, SLIP, slip, 0},
    {lellmusu_write_slip, PROGRAM, NONE, 0, LELLMUSU_MEMORY_TOO_SHORT, SLIP, slip, 0},
    {lellmusu_write_slip, PROGRAM - 1, NONE, SLIP, LELLMUSU_PROGRAM_LENGTH, PROGRAM - 1, slip, 0},
    {lellmusu_write_slip, PROGRAM, zeros, ZEROS, SLIP, LELLMUSU_ORDER, SLIP, slip, SLIP},
    {lellmusu_write_slip, PROGRAM, written_over, WRITTEN_OVER, SLIP, LELLMUSU_ORDER, SLIP, slip,
     SLIP},
    {lellmusu_write_slip, PROGRAM, loaded, LOADED, SLIP, LELLMUSU_ACCESS_DIFFERS, 8, slip, 0},
    {lellmusu_write_slip, PROGRAM, zeros, 1, SLIP, LELLMUSU_START_FORM, 1, slip, 0},
    {lellmusu_write_slip, PROGRAM, zeros, 1, 0, LELLMUSU_START_FORM, 1, slip, 0},
    {lellmusu_write_slip, 0, zeros, 1, SLIP, LELLMUSU_PROGRAM_LENGTH, 0, slip, 0},
    {lellmusu_list, PROGRAM, NONE, LELLMUSU_LISTING_BYTES, LELLMUSU_RING, LISTING, listing,
     LISTING},
    {lellmusu_list, PROGRAM, NONE, LISTING, LELLMUSU_RING, LISTING, listing, LISTING},
    {lellmusu_list, PROGRAM, NONE, LISTING - 1, LELLMUSU_MEMORY_TOO_SHORT, LISTING, listing, 0},
    {lellmusu_list, PROGRAM, NONE, 0, LELLMUSU_MEMORY_TOO_SHORT, LISTING, listing, 0},
    {lellmusu_list, PROGRAM - 1, NONE, REFUSED, LELLMUSU_PROGRAM_LENGTH, REFUSED, refused,
     REFUSED},
    {lellmusu_list, PROGRAM - 1, NONE, REFUSED - 1, LELLMUSU_MEMORY_TOO_SHORT, REFUSED, refused,
     0},
    {lellmusu_list, PROGRAM, zeros, ZEROS, LISTING, LELLMUSU_RING, LISTING, listing, LISTING},
    {lellmusu_list, PROGRAM, loaded, LOADED, REFUSED_LOAD, LELLMUSU_ACCESS_DIFFERS, REFUSED_LOAD,
     refused_load, REFUSED_LOAD},
    {lellmusu_list, PROGRAM, zeros, ZEROS - 1, REFUSED_START, LELLMUSU_START_FORM, REFUSED_START,
     refused_start, REFUSED_START},
    {lellmusu_list, PROGRAM, zeros, ZEROS - 1, REFUSED_START - 1, LELLMUSU_MEMORY_TOO_SHORT,
     REFUSED_START, refused_start, 0},
    {lellmusu_list, PROGRAM - 1, zeros, ZEROS - 1, REFUSED, LELLMUSU_PROGRAM_LENGTH, REFUSED,
     refused, REFUSED},
};

/* A list of cells for run b's program, with an entry and an odd byte too many behind it, and its
 * start, with a byte left over behind it; and the start of run b's last cells. */
static const uint8_t gauges[] = {9, 10, 0, 0, 0, 0, 255, 255, 9, 27, 9};
static const uint8_t start[] = {0, 0, 0, 0, 0, 0, 0, 1, 9, 10,
                                0, 0, 0, 0, 0, 0, 0, 2, 255, 255, 0};
static const uint8_t last_start[] = {0, 0, 0, 0, 0, 0, 0, 3, 0, 1, 0, 2,
                                     0, 0, 0, 0, 0, 0, 0, 3, 0, 2, 0, 1};
enum { START = sizeof start - 1, LAST_START = sizeof last_start };

/* One call that makes a start from a list of cells, or the list from a start: what is given, the
 * lengths of what is lent, the answer due, and what the area begins with then. */
typedef uint8_t converts(const uint8_t *program, size_t program_length, const uint8_t *given,
                         size_t given_length, uint8_t *memory, size_t memory_length,
                         size_t *value);
struct conversion {
    converts *function;
    size_t program_length;
    const uint8_t *given;
    size_t given_length, memory_length;
    uint8_t answer;
    size_t value;
    const uint8_t *bytes;
    size_t length;
};

static const struct conversion conversions[] = {
    {lellmusu_write_start, PROGRAM, gauges, 2 * CELLS, START, LELLMUSU_ORDER, START, start, START},
    {lellmusu_write_start, PROGRAM, gauges, 2 * CELLS + 1, START + 1, LELLMUSU_ORDER, START, start,
     START},
    {lellmusu_write_start, PROGRAM, gauges, sizeof gauges, LELLMUSU_START_BYTES, LELLMUSU_ORDER,
     START, start, START},
    {lellmusu_write_start, PROGRAM, last, 2 * CELLS, LAST_START, LELLMUSU_ORDER, LAST_START,
     last_start, LAST_START},
    {lellmusu_write_start, PROGRAM, zeros, 2 * CELLS, ZEROS, LELLMUSU_ORDER, ZEROS, zeros, ZEROS},
    {lellmusu_write_start, PROGRAM, zeros, 2 * CELLS, ZEROS - 1, LELLMUSU_MEMORY_TOO_SHORT, ZEROS,
     zeros, 0},
    {lellmusu_write_start, PROGRAM, gauges, 2 * CELLS, START - 1, LELLMUSU_MEMORY_TOO_SHORT, START,
     start, 0},
    {lellmusu_write_start, PROGRAM, gauges, 2 * CELLS, 0, LELLMUSU_MEMORY_TOO_SHORT, START, start,
     0},
    {lellmusu_write_start, PROGRAM, gauges, 2 * CELLS - 1, START, LELLMUSU_MEMORY_TOO_SHORT, CELLS,
     start, 0},
    {lellmusu_write_start, PROGRAM, gauges, 2 * CELLS - 1, 0, LELLMUSU_MEMORY_TOO_SHORT, CELLS,
     start, 0},
    {lellmusu_write_start, PROGRAM, NONE, START, LELLMUSU_MEMORY_TOO_SHORT, CELLS, start, 0},
    {lellmusu_write_start, PROGRAM - 1, gauges, 2 * CELLS, START, LELLMUSU_PROGRAM_LENGTH,
     PROGRAM - 1, start, 0},
    {lellmusu_write_start, 0, NONE, 0, LELLMUSU_PROGRAM_LENGTH, 0, start, 0},
    {lellmusu_read_start, PROGRAM, start, START, 2 * CELLS, LELLMUSU_ORDER, CELLS, gauges,
     2 * CELLS},
    {lellmusu_read_start, PROGRAM, start, START, 2 * CELLS + 1, LELLMUSU_ORDER, CELLS, gauges,
     2 * CELLS},
    {lellmusu_read_start, PROGRAM, start, START, LELLMUSU_CELLS_BYTES, LELLMUSU_ORDER, CELLS,
     gauges, 2 * CELLS},
    {lellmusu_read_start, PROGRAM, last_start, LAST_START, 2 * CELLS, LELLMUSU_ORDER, CELLS, last,
     2 * CELLS},
    {lellmusu_read_start, PROGRAM, zeros, ZEROS, 2 * CELLS, LELLMUSU_ORDER, CELLS, zeros,
     2 * CELLS},
    {lellmusu_read_start, PROGRAM, NONE, 2 * CELLS, LELLMUSU_ORDER, CELLS, zeros, 2 * CELLS},
    {lellmusu_read_start, PROGRAM, start, START, 2 * CELLS - 1, LELLMUSU_MEMORY_TOO_SHORT, CELLS,
     gauges, 0},
    {lellmusu_read_start, PROGRAM, start, START, 0, LELLMUSU_MEMORY_TOO_SHORT, CELLS, gauges, 0},
    {lellmusu_read_start, PROGRAM, NONE, 0, LELLMUSU_MEMORY_TOO_SHORT, CELLS, gauges, 0},
    {lellmusu_read_start, PROGRAM, start, START - 1, 2 * CELLS, LELLMUSU_START_FORM, START - 1,
     gauges, 0},
    {lellmusu_read_start, PROGRAM, start, START + 1, 2 * CELLS, LELLMUSU_START_FORM, START, gauges,
     0},
    {lellmusu_read_start, PROGRAM, listed_zero, LISTED_ZERO, 2 * CELLS, LELLMUSU_START_FORM, 16,
     gauges, 0},
    {lellmusu_read_start, PROGRAM, beyond, BEYOND, 0, LELLMUSU_START_FORM, 8, gauges, 0},
    {lellmusu_read_start, PROGRAM - 1, zeros, 1, 2 * CELLS, LELLMUSU_PROGRAM_LENGTH, PROGRAM - 1,
     gauges, 0},
    {lellmusu_read_start, 0, NONE, 0, LELLMUSU_PROGRAM_LENGTH, 0, gauges, 0},
};

/* One call of the slip reader on run b's slip: for how many ranks, how much of the slip, how many
 * counts are lent, and the answer due. */
struct reading {
    uint8_t ranks;
    size_t slip_length, counts_length;
    uint8_t answer;
    size_t value;
};

static const struct reading readings[] = {
    {2, SLIP, 2, LELLMUSU_ORDER, 2},
    {8, SLIP, LELLMUSU_COUNTS, LELLMUSU_ORDER, 8},
    {2, SLIP, 1, LELLMUSU_MEMORY_TOO_SHORT, 2},
    {2, SLIP, 0, LELLMUSU_MEMORY_TOO_SHORT, 2},
    {1, SLIP, 1, LELLMUSU_SLIP_FORM, 0},
    {9, SLIP, LELLMUSU_COUNTS, LELLMUSU_SLIP_FORM, 0},
    {10, SLIP, LELLMUSU_COUNTS, LELLMUSU_SLIP_FORM, SLIP},
    {17, SLIP, LELLMUSU_COUNTS, LELLMUSU_SLIP_FORM, 0},
    {2, SLIP - 1, 2, LELLMUSU_SLIP_FORM, SLIP - 1},
    {2, 0, 0, LELLMUSU_SLIP_FORM, 0},
};

/* Whether memory begins with these bytes and is untouched after them. */
static bool holds(const uint8_t *list, size_t size, const void *bytes, size_t length)
{
    for (size_t i = length; i < size; i++) {
        if (list[i] != UNTOUCHED) {
            return false;
        }
    }
    return memcmp(list, bytes, length) == 0;
}

/* The pointer, or null for an empty area. */
static uint8_t *area(uint8_t *bytes, size_t length)
{
    return length == 0 ? NULL : bytes;
}

/* Makes one call of the check, and tells whether all came as it should. */
static bool checks(const struct call *call, uint8_t *program, uint8_t *record)
{
    uint8_t order[LELLMUSU_ORDER_BYTES];
    uint8_t cells[LELLMUSU_CELLS_BYTES];
    size_t value = SIZE_MAX;
    memset(order, UNTOUCHED, sizeof order);
    memset(cells, UNTOUCHED, sizeof cells);
    const uint8_t answer = lellmusu_check(
        area(program, call->program_length), call->program_length,
        call->start, call->start_length,
        area(record, call->record_length), call->record_length,
        area(order, call->order_length), call->order_length,
        area(cells, call->cells_length), call->cells_length, &value);
    const bool accepted = answer == LELLMUSU_RING;
    return answer == call->answer && value == call->value &&
           holds(order, sizeof order, ring, accepted ? sizeof ring : 0) &&
           holds(cells, sizeof cells, last, accepted ? sizeof last : 0);
}

/* The same for a call that fills one area. */
static bool fills_well(const struct filling *call, uint8_t *program, uint8_t *record)
{
    uint8_t memory[LELLMUSU_LISTING_BYTES];
    size_t value = SIZE_MAX;
    memset(memory, UNTOUCHED, sizeof memory);
    const uint8_t answer = call->function(
        area(program, call->program_length), call->program_length,
        call->start, call->start_length, record, RECORD,
        area(memory, call->memory_length), call->memory_length, &value);
    return answer == call->answer && value == call->value &&
           holds(memory, sizeof memory, call->bytes, call->length);
}

/* The same for a start that is written or read. */
static bool converts_well(const struct conversion *call, uint8_t *program)
{
    uint8_t memory[LELLMUSU_START_BYTES];
    size_t value = SIZE_MAX;
    memset(memory, UNTOUCHED, sizeof memory);
    const uint8_t answer = call->function(
        area(program, call->program_length), call->program_length,
        call->given, call->given_length,
        area(memory, call->memory_length), call->memory_length, &value);
    return answer == call->answer && value == call->value &&
           holds(memory, sizeof memory, call->bytes, call->length);
}

/* The same for the slip reader: the counts of ranks 1 and 2, and 0 for the others. */
static bool reads_well(const struct reading *call)
{
    uint16_t counts[LELLMUSU_COUNTS], due[LELLMUSU_COUNTS];
    uint8_t bytes[SLIP];
    size_t value = SIZE_MAX;
    memcpy(bytes, slip, sizeof bytes);
    memset(counts, UNTOUCHED, sizeof counts);
    memset(due, UNTOUCHED, sizeof due);
    if (call->answer == LELLMUSU_ORDER) {
        memset(due, 0, call->ranks * sizeof due[0]);
        due[0] = 4;
        due[1] = 3;
    }
    const uint8_t answer =
        lellmusu_read_slip(call->ranks, area(bytes, call->slip_length), call->slip_length,
                           call->counts_length == 0 ? NULL : counts, call->counts_length, &value);
    return answer == call->answer && value == call->value &&
           memcmp(counts, due, sizeof due) == 0;
}

/* Counts a call, and says so if it fails. */
static void count(bool passes, const char *function, size_t number, size_t *calls, size_t *failed)
{
    *calls += 1;
    if (!passes) {
        printf("lent: call %zu of %s fails\n", number, function);
        *failed += 1;
    }
}

/* Reads a file of just that length. */
static bool read_file(const char *folder, const char *name, uint8_t *bytes, size_t length)
{
    char path[4096];
    snprintf(path, sizeof path, "%s/%s", folder, name);
    FILE *file = fopen(path, "rb");
    if (file == NULL) {
        return false;
    }
    const bool read = fread(bytes, 1, length, file) == length && fgetc(file) == EOF;
    fclose(file);
    return read;
}

int main(int words, char *word[])
{
    uint8_t program[PROGRAM];
    uint8_t record[RECORD];
    size_t made = 0, failed = 0;
    if (words != 2 || !read_file(word[1], "run.prg", program, sizeof program) ||
        !read_file(word[1], "run.rec", record, sizeof record)) {
        fprintf(stderr, "usage: lent FOLDER, with run.prg and run.rec of run b\n");
        return 1;
    }
    for (size_t i = 0; i < sizeof calls / sizeof calls[0]; i++) {
        count(checks(&calls[i], program, record), "the check", i, &made, &failed);
    }
    for (size_t i = 0; i < sizeof fillings / sizeof fillings[0]; i++) {
        count(fills_well(&fillings[i], program, record), "writers", i, &made, &failed);
    }
    for (size_t i = 0; i < sizeof readings / sizeof readings[0]; i++) {
        count(reads_well(&readings[i]), "the slip reader", i, &made, &failed);
    }
    for (size_t i = 0; i < sizeof conversions / sizeof conversions[0]; i++) {
        count(converts_well(&conversions[i], program), "starts", i, &made, &failed);
    }
    printf("lent memory: %zu of %zu calls as the header says\n", made - failed, made);
    return failed == 0 ? 0 : 1;
}
