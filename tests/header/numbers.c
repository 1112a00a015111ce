/* Holds include/lellmusu.h to documents 01 and 02: each enumerator and each length to the papers'
 * number, and each function, called as it is declared, to what the papers say of run b and, once
 * for each number, of an input near it. Numbers are written out here, as the papers have them; no
 * enumerator stands for itself. `numbers names` prints the names that are held so, and `run` beside
 * this file compares them with the header's. Ends with 1 and a line for each thing that fails. */

#include <stdbool.h>
#include <stdio.h>
#include <string.h>

#include "lellmusu.h"

/* The limits: "item count, 0..1,024"; "N goes to 16" (#105); "A cells (1..64)". */
enum { ITEMS = 1024, RANKS = 16, CELLS = 64 };

/* The bytes of a text. */
#define BYTES(text) (sizeof text - 1)

/* A name with its number here, its number by the papers, and the papers' words for it. */
struct number {
    const char *name;
    unsigned long here, papers;
    const char *words;
};
#define IS(name, papers, words) {#name, name, papers, words}

/* Document 01 says that an answer is an order, a ring or a refusal, and numbers refusals only: 0
 * and 255 are for the two others, and are no refusal's. */
static const struct number results[] = {
    IS(LELLMUSU_ORDER, 0, "an order"),
    IS(LELLMUSU_PROGRAM_LENGTH, 1,
       "program ends early (place: its length), or bytes left over (first one)"),
    IS(LELLMUSU_PROGRAM_RANGE, 2, "header number, state or register outside its range"),
    IS(LELLMUSU_PROGRAM_FORM, 3,
       "unknown kind, then map not the kind's; unknown token; sixteenth token"),
    IS(LELLMUSU_RECORD_LENGTH, 4, "record ends early or has bytes left over, placed as in 1"),
    IS(LELLMUSU_RECORD_RANGE, 5,
       "item count above 1,024, or an item's rank, transition, queue or place outside its range"),
    IS(LELLMUSU_RECORD_FORM, 6, "item's unknown kind, then map not among its kind's"),
    IS(LELLMUSU_WRONG_TRANSITION, 7,
       "transition not from the rank's state, or of another kind"),
    IS(LELLMUSU_OPERAND_RANGE, 8,
       "evaluated own cell, remote rank, remote cell or queue outside its range"),
    IS(LELLMUSU_ASSUME_FAILS, 9, "assume gives 0"),
    IS(LELLMUSU_EMPTY_QUEUE, 10, "pop of an empty queue"),
    IS(LELLMUSU_ACCESS_DIFFERS, 11, "place or given value differs from the replay"),
    IS(LELLMUSU_BARRIER_ROW, 12,
       "bar whose rank is not the next of its row, or another item in an open row"),
    IS(LELLMUSU_QUEUES_LEFT, 13, "requests or deliveries left"),
    IS(LELLMUSU_ORDER_TOO_SHORT, 14, "order list shorter than the group count"),
    IS(LELLMUSU_MEMORY_TOO_SHORT, 15, "cell list, slip, counts or listing memory too short"),
    IS(LELLMUSU_SLIP_FORM, 16, "slip not as below"),
    IS(LELLMUSU_NO_VALUE, 18,
       "#102: a sum or product above 65,535 or a difference below 0 has no value any more"),
    IS(LELLMUSU_START_FORM, 19,
       "#103: a missing or left-over byte, a bit for a cell A or above, or a listed 0"),
    IS(LELLMUSU_RING, 255, "a ring"),
};

/* A listing has as many groups as items at most; each line is taken at its longest. */
static const struct number lengths[] = {
    IS(LELLMUSU_ORDER_BYTES, 2 * ITEMS, "two an entry, and an entry a group"),
    IS(LELLMUSU_CELLS_BYTES, 2 * RANKS * CELLS, "the first N x A entries"),
    IS(LELLMUSU_SLIP_BYTES, 2 + 2 * RANKS,
       "the rank map takes two bytes if N is above 8; for each a two-byte count"),
    IS(LELLMUSU_COUNTS, RANKS, "given N and fills N counts"),
    IS(LELLMUSU_LISTING_BYTES,
       BYTES("order 1024\n") + ITEMS * BYTES("group 1023 assume 16 1023\n") +
           RANKS * CELLS * BYTES("cell 16 63 65535\n"),
       "the count; then per group; then for each cell not 0"),
    IS(LELLMUSU_START_BYTES, RANKS * (8 + 2 * CELLS),
       "#103: for each rank an eight-byte map, then a two-byte value for each standing bit"),
};

/* Run b: its program and record, the lists that the check fills, its slip and its listing; and the
 * start with its last cells as readings. */
static const uint8_t program_b[] = {
    2, 2, 1, 1, 5, 4, 6, 2, 0, 1, 0, 0, 0, 2, 30, 6, 1, 2, 0, 0, 0, 17,
    0, 0, 3, 2, 0, 0, 1, 0, 0, 0, 0, 9, 2, 3, 3, 1, 3, 4, 0, 0, 0, 1,
};
static const uint8_t record_b[] = {
    0, 11, 27, 2, 1, 0, 1, 0, 0, 27, 2, 2, 0, 2, 0, 0, 3, 6, 1, 1, 3, 6, 2,
    1, 29, 7, 1, 0, 1, 0, 0, 29, 7, 2, 0, 2, 0, 0, 3, 9, 1, 2, 3, 9, 2, 2,
    59, 1, 1, 3, 1, 0, 1, 0, 0, 29, 8, 1, 0, 2, 0, 1, 29, 8, 2, 0, 1, 0, 1,
};
static const uint8_t ring[] = {0, 3, 0, 4, 0, 5};
static const uint8_t last[] = {0, 1, 0, 2, 0, 2, 0, 1};
static const uint8_t slip[] = {3, 0, 4, 0, 3};
static const uint16_t counts_b[] = {4, 3};
static const char listing[] = "ring 3\ngroup 3 write 2 3\ngroup 4 bar 0 6\ngroup 5 load 1 8\n"
                              "cell 1 0 1\ncell 1 1 2\ncell 2 0 2\ncell 2 1 1\n";
static const uint8_t start[] = {0, 0, 0, 0, 0, 0, 0, 3, 0, 1, 0, 2,
                                0, 0, 0, 0, 0, 0, 0, 3, 0, 2, 0, 1};
enum { GROUPS = 6 };

/* Run i: an assume of 0. Run c: run b with the load at the end, and the value 2. */
static const uint8_t program_i[] = {1, 1, 1, 1, 1, 1, 2, 4, 0, 0, 0, 0, 0};
static const uint8_t record_i[] = {0, 1, 3, 4, 1, 0};
static const uint8_t record_c[] = {
    0, 11, 27, 2, 1, 0, 1, 0, 0, 27, 2, 2, 0, 2, 0, 0, 3, 6, 1, 1, 3, 6, 2,
    1, 29, 7, 1, 0, 1, 0, 0, 29, 7, 2, 0, 2, 0, 0, 3, 9, 1, 2, 3, 9, 2, 2,
    29, 8, 1, 0, 2, 0, 1, 29, 8, 2, 0, 1, 0, 1, 59, 1, 1, 3, 1, 0, 1, 0, 2,
};

/* What is lent, and what it holds before a call; no answer here has this byte. */
enum { UNTOUCHED = 0xa5 };
static uint8_t memory[1000], cells[1000];
static size_t value;

/* Makes all that is lent fresh. */
static void refresh(void)
{
    memset(memory, UNTOUCHED, sizeof memory);
    memset(cells, UNTOUCHED, sizeof cells);
    value = SIZE_MAX;
}

/* Whether memory begins with these bytes and is untouched after them. */
static bool holds(const uint8_t *bytes, size_t size, const void *begin, size_t length)
{
    for (size_t i = length; i < size; i++) {
        if (bytes[i] != UNTOUCHED) {
            return false;
        }
    }
    return memcmp(bytes, begin, length) == 0;
}

/* Whether a call got this number and value and filled the first area with these bytes. */
static bool got(unsigned number, unsigned due, size_t value_due, const void *begin, size_t length)
{
    return number == due && value == value_due && holds(memory, sizeof memory, begin, length);
}

/* The functions on run b, each with memory just long enough and then too short: 15, or 14 for the
 * order list. */
#define RUN_B program_b, sizeof program_b, NULL, 0, record_b, sizeof record_b
static bool check(void)
{
    refresh();
    bool good = got(lellmusu_check(RUN_B, memory, 2 * GROUPS, cells, sizeof last, &value), 255, 3,
                    ring, sizeof ring) &&
                holds(cells, sizeof cells, last, sizeof last);
    refresh();
    good = good && got(lellmusu_check(RUN_B, memory, 2 * GROUPS - 1, cells, sizeof last, &value),
                       14, GROUPS, "", 0);
    good = good && got(lellmusu_check(RUN_B, memory, 2 * GROUPS, cells, sizeof last - 1, &value),
                       15, 4, "", 0);
    return good && holds(cells, sizeof cells, "", 0);
}

static bool write_slip(void)
{
    refresh();
    return got(lellmusu_write_slip(RUN_B, memory, sizeof slip - 1, &value), 15, 5, "", 0) &&
           got(lellmusu_write_slip(RUN_B, memory, sizeof slip, &value), 0, 5, slip, sizeof slip);
}

static bool read_slip(void)
{
    uint16_t counts[2] = {99, 99};
    return lellmusu_read_slip(2, slip, sizeof slip, counts, 1, &value) == 15 && value == 2 &&
           counts[0] == 99 && lellmusu_read_slip(2, slip, sizeof slip, counts, 2, &value) == 0 &&
           value == 2 && memcmp(counts, counts_b, sizeof counts_b) == 0;
}

static bool list(void)
{
    const size_t length = BYTES(listing);
    refresh();
    return got(lellmusu_list(RUN_B, memory, length - 1, &value), 15, length, "", 0) &&
           got(lellmusu_list(RUN_B, memory, length, &value), 255, length, listing, length);
}

#define PROGRAM_B program_b, sizeof program_b
static bool write_start(void)
{
    refresh();
    return got(lellmusu_write_start(PROGRAM_B, last, sizeof last - 1, memory, sizeof start, &value),
               15, 4, "", 0) &&
           got(lellmusu_write_start(PROGRAM_B, last, sizeof last, memory, sizeof start - 1, &value),
               15, 24, "", 0) &&
           got(lellmusu_write_start(PROGRAM_B, last, sizeof last, memory, sizeof start, &value), 0,
               24, start, sizeof start);
}

static bool read_start(void)
{
    refresh();
    return got(lellmusu_read_start(PROGRAM_B, start, sizeof start, memory, sizeof last - 1, &value),
               15, 4, "", 0) &&
           got(lellmusu_read_start(PROGRAM_B, start, sizeof start, memory, sizeof last, &value), 0,
               4, last, sizeof last);
}

/* The library's version is the header's, as one number. */
static bool version(void)
{
    return lellmusu_version() == LELLMUSU_VERSION_NUMBER &&
           LELLMUSU_VERSION_NUMBER == 10000 * LELLMUSU_VERSION_MAJOR + 100 * LELLMUSU_VERSION_MINOR +
                                          LELLMUSU_VERSION_PATCH;
}

/* The text is its three parts. */
static bool version_text(void)
{
    char text[32];
    snprintf(text, sizeof text, "%d.%d.%d", LELLMUSU_VERSION_MAJOR, LELLMUSU_VERSION_MINOR,
             LELLMUSU_VERSION_PATCH);
    return strcmp(text, LELLMUSU_VERSION) == 0;
}

/* The functions that the header declares, and its version. */
static const struct {
    const char *name;
    bool (*is_right)(void);
} functions[] = {
    {"lellmusu_check", check},
    {"lellmusu_write_slip", write_slip},
    {"lellmusu_read_slip", read_slip},
    {"lellmusu_list", list},
    {"lellmusu_write_start", write_start},
    {"lellmusu_read_start", read_start},
    /* The papers know no version: it is held to itself, part by part. */
    {"lellmusu_version", version},
    {"LELLMUSU_VERSION", version_text},
    {"LELLMUSU_VERSION_MAJOR", version_text},
    {"LELLMUSU_VERSION_MINOR", version_text},
    {"LELLMUSU_VERSION_PATCH", version_text},
    {"LELLMUSU_VERSION_NUMBER", version},
};

/* One byte of run b's program or record that is another. */
struct change {
    bool made;
    size_t at;
    uint8_t to;
};
#define TO(at, to) {true, at, to}

/* An input for each number that the check tells: its place by the papers, and how it differs from
 * run b. It is another's record, or program too; bytes are changed, or left out at the end; start
 * bytes are there; entries are left out of the lists. */
struct input {
    unsigned number;
    size_t value;
    const uint8_t *program, *record;
    size_t program_length, record_length;
    struct change in_program, in_record;
    size_t program_less, record_less, start_length, order_less, cells_less;
};
static const struct input inputs[] = {
    {.number = 0, .value = GROUPS, .record = record_c, .record_length = sizeof record_c},
    {.number = 1, .value = 43, .program_less = 1},
    {.number = 2, .value = 0, .in_program = TO(0, 17)},
    {.number = 3, .value = 7, .in_program = TO(7, 7)},
    {.number = 4, .value = 68, .record_less = 1},
    {.number = 5, .value = 4, .in_record = TO(4, 3)},
    {.number = 6, .value = 3, .in_record = TO(3, 0)},
    {.number = 7, .value = 0, .in_record = TO(5, 1)},
    /* the store's cell is 2 */
    {.number = 8, .value = 0, .in_program = TO(12, 2)},
    {.number = 9, .value = 0, .program = program_i, .program_length = sizeof program_i,
     .record = record_i, .record_length = sizeof record_i},
    /* the first popa is a popb */
    {.number = 10, .value = 4, .in_record = TO(25, 8)},
    /* the load gives 1 */
    {.number = 11, .value = 8, .in_record = TO(54, 1)},
    /* the first bar is rank 2's */
    {.number = 12, .value = 6, .in_record = TO(40, 2)},
    /* the last popb is left out */
    {.number = 13, .value = 10, .in_record = TO(1, 10), .record_less = 7},
    {.number = 14, .value = GROUPS, .order_less = 1},
    {.number = 15, .value = 4, .cells_less = 1},
    /* the write's rank is 0 - own rank */
    {.number = 18, .value = 2, .in_program = TO(24, 0)},
    {.number = 19, .value = 1, .start_length = 1},
    {.number = 255, .value = 3},
};

/* Copies bytes, with a change. */
static void change(uint8_t *to, const uint8_t *from, size_t length, struct change change)
{
    memcpy(to, from, length);
    if (change.made) {
        to[change.at] = change.to;
    }
}

/* Whether the check tells an input's number and value, and nothing else changes on a refusal; and
 * whether slip writer and listing, which look at no list, tell the same number. */
static bool is_told(const struct input *input)
{
    uint8_t program[sizeof program_b], record[sizeof record_b], none[1] = {0};
    const bool own = input->program == NULL;
    size_t program_length = own ? sizeof program_b : input->program_length;
    size_t record_length = input->record == NULL ? sizeof record_b : input->record_length;
    change(program, own ? program_b : input->program, program_length, input->in_program);
    change(record, input->record == NULL ? record_b : input->record, record_length,
           input->in_record);
    program_length -= input->program_less;
    record_length -= input->record_less;
    refresh();
    const unsigned told =
        lellmusu_check(program, program_length, none, input->start_length, record, record_length,
                       memory, 2 * (GROUPS - input->order_less), cells,
                       sizeof last - 2 * input->cells_less, &value);
    const bool of_lists = told == 14 || told == 15;
    const bool filled = told == 0 || told == 255;
    if (told != input->number || value != input->value ||
        (!filled && (!holds(memory, sizeof memory, "", 0) || !holds(cells, sizeof cells, "", 0)))) {
        return false;
    }
    const unsigned written =
        lellmusu_write_slip(program, program_length, none, input->start_length, record,
                            record_length, memory, sizeof memory, &value);
    const unsigned listed =
        lellmusu_list(program, program_length, none, input->start_length, record, record_length,
                      memory, sizeof memory, &value);
    return written == (filled || of_lists ? 0 : told) && listed == (of_lists ? 255 : told);
}

/* 16 is the slip reader's alone: a bit for rank 2 where N is 1, at byte 0. */
static bool is_16_told(void)
{
    uint16_t counts[1];
    return lellmusu_read_slip(1, slip, sizeof slip, counts, 1, &value) == 16 && value == 0;
}

/* Whether some input gets this number. */
static bool is_reached(unsigned long number)
{
    for (size_t i = 0; i < sizeof inputs / sizeof inputs[0]; i++) {
        if (inputs[i].number == number) {
            return is_told(&inputs[i]);
        }
    }
    return number == 16 && is_16_told();
}

/* Prints what fails, and counts it. */
static void hold(bool good, const char *what, const char *name, size_t *held, size_t *failed)
{
    *held += 1;
    if (!good) {
        printf("header: %s %s\n", name, what);
        *failed += 1;
    }
}

/* Holds a table's numbers to the papers', and says what the papers mean by one that differs. */
static void hold_all(const struct number *table, size_t count, size_t *held, size_t *failed)
{
    char what[200];
    for (size_t i = 0; i < count; i++) {
        snprintf(what, sizeof what, "is %lu and not %lu: %s", table[i].here, table[i].papers,
                 table[i].words);
        hold(table[i].here == table[i].papers, what, table[i].name, held, failed);
    }
}

enum {
    RESULTS = sizeof results / sizeof results[0],
    LENGTHS = sizeof lengths / sizeof lengths[0],
    FUNCTIONS = sizeof functions / sizeof functions[0]
};

int main(int words, char *word[])
{
    size_t held = 0, failed = 0;
    if (words == 2 && strcmp(word[1], "names") == 0) {
        for (size_t i = 0; i < RESULTS; i++) {
            puts(results[i].name);
        }
        for (size_t i = 0; i < LENGTHS; i++) {
            puts(lengths[i].name);
        }
        for (size_t i = 0; i < FUNCTIONS; i++) {
            puts(functions[i].name);
        }
        return 0;
    }
    hold_all(results, RESULTS, &held, &failed);
    hold_all(lengths, LENGTHS, &held, &failed);
    for (size_t i = 0; i < FUNCTIONS; i++) {
        hold(functions[i].is_right(), "is not as the papers say of run b", functions[i].name, &held,
             &failed);
    }
    for (size_t i = 0; i < RESULTS; i++) {
        hold(is_reached(results[i].papers), "is not what an input for it gets", results[i].name,
             &held, &failed);
    }
    printf("header: %zu of %zu numbers, lengths, functions and answers as the papers say\n",
           held - failed, held);
    return failed == 0 ? 0 : 1;
}
