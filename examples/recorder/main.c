/* Runs the neighbour program on threads from the gauges' readings, records the run, and asks the
 * library what it was. */

#include <stdbool.h>
#include <stddef.h>
#include <stdint.h>
#include <stdio.h>
#include <stdlib.h>
#include <string.h>

#include "lellmusu.h"
#include "lists.h"
#include "neighbour.h"
#include "readings.h"
#include "record.h"
#include "run.h"

/* What the program ends with. A refusal would mean that the recorder has a fault. */
enum { EXIT_ORDER = 0, EXIT_RING = 1, EXIT_REFUSED = 2, EXIT_UNABLE = 3 };

/* What the command line asks for. */
struct options {
    struct settings settings;
    /* The folder that the files go into, or null. */
    const char *folder;
};

/* Reads a decimal number from `least` to `most`. */
static bool read_number(const char *text, unsigned least, unsigned most, unsigned *number)
{
    char *end;
    if (text[0] < '0' || text[0] > '9') {
        return false;
    }
    const unsigned long read = strtoul(text, &end, 10);
    if (*end != '\0' || read < least || read > most) {
        return false;
    }
    *number = (unsigned)read;
    return true;
}

/* Reads the options after the number of ranks; false if they are not as the usage says. */
static bool read_flags(int count, char *words[], struct options *options)
{
    const unsigned most = most_rounds(options->settings.ranks);
    for (int i = 0; i < count; i++) {
        if (strcmp(words[i], "--delay") == 0) {
            options->settings.late = true;
        } else if (strcmp(words[i], "--rounds") == 0 && i + 1 < count) {
            if (!read_number(words[++i], 1, most, &options->settings.rounds)) {
                return false;
            }
        } else if (strcmp(words[i], "--save") == 0 && i + 1 < count) {
            options->folder = words[++i];
        } else {
            return false;
        }
    }
    return true;
}

/* Reads the command line; false if it is not as the usage says. */
static bool read_options(int count, char *words[], struct options *options)
{
    unsigned ranks;
    if (count < 2 || !read_number(words[1], FEWEST_RANKS, MOST_RANKS, &ranks)) {
        return false;
    }
    *options = (struct options){.settings = {.ranks = (uint8_t)ranks, .rounds = 1}};
    return read_flags(count - 2, words + 2, options);
}

/* Says how the program is called. */
static void print_usage(void)
{
    fprintf(stderr,
            "usage: recorder RANKS [--delay] [--rounds K] [--save DIR]\n"
            "  RANKS     2 to 16\n"
            "  --delay   transfers land late\n"
            "  --rounds  how often each rank goes through the program, 1 to %d / RANKS\n"
            "  --save    writes run.prg, run.sta and run.rec into this folder\n",
            MOST_ITEMS / ITEMS_A_ROUND);
}

/* Writes a file into a folder; false, with a message, if that fails. */
static bool save(const char *folder, const char *name, const uint8_t *bytes, size_t length)
{
    char path[4096];
    const int size = snprintf(path, sizeof path, "%s/%s", folder, name);
    FILE *file = size > 0 && (size_t)size < sizeof path ? fopen(path, "wb") : NULL;
    bool saved = false;
    if (file != NULL) {
        const bool written = fwrite(bytes, 1, length, file) == length;
        saved = fclose(file) == 0 && written;
    }
    if (!saved) {
        fprintf(stderr, "recorder: cannot write %s/%s\n", folder, name);
    }
    return saved;
}

/* Writes the files that the listing program reads. */
static bool save_run(const char *folder, const uint8_t *program, const struct start *start,
                     const struct record *record)
{
    return save(folder, "run.prg", program, PROGRAM_BYTES) &&
           save(folder, "run.sta", start->bytes, start->length) &&
           save(folder, "run.rec", record->bytes, record->length);
}

/* Prints the groups of an order or ring. */
static void print_groups(const uint8_t *order, size_t groups)
{
    for (size_t i = 0; i < groups; i++) {
        printf("group %u\n", (unsigned)entry(order, i));
    }
}

/* Prints each cell that is not 0 at the end. */
static void print_cells(unsigned ranks, const uint8_t *cells)
{
    for (size_t i = 0; i < ranks * CELLS; i++) {
        const struct place place = cell_of(i);
        const unsigned value = entry(cells, i);
        if (value != 0) {
            printf("cell %u %u %u\n", (unsigned)place.rank, (unsigned)place.cell, value);
        }
    }
}

/* Asks the library about a run, prints its answer, and gives the exit status for it. */
static int print_answer(const uint8_t *program, const struct start *start,
                        const struct record *record)
{
    uint8_t order[LELLMUSU_ORDER_BYTES];
    uint8_t cells[LELLMUSU_CELLS_BYTES];
    size_t value;
    const uint8_t answer =
        lellmusu_check(program, PROGRAM_BYTES, start->bytes, start->length, record->bytes,
                       record->length, order, sizeof order, cells, sizeof cells, &value);
    if (answer != LELLMUSU_ORDER && answer != LELLMUSU_RING) {
        printf("refused %u %zu\n", (unsigned)answer, value);
        return EXIT_REFUSED;
    }
    printf("%s %zu\n", answer == LELLMUSU_ORDER ? "order" : "ring", value);
    print_groups(order, value);
    print_cells(program[0], cells);
    print_readings(program[0], cells);
    return answer == LELLMUSU_ORDER ? EXIT_ORDER : EXIT_RING;
}

int main(int count, char *words[])
{
    struct options options;
    struct start start;
    struct record record;
    uint8_t program[PROGRAM_BYTES];
    uint8_t cells[LELLMUSU_CELLS_BYTES];
    if (!read_options(count, words, &options)) {
        print_usage();
        return EXIT_UNABLE;
    }
    neighbour_program(options.settings.ranks, program);
    take_readings(options.settings.ranks, cells);
    if (!write_start(program, cells, &start)) {
        fprintf(stderr, "recorder: the readings are refused\n");
        return EXIT_REFUSED;
    }
    if (!run_program(&options.settings, cells, &record)) {
        fprintf(stderr, "recorder: cannot make the threads\n");
        return EXIT_UNABLE;
    }
    if (options.folder != NULL && !save_run(options.folder, program, &start, &record)) {
        return EXIT_UNABLE;
    }
    return print_answer(program, &start, &record);
}
