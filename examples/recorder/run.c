/* Each rank is a thread, and each rank has a second thread, its carrier, which plays the network
 * and carries the rank's transfers out. A step is taken while one lock is held, and its item is
 * appended to the record before the lock is let go: so the record has the items in the order in
 * which the steps happened, and each value is what the step found in memory. */

/* C11 alone has neither threads of POSIX nor nanosleep. */
#define _POSIX_C_SOURCE 200809L

#include "run.h"

#include <pthread.h>
#include <time.h>

#include "lists.h"
#include "neighbour.h"

/* The most rounds of any number of ranks. */
enum { MOST_ROUNDS = MOST_ITEMS / (FEWEST_RANKS * ITEMS_A_ROUND) };

/* How long a rank is busy between its write and the barrier, in which most transfers land, and how
 * long a late carrier lingers before each of its two steps, so that most do not. */
enum { BUSY_MICROSECONDS = 200, LATE_MICROSECONDS = 500 };

/* A transfer that waits for its popa. */
struct request {
    struct place source;
    struct place destination;
};

/* A transfer that waits for its popb. */
struct delivery {
    struct place destination;
    uint16_t value;
};

/* What a rank has. */
struct rank {
    uint16_t cells[CELLS];
    /* Its register, where loads go. */
    uint16_t loaded;
    /* Its queue: all its requests, how many were issued, and how many of these were fetched. */
    struct request requests[MOST_ROUNDS];
    unsigned issued;
    unsigned fetched;
    /* Whether it has taken its last command. */
    bool done;
};

/* What the threads share; the lock is held by whoever looks at it, but for the settings. */
struct run {
    struct settings settings;
    pthread_mutex_t lock;
    /* Told to all when there is a request, when a barrier ends, and when a rank is done. */
    pthread_cond_t news;
    /* Whether all threads could be made. */
    bool complete;
    /* Rank r is at r - 1. */
    struct rank ranks[MOST_RANKS];
    /* The ranks that wait in the present barrier, and the barriers that have ended. */
    unsigned waiting;
    unsigned barriers;
    struct record *record;
};

/* What one thread is to do, and for which rank. */
struct worker {
    struct run *run;
    uint8_t rank;
    void (*task)(struct run *run, uint8_t rank);
};

unsigned most_rounds(uint8_t ranks)
{
    return MOST_ITEMS / (ranks * (unsigned)ITEMS_A_ROUND);
}

/* Lets time pass; a signal may cut it short, which does no harm. */
static void pass_time(long microseconds)
{
    const struct timespec time = {.tv_sec = 0, .tv_nsec = microseconds * 1000};
    nanosleep(&time, NULL);
}

/* A rank by its number. */
static struct rank *rank_of(struct run *run, uint8_t rank)
{
    return &run->ranks[rank - 1];
}

/* The memory of a cell. */
static uint16_t *cell_at(struct run *run, struct place place)
{
    return &rank_of(run, place.rank)->cells[place.cell];
}

/* Puts the values of a list of cells into memory, before any step. */
static void put_cells(struct run *run, const uint8_t *cells)
{
    for (size_t i = 0; i < run->settings.ranks * (unsigned)CELLS; i++) {
        *cell_at(run, cell_of(i)) = entry(cells, i);
    }
}

/* A load: what is in one of the rank's cells, into its register. */
static void load(struct run *run, uint8_t rank, uint8_t transition, uint16_t cell)
{
    const struct place place = {rank, cell};
    pthread_mutex_lock(&run->lock);
    const uint16_t value = *cell_at(run, place);
    rank_of(run, rank)->loaded = value;
    record_access(run->record, KIND_LOAD, rank, transition, place, value);
    pthread_mutex_unlock(&run->lock);
}

/* The store: what was loaded, into the rank's own cell. */
static void store_own(struct run *run, uint8_t rank)
{
    const struct place place = {rank, OWN_CELL};
    pthread_mutex_lock(&run->lock);
    const uint16_t value = rank_of(run, rank)->loaded;
    *cell_at(run, place) = value;
    record_access(run->record, KIND_STORE, rank, STORE_OWN, place, value);
    pthread_mutex_unlock(&run->lock);
}

/* The write: a request for the rank's carrier. It touches no cell yet. */
static void write_next(struct run *run, uint8_t rank)
{
    const struct request request = {
        .source = {rank, OWN_CELL},
        .destination = {neighbour_of(rank, run->settings.ranks), RECEIVED_CELL},
    };
    pthread_mutex_lock(&run->lock);
    struct rank *own = rank_of(run, rank);
    own->requests[own->issued++] = request;
    record_command(run->record, KIND_WRITE, rank, WRITE_NEXT);
    pthread_cond_broadcast(&run->news);
    pthread_mutex_unlock(&run->lock);
}

/* The barrier's row, which is the step of all ranks at once. The last rank to arrive appends it
 * whole, since nothing may stand inside a row. That is right for the others too: none of them has
 * taken a step since it arrived, so its bar still comes next after its last command. Steps of
 * carriers may come before and after the row as they like, for a barrier waits for no transfer. */
static void record_row(struct run *run)
{
    for (uint8_t rank = 1; rank <= run->settings.ranks; rank++) {
        record_command(run->record, KIND_BAR, rank, MEET);
    }
}

/* The barrier: returns when all ranks have arrived in it. */
static void meet(struct run *run)
{
    pthread_mutex_lock(&run->lock);
    const unsigned present = run->barriers;
    run->waiting++;
    if (run->waiting == run->settings.ranks) {
        record_row(run);
        run->waiting = 0;
        run->barriers++;
        pthread_cond_broadcast(&run->news);
    }
    while (run->barriers == present) {
        pthread_cond_wait(&run->news, &run->lock);
    }
    pthread_mutex_unlock(&run->lock);
}

/* Tells the rank's carrier that no request will follow. */
static void finish(struct run *run, uint8_t rank)
{
    pthread_mutex_lock(&run->lock);
    rank_of(run, rank)->done = true;
    pthread_cond_broadcast(&run->news);
    pthread_mutex_unlock(&run->lock);
}

/* A rank's thread: the program's body, round after round. */
static void compute(struct run *run, uint8_t rank)
{
    for (unsigned round = 0; round < run->settings.rounds; round++) {
        load(run, rank, LOAD_GAUGE, GAUGE_CELL);
        store_own(run, rank);
        write_next(run, rank);
        pass_time(BUSY_MICROSECONDS);
        meet(run);
        load(run, rank, LOAD_RECEIVED, RECEIVED_CELL);
    }
    finish(run, rank);
}

/* Waits for a request of that rank; false if none is left and none will come. */
static bool await_request(struct run *run, uint8_t rank)
{
    const struct rank *own = rank_of(run, rank);
    pthread_mutex_lock(&run->lock);
    while (own->fetched == own->issued && !own->done) {
        pthread_cond_wait(&run->news, &run->lock);
    }
    const bool there = own->fetched < own->issued;
    pthread_mutex_unlock(&run->lock);
    return there;
}

/* The popa: takes the oldest request and reads its source cell. */
static struct delivery fetch(struct run *run, uint8_t rank)
{
    pthread_mutex_lock(&run->lock);
    struct rank *own = rank_of(run, rank);
    const struct request request = own->requests[own->fetched++];
    const uint16_t value = *cell_at(run, request.source);
    record_pop(run->record, KIND_POPA, rank, QUEUE, request.source, value);
    pthread_mutex_unlock(&run->lock);
    return (struct delivery){request.destination, value};
}

/* The popb: writes what was fetched into its destination. */
static void deliver(struct run *run, uint8_t rank, struct delivery delivery)
{
    pthread_mutex_lock(&run->lock);
    *cell_at(run, delivery.destination) = delivery.value;
    record_pop(run->record, KIND_POPB, rank, QUEUE, delivery.destination, delivery.value);
    pthread_mutex_unlock(&run->lock);
}

/* The network's slowness, before each of its steps. */
static void linger(const struct run *run)
{
    if (run->settings.late) {
        pass_time(LATE_MICROSECONDS);
    }
}

/* A carrier's thread. It ends when its rank is done and all transfers are delivered, so that the
 * record ends with empty queues. */
static void carry(struct run *run, uint8_t rank)
{
    while (await_request(run, rank)) {
        linger(run);
        const struct delivery delivery = fetch(run, rank);
        linger(run);
        deliver(run, rank, delivery);
    }
}

/* What every thread begins with: the lock is free once it is known whether all could be made. */
static void *work(void *argument)
{
    const struct worker *worker = argument;
    struct run *run = worker->run;
    pthread_mutex_lock(&run->lock);
    const bool complete = run->complete;
    pthread_mutex_unlock(&run->lock);
    if (complete) {
        worker->task(run, worker->rank);
    }
    return NULL;
}

/* Makes the two threads of each rank, and tells how many of them could be made. */
static unsigned make_threads(struct run *run, struct worker workers[], pthread_t threads[])
{
    const unsigned wanted = 2u * run->settings.ranks;
    for (unsigned i = 0; i < wanted; i++) {
        workers[i].run = run;
        workers[i].rank = (uint8_t)(i / 2 + 1);
        workers[i].task = i % 2 == 0 ? compute : carry;
        if (pthread_create(&threads[i], NULL, work, &workers[i]) != 0) {
            return i;
        }
    }
    return wanted;
}

bool run_program(const struct settings *settings, const uint8_t *cells, struct record *record)
{
    struct run run = {.settings = *settings, .record = record};
    struct worker workers[2 * MOST_RANKS];
    pthread_t threads[2 * MOST_RANKS];
    put_cells(&run, cells);
    record_begin(record);
    /* With default attributes these two do not fail where threads can be made at all. */
    pthread_mutex_init(&run.lock, NULL);
    pthread_cond_init(&run.news, NULL);
    pthread_mutex_lock(&run.lock);
    const unsigned made = make_threads(&run, workers, threads);
    run.complete = made == 2u * settings->ranks;
    pthread_mutex_unlock(&run.lock);
    for (unsigned i = 0; i < made; i++) {
        pthread_join(threads[i], NULL);
    }
    pthread_cond_destroy(&run.news);
    pthread_mutex_destroy(&run.lock);
    return run.complete;
}
