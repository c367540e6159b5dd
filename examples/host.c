/* A host over a real file, to copy from: a cache that is alone, and its world.
 *
 *   host FILE: the world, made anew
 *
 * A record's address is its place in the file. The index of sizes stands outside the cache, since a
 * protect names the size of a record that the cache may not have. Records are created, read, changed and
 * discarded at random, and a few writes and loads fail on purpose. At the end every record is read from the file.
 * docs/HOSTING.md says why each thing is done when it is. */
#define _XOPEN_SOURCE 700
#include "speldervacht.h"

#include <errno.h>
#include <fcntl.h>
#include <stdio.h>
#include <stdlib.h>
#include <string.h>
#include <unistd.h>

#define ROWS 8
#define TABLE SPELDERVACHT_TABLE_WORDS(ROWS)
#define ORDERS SPELDERVACHT_ORDER_WORDS(ROWS)
#define PLACES 40
#define PLACE_BYTES 2000
#define STEPS 5000
#define FAILING 500       /* of so many writes, and of so many loads, one fails on purpose */
#define FAILED UINT64_MAX /* beside the answers: an order failed, and all is as before the request */

static uint64_t table[TABLE], copy[TABLE], orders[ORDERS];
static int file;
static unsigned char *memory[PLACES];               /* the records that the cache has */
static uint64_t sizes[PLACES];                      /* the index: 0 where there is no record */
static unsigned char expected[PLACES][PLACE_BYTES]; /* each record as it was last changed */
static unsigned writes, loads, undone, records;

static void check(int good, const char *otherwise) {
    if (!good) {
        fprintf(stderr, "stopped: %s\n", otherwise);
        exit(1);
    }
}

static unsigned char *allocated(uint64_t size) {
    unsigned char *record = malloc(size);
    check(record != NULL, "no memory");
    return record;
}

static void forget(uint64_t address) {
    free(memory[address]);
    memory[address] = NULL;
}

/* ---- orders and requests */

/* Writes or loads one record: 0, or -1 and errno. */
static int transfer(uint64_t kind, uint64_t address, uint64_t size) {
    off_t place = (off_t)(address * PLACE_BYTES);
    ssize_t done;
    errno = EIO; /* where no call sets it: a short transfer, or one that fails on purpose */
    if (kind == SPELDERVACHT_LOAD) {
        memory[address] = allocated(size);
        done = ++loads % FAILING == 0 ? -1 : pread(file, memory[address], size, place);
    } else {
        done = ++writes % FAILING == 0 ? -1 : pwrite(file, memory[address], size, place);
    }
    return done == (ssize_t)size ? 0 : -1;
}

/* The orders that can fail. A flush is done once the disk has it. */
static int write_and_load(uint64_t count, int flush) {
    for (const uint64_t *order = orders; order < orders + 3 * count; order += 3) {
        if (order[0] != SPELDERVACHT_EVICT && transfer(order[0], order[1], order[2]) != 0) {
            return -1;
        }
    }
    return flush ? fsync(file) : 0;
}

static void forget_named(uint64_t kind, uint64_t count) {
    for (uint64_t i = 0; i < count; i++) {
        if (orders[3 * i] == kind) {
            forget(orders[3 * i + 1]);
        }
    }
}

/* Does a request and its orders, evictions last. If one fails, what was loaded goes and the copy of the
 * table is put back: nothing was evicted, so memory has what the copy says. What was written is dirty
 * again. */
static uint64_t request(uint64_t kind, uint64_t address, uint64_t size) {
    speldervacht_answer answer;
    memcpy(copy, table, sizeof table);
    answer = speldervacht_step(table, TABLE, orders, ORDERS, NULL, 0, speldervacht_request_of(kind, address, size));
    if (write_and_load(answer.orders, kind == SPELDERVACHT_FLUSH) != 0) {
        perror("an order failed");
        undone++;
        forget_named(SPELDERVACHT_LOAD, answer.orders);
        memcpy(table, copy, sizeof table);
        return FAILED;
    }
    forget_named(SPELDERVACHT_EVICT, answer.orders);
    return answer.number;
}

/* A request that is to be accepted, tried once more where an order failed. */
static void must(uint64_t kind, uint64_t address, uint64_t size) {
    uint64_t number = request(kind, address, size);
    if (number == FAILED) {
        number = request(kind, address, size);
    }
    check(number != FAILED, "an order failed again");
    check(number == SPELDERVACHT_ACCEPTED, speldervacht_text(number));
}

static void open_cache(void) {
    speldervacht_settings settings = speldervacht_default_settings(SPELDERVACHT_ALONE);
    speldervacht_answer answer;
    settings.initial = settings.smallest = settings.largest = 1900;
    settings.clean = 0.0;
    answer = speldervacht_open(table, TABLE, ROWS, SPELDERVACHT_ALONE, SPELDERVACHT_DEFAULT_THRESHOLD, settings);
    check(answer.number != SPELDERVACHT_BAD_SETTING, speldervacht_field(answer.field));
    check(answer.number == SPELDERVACHT_ACCEPTED, speldervacht_text(answer.number));
}

/* ---- records */

static unsigned char *new_contents(uint64_t address) {
    uint64_t most = rand() % 8 == 0 ? PLACE_BYTES : 300;
    sizes[address] = 1 + (uint64_t)rand() % most;
    memset(expected[address], rand() % 256, sizes[address]);
    return memcpy(allocated(sizes[address]), expected[address], sizes[address]);
}

static void create(uint64_t address) {
    unsigned char *record = new_contents(address);
    must(SPELDERVACHT_INSERT, address, sizes[address]);
    memory[address] = record; /* after the orders, which make room for it and never name it */
}

static void change(uint64_t address) {
    must(SPELDERVACHT_PROTECT_FOR_WRITING, address, sizes[address]);
    forget(address);
    memory[address] = new_contents(address); /* before the release, whose orders may write and evict it */
    must(SPELDERVACHT_RELEASE_CHANGED, address, sizes[address]);
}

static void look_at(uint64_t address) {
    must(SPELDERVACHT_PROTECT_FOR_READING, address, sizes[address]);
    check(memcmp(memory[address], expected[address], sizes[address]) == 0, "a record is not as it was last changed");
    must(SPELDERVACHT_RELEASE_UNCHANGED, address, 0); /* its orders may evict the record */
}

static void discard(uint64_t address) {
    must(SPELDERVACHT_DISCARD, address, 0);
    forget(address); /* no order says so */
    sizes[address] = 0;
}

static void play(void) {
    uint64_t address = (uint64_t)rand() % PLACES;
    int chance = rand() % 10;
    if (sizes[address] == 0) {
        create(address);
    } else if (chance < 1) {
        discard(address);
    } else if (chance < 4) {
        change(address);
    } else {
        look_at(address);
    }
}

/* All is written; then a fresh cache loads each record from the file. */
static void read_back(void) {
    must(SPELDERVACHT_FLUSH, 0, 0);
    for (uint64_t address = 0; address < PLACES; address++) {
        forget(address);
    }
    open_cache();
    for (uint64_t address = 0; address < PLACES; address++) {
        if (sizes[address] != 0) {
            look_at(address);
            records++;
            discard(address);
        }
    }
}

int main(int count, char **arguments) {
    file = count == 2 ? open(arguments[1], O_RDWR | O_CREAT | O_TRUNC, 0644) : -1;
    if (file < 0) {
        fprintf(stderr, "usage: host FILE, which can be written\n");
        return 2;
    }
    open_cache();
    for (int step = 0; step < STEPS; step++) {
        play();
    }
    read_back();
    printf("%u writes, %u loads, %u requests undone\n", writes, loads, undone);
    printf("%u records read back as they were last changed\n", records);
    return close(file) == 0 && undone != 0 ? 0 : 1;
}
