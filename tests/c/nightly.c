/* A night of the backup host, as the program `nightly` plays it: alone, the minimum clean fraction 0.3 named,
 * all else by default. Its orders are those that the program has stored. Also compiles as C++.
 *
 *   nightly FILE: the orders, one a line
 */
#include "expect.h"
#include "speldervacht.h"

#include <inttypes.h>
#include <string.h>

#define ROWS 64
#define TABLE SPELDERVACHT_TABLE_WORDS(ROWS)
#define ORDERS SPELDERVACHT_ORDER_WORDS(ROWS)

/* How many times a record is looked at in a night, and how many records are looked at often. */
#define VISITS 400
#define OFTEN 31

static uint64_t table[TABLE], orders[ORDERS];

/* The stored orders, or NULL where none are compared. */
static FILE *stored;
static unsigned given, written;

/* The next line of the file is this order. */
static void expect_order(const uint64_t *order) {
    static const char *const kinds[] = {"?", "write", "evict", "load"};
    char line[80], wanted[80];
    given++;
    written += order[0] == SPELDERVACHT_WRITE;
    if (stored == NULL) {
        return;
    }
    snprintf(line, sizeof line, "%s %" PRIu64 " %" PRIu64 "\n", kinds[order[0]], order[1], order[2]);
    if (fgets(wanted, sizeof wanted, stored) == NULL) {
        wanted[0] = 0;
    }
    if (strcmp(line, wanted) != 0) {
        printf("order %u is %sand stored is %s\n", given, line, wanted);
        failures++;
    }
}

static void ask(uint64_t kind, uint64_t address, uint64_t size) {
    speldervacht_answer answer = speldervacht_step(table, TABLE, orders, ORDERS, NULL, 0,
                                                   speldervacht_request_of(kind, address, size));
    expect(answer.number == SPELDERVACHT_ACCEPTED, "a request of the night");
    for (uint64_t i = 0; i < answer.orders; i++) {
        expect_order(orders + 3 * i);
    }
}

/* The record of a visit; every eighth visit is to one of those looked at seldom. */
static uint64_t record(uint64_t visit) {
    return visit % 8 == 7 ? 40 + visit % 64 : visit % VISITS * 7919 % 104729 % OFTEN;
}

/* Goes through the records, changes every third that it looks at, and flushes at the end. */
static void night(speldervacht_settings settings) {
    given = written = 0;
    expect(speldervacht_open(table, TABLE, ROWS, SPELDERVACHT_ALONE, SPELDERVACHT_DEFAULT_THRESHOLD, settings)
                   .number == SPELDERVACHT_ACCEPTED,
           "opening");
    for (uint64_t visit = 0; visit < VISITS; visit++) {
        uint64_t address = record(visit), size = 20000 + address % 10000 * 7919 % 90001;
        ask(SPELDERVACHT_PROTECT_FOR_WRITING, address, size);
        ask(visit % 3 == 0 ? SPELDERVACHT_RELEASE_CHANGED : SPELDERVACHT_RELEASE_UNCHANGED, address, size);
    }
    ask(SPELDERVACHT_FLUSH, 0, 0);
}

int main(int count, char **arguments) {
    speldervacht_settings settings = speldervacht_default_settings(SPELDERVACHT_ALONE);
    unsigned written_named;
    stored = count == 2 ? fopen(arguments[1], "r") : NULL;
    if (stored == NULL) {
        printf("usage: nightly FILE, with the orders that the program `nightly` prints\n");
        return 2;
    }
    settings.clean = 0.3;
    night(settings);
    expect(fgetc(stored) == EOF, "no order is stored that was not given");
    fclose(stored);
    stored = NULL;
    written_named = written;
    night(speldervacht_default_settings(SPELDERVACHT_ALONE));
    expect(written < written_named, "with the default fraction less is written");
    printf("%u writes with a clean fraction of 0.3, %u with the default\n", written_named, written);
    return outcome("the night's orders are the stored ones");
}
