/* Worked cases and bad input through the C interface. Also compiles as C++. */
#include "expect.h"
#include "speldervacht.h"
#include "step.h"

#include <string.h>

#define ROWS 4
#define TABLE SPELDERVACHT_TABLE_WORDS(ROWS)
#define ORDERS SPELDERVACHT_ORDER_WORDS(ROWS)

static uint64_t table[TABLE];
static uint64_t orders[ORDERS];

static speldervacht_answer step(uint64_t kind, uint64_t address, uint64_t size) {
    return checked_step(table, TABLE, orders, ORDERS, NULL, 0, speldervacht_request_of(kind, address, size));
}

static uint64_t told_with(speldervacht_request request, size_t table_words, size_t order_words) {
    return checked_ask(table, table_words, order_words, NULL, 0, request).number;
}

static int order_is(int at, uint64_t kind, uint64_t address, uint64_t size) {
    return orders[3 * at] == kind && orders[3 * at + 1] == address && orders[3 * at + 2] == size;
}

static speldervacht_settings small_settings(void) {
    speldervacht_settings settings = speldervacht_default_settings(SPELDERVACHT_ALONE);
    settings.initial = 4096;
    settings.clean = 0.0;
    settings.largest = 16384;
    settings.smallest = 1024;
    settings.increase_kind = SPELDERVACHT_INCREASE_OFF;
    settings.flash_kind = SPELDERVACHT_FLASH_OFF;
    settings.decrease_kind = SPELDERVACHT_DECREASE_OFF;
    return settings;
}

static uint64_t open_with(uint64_t mode, speldervacht_settings settings) {
    return speldervacht_open(table, TABLE, ROWS, mode, SPELDERVACHT_DEFAULT_THRESHOLD, settings).number;
}

static uint64_t open_small(uint64_t mode) {
    return open_with(mode, small_settings());
}

/* Whether a report is refused, and has no figure but 0. */
static int is_refused(speldervacht_figures told) {
    speldervacht_figures refused;
    memset(&refused, 0, sizeof refused);
    refused.number = SPELDERVACHT_BAD_TABLE;
    return memcmp(&told, &refused, sizeof told) == 0;
}

static void three_inserts(void) {
    speldervacht_answer answer;
    speldervacht_figures figures;
    expect(open_small(SPELDERVACHT_ALONE) == SPELDERVACHT_ACCEPTED, "opening");
    expect(step(SPELDERVACHT_INSERT, 100, 3000).orders == 0, "the first insert gives no orders");
    expect(step(SPELDERVACHT_INSERT, 200, 1000).orders == 0, "the second insert gives no orders");
    answer = step(SPELDERVACHT_INSERT, 300, 500);
    expect(answer.number == SPELDERVACHT_ACCEPTED && answer.orders == 3, "the third insert gives three");
    expect(order_is(0, SPELDERVACHT_WRITE, 100, 3000), "write 100 3000");
    expect(order_is(1, SPELDERVACHT_WRITE, 200, 1000), "write 200 1000");
    expect(order_is(2, SPELDERVACHT_EVICT, 100, 3000), "evict 100 3000");
    figures = speldervacht_report(table, TABLE);
    expect(figures.number == 0 && figures.held == 1500 && figures.dirty == 500, "1,500 held, 500 dirty");
    expect(figures.entries == 2 && figures.maximum == 4096 && figures.totals[0] == 1500, "the other figures");
}

static void one_entry(void) {
    expect(open_small(SPELDERVACHT_ALONE) == SPELDERVACHT_ACCEPTED, "opening");
    expect(step(SPELDERVACHT_PROTECT_FOR_WRITING, 100, 10).orders == 1 && order_is(0, SPELDERVACHT_LOAD, 100, 10),
           "load 100 10");
    expect(step(SPELDERVACHT_PROTECT_FOR_READING, 100, 10).number == SPELDERVACHT_HELD, "held for writing");
    expect(step(SPELDERVACHT_RESIZE, 100, 20).number == SPELDERVACHT_ACCEPTED, "resize");
    expect(speldervacht_report(table, TABLE).dirty == 20, "20 dirty");
    expect(step(SPELDERVACHT_PIN, 100, 0).number == SPELDERVACHT_ACCEPTED, "pin");
    expect(step(SPELDERVACHT_RELEASE_CHANGED, 100, 30).number == SPELDERVACHT_ACCEPTED, "release changed");
    expect(step(SPELDERVACHT_DISCARD, 100, 0).number == SPELDERVACHT_PIN_FORBIDS, "discard of a pinned entry");
    expect(step(SPELDERVACHT_UNPIN, 100, 0).number == SPELDERVACHT_ACCEPTED, "unpin");
    expect(step(SPELDERVACHT_FLUSH, 0, 0).orders == 1 && order_is(0, SPELDERVACHT_WRITE, 100, 30), "write 100 30");
    step(SPELDERVACHT_PROTECT_FOR_READING, 100, 10);
    expect(step(SPELDERVACHT_PROTECT_FOR_READING, 100, 10).number == SPELDERVACHT_ACCEPTED, "two readers");
    step(SPELDERVACHT_RELEASE_UNCHANGED, 100, 0);
    expect(step(SPELDERVACHT_DISCARD, 100, 0).number == SPELDERVACHT_HELD, "one reader left");
    step(SPELDERVACHT_RELEASE_UNCHANGED, 100, 0);
    expect(step(SPELDERVACHT_DISCARD, 100, 0).number == SPELDERVACHT_ACCEPTED, "discard");
    expect(speldervacht_report(table, TABLE).entries == 0, "no entries");
}

/* Which words a rule's kind reads shows in the table. */
static void rule_kinds(void) {
    speldervacht_settings settings = speldervacht_default_settings(SPELDERVACHT_LEAD);
    expect(open_small(SPELDERVACHT_LEAD) == SPELDERVACHT_ACCEPTED, "opening with no rules");
    expect(table[17] == 0 && table[22] == 0 && table[25] == 0, "no increase, no flash, no decrease");
    settings.increment_kind = settings.decrement_kind = SPELDERVACHT_NO_CAP;
    settings.decrease_multiplier = 0.5;
    settings.decrease_kind = SPELDERVACHT_DECREASE_BY_THRESHOLD;
    expect(speldervacht_open(table, TABLE, ROWS, SPELDERVACHT_LEAD, 1, settings).number == SPELDERVACHT_ACCEPTED,
           "opening with a decrease by threshold");
    expect(table[26] != 0 && table[27] == 0 && table[28] != 0, "upper rate and multiplier");
    expect(table[21] == 0 && table[30] == 0, "no caps");
    settings.decrease_kind = SPELDERVACHT_DECREASE_BY_AGE_OUT;
    expect(speldervacht_open(table, TABLE, ROWS, SPELDERVACHT_LEAD, 1, settings).number == SPELDERVACHT_ACCEPTED,
           "opening with an age-out");
    expect(table[26] == 0 && table[27] == 3 && table[28] != 0, "epochs and reserve");
}

static void refusals(void) {
    speldervacht_request configure = speldervacht_request_of(SPELDERVACHT_CONFIGURE, 0, 0);
    speldervacht_answer answer;
    uint64_t before[TABLE];
    memcpy(before, table, sizeof table);
    expect(step(SPELDERVACHT_INSERT, SPELDERVACHT_NO_ADDRESS, 0).number == SPELDERVACHT_BAD_ADDRESS, "3");
    expect(step(SPELDERVACHT_INSERT, 1, 0).number == SPELDERVACHT_BAD_SIZE, "4");
    expect(step(SPELDERVACHT_SYNC, 0, 0).number == SPELDERVACHT_BAD_MODE, "5");
    expect(step(14, 0, 0).number == SPELDERVACHT_BAD_MODE, "an unknown kind");
    expect(step(SPELDERVACHT_PIN, 1, 0).number == SPELDERVACHT_NOT_IN_CACHE, "6");
    expect(step(SPELDERVACHT_INSERT, 200, 1).number == SPELDERVACHT_IN_CACHE, "7");
    expect(step(SPELDERVACHT_RELEASE_CHANGED, 200, 1).number == SPELDERVACHT_NOT_HELD, "9");
    expect(step(SPELDERVACHT_UNPIN, 200, 0).number == SPELDERVACHT_PIN_FORBIDS, "10");
    configure.settings = small_settings();
    configure.settings.decrement_kind = 7;
    answer = checked_step(table, TABLE, orders, ORDERS, NULL, 0, configure);
    expect(answer.number == SPELDERVACHT_BAD_SETTING && answer.field == 12, "12, field 12");
    answer = checked_step(table, TABLE, NULL, 0, NULL, 0, configure);
    expect(answer.number == SPELDERVACHT_FEW_ORDER_WORDS && answer.field == 0, "2");
    expect(checked_step(NULL, 0, NULL, 0, NULL, 0, configure).number == SPELDERVACHT_BAD_TABLE, "1");
    expect(checked_step(table, TABLE - 1, orders, ORDERS, NULL, 0, configure).number == SPELDERVACHT_BAD_TABLE,
           "a request on a short table");
    expect(is_refused(speldervacht_report(NULL, 0)), "the report of nothing");
    expect(is_refused(speldervacht_report(table, TABLE - 1)), "a short table");
    expect(speldervacht_open(table, TABLE - 1, ROWS, 0, 1, small_settings()).number == SPELDERVACHT_BAD_TABLE,
           "opening a short table");
    expect(open_small(3) == SPELDERVACHT_BAD_MODE, "opening in an unknown mode");
    expect(memcmp(before, table, sizeof table) == 0, "refusals change nothing");
    table[6]++;
    expect(step(SPELDERVACHT_DISCARD, 1, 0).number == SPELDERVACHT_BAD_TABLE, "more hits than accesses");
    table[6]--;
    expect(step(SPELDERVACHT_DISCARD, 1, 0).number == SPELDERVACHT_ACCEPTED, "the table as it was");
}

/* What is told of a take of the first list. */
static uint64_t told_of_take(const uint64_t *list, size_t length) {
    uint8_t message[SPELDERVACHT_MESSAGE_BYTES(ROWS)];
    size_t bytes = speldervacht_write_message(message, sizeof message, 1, list, length).bytes;
    return checked_ask(table, TABLE, 0, message, bytes, speldervacht_request_of(SPELDERVACHT_TAKE, 0, 0)).number;
}

/* Requests that are asked about and not done. */
static void asking(void) {
    const uint64_t unknown[] = {0, SPELDERVACHT_CONFIGURE + 1, UINT64_MAX};
    const uint64_t twice[] = {100, 100};
    speldervacht_request insert = speldervacht_request_of(SPELDERVACHT_INSERT, 200, 10);
    speldervacht_request pin = speldervacht_request_of(SPELDERVACHT_PIN, 100, 0);
    speldervacht_request configure = speldervacht_request_of(SPELDERVACHT_CONFIGURE, 0, 0);
    speldervacht_verdict verdict;
    expect(open_small(SPELDERVACHT_STANDBY) == SPELDERVACHT_ACCEPTED, "opening a standby");
    step(SPELDERVACHT_INSERT, 100, 10);
    expect(told_with(insert, TABLE, 0) == SPELDERVACHT_FEW_ORDER_WORDS, "an insert with no order words");
    expect(told_with(insert, TABLE, ORDERS - 1) == SPELDERVACHT_FEW_ORDER_WORDS, "with one too few");
    expect(told_with(insert, TABLE, ORDERS) == SPELDERVACHT_ACCEPTED, "with enough");
    expect(told_with(insert, TABLE, SIZE_MAX) == SPELDERVACHT_ACCEPTED, "with more");
    expect(told_with(pin, TABLE, 0) == SPELDERVACHT_NOT_HELD, "a pin, which needs none");
    expect(told_with(insert, TABLE - 1, ORDERS) == SPELDERVACHT_BAD_TABLE, "a short table");
    expect(told_with(insert, 0, ORDERS) == SPELDERVACHT_BAD_TABLE, "no table");
    expect(told_of_take(twice, 1) == SPELDERVACHT_ACCEPTED, "a list");
    expect(told_of_take(twice, 2) == SPELDERVACHT_BAD_LIST, "an address twice");
    configure.settings = small_settings();
    expect(told_with(configure, TABLE, ORDERS) == SPELDERVACHT_ACCEPTED, "settings");
    configure.settings.epoch = SPELDERVACHT_SHORTEST_EPOCH - 1;
    verdict = checked_ask(table, TABLE, ORDERS, NULL, 0, configure);
    expect(verdict.number == SPELDERVACHT_BAD_SETTING && verdict.field == 7, "a bad setting and its field");
    for (size_t i = 0; i < sizeof unknown / sizeof unknown[0]; i++) {
        speldervacht_request request = speldervacht_request_of(unknown[i], 100, 10);
        expect(told_with(request, TABLE, ORDERS) == SPELDERVACHT_BAD_MODE, "an unknown kind");
        expect(told_with(request, TABLE - 1, ORDERS) == SPELDERVACHT_BAD_TABLE, "one of a short table");
    }
    table[6]++;
    for (uint64_t kind = 0; kind <= SPELDERVACHT_CONFIGURE + 1; kind++) {
        speldervacht_request request = speldervacht_request_of(kind, 100, 10);
        expect(told_with(request, TABLE, ORDERS) == SPELDERVACHT_BAD_TABLE, "more hits than accesses");
    }
    table[6]--;
    expect(step(SPELDERVACHT_INSERT, 200, 10).number == SPELDERVACHT_ACCEPTED, "what was told is done");
}

static void everything_is_told(void) {
    for (size_t number = 0; number <= LAST_NUMBER; number++) {
        expect(told[number] != 0, "each number is told");
    }
    for (size_t kind = 1; kind <= SPELDERVACHT_CONFIGURE; kind++) {
        expect(told_yes[kind] != 0, "a yes to each kind is told");
    }
}

static void lists(void) {
    const uint64_t list[2] = {100, 200};
    const uint8_t wrong = 9;
    speldervacht_request take = speldervacht_request_of(SPELDERVACHT_TAKE, 0, 0);
    expect(open_small(SPELDERVACHT_STANDBY) == SPELDERVACHT_ACCEPTED, "opening a standby");
    step(SPELDERVACHT_INSERT, 100, 10);
    expect(checked_take(table, TABLE, 1, list, 2) == SPELDERVACHT_BAD_LIST, "13");
    step(SPELDERVACHT_INSERT, 200, 20);
    expect(speldervacht_report(table, TABLE).dirty == 30, "30 dirty");
    expect(checked_step(table, TABLE, NULL, 0, NULL, 0, take).number == SPELDERVACHT_CUT_MESSAGE, "14");
    expect(checked_step(table, TABLE, NULL, 0, &wrong, 1, take).number == SPELDERVACHT_BAD_MESSAGE, "15");
    expect(checked_take(table, TABLE, 2, list, 2) == SPELDERVACHT_WRONG_NUMBER, "16");
    expect(checked_take(table, TABLE, 1, list, 2) == SPELDERVACHT_ACCEPTED, "a list");
    expect(speldervacht_report(table, TABLE).dirty == 0, "none dirty");
    expect(open_small(SPELDERVACHT_LEAD) == SPELDERVACHT_ACCEPTED, "opening a lead");
    for (uint64_t address = 1; address <= ROWS; address++) {
        step(SPELDERVACHT_INSERT, address, 10);
    }
    expect(step(SPELDERVACHT_INSERT, 5, 10).number == SPELDERVACHT_NO_ROW, "11");
    expect(step(SPELDERVACHT_SYNC, 0, 0).number == SPELDERVACHT_ACCEPTED, "sync");
    expect(step(SPELDERVACHT_FLUSH, 0, 0).orders == ROWS, "flush");
    expect(step(SPELDERVACHT_INSERT, 5, 10).number == SPELDERVACHT_ACCEPTED, "a row again");
}

/* ---- missing clean bytes */

/* A fresh cache of 4,096 bytes, half of which are to be clean or unused. */
static void open_sharing(uint64_t mode, uint64_t evictions) {
    speldervacht_settings settings = small_settings();
    settings.evictions = evictions;
    settings.clean = 0.5;
    expect(open_with(mode, settings) == SPELDERVACHT_ACCEPTED, "opening with a clean fraction");
}

static void expect_missing(uint64_t missing, const char *what) {
    speldervacht_figures figures = speldervacht_report(table, TABLE);
    expect(figures.number == SPELDERVACHT_ACCEPTED && figures.clean == 2048 && figures.missing == missing, what);
}

/* A record at 100 that is clean: it is inserted, and written or named by the first message. */
static void insert_clean(uint64_t mode, uint64_t size) {
    const uint64_t list[] = {100};
    step(SPELDERVACHT_INSERT, 100, size);
    if (mode == SPELDERVACHT_STANDBY) {
        expect(checked_take(table, TABLE, 1, list, 1) == SPELDERVACHT_ACCEPTED, "a list with one record");
    } else {
        expect(step(SPELDERVACHT_FLUSH, 0, 0).orders == 1, "a flush of one record");
    }
}

static void missing(uint64_t mode, uint64_t evictions) {
    speldervacht_figures figures;
    open_sharing(mode, evictions);
    expect_missing(0, "an empty cache");
    step(SPELDERVACHT_INSERT, 100, 3000);
    expect_missing(952, "a dirty record");
    table[6]++;
    expect(is_refused(speldervacht_report(table, TABLE)), "more hits than accesses");
    open_sharing(mode, evictions);
    insert_clean(mode, 3000);
    expect_missing(0, "a clean record");
    open_sharing(mode, evictions);
    step(SPELDERVACHT_INSERT, 100, 3000);
    step(SPELDERVACHT_PROTECT_FOR_WRITING, 100, 3000);
    step(SPELDERVACHT_INSERT, 200, 2000);
    figures = speldervacht_report(table, TABLE);
    expect(figures.held == 5000 && figures.dirty == 5000, "5,000 held, all of them dirty");
    expect_missing(2048, "held bytes above the maximum: none is unused");
    for (uint64_t clean = 2047; clean <= 2048; clean++) {
        open_sharing(mode, evictions);
        insert_clean(mode, clean);
        step(SPELDERVACHT_INSERT, 200, 4096 - clean);
        expect_missing(2048 - clean, "held bytes at the maximum: a byte too few, and enough");
    }
    open_sharing(mode, evictions);
    step(SPELDERVACHT_PROTECT_FOR_READING, 100, 3000);
    expect_missing(952, "a clean record that is held");
    step(SPELDERVACHT_PIN, 100, 0);
    step(SPELDERVACHT_RELEASE_UNCHANGED, 100, 0);
    expect_missing(952, "a clean record that is pinned");
    step(SPELDERVACHT_UNPIN, 100, 0);
    expect_missing(0, "a clean record in the recency list");
}

static void missing_in_each_mode(void) {
    for (uint64_t mode = SPELDERVACHT_ALONE; mode <= SPELDERVACHT_STANDBY; mode++) {
        missing(mode, 1);
        missing(mode, 0);
    }
}

/* A sync writes from the tail until none is missing. */
static void sync_by_missing(void) {
    for (uint64_t tail = 951; tail <= 952; tail++) {
        open_sharing(SPELDERVACHT_LEAD, 1);
        step(SPELDERVACHT_INSERT, 100, tail);
        step(SPELDERVACHT_INSERT, 200, 1000);
        step(SPELDERVACHT_INSERT, 300, 2000 - tail);
        expect_missing(952, "three dirty records");
        expect(step(SPELDERVACHT_SYNC, 0, 0).orders == 953 - tail, "two are written, or one if it is enough");
        expect_missing(0, "after a sync");
    }
}

/* The words of a report, in the order of the struct. */
static void figure_words(void) {
    const uint64_t expected[21] = {0, 4000, 3000, 2, 4096, 2048, 1952, 3000, 0, 2, 4000};
    speldervacht_figures figures;
    open_sharing(SPELDERVACHT_LEAD, 1);
    step(SPELDERVACHT_SYNC, 0, 0);
    step(SPELDERVACHT_INSERT, 100, 3000);
    step(SPELDERVACHT_PROTECT_FOR_READING, 200, 1000);
    figures = speldervacht_report(table, TABLE);
    expect(sizeof figures == sizeof expected && memcmp(&figures, expected, sizeof expected) == 0, "21 words");
}

/* ---- full */

#define ACCESSES 5 /* where a table has the accesses of this epoch */
#define EXCEEDED 9 /* where it has whether making room found the maximum exceeded */
#define EPOCH SPELDERVACHT_SHORTEST_EPOCH
#define POOR 89 /* hits of an epoch: below 0.9 of its accesses */

/* The maximum doubles at the end of an epoch with less than 90 hits of 100 accesses, if the cache is full. */
static speldervacht_settings growing_settings(void) {
    speldervacht_settings settings = small_settings();
    settings.epoch = EPOCH;
    settings.increase_kind = SPELDERVACHT_INCREASE_BY_THRESHOLD;
    settings.increase_lower = 0.9;
    settings.increase_multiplier = 2.0;
    settings.increment_kind = SPELDERVACHT_NO_CAP;
    return settings;
}

/* A fresh cache, whatever the table's words were. */
static void open_fresh(uint64_t mode, speldervacht_settings settings) {
    memset(table, 0xff, sizeof table);
    expect(open_with(mode, settings) == SPELDERVACHT_ACCEPTED, "opening over all ones");
    expect(table[EXCEEDED] == 0, "a fresh cache was not exceeded");
}

static uint64_t configure(speldervacht_settings settings) {
    speldervacht_request request = speldervacht_request_of(SPELDERVACHT_CONFIGURE, 0, 0);
    request.settings = settings;
    return checked_step(table, TABLE, orders, ORDERS, NULL, 0, request).number;
}

/* Reads a record; whether it was loaded, as the last of the orders. */
static int loads(uint64_t address, uint64_t size) {
    speldervacht_answer answer = step(SPELDERVACHT_PROTECT_FOR_READING, address, size);
    int loaded = answer.orders != 0 && orders[3 * answer.orders - 3] == SPELDERVACHT_LOAD;
    expect(answer.number == SPELDERVACHT_ACCEPTED, "an access");
    expect(step(SPELDERVACHT_RELEASE_UNCHANGED, address, 0).number == SPELDERVACHT_ACCEPTED, "its release");
    return loaded;
}

/* So many misses: a record of one byte comes and goes. */
static void misses(uint64_t count) {
    for (uint64_t i = 0; i < count; i++) {
        expect(loads(900, 1), "a miss");
        expect(step(SPELDERVACHT_DISCARD, 900, 0).number == SPELDERVACHT_ACCEPTED, "a discard");
    }
}

/* So many hits of one record. */
static void hits(uint64_t address, uint64_t count) {
    for (uint64_t i = 0; i < count; i++) {
        expect(!loads(address, 1), "a hit");
    }
}

/* The maximum at the end of the epoch, whose last accesses are so many hits of one record. */
static uint64_t maximum_after(uint64_t address, uint64_t count) {
    hits(address, count);
    expect(table[ACCESSES] == 0, "the epoch has ended");
    return speldervacht_report(table, TABLE).maximum;
}

/* The maximum at the end of a poor epoch that begins now. */
static uint64_t maximum_after_poor(uint64_t address) {
    expect(table[ACCESSES] == 0, "an epoch begins");
    misses(EPOCH - POOR);
    return maximum_after(address, POOR);
}

/* A world at 97 percent whose first accesses miss, so many of 100: held bytes stay below the maximum, and it grows. */
static void nearly_full(uint64_t count) {
    open_fresh(SPELDERVACHT_ALONE, growing_settings());
    step(SPELDERVACHT_INSERT, 100, 1324);
    step(SPELDERVACHT_INSERT, 200, 1324);
    step(SPELDERVACHT_INSERT, 300, 1325);
    expect(speldervacht_report(table, TABLE).held == 3973, "97 percent");
    for (uint64_t access = 1; access <= EPOCH; access++) {
        const uint64_t address = 1000 + (access < count ? access : count);
        speldervacht_answer answer = step(SPELDERVACHT_PROTECT_FOR_READING, address, 1325);
        speldervacht_figures figures = speldervacht_report(table, TABLE);
        expect((answer.orders != 0) == (access <= count), "a miss makes room, a hit gives no orders");
        expect(figures.held < 4096, "held bytes stay below the maximum");
        expect(figures.maximum == (access < EPOCH ? 4096 : 8192), "the maximum doubles at the end of the epoch");
        expect(step(SPELDERVACHT_RELEASE_UNCHANGED, address, 0).orders == 0, "a release");
    }
}

/* Room was made of other records: 89 hits of 100 raise the maximum, 90 do not. The next epoch begins anew. */
static void found_by_insert(void) {
    for (uint64_t count = POOR; count <= POOR + 1; count++) {
        const uint64_t maximum = count == POOR ? 8192 : 4096;
        open_fresh(SPELDERVACHT_ALONE, growing_settings());
        misses(EPOCH - count);
        step(SPELDERVACHT_INSERT, 100, 3000);
        step(SPELDERVACHT_INSERT, 200, 1000);
        expect(table[EXCEEDED] == 0, "nothing is found");
        expect(step(SPELDERVACHT_INSERT, 300, 500).orders == 3 && order_is(0, SPELDERVACHT_WRITE, 100, 3000) &&
                   order_is(1, SPELDERVACHT_WRITE, 200, 1000) && order_is(2, SPELDERVACHT_EVICT, 100, 3000),
               "write 100, write 200, evict 100");
        expect(table[EXCEEDED] == 1, "4,500 bytes are found");
        expect(maximum_after(300, count) == maximum, "89 hits and full, or 90");
        expect(table[EXCEEDED] == 0, "the end of the epoch clears it");
        expect(maximum_after_poor(300) == maximum, "a poor epoch without finding anything");
    }
}

/* Held bytes of 4,096 are full while they are there, and what comes up to that is not above it. */
static void at_the_maximum(void) {
    for (uint64_t last = 95; last <= 97; last++) {
        for (int stays = 0; stays <= 1; stays++) {
            const int full = last == 97 || (last == 96 && stays);
            open_fresh(SPELDERVACHT_ALONE, growing_settings());
            misses(EPOCH - POOR);
            step(SPELDERVACHT_INSERT, 100, 3000);
            step(SPELDERVACHT_INSERT, 200, 1000);
            expect((step(SPELDERVACHT_INSERT, 300, last).orders != 0) == (last == 97), "orders above 4,096 bytes");
            expect(table[EXCEEDED] == (last == 97), "4,097 bytes are found");
            if (!stays) {
                step(SPELDERVACHT_DISCARD, 300, 0);
            }
            expect(maximum_after(200, POOR) == (full ? 8192 : 4096), "full by 4,096 bytes held, or by what was found");
        }
    }
}

/* What is found counts if nothing can be evicted, as the cache is empty or its records are dirty, and if it has gone
 * since. */
static void nothing_to_evict(void) {
    for (uint64_t mode = SPELDERVACHT_ALONE; mode <= SPELDERVACHT_STANDBY; mode++) {
        open_fresh(mode, growing_settings());
        expect(step(SPELDERVACHT_INSERT, 100, 5000).orders == 0 && table[EXCEEDED] == 1, "5,000 bytes are found");
        step(SPELDERVACHT_DISCARD, 100, 0);
        step(SPELDERVACHT_INSERT, 200, 10);
        expect(maximum_after_poor(200) == 8192 && table[EXCEEDED] == 0, "found in an empty cache");
        step(SPELDERVACHT_INSERT, 100, 4000);
        expect((step(SPELDERVACHT_INSERT, 300, 5000).orders == 0) == (mode != SPELDERVACHT_ALONE), "who writes");
        expect(table[EXCEEDED] == 1, "9,010 bytes are found");
        step(SPELDERVACHT_DISCARD, 100, 0);
        step(SPELDERVACHT_DISCARD, 300, 0);
        step(SPELDERVACHT_INSERT, 400, 10);
        expect(maximum_after_poor(400) == 16384, "found beside dirty records");
    }
}

/* Rows that press, resizes, and room with evictions off find nothing. A changed release does. */
static void not_found(void) {
    speldervacht_settings off = small_settings();
    open_fresh(SPELDERVACHT_ALONE, growing_settings());
    for (uint64_t address = 1; address <= ROWS + 1; address++) {
        expect((step(SPELDERVACHT_INSERT, address, 100).orders != 0) == (address > ROWS), "room for a row");
    }
    expect(maximum_after_poor(ROWS + 1) == 4096, "rows pressed, and bytes did not");
    for (uint64_t size = 10; size <= 5000; size += 4990) {
        open_fresh(SPELDERVACHT_ALONE, growing_settings());
        misses(EPOCH - POOR - 1);
        step(SPELDERVACHT_PROTECT_FOR_WRITING, 100, 10);
        step(SPELDERVACHT_RESIZE, 100, 5000);
        step(SPELDERVACHT_RESIZE, 100, 10);
        expect(table[EXCEEDED] == 0, "a resize makes no room");
        step(SPELDERVACHT_RELEASE_CHANGED, 100, size);
        step(SPELDERVACHT_INSERT, 200, 10);
        expect(maximum_after(200, POOR) == (size == 10 ? 4096 : 8192), "a release that finds nothing, or 5,000 bytes");
    }
    off.evictions = 0;
    open_fresh(SPELDERVACHT_ALONE, off);
    expect(step(SPELDERVACHT_INSERT, 100, 5000).number == SPELDERVACHT_ACCEPTED && table[EXCEEDED] == 0,
           "with evictions off no room is made");
}

/* A record of 3,000 bytes that is pinned. */
static void insert_pinned(void) {
    step(SPELDERVACHT_PROTECT_FOR_READING, 100, 3000);
    step(SPELDERVACHT_PIN, 100, 0);
    step(SPELDERVACHT_RELEASE_UNCHANGED, 100, 0);
}

/* Configuring clears what was found. The room that it makes after that counts. */
static void cleared_by_configure(void) {
    speldervacht_settings settings = growing_settings();
    open_fresh(SPELDERVACHT_ALONE, settings);
    step(SPELDERVACHT_INSERT, 100, 5000);
    step(SPELDERVACHT_DISCARD, 100, 0);
    step(SPELDERVACHT_INSERT, 200, 10);
    expect(table[EXCEEDED] == 1 && configure(settings) == SPELDERVACHT_ACCEPTED, "5,000 bytes, and a configure");
    expect(table[EXCEEDED] == 0 && maximum_after_poor(200) == 4096, "cleared by a configure");
    open_fresh(SPELDERVACHT_ALONE, settings);
    insert_pinned();
    settings.initial = 2048;
    expect(configure(settings) == SPELDERVACHT_ACCEPTED && table[EXCEEDED] == 1, "3,000 bytes are found");
    step(SPELDERVACHT_RESIZE, 100, 10);
    expect(maximum_after_poor(100) == 4096, "found by the configure's own room");
}

/* So does the room at the end of an epoch, which has lowered the maximum. */
static void found_at_the_end(void) {
    speldervacht_settings settings = growing_settings();
    settings.decrease_kind = SPELDERVACHT_DECREASE_BY_THRESHOLD;
    settings.decrease_upper = 0.95;
    settings.decrease_multiplier = 0.5;
    settings.decrement_kind = SPELDERVACHT_NO_CAP;
    open_fresh(SPELDERVACHT_ALONE, settings);
    insert_pinned();
    hits(100, EPOCH - 2);
    step(SPELDERVACHT_PROTECT_FOR_WRITING, 100, 1);
    expect(speldervacht_report(table, TABLE).maximum == 2048 && table[EXCEEDED] == 1, "3,000 bytes are found");
    step(SPELDERVACHT_RESIZE, 100, 10);
    step(SPELDERVACHT_RELEASE_UNCHANGED, 100, 0);
    expect(maximum_after_poor(100) == 4096, "found by the room at the end of the epoch before");
}

/* A flash that raises the maximum clears what was found; one that does not, does not. */
static void cleared_by_flash(void) {
    speldervacht_settings settings = growing_settings();
    settings.flash_kind = SPELDERVACHT_FLASH_ON;
    for (int rises = 0; rises <= 1; rises++) {
        open_fresh(SPELDERVACHT_ALONE, settings);
        for (uint64_t address = 1; address <= 5; address++) {
            step(SPELDERVACHT_INSERT, address, 1000);
        }
        expect(table[EXCEEDED] == 1 && speldervacht_report(table, TABLE).maximum == 4096, "5,000 bytes are found");
        for (uint64_t address = 2; address <= 4 && !rises; address++) {
            step(SPELDERVACHT_DISCARD, address, 0);
        }
        step(SPELDERVACHT_INSERT, 6, 1025);
        expect(speldervacht_report(table, TABLE).maximum == (rises ? 5025 : 4096), "a flash, and free space enough");
        expect(maximum_after_poor(6) == (rises ? 5025 : 8192), "cleared by a flash that raised the maximum");
    }
}

/* The word is 0 or 1, whatever else the cache is. With another number the table is refused. */
static void damaged_flag(uint64_t mode, uint64_t evictions) {
    const uint64_t damaged[] = {2, 3, UINT64_C(1) << 32, UINT64_C(1) << 63, UINT64_MAX - 1, UINT64_MAX};
    const uint64_t insert[] = {SPELDERVACHT_INSERT, 200, 10}, discard[] = {SPELDERVACHT_DISCARD, 900, 0};
    uint64_t answer[2];
    speldervacht_batched batched;
    open_sharing(mode, evictions);
    step(SPELDERVACHT_INSERT, 100, 10);
    for (uint64_t flag = 0; flag <= 1; flag++) {
        table[EXCEEDED] = flag;
        expect(speldervacht_report(table, TABLE).held == 10, "a report with either flag");
        expect(step(SPELDERVACHT_DISCARD, 900, 0).number == SPELDERVACHT_ACCEPTED, "a request with either flag");
        batched = speldervacht_batch(table, TABLE, orders, ORDERS, discard, 3, answer, 2);
        expect(batched.number == SPELDERVACHT_ACCEPTED && batched.done == 1, "a batch with either flag");
        expect(table[EXCEEDED] == flag, "these leave it");
    }
    for (size_t i = 0; i < sizeof damaged / sizeof damaged[0]; i++) {
        uint64_t table_before[TABLE], orders_before[ORDERS];
        table[EXCEEDED] = damaged[i];
        for (uint64_t kind = 0; kind <= SPELDERVACHT_CONFIGURE + 1; kind++) {
            expect(step(kind, 100, 10).number == SPELDERVACHT_BAD_TABLE, "a request with a damaged flag");
        }
        expect(is_refused(speldervacht_report(table, TABLE)), "its report");
        memcpy(table_before, table, sizeof table);
        memcpy(orders_before, orders, sizeof orders);
        answer[0] = answer[1] = 7;
        batched = speldervacht_batch(table, TABLE, orders, ORDERS, insert, 3, answer, 2);
        expect(batched.number == SPELDERVACHT_BAD_TABLE && batched.done == 0 && batched.orders == 0, "its batch");
        expect(memcmp(table_before, table, sizeof table) == 0 && memcmp(orders_before, orders, sizeof orders) == 0 &&
                   answer[0] == 7 && answer[1] == 7,
               "which changes no word");
    }
}

static void damaged_flags(void) {
    for (uint64_t mode = SPELDERVACHT_ALONE; mode <= SPELDERVACHT_STANDBY; mode++) {
        damaged_flag(mode, 1);
        damaged_flag(mode, 0);
    }
}

int main(void) {
    three_inserts();
    refusals();
    lists();
    one_entry();
    rule_kinds();
    asking();
    everything_is_told();
    missing_in_each_mode();
    sync_by_missing();
    figure_words();
    nearly_full(EPOCH);
    nearly_full(EPOCH - POOR);
    found_by_insert();
    at_the_maximum();
    nothing_to_evict();
    not_found();
    cleared_by_configure();
    found_at_the_end();
    cleared_by_flash();
    damaged_flags();
    return outcome("all cases hold");
}
