/* Each limit in the header: what is at it is accepted, what is one past it refused. Also compiles as
 * C++. */
#include "expect.h"
#include "speldervacht.h"
#include "step.h"

#define MORE_ROWS (SPELDERVACHT_MOST_ROWS + 1)
#define ROWS 2
#define TABLE SPELDERVACHT_TABLE_WORDS(ROWS)
#define ORDERS SPELDERVACHT_ORDER_WORDS(ROWS)

static uint64_t table[SPELDERVACHT_TABLE_WORDS(MORE_ROWS)];
static uint64_t orders[SPELDERVACHT_ORDER_WORDS(SPELDERVACHT_MOST_ROWS)];

/* The defaults of a cache that is alone, and a clean fraction of 0.3. */
static speldervacht_settings alone(void) {
    speldervacht_settings settings = speldervacht_default_settings(SPELDERVACHT_ALONE);
    settings.clean = 0.3;
    return settings;
}

static uint64_t opened(uint64_t rows, uint64_t threshold) {
    return speldervacht_open(table, SPELDERVACHT_TABLE_WORDS(rows), rows, SPELDERVACHT_ALONE, threshold, alone())
        .number;
}

static uint64_t step(uint64_t kind, uint64_t address, uint64_t size) {
    return checked_step(table, TABLE, orders, ORDERS, NULL, 0, speldervacht_request_of(kind, address, size))
        .number;
}

static void open_fresh(void) {
    expect(opened(ROWS, SPELDERVACHT_DEFAULT_THRESHOLD) == SPELDERVACHT_ACCEPTED, "opening");
}

/* The bad field of the settings at configuring, or 0 if they are accepted. */
static uint64_t bad_field(speldervacht_settings settings) {
    speldervacht_request configure = speldervacht_request_of(SPELDERVACHT_CONFIGURE, 0, 0);
    configure.settings = settings;
    return checked_step(table, TABLE, orders, ORDERS, NULL, 0, configure).field;
}

static void rows_and_words(void) {
    speldervacht_settings settings = alone();
    speldervacht_request insert = speldervacht_request_of(SPELDERVACHT_INSERT, 1, 1);
    const uint64_t rows = SPELDERVACHT_MOST_ROWS;
    const size_t words = SPELDERVACHT_TABLE_WORDS(rows), order_words = SPELDERVACHT_ORDER_WORDS(rows);
    expect(opened(0, 1) == SPELDERVACHT_BAD_TABLE, "no rows");
    expect(opened(1, 1) == SPELDERVACHT_ACCEPTED, "one row");
    expect(opened(MORE_ROWS, 1) == SPELDERVACHT_BAD_TABLE, "more than the most rows");
    expect(speldervacht_open(table, words - 1, rows, SPELDERVACHT_ALONE, 1, settings).number ==
               SPELDERVACHT_BAD_TABLE,
           "a table word too few");
    expect(opened(rows, 1) == SPELDERVACHT_ACCEPTED, "the most rows");
    expect(checked_step(table, words, orders, order_words - 1, NULL, 0, insert).number ==
               SPELDERVACHT_FEW_ORDER_WORDS,
           "an order word too few");
    expect(checked_step(table, words, orders, order_words, NULL, 0, insert).number == SPELDERVACHT_ACCEPTED,
           "order words enough");
}

static void thresholds(void) {
    expect(opened(ROWS, 0) == SPELDERVACHT_BAD_MODE, "a threshold of 0");
    expect(opened(ROWS, 1) == SPELDERVACHT_ACCEPTED, "a threshold of 1");
    expect(opened(ROWS, SPELDERVACHT_LARGEST_THRESHOLD) == SPELDERVACHT_ACCEPTED, "the largest threshold");
    expect(opened(ROWS, SPELDERVACHT_LARGEST_THRESHOLD + 1) == SPELDERVACHT_BAD_MODE, "above the largest threshold");
}

static void entries(void) {
    open_fresh();
    expect(step(SPELDERVACHT_INSERT, 1, 0) == SPELDERVACHT_BAD_SIZE, "an entry of no bytes");
    expect(step(SPELDERVACHT_INSERT, 1, 1) == SPELDERVACHT_ACCEPTED, "an entry of one byte");
    expect(step(SPELDERVACHT_INSERT, 2, SPELDERVACHT_LARGEST_ENTRY + 1) == SPELDERVACHT_BAD_SIZE,
           "above the largest entry");
    expect(step(SPELDERVACHT_INSERT, 2, SPELDERVACHT_LARGEST_ENTRY) == SPELDERVACHT_ACCEPTED, "the largest entry");
    expect(step(SPELDERVACHT_INSERT, SPELDERVACHT_NO_ADDRESS, 1) == SPELDERVACHT_BAD_ADDRESS, "no address");
    expect(step(SPELDERVACHT_INSERT, SPELDERVACHT_NO_ADDRESS - 1, 1) == SPELDERVACHT_ACCEPTED, "the last address");
}

static void readers(void) {
    open_fresh();
    for (uint64_t reader = 1; reader <= SPELDERVACHT_MOST_READERS; reader++) {
        expect(step(SPELDERVACHT_PROTECT_FOR_READING, 1, 1) == SPELDERVACHT_ACCEPTED, "a reader");
    }
    expect(step(SPELDERVACHT_PROTECT_FOR_READING, 1, 1) == SPELDERVACHT_HELD, "a reader too many");
}

/* One more insert, and what the byte count is then. */
static uint64_t count_after(uint64_t size) {
    expect(step(SPELDERVACHT_INSERT, 1, size) == SPELDERVACHT_ACCEPTED, "an insert");
    expect(step(SPELDERVACHT_DISCARD, 1, 0) == SPELDERVACHT_ACCEPTED, "a discard");
    return speldervacht_report(table, TABLE).count;
}

static void count(void) {
    uint64_t counted = 0;
    open_fresh();
    while (counted + SPELDERVACHT_LARGEST_ENTRY < SPELDERVACHT_COUNT_STOP) {
        counted += SPELDERVACHT_LARGEST_ENTRY;
        expect(count_after(SPELDERVACHT_LARGEST_ENTRY) == counted, "the byte count below its stop");
    }
    expect(count_after(SPELDERVACHT_COUNT_STOP - counted - 1) == SPELDERVACHT_COUNT_STOP - 1, "one below the stop");
    expect(count_after(1) == SPELDERVACHT_COUNT_STOP, "at the stop");
    expect(count_after(1) == SPELDERVACHT_COUNT_STOP, "no further");
}

/* A list has at most an address for each row, at the lead that sends it and at the standby that takes it. */
static void lists(void) {
    uint64_t list[SPELDERVACHT_LIST_WORDS(ROWS) + 1];
    const size_t longest = SPELDERVACHT_LIST_WORDS(ROWS);
    speldervacht_request flush = speldervacht_request_of(SPELDERVACHT_FLUSH, 0, 0);
    for (uint64_t mode = SPELDERVACHT_LEAD; mode <= SPELDERVACHT_STANDBY; mode++) {
        expect(speldervacht_open(table, TABLE, ROWS, mode, 1, speldervacht_default_settings(mode)).number ==
                   SPELDERVACHT_ACCEPTED,
               "opening a lead or a standby");
        for (size_t i = 0; i < longest; i++) {
            list[i] = 1 + i;
            expect(step(SPELDERVACHT_INSERT, list[i], 1) == SPELDERVACHT_ACCEPTED, "a dirty entry for each row");
        }
        list[longest] = 1 + longest;
        expect(step(SPELDERVACHT_INSERT, list[longest], 1) == SPELDERVACHT_NO_ROW, "no row for another");
        if (mode == SPELDERVACHT_LEAD) {
            expect(checked_step(table, TABLE, orders, ORDERS, NULL, 0, flush).orders == longest, "the longest list");
        }
    }
    expect(checked_take(table, TABLE, 1, list, longest + 1) == SPELDERVACHT_BAD_LIST, "a longer list");
    expect(checked_take(table, TABLE, 1, list, longest) == SPELDERVACHT_ACCEPTED, "the longest list is taken");
}

/* A message has the bytes that the header says, and up to the most addresses. */
static void messages(void) {
    static uint64_t list[SPELDERVACHT_MOST_LISTED + 1];
    static uint8_t message[SPELDERVACHT_MESSAGE_BYTES(SPELDERVACHT_MOST_LISTED + 1)];
    const size_t counts[] = {0, 1, 255, 256, SPELDERVACHT_MOST_LISTED};
    for (size_t i = 0; i < sizeof counts / sizeof counts[0]; i++) {
        const size_t bytes = SPELDERVACHT_MESSAGE_BYTES(counts[i]);
        speldervacht_written written = speldervacht_write_message(message, bytes, 1, list, counts[i]);
        expect(written.number == SPELDERVACHT_ACCEPTED && written.bytes == bytes, "bytes enough");
        written = speldervacht_write_message(message, bytes - 1, 1, list, counts[i]);
        expect(written.number == SPELDERVACHT_FEW_ORDER_WORDS && written.bytes == 0, "a byte too few");
    }
    expect(speldervacht_write_message(message, sizeof message, 1, list, SPELDERVACHT_MOST_LISTED + 1).number ==
               SPELDERVACHT_BAD_MESSAGE,
           "an address too many");
}

/* An entry that nobody uses goes through all idle counts, an epoch each, and stays at the last. */
static void idle_counts(void) {
    speldervacht_settings settings = alone();
    const uint64_t last = SPELDERVACHT_IDLE_COUNTS - 1;
    settings.decrease_kind = SPELDERVACHT_DECREASE_OFF;
    settings.epoch = SPELDERVACHT_SHORTEST_EPOCH;
    open_fresh();
    expect(bad_field(settings) == 0, "short epochs");
    expect(step(SPELDERVACHT_INSERT, 1, 7) == SPELDERVACHT_ACCEPTED, "an entry");
    for (uint64_t epoch = 0; epoch <= last + 1; epoch++) {
        speldervacht_figures figures = speldervacht_report(table, TABLE);
        expect(figures.totals[epoch < last ? epoch : last] >= 7, "the entry's idle count");
        for (uint64_t access = 0; access < settings.epoch; access++) {
            expect(step(SPELDERVACHT_PROTECT_FOR_READING, 2, 1) == SPELDERVACHT_ACCEPTED, "an access");
            expect(step(SPELDERVACHT_RELEASE_UNCHANGED, 2, 0) == SPELDERVACHT_ACCEPTED, "its release");
        }
    }
}

static void settings_limits(void) {
    speldervacht_settings settings;
    open_fresh();
#define EXPECT_FIELD(field, name, value, what)                                                                         \
    settings = alone();                                                                                                \
    settings.preset = 0;                                                                                               \
    settings.name = value;                                                                                             \
    expect(bad_field(settings) == field, what)
    EXPECT_FIELD(0, largest, SPELDERVACHT_LARGEST_CACHE, "the largest cache");
    EXPECT_FIELD(5, largest, SPELDERVACHT_LARGEST_CACHE + 1, "above the largest cache");
    EXPECT_FIELD(0, smallest, SPELDERVACHT_SMALLEST_CACHE, "the smallest cache");
    EXPECT_FIELD(6, smallest, SPELDERVACHT_SMALLEST_CACHE - 1, "below the smallest cache");
    EXPECT_FIELD(0, epoch, SPELDERVACHT_SHORTEST_EPOCH, "the shortest epoch");
    EXPECT_FIELD(7, epoch, SPELDERVACHT_SHORTEST_EPOCH - 1, "below the shortest epoch");
    EXPECT_FIELD(0, epoch, SPELDERVACHT_LONGEST_EPOCH, "the longest epoch");
    EXPECT_FIELD(7, epoch, SPELDERVACHT_LONGEST_EPOCH + 1, "above the longest epoch");
    EXPECT_FIELD(0, increment_bytes, SPELDERVACHT_LARGEST_CACHE, "the largest cap on an increase");
    EXPECT_FIELD(9, increment_bytes, SPELDERVACHT_LARGEST_CACHE + 1, "above the largest cap on an increase");
    EXPECT_FIELD(0, decrement_bytes, SPELDERVACHT_LARGEST_CACHE, "the largest cap on a decrease");
    EXPECT_FIELD(12, decrement_bytes, SPELDERVACHT_LARGEST_CACHE + 1, "above the largest cap on a decrease");
#undef EXPECT_FIELD
    settings = alone();
    settings.initial = settings.largest = settings.smallest = SPELDERVACHT_SMALLEST_CACHE;
    expect(bad_field(settings) == 0, "the smallest cache and no larger");
    settings.preset = 0;
    settings.largest--;
    expect(bad_field(settings) == 5, "a maximum size below the smallest cache");
}

int main(void) {
    rows_and_words();
    thresholds();
    entries();
    readers();
    count();
    lists();
    messages();
    idle_counts();
    settings_limits();
    return outcome("all limits hold");
}
