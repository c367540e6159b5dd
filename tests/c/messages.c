/* Messages: the vectors of docs/MESSAGE.md, the order of refusals, the numbers, the writer, and any bytes. Also
 * compiles as C++.
 *
 *   messages FILE: the vectors that docs/MESSAGE.md has, a line each
 */
#include "expect.h"
#include "random.h"
#include "speldervacht.h"
#include "step.h"

#include <stdlib.h>
#include <string.h>

#define ROWS 4
#define TABLE SPELDERVACHT_TABLE_WORDS(ROWS)
#define ORDERS SPELDERVACHT_ORDER_WORDS(ROWS)
#define MODES 3
#define NEXT 8                 /* where a table has the number of the next message */
#define SETTINGS 10            /* where it has the settings */
#define LAST_LISTED UINT64_MAX /* the last number of a list */
#define LAYOUT 3
#define VERSION_OF(layout) (UINT64_C(0x53504c4456540000) + (layout))
#define RANDOM_MESSAGES 100000

static uint64_t table[TABLE], orders[ORDERS];
static uint8_t message[MOST_MESSAGE_BYTES + 1];
static size_t length; /* of the message */

/* ---- caches */

/* The defaults, and a clean fraction of 0.3 in every mode. */
static speldervacht_settings settings_of(uint64_t mode) {
    speldervacht_settings settings = speldervacht_default_settings(mode);
    settings.clean = 0.3;
    return settings;
}

static void open_cache(uint64_t mode) {
    memset(orders, 0x5a, sizeof orders);
    expect(speldervacht_open(table, TABLE, ROWS, mode, 1000, settings_of(mode)).number == SPELDERVACHT_ACCEPTED,
           "opening");
}

static speldervacht_answer step_with(size_t order_words, uint64_t kind, uint64_t address, uint64_t size) {
    return checked_step(table, TABLE, orders, order_words, message, length,
                        speldervacht_request_of(kind, address, size));
}

static uint64_t step(uint64_t kind, uint64_t address, uint64_t size) {
    return step_with(ORDERS, kind, address, size).number;
}

/* A fresh cache that has 100 and 200, both dirty. */
static void open_with_two(uint64_t mode) {
    open_cache(mode);
    expect(step(SPELDERVACHT_INSERT, 100, 10) == SPELDERVACHT_ACCEPTED, "an insert of 100");
    expect(step(SPELDERVACHT_INSERT, 200, 20) == SPELDERVACHT_ACCEPTED, "an insert of 200");
}

static speldervacht_figures report(void) {
    speldervacht_figures figures = speldervacht_report(table, TABLE);
    expect(figures.number == SPELDERVACHT_ACCEPTED, "a report");
    return figures;
}

/* Takes the message. It gives no orders, and one that is accepted uses up its number. */
static uint64_t take(void) {
    uint64_t number = report().next, answer, before[ORDERS];
    memcpy(before, orders, sizeof before);
    answer = step(SPELDERVACHT_TAKE, 0, 0);
    expect(memcmp(before, orders, sizeof before) == 0, "a take changes no order word");
    expect(report().next == number + (answer == SPELDERVACHT_ACCEPTED), "the next number");
    return answer;
}

/* The message becomes that of a numbered list. */
static void write_list(uint64_t number, const uint64_t *list, size_t count) {
    speldervacht_written written = speldervacht_write_message(message, sizeof message, number, list, count);
    expect(written.number == SPELDERVACHT_ACCEPTED, "a message is written");
    length = written.bytes;
}

/* ---- vectors: an answer in decimal, and a message's bytes in hexadecimal, its fields set apart */

#define NUMBER_0 "  01 00 08 00 00 00 00 00 00 00 00"
#define NUMBER_1 "  01 00 08 00 00 00 00 00 00 00 01"
#define NUMBER_2 "  01 00 08 00 00 00 00 00 00 00 02"
#define NUMBER_7 "  01 00 08 00 00 00 00 00 00 00 07"
#define NUMBER_LAST "  01 00 08 ff ff ff ff ff ff ff ff"
#define COUNT_0 "  02 00 02 00 00"
#define COUNT_1 "  02 00 02 00 01"
#define COUNT_2 "  02 00 02 00 02"
#define COUNT_3 "  02 00 02 00 03"
#define ADDRESS_100 "  03 00 08 00 00 00 00 00 00 00 64"
#define ADDRESS_200 "  03 00 08 00 00 00 00 00 00 00 c8"
#define ADDRESS_300 "  03 00 08 00 00 00 00 00 00 01 2c"
#define ALL_ONES "  03 00 08 ff ff ff ff ff ff ff ff"
#define END "  09 00 00"

#define FIRST NUMBER_1 COUNT_2 ADDRESS_100 ADDRESS_200 END /* number 1: 100, 200 */
#define EMPTY_0 NUMBER_0 COUNT_0 END
#define EMPTY_2 NUMBER_2 COUNT_0 END
#define LAST_ALL_ONES NUMBER_LAST COUNT_1 ALL_ONES END

/* Each by itself to a fresh standby in which 100 and 200 are dirty. */
static const char *const vectors[] = {
    /* taken */
    " 0" FIRST,
    " 0" NUMBER_1 COUNT_0 END,
    " 0" NUMBER_1 COUNT_1 ADDRESS_200 END,
    /* right messages without the next number */
    "16" EMPTY_2,
    "16" EMPTY_0,
    "16" LAST_ALL_ONES,
    "16" NUMBER_7 COUNT_2 ADDRESS_100 ADDRESS_200 END,
    /* addresses */
    " 3" NUMBER_1 COUNT_2 ALL_ONES ADDRESS_200 END,
    " 3" NUMBER_1 COUNT_2 ALL_ONES ALL_ONES END,
    "13" NUMBER_1 COUNT_2 ADDRESS_100 ADDRESS_100 END,
    "13" NUMBER_1 COUNT_2 ADDRESS_100 ADDRESS_300 END,
    /* bytes that end early */
    "14",
    "14  01",
    "14" NUMBER_1 "  02 00 02 00",
    "14" NUMBER_1 COUNT_2,
    "14" NUMBER_1 COUNT_2 "  03",
    "14" NUMBER_1 COUNT_2 "  03 00 08 00 00 00 00 00 00 00",
    "14" NUMBER_1 COUNT_2 ADDRESS_100 "  03 00 08 00 00 00 00 00 00 00",
    "14" NUMBER_1 COUNT_2 ADDRESS_100 ADDRESS_200,
    "14" NUMBER_1 COUNT_2 ADDRESS_100 ADDRESS_200 "  09 00",
    "14" NUMBER_7 COUNT_2 ADDRESS_100 ADDRESS_200 "  09 00",
    /* a byte that no right message can have there */
    "15  02 00 08 00 00 00 00 00 00 00 01" COUNT_2 ADDRESS_100 ADDRESS_200 END,
    "15  01 00 04 00 00 00 00 00 00 00 01" COUNT_2 ADDRESS_100 ADDRESS_200 END,
    "15" NUMBER_1 COUNT_2 ADDRESS_100 ADDRESS_200 "  09 00 01",
    "15" NUMBER_1 COUNT_1 ADDRESS_100 ADDRESS_200 END,
    "15" NUMBER_1 COUNT_3 ADDRESS_100 ADDRESS_200 END,
    "15" NUMBER_1 COUNT_2 ADDRESS_100 ADDRESS_200 "  03 00 00",
    "15" NUMBER_1 COUNT_2 ADDRESS_100 ADDRESS_200 END "  00",
    "15" NUMBER_1 COUNT_2 "  09",
    "15" NUMBER_7 COUNT_2 ADDRESS_100 ADDRESS_200 END "  00",
};

#define VECTORS (sizeof vectors / sizeof vectors[0])

/* The message becomes the vector's; its answer. */
static uint64_t read_vector(const char *vector) {
    char *rest;
    uint64_t answer = strtoul(vector, &rest, 10);
    for (length = 0; *rest != '\0'; length++) {
        message[length] = (uint8_t)strtoul(rest, &rest, 16);
    }
    return answer;
}

static void read_message(const char *bytes) {
    char vector[256] = "0";
    read_vector(strncat(vector, bytes, sizeof vector - 2));
}

static void each_vector(void) {
    for (size_t i = 0; i < VECTORS; i++) {
        uint64_t answer;
        open_with_two(SPELDERVACHT_STANDBY);
        answer = read_vector(vectors[i]);
        if (take() != answer) {
            printf("failed: %s\n", vectors[i]);
            failures++;
        }
    }
}

/* The file's lines are the vectors, in their order. Empty lines, and those that begin with #, are left out. */
static int vectors_are_in(const char *path) {
    char line[512];
    size_t found = 0;
    FILE *file = fopen(path, "r");
    while (file != NULL && fgets(line, sizeof line, file) != NULL) {
        line[strcspn(line, "\n")] = '\0';
        if (line[0] == '#' || line[0] == '\0') {
            continue;
        }
        if (found == VECTORS || strcmp(line, vectors[found]) != 0) {
            printf("failed: the page has %s\n", line);
            failures++;
            break;
        }
        found++;
    }
    if (file != NULL) {
        fclose(file);
    }
    return found == VECTORS;
}

/* ---- one message after the other */

static void in_turn(void) {
    open_with_two(SPELDERVACHT_STANDBY);
    expect(report().next == 1 && report().dirty == 30 && report().count == 30, "a standby that waits for number 1");
    read_message(EMPTY_2);
    expect(take() == SPELDERVACHT_WRONG_NUMBER, "number 2 before number 1");
    read_message(FIRST);
    expect(take() == SPELDERVACHT_ACCEPTED, "number 1");
    expect(report().next == 2 && report().dirty == 0 && report().count == 0, "both are clean, the count is 0");
    expect(take() == SPELDERVACHT_WRONG_NUMBER, "number 1 again");
    read_message(EMPTY_2);
    expect(take() == SPELDERVACHT_ACCEPTED && report().next == 3, "number 2");
    expect(take() == SPELDERVACHT_WRONG_NUMBER, "number 2 again");
}

/* The last number, and none after it. */
static void last_numbers(void) {
    static const char *const any[] = {EMPTY_0, EMPTY_2, FIRST, LAST_ALL_ONES, NUMBER_LAST COUNT_0 END};
    open_with_two(SPELDERVACHT_STANDBY);
    table[NEXT] = LAST_LISTED;
    read_message(LAST_ALL_ONES);
    expect(take() == SPELDERVACHT_BAD_ADDRESS, "the last number, and all ones");
    read_message(NUMBER_LAST COUNT_1 ADDRESS_100 END);
    expect(take() == SPELDERVACHT_ACCEPTED && report().next == 0, "the last number");
    for (size_t i = 0; i < sizeof any / sizeof any[0]; i++) {
        read_message(any[i]);
        expect(take() == SPELDERVACHT_WRONG_NUMBER, "no number is left to take");
    }
}

/* The mode is judged before any byte, and the table before the mode. */
static void other_modes(void) {
    static const char *const any[] = {FIRST, EMPTY_2, "", "  ff", LAST_ALL_ONES, NUMBER_1 COUNT_1 ALL_ONES END};
    for (uint64_t mode = 0; mode < MODES; mode++) {
        open_with_two(mode);
        for (size_t i = 0; i < sizeof any / sizeof any[0]; i++) {
            read_message(any[i]);
            expect(mode == SPELDERVACHT_STANDBY || take() == SPELDERVACHT_BAD_MODE, "a take that is not a standby's");
            expect(checked_step(table, TABLE - 1, orders, ORDERS, message, length,
                                speldervacht_request_of(SPELDERVACHT_TAKE, 0, 0))
                           .number == SPELDERVACHT_BAD_TABLE,
                   "a take on a short table");
        }
    }
}

/* ---- numbers */

/* A table may have any number next, in any mode. */
static void any_number(void) {
    const uint64_t numbers[] = {0, 1, 2, UINT64_C(1) << 32, LAST_LISTED};
    for (uint64_t mode = 0; mode < MODES; mode++) {
        for (size_t i = 0; i < sizeof numbers / sizeof numbers[0]; i++) {
            open_with_two(mode);
            table[NEXT] = numbers[i];
            expect(report().next == numbers[i], "the report has the number");
            expect(step(SPELDERVACHT_DISCARD, 100, 0) == SPELDERVACHT_ACCEPTED, "a request");
            expect(report().next == numbers[i], "which leaves the number");
        }
    }
}

/* In each mode a fresh cache has number 1 next. A lead's flush and sync use up a number, also if they write nothing. */
static void used_up(void) {
    for (uint64_t mode = 0; mode < MODES; mode++) {
        uint64_t sends = mode == SPELDERVACHT_LEAD;
        speldervacht_request configure = speldervacht_request_of(SPELDERVACHT_CONFIGURE, 0, 0);
        open_with_two(mode);
        step(SPELDERVACHT_PROTECT_FOR_WRITING, 100, 10);
        step(SPELDERVACHT_RESIZE, 100, 30);
        expect(step(SPELDERVACHT_FLUSH, 0, 0) != SPELDERVACHT_ACCEPTED, "a flush that is refused");
        step(SPELDERVACHT_PIN, 100, 0);
        step(SPELDERVACHT_RELEASE_CHANGED, 100, 40);
        step(SPELDERVACHT_UNPIN, 100, 0);
        step(SPELDERVACHT_DISCARD, 200, 0);
        configure.settings = settings_of(mode);
        expect(checked_step(table, TABLE, orders, ORDERS, NULL, 0, configure).number == SPELDERVACHT_ACCEPTED,
               "a configure");
        expect(report().next == 1, "none of these uses up a number");
        expect((step(SPELDERVACHT_FLUSH, 0, 0) == SPELDERVACHT_ACCEPTED) == (mode != SPELDERVACHT_STANDBY), "a flush");
        expect(report().next == 1 + sends, "a lead's flush uses up a number");
        expect((step(SPELDERVACHT_SYNC, 0, 0) == SPELDERVACHT_ACCEPTED) == sends, "a sync, which writes nothing");
        expect(report().next == 1 + 2 * sends, "so does a lead's sync");
    }
}

/* What flush and sync of a cache without a number are answered: 2, 5 and 8 come before 16. */
static void none_left(uint64_t mode, uint64_t flush, uint64_t held_flush, uint64_t sync) {
    open_with_two(mode);
    table[NEXT] = 0;
    expect(step_with(ORDERS - 1, SPELDERVACHT_FLUSH, 0, 0).number == SPELDERVACHT_FEW_ORDER_WORDS, "2 at a flush");
    expect(step_with(ORDERS - 1, SPELDERVACHT_SYNC, 0, 0).number == SPELDERVACHT_FEW_ORDER_WORDS, "2 at a sync");
    expect(step(SPELDERVACHT_SYNC, 0, 0) == sync, "a sync without a number");
    expect(step(SPELDERVACHT_PROTECT_FOR_READING, 100, 10) == SPELDERVACHT_ACCEPTED, "a hold");
    expect(step(SPELDERVACHT_FLUSH, 0, 0) == held_flush, "a flush beside a hold");
    expect(step(SPELDERVACHT_SYNC, 0, 0) == sync, "a sync beside a hold");
    expect(step(SPELDERVACHT_RELEASE_UNCHANGED, 100, 0) == SPELDERVACHT_ACCEPTED, "its release");
    expect(step(SPELDERVACHT_FLUSH, 0, 0) == flush, "a flush without a number");
    expect(report().next == 0, "no number comes");
}

static void lead_without_number(void) {
    none_left(SPELDERVACHT_ALONE, SPELDERVACHT_ACCEPTED, SPELDERVACHT_HELD, SPELDERVACHT_BAD_MODE);
    none_left(SPELDERVACHT_LEAD, SPELDERVACHT_WRONG_NUMBER, SPELDERVACHT_HELD, SPELDERVACHT_WRONG_NUMBER);
    none_left(SPELDERVACHT_STANDBY, SPELDERVACHT_BAD_MODE, SPELDERVACHT_BAD_MODE, SPELDERVACHT_BAD_MODE);
    for (uint64_t kind = SPELDERVACHT_FLUSH; kind <= SPELDERVACHT_SYNC; kind++) {
        open_with_two(SPELDERVACHT_LEAD);
        table[NEXT] = LAST_LISTED;
        expect(step(kind, 0, 0) == SPELDERVACHT_ACCEPTED && report().next == 0, "the last number");
        expect(step(kind, 0, 0) == SPELDERVACHT_WRONG_NUMBER, "and no more");
    }
}

/* In a batch too; and the batch goes on. */
static void batch_without_number(void) {
    const uint64_t requests[] = {SPELDERVACHT_SYNC, 0, 0, SPELDERVACHT_FLUSH, 0, 0, SPELDERVACHT_INSERT, 300, 10};
    uint64_t answers[SPELDERVACHT_ANSWER_WORDS(3)];
    open_with_two(SPELDERVACHT_LEAD);
    table[NEXT] = LAST_LISTED;
    expect(speldervacht_batch(table, TABLE, orders, ORDERS, requests, SPELDERVACHT_REQUEST_WORDS(3), answers,
                              SPELDERVACHT_ANSWER_WORDS(3))
                   .done == 3,
           "all are answered");
    expect(answers[0] == SPELDERVACHT_ACCEPTED && answers[2] == SPELDERVACHT_WRONG_NUMBER &&
               answers[4] == SPELDERVACHT_ACCEPTED,
           "the last number, none, and an insert");
}

/* ---- tables of the layouts numbered 1 and 2: their settings stand where the number does, and one word further */

static void expect_old(uint64_t *old, size_t words) {
    const uint64_t request[] = {SPELDERVACHT_DISCARD, 1, 0};
    uint64_t answer[2];
    for (uint64_t kind = 0; kind <= SPELDERVACHT_CONFIGURE + 1; kind++) {
        expect(checked_step(old, words, orders, ORDERS, message, length, speldervacht_request_of(kind, 100, 10)).number ==
                   SPELDERVACHT_BAD_TABLE,
               "a request on a table of another layout");
    }
    expect(speldervacht_report(old, words).number == SPELDERVACHT_BAD_TABLE, "its report");
    expect(speldervacht_batch(old, words, orders, ORDERS, request, 3, answer, 2).number == SPELDERVACHT_BAD_TABLE,
           "a batch on it");
}

static void old_tables(void) {
    for (uint64_t mode = 0; mode < MODES; mode++) {
        for (uint64_t layout = 1; layout < LAYOUT; layout++) {
            const size_t settings = NEXT + layout - 1;
            uint64_t old[TABLE];
            open_with_two(mode);
            expect(table[0] == VERSION_OF(LAYOUT), "the layout's number");
            memset(old, 0xff, sizeof old);
            memcpy(old, table, settings * sizeof old[0]);
            memcpy(old + settings, table + SETTINGS, (TABLE - SETTINGS) * sizeof old[0]);
            old[0] = VERSION_OF(layout);
            read_message(FIRST);
            expect_old(old, settings + 21 + 8 * ROWS);
            expect_old(old, TABLE);
            table[0] = VERSION_OF(layout);
            expect_old(table, TABLE);
        }
    }
}

/* ---- the writer */

/* The list's message is the vector's, with bytes to spare and without, and not with one too few. */
static void expect_written(const char *bytes, uint64_t number, const uint64_t *list, size_t count) {
    uint8_t lent[64], untouched[64];
    speldervacht_written written;
    read_message(bytes);
    memset(untouched, 0x5a, sizeof untouched);
    for (size_t spare = 0; spare <= 9; spare += 9) {
        memset(lent, 0x5a, sizeof lent);
        written = speldervacht_write_message(lent, length + spare, number, list, count);
        expect(written.number == SPELDERVACHT_ACCEPTED && written.bytes == length, "how many bytes are written");
        expect(memcmp(lent, message, length) == 0, "the message's bytes");
        expect(memcmp(lent + length, untouched, sizeof lent - length) == 0, "bytes past the message stay");
    }
    memset(lent, 0x5a, sizeof lent);
    for (size_t lent_bytes = 0; lent_bytes < length; lent_bytes++) {
        written = speldervacht_write_message(lent, lent_bytes, number, list, count);
        expect(written.number == SPELDERVACHT_FEW_ORDER_WORDS && written.bytes == 0, "too few bytes");
    }
    expect(speldervacht_write_message(NULL, 0, number, list, count).number == SPELDERVACHT_FEW_ORDER_WORDS, "no bytes");
    expect(memcmp(lent, untouched, sizeof lent) == 0, "a refusal changes no byte");
}

static void written(void) {
    const uint64_t both[] = {100, 200}, twice[] = {100, 100}, ones[] = {UINT64_MAX};
    const uint64_t distinct_bytes[] = {UINT64_C(0x0123456789abcdef)};
    expect_written(FIRST, 1, both, 2);
    expect_written(EMPTY_2, 2, NULL, 0);
    expect_written(EMPTY_0, 0, both, 0);
    expect_written(LAST_ALL_ONES, UINT64_MAX, ones, 1);
    expect_written(NUMBER_7 COUNT_2 ADDRESS_100 ADDRESS_100 END, 7, twice, 2);
    expect_written("  01 00 08 fe dc ba 98 76 54 32 10" COUNT_1 "  03 00 08 01 23 45 67 89 ab cd ef" END,
                   UINT64_C(0xfedcba9876543210), distinct_bytes, 1);
}

/* ---- long lists: a message may have more addresses than a cache has rows, and is judged to its end */

static uint64_t long_list[70000];

static void long_lists_written(void) {
    static uint8_t lent[720915], untouched[720915];
    speldervacht_written written = speldervacht_write_message(lent, 720904, 1, long_list, 65535);
    const uint8_t count[] = {2, 0, 2, 0xff, 0xff, 3, 0, 8};
    const uint8_t end[] = {9, 0, 0, 0};
    expect(written.number == SPELDERVACHT_ACCEPTED && written.bytes == 720904, "65,535 addresses");
    expect(memcmp(lent + 11, count, sizeof count) == 0 && memcmp(lent + 720901, end, sizeof end) == 0, "their bytes");
    memset(lent, 0x5a, sizeof lent);
    memset(untouched, 0x5a, sizeof untouched);
    written = speldervacht_write_message(lent, 720915, 1, long_list, 65536);
    expect(written.number == SPELDERVACHT_BAD_MESSAGE && written.bytes == 0, "65,536 addresses");
    expect(speldervacht_write_message(lent, 720914, 1, long_list, 65536).number == SPELDERVACHT_FEW_ORDER_WORDS,
           "65,536 addresses and a byte too few");
    expect(speldervacht_write_message(lent, 40, 1, long_list, 70000).number == SPELDERVACHT_FEW_ORDER_WORDS,
           "70,000 addresses and 40 bytes");
    expect(memcmp(lent, untouched, sizeof lent) == 0, "a refusal changes no byte");
}

/* A message of so many addresses that are not dirty. */
static void long_message(size_t count) {
    open_with_two(SPELDERVACHT_STANDBY);
    write_list(1, long_list, count);
    expect(take() == SPELDERVACHT_BAD_LIST, "a long list");
    length--;
    expect(take() == SPELDERVACHT_CUT_MESSAGE, "a byte less");
    length++;
    message[length++] = 9;
    expect(take() == SPELDERVACHT_BAD_MESSAGE, "a byte more");
    length--;
    message[length - 3] = 3;
    expect(take() == SPELDERVACHT_BAD_MESSAGE, "an address more in place of the end");
    message[length - 3] = 9;
    memset(message + length - 11, 0xff, 8);
    expect(take() == SPELDERVACHT_BAD_ADDRESS, "all ones as the last address");
    message[10] = 2;
    expect(take() == SPELDERVACHT_WRONG_NUMBER, "another number");
}

/* The longest list that a standby takes. */
static void every_row(void) {
    static uint64_t large[MOST_TABLE_WORDS], room[MOST_ORDER_WORDS];
    const size_t rows = SPELDERVACHT_MOST_ROWS;
    expect(speldervacht_open(large, MOST_TABLE_WORDS, rows, SPELDERVACHT_STANDBY, 1,
                             speldervacht_default_settings(SPELDERVACHT_STANDBY))
                   .number == SPELDERVACHT_ACCEPTED,
           "opening with the most rows");
    for (size_t i = 0; i < rows; i++) {
        speldervacht_step(large, MOST_TABLE_WORDS, room, MOST_ORDER_WORDS, NULL, 0,
                          speldervacht_request_of(SPELDERVACHT_INSERT, long_list[i], 1));
    }
    expect(speldervacht_report(large, MOST_TABLE_WORDS).dirty == rows, "every row is dirty");
    expect(checked_take(large, MOST_TABLE_WORDS, 1, long_list, rows + 1) == SPELDERVACHT_BAD_LIST, "one too many");
    expect(checked_take(large, MOST_TABLE_WORDS, 1, long_list, rows) == SPELDERVACHT_ACCEPTED, "all of them");
    expect(speldervacht_report(large, MOST_TABLE_WORDS).dirty == 0, "every row is clean");
}

static void long_lists(void) {
    for (size_t i = 0; i < sizeof long_list / sizeof long_list[0]; i++) {
        long_list[i] = 1000 + i;
    }
    long_lists_written();
    long_message(SPELDERVACHT_MOST_ROWS);
    long_message(SPELDERVACHT_MOST_ROWS + 1);
    long_message(SPELDERVACHT_MOST_LISTED);
    every_row();
}

/* ---- any bytes */

#define ANY -1

/* Whether a message with so many addresses may have this byte at a place. */
static int may_have(size_t at, size_t count, uint8_t byte) {
    static const int head[16] = {1, 0, 8, ANY, ANY, ANY, ANY, ANY, ANY, ANY, ANY, 2, 0, 2, ANY, ANY};
    static const int address[11] = {3, 0, 8, ANY, ANY, ANY, ANY, ANY, ANY, ANY, ANY};
    static const int end[3] = {9, 0, 0};
    int wanted;
    if (at >= 19 + 11 * count) {
        return 0;
    }
    wanted = at < 16 ? head[at] : at < 16 + 11 * count ? address[(at - 16) % 11] : end[at - 16 - 11 * count];
    return wanted == ANY || wanted == byte;
}

/* The number in so many bytes from a place on. */
static uint64_t number_at(size_t at, size_t count) {
    uint64_t number = 0;
    for (size_t i = at; i < at + count; i++) {
        number = number << 8 | message[i];
    }
    return number;
}

/* What a right message is answered by a standby in which 100 and 200 are dirty. */
static uint64_t expected_of_list(uint64_t next, uint64_t number, const uint64_t *list, size_t count) {
    uint64_t answer = SPELDERVACHT_ACCEPTED;
    if (next == 0 || number != next) {
        return SPELDERVACHT_WRONG_NUMBER;
    }
    for (size_t i = 0; i < count; i++) {
        if (list[i] == SPELDERVACHT_NO_ADDRESS) {
            return SPELDERVACHT_BAD_ADDRESS;
        }
        if ((list[i] != 100 && list[i] != 200) || (i > 0 && list[i] == list[0]) || i > 1) {
            answer = SPELDERVACHT_BAD_LIST;
        }
    }
    return answer;
}

/* What the message is answered. */
static uint64_t expected(uint64_t next) {
    uint64_t list[8];
    size_t count = length < 16 ? SPELDERVACHT_MOST_LISTED : (size_t)number_at(14, 2);
    for (size_t at = 0; at < length; at++) {
        if (!may_have(at, count, message[at])) {
            return SPELDERVACHT_BAD_MESSAGE;
        }
    }
    if (length < 19 + 11 * count) {
        return SPELDERVACHT_CUT_MESSAGE;
    }
    for (size_t i = 0; i < count; i++) {
        list[i] = number_at(19 + 11 * i, 8);
    }
    return expected_of_list(next, number_at(3, 8), list, count);
}

/* Every beginning of a message, and every message with one byte changed. */
static void each_damage(void) {
    const char *const places = "fffnnnnnnnnfffccfffaaaaaaaafffaaaaaaaafff"; /* fixed, number, count, address */
    read_message(FIRST);
    expect(length == strlen(places) && length == 41, "41 bytes");
    for (size_t at = 0; places[at] != '\0'; at++) {
        open_with_two(SPELDERVACHT_STANDBY);
        read_message(FIRST);
        length = at;
        expect(take() == SPELDERVACHT_CUT_MESSAGE, "a message that ends early");
        read_message(FIRST);
        for (unsigned more = 1; more < 256; more++) {
            message[at]++;
            expect(take() == (places[at] == 'n'   ? SPELDERVACHT_WRONG_NUMBER
                              : places[at] == 'a' ? SPELDERVACHT_BAD_LIST
                                                  : SPELDERVACHT_BAD_MESSAGE),
                   "a message with one byte changed");
        }
    }
}

static uint8_t likely_byte(void) {
    static const uint8_t likely[] = {0, 1, 2, 3, 8, 9, 100, 200, 255};
    return below(4) == 0 ? (uint8_t)below(256) : likely[below(sizeof likely)];
}

static uint64_t near(uint64_t number) {
    return below(4) == 0 ? number - 2 + below(5) : number;
}

/* A message with up to three addresses, with bytes changed, lost, brought in or put behind it. */
static void damaged_message(uint64_t next) {
    static const uint64_t likely[] = {100, 200, 300, SPELDERVACHT_NO_ADDRESS};
    uint64_t list[3];
    size_t at;
    for (size_t i = 0; i < 3; i++) {
        list[i] = likely[below(below(3) == 0 ? 4 : 2)];
    }
    write_list(near(next), list, below(4));
    at = below(length);
    switch (below(6)) {
    case 0: length = at; break;
    case 1: message[at] = likely_byte(); break;
    case 2: message[length++] = likely_byte(); break;
    case 3: memmove(message + at, message + at + 1, --length - at); break;
    case 4:
        memmove(message + at + 1, message + at, length++ - at);
        message[at] = likely_byte();
        break;
    default: break;
    }
}

static void random_bytes(void) {
    length = below(60);
    for (size_t i = 0; i < length; i++) {
        message[i] = likely_byte();
    }
}

static void any_bytes(void) {
    static const uint64_t nexts[] = {0, 1, 2, 255, 256, LAST_LISTED};
    unsigned answers[LAST_NUMBER + 1] = {0};
    for (unsigned i = 0; i < RANDOM_MESSAGES; i++) {
        uint64_t next = nexts[below(sizeof nexts / sizeof nexts[0])], answer;
        open_with_two(SPELDERVACHT_STANDBY);
        table[NEXT] = next;
        if (i % 8 == 0) {
            random_bytes();
        } else {
            damaged_message(next);
        }
        answer = take();
        expect(answer == expected(next), "the answer to any bytes");
        answers[answer]++;
    }
    for (uint64_t number = SPELDERVACHT_CUT_MESSAGE; number <= SPELDERVACHT_WRONG_NUMBER; number++) {
        expect(answers[number] > RANDOM_MESSAGES / 20, "messages of each sort");
    }
    expect(answers[SPELDERVACHT_ACCEPTED] > RANDOM_MESSAGES / 20, "messages that are taken");
    expect(answers[SPELDERVACHT_BAD_ADDRESS] > RANDOM_MESSAGES / 100, "messages that name all ones");
    expect(answers[SPELDERVACHT_BAD_LIST] > RANDOM_MESSAGES / 100, "messages with addresses that are not dirty");
}

int main(int count, char **arguments) {
    if (count != 2) {
        printf("usage: messages FILE, which has the vectors of docs/MESSAGE.md\n");
        return 2;
    }
    expect(vectors_are_in(arguments[1]), "the page has each vector");
    each_vector();
    in_turn();
    last_numbers();
    other_modes();
    any_number();
    used_up();
    lead_without_number();
    batch_without_number();
    old_tables();
    written();
    long_lists();
    each_damage();
    any_bytes();
    return outcome("messages are judged right");
}
