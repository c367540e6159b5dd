/* Batches beside the same requests done one by one: answers and all words. Also compiles as C++. */
#include "expect.h"
#include "random.h"
#include "speldervacht.h"

#include <string.h>

#define ROWS 4
#define TABLE SPELDERVACHT_TABLE_WORDS(ROWS)
#define ORDERS SPELDERVACHT_ORDER_WORDS(ROWS)
#define MOST_REQUESTS 40
#define REQUESTS SPELDERVACHT_REQUEST_WORDS(MOST_REQUESTS)
#define ANSWERS SPELDERVACHT_ANSWER_WORDS(MOST_REQUESTS)
#define MOST_ORDERS SPELDERVACHT_BATCH_ORDER_WORDS(ROWS, 60)
#define MODES 3
#define NEXT 8     /* where a table has the number of the next message */
#define EXCEEDED 9 /* where it has whether making room found the maximum exceeded: 0 or 1 */
#define RUNS 3000

/* A cache and all that is lent for a batch. */
typedef struct side {
    uint64_t table[TABLE], orders[MOST_ORDERS], answers[ANSWERS];
} side;

static side batched, stepped;
static uint64_t requests[REQUESTS];
static size_t length; /* of the requests, in words */

static void put(uint64_t kind, uint64_t address, uint64_t size) {
    requests[length++] = kind;
    requests[length++] = address;
    requests[length++] = size;
}

static speldervacht_settings small_settings(uint64_t mode) {
    speldervacht_settings settings = speldervacht_default_settings(mode);
    settings.initial = 4096;
    settings.largest = 16384;
    settings.smallest = 1024;
    settings.clean = 0.0;
    settings.epoch = SPELDERVACHT_SHORTEST_EPOCH;
    return settings;
}

/* Two equal caches, all other words alike, and no requests. */
static void open_both(uint64_t mode) {
    memset(&batched, 0x5a, sizeof batched);
    expect(speldervacht_open(batched.table, TABLE, ROWS, mode, 1000, small_settings(mode)).number ==
               SPELDERVACHT_ACCEPTED,
           "opening");
    stepped = batched;
    length = 0;
}

static int batch_kind(uint64_t kind) {
    return kind >= SPELDERVACHT_INSERT && kind <= SPELDERVACHT_SYNC;
}

/* The requests one by one, with as many words as the batch is lent. */
static speldervacht_batched one_by_one(size_t order_words, size_t answer_words) {
    speldervacht_batched told = {SPELDERVACHT_FEW_ORDER_WORDS, 0, 0};
    for (; 3 * told.done + 3 <= length; told.done++) {
        const uint64_t *words = requests + 3 * told.done;
        uint64_t *answers = stepped.answers + 2 * told.done;
        speldervacht_answer answer = {SPELDERVACHT_BAD_MODE, 0, 0};
        if (2 * told.done + 2 > answer_words) {
            return told;
        }
        if (batch_kind(words[0])) {
            answer = speldervacht_step(stepped.table, TABLE, stepped.orders + 3 * told.orders,
                                       order_words - 3 * told.orders, NULL, 0,
                                       speldervacht_request_of(words[0], words[1], words[2]));
        }
        if (answer.number == SPELDERVACHT_FEW_ORDER_WORDS) {
            return told;
        }
        answers[0] = answer.number;
        answers[1] = answer.orders;
        told.orders += answer.orders;
    }
    told.number = SPELDERVACHT_ACCEPTED;
    return told;
}

/* The batch. It is told, and leaves every word, as one request after another. */
static speldervacht_batched checked_batch(size_t order_words, size_t answer_words) {
    const speldervacht_batched expected = one_by_one(order_words, answer_words);
    speldervacht_batched told;
    uint64_t before[REQUESTS];
    memcpy(before, requests, sizeof before);
    told = speldervacht_batch(batched.table, TABLE, batched.orders, order_words, requests, length, batched.answers,
                              answer_words);
    expect(told.number == expected.number && told.done == expected.done && told.orders == expected.orders,
           "what the batch came to");
    expect(memcmp(&batched, &stepped, sizeof batched) == 0, "every word");
    expect(memcmp(before, requests, sizeof before) == 0, "the requests stay");
    return told;
}

static int answered(size_t at, uint64_t number, uint64_t orders) {
    return batched.answers[2 * at] == number && batched.answers[2 * at + 1] == orders;
}

/* Two inserts, a hold, a refusal and a release; then an insert for which a row is wanted. */
static void worked(void) {
    for (uint64_t mode = 0; mode < MODES; mode++) {
        speldervacht_batched told;
        open_both(mode);
        put(SPELDERVACHT_INSERT, 100, 3000);
        put(SPELDERVACHT_PROTECT_FOR_READING, 200, 50);
        put(SPELDERVACHT_DISCARD, 200, 0);
        put(SPELDERVACHT_RELEASE_UNCHANGED, 200, 0);
        put(SPELDERVACHT_INSERT, 300, 100);
        put(SPELDERVACHT_INSERT, 400, 100);
        put(SPELDERVACHT_INSERT, 500, 100);
        told = checked_batch(MOST_ORDERS, ANSWERS);
        expect(told.number == SPELDERVACHT_ACCEPTED && told.done == 7, "all are answered");
        expect(answered(0, SPELDERVACHT_ACCEPTED, 0) && answered(1, SPELDERVACHT_ACCEPTED, 1), "an insert, a load");
        expect(answered(2, SPELDERVACHT_HELD, 0) && batched.answers[6] == SPELDERVACHT_ACCEPTED, "a refusal between");
        expect(batched.orders[0] == SPELDERVACHT_LOAD && batched.orders[1] == 200, "load 200");
        expect(batched.answers[12] == SPELDERVACHT_ACCEPTED && batched.answers[13] != 0, "the last makes room");
        expect(batched.orders[3 * told.orders - 3] == SPELDERVACHT_EVICT || mode == SPELDERVACHT_ALONE, "evict");
        expect(batched.answers[14] == UINT64_C(0x5a5a5a5a5a5a5a5a), "words past the last answer stay");
    }
}

/* Two loads, of one order each: what is lent is enough for one, or for both. */
static void order_words(void) {
    speldervacht_batched told;
    open_both(SPELDERVACHT_LEAD);
    put(SPELDERVACHT_PROTECT_FOR_READING, 100, 50);
    put(SPELDERVACHT_PIN, 100, 0);
    put(SPELDERVACHT_PROTECT_FOR_READING, 200, 50);
    told = checked_batch(ORDERS - 1, ANSWERS);
    expect(told.number == SPELDERVACHT_FEW_ORDER_WORDS && told.done == 0 && told.orders == 0, "too few for the first");
    told = checked_batch(SPELDERVACHT_BATCH_ORDER_WORDS(ROWS, 1) - 1, ANSWERS);
    expect(told.number == SPELDERVACHT_FEW_ORDER_WORDS && told.done == 2 && told.orders == 1,
           "too few for the last; a pin needs none");
    length = 0;
    put(SPELDERVACHT_PROTECT_FOR_READING, 200, 50);
    told = checked_batch(ORDERS, ANSWERS);
    expect(told.number == SPELDERVACHT_ACCEPTED && told.done == 1 && batched.orders[1] == 200, "the rest");
    put(SPELDERVACHT_INSERT, 300, 50);
    requests[1] = 400;
    told = checked_batch(SPELDERVACHT_BATCH_ORDER_WORDS(ROWS, 1), ANSWERS);
    expect(told.number == SPELDERVACHT_ACCEPTED && told.done == 2 && told.orders == 1, "words for one order more");
    /* A refusal that comes after 2 among the numbers does not come before it. */
    told = checked_batch(0, ANSWERS);
    expect(told.number == SPELDERVACHT_FEW_ORDER_WORDS && told.done == 0, "2 before 7");
}

static void answer_words(void) {
    speldervacht_batched told;
    const size_t enough = SPELDERVACHT_ANSWER_WORDS(2);
    for (size_t words = 0; words <= enough + 1; words++) {
        open_both(SPELDERVACHT_STANDBY);
        put(SPELDERVACHT_INSERT, 100, 50);
        put(SPELDERVACHT_INSERT, 200, 50);
        told = checked_batch(MOST_ORDERS, words);
        expect(told.number == (words < enough ? SPELDERVACHT_FEW_ORDER_WORDS : SPELDERVACHT_ACCEPTED), "stops, or not");
        expect(told.done == (words < enough ? words / 2 : 2), "two words for each answer");
        expect(speldervacht_report(batched.table, TABLE).entries == told.done, "what is not answered is not done");
    }
}

/* Kinds that a batch has not. */
static void other_kinds(void) {
    const uint64_t others[] = {0, SPELDERVACHT_TAKE, SPELDERVACHT_CONFIGURE, SPELDERVACHT_CONFIGURE + 1, UINT64_MAX};
    const size_t count = sizeof others / sizeof others[0];
    side before;
    open_both(SPELDERVACHT_STANDBY);
    before = batched;
    for (size_t i = 0; i < count; i++) {
        put(others[i], 100, 50);
    }
    expect(checked_batch(0, ANSWERS).done == count, "all are answered, with no order words");
    for (size_t i = 0; i < count; i++) {
        expect(answered(i, SPELDERVACHT_BAD_MODE, 0), "5");
    }
    expect(memcmp(before.table, batched.table, sizeof before.table) == 0, "they change nothing");
    put(SPELDERVACHT_INSERT, 100, 50);
    checked_batch(MOST_ORDERS, ANSWERS);
    expect(answered(count, SPELDERVACHT_ACCEPTED, 0), "the batch goes on");
}

static void expect_damaged(uint64_t *table, size_t words, const char *what) {
    const side before = batched;
    speldervacht_batched told =
        speldervacht_batch(table, words, batched.orders, MOST_ORDERS, requests, length, batched.answers, ANSWERS);
    expect(told.number == SPELDERVACHT_BAD_TABLE && told.done == 0 && told.orders == 0, what);
    expect(memcmp(&before, &batched, sizeof before) == 0, "a damaged table changes no word");
}

static void damaged(void) {
    open_both(SPELDERVACHT_ALONE);
    for (int empty = 1; empty >= 0; empty--) {
        expect_damaged(NULL, 0, "no table");
        expect_damaged(batched.table, TABLE - 1, "a short table");
        batched.table[6]++;
        expect_damaged(batched.table, TABLE, "more hits than accesses");
        batched.table[6]--;
        batched.table[EXCEEDED] = 2;
        expect_damaged(batched.table, TABLE, "neither 0 nor 1");
        batched.table[EXCEEDED] = UINT64_MAX;
        expect_damaged(batched.table, TABLE, "all ones for 0 or 1");
        batched.table[EXCEEDED] = 0;
        if (empty) {
            put(SPELDERVACHT_INSERT, 100, 50);
        }
    }
    expect(checked_batch(MOST_ORDERS, ANSWERS).done == 1, "the table as it was");
}

/* One or two words are no request, and no words are lent as NULL. */
static void parts(void) {
    speldervacht_batched told;
    for (size_t more = 0; more < 3; more++) {
        open_both(SPELDERVACHT_ALONE);
        put(SPELDERVACHT_INSERT, 100, 50);
        put(SPELDERVACHT_INSERT, 200, 50);
        length = SPELDERVACHT_REQUEST_WORDS(1) + more;
        told = checked_batch(MOST_ORDERS, ANSWERS);
        expect(told.number == SPELDERVACHT_ACCEPTED && told.done == 1, "a part of a request");
    }
    told = speldervacht_batch(batched.table, TABLE, NULL, 0, NULL, 0, NULL, 0);
    expect(told.number == SPELDERVACHT_ACCEPTED && told.done == 0 && told.orders == 0, "nothing is lent");
    told = speldervacht_batch(batched.table, TABLE, NULL, 0, requests, 3, batched.answers, ANSWERS);
    expect(told.number == SPELDERVACHT_FEW_ORDER_WORDS && told.done == 0, "no order words");
    told = speldervacht_batch(batched.table, TABLE, batched.orders, MOST_ORDERS, requests, 3, NULL, 0);
    expect(told.number == SPELDERVACHT_FEW_ORDER_WORDS && told.done == 0, "no answer words");
    expect(memcmp(&batched, &stepped, sizeof batched) == 0, "every word");
}

/* Any kind, and many releases, so that there is something to evict. */
static uint64_t random_kind(void) {
    switch (below(5)) {
    case 0: return below(SPELDERVACHT_CONFIGURE + 2);
    case 1:
    case 2: return SPELDERVACHT_RELEASE_UNCHANGED;
    default: return SPELDERVACHT_INSERT + below(9);
    }
}

/* Random batches, cut short at random places, and gone on with. A lead comes to its last number. */
static void random_batches(void) {
    unsigned stopped = 0, refused = 0, whole = 0, numberless = 0;
    for (unsigned run = 0; run < RUNS; run++) {
        uint64_t count = below(MOST_REQUESTS);
        speldervacht_batched told;
        if (run % 50 == 0) {
            open_both(run / 50 % MODES);
            batched.table[NEXT] = stepped.table[NEXT] = UINT64_MAX - below(8);
        }
        length = 0;
        for (uint64_t i = 0; i < count; i++) {
            put(random_kind(), below(8), 1 + below(below(4) == 0 ? 3000 : 600));
        }
        told = checked_batch(below(2) ? MOST_ORDERS : ORDERS + below(60), below(4) ? ANSWERS : below(ANSWERS));
        stopped += told.number == SPELDERVACHT_FEW_ORDER_WORDS && told.done > 0;
        whole += told.number == SPELDERVACHT_ACCEPTED && told.orders > 3;
        for (uint64_t i = 0; i < told.done; i++) {
            refused += batched.answers[2 * i] != SPELDERVACHT_ACCEPTED;
            numberless += batched.answers[2 * i] == SPELDERVACHT_WRONG_NUMBER;
        }
    }
    expect(stopped > RUNS / 20 && whole > RUNS / 20 && refused > RUNS, "batches of each sort");
    expect(numberless > RUNS / 100, "flushes and syncs without a number");
}

int main(void) {
    worked();
    order_words();
    answer_words();
    other_kinds();
    damaged();
    parts();
    random_batches();
    return outcome("batches are requests one by one");
}
