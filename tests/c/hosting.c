/* What docs/HOSTING.md says: its C, which tests/run takes from it into hosting.h, and what orders may be.
 * Also compiles as C++. */
#include "expect.h"
#include "random.h"
#include "speldervacht.h"

#include <string.h>

#include "hosting.h"

#define ROWS 8
#define TABLE SPELDERVACHT_TABLE_WORDS(ROWS)
#define ORDERS SPELDERVACHT_ORDER_WORDS(ROWS)
#define FIRST_ROW 31 /* where a table has its rows */

/* ---- the page's C: a pair with two rows each, and a write that can be made to fail */

static uint64_t words[2][3][TABLE + ORDERS];
static host lead, standby;
static int write_fails;
static unsigned written, evicted;

static int carry_out_pair(const uint64_t *some, uint64_t count) {
    for (uint64_t i = 0; i < count; i++) {
        if (some[3 * i] == SPELDERVACHT_WRITE && write_fails) {
            return -1;
        }
        written += some[3 * i] == SPELDERVACHT_WRITE;
        evicted += some[3 * i] == SPELDERVACHT_EVICT;
    }
    return 0;
}

static int carry_out_batch(const uint64_t *some, uint64_t count);

int carry_out(host *side, const uint64_t *some, uint64_t count) {
    return side == &lead || side == &standby ? carry_out_pair(some, count) : carry_out_batch(some, count);
}

static void open_side(host *side, uint64_t mode) {
    side->table = words[side == &standby][0];
    side->copy = words[side == &standby][1];
    side->orders = words[side == &standby][2];
    side->table_words = SPELDERVACHT_TABLE_WORDS(2);
    side->order_words = SPELDERVACHT_ORDER_WORDS(2);
    expect(speldervacht_open(side->table, side->table_words, 2, mode, 1000, speldervacht_default_settings(mode)).number ==
               SPELDERVACHT_ACCEPTED,
           "opening");
}

static uint64_t dirty(const host *side) {
    return speldervacht_report(side->table, side->table_words).dirty;
}

static uint64_t both(uint64_t kind, uint64_t address, uint64_t size) {
    return change_both(&lead, &standby, speldervacht_request_of(kind, address, size));
}

static void pair(void) {
    uint64_t before[SPELDERVACHT_TABLE_WORDS(2)];
    open_side(&lead, SPELDERVACHT_LEAD);
    open_side(&standby, SPELDERVACHT_STANDBY);
    expect(both(SPELDERVACHT_INSERT, 100, 10) == SPELDERVACHT_ACCEPTED, "a change at both");
    expect(dirty(&lead) == 10 && dirty(&standby) == 10, "both have it");
    do_request(&standby, NULL, 0, speldervacht_request_of(SPELDERVACHT_PROTECT_FOR_READING, 200, 20));
    do_request(&standby, NULL, 0, speldervacht_request_of(SPELDERVACHT_RELEASE_UNCHANGED, 200, 0));
    expect(both(SPELDERVACHT_INSERT, 200, 20) == SPELDERVACHT_IN_CACHE, "the standby would refuse");
    expect(dirty(&lead) == 10 && dirty(&standby) == 10, "neither has it");
    expect(both(SPELDERVACHT_DISCARD, 200, 0) == SPELDERVACHT_ACCEPTED, "what helps");
    expect(both(SPELDERVACHT_INSERT, 200, 20) == SPELDERVACHT_ACCEPTED, "both say yes");
    expect(both(SPELDERVACHT_INSERT, 300, 30) == SPELDERVACHT_NO_ROW, "both would refuse");
    memcpy(before, lead.table, sizeof before);
    write_fails = 1;
    expect(send_list(&lead, &standby, SPELDERVACHT_FLUSH) == FAILED, "a write fails");
    expect(memcmp(before, lead.table, sizeof before) == 0 && dirty(&standby) == 30, "the flush is undone, no list went");
    write_fails = 0;
    expect(send_list(&lead, &standby, SPELDERVACHT_FLUSH) == SPELDERVACHT_ACCEPTED && written == 2, "a flush");
    expect(dirty(&lead) == 0 && dirty(&standby) == 0, "the list is taken");
    expect(next_number(&lead) == 2 && next_number(&standby) == 2, "it had number 1");
    expect(both(SPELDERVACHT_INSERT, 300, 30) == SPELDERVACHT_ACCEPTED && evicted == 2, "each has evicted one");
    expect(send_list(&standby, &lead, SPELDERVACHT_FLUSH) == SPELDERVACHT_BAD_MODE, "a refusal sends no list");
}

/* Two messages of the pair: in part, out of turn, again. */
static void sending_again(void) {
    static sending first, second;
    uint64_t before[SPELDERVACHT_TABLE_WORDS(2)];
    open_side(&lead, SPELDERVACHT_LEAD);
    open_side(&standby, SPELDERVACHT_STANDBY);
    both(SPELDERVACHT_INSERT, 100, 10);
    both(SPELDERVACHT_INSERT, 200, 20);
    expect(make_list(&lead, SPELDERVACHT_FLUSH, &first) == SPELDERVACHT_ACCEPTED, "a list");
    expect(make_list(&lead, SPELDERVACHT_SYNC, &second) == SPELDERVACHT_ACCEPTED, "an empty list");
    expect(first.number == 1 && second.number == 2 && first.bytes == 41 && second.bytes == 19, "their messages");
    memcpy(before, standby.table, sizeof before);
    first.bytes--;
    expect(take_list(&standby, &first) == SPELDERVACHT_CUT_MESSAGE, "a part of it");
    first.bytes++;
    expect(take_list(&standby, &second) == SPELDERVACHT_WRONG_NUMBER, "out of turn");
    expect(memcmp(before, standby.table, sizeof before) == 0, "neither changes anything");
    expect(take_list(&standby, &first) == SPELDERVACHT_ACCEPTED && dirty(&standby) == 0, "the first");
    both(SPELDERVACHT_DISCARD, 100, 0);
    both(SPELDERVACHT_INSERT, 100, 10);
    expect(take_list(&standby, &first) == SPELDERVACHT_ACCEPTED && dirty(&standby) == 10, "it was taken before");
    expect(take_list(&standby, &second) == SPELDERVACHT_ACCEPTED && next_number(&standby) == 3, "the second");
    expect(take_list(&standby, &first) == SPELDERVACHT_WRONG_NUMBER, "not the last that was taken");
}

/* A lead that is opened fresh beside a standby that goes on, and both opened fresh. */
static void opened_apart(void) {
    open_side(&lead, SPELDERVACHT_LEAD);
    expect(send_list(&lead, &standby, SPELDERVACHT_SYNC) == SPELDERVACHT_WRONG_NUMBER, "the lead begins with 1");
    open_side(&lead, SPELDERVACHT_LEAD);
    open_side(&standby, SPELDERVACHT_STANDBY);
    expect(send_list(&lead, &standby, SPELDERVACHT_SYNC) == SPELDERVACHT_ACCEPTED, "both begin with 1");
}

/* ---- one cache */

static uint64_t table[TABLE], orders[ORDERS];

static void open_cache(uint64_t mode, speldervacht_settings settings) {
    expect(speldervacht_open(table, TABLE, ROWS, mode, 1000, settings).number == SPELDERVACHT_ACCEPTED, "opening");
}

static speldervacht_answer step(uint64_t kind, uint64_t address, uint64_t size) {
    return speldervacht_step(table, TABLE, orders, ORDERS, NULL, 0, speldervacht_request_of(kind, address, size));
}

static speldervacht_answer configure(speldervacht_settings settings) {
    speldervacht_request request = speldervacht_request_of(SPELDERVACHT_CONFIGURE, 0, 0);
    request.settings = settings;
    return speldervacht_step(table, TABLE, orders, ORDERS, NULL, 0, request);
}

/* Small, and fixed unless a rule is put on again; 0.3 is to be clean in every mode. */
static speldervacht_settings small_settings(void) {
    speldervacht_settings settings = speldervacht_default_settings(SPELDERVACHT_ALONE);
    settings.initial = settings.smallest = 1024;
    settings.clean = 0.3;
    settings.increase_kind = SPELDERVACHT_INCREASE_OFF;
    settings.flash_kind = SPELDERVACHT_FLASH_OFF;
    settings.decrease_kind = SPELDERVACHT_DECREASE_OFF;
    return settings;
}

/* A record above the maximum is written and evicted by its own release. */
static void own_release(void) {
    open_cache(SPELDERVACHT_ALONE, small_settings());
    step(SPELDERVACHT_PROTECT_FOR_WRITING, 100, 10);
    expect(step(SPELDERVACHT_RELEASE_CHANGED, 100, 3000).orders == 2, "two orders");
    expect(orders[0] == SPELDERVACHT_WRITE && orders[1] == 100 && orders[2] == 3000, "write 100 3000");
    expect(orders[3] == SPELDERVACHT_EVICT && orders[4] == 100 && orders[5] == 3000, "evict 100 3000");
}

/* A pinned record that nobody holds is made dirty by a resize, stays, and is written by a flush. */
static void pinned_change(void) {
    open_cache(SPELDERVACHT_ALONE, small_settings());
    step(SPELDERVACHT_PROTECT_FOR_READING, 100, 10);
    step(SPELDERVACHT_PIN, 100, 0);
    step(SPELDERVACHT_RELEASE_UNCHANGED, 100, 0);
    expect(speldervacht_report(table, TABLE).dirty == 0, "it is clean");
    expect(step(SPELDERVACHT_RESIZE, 100, 10).number == SPELDERVACHT_ACCEPTED, "a resize to the same size");
    expect(speldervacht_report(table, TABLE).dirty == 10, "it is dirty");
    expect(step(SPELDERVACHT_INSERT, 200, 3000).orders == 0, "room is not made of it");
    expect(step(SPELDERVACHT_FLUSH, 0, 0).orders == 2 && orders[1] == 100, "a flush writes it");
}

/* A lead whose rows are dirty and whose bytes are few: a sync writes nothing, unless all is to be clean. */
static void no_row(void) {
    speldervacht_settings settings = small_settings();
    open_cache(SPELDERVACHT_LEAD, settings);
    for (uint64_t address = 0; address < ROWS; address++) {
        step(SPELDERVACHT_INSERT, address, 10);
    }
    step(SPELDERVACHT_PROTECT_FOR_READING, 0, 10);
    expect(step(SPELDERVACHT_INSERT, 100, 10).number == SPELDERVACHT_NO_ROW, "no row");
    expect(speldervacht_report(table, TABLE).missing == 0, "the clean share is met");
    expect(step(SPELDERVACHT_SYNC, 0, 0).orders == 0, "a sync writes nothing");
    expect(step(SPELDERVACHT_INSERT, 100, 10).number == SPELDERVACHT_NO_ROW, "still no row");
    expect(step(SPELDERVACHT_FLUSH, 0, 0).number == SPELDERVACHT_HELD, "a flush is refused");
    settings.clean = 1.0;
    expect(configure(settings).number == SPELDERVACHT_ACCEPTED, "a clean fraction of 1");
    expect(step(SPELDERVACHT_SYNC, 0, 0).orders == ROWS - 1, "a sync writes all but the record that is held");
    expect(step(SPELDERVACHT_INSERT, 100, 10).number == SPELDERVACHT_ACCEPTED, "a row");
}

/* With evictions off nothing is written or evicted until the rows are used up. */
static void evictions_off(void) {
    speldervacht_settings settings = small_settings();
    open_cache(SPELDERVACHT_ALONE, settings);
    step(SPELDERVACHT_INSERT, 0, 900);
    settings.evictions = 0;
    expect(configure(settings).orders == 0, "evictions off");
    for (uint64_t address = 1; address < ROWS; address++) {
        speldervacht_answer answer = step(SPELDERVACHT_INSERT, address, 900);
        expect(answer.number == SPELDERVACHT_ACCEPTED && answer.orders == 0, "an insert without orders");
    }
    expect(step(SPELDERVACHT_INSERT, 100, 10).number == SPELDERVACHT_NO_ROW, "the rows are used up");
}

/* The access that ends an epoch gives orders, after the load if it misses. */
static void end_of_epoch(void) {
    speldervacht_settings settings = small_settings();
    settings.epoch = SPELDERVACHT_SHORTEST_EPOCH;
    settings.decrease_kind = SPELDERVACHT_DECREASE_BY_AGE_OUT;
    settings.decrease_epochs = 1;
    for (uint64_t last = 2; last <= 3; last++) {
        speldervacht_answer answer;
        open_cache(SPELDERVACHT_ALONE, settings);
        step(SPELDERVACHT_INSERT, 1, 10);
        for (uint64_t access = 1; access < 2 * settings.epoch; access++) {
            step(SPELDERVACHT_PROTECT_FOR_READING, 2, 10);
            step(SPELDERVACHT_RELEASE_UNCHANGED, 2, 0);
        }
        answer = step(SPELDERVACHT_PROTECT_FOR_READING, last, 10);
        expect(answer.orders == last, "orders at the end of an epoch");
        expect(last == 2 || orders[0] == SPELDERVACHT_LOAD, "the load");
        expect(orders[3 * last - 6] == SPELDERVACHT_WRITE && orders[3 * last - 5] == 1, "write 1");
        expect(orders[3 * last - 3] == SPELDERVACHT_EVICT && orders[3 * last - 2] == 1, "evict 1");
    }
}

/* ---- what orders may be, over random requests */

#define REQUESTS 200000
#define MODES 3

/* How often a request's orders named its own record, by request, kind of order and mode. */
static unsigned own[SPELDERVACHT_CONFIGURE + 1][SPELDERVACHT_LOAD + 1][MODES];

static void expect_orders(uint64_t mode, uint64_t kind, uint64_t address, uint64_t count) {
    int lists = kind == SPELDERVACHT_FLUSH || kind == SPELDERVACHT_SYNC;
    int protects = kind == SPELDERVACHT_PROTECT_FOR_READING || kind == SPELDERVACHT_PROTECT_FOR_WRITING;
    expect(count == 0 || kind <= SPELDERVACHT_RELEASE_CHANGED || lists, "this request gives no orders");
    for (uint64_t i = 0; i < count; i++) {
        const uint64_t *order = orders + 3 * i;
        expect(order[0] != SPELDERVACHT_WRITE || lists || mode == SPELDERVACHT_ALONE, "who writes");
        expect(order[0] == SPELDERVACHT_WRITE || !lists, "flush and sync give writes");
        expect(order[0] != SPELDERVACHT_LOAD || (protects && order[1] == address), "a protect loads its record");
        for (uint64_t j = 0; j < i; j++) {
            expect(orders[3 * j + 1] != order[1] ||
                       (orders[3 * j] == SPELDERVACHT_WRITE && order[0] == SPELDERVACHT_EVICT),
                   "an address comes once, or as a write and later an evict");
        }
        own[kind][order[0]][mode] += order[1] == address && !lists;
    }
}

/* How often clean bytes were missing before an insert that wrote; before a sync that wrote enough, or too little; and
 * with nothing dirty. */
static unsigned before_insert, before_enough, before_too_little, with_nothing_dirty;

/* The dirty records of the recency list. */
static unsigned dirty_listed(void) {
    unsigned count = 0;
    const size_t run = FIRST_ROW + 6 * ROWS;
    for (size_t place = run; place < run + ROWS && table[place] != UINT64_MAX; place++) {
        count += table[FIRST_ROW + 6 * table[place] + 2] != 0;
    }
    return count;
}

/* What is missing is written by a sync, or by an insert if alone, as far as the recency list has dirty records. */
static void expect_written(uint64_t mode, uint64_t kind, unsigned listed, uint64_t missing,
                           speldervacht_answer answer) {
    speldervacht_figures figures = speldervacht_report(table, TABLE);
    uint64_t bytes = 0;
    for (uint64_t i = 0; i < answer.orders; i++) {
        bytes += orders[3 * i] == SPELDERVACHT_WRITE ? orders[3 * i + 2] : 0;
    }
    with_nothing_dirty += figures.missing != 0 && figures.dirty == 0;
    if (answer.number != SPELDERVACHT_ACCEPTED || missing == 0) {
        expect(kind != SPELDERVACHT_SYNC || bytes == 0, "a sync writes nothing where nothing is missing");
        return;
    }
    if (kind == SPELDERVACHT_SYNC) {
        expect(figures.missing == (missing > bytes ? missing - bytes : 0), "what is written is missing no longer");
        expect(figures.missing == 0 || dirty_listed() == 0, "a sync writes enough, or all of the recency list");
        before_enough += figures.missing == 0;
        before_too_little += figures.missing != 0;
    }
    if (kind == SPELDERVACHT_INSERT && mode == SPELDERVACHT_ALONE) {
        expect(bytes != 0 || listed == 0, "an insert writes what is missing");
        before_insert += listed != 0;
    }
}

static void random_requests(void) {
    for (unsigned i = 0, mode = 0; i < REQUESTS; i++) {
        uint64_t kind = below(50) == 0 ? 10 + below(2) : 1 + below(9);
        uint64_t address = below(14), size = 1 + below(below(4) == 0 ? 3000 : 600);
        speldervacht_answer answer;
        uint64_t missing;
        unsigned listed;
        if (i % 1000 == 0) {
            mode = (mode + 1) % MODES;
            open_cache(mode, small_settings());
        }
        missing = speldervacht_report(table, TABLE).missing;
        listed = dirty_listed();
        answer = step(kind, address, size);
        expect_orders(mode, kind, address, answer.orders);
        expect_written(mode, kind, listed, missing, answer);
    }
    expect(before_insert > 100 && before_enough > 10 && before_too_little > 10, "clean bytes were missing");
    expect(with_nothing_dirty > 100, "with nothing dirty too");
    for (int mode = 0; mode < MODES; mode++) {
        int alone = mode == SPELDERVACHT_ALONE;
        for (int kind = SPELDERVACHT_WRITE; kind <= SPELDERVACHT_LOAD; kind++) {
            int loads = kind == SPELDERVACHT_LOAD;
            expect(own[SPELDERVACHT_INSERT][kind][mode] == 0, "an insert does not name its record");
            expect((own[SPELDERVACHT_PROTECT_FOR_READING][kind][mode] != 0) == loads, "a reader's protect loads alone");
            expect((own[SPELDERVACHT_PROTECT_FOR_WRITING][kind][mode] != 0) == loads, "a writer's protect loads alone");
            expect((own[SPELDERVACHT_RELEASE_CHANGED][kind][mode] != 0) == (alone && !loads),
                   "a changed release may write and evict its record if alone");
        }
        expect(own[SPELDERVACHT_RELEASE_UNCHANGED][SPELDERVACHT_EVICT][mode] != 0, "a release may evict its record");
        expect((own[SPELDERVACHT_RELEASE_UNCHANGED][SPELDERVACHT_WRITE][mode] != 0) == alone,
               "and may write it if alone");
    }
}

/* ---- batches whose orders fail, beside single requests whose orders do not */

#define BATCHES 3000
#define BATCH 30
#define BATCH_ORDERS SPELDERVACHT_BATCH_ORDER_WORDS(ROWS, 40)

static uint64_t batch_words[3][TABLE + BATCH_ORDERS];
static host batching = {batch_words[0], batch_words[1], batch_words[2], TABLE, BATCH_ORDERS};
static int in_memory[14];             /* of the batching host, by address */
static unsigned orders_until_failure; /* carried out before one fails */

/* The writes and the load, and then the evictions. What is loaded is dropped if one fails. */
static int carry_out_batch(const uint64_t *some, uint64_t count) {
    for (uint64_t i = 0; i < count; i++) {
        const uint64_t *order = some + 3 * i;
        if (order[0] == SPELDERVACHT_EVICT) {
            continue;
        }
        if (orders_until_failure-- == 0) {
            for (uint64_t j = 0; j < i; j++) {
                in_memory[some[3 * j + 1]] -= some[3 * j] == SPELDERVACHT_LOAD;
            }
            return -1;
        }
        expect(in_memory[order[1]] == (order[0] == SPELDERVACHT_WRITE), "what memory has");
        in_memory[order[1]] = 1;
    }
    for (uint64_t i = 0; i < count; i++) {
        if (some[3 * i] == SPELDERVACHT_EVICT) {
            in_memory[some[3 * i + 1]] = 0;
        }
    }
    return 0;
}

/* Inserts bring records and discards drop them. Both are single requests here, since do_batch leaves what else
 * happens in memory to its host. */
static void change_memory(uint64_t kind, uint64_t address) {
    uint64_t request[3] = {kind, address, 100}, answer[2];
    orders_until_failure = BATCH_ORDERS;
    expect(do_batch(&batching, request, 1, answer).done == 1, "a batch of one");
    if (answer[0] == SPELDERVACHT_ACCEPTED) {
        in_memory[address] = kind == SPELDERVACHT_INSERT;
    }
}

/* Memory has the records that the table has. */
static void expect_memory(void) {
    uint64_t there = 0;
    for (uint64_t row = 0; row < ROWS; row++) {
        const uint64_t *words_of_row = batching.table + FIRST_ROW + 6 * row;
        expect(words_of_row[1] == 0 || in_memory[words_of_row[0]], "memory has what the table has");
        there += words_of_row[1] != 0;
    }
    for (int address = 0; address < 14; address++) {
        there -= (uint64_t)in_memory[address];
    }
    expect(there == 0, "and no more");
}

/* A release behind a protect that is refused lets go of somebody else's hold. */
static void release_of_another(void) {
    const uint64_t requests[] = {SPELDERVACHT_PROTECT_FOR_READING, 100, 10, SPELDERVACHT_RELEASE_UNCHANGED, 100, 0};
    uint64_t answers[SPELDERVACHT_ANSWER_WORDS(2)];
    open_cache(SPELDERVACHT_LEAD, small_settings());
    step(SPELDERVACHT_PROTECT_FOR_WRITING, 100, 10);
    speldervacht_batch(table, TABLE, orders, ORDERS, requests, SPELDERVACHT_REQUEST_WORDS(2), answers,
                       SPELDERVACHT_ANSWER_WORDS(2));
    expect(answers[0] == SPELDERVACHT_HELD && answers[2] == SPELDERVACHT_ACCEPTED, "refused, and released");
    expect(step(SPELDERVACHT_RELEASE_UNCHANGED, 100, 0).number == SPELDERVACHT_NOT_HELD, "the writer's hold is gone");
}

static void failing_batches(void) {
    const uint64_t kinds[] = {SPELDERVACHT_PROTECT_FOR_READING, SPELDERVACHT_PROTECT_FOR_WRITING,
                              SPELDERVACHT_RELEASE_UNCHANGED,   SPELDERVACHT_RELEASE_UNCHANGED,
                              SPELDERVACHT_RELEASE_CHANGED,     SPELDERVACHT_FLUSH};
    unsigned failed = 0, after_some = 0, evicted_before = 0;
    open_cache(SPELDERVACHT_ALONE, small_settings());
    memcpy(batching.table, table, sizeof table);
    for (unsigned i = 0; i < BATCHES; i++) {
        uint64_t requests[3 * BATCH], answers[2 * BATCH], given = 0;
        speldervacht_batched batched;
        change_memory(SPELDERVACHT_INSERT, below(14));
        change_memory(SPELDERVACHT_DISCARD, below(14));
        for (uint64_t j = 0; j < BATCH; j++) {
            requests[3 * j] = kinds[below(6)];
            requests[3 * j + 1] = below(14);
            requests[3 * j + 2] = 1 + below(500);
        }
        memcpy(table, batching.table, sizeof table);
        orders_until_failure = (unsigned)below(20);
        batched = do_batch(&batching, requests, BATCH, answers);
        for (uint64_t j = 0; j < batched.done; j++) {
            speldervacht_answer answer = step(requests[3 * j], requests[3 * j + 1], requests[3 * j + 2]);
            expect(answers[2 * j] == answer.number && answers[2 * j + 1] == answer.orders, "the answers");
            expect(memcmp(orders, batching.orders + 3 * given, 24 * answer.orders) == 0, "the orders");
            given += answer.orders;
        }
        expect(memcmp(table, batching.table, sizeof table) == 0, "the table of the requests that are done");
        expect(batched.orders == given, "their orders");
        expect_memory();
        failed += batched.number == FAILED;
        after_some += batched.number == FAILED && given != 0;
        for (uint64_t j = 0; j < given && batched.number == FAILED; j++) {
            evicted_before += batching.orders[3 * j] == SPELDERVACHT_EVICT;
        }
    }
    expect(failed > BATCHES / 10 && after_some > BATCHES / 10, "failures, after other orders too");
    expect(evicted_before > BATCHES / 10, "failures after evictions");
}

int main(void) {
    pair();
    sending_again();
    opened_apart();
    own_release();
    pinned_change();
    no_row();
    evictions_off();
    end_of_epoch();
    random_requests();
    release_of_another();
    failing_batches();
    return outcome("a host is told right");
}
