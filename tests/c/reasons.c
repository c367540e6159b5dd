/* Requests explained: the reason of each order, and the cause and bound of each change of the maximum. Each is
 * done by step on a copy too. Also compiles as C++. */
#include "expect.h"
#include "random.h"
#include "speldervacht.h"

#include <string.h>

#define ROWS 4
#define TABLE SPELDERVACHT_TABLE_WORDS(ROWS)
#define ORDERS SPELDERVACHT_ORDER_WORDS(ROWS)
#define REASONS SPELDERVACHT_REASON_WORDS(ROWS)
#define SPARE 3 /* words past those that a request needs */
#define EPOCH SPELDERVACHT_SHORTEST_EPOCH
#define MODES 3
#define COUNT_OF(array) (sizeof(array) / sizeof(array)[0])

/* Where a table has what is read here; from LARGEST on, fields of the settings. */
#define MODE 2
#define MAXIMUM 4
#define ACCESSES 5
#define HITS 6
#define NEXT 8
#define LARGEST 14
#define SMALLEST 15
#define MULTIPLIER 19
#define INCREMENT_KIND 20
#define DECREASE_MULTIPLIER 28
#define DECREMENT_KIND 29

/* A cache and what is lent for a request, beside the reasons. */
typedef struct side {
    uint64_t table[TABLE], orders[ORDERS + SPARE];
} side;

static side here, there; /* explained, and done by step */
static uint64_t reasons[REASONS + SPARE];

/* How often each reason was named in each mode, and each bound with each cause. */
static unsigned named[MODES][SPELDERVACHT_REASON_LOAD + 1];
static unsigned changed[SPELDERVACHT_CAUSE_SETTINGS + 1][SPELDERVACHT_BOUND_DECREMENT + 1];

static int can_give_orders(uint64_t kind) {
    return (kind >= SPELDERVACHT_INSERT && kind <= SPELDERVACHT_RELEASE_CHANGED) || kind == SPELDERVACHT_FLUSH ||
           kind == SPELDERVACHT_SYNC || kind == SPELDERVACHT_CONFIGURE;
}

static int cause_has_bound(uint64_t cause, uint64_t bound) {
    switch (cause) {
    case SPELDERVACHT_CAUSE_NONE: return bound == SPELDERVACHT_BOUND_NONE;
    case SPELDERVACHT_CAUSE_INCREASE:
        return bound == SPELDERVACHT_BOUND_NONE || bound == SPELDERVACHT_BOUND_LARGEST ||
               bound == SPELDERVACHT_BOUND_INCREMENT;
    case SPELDERVACHT_CAUSE_FLASH: return bound == SPELDERVACHT_BOUND_NONE || bound == SPELDERVACHT_BOUND_LARGEST;
    case SPELDERVACHT_CAUSE_THRESHOLD:
    case SPELDERVACHT_CAUSE_AGE_OUT:
        return bound == SPELDERVACHT_BOUND_NONE || bound == SPELDERVACHT_BOUND_SMALLEST ||
               bound == SPELDERVACHT_BOUND_DECREMENT;
    case SPELDERVACHT_CAUSE_SETTINGS:
        return bound == SPELDERVACHT_BOUND_NONE || bound == SPELDERVACHT_BOUND_LARGEST ||
               bound == SPELDERVACHT_BOUND_SMALLEST;
    default: return 0;
    }
}

/* What a bound held the value to, by the settings as they are now and the maximum as it was. */
static uint64_t limit_of(uint64_t bound, uint64_t before) {
    const uint64_t decrement = here.table[DECREMENT_KIND + 1];
    switch (bound) {
    case SPELDERVACHT_BOUND_LARGEST: return here.table[LARGEST];
    case SPELDERVACHT_BOUND_SMALLEST: return here.table[SMALLEST];
    case SPELDERVACHT_BOUND_INCREMENT: return before + here.table[INCREMENT_KIND + 1];
    case SPELDERVACHT_BOUND_DECREMENT: return before > decrement ? before - decrement : 0;
    default: return here.table[MAXIMUM];
    }
}

/* The maximum, as it was, times the multiplier that a table has at this place. */
static uint64_t product(uint64_t before, size_t place) {
    double multiplier;
    memcpy(&multiplier, &here.table[place], sizeof multiplier);
    return (uint64_t)((double)before * multiplier);
}

/* The change of the maximum that is named is one that was made, and its bound held the value. */
static void expect_change_fits(speldervacht_explanation told, uint64_t before) {
    const uint64_t now = here.table[MAXIMUM];
    expect((told.cause != SPELDERVACHT_CAUSE_NONE) == (now != before), "a cause is named if the maximum changed");
    expect(cause_has_bound(told.cause, told.bound), "a bound that the cause can have");
    expect(limit_of(told.bound, before) == now, "the bound's limit is the new maximum");
    if (told.cause == SPELDERVACHT_CAUSE_INCREASE || told.cause == SPELDERVACHT_CAUSE_FLASH) {
        expect(now > before, "these raise the maximum");
    }
    if (told.cause == SPELDERVACHT_CAUSE_THRESHOLD || told.cause == SPELDERVACHT_CAUSE_AGE_OUT) {
        expect(now < before, "these lower it");
    }
    if (told.cause == SPELDERVACHT_CAUSE_INCREASE) {
        expect((told.bound == 0) == (product(before, MULTIPLIER) == now), "no bound if the product was not cut");
    }
    if (told.cause == SPELDERVACHT_CAUSE_THRESHOLD) {
        expect((told.bound == 0) == (product(before, DECREASE_MULTIPLIER) == now), "the same of a product that falls");
    }
    expect(told.bound != SPELDERVACHT_BOUND_INCREMENT || now < here.table[LARGEST], "a tie is the maximum size's");
    expect(told.bound != SPELDERVACHT_BOUND_DECREMENT || now > here.table[SMALLEST], "a tie is the minimum size's");
    if (told.cause <= SPELDERVACHT_CAUSE_SETTINGS && told.bound <= SPELDERVACHT_BOUND_DECREMENT) {
        changed[told.cause][told.bound]++;
    }
}

/* Each reason is one that its order can have in this mode, by the kind of the request. */
static void expect_reasons_fit(speldervacht_explanation told, uint64_t kind) {
    const uint64_t mode = here.table[MODE];
    for (uint64_t i = 0; i < told.orders; i++) {
        const uint64_t order = here.orders[3 * i], reason = reasons[i];
        const int by_list = kind == SPELDERVACHT_FLUSH || kind == SPELDERVACHT_SYNC;
        expect(reason >= SPELDERVACHT_REASON_ROOM_BY_BYTES && reason <= SPELDERVACHT_REASON_LOAD, "a reason there is");
        expect((reason == SPELDERVACHT_REASON_LOAD) == (order == SPELDERVACHT_LOAD), "a load, and nothing else");
        expect((reason == SPELDERVACHT_REASON_FLUSH) == (kind == SPELDERVACHT_FLUSH), "a flush, and nothing else");
        expect((reason == SPELDERVACHT_REASON_SYNC) == (kind == SPELDERVACHT_SYNC), "a sync, and nothing else");
        expect(reason != SPELDERVACHT_REASON_CLEAN_SHARE || order == SPELDERVACHT_WRITE, "its share by a write");
        expect(order != SPELDERVACHT_WRITE || by_list || mode == SPELDERVACHT_ALONE, "who writes as room is made");
        if (reason <= SPELDERVACHT_REASON_LOAD) {
            named[mode][reason]++;
        }
    }
}

/* A request explained, with so many words lent. Done by step on a copy it is answered the same and leaves the same
 * words, unless too few reason words refuse it. Words past the last reason stay, and so do all if it is refused. */
static speldervacht_explanation explain_with(size_t table_words, size_t order_words, size_t reason_words,
                                             const uint8_t *message, size_t message_bytes,
                                             speldervacht_request request) {
    const uint64_t before = here.table[MAXIMUM];
    speldervacht_explanation told;
    speldervacht_answer answer;
    memset(here.orders, 0x5a, sizeof here.orders);
    memset(reasons, 0xa5, sizeof reasons);
    there = here;
    answer = speldervacht_step(there.table, table_words, there.orders, order_words, message, message_bytes, request);
    if (answer.number != SPELDERVACHT_BAD_TABLE && can_give_orders(request.kind) && reason_words < REASONS) {
        const speldervacht_answer few = {SPELDERVACHT_FEW_ORDER_WORDS, 0, 0};
        answer = few;
        there = here;
    }
    told = speldervacht_explain(here.table, table_words, here.orders, order_words, reason_words == 0 ? NULL : reasons,
                                reason_words, message, message_bytes, request);
    expect(told.number == answer.number && told.field == answer.field && told.orders == answer.orders,
           "the answer is that of step");
    expect(memcmp(&here, &there, sizeof here) == 0, "every word of the table and of the orders too");
    for (size_t i = told.orders; i < REASONS + SPARE; i++) {
        expect(reasons[i] == UINT64_C(0xa5a5a5a5a5a5a5a5), "words past the last reason stay");
    }
    if (told.number == SPELDERVACHT_ACCEPTED) {
        expect_change_fits(told, before);
        expect_reasons_fit(told, request.kind);
    } else {
        expect(told.cause == SPELDERVACHT_CAUSE_NONE && told.bound == SPELDERVACHT_BOUND_NONE,
               "a refusal names no change");
    }
    return told;
}

static speldervacht_explanation explain(uint64_t kind, uint64_t address, uint64_t size) {
    return explain_with(TABLE, ORDERS, REASONS, NULL, 0, speldervacht_request_of(kind, address, size));
}

static speldervacht_explanation configure(speldervacht_settings settings) {
    speldervacht_request request = speldervacht_request_of(SPELDERVACHT_CONFIGURE, 0, 0);
    request.settings = settings;
    return explain_with(TABLE, ORDERS, REASONS, NULL, 0, request);
}

/* Whether the orders and their reasons are these: "w1e2l7" is a write by reason 1, an evict by 2, a load by 7. */
static int gives(speldervacht_explanation told, const char *expected) {
    if (told.number != SPELDERVACHT_ACCEPTED || 2 * told.orders != strlen(expected)) {
        return 0;
    }
    for (uint64_t i = 0; i < told.orders; i++) {
        const char kinds[] = {' ', 'w', 'e', 'l'};
        if (kinds[here.orders[3 * i]] != expected[2 * i] || reasons[i] != (uint64_t)(expected[2 * i + 1] - '0')) {
            return 0;
        }
    }
    return 1;
}

static int changes(speldervacht_explanation told, uint64_t maximum, uint64_t cause, uint64_t bound) {
    return told.number == SPELDERVACHT_ACCEPTED && told.cause == cause && told.bound == bound &&
           here.table[MAXIMUM] == maximum;
}

static int changes_nothing(speldervacht_explanation told) {
    return changes(told, 4096, SPELDERVACHT_CAUSE_NONE, SPELDERVACHT_BOUND_NONE);
}

/* A maximum of 4,096 bytes between 1,024 and 16,384, nothing to be clean, no rules, no caps, short epochs. */
static speldervacht_settings small_settings(void) {
    speldervacht_settings settings = speldervacht_default_settings(SPELDERVACHT_ALONE);
    settings.initial = 4096;
    settings.clean = 0.0;
    settings.largest = 16384;
    settings.smallest = 1024;
    settings.epoch = EPOCH;
    settings.increase_kind = SPELDERVACHT_INCREASE_OFF;
    settings.increment_kind = SPELDERVACHT_NO_CAP;
    settings.flash_kind = SPELDERVACHT_FLASH_OFF;
    settings.decrease_kind = SPELDERVACHT_DECREASE_OFF;
    settings.decrement_kind = SPELDERVACHT_NO_CAP;
    return settings;
}

static void open_with(uint64_t mode, speldervacht_settings settings) {
    expect(speldervacht_open(here.table, TABLE, ROWS, mode, 1000, settings).number == SPELDERVACHT_ACCEPTED, "opening");
}

static void open_sharing(uint64_t mode, double fraction) {
    speldervacht_settings settings = small_settings();
    settings.clean = fraction;
    open_with(mode, settings);
}

/* ---- reasons of orders */

static void room_by_bytes(void) {
    open_with(SPELDERVACHT_ALONE, small_settings());
    expect(gives(explain(SPELDERVACHT_INSERT, 100, 3000), ""), "100 fits");
    expect(gives(explain(SPELDERVACHT_INSERT, 200, 1000), ""), "200 fits");
    expect(gives(explain(SPELDERVACHT_INSERT, 300, 500), "w1w1e1"), "write 100, write 200, evict 100: bytes");
    expect(gives(explain(SPELDERVACHT_PROTECT_FOR_WRITING, 400, 3000), "e1l7"), "200 goes for bytes, 400 is loaded");
    expect(gives(explain(SPELDERVACHT_RELEASE_CHANGED, 400, 5000), "w1w1e1e1"), "room for nothing: bytes");
}

/* Four dirty rows, and a fifth record: rows press, and bytes do too if each has 1,000 bytes and 97 come. */
static void room_by_rows(void) {
    const uint64_t sizes[] = {10, 1000, 1000}, coming[] = {10, 96, 97};
    const char *const expected[] = {"w2w2w2w2e2", "w2w2w2w2e2", "w1w1w1w1e1"};
    for (size_t i = 0; i < COUNT_OF(sizes); i++) {
        open_with(SPELDERVACHT_ALONE, small_settings());
        for (uint64_t address = 1; address <= ROWS; address++) {
            expect(gives(explain(SPELDERVACHT_INSERT, address, sizes[i]), ""), "a row");
        }
        expect(gives(explain(SPELDERVACHT_INSERT, 5, coming[i]), expected[i]), "rows, and bytes where both press");
    }
}

/* A lead and a standby evict clean records, and write none of them. */
static void room_of_a_pair(void) {
    for (uint64_t mode = SPELDERVACHT_LEAD; mode <= SPELDERVACHT_STANDBY; mode++) {
        open_sharing(mode, 1.0);
        for (uint64_t address = 1; address <= ROWS; address++) {
            expect(gives(explain(SPELDERVACHT_PROTECT_FOR_READING, address, 1000), "l7"), "a load");
            expect(gives(explain(SPELDERVACHT_RELEASE_UNCHANGED, address, 0), ""), "its release");
        }
        expect(gives(explain(SPELDERVACHT_INSERT, 5, 10), "e2"), "rows");
        expect(gives(explain(SPELDERVACHT_INSERT, 6, 3000), "e1e1"), "bytes");
        expect(gives(explain(SPELDERVACHT_PROTECT_FOR_READING, 7, 3000), "e1l7"), "bytes, and a load");
    }
}

static void clean_share(void) {
    open_sharing(SPELDERVACHT_ALONE, 0.5);
    expect(gives(explain(SPELDERVACHT_INSERT, 100, 1500), ""), "100 comes");
    expect(gives(explain(SPELDERVACHT_INSERT, 200, 1000), "w3"), "1,596 unused bytes are too few");
    open_sharing(SPELDERVACHT_ALONE, 1.0);
    explain(SPELDERVACHT_INSERT, 100, 3000);
    expect(gives(explain(SPELDERVACHT_INSERT, 200, 1000), "w3"), "all are to be clean");
    expect(gives(explain(SPELDERVACHT_INSERT, 300, 500), "e1w3"), "bytes, then the clean share");
    expect(gives(explain(SPELDERVACHT_PROTECT_FOR_WRITING, 400, 10), "w3l7"), "the clean share, and a load");
    expect(gives(explain(SPELDERVACHT_RESIZE, 400, 20), ""), "dirty and held");
    expect(gives(explain(SPELDERVACHT_RELEASE_UNCHANGED, 400, 0), "w3"), "a release, room for nothing");
    open_sharing(SPELDERVACHT_ALONE, 0.0);
    explain(SPELDERVACHT_INSERT, 100, 3000);
    {
        speldervacht_settings settings = small_settings();
        settings.clean = 1.0;
        expect(gives(configure(settings), "w3"), "a configure, room for nothing");
    }
}

static void lists(void) {
    open_with(SPELDERVACHT_ALONE, small_settings());
    explain(SPELDERVACHT_INSERT, 100, 10);
    explain(SPELDERVACHT_INSERT, 200, 10);
    expect(gives(explain(SPELDERVACHT_FLUSH, 0, 0), "w5w5"), "a flush");
    expect(gives(explain(SPELDERVACHT_FLUSH, 0, 0), ""), "nothing is dirty");
    open_sharing(SPELDERVACHT_LEAD, 0.5);
    explain(SPELDERVACHT_INSERT, 100, 1000);
    explain(SPELDERVACHT_INSERT, 200, 2000);
    expect(gives(explain(SPELDERVACHT_SYNC, 0, 0), "w6"), "a sync, for the clean share");
    expect(gives(explain(SPELDERVACHT_FLUSH, 0, 0), "w5"), "a lead's flush");
    expect(gives(explain(SPELDERVACHT_SYNC, 0, 0), ""), "enough is clean");
}

/* ---- epochs */

/* A record that is pinned: it cannot go, and a release of it gives no orders unless others are there. */
static void load_pinned(uint64_t address, uint64_t size) {
    explain(SPELDERVACHT_PROTECT_FOR_READING, address, size);
    expect(explain(SPELDERVACHT_PIN, address, 0).number == SPELDERVACHT_ACCEPTED, "a pin");
    expect(gives(explain(SPELDERVACHT_RELEASE_UNCHANGED, address, 0), ""), "a pinned record");
}

/* Reads a record until one access is left of the epoch. */
static void read_until_last(uint64_t address) {
    for (uint64_t i = 0; i < EPOCH && here.table[ACCESSES] < EPOCH - 1; i++) {
        explain(SPELDERVACHT_PROTECT_FOR_READING, address, 1);
        explain(SPELDERVACHT_RELEASE_UNCHANGED, address, 0);
    }
}

/* The last access of an epoch that began with a load of a pinned record of this size, and hits it or misses. */
static speldervacht_explanation epoch_of(uint64_t mode, speldervacht_settings settings, uint64_t size, int hits) {
    const uint64_t address = hits ? 100 : 900;
    open_with(mode, settings);
    load_pinned(100, size);
    read_until_last(address);
    return explain(SPELDERVACHT_PROTECT_FOR_READING, address, 1);
}

static speldervacht_settings aging_settings(void) {
    speldervacht_settings settings = small_settings();
    settings.decrease_kind = SPELDERVACHT_DECREASE_BY_AGE_OUT;
    settings.decrease_epochs = 1;
    settings.decrease_reserve = 1.0;
    return settings;
}

/* A cache amid its second epoch, of which one access is left: 1 is a record that was idle for an epoch, 2 one that was
 * not, and 3 is pinned. All are dirty. */
static void open_aging(uint64_t mode, double fraction) {
    speldervacht_settings settings = aging_settings();
    settings.clean = fraction;
    open_with(mode, settings);
    load_pinned(3, 10);
    explain(SPELDERVACHT_RESIZE, 3, 10);
    expect(gives(explain(SPELDERVACHT_INSERT, 1, 10), ""), "a record");
    read_until_last(3);
    expect(gives(explain(SPELDERVACHT_PROTECT_FOR_READING, 3, 1), ""), "nothing is idle yet");
    explain(SPELDERVACHT_RELEASE_UNCHANGED, 3, 0);
    expect(gives(explain(SPELDERVACHT_INSERT, 2, 10), ""), "another");
    read_until_last(3);
}

static void aged_out(void) {
    open_aging(SPELDERVACHT_ALONE, 0.0);
    expect(gives(explain(SPELDERVACHT_PROTECT_FOR_READING, 3, 1), "w4e4"), "a hit: 1 is aged out");
    open_aging(SPELDERVACHT_ALONE, 0.0);
    expect(gives(explain(SPELDERVACHT_PROTECT_FOR_WRITING, 9, 1), "l7w4e4"), "a miss: the load, then 1 is aged out");
    open_aging(SPELDERVACHT_ALONE, 0.0);
    explain(SPELDERVACHT_RESIZE, 3, 5000);
    expect(gives(explain(SPELDERVACHT_PROTECT_FOR_READING, 3, 1), "w4e4w1e1"), "1 is aged out, 2 goes for bytes");
    open_aging(SPELDERVACHT_ALONE, 0.0);
    explain(SPELDERVACHT_RESIZE, 3, 5000);
    expect(gives(explain(SPELDERVACHT_PROTECT_FOR_READING, 9, 1), "w1w1e1e1l7"), "all go for bytes before the load");
    open_aging(SPELDERVACHT_ALONE, 0.5);
    explain(SPELDERVACHT_RESIZE, 3, 3000);
    expect(gives(explain(SPELDERVACHT_PROTECT_FOR_READING, 3, 1), "w4e4w3"), "1 is aged out, 2 is for the clean share");
    open_aging(SPELDERVACHT_LEAD, 0.0);
    expect(gives(explain(SPELDERVACHT_FLUSH, 0, 0), "w5w5w5"), "a flush");
    expect(gives(explain(SPELDERVACHT_PROTECT_FOR_READING, 3, 1), "e4"), "a lead: 1 is clean, and aged out");
    open_aging(SPELDERVACHT_STANDBY, 0.0);
    expect(gives(explain(SPELDERVACHT_PROTECT_FOR_READING, 3, 1), ""), "a standby: 1 is dirty, and stays");
}

/* ---- changes of the maximum */

/* What a change is tried with: a limit, a cap (or ANY), and what comes of it. */
typedef struct trial {
    uint64_t limit, cap, maximum, bound;
} trial;

#define ANY UINT64_MAX /* no cap */

static uint64_t cap_kind(uint64_t cap) {
    return cap == ANY ? SPELDERVACHT_NO_CAP : SPELDERVACHT_CAP_UP_TO;
}

static int comes_to(speldervacht_explanation told, trial expected, uint64_t cause) {
    return changes(told, expected.maximum, expected.maximum == 4096 ? (uint64_t)SPELDERVACHT_CAUSE_NONE : cause,
                   expected.bound);
}

/* The maximum doubles at the end of a poor epoch, if the cache is full. */
static speldervacht_settings rising_settings(uint64_t largest, uint64_t cap) {
    speldervacht_settings settings = small_settings();
    settings.largest = largest;
    settings.increase_kind = SPELDERVACHT_INCREASE_BY_THRESHOLD;
    settings.increase_lower = 0.9;
    settings.increase_multiplier = 2.0;
    settings.increment_kind = cap_kind(cap);
    settings.increment_bytes = cap;
    return settings;
}

/* At the end of an epoch with many hits it is halved, or falls until a quarter is empty. */
static speldervacht_settings falling_settings(uint64_t kind, uint64_t smallest, uint64_t cap) {
    speldervacht_settings settings = small_settings();
    settings.smallest = smallest;
    settings.decrease_kind = kind;
    settings.decrease_upper = 0.95;
    settings.decrease_multiplier = 0.5;
    settings.decrease_epochs = 10;
    settings.decrease_reserve = 0.25;
    settings.decrement_kind = cap_kind(cap);
    settings.decrement_bytes = cap;
    return settings;
}

/* 4,096 x 2.0, with a maximum size and a cap. */
static void increases(void) {
    const trial trials[] = {
        {16384, ANY, 8192, 0}, {16384, 4096, 8192, 0}, {16384, 4095, 8191, 9}, {8191, 4095, 8191, 5},
        {16384, 100, 4196, 9}, {8000, 4095, 8000, 5},  {8192, ANY, 8192, 0},   {8192, 4096, 8192, 0},
        {8191, ANY, 8191, 5},  {8191, 4096, 8191, 5},  {8190, 4095, 8190, 5},  {8192, 4095, 8191, 9},
        {16384, 1, 4097, 9},   {16384, 0, 4096, 0},    {4096, ANY, 4096, 0},   {4097, 0, 4096, 0},
    };
    for (size_t i = 0; i < COUNT_OF(trials) * MODES; i++) {
        const trial tried = trials[i / MODES];
        const speldervacht_explanation told = epoch_of(i % MODES, rising_settings(tried.limit, tried.cap), 4096, 0);
        expect(gives(told, "l7") && comes_to(told, tried, SPELDERVACHT_CAUSE_INCREASE), "4,096 x 2.0");
    }
}

/* An increase that is cut to nothing is none: a decrease may follow it. */
static void decrease_after_increase(void) {
    speldervacht_settings settings = falling_settings(SPELDERVACHT_DECREASE_BY_AGE_OUT, 1024, ANY);
    settings.increase_kind = SPELDERVACHT_INCREASE_BY_THRESHOLD;
    settings.increase_lower = 1.0;
    settings.increase_multiplier = 2.0;
    settings.increment_kind = SPELDERVACHT_CAP_UP_TO;
    settings.increment_bytes = 0;
    open_with(SPELDERVACHT_ALONE, settings);
    load_pinned(100, 3000);
    expect(gives(explain(SPELDERVACHT_INSERT, 200, 2000), ""), "5,000 bytes are found: the cache is full");
    expect(explain(SPELDERVACHT_DISCARD, 200, 0).number == SPELDERVACHT_ACCEPTED, "and gone");
    read_until_last(100);
    expect(changes(explain(SPELDERVACHT_PROTECT_FOR_READING, 100, 1), 4000, SPELDERVACHT_CAUSE_AGE_OUT, 0),
           "the decrease is the change");
}

/* 4,096 x 0.5, with a minimum size and a cap. */
static void decreases_by_threshold(void) {
    const trial trials[] = {
        {1024, ANY, 2048, 0},  {1024, 1000, 3096, 12}, {3096, 1000, 3096, 6},  {2048, ANY, 2048, 0},
        {1024, 5000, 2048, 0}, {2049, ANY, 2049, 6},   {2049, 5000, 2049, 6},  {1024, 2048, 2048, 0},
        {2048, 2048, 2048, 0}, {1024, 2047, 2049, 12}, {3000, 1000, 3096, 12}, {3500, 1000, 3500, 6},
        {4095, 1, 4095, 6},    {1024, 1, 4095, 12},    {1024, 0, 4096, 0},     {4096, ANY, 4096, 0},
    };
    for (size_t i = 0; i < COUNT_OF(trials) * MODES; i++) {
        const trial tried = trials[i / MODES];
        const speldervacht_explanation told =
            epoch_of(i % MODES, falling_settings(SPELDERVACHT_DECREASE_BY_THRESHOLD, tried.limit, tried.cap), 10, 1);
        expect(gives(told, "") && comes_to(told, tried, SPELDERVACHT_CAUSE_THRESHOLD), "4,096 x 0.5");
    }
}

/* 3,000 bytes held, and a quarter to be empty: 4,000. Both kinds of age-out are told as one cause. */
static void decreases_by_age_out(void) {
    const trial trials[] = {
        {1024, ANY, 4000, 0}, {1024, 50, 4046, 12}, {4046, 50, 4046, 6}, {4001, ANY, 4001, 6}, {4000, ANY, 4000, 0},
        {1024, 96, 4000, 0},  {1024, 95, 4001, 12}, {4050, 50, 4050, 6}, {4096, ANY, 4096, 0}, {1024, 0, 4096, 0},
    };
    const uint64_t kinds[] = {SPELDERVACHT_DECREASE_BY_AGE_OUT, SPELDERVACHT_DECREASE_BY_AGE_OUT_WITH_THRESHOLD};
    for (size_t i = 0; i < COUNT_OF(trials) * MODES * COUNT_OF(kinds); i++) {
        const trial tried = trials[i / MODES / COUNT_OF(kinds)];
        const uint64_t kind = kinds[i / MODES % COUNT_OF(kinds)];
        const speldervacht_explanation told =
            epoch_of(i % MODES, falling_settings(kind, tried.limit, tried.cap), 3000, 1);
        expect(gives(told, "") && comes_to(told, tried, SPELDERVACHT_CAUSE_AGE_OUT), "3,000 of 4,000");
    }
    expect(changes_nothing(epoch_of(SPELDERVACHT_ALONE, aging_settings(), 10, 1)), "a reserve of 1");
}

/* A fall that makes room. */
static void fall_with_orders(void) {
    speldervacht_explanation told;
    open_with(SPELDERVACHT_ALONE, falling_settings(SPELDERVACHT_DECREASE_BY_THRESHOLD, 1024, ANY));
    load_pinned(100, 10);
    explain(SPELDERVACHT_INSERT, 200, 3000);
    read_until_last(100);
    told = explain(SPELDERVACHT_PROTECT_FOR_READING, 100, 1);
    expect(gives(told, "w1e1") && changes(told, 2048, SPELDERVACHT_CAUSE_THRESHOLD, 0), "200 goes for bytes");
}

/* A flash by the bytes that come, if they exceed a quarter of the maximum. */
static void open_flashing(uint64_t mode, uint64_t largest) {
    speldervacht_settings settings = small_settings();
    settings.largest = largest;
    settings.flash_kind = SPELDERVACHT_FLASH_ON;
    settings.flash_multiple = 1.0;
    settings.flash_threshold = 0.25;
    open_with(mode, settings);
}

/* 4,000 bytes held, free space of 96, and so many that come or grow: by insert, miss, changed release and resize. */
static void flashes(void) {
    const uint64_t coming[] = {1024, 1025, 12384, 12385, 13000};
    const uint64_t raised[] = {4096, 5025, 16384, 16384, 16384}, bounds[] = {0, 0, 0, 5, 5};
    const uint64_t kinds[] = {SPELDERVACHT_INSERT, SPELDERVACHT_PROTECT_FOR_READING, SPELDERVACHT_RELEASE_CHANGED,
                              SPELDERVACHT_RESIZE};
    for (size_t i = 0; i < COUNT_OF(coming) * COUNT_OF(kinds) * MODES; i++) {
        const size_t at = i / MODES / COUNT_OF(kinds);
        const uint64_t kind = kinds[i / MODES % COUNT_OF(kinds)];
        const int grows = kind == SPELDERVACHT_RELEASE_CHANGED || kind == SPELDERVACHT_RESIZE;
        const trial expected = {0, 0, raised[at], bounds[at]};
        open_flashing(i % MODES, 16384);
        load_pinned(100, 3000);
        expect(changes_nothing(explain(SPELDERVACHT_PROTECT_FOR_WRITING, 200, 1000)), "1,000 bytes are too few");
        expect(comes_to(explain(kind, grows ? 200 : 300, coming[at] + (grows ? 1000 : 0)), expected,
                        SPELDERVACHT_CAUSE_FLASH),
               "a flash");
    }
    open_flashing(SPELDERVACHT_ALONE, 4096);
    expect(changes_nothing(explain(SPELDERVACHT_INSERT, 100, 5000)), "a flash at the maximum size");
    open_flashing(SPELDERVACHT_ALONE, 16384);
    expect(changes_nothing(explain(SPELDERVACHT_INSERT, 100, 4096)), "there is free space for all");
    expect(changes(explain(SPELDERVACHT_INSERT, 200, 5000), 9096, SPELDERVACHT_CAUSE_FLASH, 0), "one insert");
    expect(changes(explain(SPELDERVACHT_INSERT, 300, 10), 9096, SPELDERVACHT_CAUSE_NONE, 0), "the next one");
}

/* A maximum that is set, or brought into the new range from 4,096 or from 16,384. */
static void settings_change(void) {
    const struct {
        uint64_t preset, initial, smallest, largest, from, maximum, bound;
    } trials[] = {
        {1, 8192, 1024, 16384, 4096, 8192, 0}, {1, 16384, 1024, 16384, 4096, 16384, 0},
        {1, 1024, 1024, 16384, 4096, 1024, 0}, {1, 2048, 1024, 2048, 4096, 2048, 0},
        {1, 8192, 8192, 8192, 4096, 8192, 0},  {1, 4096, 1024, 16384, 4096, 4096, 0},
        {1, 4096, 4096, 4096, 4096, 4096, 0},  {0, 8192, 1024, 16384, 4096, 4096, 0},
        {0, 8192, 1024, 2048, 4096, 2048, 5},  {0, 0, 8192, 16384, 4096, 8192, 6},
        {0, 0, 8192, 8192, 4096, 8192, 6},     {0, 0, 8192, 8192, 16384, 8192, 5},
        {0, 0, 1024, 4095, 4096, 4095, 5},     {0, 0, 4097, 16384, 4096, 4097, 6},
        {0, 0, 1024, 4096, 4096, 4096, 0},     {0, 0, 4096, 16384, 4096, 4096, 0},
        {0, 0, 4096, 4096, 4096, 4096, 0},     {0, 0, 4096, 4096, 16384, 4096, 5},
    };
    for (size_t i = 0; i < COUNT_OF(trials) * MODES; i++) {
        speldervacht_settings settings = small_settings();
        settings.initial = trials[i / MODES].from;
        open_with(i % MODES, settings);
        settings.preset = trials[i / MODES].preset;
        settings.initial = trials[i / MODES].initial;
        settings.smallest = trials[i / MODES].smallest;
        settings.largest = trials[i / MODES].largest;
        expect(changes(configure(settings), trials[i / MODES].maximum,
                       trials[i / MODES].maximum == trials[i / MODES].from ? SPELDERVACHT_CAUSE_NONE
                                                                           : SPELDERVACHT_CAUSE_SETTINGS,
                       trials[i / MODES].bound),
               "settings that set or bring the maximum");
    }
}

/* A configure that makes room: 100 goes for bytes. */
static void settings_with_orders(void) {
    speldervacht_explanation told;
    speldervacht_settings settings = small_settings();
    open_with(SPELDERVACHT_ALONE, settings);
    explain(SPELDERVACHT_INSERT, 100, 3000);
    settings.preset = 0;
    settings.largest = 2048;
    told = configure(settings);
    expect(gives(told, "w1e1") && changes(told, 2048, SPELDERVACHT_CAUSE_SETTINGS, SPELDERVACHT_BOUND_LARGEST),
           "100 goes for bytes, the maximum is brought down");
}

/* ---- refusals */

static uint64_t number_with(size_t order_words, size_t reason_words, uint64_t kind, uint64_t address, uint64_t size) {
    speldervacht_request request = speldervacht_request_of(kind, address, size);
    request.settings = small_settings();
    return explain_with(TABLE, order_words, reason_words, NULL, 0, request).number;
}

/* 100 is held by a writer, 200 is free, and so is a row. */
static void open_held(uint64_t mode) {
    open_with(mode, small_settings());
    explain(SPELDERVACHT_PROTECT_FOR_WRITING, 100, 10);
    explain(SPELDERVACHT_INSERT, 200, 10);
}

/* Every kind that can give orders, with a reason word too few, none, enough and more. */
static void few_reason_words(void) {
    for (uint64_t i = 0; i < SPELDERVACHT_CONFIGURE * MODES; i++) {
        const uint64_t mode = i % MODES, kind = 1 + i / MODES;
        const uint64_t address = kind <= SPELDERVACHT_PROTECT_FOR_WRITING ? 300 : 100;
        const size_t few[] = {0, 1, REASONS - 1}, enough[] = {REASONS, REASONS + 1, REASONS + SPARE};
        for (size_t words = 0; words < COUNT_OF(few); words++) {
            uint64_t number;
            open_held(mode);
            number = number_with(ORDERS, few[words], kind, address, 10);
            expect((number == SPELDERVACHT_FEW_ORDER_WORDS) == can_give_orders(kind), "too few reason words");
            expect(number_with(ORDERS, enough[words], kind, address, 10) != SPELDERVACHT_FEW_ORDER_WORDS, "enough");
            open_held(mode);
            number = number_with(ORDERS - 1, enough[words], kind, address, 10);
            expect((number == SPELDERVACHT_FEW_ORDER_WORDS) == can_give_orders(kind), "too few order words");
            open_held(mode);
            number = number_with(0, 0, kind, address, 10);
            expect((number == SPELDERVACHT_FEW_ORDER_WORDS) == can_give_orders(kind), "neither is lent");
        }
    }
}

/* 2 comes before all but 1. */
static void before_other_refusals(void) {
    open_held(SPELDERVACHT_ALONE);
    expect(number_with(ORDERS, REASONS - 1, SPELDERVACHT_INSERT, SPELDERVACHT_NO_ADDRESS, 0) == 2, "2 before 3");
    expect(number_with(ORDERS, REASONS, SPELDERVACHT_INSERT, SPELDERVACHT_NO_ADDRESS, 0) == 3, "3");
    expect(number_with(ORDERS, REASONS - 1, SPELDERVACHT_PROTECT_FOR_READING, 300, 0) == 2, "2 before 4");
    expect(number_with(ORDERS, REASONS - 1, SPELDERVACHT_SYNC, 0, 0) == 2, "2 before 5");
    expect(number_with(ORDERS, REASONS, SPELDERVACHT_SYNC, 0, 0) == 5, "5");
    expect(number_with(ORDERS, REASONS - 1, SPELDERVACHT_INSERT, 200, 10) == 2, "2 before 7");
    expect(number_with(ORDERS, REASONS - 1, SPELDERVACHT_FLUSH, 0, 0) == 2, "2 before 8");
    expect(number_with(ORDERS, REASONS, SPELDERVACHT_FLUSH, 0, 0) == 8, "8");
    expect(number_with(ORDERS, REASONS - 1, SPELDERVACHT_RELEASE_UNCHANGED, 200, 0) == 2, "2 before 9");
    expect(number_with(0, REASONS, SPELDERVACHT_INSERT, SPELDERVACHT_NO_ADDRESS, 0) == 2, "2 by order words");
}

/* No reason words for what gives no orders: accepted, or refused as ever. */
static void no_reason_words(void) {
    const uint64_t unknown[] = {0, SPELDERVACHT_CONFIGURE + 1, UINT64_MAX};
    const uint64_t list[] = {200};
    uint8_t message[SPELDERVACHT_MESSAGE_BYTES(1)];
    speldervacht_request take = speldervacht_request_of(SPELDERVACHT_TAKE, 0, 0);
    open_held(SPELDERVACHT_STANDBY);
    expect(number_with(0, 0, SPELDERVACHT_PIN, 100, 0) == SPELDERVACHT_ACCEPTED, "a pin");
    expect(number_with(0, 0, SPELDERVACHT_PIN, 100, 0) == SPELDERVACHT_PIN_FORBIDS, "another");
    expect(number_with(0, 0, SPELDERVACHT_UNPIN, 100, 0) == SPELDERVACHT_ACCEPTED, "an unpin");
    expect(number_with(0, 0, SPELDERVACHT_RESIZE, 100, 20) == SPELDERVACHT_ACCEPTED, "a resize");
    expect(number_with(0, 0, SPELDERVACHT_DISCARD, 100, 0) == SPELDERVACHT_HELD, "a discard of what is held");
    expect(number_with(0, 0, SPELDERVACHT_DISCARD, 300, 0) == SPELDERVACHT_ACCEPTED, "a discard");
    speldervacht_write_message(message, sizeof message, 1, list, 1);
    expect(explain_with(TABLE, 0, 0, message, sizeof message - 1, take).number == SPELDERVACHT_CUT_MESSAGE, "a part");
    expect(explain_with(TABLE, 0, 0, message, sizeof message, take).number == SPELDERVACHT_ACCEPTED, "a take");
    expect(explain_with(TABLE, 0, 0, message, sizeof message, take).number == SPELDERVACHT_WRONG_NUMBER, "again");
    for (size_t i = 0; i < COUNT_OF(unknown); i++) {
        expect(number_with(0, 0, unknown[i], 100, 10) == SPELDERVACHT_BAD_MODE, "an unknown kind");
        expect(number_with(ORDERS, REASONS, unknown[i], 100, 10) == SPELDERVACHT_BAD_MODE, "with all words");
    }
    open_flashing(SPELDERVACHT_ALONE, 16384);
    load_pinned(100, 10);
    expect(changes(explain_with(TABLE, 0, 0, NULL, 0, speldervacht_request_of(SPELDERVACHT_RESIZE, 100, 5000)), 5000,
                   SPELDERVACHT_CAUSE_FLASH, 0),
           "a flash by a resize");
}

static void bad_settings(void) {
    speldervacht_settings settings = small_settings();
    speldervacht_explanation told;
    open_with(SPELDERVACHT_ALONE, small_settings());
    settings.largest = 2048;
    settings.decrement_kind = 7;
    settings.preset = 0;
    told = configure(settings);
    expect(told.number == SPELDERVACHT_BAD_SETTING && told.field == 12 && told.cause == 0 && told.bound == 0,
           "12, field 12, and no change");
}

/* 1 comes first, whatever is lent. */
static void damaged_tables(void) {
    const size_t lent[] = {0, REASONS - 1, REASONS};
    open_held(SPELDERVACHT_ALONE);
    for (uint64_t kind = 0; kind <= SPELDERVACHT_CONFIGURE + 1; kind++) {
        for (size_t i = 0; i < COUNT_OF(lent); i++) {
            speldervacht_request request = speldervacht_request_of(kind, 300, 10);
            expect(explain_with(TABLE - 1, ORDERS, lent[i], NULL, 0, request).number == SPELDERVACHT_BAD_TABLE,
                   "a short table");
            here.table[HITS] = here.table[ACCESSES] + 1;
            expect(explain_with(TABLE, ORDERS, lent[i], NULL, 0, request).number == SPELDERVACHT_BAD_TABLE,
                   "more hits than accesses");
            here.table[HITS] = 0;
        }
    }
    {
        const speldervacht_explanation told =
            speldervacht_explain(NULL, 0, NULL, 0, NULL, 0, NULL, 0, speldervacht_request_of(SPELDERVACHT_PIN, 1, 0));
        expect(told.number == SPELDERVACHT_BAD_TABLE && told.field == 0 && told.orders == 0 && told.cause == 0 &&
                   told.bound == 0,
               "nothing is lent");
    }
}

/* ---- random requests */

#define RUNS 300
#define STEPS 700

/* Rules and caps as they come, in short epochs. */
static speldervacht_settings random_settings(void) {
    const double fractions[] = {0.0, 0.0, 0.5, 1.0};
    speldervacht_settings settings = small_settings();
    settings.preset = below(2);
    settings.initial = UINT64_C(2048) << below(3);
    settings.largest = below(3) ? 16384 : settings.initial + below(2048);
    settings.smallest = below(3) ? 1024 : settings.initial - below(1024);
    settings.clean = fractions[below(4)];
    settings.increase_kind = below(4) != 0;
    settings.increase_lower = below(2) ? 0.4 : 0.95;
    settings.increase_multiplier = below(2) ? 1.25 : 2.0;
    settings.increment_kind = below(2);
    settings.increment_bytes = below(3000);
    settings.flash_kind = below(3) == 0;
    settings.flash_multiple = below(2) ? 0.5 : 3.0;
    settings.flash_threshold = 0.5;
    settings.decrease_kind = below(4);
    settings.decrease_upper = 0.97;
    settings.decrease_multiplier = below(2) ? 0.5 : 0.9;
    settings.decrease_epochs = 1 + below(2);
    settings.decrease_reserve = below(2) ? 0.1 : 0.4;
    settings.decrement_kind = below(2);
    settings.decrement_bytes = below(3000);
    return settings;
}

/* A request of any kind, with enough words or too few. */
static void random_request(uint64_t records) {
    const uint64_t kind = below(30) ? 1 + below(SPELDERVACHT_TAKE) : below(SPELDERVACHT_CONFIGURE + 2);
    const uint64_t list[] = {below(records)};
    const size_t order_words = below(30) ? ORDERS : below(ORDERS + SPARE);
    const size_t reason_words = below(15) ? REASONS : below(REASONS + SPARE);
    uint8_t message[SPELDERVACHT_MESSAGE_BYTES(1)];
    const size_t bytes = speldervacht_write_message(message, sizeof message, here.table[NEXT], list, below(2)).bytes;
    speldervacht_request request = speldervacht_request_of(kind, below(records), 1 + below(below(8) ? 900 : 9000));
    if (request.kind == SPELDERVACHT_CONFIGURE) {
        request.settings = random_settings();
    }
    explain_with(TABLE, order_words, reason_words, message, bytes, request);
}

/* A record is read, and nobody holds it then. */
static void random_read(uint64_t records) {
    const uint64_t address = below(records);
    explain(SPELDERVACHT_PROTECT_FOR_READING, address, 1 + below(900));
    for (unsigned i = 0; i < STEPS && explain(SPELDERVACHT_RELEASE_UNCHANGED, address, 0).number == 0; i++) {
    }
}

/* What can be reached by each mode is, and no other. */
static void expect_all_named(void) {
    for (uint64_t mode = 0; mode < MODES; mode++) {
        for (uint64_t reason = SPELDERVACHT_REASON_ROOM_BY_BYTES; reason <= SPELDERVACHT_REASON_LOAD; reason++) {
            const int can = reason == SPELDERVACHT_REASON_CLEAN_SHARE ? mode == SPELDERVACHT_ALONE
                            : reason == SPELDERVACHT_REASON_FLUSH     ? mode != SPELDERVACHT_STANDBY
                            : reason == SPELDERVACHT_REASON_SYNC      ? mode == SPELDERVACHT_LEAD
                                                                      : 1;
            expect((named[mode][reason] != 0) == can, "each reason in each mode that can have it");
        }
    }
    for (uint64_t cause = SPELDERVACHT_CAUSE_NONE; cause <= SPELDERVACHT_CAUSE_SETTINGS; cause++) {
        for (uint64_t bound = SPELDERVACHT_BOUND_NONE; bound <= SPELDERVACHT_BOUND_DECREMENT; bound++) {
            expect((changed[cause][bound] != 0) == cause_has_bound(cause, bound), "each bound of each cause");
        }
    }
}

/* In a calm run two records are read for most of the time, and others grow old. */
static void random_requests(void) {
    memset(named, 0, sizeof named);
    memset(changed, 0, sizeof changed);
    for (unsigned run = 0; run < RUNS; run++) {
        const uint64_t records = 2 + below(6), calm = below(2);
        speldervacht_settings settings = random_settings();
        settings.preset = 1;
        open_with(run % MODES, settings);
        for (unsigned i = 0; i < STEPS; i++) {
            if (below(calm ? 40 : 6) == 0) {
                random_request(records);
            } else {
                random_read(below(calm ? 100 : 2) ? 2 : records);
            }
        }
    }
    expect_all_named();
}

int main(void) {
    room_by_bytes();
    room_by_rows();
    room_of_a_pair();
    clean_share();
    lists();
    aged_out();
    increases();
    decrease_after_increase();
    decreases_by_threshold();
    decreases_by_age_out();
    fall_with_orders();
    flashes();
    settings_change();
    settings_with_orders();
    few_reason_words();
    before_other_refusals();
    no_reason_words();
    bad_settings();
    damaged_tables();
    random_requests();
    return outcome("all reasons hold");
}
