/* A lead that runs ahead of its standby, as docs/HOSTING.md allows it: a queue in the lead's order, rows
 * enough at the standby, which gets ready for each change by requests of its own. With a row less it comes
 * to refuse one. Also compiles as C++. */
#include "expect.h"
#include "random.h"
#include "speldervacht.h"

#define LEAD_ROWS 6
#define MOST_PINS 3
#define STANDBY_ROWS (LEAD_ROWS + MOST_PINS)
#define RECORDS 20
#define RUNS 200
#define TURNS 300
#define THRESHOLD 1000
#define FIRST_ROW 31 /* where a table has its rows */

typedef struct side {
    uint64_t table[SPELDERVACHT_TABLE_WORDS(STANDBY_ROWS)];
    uint64_t orders[SPELDERVACHT_ORDER_WORDS(STANDBY_ROWS)];
    uint64_t rows;
} side;

/* A shared change, or a take with its message. */
typedef struct change {
    uint64_t kind, address, size;
    uint8_t message[SPELDERVACHT_MESSAGE_BYTES(LEAD_ROWS)];
    size_t bytes;
} change;

static side lead, standby;
static change queue[TURNS];
static size_t had, sent; /* the standby has had so many of those that were sent */
static uint64_t pinned[MOST_PINS];
static size_t pins;
static size_t farthest_ahead;
static unsigned refused;

static speldervacht_answer step(side *at, const change *what) {
    return speldervacht_step(at->table, SPELDERVACHT_TABLE_WORDS(at->rows), at->orders,
                             SPELDERVACHT_ORDER_WORDS(at->rows), what->message, what->bytes,
                             speldervacht_request_of(what->kind, what->address, what->size));
}

static speldervacht_figures report(const side *at) {
    return speldervacht_report(at->table, SPELDERVACHT_TABLE_WORDS(at->rows));
}

static uint64_t request(side *at, uint64_t kind, uint64_t address, uint64_t size) {
    change what = {kind, address, size, {0}, 0};
    return step(at, &what).number;
}

static void open_side(side *at, uint64_t rows, uint64_t mode) {
    speldervacht_settings settings = speldervacht_default_settings(mode);
    settings.initial = settings.smallest = 1024;
    settings.largest = 4096;
    at->rows = rows;
    expect(speldervacht_open(at->table, SPELDERVACHT_TABLE_WORDS(rows), rows, mode, THRESHOLD, settings).number ==
               SPELDERVACHT_ACCEPTED,
           "opening");
}

static void unpin(size_t at) {
    expect(request(&standby, SPELDERVACHT_UNPIN, pinned[at], 0) == SPELDERVACHT_ACCEPTED, "an unpin");
    pinned[at] = pinned[--pins];
}

/* The next change of the queue, for which the standby gets ready. */
static void have_next(void) {
    const change *next = &queue[had++];
    int written = next->kind == SPELDERVACHT_RELEASE_CHANGED || next->kind == SPELDERVACHT_RESIZE;
    for (size_t i = pins; i > 0 && next->kind == SPELDERVACHT_DISCARD; i--) {
        if (pinned[i - 1] == next->address) {
            unpin(i - 1);
        }
    }
    if (written) {
        refused += request(&standby, SPELDERVACHT_PROTECT_FOR_WRITING, next->address, next->size) != 0;
    }
    refused += step(&standby, next).number != 0;
    if (next->kind == SPELDERVACHT_RESIZE) {
        request(&standby, SPELDERVACHT_RELEASE_UNCHANGED, next->address, 0);
    }
}

/* The standby reads a record, pins it for a while, or lets a pin go. */
static void local_request(void) {
    uint64_t address = below(RECORDS);
    if (pins > 0 && below(3) == 0) {
        unpin(pins - 1);
    } else if (request(&standby, SPELDERVACHT_PROTECT_FOR_READING, address, 10) == SPELDERVACHT_ACCEPTED) {
        if (pins < MOST_PINS && request(&standby, SPELDERVACHT_PIN, address, 0) == SPELDERVACHT_ACCEPTED) {
            pinned[pins++] = address;
        }
        request(&standby, SPELDERVACHT_RELEASE_UNCHANGED, address, 0);
    }
}

/* The lead's flush or sync becomes the standby's take. */
static void become_take(change *what, uint64_t number, uint64_t orders) {
    uint64_t list[SPELDERVACHT_LIST_WORDS(LEAD_ROWS)];
    for (uint64_t i = 0; i < orders; i++) {
        list[i] = lead.orders[3 * i + 1];
    }
    what->kind = SPELDERVACHT_TAKE;
    what->bytes = speldervacht_write_message(what->message, sizeof what->message, number, list, orders).bytes;
}

/* What the lead accepts is sent. Before a flush or sync the standby has had all. */
static void lead_turn(uint64_t turn) {
    static const uint64_t kinds[] = {SPELDERVACHT_INSERT,  SPELDERVACHT_RELEASE_CHANGED, SPELDERVACHT_RESIZE,
                                     SPELDERVACHT_DISCARD, SPELDERVACHT_FLUSH,           SPELDERVACHT_SYNC};
    change next = {kinds[below(6)], below(RECORDS), 1 + below(400), {0}, 0};
    int sends = next.kind == SPELDERVACHT_FLUSH || next.kind == SPELDERVACHT_SYNC;
    int written = next.kind == SPELDERVACHT_RELEASE_CHANGED || next.kind == SPELDERVACHT_RESIZE;
    uint64_t number = report(&lead).next;
    speldervacht_answer answer;
    if (next.kind == SPELDERVACHT_INSERT) {
        next.address = RECORDS + turn; /* a new record */
    }
    while (sends && had < sent) {
        have_next();
    }
    if (written &&
        request(&lead, SPELDERVACHT_PROTECT_FOR_WRITING, next.address, next.size) != SPELDERVACHT_ACCEPTED) {
        return;
    }
    answer = step(&lead, &next);
    if (next.kind == SPELDERVACHT_RESIZE) {
        request(&lead, SPELDERVACHT_RELEASE_UNCHANGED, next.address, 0);
    }
    if (sends) {
        become_take(&next, number, answer.orders);
    }
    if (answer.number == SPELDERVACHT_ACCEPTED) {
        queue[sent++] = next;
    }
}

/* Whether a record that is dirty at the one is dirty at the other, at the same size. */
static int dirty_at(const side *at, uint64_t address, uint64_t size) {
    for (uint64_t row = 0; row < at->rows; row++) {
        const uint64_t *words = at->table + FIRST_ROW + 6 * row;
        if (words[0] == address && words[1] == size && words[2] == 1) {
            return 1;
        }
    }
    return 0;
}

static void expect_agreement(void) {
    speldervacht_figures first = report(&lead), second = report(&standby);
    expect(first.dirty == second.dirty && first.count == second.count && first.due == second.due, "the figures");
    expect(first.next == second.next, "the next number");
    for (uint64_t row = 0; row < lead.rows; row++) {
        const uint64_t *words = lead.table + FIRST_ROW + 6 * row;
        expect(words[2] == 0 || dirty_at(&standby, words[0], words[1]), "the lead's dirty records");
    }
}

static void run(uint64_t standby_rows) {
    open_side(&lead, LEAD_ROWS, SPELDERVACHT_LEAD);
    open_side(&standby, standby_rows, SPELDERVACHT_STANDBY);
    had = sent = pins = 0;
    for (uint64_t turn = 0; turn < TURNS; turn++) {
        lead_turn(turn);
        farthest_ahead = sent - had > farthest_ahead ? sent - had : farthest_ahead;
        local_request();
        if (had < sent && below(3) == 0) {
            have_next();
        }
    }
    while (had < sent) {
        have_next();
    }
}

int main(void) {
    for (int i = 0; i < RUNS; i++) {
        run(STANDBY_ROWS);
        expect(refused == 0, "the standby refuses nothing");
        expect_agreement();
    }
    expect(farthest_ahead > LEAD_ROWS, "the lead runs ahead");
    run(STANDBY_ROWS - 1);
    expect(refused != 0, "with a row less it refuses");
    return outcome("a standby that comes after refuses nothing");
}
