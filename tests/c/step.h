/* Requests as the C tests make them: each is asked about before it is done, and a refusal changes nothing. */
#ifndef STEP_H
#define STEP_H

#include "expect.h"
#include "speldervacht.h"

#define LAST_NUMBER SPELDERVACHT_WRONG_NUMBER
#define MOST_TABLE_WORDS SPELDERVACHT_TABLE_WORDS(SPELDERVACHT_MOST_ROWS)
#define MOST_ORDER_WORDS SPELDERVACHT_ORDER_WORDS(SPELDERVACHT_MOST_ROWS)
#define MOST_MESSAGE_BYTES SPELDERVACHT_MESSAGE_BYTES(SPELDERVACHT_MOST_LISTED)

/* How often each number was told, and how often a yes to each kind of request. */
static unsigned told[LAST_NUMBER + 1];
static unsigned told_yes[SPELDERVACHT_CONFIGURE + 1];

static inline void copy_words(uint64_t *to, const uint64_t *from, size_t count) {
    for (size_t i = 0; i < count; i++) {
        to[i] = from[i];
    }
}

static inline int same_words(const uint64_t *some, const uint64_t *others, size_t count) {
    for (size_t i = 0; i < count; i++) {
        if (some[i] != others[i]) {
            return 0;
        }
    }
    return 1;
}

/* What asking tells. It changes no word of the table. */
static inline speldervacht_verdict checked_ask(const uint64_t *table, size_t table_words, size_t order_words,
                                               const uint8_t *message, size_t message_bytes,
                                               speldervacht_request request) {
    static uint64_t before[MOST_TABLE_WORDS];
    speldervacht_verdict verdict;
    copy_words(before, table, table_words);
    verdict = speldervacht_ask(table, table_words, order_words, message, message_bytes, request);
    expect(same_words(before, table, table_words), "asking changes no word");
    expect(verdict.number <= LAST_NUMBER, "asking tells a number that there is");
    if (verdict.number <= LAST_NUMBER) {
        told[verdict.number]++;
    }
    if (verdict.number == SPELDERVACHT_ACCEPTED && request.kind <= SPELDERVACHT_CONFIGURE) {
        told_yes[request.kind]++;
    }
    return verdict;
}

/* What a request is answered: what asking told before. A refusal changes no word. */
static inline speldervacht_answer checked_step(uint64_t *table, size_t table_words, uint64_t *orders,
                                               size_t order_words, const uint8_t *message, size_t message_bytes,
                                               speldervacht_request request) {
    static uint64_t table_before[MOST_TABLE_WORDS], orders_before[MOST_ORDER_WORDS];
    speldervacht_verdict verdict = checked_ask(table, table_words, order_words, message, message_bytes, request);
    speldervacht_answer answer;
    copy_words(table_before, table, table_words);
    copy_words(orders_before, orders, order_words);
    answer = speldervacht_step(table, table_words, orders, order_words, message, message_bytes, request);
    expect(verdict.number == answer.number && verdict.field == answer.field, "the answer is what asking told");
    if (answer.number != SPELDERVACHT_ACCEPTED) {
        expect(answer.orders == 0, "a refusal gives no orders");
        expect(same_words(table_before, table, table_words), "a refusal changes no word of the table");
        expect(same_words(orders_before, orders, order_words), "a refusal changes no order word");
    }
    return answer;
}

/* What the take of a numbered list's message is answered. */
static inline uint64_t checked_take(uint64_t *table, size_t table_words, uint64_t number, const uint64_t *list,
                                    size_t list_words) {
    static uint8_t message[MOST_MESSAGE_BYTES];
    speldervacht_written written = speldervacht_write_message(message, sizeof message, number, list, list_words);
    expect(written.number == SPELDERVACHT_ACCEPTED, "a message is written");
    return checked_step(table, table_words, NULL, 0, message, written.bytes,
                        speldervacht_request_of(SPELDERVACHT_TAKE, 0, 0))
        .number;
}

#endif
