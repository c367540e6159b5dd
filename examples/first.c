/* A cache of four entries and 4,096 bytes. Three records come; the third needs room, so both others are
 * written and the oldest leaves. Prints the orders. */
#include "speldervacht.h"

#include <inttypes.h>
#include <stdio.h>

#define ROWS 4

static uint64_t table[SPELDERVACHT_TABLE_WORDS(ROWS)];
static uint64_t orders[SPELDERVACHT_ORDER_WORDS(ROWS)];

/* Opens the cache: its maximum stays at 4,096 bytes, and nothing has to be clean. */
static uint64_t open_cache(void) {
    speldervacht_settings settings = speldervacht_default_settings(SPELDERVACHT_ALONE);
    settings.initial = settings.smallest = settings.largest = 4096;
    settings.clean = 0.0;
    settings.increase_kind = SPELDERVACHT_INCREASE_OFF;
    settings.flash_kind = SPELDERVACHT_FLASH_OFF;
    settings.decrease_kind = SPELDERVACHT_DECREASE_OFF;
    return speldervacht_open(table, SPELDERVACHT_TABLE_WORDS(ROWS), ROWS, SPELDERVACHT_ALONE,
                             SPELDERVACHT_DEFAULT_THRESHOLD, settings)
        .number;
}

/* Inserts a record and prints the orders that this gives. */
static uint64_t insert(uint64_t address, uint64_t size) {
    static const char *const kinds[] = {"?", "write", "evict", "load"};
    speldervacht_request request = speldervacht_request_of(SPELDERVACHT_INSERT, address, size);
    speldervacht_answer answer = speldervacht_step(table, SPELDERVACHT_TABLE_WORDS(ROWS), orders,
                                                   SPELDERVACHT_ORDER_WORDS(ROWS), NULL, 0, request);
    for (uint64_t i = 0; i < answer.orders; i++)
        printf("%s %" PRIu64 " %" PRIu64 "\n", kinds[orders[3 * i]], orders[3 * i + 1], orders[3 * i + 2]);
    return answer.number;
}

int main(void) {
    return open_cache() != 0 || insert(100, 3000) != 0 || insert(200, 1000) != 0 || insert(300, 500) != 0;
}
