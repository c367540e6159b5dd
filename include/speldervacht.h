/*
 * speldervacht.h: a metadata cache that keeps the books.
 *
 * The cache knows which records are in the host's memory, which of them are dirty, held or pinned,
 * and which was used last. It never sees a record's contents: the host reads and writes records as
 * the orders say.
 *
 * A host inserts a record that it creates. It protects a record before it reads or changes it, and
 * releases it afterwards; if the record is not in the cache, protecting it gives an order to load
 * it. A held or pinned entry stays. All others stand in the recency list, from which room is made:
 * clean entries are evicted, the oldest first, and a cache that is alone writes dirty ones before. A
 * lead writes at a flush or sync only and sends its standby a list of what it wrote, as a numbered
 * message, so that both know the same dirty records. docs/RULES.md has each rule.
 *
 * Two words have two senses. An entry is held while readers or a writer hold it, between protect and
 * release; held bytes are the sizes of all entries, held or not. An entry is clean if it is not
 * dirty; minimum clean bytes are what the settings want to be clean or unused.
 *
 * A lead and a standby have the same dirty records at the same sizes, and the same byte count, if
 * both are opened with the same threshold, both get every insert, changed release, resize and
 * discard before the next one, the standby takes each message before the next list or change, and no
 * such change is refused by only one of them. So the host asks both about a change (speldervacht_ask),
 * and does it at both if both would accept it; a table gets no other request between its yes and the
 * doing. If one would answer NO_ROW, the lead flushes, the standby takes the message, and the host asks
 * again; at NOT_IN_CACHE, HELD, NOT_HELD and PIN_FORBIDS the entry is protected, released or
 * unpinned there first. docs/RULES.md, "A change that one of them refuses", has an example and each
 * number.
 *
 * What a host does, and when (docs/HOSTING.md says why, and what to do at each refusal):
 *
 * - Orders are carried out before the table's next request: the writes and the load first, the
 *   evictions last. The host copies the table before a request; if an order fails, it puts the copy
 *   back, and all is as if the request had not come.
 * - At a changed release the new bytes are in memory already: its orders may write and evict this very
 *   record. After any release the record may be gone. An insert's orders never name the new record,
 *   whose bytes come into memory after them.
 * - A protect names the record's size, so the host keeps all sizes outside the cache.
 * - A lead sends its message when the disk has what was written.
 * - Many requests at once, as those of a tick or those that a standby has yet to catch up with, may be
 *   one batch (speldervacht_batch): the table is judged once for all of them, and judging is most of
 *   what a small request costs. Their orders are carried out one request's after the other's.
 * - Why a record left, or why the maximum moved, is told by the request that did it, if that is done by
 *   speldervacht_explain; afterwards nothing tells.
 * - A table that a crash may have caught amid a call is not used again, even if it is not refused.
 *
 * The host lends memory for each call and the library keeps none of its own:
 *
 *   table    uint64_t[SPELDERVACHT_TABLE_WORDS(rows)]    one cache, from one call to the next
 *   orders   uint64_t[SPELDERVACHT_ORDER_WORDS(rows)]    what a request tells the host to do
 *   reasons  uint64_t[SPELDERVACHT_REASON_WORDS(rows)]   why it does: a word for each order
 *   message  uint8_t[SPELDERVACHT_MESSAGE_BYTES(count)]  a list of so many addresses: written for a
 *                                                        lead, read by a standby's take
 *   list     const uint64_t[count]                       the addresses of a message to be written
 *   requests const uint64_t[SPELDERVACHT_REQUEST_WORDS(requests)]    those of a batch
 *   answers  uint64_t[SPELDERVACHT_ANSWER_WORDS(requests)]           what each of these is answered
 *
 * The table, with n rows:
 *
 *   word
 *   0          version
 *   1          row count n
 *   2          mode
 *   3          dirty-byte threshold
 *   4          maximum, in bytes
 *   5          accesses in this epoch
 *   6          hits in this epoch
 *   7          bytes made dirty since the last list
 *   8          number of the next message, 0 if none is left
 *   9          1 if making room found the maximum exceeded since the counters restarted, else 0
 *   10 .. 30   settings
 *   31         n rows of 6 words: address, size, dirty, idle count, pinned, hold
 *   31 + 6 n   recency run: row numbers from the oldest entry to the newest, then all ones
 *   31 + 7 n   address run: row numbers of the entries by rising address, then all ones
 *   31 + 8 n   the end; words past it are never touched
 *
 * Only the library writes to an open table. There are no pointers in it: between calls the host may
 * read, copy, move or store it, and go on with a copy. A table whose words picture no cache is
 * answered SPELDERVACHT_BAD_TABLE by every call that gets a table but the opening.
 *
 * A message, with c addresses. Its fields are a tag of one byte, a length of two and a value of that
 * length; numbers have the high byte first:
 *
 *   byte
 *   0          01 00 08, and 8 bytes: the list's number
 *   11         02 00 02, and 2 bytes: c
 *   16 + 11 i  03 00 08, and 8 bytes: address i, for i from 0 to c - 1
 *   16 + 11 c  09 00 00
 *   19 + 11 c  the end
 *
 * One numbered list has one message, and no message is the beginning of another: so a part of one is
 * never taken for a shorter list. The numbers rise by one from 1. docs/MESSAGE.md has examples.
 *
 * Every call ends with an answer, whatever the words, bytes and numbers are. A refusal gives no orders
 * and changes nothing that was lent. If several reasons apply, the lowest number is given, but for
 * take, which is judged in this order: 1 and 5; the message's bytes, 15 or 14; its number, 16; its
 * addresses, 3 and 13.
 *
 * The pointers: each points to at least as many words or bytes as its length says, and is aligned for
 * uint64_t if these are words. NULL goes with the length 0. What is lent for one call must not overlap.
 * Too short a table is refused with 1, too few order words or reason words with 2. Calls on different
 * tables may run at the same time; calls on one table may not, unless all of them ask or report.
 *
 * A first cache:
 *
 *   uint64_t table[SPELDERVACHT_TABLE_WORDS(64)];
 *   uint64_t orders[SPELDERVACHT_ORDER_WORDS(64)];
 *   speldervacht_answer answer;
 *
 *   answer = speldervacht_open(table, SPELDERVACHT_TABLE_WORDS(64), 64, SPELDERVACHT_ALONE,
 *                              SPELDERVACHT_DEFAULT_THRESHOLD,
 *                              speldervacht_default_settings(SPELDERVACHT_ALONE));
 *   answer = speldervacht_step(table, SPELDERVACHT_TABLE_WORDS(64),
 *                              orders, SPELDERVACHT_ORDER_WORDS(64), NULL, 0,
 *                              speldervacht_request_of(SPELDERVACHT_INSERT, 100, 3000));
 *   for (uint64_t i = 0; i < answer.orders; i++) {
 *       uint64_t kind = orders[3 * i], address = orders[3 * i + 1], size = orders[3 * i + 2];
 *       ...
 *   }
 */
#ifndef SPELDERVACHT_H
#define SPELDERVACHT_H

#include <stddef.h>
#include <stdint.h>

#ifdef __cplusplus
extern "C" {
#define SPELDERVACHT_STATIC_ASSERT(test, words) static_assert(test, words)
#else
#define SPELDERVACHT_STATIC_ASSERT(test, words) _Static_assert(test, words)
#endif

/* ---- version, of the header and the library; a table's version is its layout's and counts apart */

#define SPELDERVACHT_VERSION_MAJOR 0
#define SPELDERVACHT_VERSION_MINOR 5
#define SPELDERVACHT_VERSION_PATCH 1
#define SPELDERVACHT_VERSION "0.5.1"

/* ---- sizes and limits */

/* The words of a table, and of the orders that one request may give. */
#define SPELDERVACHT_TABLE_WORDS(rows) (31 + 8 * (size_t)(rows))
#define SPELDERVACHT_ORDER_WORDS(rows) (3 * (2 * (size_t)(rows) + 1))
/* The words of the reasons of these orders, one each. */
#define SPELDERVACHT_REASON_WORDS(rows) (2 * (size_t)(rows) + 1)
/* The most addresses of a list that a lead with so many rows sends, or a standby with so many takes. */
#define SPELDERVACHT_LIST_WORDS(rows) ((size_t)(rows))
/* The bytes of a message with so many addresses. */
#define SPELDERVACHT_MESSAGE_BYTES(count) (19 + 11 * (size_t)(count))
/* The words of so many requests in a batch, three each: kind, address, size; and of their answers, two
 * each: number, orders given. */
#define SPELDERVACHT_REQUEST_WORDS(requests) (3 * (size_t)(requests))
#define SPELDERVACHT_ANSWER_WORDS(requests) (2 * (size_t)(requests))
/* Order words for a batch that is not to stop for them until it has given more than so many orders. */
#define SPELDERVACHT_BATCH_ORDER_WORDS(rows, orders) (SPELDERVACHT_ORDER_WORDS(rows) + 3 * (size_t)(orders))

/* Rows of a table: 1 to this. */
#define SPELDERVACHT_MOST_ROWS 4096
/* Bytes of an entry: 1 to this. */
#define SPELDERVACHT_LARGEST_ENTRY UINT64_C(134217728)
/* Readers of one entry: up to this. */
#define SPELDERVACHT_MOST_READERS 65535
/* Addresses of one message: up to this. */
#define SPELDERVACHT_MOST_LISTED 65535
/* The one number that is no address. */
#define SPELDERVACHT_NO_ADDRESS UINT64_MAX
/* The dirty-byte threshold: 1 to the largest, in bytes. */
#define SPELDERVACHT_DEFAULT_THRESHOLD UINT64_C(262144)
#define SPELDERVACHT_LARGEST_THRESHOLD UINT64_C(1073741824)
/* Where the count of bytes made dirty stops. */
#define SPELDERVACHT_COUNT_STOP UINT64_C(1099511627776)
/* Idle counts are 0 to 10. */
#define SPELDERVACHT_IDLE_COUNTS 11
/* What the settings may name as maximum size and as minimum size, in bytes. */
#define SPELDERVACHT_SMALLEST_CACHE UINT64_C(1024)
#define SPELDERVACHT_LARGEST_CACHE UINT64_C(134217728)
/* Accesses in an epoch: from the shortest to the longest. */
#define SPELDERVACHT_SHORTEST_EPOCH UINT64_C(100)
#define SPELDERVACHT_LONGEST_EPOCH UINT64_C(1000000)

/* ---- numbers */

/* What part a cache plays; fixed at opening. */
enum speldervacht_mode {
    SPELDERVACHT_ALONE = 0,   /* the one cache of its world; writes as room is made */
    SPELDERVACHT_LEAD = 1,    /* writes at flush and sync alone, and sends lists to the standby */
    SPELDERVACHT_STANDBY = 2  /* never writes; takes the lead's messages */
};

/* The kinds of request, and what each reads of struct speldervacht_request. Any other kind is
 * answered SPELDERVACHT_BAD_MODE. */
enum speldervacht_kind {
    SPELDERVACHT_INSERT = 1,              /* address, size: room is made, a new dirty entry comes */
    SPELDERVACHT_PROTECT_FOR_READING = 2, /* address, size: a hold that readers share; a miss loads */
    SPELDERVACHT_PROTECT_FOR_WRITING = 3, /* address, size: a hold that nobody shares; a miss loads */
    SPELDERVACHT_RELEASE_UNCHANGED = 4,   /* address: one hold goes */
    SPELDERVACHT_RELEASE_CHANGED = 5,     /* address, size it has now: the writer's hold goes, dirty */
    SPELDERVACHT_PIN = 6,                 /* address: a held entry stays until it is unpinned */
    SPELDERVACHT_UNPIN = 7,               /* address: the pin goes */
    SPELDERVACHT_RESIZE = 8,              /* address, size: a pinned or written entry is dirty, so large */
    SPELDERVACHT_DISCARD = 9,             /* address: the entry goes with no order */
    SPELDERVACHT_FLUSH = 10,              /* alone, lead: every dirty entry is written; none may be held */
    SPELDERVACHT_SYNC = 11,               /* lead: entries are written until enough is clean */
    SPELDERVACHT_TAKE = 12,               /* standby, the message: its addresses become clean */
    SPELDERVACHT_CONFIGURE = 13           /* settings: they count from now on */
};

/* The kinds of order. An order is three words: kind, address, size. The host carries out the orders
 * of a request before its next request, in their order; evictions may come last. */
enum speldervacht_order {
    SPELDERVACHT_WRITE = 1, /* write the record; its entry is clean now */
    SPELDERVACHT_EVICT = 2, /* forget the record; its entry is gone */
    SPELDERVACHT_LOAD = 3   /* read the record; its entry has come */
};

/* The reasons of orders: by which rule an order was given. */
enum speldervacht_reason {
    SPELDERVACHT_REASON_ROOM_BY_BYTES = 1, /* making room: held plus incoming bytes exceeded the maximum */
    SPELDERVACHT_REASON_ROOM_BY_ROWS = 2,  /* making room: they did not, and a row was wanted and none free */
    SPELDERVACHT_REASON_CLEAN_SHARE = 3,   /* making room, alone: too little was clean or unused */
    SPELDERVACHT_REASON_AGED_OUT = 4,      /* an epoch's end: idle for as many as the decrease rule says */
    SPELDERVACHT_REASON_FLUSH = 5,
    SPELDERVACHT_REASON_SYNC = 6,
    SPELDERVACHT_REASON_LOAD = 7           /* a protect of a record that was not there */
};

/* The causes of a change of the maximum: which rule changed it; and the bounds that each can have. */
enum speldervacht_cause {
    SPELDERVACHT_CAUSE_NONE = 0,      /* it did not change */
    SPELDERVACHT_CAUSE_INCREASE = 1,  /* field 8: none, largest, increment */
    SPELDERVACHT_CAUSE_FLASH = 2,     /* field 10: none, largest */
    SPELDERVACHT_CAUSE_THRESHOLD = 3, /* field 11, by threshold: none, smallest, decrement */
    SPELDERVACHT_CAUSE_AGE_OUT = 4,   /* field 11, by age-out, with threshold or without: the same */
    SPELDERVACHT_CAUSE_SETTINGS = 5   /* configure: none if the initial size is set, else largest, smallest */
};

/* The bounds: which field of the settings cut the value that the rule alone would give and so decided the
 * final one. A limit that is just reached has cut nothing. Of two that cut it to the same value the lowest
 * number is told. */
enum speldervacht_bound {
    SPELDERVACHT_BOUND_NONE = 0,
    SPELDERVACHT_BOUND_LARGEST = 5,   /* maximum size */
    SPELDERVACHT_BOUND_SMALLEST = 6,  /* minimum size */
    SPELDERVACHT_BOUND_INCREMENT = 9, /* cap on one increase */
    SPELDERVACHT_BOUND_DECREMENT = 12 /* cap on one decrease */
};

/* The answers. */
enum speldervacht_number {
    SPELDERVACHT_ACCEPTED = 0,
    SPELDERVACHT_BAD_TABLE = 1,       /* rows out of limits, table too short, or no cache in it */
    SPELDERVACHT_FEW_ORDER_WORDS = 2, /* insert, protect, release, flush, sync, configure need them, and
                                         with speldervacht_explain reason words too; too few bytes to
                                         write a message into */
    SPELDERVACHT_BAD_ADDRESS = 3,     /* all ones is no address */
    SPELDERVACHT_BAD_SIZE = 4,        /* 0, or above SPELDERVACHT_LARGEST_ENTRY */
    SPELDERVACHT_BAD_MODE = 5,        /* not for this mode; at opening a bad mode or threshold */
    SPELDERVACHT_NOT_IN_CACHE = 6,    /* release, pin, unpin or resize of what is not there */
    SPELDERVACHT_IN_CACHE = 7,        /* insert of what is there */
    SPELDERVACHT_HELD = 8,            /* the entry's hold forbids it */
    SPELDERVACHT_NOT_HELD = 9,        /* the entry lacks the hold that is needed */
    SPELDERVACHT_PIN_FORBIDS = 10,    /* pinned at pin or discard, not pinned at unpin */
    SPELDERVACHT_NO_ROW = 11,         /* no row is free, and no entry may be evicted */
    SPELDERVACHT_BAD_SETTING = 12,    /* the lowest bad field comes with it */
    SPELDERVACHT_BAD_LIST = 13,       /* an address twice, or one not dirty here */
    SPELDERVACHT_CUT_MESSAGE = 14,    /* the message's bytes end early */
    SPELDERVACHT_BAD_MESSAGE = 15,    /* a byte that no right message can have there; or a list to write
                                         that has more than SPELDERVACHT_MOST_LISTED addresses */
    SPELDERVACHT_WRONG_NUMBER = 16    /* take: a right message without the next number; a lead's flush
                                         and sync: no number is left to send */
};

/* Kinds of the rules and caps in the settings. An unknown kind is a bad setting. */
enum speldervacht_increase {
    SPELDERVACHT_INCREASE_OFF = 0,
    SPELDERVACHT_INCREASE_BY_THRESHOLD = 1
};

enum speldervacht_cap {
    SPELDERVACHT_NO_CAP = 0,
    SPELDERVACHT_CAP_UP_TO = 1
};

enum speldervacht_flash {
    SPELDERVACHT_FLASH_OFF = 0,
    SPELDERVACHT_FLASH_ON = 1
};

enum speldervacht_decrease {
    SPELDERVACHT_DECREASE_OFF = 0,
    SPELDERVACHT_DECREASE_BY_THRESHOLD = 1,
    SPELDERVACHT_DECREASE_BY_AGE_OUT = 2,
    SPELDERVACHT_DECREASE_BY_AGE_OUT_WITH_THRESHOLD = 3
};

/* ---- structs, all words of 8 bytes, passed by value */

/* The settings. The number before a field is what comes with SPELDERVACHT_BAD_SETTING. Words that
 * their kind does not name are not read. Two fields depend on others: evictions may be off only if
 * the increase, flash and decrease rules are all off (else field 1 is bad), and the lower rate must
 * be below the upper rate if both count, the increase rule being on and the decrease rule one with
 * an upper rate (else field 8 is bad).
 *
 * At an epoch's end the cache is full if held bytes reach the maximum, or if since the counters of
 * accesses and hits last restarted making room found held plus incoming bytes above the maximum, whether
 * or not anything could be evicted. They restart at an epoch's end, at a configure and when a flash
 * raises the maximum; room that the same request makes after that counts again. */
typedef struct speldervacht_settings {
    uint64_t evictions;         /*  1: evictions: 0 is off, all else on; off only with all rules off */
    uint64_t preset;            /*  2: whether the initial size is set; needed at opening */
    uint64_t initial;           /*  3: initial size, the maximum to begin with, in [smallest, largest] */
    double clean;               /*  4: minimum clean fraction, in [0, 1]: the share to be clean or unused */
    uint64_t largest;           /*  5: maximum size, never exceeded; SMALLEST_CACHE to LARGEST_CACHE */
    uint64_t smallest;          /*  6: minimum size, never fallen below; SMALLEST_CACHE to largest */
    uint64_t epoch;             /*  7: epoch length in accesses; SHORTEST_EPOCH to LONGEST_EPOCH */
    uint64_t increase_kind;     /*  8: increase rule: enum speldervacht_increase */
    double increase_lower;      /*     a hit rate below it in a full cache raises the maximum; in [0, 1],
                                       and below decrease_upper where that counts */
    double increase_multiplier; /*     by this factor, in (1, 2] */
    uint64_t increment_kind;    /*  9: cap on one increase: enum speldervacht_cap */
    uint64_t increment_bytes;   /*     up to SPELDERVACHT_LARGEST_CACHE */
    uint64_t flash_kind;        /* 10: flash rule: enum speldervacht_flash */
    double flash_multiple;      /*     of the bytes that come, less free space, in [0.1, 10] */
    double flash_threshold;     /*     of the maximum that these bytes have to exceed, in [0.1, 1] */
    uint64_t decrease_kind;     /* 11: decrease rule: enum speldervacht_decrease */
    double decrease_upper;      /*     both thresholds: a hit rate above it lowers the maximum, [0, 1] */
    double decrease_multiplier; /*     threshold: by this factor, in [0, 1] */
    uint64_t decrease_epochs;   /*     both age-outs: idle epochs until an entry goes, 1 to 10 */
    double decrease_reserve;    /*     both age-outs: the share to keep empty, in [0, 1] */
    uint64_t decrement_kind;    /* 12: cap on one decrease: enum speldervacht_cap */
    uint64_t decrement_bytes;   /*     up to SPELDERVACHT_LARGEST_CACHE */
} speldervacht_settings;

/* A request. Only the words that its kind reads count. */
typedef struct speldervacht_request {
    uint64_t kind; /* enum speldervacht_kind */
    uint64_t address;
    uint64_t size;                         /* in bytes */
    struct speldervacht_settings settings; /* for configure */
} speldervacht_request;

/* The answer to an opening or a request. */
typedef struct speldervacht_answer {
    uint64_t number; /* enum speldervacht_number */
    uint64_t field;  /* 1 to 12 with SPELDERVACHT_BAD_SETTING, else 0 */
    uint64_t orders; /* how many orders were given */
} speldervacht_answer;

/* The answer to a request that is explained. The reasons of its orders stand in the words lent for them. */
typedef struct speldervacht_explanation {
    uint64_t number; /* enum speldervacht_number */
    uint64_t field;  /* 1 to 12 with SPELDERVACHT_BAD_SETTING, else 0 */
    uint64_t orders; /* how many orders were given, and how many reasons */
    uint64_t cause;  /* enum speldervacht_cause: why the maximum changed */
    uint64_t bound;  /* enum speldervacht_bound: what held its new value */
} speldervacht_explanation;

/* What a request would be answered. */
typedef struct speldervacht_verdict {
    uint64_t number; /* enum speldervacht_number */
    uint64_t field;  /* 1 to 12 with SPELDERVACHT_BAD_SETTING, else 0 */
} speldervacht_verdict;

/* What a batch came to. */
typedef struct speldervacht_batched {
    uint64_t number; /* 0, SPELDERVACHT_BAD_TABLE, or SPELDERVACHT_FEW_ORDER_WORDS if it stopped */
    uint64_t done;   /* how many requests were answered */
    uint64_t orders; /* how many orders they gave */
} speldervacht_batched;

/* What writing a message came to. */
typedef struct speldervacht_written {
    uint64_t number; /* 0, SPELDERVACHT_FEW_ORDER_WORDS or SPELDERVACHT_BAD_MESSAGE */
    uint64_t bytes;  /* how many bytes the message has, 0 if it was refused */
} speldervacht_written;

/* The figures of a cache, in bytes but for entries, due and next. */
typedef struct speldervacht_figures {
    uint64_t number;                           /* 0, or SPELDERVACHT_BAD_TABLE and all else is 0 */
    uint64_t held;                             /* held bytes: the sizes of all entries, held or not */
    uint64_t dirty;                            /* the sizes of the dirty ones */
    uint64_t entries;                          /* how many */
    uint64_t maximum;                          /* what held bytes are to stay within */
    uint64_t clean;                            /* minimum clean bytes: what is to be clean or unused */
    uint64_t missing;                          /* missing clean bytes: what is lacking of these; 0 if none is */
    uint64_t count;                            /* made dirty since the last list */
    uint64_t due;                              /* 1 if the count exceeds the threshold, else 0 */
    uint64_t next;                             /* number of the next message; 0: none is left */
    uint64_t totals[SPELDERVACHT_IDLE_COUNTS]; /* the sizes of the entries with each idle count */
} speldervacht_figures;

SPELDERVACHT_STATIC_ASSERT(sizeof(double) == 8, "double is a 64-bit float");
SPELDERVACHT_STATIC_ASSERT(sizeof(struct speldervacht_settings) == 176, "22 words");
SPELDERVACHT_STATIC_ASSERT(sizeof(struct speldervacht_request) == 200, "25 words");
SPELDERVACHT_STATIC_ASSERT(sizeof(struct speldervacht_answer) == 24, "3 words");
SPELDERVACHT_STATIC_ASSERT(sizeof(struct speldervacht_explanation) == 40, "5 words");
SPELDERVACHT_STATIC_ASSERT(sizeof(struct speldervacht_verdict) == 16, "2 words");
SPELDERVACHT_STATIC_ASSERT(sizeof(struct speldervacht_batched) == 24, "3 words");
SPELDERVACHT_STATIC_ASSERT(sizeof(struct speldervacht_written) == 16, "2 words");
SPELDERVACHT_STATIC_ASSERT(sizeof(struct speldervacht_figures) == 168, "21 words");

/* ---- functions */

/* Opens a fresh, empty cache in the table, whatever its words were. Refused with BAD_TABLE, BAD_MODE
 * or BAD_SETTING. */
speldervacht_answer speldervacht_open(uint64_t *table, size_t table_words, uint64_t rows, uint64_t mode,
                                      uint64_t threshold, struct speldervacht_settings settings);

/* Does one request on the cache in the table. Its orders stand from orders[0] on, three words each;
 * the words past the last order stay as they were. The message is read by take alone.
 *
 * A lead's list is the addresses of the write orders of an accepted flush or sync. Its number is the
 * report's next from before that request, which uses it up. The message of both is sent even if the list
 * is empty. The standby takes each message once, in the order of their numbers, before the next list or
 * change. A message that comes again or out of turn is refused with SPELDERVACHT_WRONG_NUMBER. */
speldervacht_answer speldervacht_step(uint64_t *table, size_t table_words, uint64_t *orders, size_t order_words,
                                      const uint8_t *message, size_t message_bytes,
                                      struct speldervacht_request request);

/* Does one request exactly as speldervacht_step does it, with the same answer, table and order words, and
 * tells why. The reason of order i is reasons[i]; the words past the last reason stay as they were. A
 * request changes the maximum at most once: the answer has the cause and the bound of that change, both 0
 * if there was none.
 *
 * Refused as speldervacht_step refuses it, and with SPELDERVACHT_FEW_ORDER_WORDS also if the request can
 * give orders and fewer than SPELDERVACHT_REASON_WORDS(rows) reason words are lent, however few it gives.
 * A refusal has no reasons and names no change. Pin, unpin, resize, discard and take need no reason
 * words. */
speldervacht_explanation speldervacht_explain(uint64_t *table, size_t table_words, uint64_t *orders,
                                              size_t order_words, uint64_t *reasons, size_t reason_words,
                                              const uint8_t *message, size_t message_bytes,
                                              struct speldervacht_request request);

/* Does many requests on the cache in the table, which is judged once: one after another, each exactly as
 * speldervacht_step does it on the table that the one before it left, with the order words that are then
 * left. Request i is requests[3 * i] to requests[3 * i + 2]: kind, address, size. Its answer is
 * answers[2 * i], its number, and answers[2 * i + 1], how many orders it gave. These stand in orders
 * behind those of the requests before it. A request that is refused is answered too, and the batch goes
 * on. One or two words past the last whole request are not read; the words past the last answer and past
 * the last order stay as they were.
 *
 * A batch does the kinds from insert to sync. Take and configure, which need more than three words, and
 * unknown kinds are answered SPELDERVACHT_BAD_MODE in it.
 *
 * It stops before the first request for which too few order words or no two answer words are left. Then
 * the number is SPELDERVACHT_FEW_ORDER_WORDS: what was answered is done, and the host carries out its
 * orders and calls again with the rest. If nothing was answered, it lends more words. A request that
 * can give orders needs SPELDERVACHT_ORDER_WORDS(rows) words to be left, however few it gives: so lend
 * SPELDERVACHT_BATCH_ORDER_WORDS(rows, orders), with as many orders as are likely to come.
 *
 * A table whose words picture no cache is refused with SPELDERVACHT_BAD_TABLE: nothing is answered, and
 * no word changes. If an order fails: docs/HOSTING.md, "Many requests at once". */
speldervacht_batched speldervacht_batch(uint64_t *table, size_t table_words, uint64_t *orders, size_t order_words,
                                        const uint64_t *requests, size_t request_words, uint64_t *answers,
                                        size_t answer_words);

/* Tells what speldervacht_step would answer to the request, with so many order words lent for it, and
 * changes nothing. What it tells holds as long as the table gets no other request. It costs what
 * judging the table and testing the request cost, never more than the request itself. */
speldervacht_verdict speldervacht_ask(const uint64_t *table, size_t table_words, size_t order_words,
                                      const uint8_t *message, size_t message_bytes,
                                      struct speldervacht_request request);

/* Tells the figures of the cache in the table. Missing clean bytes are the minimum clean bytes less the clean
 * bytes of the recency list and the unused bytes, not below 0; unused bytes are the maximum less held bytes,
 * not below 0. Held and pinned entries are not in that list: so bytes can be missing with nothing dirty. */
speldervacht_figures speldervacht_report(const uint64_t *table, size_t table_words);

/* Writes the message of a numbered list into the first SPELDERVACHT_MESSAGE_BYTES(list_words) bytes; the bytes
 * past it stay as they were. Refused with SPELDERVACHT_FEW_ORDER_WORDS if fewer bytes are lent, and else with
 * SPELDERVACHT_BAD_MESSAGE if the list has more than SPELDERVACHT_MOST_LISTED addresses. It judges neither
 * the number nor the addresses. */
speldervacht_written speldervacht_write_message(uint8_t *bytes, size_t byte_count, uint64_t number,
                                                const uint64_t *list, size_t list_words);

/* The default settings of a mode: 2 MiB to begin with, between 1 MiB and 32 MiB, all rules on. The minimum
 * clean fraction is 0.01 alone and 0.3 for a lead and a standby. A mode that opening refuses gets 0.3. */
static inline speldervacht_settings speldervacht_default_settings(uint64_t mode) {
    speldervacht_settings settings;
    settings.evictions = 1;
    settings.preset = 1;
    settings.initial = 2097152;
    settings.clean = mode == SPELDERVACHT_ALONE ? 0.01 : 0.3;
    settings.largest = 33554432;
    settings.smallest = 1048576;
    settings.epoch = 50000;
    settings.increase_kind = SPELDERVACHT_INCREASE_BY_THRESHOLD;
    settings.increase_lower = 0.9;
    settings.increase_multiplier = 2.0;
    settings.increment_kind = SPELDERVACHT_CAP_UP_TO;
    settings.increment_bytes = 4194304;
    settings.flash_kind = SPELDERVACHT_FLASH_ON;
    settings.flash_multiple = 1.0;
    settings.flash_threshold = 0.25;
    settings.decrease_kind = SPELDERVACHT_DECREASE_BY_AGE_OUT_WITH_THRESHOLD;
    settings.decrease_upper = 0.999;
    settings.decrease_multiplier = 0.0;
    settings.decrease_epochs = 3;
    settings.decrease_reserve = 0.1;
    settings.decrement_kind = SPELDERVACHT_CAP_UP_TO;
    settings.decrement_bytes = 1048576;
    return settings;
}

/* A request of any kind but configure. Its settings are all 0; a configure names its own, and is refused with
 * BAD_SETTING if it does not. */
static inline speldervacht_request speldervacht_request_of(uint64_t kind, uint64_t address, uint64_t size) {
    speldervacht_request request = {
        kind, address, size, {0, 0, 0, 0, 0, 0, 0, 0, 0, 0, 0, 0, 0, 0, 0, 0, 0, 0, 0, 0, 0, 0}};
    return request;
}

/* What an answer's number says, without particulars. */
static inline const char *speldervacht_text(uint64_t number) {
    switch (number) {
    case SPELDERVACHT_ACCEPTED: return "accepted";
    case SPELDERVACHT_BAD_TABLE:
        return "the row count is out of limits, the table is too short, or its words picture no cache";
    case SPELDERVACHT_FEW_ORDER_WORDS:
        return "the request needs more words for orders or reasons, or the message more bytes, than were lent";
    case SPELDERVACHT_BAD_ADDRESS: return "all ones is no address";
    case SPELDERVACHT_BAD_SIZE: return "the size is not within 1 to 134217728 bytes";
    case SPELDERVACHT_BAD_MODE:
        return "the request is not for a cache in this mode, or the mode or threshold at opening is bad";
    case SPELDERVACHT_NOT_IN_CACHE: return "the cache has no entry at the address";
    case SPELDERVACHT_IN_CACHE: return "the cache has an entry at the address";
    case SPELDERVACHT_HELD: return "an entry is held for writing or by readers, which forbids the request";
    case SPELDERVACHT_NOT_HELD: return "the entry lacks the hold that the request needs";
    case SPELDERVACHT_PIN_FORBIDS: return "the entry is pinned, or for unpin not pinned";
    case SPELDERVACHT_NO_ROW: return "no row is free and no entry may be evicted";
    case SPELDERVACHT_BAD_SETTING: return "a setting is bad";
    case SPELDERVACHT_BAD_LIST: return "the list names an address twice, or one that is not dirty here";
    case SPELDERVACHT_CUT_MESSAGE: return "the message's bytes end early";
    case SPELDERVACHT_BAD_MESSAGE:
        return "the message has a byte that no right message can have there, or the list to write is longer than a "
               "message can have";
    case SPELDERVACHT_WRONG_NUMBER:
        return "the message does not have the next number, or no number is left to send";
    default: return "no answer has this number";
    }
}

/* What a field of the settings is called, by the number that comes with SPELDERVACHT_BAD_SETTING. */
static inline const char *speldervacht_field(uint64_t field) {
    switch (field) {
    case 1: return "evictions";
    case 2: return "whether the initial size is set";
    case 3: return "the initial size";
    case 4: return "the minimum clean fraction";
    case 5: return "the maximum size";
    case 6: return "the minimum size";
    case 7: return "the epoch length";
    case 8: return "the increase rule";
    case 9: return "the cap on one increase";
    case 10: return "the flash rule";
    case 11: return "the decrease rule";
    case 12: return "the cap on one decrease";
    default: return "no field of the settings has this number";
    }
}

#ifdef __cplusplus
}
#endif

#endif
