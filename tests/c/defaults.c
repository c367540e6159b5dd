/* The header's default settings and threshold beside those of the proved constructor, which the
 * program `defaults` prints. Also compiles as C++.
 *
 *   defaults FILE: its numbers, in decimal, one a line, the threshold and then for each mode, by its number,
 *   the words of the settings
 */
#include "expect.h"
#include "speldervacht.h"

#include <inttypes.h>
#include <string.h>

#define ROWS 1
#define TABLE SPELDERVACHT_TABLE_WORDS(ROWS)

/* Where the threshold and the settings stand in a table. */
#define THRESHOLD 3
#define SETTINGS 10
#define SETTINGS_WORDS 21

#define STRUCT_WORDS (sizeof(speldervacht_settings) / sizeof(uint64_t))

#define MODES 3

static uint64_t proved[1 + MODES * SETTINGS_WORDS];

/* The words of a mode's settings among these. */
static const uint64_t *proved_for(uint64_t mode) {
    return proved + 1 + mode * SETTINGS_WORDS;
}

/* Whether the file has exactly the numbers wanted. */
static int read_numbers(const char *path) {
    size_t numbers = sizeof proved / sizeof proved[0], found = 0;
    uint64_t number;
    FILE *file = fopen(path, "r");
    if (file == NULL) {
        return 0;
    }
    while (fscanf(file, "%" SCNu64, &number) == 1) {
        if (found < numbers) {
            proved[found] = number;
        }
        found++;
    }
    found = feof(file) ? found : 0;
    fclose(file);
    return found == numbers;
}

static void expect_word(const char *where, size_t at, uint64_t word, uint64_t wanted) {
    if (word != wanted) {
        printf("%s, word %zu: %" PRIu64 ", where the constructor gives %" PRIu64 "\n", where, at, word, wanted);
        failures++;
    }
}

/* What opening with the header's defaults of a mode leaves in a table. */
static void in_a_table(uint64_t mode) {
    uint64_t table[TABLE];
    speldervacht_answer answer = speldervacht_open(table, TABLE, ROWS, mode, SPELDERVACHT_DEFAULT_THRESHOLD,
                                                   speldervacht_default_settings(mode));
    expect(answer.number == SPELDERVACHT_ACCEPTED, "opening with the defaults");
    if (answer.number != SPELDERVACHT_ACCEPTED) {
        return;
    }
    expect_word("table", THRESHOLD, table[THRESHOLD], proved[0]);
    for (size_t i = 0; i < SETTINGS_WORDS; i++) {
        expect_word("table", SETTINGS + i, table[SETTINGS + i], proved_for(mode)[i]);
    }
}

/* The words of a struct. */
static void copy_struct(uint64_t words[STRUCT_WORDS], speldervacht_settings settings) {
    memcpy(words, &settings, sizeof settings);
}

/* The struct's own words: a table's words in their order, and the decrease rule's multiplier, which
 * the default kind does not read and which is 0. */
static void in_the_struct(uint64_t mode) {
    size_t multiplier = offsetof(speldervacht_settings, decrease_multiplier) / sizeof(uint64_t);
    uint64_t words[STRUCT_WORDS];
    copy_struct(words, speldervacht_default_settings(mode));
    for (size_t i = 0, next = 0; i < STRUCT_WORDS; i++) {
        expect_word("struct", i, words[i], i == multiplier ? 0 : proved_for(mode)[next++]);
    }
}

/* The two fractions, by their bits. A mode that is refused has the lead's. */
static void fractions(void) {
    const size_t clean = offsetof(speldervacht_settings, clean) / sizeof(uint64_t);
    const uint64_t modes[] = {SPELDERVACHT_ALONE, SPELDERVACHT_LEAD, SPELDERVACHT_STANDBY, MODES, UINT64_MAX};
    for (size_t i = 0; i < sizeof modes / sizeof modes[0]; i++) {
        uint64_t words[STRUCT_WORDS];
        copy_struct(words, speldervacht_default_settings(modes[i]));
        expect(words[clean] == (i == 0 ? UINT64_C(0x3f847ae147ae147b) : UINT64_C(0x3fd3333333333333)),
               "0.01 alone, else 0.3");
    }
}

/* A request has no default settings. */
static void in_a_request(void) {
    uint64_t words[STRUCT_WORDS];
    copy_struct(words, speldervacht_request_of(SPELDERVACHT_CONFIGURE, 1, 2).settings);
    for (size_t i = 0; i < STRUCT_WORDS; i++) {
        expect(words[i] == 0, "a request's settings are 0");
    }
}

/* A configure without settings is refused. */
static void configure_without_settings(void) {
    uint64_t table[TABLE], orders[SPELDERVACHT_ORDER_WORDS(ROWS)];
    speldervacht_answer answer;
    speldervacht_open(table, TABLE, ROWS, SPELDERVACHT_ALONE, SPELDERVACHT_DEFAULT_THRESHOLD,
                      speldervacht_default_settings(SPELDERVACHT_ALONE));
    answer = speldervacht_step(table, TABLE, orders, SPELDERVACHT_ORDER_WORDS(ROWS), NULL, 0,
                               speldervacht_request_of(SPELDERVACHT_CONFIGURE, 0, 0));
    expect(answer.number == SPELDERVACHT_BAD_SETTING && answer.field == 5, "a maximum size of 0");
}

int main(int count, char **arguments) {
    if (count != 2 || !read_numbers(arguments[1])) {
        printf("usage: defaults FILE, with the %zu numbers that the program `defaults` prints\n",
               sizeof proved / sizeof proved[0]);
        return 2;
    }
    for (uint64_t mode = 0; mode < MODES; mode++) {
        in_a_table(mode);
        in_the_struct(mode);
    }
    fractions();
    in_a_request();
    configure_without_settings();
    return outcome("the defaults are the constructor's");
}
