/* The texts of answers and settings fields, and the version. Also compiles as C++.
 *
 *   texts FILE: the Rust crate's refusal.rs, which has the same texts
 */
#include "expect.h"
#include "speldervacht.h"

#include <inttypes.h>
#include <string.h>

#define FIRST_FIELD 1
#define LAST_FIELD 12

static char rust[65536];

/* Whether the file was read whole. */
static int read_rust(const char *path) {
    size_t length = 0;
    FILE *file = fopen(path, "r");
    if (file == NULL) {
        return 0;
    }
    length = fread(rust, 1, sizeof rust - 1, file);
    fclose(file);
    return length != 0 && length != sizeof rust - 1;
}

static void expect_in_rust(const char *text) {
    char quoted[256];
    snprintf(quoted, sizeof quoted, "\"%s\"", text);
    if (strstr(rust, quoted) == NULL) {
        printf("failed: the Rust crate has no %s\n", quoted);
        failures++;
    }
}

/* A number with two reasons, each of which is a refusal of its own in Rust: one of them. */
static void expect_part_in_rust(uint64_t number, const char *part) {
    expect(strstr(speldervacht_text(number), part) != NULL, part);
    expect_in_rust(part);
}

typedef const char *text_of(uint64_t number);

/* Each number from first to last has a text of its own, and all others share one that is none of these. */
static void own_texts(text_of *text, uint64_t first, uint64_t last) {
    const uint64_t others[] = {first - 1, last + 1, last + 2, UINT64_C(1) << 32, UINT64_MAX};
    const char *other = text(last + 1);
    expect(other[0] != '\0', "other numbers have a text");
    for (size_t i = 0; i < sizeof others / sizeof others[0]; i++) {
        expect(strcmp(text(others[i]), other) == 0, "other numbers share a text");
    }
    for (uint64_t number = first; number <= last; number++) {
        expect(text(number)[0] != '\0' && strcmp(text(number), other) != 0, "each number has a text");
        for (uint64_t before = first; before < number; before++) {
            expect(strcmp(text(number), text(before)) != 0, "each number has a text of its own");
        }
    }
}

static void worked(void) {
    expect(strcmp(speldervacht_text(0), "accepted") == 0, "the text of 0");
    expect(strcmp(speldervacht_text(6), "the cache has no entry at the address") == 0, "the text of 6");
    expect(strcmp(speldervacht_text(7), "the cache has an entry at the address") == 0, "the text of 7");
    expect(strcmp(speldervacht_text(11), "no row is free and no entry may be evicted") == 0, "the text of 11");
    expect(strcmp(speldervacht_text(14), "the message's bytes end early") == 0, "the text of 14");
    expect(strcmp(speldervacht_text(17), "no answer has this number") == 0, "the text of 17");
    expect(strcmp(speldervacht_field(7), "the epoch length") == 0, "the name of field 7");
    expect(strcmp(speldervacht_field(0), "no field of the settings has this number") == 0, "the name of field 0");
}

/* A limit that a text names is the macro's. */
static void limits(void) {
    char size[64];
    snprintf(size, sizeof size, "1 to %" PRIu64 " bytes", (uint64_t)SPELDERVACHT_LARGEST_ENTRY);
    expect(strstr(speldervacht_text(SPELDERVACHT_BAD_SIZE), size) != NULL, "the largest entry in the text of 4");
}

/* Texts without particulars, and all names of fields, are the Rust crate's. */
static void as_in_rust(void) {
    const uint64_t plain[] = {SPELDERVACHT_BAD_TABLE, SPELDERVACHT_BAD_ADDRESS, SPELDERVACHT_HELD,
                              SPELDERVACHT_NO_ROW,    SPELDERVACHT_BAD_LIST,    SPELDERVACHT_CUT_MESSAGE};
    for (size_t i = 0; i < sizeof plain / sizeof plain[0]; i++) {
        expect_in_rust(speldervacht_text(plain[i]));
    }
    expect_part_in_rust(SPELDERVACHT_BAD_MESSAGE, "the message has a byte that no right message can have there");
    expect_part_in_rust(SPELDERVACHT_WRONG_NUMBER, "no number is left to send");
    for (uint64_t field = FIRST_FIELD; field <= LAST_FIELD; field++) {
        expect_in_rust(speldervacht_field(field));
    }
}

static void version(void) {
    char text[64];
    snprintf(text, sizeof text, "%d.%d.%d", SPELDERVACHT_VERSION_MAJOR, SPELDERVACHT_VERSION_MINOR,
             SPELDERVACHT_VERSION_PATCH);
    expect(strcmp(text, SPELDERVACHT_VERSION) == 0, "the version's text is its three numbers");
}

int main(int count, char **arguments) {
    if (count != 2 || !read_rust(arguments[1])) {
        printf("usage: texts FILE, which is bindings/rust/src/refusal.rs\n");
        return 2;
    }
    own_texts(speldervacht_text, SPELDERVACHT_ACCEPTED, SPELDERVACHT_WRONG_NUMBER);
    own_texts(speldervacht_field, FIRST_FIELD, LAST_FIELD);
    worked();
    limits();
    as_in_rust();
    version();
    return outcome("all texts hold");
}
