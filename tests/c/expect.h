/* What the C tests share: failures counted, and the last word of a test. */
#ifndef EXPECT_H
#define EXPECT_H

#include <stdio.h>

static int failures;

static inline void expect(int holds, const char *what) {
    if (!holds) {
        printf("failed: %s\n", what);
        failures++;
    }
}

/* For main to return: 0 if nothing failed. */
static inline int outcome(const char *what) {
    if (failures == 0) {
        printf("%s\n", what);
    }
    return failures != 0;
}

#endif
