/* Random numbers for the C tests, the same in every run. */
#ifndef RANDOM_H
#define RANDOM_H

#include <stdint.h>

/* A number below n. */
static inline uint64_t below(uint64_t n) {
    static uint64_t state = 88172645463325252u;
    state ^= state << 13;
    state ^= state >> 7;
    state ^= state << 17;
    return (state >> 11) % n;
}

#endif
