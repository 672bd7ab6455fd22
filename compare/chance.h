/* Choice by chance, the same again for the same seed. */
#ifndef CHANCE_H
#define CHANCE_H

#include <stdint.h>
#include <stdio.h>
#include <stdlib.h>

#define COUNT(array) (sizeof(array) / sizeof *(array))
#define ONE_OF(array) ((array)[below(COUNT(array))])

static uint64_t chance;

/* The number that this argument is, or another where there is none. Other words than numbers end the program. */
static inline uint64_t number_given(const char *program, int argc, char **argv, int place, uint64_t otherwise) {
    if (argc <= place) return otherwise;
    char *end;
    uint64_t number = strtoull(argv[place], &end, 0);
    if (end != argv[place] && *end == '\0') return number;
    printf("%s: %s is not a number\n", program, argv[place]);
    exit(1);
}

static inline uint64_t seed_given(const char *program, int argc, char **argv) {
    return number_given(program, argc, argv, 1, 2435);
}

static inline void begin_chance(uint64_t seed) {
    chance = seed ^ UINT64_C(0x9e3779b97f4a7c15);
    if (chance == 0) chance = 1; /* the one state that never changes */
}

/* xorshift64*, of which the upper half is used. */
static inline uint32_t any(void) {
    chance ^= chance >> 12;
    chance ^= chance << 25;
    chance ^= chance >> 27;
    return (uint32_t)(chance * UINT64_C(0x2545f4914f6cdd1d) >> 32);
}

static inline uint32_t below(uint32_t n) { return any() % n; }

static inline uint32_t between(uint32_t least, uint32_t most) { return least + below(most - least + 1); }

#endif
