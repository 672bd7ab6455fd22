/* Memory to lend to a call, between guard bytes, and what the call must have left of it. */
#ifndef LENT_H
#define LENT_H

#include <stdint.h>
#include <stdio.h>
#include <string.h>

#if __has_include(<valgrind/memcheck.h>)
#include <valgrind/memcheck.h>
#else
#define VALGRIND_MAKE_MEM_NOACCESS(at, length) (at)
#define VALGRIND_MAKE_MEM_DEFINED(at, length) (at)
#endif

/* LENT_MOST is the longest scan area. Files, and areas that are too long, go beyond it, up to 70,000 bytes. */
enum { LENT_MOST = 65536, LENT_BEYOND = 4464, GUARD = 64 };

typedef struct {
    uint8_t memory[GUARD + LENT_MOST + LENT_BEYOND + GUARD];
    uint8_t wanted[GUARD + LENT_MOST + LENT_BEYOND + GUARD];
    size_t length;
} lent;

/* Fills `length` bytes and the guards around them with one byte, and lends them. */
static inline uint8_t *lend(lent *l, size_t length, uint8_t fill) {
    memset(l->memory, fill, GUARD + length + GUARD);
    memset(l->wanted, fill, GUARD + length + GUARD);
    l->length = length;
    return l->memory + GUARD;
}

/* The bytes that are to stand in the lent memory afterwards, to be changed by whoever says what is right. */
static inline uint8_t *wanted(lent *l) { return l->wanted + GUARD; }

/* Lends a copy of these bytes between guards of one byte; it is wanted back as it is, unless `wanted` is changed. */
static inline uint8_t *lend_copy(lent *l, const uint8_t *bytes, size_t length, uint8_t fill) {
    uint8_t *both[] = {l->memory, l->wanted};
    l->length = length;
    for (int i = 0; i < 2; i++) {
        memset(both[i], fill, GUARD);
        if (length != 0) memcpy(both[i] + GUARD, bytes, length);
        memset(both[i] + GUARD + length, fill, GUARD);
    }
    return l->memory + GUARD;
}

/* The first place, counted from the lent memory's start, whose byte is not the wanted one; -GUARD - 1 where none is. */
static inline long first_difference(const lent *l) {
    for (size_t i = 0; i < GUARD + l->length + GUARD; i++)
        if (l->memory[i] != l->wanted[i]) return (long)i - GUARD;
    return -GUARD - 1;
}

/* Under valgrind, guards are closed while a call runs, so that reading one shows too. */
static inline void close_guard(const uint8_t *guard) { (void)VALGRIND_MAKE_MEM_NOACCESS(guard, GUARD); }

static inline void open_guard(const uint8_t *guard) { (void)VALGRIND_MAKE_MEM_DEFINED(guard, GUARD); }

static inline int guards_wanted(const lent *l) {
    return memcmp(l->memory, l->wanted, GUARD) == 0 &&
           memcmp(l->memory + GUARD + l->length, l->wanted + GUARD + l->length, GUARD) == 0;
}

static inline int all_wanted(const lent *l) { return memcmp(l->memory, l->wanted, GUARD + l->length + GUARD) == 0; }

#endif
