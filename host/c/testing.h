/*
 * testing.h: buffers and checks for the C tests.
 *
 * A test runs in two passes. In the first, 32 bytes on both sides of each buffer are watched. In the second, each
 * buffer is a heap block of its exact size, so that valgrind sees a byte read or written beside it, in the library too.
 */
#ifndef TESTING_H
#define TESTING_H

#include <stdint.h>
#include <stdio.h>
#include <stdlib.h>
#include <string.h>

#include "z2z4.h"

#define CHECK(true_, ...) \
    do { \
        if (!(true_)) { \
            fprintf(stderr, "%s:%d: %s: ", __FILE__, __LINE__, #true_); \
            fprintf(stderr, __VA_ARGS__); \
            fputc('\n', stderr); \
            exit(1); \
        } \
    } while (0)

enum { GUARD = 32, GUARD_BYTE = 0xa5, FRESH_BYTE = 7 };

/* The largest t that is admitted, n of its codes, and how many pairs of t and r there are. */
enum { MOST_T = 12, MOST_PLACES = 4095, CODES = 47 };

static int guarded; /* which of the two passes this is */

struct buffer {
    uint8_t *block, *at; /* the heap block, and the bytes that are handed over */
    size_t length;
    uint8_t *kept; /* what they are meant to be */
};

static inline void *allocate(size_t size)
{
    void *block = malloc(size);
    CHECK(block != NULL || size == 0, "no memory");
    return block;
}

static inline struct buffer fresh(size_t length)
{
    size_t side = guarded ? GUARD : 0;
    struct buffer x = {allocate(length + 2 * side), NULL, length, allocate(length + 1)};
    memset(x.block, GUARD_BYTE, length + 2 * side);
    x.at = x.block + side;
    memset(x.at, FRESH_BYTE, length);
    memset(x.kept, FRESH_BYTE, length);
    return x;
}

/* From here on these bytes are what the buffer is meant to have. */
static inline void keep(struct buffer *x)
{
    memcpy(x->kept, x->at, x->length);
}

static inline void check_kept(const struct buffer *x, const char *what)
{
    CHECK(memcmp(x->at, x->kept, x->length) == 0, "%s of %zu bytes is not what it should be", what, x->length);
    for (size_t i = 0; guarded && i < GUARD; i++)
        CHECK(x->block[i] == GUARD_BYTE && x->at[x->length + i] == GUARD_BYTE, "a byte beside %s", what);
}

static inline void release(struct buffer *x)
{
    free(x->block);
    free(x->kept);
}

/* A fixed sequence (xorshift, 64 bits): each run tests the same words. */
static inline uint32_t draw(void)
{
    static uint64_t state = 88172645463325252u;
    state ^= state << 13;
    state ^= state >> 7;
    state ^= state << 17;
    return (uint32_t)(state >> 32);
}

static inline uint32_t below(uint32_t bound)
{
    return draw() % bound;
}

/* A draw is good for 32 places: under valgrind the long words would else take most of the time. */
static inline struct buffer random_word(size_t length)
{
    struct buffer x = fresh(length);
    uint32_t bits = 0;
    for (size_t i = 0; i < length; i++) {
        bits = i % 32 == 0 ? draw() : bits >> 1;
        x.at[i] = bits & 1;
    }
    keep(&x);
    return x;
}

static inline int is_admitted(uint32_t t, uint32_t r)
{
    return 2 <= t && t <= MOST_T && (r == 0 || (1 <= r && r <= t && t <= 2 * r));
}

#endif
