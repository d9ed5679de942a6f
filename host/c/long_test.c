/*
 * long_test.c: lengths of 2^32 bytes and more are not taken for what is left of them in 32 bits.
 *
 * The memory is mapped and hardly touched, so that it costs nothing. Where it cannot be mapped the test says so and
 * is left out.
 */
#define _DEFAULT_SOURCE
#include <sys/mman.h>

#include "testing.h"

static const size_t far = (size_t)1 << 32;

static void long_lengths(uint32_t t, uint32_t r, uint8_t *wide)
{
    static uint8_t word[MOST_PLACES], out[MOST_PLACES];
    size_t n = Z2Z4_LENGTH(t), message = Z2Z4_MESSAGE_LENGTH(t);
    memset(wide, 0, n); /* a word and a message, but for their lengths */
    CHECK(z2z4_encode(t, r, wide, far + message, out, n) == -2, "a long message");
    CHECK(z2z4_correct(t, r, wide, far + n, out, n) == -2, "a long word");
    CHECK(z2z4_combine(t, r, wide, far + n, word, n, out, n) == -2, "a long first word");
    CHECK(z2z4_combine(t, r, word, n, wide, far + n, out, n) == -2, "a long second word");
    /* in 32 bits these outputs would be one byte too short */
    memset(wide, FRESH_BYTE, n + 1);
    CHECK(z2z4_encode(t, r, word, message, wide, far + n - 1) == 0, "encode to a long output");
    CHECK(z2z4_correct(t, r, word, n, wide, far + n - 1) == 0, "correct to a long output");
    CHECK(z2z4_combine(t, r, word, n, word, n, wide, far + n - 1) == 0, "combine to a long output");
    CHECK(memcmp(wide, word, n) == 0 && wide[n] == FRESH_BYTE, "the zero word, and nothing after it");
}

int main(void)
{
    int protection = PROT_READ | PROT_WRITE, flags = MAP_PRIVATE | MAP_ANONYMOUS | MAP_NORESERVE;
    uint8_t *wide = mmap(NULL, far + MOST_PLACES, protection, flags, -1, 0);
    if (wide == MAP_FAILED) {
        puts("long_test: left out, 2^32 bytes cannot be mapped");
        return 0;
    }
    long_lengths(3, 2, wide);
    long_lengths(MOST_T, 6, wide);
    puts("long_test: all checks hold");
    return 0;
}
