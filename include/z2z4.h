/*
 * z2z4.h: encode and correct with the 1-perfect Z2Z4-additive codes (Borges and Rifa), up to length 4,095.
 *
 * A code is a set of binary words of n places. Every binary word of n places is a codeword or differs in exactly
 * one place from exactly one codeword; so a single flipped place is always corrected, and two flipped ones never are.
 *
 * Parameters. Each call names its code by t and r. Admitted are t from 2 to 12 with 1 <= r <= t <= 2r. r given as 0
 * stands for r = t (the Hamming code, its places in this library's order), in these calls and in the sheet program;
 * only where a record is opened in Rattle does 0 stand for another r, the smallest that is admitted. The number of
 * places is n = 2^t - 1. A message has n - t places, and a codeword begins with its message. Codes with the same t and
 * different r have the same lengths but different codewords; only (2, 1) and (2, 2) have the same two, 000 and 111, and
 * there z2z4_combine differs.
 *
 * Words. One byte a place, each 0 or 1. Places count from 1: place p is byte p - 1. Some places are binary, the others
 * stand in pairs; a pair is a digit modulo 4: 0 is 00, 1 is 01, 2 is 11, 3 is 10 (the Gray map). With a = 2r - t and
 * b = t - r, a word has 2^r - 1 - a binary places, then pairs up to place n - t, then a binary places, then b pairs.
 *
 * Answers. Zero or more: accepted. Negative: refused, for the first of the reasons below that applies, in the order in
 * which each call lists them. An accepted call writes exactly the first n bytes of out and keeps its further bytes. A
 * refused call writes nothing.
 *
 * Buffers. A pointer is to at least as many bytes as the length that follows it, and may be NULL where that length
 * is 0 (the call is then refused like any other with that length). out must not overlap what is read; the two words
 * of z2z4_combine are only read and may be one. The calls keep no state, allocate no memory and do no input or
 * output: threads may call them at once, each with an output of its own.
 *
 * Stack. A call needs under 32 KiB of stack. That is measured with every code (make check), not proved.
 *
 * What is proved is what the functions do as Rattle functions: the contracts in crates/z2z4_c/src/lib.rt. That this
 * header declares them rightly is tested (make check), not proved. The library is for Linux on x86-64.
 */
#ifndef Z2Z4_H
#define Z2Z4_H

#include <stddef.h>
#include <stdint.h>

#ifdef __cplusplus
extern "C" {
#endif

/* The reasons for a refusal. */
enum {
    Z2Z4_NOT_ADMITTED = -1, /* t and r are not admitted */
    Z2Z4_WRONG_LENGTH = -2, /* a word is not of n places, or the message not of n - t */
    Z2Z4_SHORT_OUTPUT = -3, /* out has fewer than n bytes */
    Z2Z4_BAD_BYTE = -4,     /* a byte above 1 in what is read */
    Z2Z4_OUTSIDE = -5,      /* a place outside 1 to n */
    Z2Z4_EQUAL_PLACES = -6  /* the two places are equal */
};

/* n and the places of a message. They mean something for admitted t only: check t first where it comes from outside.
 * The second takes t twice. */
#define Z2Z4_LENGTH(t) (((size_t)1 << (t)) - 1)
#define Z2Z4_MESSAGE_LENGTH(t) (Z2Z4_LENGTH(t) - (size_t)(t))

/*
 * Writes the one codeword that begins with the message. Answers 0.
 * Refuses: NOT_ADMITTED, WRONG_LENGTH, SHORT_OUTPUT, BAD_BYTE.
 */
int32_t z2z4_encode(uint32_t t, uint32_t r, const uint8_t *message, size_t message_len, uint8_t *out, size_t out_len);

/*
 * Writes the one codeword that differs from the word in at most one place. Answers that place, or 0 where the word is
 * itself a codeword. The message is then the first n - t bytes of out.
 * Refuses: NOT_ADMITTED, WRONG_LENGTH, SHORT_OUTPUT, BAD_BYTE.
 */
int32_t z2z4_correct(uint32_t t, uint32_t r, const uint8_t *word, size_t word_len, uint8_t *out, size_t out_len);

/*
 * Writes the sum of two words: binary places are added modulo 2, pairs modulo 4. The sum of two codewords is a
 * codeword. Answers 0.
 * Refuses: NOT_ADMITTED, WRONG_LENGTH (either word), SHORT_OUTPUT, BAD_BYTE (either word).
 */
int32_t z2z4_combine(uint32_t t, uint32_t r, const uint8_t *first, size_t first_len,
                     const uint8_t *second, size_t second_len, uint8_t *out, size_t out_len);

/*
 * Answers the one place that makes, with the places i and j, a codeword of weight 3: the word with 1 at these three
 * places and 0 at all others.
 * Refuses: NOT_ADMITTED, OUTSIDE (either place), EQUAL_PLACES.
 */
int32_t z2z4_third_place(uint32_t t, uint32_t r, uint32_t i, uint32_t j);

#ifdef __cplusplus
}
#endif

#endif
