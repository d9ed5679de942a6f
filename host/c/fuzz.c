/*
 * fuzz.c: a libFuzzer target. Each input is one call, made to the library and to the second program (host/rust/second);
 * the answers, every byte of the outputs and the bytes beside them must be the same.
 *
 * An input is: call, t, r, three lengths, a place and a value for one bad byte, whether the places that follow are
 * repeated, then places of the words, eight a byte; for third place, the two places follow r. Admitted t and r, exact
 * lengths and words of 0 and 1 have the most values, so that many calls are accepted. Two words of 4,095 places take a
 * thousand bytes, and libFuzzer tries short inputs first; so these give long words too, their places again and again
 * or zeros after them.
 * libFuzzer is guided by the branches of this file and of the second program; it does not see those of the library.
 */
#include <stdint.h>
#include <stdio.h>
#include <stdlib.h>
#include <string.h>

#include "z2z4.h"

int32_t second_encode(uint32_t t, uint32_t r, const uint8_t *message, size_t message_len, uint8_t *out, size_t out_len);
int32_t second_correct(uint32_t t, uint32_t r, const uint8_t *word, size_t word_len, uint8_t *out, size_t out_len);
int32_t second_combine(uint32_t t, uint32_t r, const uint8_t *first, size_t first_len,
                       const uint8_t *second, size_t second_len, uint8_t *out, size_t out_len);
int32_t second_third_place(uint32_t t, uint32_t r, uint32_t i, uint32_t j);

enum { ENCODE, CORRECT, COMBINE, THIRD_PLACE, HEAD = 10, GUARD = 32, FRESH_BYTE = 7 };
enum { MOST_T = 12, MOST_PLACES = 4095, MOST = MOST_PLACES + 255 };

/* An output begins after the first guard bytes; everything after its end is a guard too. */
struct output {
    uint8_t bytes[GUARD + MOST + GUARD];
};

static int is_guard_kept(const struct output *output, size_t length)
{
    for (size_t i = 0; i < sizeof output->bytes; i++)
        if ((i < GUARD || i >= GUARD + length) && output->bytes[i] != FRESH_BYTE)
            return 0;
    return 1;
}

static uint32_t any_parameter(uint8_t byte)
{
    return byte == 255 ? UINT32_MAX : byte % (MOST_T + 3);
}

/* Most bytes give a t from 2 to 12, and an r from t / 2 to t. */
static uint32_t first_parameter(uint8_t byte)
{
    return byte < 192 ? 2 + byte % (MOST_T - 1) : any_parameter(byte);
}

static uint32_t second_parameter(uint8_t byte, uint32_t t)
{
    return byte < 192 && t <= MOST_T ? (t + 1) / 2 + byte % (t / 2 + 1) : any_parameter(byte);
}

/* Most bytes give a place from 0 to n + 1. */
static uint32_t place(uint8_t low, uint8_t high, uint8_t kind, uint32_t t)
{
    uint32_t any = low | (uint32_t)high << 8;
    return kind > 239 ? UINT32_MAX - any : any % (t <= MOST_T ? ((uint32_t)1 << t) + 1 : 2 * MOST_PLACES);
}

/* Most bytes give the exact length, the others any length up to 255 more. */
static size_t length(uint8_t byte, size_t exact)
{
    return byte < 192 ? exact : byte < 224 ? exact + (byte - 192) * 8 : exact * (byte - 224) / 32;
}

/* The places that are given, eight a byte, and what follows them. */
struct given {
    const uint8_t *data;
    size_t size;
    int repeated; /* they come again and again; else zeros follow */
};

static uint8_t bit(const struct given *given, size_t index)
{
    size_t byte = index / 8;
    if (given->size == 0 || (byte >= given->size && !given->repeated))
        return 0;
    return given->data[byte % given->size] >> index % 8 & 1;
}

static uint8_t *word(const struct given *given, size_t from, size_t places)
{
    uint8_t *bytes = malloc(places);
    if (bytes == NULL && places != 0)
        abort();
    for (size_t i = 0; i < places; i++)
        bytes[i] = bit(given, from + i);
    return bytes;
}

static void fail(const uint8_t *head, uint32_t t, uint32_t r, int32_t library, int32_t second)
{
    fprintf(stderr, "call %u (%u, %u): the library answers %d, the second program %d%s\n", head[0] % 4, t, r, library,
            second, library == second ? ", and the bytes are not as they should be" : "");
    abort();
}

static void third_place(const uint8_t *head, uint32_t t, uint32_t r)
{
    uint32_t i = place(head[3], head[4], head[7], t), j = place(head[5], head[6], head[8], t);
    int32_t library = z2z4_third_place(t, r, i, j), second = second_third_place(t, r, i, j);
    if (library != second)
        fail(head, t, r, library, second);
}

static void words(const uint8_t *head, uint32_t t, uint32_t r, const uint8_t *data, size_t size)
{
    struct given given = {data, size, head[9] % 2};
    size_t n = t <= MOST_T ? Z2Z4_LENGTH(t) : MOST_PLACES, call = head[0] % 4;
    size_t x_len = length(head[3], call == ENCODE && t <= MOST_T ? n - t : n), y_len = length(head[4], n);
    size_t out_len = length(head[5], n);
    uint8_t *x = word(&given, 0, x_len), *y = word(&given, x_len, y_len);
    size_t bad = (head[6] | (size_t)head[7] << 8) % (x_len + y_len + 1);
    if (head[8] > 191 && bad < x_len + y_len)
        *(bad < x_len ? x + bad : y + (bad - x_len)) = (uint8_t)(head[8] << 2 | 2);
    static struct output a, b;
    memset(&a, FRESH_BYTE, sizeof a);
    memset(&b, FRESH_BYTE, sizeof b);
    uint8_t *to = a.bytes + GUARD, *like = b.bytes + GUARD;
    int32_t library, second;
    if (call == ENCODE) {
        library = z2z4_encode(t, r, x, x_len, to, out_len);
        second = second_encode(t, r, x, x_len, like, out_len);
    } else if (call == CORRECT) {
        library = z2z4_correct(t, r, x, x_len, to, out_len);
        second = second_correct(t, r, x, x_len, like, out_len);
    } else {
        library = z2z4_combine(t, r, x, x_len, y, y_len, to, out_len);
        second = second_combine(t, r, x, x_len, y, y_len, like, out_len);
    }
    if (library != second || memcmp(&a, &b, sizeof a) != 0 || !is_guard_kept(&a, out_len))
        fail(head, t, r, library, second);
    free(x);
    free(y);
}

int LLVMFuzzerTestOneInput(const uint8_t *data, size_t size);

int LLVMFuzzerTestOneInput(const uint8_t *data, size_t size)
{
    if (size < HEAD)
        return 0;
    uint32_t t = first_parameter(data[1]), r = second_parameter(data[2], t);
    if (data[0] % 4 == THIRD_PLACE)
        third_place(data, t, r);
    else
        words(data, t, r, data + HEAD, size - HEAD);
    return 0;
}
