/*
 * table.c: the codes by tables of the layout, written from document 01; see table.h.
 *
 * An element is held in two forms. Its number has one bit for each binary component and two for each quaternary one,
 * in document 01's order. Its wide form has five bits for each binary component and six for each quaternary one, so
 * that sixteen elements can be added to one before the sums, up to 1 + 16 and 3 + 16 * 3, are reduced modulo 2 and 4.
 * These are 60 bits at most, for the twelve binary components of (12, 12). Places count from 0 in here, from 1 in what
 * is asked and answered.
 */
#include "table.h"

#include <stdlib.h>
#include <string.h>

#include "z2z4.h"

enum { MOST_T = 12, MOST_PLACES = 4095, MOST_PAIRS = 2016, BINARY_WIDTH = 5, QUATERNARY_WIDTH = 6, BLOCK = 16 };

struct table {
    uint32_t t, a, b, n;
    uint32_t low;                        /* the low bit of each quaternary component of a number */
    uint32_t front, middle;              /* binary places, then pairs, of the message; a and b are those of the check */
    uint64_t reduce;                     /* what a wide sum keeps: one bit of a binary component, two of a quaternary */
    uint64_t binary[MOST_PLACES];        /* wide elements of the binary places, in their order */
    uint64_t digit[MOST_PAIRS][4];       /* wide multiples of z for each pair, by its two places: 00, 01, 10, 11 */
    uint16_t number[MOST_PLACES];        /* the number of each place's element */
    uint16_t place[MOST_PLACES + 1];     /* the place of each number but 0 */
};

/* Where a component begins in the wide form. */
static uint32_t binary_at(uint32_t i)
{
    return BINARY_WIDTH * i;
}

static uint32_t quaternary_at(const struct table *s, uint32_t i)
{
    return BINARY_WIDTH * s->a + QUATERNARY_WIDTH * i;
}

static uint64_t widen(const struct table *s, uint32_t number)
{
    uint64_t wide = 0;
    for (uint32_t i = 0; i < s->a; i++)
        wide |= (uint64_t)(number >> i & 1) << binary_at(i);
    for (uint32_t i = 0; i < s->b; i++)
        wide |= (uint64_t)(number >> (s->a + 2 * i) & 3) << quaternary_at(s, i);
    return wide;
}

static uint32_t narrow(const struct table *s, uint64_t wide)
{
    uint32_t number = 0;
    for (uint32_t i = 0; i < s->a; i++)
        number |= (uint32_t)(wide >> binary_at(i) & 1) << i;
    for (uint32_t i = 0; i < s->b; i++)
        number |= (uint32_t)(wide >> quaternary_at(s, i) & 3) << (s->a + 2 * i);
    return number;
}

static uint32_t twice(const struct table *s, uint32_t number)
{
    return (number & s->low) << 1;
}

/* A low bit carries into the high bit of its own component and no further. */
static uint32_t sum(const struct table *s, uint32_t x, uint32_t y)
{
    return ((x & s->low) + (y & s->low)) ^ ((x ^ y) & ~s->low);
}

static uint32_t negative(const struct table *s, uint32_t number)
{
    return number ^ twice(s, number);
}

/* Of order 4, and its first odd quaternary component is 1. */
static int is_z(const struct table *s, uint32_t number)
{
    uint32_t odd = number & s->low;
    uint32_t first = odd & (~odd + 1);
    return odd != 0 && (number & first << 1) == 0;
}

static int is_order_2(const struct table *s, uint32_t number)
{
    return number != 0 && (number & s->low) == 0;
}

/* A number with a single bit; of order 2 it may still be twice a quaternary unit, which is no unit. */
static int is_unit(const struct table *s, uint32_t number)
{
    return (number & (number - 1)) == 0 && (number < (uint32_t)1 << s->a || (number & s->low) != 0);
}

static uint32_t put(struct table *s, uint32_t at, uint32_t number)
{
    s->number[at] = (uint16_t)number;
    s->place[number] = (uint16_t)at;
    return at + 1;
}

/* The binary places and pairs of elements that are units, or of those that are not, by rising number. */
static uint32_t lay_out(struct table *s, uint32_t at, int units, uint64_t *binary, uint64_t (*digit)[4])
{
    for (uint32_t x = 1; x <= s->n; x++) {
        if (!is_order_2(s, x) || is_unit(s, x) != units)
            continue;
        *binary++ = widen(s, x);
        at = put(s, at, x);
    }
    for (uint32_t z = 1; z <= s->n; z++) {
        if (!is_z(s, z) || is_unit(s, z) != units)
            continue;
        (*digit)[0] = 0;
        (*digit)[1] = widen(s, z);
        (*digit)[2] = widen(s, negative(s, z));
        (*digit)[3] = widen(s, twice(s, z));
        digit++;
        at = put(s, put(s, at, negative(s, z)), z);
    }
    return at;
}

struct table *table_prepare(uint32_t t, uint32_t r)
{
    if (r == 0)
        r = t;
    if (t < 2 || t > MOST_T || r < 1 || r > t || t > 2 * r)
        return NULL;
    struct table *s = calloc(1, sizeof *s);
    if (s == NULL)
        abort();
    s->t = t;
    s->a = 2 * r - t;
    s->b = t - r;
    s->n = ((uint32_t)1 << t) - 1;
    s->front = ((uint32_t)1 << r) - 1 - s->a;
    s->middle = (s->n - t - s->front) / 2;
    for (uint32_t i = 0; i < s->b; i++)
        s->low |= (uint32_t)1 << (s->a + 2 * i);
    s->reduce = widen(s, s->n); /* the number with every bit set */
    uint32_t at = lay_out(s, 0, 0, s->binary, s->digit);
    lay_out(s, at, 1, s->binary + s->front, s->digit + s->middle);
    return s;
}

static uint64_t add_binary(const struct table *s, const uint8_t *bytes, uint32_t from, uint32_t count, uint64_t total)
{
    const uint64_t *element = s->binary + from;
    for (uint32_t i = 0; i < count;) {
        uint32_t end = count - i < BLOCK ? count : i + BLOCK;
        for (; i < end; i++)
            total += element[i] & -(uint64_t)bytes[i];
        total &= s->reduce;
    }
    return total;
}

static uint64_t add_pairs(const struct table *s, const uint8_t *bytes, uint32_t from, uint32_t count, uint64_t total)
{
    const uint64_t(*digit)[4] = s->digit + from;
    for (uint32_t i = 0; i < count;) {
        uint32_t end = count - i < BLOCK ? count : i + BLOCK;
        for (; i < end; i++)
            total += digit[i][2 * bytes[2 * i] + bytes[2 * i + 1]];
        total &= s->reduce;
    }
    return total;
}

static uint64_t message_sum(const struct table *s, const uint8_t *message)
{
    uint64_t total = add_binary(s, message, 0, s->front, 0);
    return add_pairs(s, message + s->front, 0, s->middle, total);
}

static uint32_t syndrome(const struct table *s, const uint8_t *word)
{
    const uint8_t *check = word + (s->n - s->t);
    uint64_t total = add_binary(s, check, s->front, s->a, message_sum(s, word));
    return narrow(s, add_pairs(s, check + s->a, s->middle, s->b, total));
}

static int is_bad(const uint8_t *bytes, size_t count)
{
    uint8_t all = 0;
    for (size_t i = 0; i < count; i++)
        all |= bytes[i];
    return all > 1;
}

static int is_binary(const struct table *s, uint32_t place)
{
    return (s->number[place] & s->low) == 0;
}

/* The other place of a pair; part 2 begins at `front` and part 4 at n - 2b. */
static uint32_t partner(const struct table *s, uint32_t place)
{
    uint32_t start = place < s->n - s->t ? s->front : s->n - 2 * s->b;
    return start + ((place - start) ^ 1);
}

int32_t table_encode(const struct table *table, const uint8_t *message, size_t message_len, uint8_t *out,
                     size_t out_len)
{
    if (table == NULL)
        return Z2Z4_NOT_ADMITTED;
    if (message_len != table->n - table->t)
        return Z2Z4_WRONG_LENGTH;
    if (out_len < table->n)
        return Z2Z4_SHORT_OUTPUT;
    if (is_bad(message, message_len))
        return Z2Z4_BAD_BYTE;
    uint64_t total = message_sum(table, message);
    memcpy(out, message, message_len);
    uint8_t *check = out + message_len;
    for (uint32_t i = 0; i < table->a; i++)
        *check++ = total >> binary_at(i) & 1;
    for (uint32_t i = 0; i < table->b; i++) {
        uint32_t digit = -(uint32_t)(total >> quaternary_at(table, i)) & 3;
        *check++ = (uint8_t)(digit >> 1);
        *check++ = (uint8_t)((digit >> 1) ^ (digit & 1));
    }
    return 0;
}

int32_t table_correct(const struct table *table, const uint8_t *word, size_t word_len, uint8_t *out, size_t out_len)
{
    if (table == NULL)
        return Z2Z4_NOT_ADMITTED;
    if (word_len != table->n)
        return Z2Z4_WRONG_LENGTH;
    if (out_len < table->n)
        return Z2Z4_SHORT_OUTPUT;
    if (is_bad(word, word_len))
        return Z2Z4_BAD_BYTE;
    uint32_t element = syndrome(table, word);
    memcpy(out, word, word_len);
    if (element == 0)
        return 0;
    uint32_t place = table->place[element];
    /* Subtracting 1 or 3 from an even digit changes the other place of the pair. */
    if (!is_binary(table, place) && word[place] == word[partner(table, place)])
        place = partner(table, place);
    out[place] ^= 1;
    return (int32_t)place + 1;
}

static void combine_binary(const uint8_t *first, const uint8_t *second, uint8_t *restrict out, size_t count)
{
    for (size_t i = 0; i < count; i++)
        out[i] = first[i] ^ second[i];
}

/* Adding two odd digits carries, which under the Gray map flips both places. */
static void combine_pairs(const uint8_t *first, const uint8_t *second, uint8_t *restrict out, size_t count)
{
    for (size_t i = 0; i < 2 * count; i += 2) {
        uint8_t carry = (first[i] ^ first[i + 1]) & (second[i] ^ second[i + 1]);
        out[i] = first[i] ^ second[i] ^ carry;
        out[i + 1] = first[i + 1] ^ second[i + 1] ^ carry;
    }
}

int32_t table_combine(const struct table *table, const uint8_t *first, size_t first_len, const uint8_t *second,
                      size_t second_len, uint8_t *out, size_t out_len)
{
    if (table == NULL)
        return Z2Z4_NOT_ADMITTED;
    if (first_len != table->n || second_len != table->n)
        return Z2Z4_WRONG_LENGTH;
    if (out_len < table->n)
        return Z2Z4_SHORT_OUTPUT;
    if (is_bad(first, first_len) || is_bad(second, second_len))
        return Z2Z4_BAD_BYTE;
    uint32_t check = table->n - table->t, last = table->n - 2 * table->b;
    combine_binary(first, second, out, table->front);
    combine_pairs(first + table->front, second + table->front, out + table->front, table->middle);
    combine_binary(first + check, second + check, out + check, table->a);
    combine_pairs(first + last, second + last, out + last, table->b);
    return 0;
}

int32_t table_third_place(const struct table *table, uint32_t i, uint32_t j)
{
    if (table == NULL)
        return Z2Z4_NOT_ADMITTED;
    if (i < 1 || i > table->n || j < 1 || j > table->n)
        return Z2Z4_OUTSIDE;
    if (i == j)
        return Z2Z4_EQUAL_PLACES;
    i--, j--;
    int one_pair = !is_binary(table, i) && partner(table, i) == j;
    uint32_t x = table->number[i], y = table->number[j];
    uint32_t place = table->place[one_pair ? twice(table, x) : sum(table, x, y)];
    if (is_binary(table, place))
        return (int32_t)place + 1;
    /* As in correction: the digit is even unless i or j stands in this pair. */
    uint32_t other = partner(table, place);
    int odd = i == place || i == other || j == place || j == other;
    return (int32_t)(odd ? place : other) + 1;
}
