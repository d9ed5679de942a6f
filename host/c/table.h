/*
 * table.h: the same codes by tables, in plain C: the program that the library is timed against.
 *
 * A table is prepared once for each t and r. The calls are those of z2z4.h with the table in place of t and r, and
 * give the same answers and refusals. Nothing is proved of it.
 */
#ifndef TABLE_H
#define TABLE_H

#include <stddef.h>
#include <stdint.h>

struct table;

/* NULL where t and r are not admitted, r = 0 standing for r = t as in z2z4.h; free() gives it back. Ends the program
 * where there is no memory. */
struct table *table_prepare(uint32_t t, uint32_t r);

/* A table that is NULL is refused as not admitted. */
int32_t table_encode(const struct table *table, const uint8_t *message, size_t message_len, uint8_t *out,
                     size_t out_len);
int32_t table_correct(const struct table *table, const uint8_t *word, size_t word_len, uint8_t *out, size_t out_len);
int32_t table_combine(const struct table *table, const uint8_t *first, size_t first_len, const uint8_t *second,
                      size_t second_len, uint8_t *out, size_t out_len);
int32_t table_third_place(const struct table *table, uint32_t i, uint32_t j);

#endif
