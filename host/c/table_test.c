/*
 * table_test.c: the calls by tables (table.h) and those of the library give the same answers and write the same bytes,
 * on words of every code, random and dense ones, some with a bad byte, a wrong length or a short output.
 */
#include "table.h"
#include "testing.h"

enum { ROUNDS = 60 };

static int accepted, refused;

/* Now and then one place less or more than there should be. */
static size_t near(size_t exact)
{
    uint32_t turn = below(16);
    return turn == 0 ? exact - 1 : turn == 1 ? exact + 1 : exact;
}

/* Ones only, or ones at every second place, so that every pair has digit 2, 3 or 1: the largest sums of elements. */
static void make_dense(struct buffer *x)
{
    uint32_t two = 1 + below(3);
    for (size_t i = 0; i < x->length; i++)
        x->at[i] = two >> i % 2 & 1;
}

static struct buffer near_word(size_t exact)
{
    struct buffer x = random_word(near(exact));
    if (below(4) == 0)
        make_dense(&x);
    if (x.length > 0 && below(16) == 0)
        x.at[below((uint32_t)x.length)] = (uint8_t)below(256);
    keep(&x);
    return x;
}

static void same(const char *call, uint32_t t, uint32_t r, int32_t library, int32_t table)
{
    CHECK(library == table, "%s (%u, %u): the library answers %d, the table %d", call, t, r, library, table);
    *(library < 0 ? &refused : &accepted) += 1;
}

/* Both outputs are fresh at first and equal at last, and nothing else has changed. */
static void same_bytes(struct buffer *library, struct buffer *table)
{
    memcpy(library->kept, table->at, table->length);
    check_kept(library, "the library's output");
    keep(table);
    check_kept(table, "the table's output");
    release(library);
    release(table);
}

static void one_round(const struct table *table, uint32_t t, uint32_t r)
{
    size_t n = Z2Z4_LENGTH(t);
    struct buffer message = near_word(n - t), x = near_word(n), y = near_word(n);
    struct buffer a = fresh(near(n)), b = fresh(a.length);
    same("encode", t, r, z2z4_encode(t, r, message.at, message.length, a.at, a.length),
         table_encode(table, message.at, message.length, b.at, b.length));
    same_bytes(&a, &b);
    a = fresh(near(n)), b = fresh(a.length);
    same("correct", t, r, z2z4_correct(t, r, x.at, x.length, a.at, a.length),
         table_correct(table, x.at, x.length, b.at, b.length));
    same_bytes(&a, &b);
    a = fresh(near(n)), b = fresh(a.length);
    same("combine", t, r, z2z4_combine(t, r, x.at, x.length, y.at, y.length, a.at, a.length),
         table_combine(table, x.at, x.length, y.at, y.length, b.at, b.length));
    same_bytes(&a, &b);
    check_kept(&message, "the message");
    check_kept(&x, "the first word");
    check_kept(&y, "the second word");
    release(&message);
    release(&x);
    release(&y);
}

int main(void)
{
    guarded = 1;
    for (uint32_t t = 0; t <= MOST_T + 2; t++)
        for (uint32_t r = 0; r <= MOST_T + 2; r++) {
            struct table *table = table_prepare(t, r);
            CHECK((table != NULL) == is_admitted(t, r), "(%u, %u)", t, r);
            for (int round = 0; table != NULL && round < ROUNDS; round++)
                one_round(table, t, r);
            uint32_t places = (1u << t) + 1; /* one on either side */
            for (int round = 0; round < ROUNDS; round++) {
                uint32_t i = below(places), j = below(places);
                same("third place", t, r, z2z4_third_place(t, r, i, j), table_third_place(table, i, j));
            }
            free(table);
        }
    CHECK(accepted > 5000 && refused > 1000, "%d accepted, %d refused", accepted, refused);
    printf("table_test: %d accepted and %d refused calls agree\n", accepted, refused);
    return 0;
}
