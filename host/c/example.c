/*
 * example.c: what the library does, at a code of 15 places (t = 4, r = 2) and one of 4,095 (t = 12, r = 6).
 *
 * What it prints is stored in example.out. It ends with status 1 at the first answer that is not as expected.
 */
#include <stdio.h>
#include <stdlib.h>
#include <string.h>

#include "z2z4.h"

static void must(int32_t answer, int32_t expected, const char *what)
{
    if (answer == expected)
        return;
    fprintf(stderr, "%s answers %d, not %d\n", what, answer, expected);
    exit(1);
}

static void show(const char *name, const uint8_t *word, size_t places)
{
    printf("%-10s", name);
    for (size_t i = 0; i < places; i++)
        putchar('0' + word[i]);
    putchar('\n');
}

static void small_code(void)
{
    enum { T = 4, R = 2, N = Z2Z4_LENGTH(T), M = Z2Z4_MESSAGE_LENGTH(T) };
    const uint8_t message[M] = {1, 0, 1, 1, 0, 0, 0, 1, 0, 1, 1};
    uint8_t codeword[N], word[N], corrected[N], sum[N];

    printf("t = %d, r = %d: %d places, %d of them for the message\n", T, R, N, M);
    show("message", message, M);
    must(z2z4_encode(T, R, message, M, codeword, N), 0, "encode");
    show("codeword", codeword, N);

    memcpy(word, codeword, N);
    word[6 - 1] ^= 1;
    show("damaged", word, N);
    int32_t place = z2z4_correct(T, R, word, N, corrected, N);
    must(place, 6, "correct");
    show("corrected", corrected, N);
    must(memcmp(corrected, codeword, N), 0, "the comparison with the codeword");
    printf("place %d was changed: the codeword is back\n", place);

    must(z2z4_combine(T, R, codeword, N, corrected, N, sum, N), 0, "combine");
    show("twice", sum, N);
    must(z2z4_correct(T, R, sum, N, corrected, N), 0, "correct");
    printf("the codeword combined with itself is a codeword, but not zero: pairs add modulo 4\n");

    int32_t third = z2z4_third_place(T, R, 4, 6);
    must(third, 8, "third place");
    printf("places 4, 6 and %d make a codeword of weight 3\n", third);
    must(z2z4_encode(T, R, message, M - 1, sum, N), Z2Z4_WRONG_LENGTH, "encode");
    printf("a message of %d places is refused: %d\n", M - 1, Z2Z4_WRONG_LENGTH);
}

static void large_code(void)
{
    enum { T = 12, R = 6, N = Z2Z4_LENGTH(T), M = Z2Z4_MESSAGE_LENGTH(T) };
    static uint8_t message[M], codeword[N], word[N], corrected[N];

    printf("\nt = %d, r = %d: %d places, %d of them for the message\n", T, R, N, M);
    for (int i = 0; i < M; i++)
        message[i] = i % 7 == 0 || i % 5 == 3;
    must(z2z4_encode(T, R, message, M, codeword, N), 0, "encode");
    show("check", codeword + M, N - M);
    for (int p = 1; p <= N; p++) {
        memcpy(word, codeword, N);
        word[p - 1] ^= 1;
        must(z2z4_correct(T, R, word, N, corrected, N), p, "correct");
        must(memcmp(corrected, codeword, N), 0, "the comparison with the codeword");
    }
    printf("each of the %d places was flipped in turn, named and corrected\n", N);
}

int main(void)
{
    small_code();
    large_code();
    return 0;
}
