/*
 * calls_test.c: the four calls of z2z4.h on good and bad input: every reason and every meeting of reasons, document
 * 01's cases, that r = 0 is r = t, and what each code promises, for all t and r from 0 to 14 and some huge ones.
 *
 * It ends at the first check that fails. `make check` runs it with gcc's sanitizers, which watch this file but not the
 * library (gcc does not compile it), and under valgrind, which watches both.
 */
#include "testing.h"

enum call { ENCODE, CORRECT, COMBINE };

static int32_t make_call(enum call call, uint32_t t, uint32_t r, struct buffer *x, struct buffer *y, struct buffer *out)
{
    if (call == ENCODE)
        return z2z4_encode(t, r, x->at, x->length, out->at, out->length);
    if (call == CORRECT)
        return z2z4_correct(t, r, x->at, x->length, out->at, out->length);
    return z2z4_combine(t, r, x->at, x->length, y->at, y->length, out->at, out->length);
}

/* Calls, and checks the answer, every byte of the output (from `written` where it is accepted) and of what is read. */
static void expect(enum call call, uint32_t t, uint32_t r, struct buffer *x, struct buffer *y, struct buffer *out,
                   int32_t answer, const uint8_t *written)
{
    int32_t given = make_call(call, t, r, x, y, out);
    CHECK(given == answer, "call %d (%u, %u) answers %d, not %d", call, t, r, given, answer);
    if (answer >= 0)
        memcpy(out->kept, written, Z2Z4_LENGTH(t));
    check_kept(out, "the output");
    check_kept(x, "what is read");
    if (call == COMBINE)
        check_kept(y, "what is read second");
}

/* The t that gives a call its lengths: its own, though the code may not be admitted. Beyond 13 words of such lengths
 * would take memory and time and show no more, and from 64 on there are none; there it is 12. */
static uint32_t t_of_lengths(uint32_t t)
{
    return t <= MOST_T + 1 ? t : MOST_T;
}

/* The faults that an argument may have. */
enum length { EXACT, ONE_LESS, ONE_MORE, NONE, LENGTHS };
enum bytes { GOOD, FIRST_BAD, LAST_BAD, BYTES };

static size_t faulty_length(size_t exact, enum length fault)
{
    return fault == NONE ? 0 : exact + (fault == ONE_MORE) - (fault == ONE_LESS && exact > 0);
}

static struct buffer faulty_word(size_t exact, enum length length, enum bytes bytes)
{
    struct buffer x = random_word(faulty_length(exact, length));
    if (x.length > 0 && bytes == FIRST_BAD)
        x.at[0] = 2;
    if (x.length > 0 && bytes == LAST_BAD)
        x.at[x.length - 1] = 255;
    keep(&x);
    return x;
}

/* The order of the reasons; the faults of a second word are EXACT and GOOD where there is none. */
static int32_t first_reason(int admitted, enum length x, enum length y, enum length out, int bad)
{
    if (!admitted)
        return -1;
    if (x != EXACT || y != EXACT)
        return -2;
    if (out == ONE_LESS || out == NONE)
        return -3;
    return bad ? -4 : 0;
}

/* An admitted code meets every fault. Where t and r are not admitted, that is the reason whatever else is at fault; so
 * there an r meets one fault in seven, and seven in a row meet all. */
static uint32_t fault_step(uint32_t t, uint32_t r)
{
    return is_admitted(t, r) ? 1 : 7;
}

/* Refused calls with these faults; the accepted ones are tested by what they write, in `promises`. */
static void reasons_of_one(enum call call, uint32_t t, uint32_t r, size_t n, size_t read)
{
    enum { FAULTS = LENGTHS * LENGTHS * BYTES };
    for (uint32_t fault = r % fault_step(t, r); fault < FAULTS; fault += fault_step(t, r)) {
        enum length length = fault % LENGTHS, room = fault / LENGTHS % LENGTHS;
        enum bytes bytes = fault / LENGTHS / LENGTHS;
        int32_t reason = first_reason(is_admitted(t, r), length, EXACT, room, bytes != GOOD);
        if (reason == 0)
            continue;
        struct buffer x = faulty_word(read, length, bytes), out = fresh(faulty_length(n, room));
        expect(call, t, r, &x, NULL, &out, reason, NULL);
        release(&x);
        release(&out);
    }
}

static void reasons_of_combine(uint32_t t, uint32_t r, size_t n)
{
    enum { FAULTS = LENGTHS * LENGTHS * LENGTHS * BYTES * BYTES };
    for (uint32_t fault = r % fault_step(t, r); fault < FAULTS; fault += fault_step(t, r)) {
        enum length first = fault % LENGTHS, second = fault / LENGTHS % LENGTHS;
        enum length room = fault / LENGTHS / LENGTHS % LENGTHS;
        uint32_t bytes = fault / LENGTHS / LENGTHS / LENGTHS;
        int32_t reason = first_reason(is_admitted(t, r), first, second, room, bytes != 0);
        if (reason == 0)
            continue;
        struct buffer x = faulty_word(n, first, bytes % BYTES), y = faulty_word(n, second, bytes / BYTES);
        struct buffer out = fresh(faulty_length(n, room));
        expect(COMBINE, t, r, &x, &y, &out, reason, NULL);
        release(&x);
        release(&y);
        release(&out);
    }
}

static void reasons_of_third(uint32_t t, uint32_t r, uint32_t n)
{
    uint32_t place[] = {0, 1, 2, n, n + 1, 1u << 31, UINT32_MAX};
    for (size_t fault = 0; fault < 49; fault++) {
        uint32_t i = place[fault % 7], j = place[fault / 7];
        int outside = i < 1 || i > n || j < 1 || j > n;
        int32_t reason = !is_admitted(t, r) ? -1 : outside ? -5 : i == j ? -6 : 0, given = z2z4_third_place(t, r, i, j);
        CHECK(reason < 0 ? given == reason : given >= 1, "(%u, %u), places %u %u: %d", t, r, i, j, given);
    }
}

/* NULL with length 0 for each buffer alone, each two and all three: bit 1 of `which` is the first word or message, bit
 * 2 the second word, bit 4 the output. */
static void nulls(enum call call, uint32_t t, uint32_t r, size_t n, size_t read)
{
    struct buffer none = {NULL, NULL, 0, NULL}, x = random_word(read), y = random_word(n), out = fresh(n);
    for (int which = 1; which < 8; which++) {
        if (call != COMBINE && which & 2)
            continue;
        int32_t reason = !is_admitted(t, r) ? -1 : which & 3 ? -2 : -3;
        int32_t given = make_call(call, t, r, which & 1 ? &none : &x, which & 2 ? &none : &y, which & 4 ? &none : &out);
        CHECK(given == reason, "call %d (%u, %u), nulls %d: %d", call, t, r, which, given);
        check_kept(&x, "what is read");
        check_kept(&y, "what is read second");
        check_kept(&out, "the output");
    }
    release(&x);
    release(&y);
    release(&out);
}

static void refusals(uint32_t t, uint32_t r)
{
    size_t n = Z2Z4_LENGTH(t_of_lengths(t)), message = Z2Z4_MESSAGE_LENGTH(t_of_lengths(t));
    reasons_of_one(ENCODE, t, r, n, message);
    reasons_of_one(CORRECT, t, r, n, n);
    reasons_of_combine(t, r, n);
    reasons_of_third(t, r, (uint32_t)n);
    nulls(ENCODE, t, r, n, message);
    nulls(CORRECT, t, r, n, n);
    nulls(COMBINE, t, r, n, n);
}

static struct buffer digits(const char *text)
{
    struct buffer x = fresh(strlen(text));
    for (size_t i = 0; i < x.length; i++)
        x.at[i] = (uint8_t)(text[i] - '0');
    keep(&x);
    return x;
}

/* A call on words written as digits; `written` is "" where it is refused. The output is five bytes longer. */
static void expect_digits(enum call call, uint32_t t, uint32_t r, const char *first, const char *second,
                          int32_t answer, const char *written)
{
    struct buffer x = digits(first), y = digits(second), to = digits(written), out = fresh(Z2Z4_LENGTH(t) + 5);
    expect(call, t, r, &x, &y, &out, answer, to.at);
    release(&x);
    release(&y);
    release(&to);
    release(&out);
}

static void document_cases(void)
{
    static const char *const encoded[][2] = {{"0000", "0000000"}, {"1000", "1000011"}, {"0100", "0100111"},
                                             {"0010", "0010101"}, {"0001", "0001110"}, {"1111", "1111111"},
                                             {"1010", "1010110"}};
    for (size_t i = 0; i < sizeof encoded / sizeof *encoded; i++)
        expect_digits(ENCODE, 3, 2, encoded[i][0], "", 0, encoded[i][1]);
    expect_digits(ENCODE, 2, 2, "1", "", 0, "111");
    expect_digits(ENCODE, 2, 1, "1", "", 0, "111");
    expect_digits(CORRECT, 3, 2, "0011110", "", 3, "0001110");
    expect_digits(CORRECT, 3, 2, "0000011", "", 1, "1000011");
    expect_digits(CORRECT, 3, 2, "0000001", "", 7, "0000000");
    expect_digits(CORRECT, 3, 2, "000000", "", -2, "");
    expect_digits(CORRECT, 3, 2, "00000000", "", -2, "");
    expect_digits(COMBINE, 3, 2, "0001110", "0010101", 0, "0000000");
    expect_digits(COMBINE, 3, 2, "0001110", "0001110", 0, "0011011");
    static const int32_t third[][3] = {{1, 2, 5}, {3, 6, 2}, {3, 5, 7}, {0, 1, -5}, {8, 1, -5}, {1, 0, -5}, {1, 8, -5}};
    for (size_t i = 0; i < sizeof third / sizeof *third; i++) {
        int32_t given = z2z4_third_place(3, 2, (uint32_t)third[i][0], (uint32_t)third[i][1]);
        CHECK(given == third[i][2], "third place of %d and %d: %d", third[i][0], third[i][1], given);
    }
}

/* Pairs of t and r that document 01 and requests C-11 and C-15 name, and others beside the limit: the third place of 1
 * and 2, worked out by hand or by search, or the refusal. */
static void document_parameters(void)
{
    static const int32_t pair[][3] = {{2, 1, 3},   {2, 2, 3},   {4, 2, 3},     {10, 5, 3},  {10, 10, 3},  {11, 6, 2037},
                                      {12, 6, 3},  {12, 12, 3}, {1, 1, -1},    {5, 2, -1},  {4, 5, -1},   {11, 5, -1},
                                      {12, 5, -1}, {13, 7, -1}, {12, 13, -1},  {13, 0, -1}, {13, 13, -1}, {14, 7, -1}};
    for (size_t i = 0; i < sizeof pair / sizeof *pair; i++) {
        int32_t given = z2z4_third_place((uint32_t)pair[i][0], (uint32_t)pair[i][1], 1, 2);
        CHECK(given == pair[i][2], "(%d, %d) answers %d", pair[i][0], pair[i][1], given);
    }
}

/* A word with these three places set is a codeword. */
static void third_promise(uint32_t t, uint32_t r, uint32_t i, uint32_t j)
{
    struct buffer x = fresh(Z2Z4_LENGTH(t)), out = fresh(x.length);
    int32_t k = z2z4_third_place(t, r, i, j);
    CHECK(1 <= k && (size_t)k <= x.length && (uint32_t)k != i && (uint32_t)k != j, "(%u, %u): %d", t, r, k);
    CHECK(z2z4_third_place(t, r, j, i) == k, "(%u, %u), places %u %u", t, r, i, j);
    memset(x.at, 0, x.length);
    x.at[i - 1] = x.at[j - 1] = x.at[k - 1] = 1;
    keep(&x);
    expect(CORRECT, t, r, &x, NULL, &out, 0, x.at);
    release(&x);
    release(&out);
}

static void third_promises(uint32_t t, uint32_t r)
{
    uint32_t n = (uint32_t)Z2Z4_LENGTH(t);
    for (uint32_t i = 1; n <= 15 && i <= n; i++)
        for (uint32_t j = i + 1; j <= n; j++)
            third_promise(t, r, i, j);
    for (int round = 0; round < 40; round++) {
        uint32_t i = below(n);
        third_promise(t, r, 1 + i, 1 + (i + 1 + below(n - 1)) % n);
    }
}

/* Twice a word: 0 at its binary places, and both places of a pair 1 where its digit is odd. */
static void combine_promise(uint32_t t, uint32_t r, struct buffer *x, size_t further)
{
    uint32_t in_force = r == 0 ? t : r, a = 2 * in_force - t;
    size_t n = x->length, front = Z2Z4_LENGTH(in_force) - a, check = n - t;
    struct buffer y = fresh(n), out = fresh(n + further);
    uint8_t twice[MOST_PLACES] = {0};
    memcpy(y.at, x->at, n);
    keep(&y);
    for (size_t i = front; i < n; i += 2) {
        if (i == check)
            i += a;
        if (i < n)
            twice[i] = twice[i + 1] = x->at[i] ^ x->at[i + 1];
    }
    expect(COMBINE, t, r, x, &y, &out, 0, twice);
    expect(COMBINE, t, r, x, x, &out, 0, twice); /* the two words may be one */
    release(&y);
    release(&out);
}

/* r = 0 is r = t in each call, whether or not t is admitted: the same answer, and the same bytes. */
static void zero_is_t(uint32_t t)
{
    size_t n = Z2Z4_LENGTH(t_of_lengths(t)), message = Z2Z4_MESSAGE_LENGTH(t_of_lengths(t));
    for (int round = 0; round < 12; round++) {
        enum call call = round % 3;
        enum bytes bytes = round < 9 ? GOOD : LAST_BAD;
        struct buffer x = faulty_word(call == ENCODE ? message : n, EXACT, bytes), y = random_word(n);
        struct buffer zero = fresh(n + 2), twice = fresh(n + 2);
        int32_t answer = make_call(call, t, t, &x, &y, &twice);
        CHECK(make_call(call, t, 0, &x, &y, &zero) == answer, "call %d, t = %u: not %d", call, t, answer);
        memcpy(zero.kept, twice.at, twice.length);
        check_kept(&zero, "the output for r = 0");
        uint32_t i = below((uint32_t)n + 2), j = below((uint32_t)n + 2);
        CHECK(z2z4_third_place(t, 0, i, j) == z2z4_third_place(t, t, i, j), "t = %u, places %u %u", t, i, j);
        release(&x);
        release(&y);
        release(&zero);
        release(&twice);
    }
}

/* A codeword begins with its message, is clean, and comes back after any one flip: of each place up to n = 127. */
static void promises(uint32_t t, uint32_t r)
{
    size_t n = Z2Z4_LENGTH(t), step = n <= 127 ? 1 : n / 64;
    struct buffer message = random_word(n - t), codeword = fresh(n), word = fresh(n);
    struct buffer out = fresh(n + 3), same = fresh(n + 3);
    CHECK(z2z4_encode(t, r, message.at, message.length, codeword.at, n) == 0, "(%u, %u)", t, r);
    CHECK(memcmp(codeword.at, message.at, message.length) == 0, "(%u, %u)", t, r);
    keep(&codeword);
    check_kept(&codeword, "the codeword"); /* the bytes beside it, that is */
    expect(CORRECT, t, r, &codeword, NULL, &out, 0, codeword.at);
    expect(ENCODE, t, r == 0 ? t : r, &message, NULL, &same, 0, codeword.at);
    for (size_t p = 1; p <= n; p = p < n && p + step > n ? n : p + step) {
        memcpy(word.at, codeword.at, n);
        word.at[p - 1] ^= 1;
        keep(&word);
        expect(CORRECT, t, r, &word, NULL, &out, (int32_t)p, codeword.at);
    }
    combine_promise(t, r, &codeword, 0);
    combine_promise(t, r, &word, 9);
    third_promises(t, r);
    release(&message);
    release(&codeword);
    release(&word);
    release(&out);
    release(&same);
}

int main(void)
{
    static const uint32_t value[] = {0,  1,  2,  3,  4,  5,  6,  7,  8,        9,              10,
                                     11, 12, 13, 14, 31, 32, 33, 1u << 31, UINT32_MAX - 1, UINT32_MAX};
    enum { VALUES = sizeof value / sizeof *value };
    int codes = 0;
    for (int pass = 0; pass < 2; pass++) {
        guarded = pass == 0;
        document_cases();
        document_parameters();
        for (size_t i = 0; i < VALUES; i++)
            zero_is_t(value[i]);
        for (size_t i = 0; i < VALUES * VALUES; i++) {
            uint32_t t = value[i / VALUES], r = value[i % VALUES];
            refusals(t, r);
            if (is_admitted(t, r)) {
                promises(t, r);
                codes++;
            }
        }
    }
    CHECK(codes == 2 * (CODES + MOST_T - 1), "%d codes", codes); /* r = 0 is there for each t */
    puts("calls_test: all checks hold");
    return 0;
}
