/*
 * stack_test.c: how many bytes of the stack each call uses, with every code, and that none reaches what z2z4.h says.
 *
 * A call is made on a stack of its own that is painted before; what it used begins at the lowest byte that is no
 * longer paint. The way to the call and back is measured by a call of nothing, and taken off.
 */
#define _XOPEN_SOURCE 600
#include <ucontext.h>

#include "testing.h"

/* The bound of z2z4.h; -DBOUND=4096 shows that the test can fail. */
#ifndef BOUND
#define BOUND 32768
#endif

enum { STACK = 4 * 32768, PAINT = 0xa5, CALLS = 4, FLIPS = 8 };

/* What the next call is made with. */
static uint32_t t, r, i, j;
static uint8_t word[MOST_PLACES], out[MOST_PLACES];

static int32_t encode(void)
{
    return z2z4_encode(t, r, word, Z2Z4_MESSAGE_LENGTH(t), out, Z2Z4_LENGTH(t));
}

static int32_t correct(void)
{
    return z2z4_correct(t, r, word, Z2Z4_LENGTH(t), out, Z2Z4_LENGTH(t));
}

static int32_t combine(void)
{
    return z2z4_combine(t, r, word, Z2Z4_LENGTH(t), word, Z2Z4_LENGTH(t), out, Z2Z4_LENGTH(t));
}

static int32_t third_place(void)
{
    return z2z4_third_place(t, r, i, j);
}

static int32_t nothing(void)
{
    return 0;
}

/* Uses more than any call may. The compiler cannot know which byte is written, so it has to keep them all. */
static int32_t waste(void)
{
    volatile uint8_t bytes[BOUND + 1024];
    bytes[i] = 0;
    return bytes[i];
}

/* The calls, and the most that each used: with which code first, and with t = 3. */
static struct {
    const char *name;
    int32_t (*call)(void);
    size_t most, most_at_3;
    uint32_t t, r;
} measured[CALLS] = {{"encode", encode, 0, 0, 0, 0},
                     {"correct", correct, 0, 0, 0, 0},
                     {"combine", combine, 0, 0, 0, 0},
                     {"third place", third_place, 0, 0, 0, 0}};

static uint8_t stack[STACK];
static int32_t (*volatile next_call)(void); /* volatile, so that no call becomes a part of its caller */

static void make_next_call(void)
{
    int32_t answer = next_call();
    CHECK(answer >= 0, "(%u, %u) answers %d", t, r, answer);
}

static void make_it_on_the_stack(void)
{
    static ucontext_t here, there;
    CHECK(getcontext(&there) == 0, "no context");
    there.uc_stack.ss_sp = stack;
    there.uc_stack.ss_size = STACK;
    there.uc_link = &here;
    makecontext(&there, make_next_call, 0);
    CHECK(swapcontext(&here, &there) == 0, "no stack");
}

/* The bytes that a call used, and the way there and back. */
static size_t touched(int32_t (*call)(void))
{
    size_t untouched = 0;
    next_call = call;
    memset(stack, PAINT, STACK);
    make_it_on_the_stack();
    while (untouched < STACK && stack[untouched] == PAINT)
        untouched++;
    CHECK(untouched > 0, "(%u, %u) uses the whole stack", t, r);
    return STACK - untouched;
}

static size_t used_by(int32_t (*call)(void))
{
    return touched(call) - touched(nothing);
}

static void measure(size_t number)
{
    size_t bytes = used_by(measured[number].call);
    if (bytes > measured[number].most) {
        measured[number].most = bytes;
        measured[number].t = t;
        measured[number].r = r;
    }
    if (t == 3 && bytes > measured[number].most_at_3)
        measured[number].most_at_3 = bytes;
}

/* Encodes a message, then corrects and combines its codeword with one flip, of the first place, the last or one
 * between, or with none; and two places, side by side as those of a pair are, or far apart. */
static void measure_round(uint32_t round)
{
    uint32_t n = (uint32_t)Z2Z4_LENGTH(t);
    for (uint32_t place = 0; place < n; place++)
        word[place] = (uint8_t)below(2);
    measure(0);
    memcpy(word, out, n);
    i = 1 + (n - 1) * (round % FLIPS) / (FLIPS - 1);
    j = 1 + (i - 1 + (round % 2 == 0 ? 1 : n / 2)) % n;
    word[i - 1] ^= round < FLIPS;
    for (size_t number = 1; number < CALLS; number++)
        measure(number);
}

static int measure_code(void)
{
    if (!is_admitted(t, r))
        return 0;
    for (uint32_t round = 0; round <= FLIPS; round++)
        measure_round(round);
    return 1;
}

/* The first call of memcpy or memset may have them looked up by the dynamic linker, on the caller's stack: that is not
 * the library's use of it, so it is done before anything is measured. */
static void call_each_once(void)
{
    t = r = j = 2;
    i = 1;
    for (size_t number = 0; number < CALLS; number++)
        CHECK(measured[number].call() >= 0, "%s is refused", measured[number].name);
}

static int measure_codes(void)
{
    int codes = 0;
    for (t = 2; t <= MOST_T; t++)
        for (r = 1; r <= t; r++)
            codes += measure_code();
    return codes;
}

/* Tells of each call, and gives the number of those that use too much. */
static int report(void)
{
    int over = 0;
    for (size_t number = 0; number < CALLS; number++) {
        printf("stack_test: %s uses %zu bytes of the stack at most, first with (%u, %u); with t = 3 it uses %zu\n",
               measured[number].name, measured[number].most, measured[number].t, measured[number].r,
               measured[number].most_at_3);
        over += measured[number].most >= BOUND;
    }
    return over;
}

int main(void)
{
    call_each_once();
    CHECK(used_by(waste) > BOUND, "what uses too much is not found out");
    int codes = measure_codes();
    CHECK(codes == CODES, "%d codes", codes);
    int over = report();
    CHECK(over == 0, "%d of the calls use %d bytes or more", over, BOUND);
    return 0;
}
