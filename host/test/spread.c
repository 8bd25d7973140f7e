/*
 * spread [ENGINE]: counts the instructions that an engine, the library where
 * none is named, takes to compress each of the 65,536 samples, and prints the
 * least number and the greatest. Fails where they differ or are 0, where a
 * sample goes another way through the code than the first one did or one too
 * long to follow, and where its own trials, `forked` and `uneven`, are not
 * found out.
 *
 * Each call is run in single steps: while the trap flag is set, the processor
 * stops before every instruction, and a handler looks where it is. The number
 * is of the function alone, from its first instruction to its return. There
 * are no other samples; so where all go one way, no branch depends on one.
 */
#define _GNU_SOURCE
#include <signal.h>
#include <stdio.h>
#include <ucontext.h>

#include "engines.h"

#define LEAST_SAMPLE    (-32768)
#define GREATEST_SAMPLE 32767
#define MOST_STEPS      4096u /* of a way that is followed */

typedef uint8_t compressor(int16_t sample);

/* Of the call that is being stepped. */
static volatile uintptr_t entry; /* the function's first instruction */
static volatile uintptr_t stack; /* the stack pointer as it began */
static volatile int inside;
static volatile uint32_t steps;
static volatile int strayed;

/* The way of the first call: where each instruction is. */
static volatile uintptr_t way[MOST_STEPS];
static volatile uint32_t way_steps;

static void step(int number, siginfo_t *info, void *context)
{
    const ucontext_t *state = context;
    uintptr_t at = (uintptr_t)state->uc_mcontext.gregs[REG_RIP];
    uintptr_t pointer = (uintptr_t)state->uc_mcontext.gregs[REG_RSP];

    (void)number;
    (void)info;
    if (!inside && at == entry) {
        inside = 1;
        stack = pointer;
    } else if (inside && pointer > stack) {
        inside = 0; /* it has returned */
    }
    if (inside && steps >= MOST_STEPS) {
        strayed = 1;
    } else if (inside && way_steps == 0) {
        way[steps] = at;
    } else if (inside) {
        strayed |= steps >= way_steps || way[steps] != at;
    }
    steps += inside != 0;
}

/* The flag is bit 8 of the flags, which are changed on the stack, below what a
   function may keep there without moving the pointer. */
#define CHANGE_FLAGS(how)                                                    \
    __asm__ volatile("lea -128(%%rsp), %%rsp\n\t"                            \
                     "pushfq\n\t" how ", (%%rsp)\n\tpopfq\n\t"               \
                     "lea 128(%%rsp), %%rsp" ::                              \
                         : "cc", "memory")

static void step_through(compressor *function, int16_t sample)
{
    compressor *volatile called = function; /* so that it is a call */

    entry = (uintptr_t)function;
    inside = 0;
    steps = 0;
    strayed = 0;
    CHANGE_FLAGS("orq $0x100");
    (void)called(sample);
    CHANGE_FLAGS("andq $~0x100");
}

struct spread {
    uint32_t least;
    uint32_t greatest;
    uint32_t strays; /* samples that go another way than the first, or one
                        too long to follow */
};

static struct spread spread_of(compressor *function, int32_t from, int32_t to)
{
    struct spread found = { UINT32_MAX, 0, 0 };

    way_steps = 0;
    for (int32_t sample = from; sample <= to; sample++) {
        step_through(function, (int16_t)sample);
        way_steps = sample == from ? steps : way_steps;
        found.least = steps < found.least ? steps : found.least;
        found.greatest = steps > found.greatest ? steps : found.greatest;
        found.strays += strayed != 0;
    }
    return found;
}

/* Sample 0 goes another way than all others, of the same length. */
static uint8_t forked(int16_t sample)
{
    __asm__ volatile("test %0, %0\n\tjz 1f\n\tnop\n\tjmp 2f\n"
                     "1:\tnop\n\tnop\n2:" ::"r"(sample) : "cc");
    return 0;
}

/* Sample 0 takes two instructions less than -2 does, sample 1 one more, and
   every other as many. */
static uint8_t uneven(int16_t sample)
{
    __asm__ volatile("test %0, %0\n\tjz 1f\n\tcmp $1, %0\n\tjne 1f\n\tnop\n"
                     "1:" ::"r"(sample) : "cc");
    return 0;
}

/* Whether both are found out. */
static int finds(void)
{
    struct spread same = spread_of(forked, -2, 2);
    struct spread unlike = spread_of(uneven, -2, 2);

    return same.least == same.greatest && same.strays == 1 &&
           unlike.greatest == unlike.least + 3 && unlike.strays == 2;
}

int main(int words, char **word)
{
    const struct engine *engine = engine_named(words > 1 ? word[1] : "otto");
    struct sigaction action = { .sa_sigaction = step, .sa_flags = SA_SIGINFO };
    struct spread found;

    if (words > 2 || engine == NULL) {
        fprintf(stderr, "spread [ENGINE]\n");
        return 2;
    }
    if (sigaction(SIGTRAP, &action, NULL) != 0 || !finds()) {
        fprintf(stderr, "spread: its own trials were not found out; are there "
                        "no single steps here?\n");
        return 2;
    }
    found = spread_of(engine->compress, LEAST_SAMPLE, GREATEST_SAMPLE);
    printf("spread compress %u %u\n", found.least, found.greatest);
    if (found.strays != 0) {
        printf("samples that go another way than the first, or one too long "
               "to follow: %u\n", found.strays);
    }
    return found.least == 0 || found.least != found.greatest ||
           found.strays != 0;
}
