/*
 * A machine's registers by number, over the calls that take bytes. Copy this
 * into a host and let `must` do what the host does about an error.
 */
#ifndef MACHINE_H
#define MACHINE_H

#include <stdio.h>
#include <stdlib.h>
#include <string.h>

#include "otto.h"

/* No call is refused in a host that is right, so the first that is ends it, and
   says which call it was and why. */
#define must(call) must_be_done((call), #call)

static inline void must_be_done(uint32_t answer, const char *call)
{
    if (answer != OTTO_DONE) {
        fprintf(stderr, "%.*s: refused with %u, %s\n",
                (int)strcspn(call, "("), call, (unsigned)answer,
                otto_reason(answer));
        exit(1);
    }
}

/* A register is written by its four bytes, highest first. */
static inline void put(uint32_t *machine, uint32_t number, uint32_t value)
{
    for (uint32_t byte = 0; byte < 4; byte++) {
        must(otto_write(machine, OTTO_RECORD_WORDS, OTTO_ADDRESS(number, byte),
                        (uint8_t)(value >> (24 - 8 * byte))));
    }
}

/* It is read in the same order: byte 0 takes all four into a latch. */
static inline uint32_t get(uint32_t *machine, uint32_t number)
{
    uint32_t value = 0;

    for (uint32_t byte = 0; byte < 4; byte++) {
        uint8_t got;

        must(otto_read(machine, OTTO_RECORD_WORDS, OTTO_ADDRESS(number, byte),
                       &got));
        value = value << 8 | got;
    }
    return value;
}

#endif
