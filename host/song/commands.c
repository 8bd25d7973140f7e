/* The commands of a score, written and read. */
#include "commands.h"

#include <stdio.h>
#include <string.h>

void put_number(uint32_t number, uint32_t bytes)
{
    while (bytes > 0) {
        bytes -= 1;
        putchar((int)(number >> (8u * bytes) & 0xFFu));
    }
}

void put_command(uint32_t kind, uint32_t number, uint32_t byte)
{
    put_number(kind, 1);
    put_number(number, 2);
    put_number(byte, 1);
}

uint32_t number_of(const unsigned char *bytes, uint32_t count)
{
    uint32_t number = 0;
    uint32_t place;

    for (place = 0; place < count; place++) {
        number = 256u * number + bytes[place];
    }
    return number;
}

uint32_t number_in(const unsigned char *command)
{
    return number_of(command + 1, 2);
}

size_t put_in_full(unsigned char full[MOST_COMMANDS * COMMAND_BYTES],
                   const unsigned char *commands, size_t count)
{
    size_t done = 0;

    for (; count > 0; count--, commands += COMMAND_BYTES) {
        const unsigned char *first = commands;
        size_t more = 1;
        size_t back = number_in(commands);

        if (commands[0] == REPEAT && commands[3] <= back && back <= done) {
            first = full + (done - back) * COMMAND_BYTES;
            more = commands[3];
        }
        if (more > MOST_COMMANDS - done) {
            return MOST_COMMANDS + 1u;
        }
        memcpy(full + done * COMMAND_BYTES, first, more * COMMAND_BYTES);
        done += more;
    }
    return done;
}
