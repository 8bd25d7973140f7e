/*
 * The writer of WAVE files. What would not fit the buffer stops the program:
 * no caller writes that much.
 */
#include "waves.h"

#include <stdio.h>
#include <stdlib.h>

#include "reference.h"

const struct wave_format wave_mono = { 1, 1, 31250, 62500, 2, 16 };

/* ==== bytes =============================================================== */

static void put_byte(struct wave *wave, uint8_t byte)
{
    if (wave->length == MOST_WAVE_BYTES) {
        fprintf(stderr, "waves: no room\n");
        exit(2);
    }
    wave->bytes[wave->length] = byte;
    wave->length += 1;
}

static void put_name(struct wave *wave, const char *name)
{
    for (uint32_t letter = 0; letter < 4; letter++) {
        put_byte(wave, (uint8_t)name[letter]);
    }
}

void wave_put(struct wave *wave, uint32_t number, uint32_t bytes)
{
    for (uint32_t byte = 0; byte < bytes; byte++) {
        put_byte(wave, (uint8_t)(number >> 8 * byte));
    }
}

uint32_t wave_number(const struct wave *wave, uint32_t place, uint32_t bytes)
{
    uint32_t number = 0;

    for (uint32_t byte = 0; byte < bytes; byte++) {
        number |= (uint32_t)wave->bytes[place + byte] << 8 * byte;
    }
    return number;
}

void wave_set_number(struct wave *wave, uint32_t place, uint32_t number,
                     uint32_t bytes)
{
    for (uint32_t byte = 0; byte < bytes; byte++) {
        wave->bytes[place + byte] = (uint8_t)(number >> 8 * byte);
    }
}

/* ==== files and chunks ==================================================== */

void wave_set_length(struct wave *wave)
{
    wave_set_number(wave, RIFF_LENGTH, wave->places[wave->chunks] - RIFF_KIND,
                    4);
}

void wave_begin(struct wave *wave)
{
    wave->length = 0;
    wave->chunks = 0;
    put_name(wave, "RIFF");
    wave_put(wave, 0, 4);
    put_name(wave, "WAVE");
    wave->places[0] = wave->length;
    wave_set_length(wave);
}

void wave_open(struct wave *wave, const char *name)
{
    put_name(wave, name);
    wave_put(wave, 0, 4);
}

void wave_close(struct wave *wave)
{
    uint32_t chunk = wave->places[wave->chunks];
    uint32_t bytes = wave->length - chunk - HEADER_BYTES;

    wave_set_number(wave, chunk + CHUNK_LENGTH, bytes, 4);
    if (bytes % 2 == 1) {
        put_byte(wave, 0);
    }
    if (wave->chunks == MOST_WAVE_CHUNKS) {
        fprintf(stderr, "waves: too many chunks\n");
        exit(2);
    }
    wave->chunks += 1;
    wave->places[wave->chunks] = wave->length;
    wave_set_length(wave);
}

/* ==== kinds of chunk ====================================================== */

void wave_put_format(struct wave *wave, const struct wave_format *format)
{
    wave_put(wave, format->tag, 2);
    wave_put(wave, format->channels, 2);
    wave_put(wave, format->rate, 4);
    wave_put(wave, format->rate_bytes, 4);
    wave_put(wave, format->block_bytes, 2);
    wave_put(wave, format->bits, 2);
}

static void put_loop(struct wave *wave, const struct wave_loop *loop,
                     uint32_t number)
{
    wave_put(wave, number, 4);
    wave_put(wave, loop->type, 4);
    wave_put(wave, loop->start, 4);
    wave_put(wave, loop->end, 4);
    wave_put(wave, loop->fraction, 4);
    wave_put(wave, loop->times, 4);
}

/* Before the count: maker, product, nanoseconds of a sample, key, its
   fraction, and two numbers of a film's time; after it, how many bytes of the
   maker's own follow the loops. */
void wave_put_loops(struct wave *wave, const struct wave_loop *loops,
                    uint32_t count, uint32_t counted)
{
    static const uint32_t before[7] = { 0, 0, 32000, 60, 0, 0, 0 };

    for (uint32_t word = 0; word < 7; word++) {
        wave_put(wave, before[word], 4);
    }
    wave_put(wave, counted, 4);
    wave_put(wave, 0, 4);
    for (uint32_t number = 0; number < count; number++) {
        put_loop(wave, &loops[number], number);
    }
}

void wave_add_format(struct wave *wave, const struct wave_format *format)
{
    wave_open(wave, "fmt ");
    wave_put_format(wave, format);
    wave_close(wave);
}

void wave_add_empty(struct wave *wave, const char *name)
{
    wave_open(wave, name);
    wave_close(wave);
}

void wave_add_loop(struct wave *wave, const struct wave_loop *loop)
{
    wave_open(wave, "smpl");
    wave_put_loops(wave, loop, 1, 1);
    wave_close(wave);
}
