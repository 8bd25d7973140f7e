/*
 * WAVE files, written into a buffer chunk by chunk: with any chunks in any
 * order, so that what comes of it need not be good.
 */
#ifndef WAVES_H
#define WAVES_H

#include <stdint.h>

#define MOST_WAVE_BYTES  70000u /* more than is ever taken */
#define MOST_WAVE_CHUNKS 8192u

struct wave {
    uint8_t bytes[MOST_WAVE_BYTES];
    uint32_t length; /* of the file */
    uint32_t chunks;
    uint32_t places[MOST_WAVE_CHUNKS + 1]; /* of each chunk's name, and then
                                              of the row's end */
};

struct wave_format {
    uint32_t tag;
    uint32_t channels;
    uint32_t rate;
    uint32_t rate_bytes;  /* in a second */
    uint32_t block_bytes; /* of one sample of all channels */
    uint32_t bits;
};

struct wave_loop {
    uint32_t type;
    uint32_t start;
    uint32_t end;
    uint32_t fraction;
    uint32_t times;
};

/* Mono, 16 bits, PCM, at the chip's rate with 32 voices. */
extern const struct wave_format wave_mono;

/* A file without chunks. */
void wave_begin(struct wave *wave);

/* A chunk: its name, its bytes, and its end, which puts a pad of 0 where one
   is due and sets its length and the file's. */
void wave_open(struct wave *wave, const char *name);
void wave_put(struct wave *wave, uint32_t number, uint32_t bytes);
void wave_close(struct wave *wave);

/* What stands in two kinds of chunk. Of so many loops the chunk says that it
   has `counted`. */
void wave_put_format(struct wave *wave, const struct wave_format *format);
void wave_put_loops(struct wave *wave, const struct wave_loop *loops,
                    uint32_t count, uint32_t counted);

/* Whole chunks: a format, an empty one of a name, a sampler chunk with one
   loop. */
void wave_add_format(struct wave *wave, const struct wave_format *format);
void wave_add_empty(struct wave *wave, const char *name);
void wave_add_loop(struct wave *wave, const struct wave_loop *loop);

/* A number in the file, low byte first as all of them, read and set. */
uint32_t wave_number(const struct wave *wave, uint32_t place, uint32_t bytes);
void wave_set_number(struct wave *wave, uint32_t place, uint32_t number,
                     uint32_t bytes);

/* Makes the RIFF chunk as long as its row of chunks. */
void wave_set_length(struct wave *wave);

#endif
