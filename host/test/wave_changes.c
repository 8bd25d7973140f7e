/*
 * The changes to WAVE files, each a function. A file that is changed more than
 * once may be so far gone that a change finds nothing.
 */
#include "wave_changes.h"

#include <string.h>

#include "random.h"
#include "reference.h"

#define COUNT(list) ((uint32_t)(sizeof(list) / sizeof(list)[0]))

/* ==== the row of chunks =================================================== */

/* A chunk of the file, if it still has any whole. */
static int any_chunk(const struct wave *wave, uint32_t *chunk)
{
    *chunk = wave->chunks != 0 ? random_below(wave->chunks) : 0;
    return wave->chunks != 0;
}

/* The first chunk of a name that has so many bytes. */
static int find_chunk(const struct wave *wave, const char *name,
                      uint32_t bytes, uint32_t *place)
{
    for (uint32_t chunk = 0; chunk < wave->chunks; chunk++) {
        *place = wave->places[chunk];
        if (memcmp(wave->bytes + *place, name, 4) == 0 &&
            wave->places[chunk + 1] - *place >= HEADER_BYTES + bytes) {
            return 1;
        }
    }
    return 0;
}

/* A chunk's header, its bytes and its pad are taken out of the row. */
static void take_out(struct wave *wave, uint32_t chunk)
{
    uint32_t from = wave->places[chunk + 1];
    uint32_t bytes = from - wave->places[chunk];

    memmove(wave->bytes + wave->places[chunk], wave->bytes + from,
            wave->length - from);
    wave->length -= bytes;
    wave->chunks -= 1;
    for (uint32_t i = chunk; i <= wave->chunks; i++) {
        wave->places[i] = wave->places[i + 1] - bytes;
    }
}

/* A chunk is put into the row, before the chunk that has the number now. */
static int put_in(struct wave *wave, uint32_t chunk, const uint8_t *bytes,
                  uint32_t length)
{
    uint32_t place = wave->places[chunk];

    if (length > MOST_WAVE_BYTES - wave->length ||
        wave->chunks == MOST_WAVE_CHUNKS) {
        return 0;
    }
    memmove(wave->bytes + place + length, wave->bytes + place,
            wave->length - place);
    memcpy(wave->bytes + place, bytes, length);
    wave->length += length;
    wave->chunks += 1;
    for (uint32_t i = wave->chunks; i > chunk; i--) {
        wave->places[i] = wave->places[i - 1] + length;
    }
    return 1;
}

/* ==== the file's end ====================================================== */

/* Chunks that the file ends before or within are none. */
static void forget_chunks(struct wave *wave)
{
    while (wave->chunks > 0 && wave->places[wave->chunks] > wave->length) {
        wave->chunks -= 1;
    }
}

static int change_cut(struct wave *wave)
{
    uint32_t most = wave->length;

    if (most == 0) {
        return 0;
    }
    wave->length = random_once_in(2) || most < 20 ? random_below(most)
                                                  : most - 1 - random_below(20);
    forget_chunks(wave);
    return 1;
}

/* Noise, or what looks like one more chunk. */
static int change_grown(struct wave *wave)
{
    uint32_t bytes = 1 + random_below(random_once_in(4) ? 600 : 12);
    uint32_t chunk;

    if (bytes > MOST_WAVE_BYTES - wave->length) {
        return 0;
    }
    for (uint32_t i = 0; i < bytes; i++) {
        wave->bytes[wave->length + i] = (uint8_t)random_word();
    }
    if (random_once_in(2) && any_chunk(wave, &chunk)) {
        uint32_t whole = wave->places[chunk + 1] - wave->places[chunk];

        memcpy(wave->bytes + wave->length, wave->bytes + wave->places[chunk],
               whole < bytes ? whole : bytes);
    }
    wave->length += bytes;
    return 1;
}

/* To a length, by a chunk that is skipped or by bytes behind the row. */
static int fill_to(struct wave *wave, uint32_t length)
{
    static const uint8_t header[HEADER_BYTES] = { 'f', 'i', 'l', 'l' };
    uint32_t place = wave->places[wave->chunks];

    if (wave->length > length) {
        return 0;
    }
    if (wave->length == place && length - place >= HEADER_BYTES &&
        !random_once_in(4) &&
        put_in(wave, wave->chunks, header, HEADER_BYTES)) {
        wave_set_number(wave, place + CHUNK_LENGTH,
                        length - place - HEADER_BYTES, 4);
        wave->places[wave->chunks] = length;
        wave_set_length(wave);
    }
    memset(wave->bytes + wave->length, 0, length - wave->length);
    wave->length = length;
    return 1;
}

static int change_filled(struct wave *wave)
{
    return fill_to(wave, MOST_FILE_BYTES);
}

static int change_overfilled(struct wave *wave)
{
    return fill_to(wave, MOST_FILE_BYTES + 1 +
                             random_below(random_once_in(2) ? 2 : 400));
}

/* ==== chunks ============================================================== */

/* A length that the chunk may have had, for the most part not; one more or
   less may do no harm where there is a pad. */
static int change_length(struct wave *wave)
{
    uint32_t chunk;
    uint32_t place;
    uint32_t bytes;

    if (!any_chunk(wave, &chunk)) {
        return 0;
    }
    place = wave->places[chunk] + CHUNK_LENGTH;
    bytes = wave_number(wave, place, 4);
    switch (random_below(4)) {
    case 0:
        bytes = 0;
        break;
    case 1:
        bytes = random_below(100);
        break;
    case 2:
        bytes ^= 1;
        break;
    default:
        bytes += random_below(65) - 32;
    }
    wave_set_number(wave, place, bytes, 4);
    return 1;
}

/* Lengths by which a sum of 32 bits, or a signed one, would run over. */
static int change_huge(struct wave *wave)
{
    uint32_t top = random_once_in(3) ? 0x80000000u : 0;
    uint32_t chunk;

    if (!any_chunk(wave, &chunk)) {
        return 0;
    }
    /* A few below the top, or as many as would lead back into the file. */
    wave_set_number(wave, wave->places[chunk] + CHUNK_LENGTH,
                    top - 1 - random_below(random_once_in(2) ? 24
                                                             : wave->length),
                    4);
    return 1;
}

static uint8_t copy[MOST_WAVE_BYTES];

/* Copies a chunk, header and pad as well; how many bytes it has. */
static uint32_t copy_chunk(const struct wave *wave, uint32_t chunk)
{
    uint32_t bytes = wave->places[chunk + 1] - wave->places[chunk];

    memcpy(copy, wave->bytes + wave->places[chunk], bytes);
    return bytes;
}

static int change_doubled(struct wave *wave)
{
    uint32_t chunk;
    uint32_t bytes;

    if (!any_chunk(wave, &chunk)) {
        return 0;
    }
    bytes = copy_chunk(wave, chunk);
    if (!put_in(wave, random_below(wave->chunks + 1), copy, bytes)) {
        return 0;
    }
    wave_set_length(wave);
    return 1;
}

static int change_dropped(struct wave *wave)
{
    uint32_t chunk;

    if (!any_chunk(wave, &chunk)) {
        return 0;
    }
    take_out(wave, chunk);
    wave_set_length(wave);
    return 1;
}

static int change_moved(struct wave *wave)
{
    uint32_t chunk;
    uint32_t bytes;

    if (!any_chunk(wave, &chunk)) {
        return 0;
    }
    bytes = copy_chunk(wave, chunk);
    take_out(wave, chunk);
    return put_in(wave, random_below(wave->chunks + 1), copy, bytes);
}

/* The chunk is put together anew, with its pad where it has an odd length. */
static int change_shortened(struct wave *wave)
{
    uint32_t chunk;
    uint32_t bytes;
    uint32_t left;

    if (!any_chunk(wave, &chunk)) {
        return 0;
    }
    bytes = wave->places[chunk + 1] - wave->places[chunk] - HEADER_BYTES;
    if (bytes == 0) {
        return 0;
    }
    left = random_once_in(2) ? bytes - 1 : random_below(bytes);
    memcpy(copy, wave->bytes + wave->places[chunk], HEADER_BYTES + bytes);
    take_out(wave, chunk);
    (void)put_in(wave, chunk, copy, HEADER_BYTES + left + left % 2);
    wave_set_number(wave, wave->places[chunk] + CHUNK_LENGTH, left, 4);
    wave_set_length(wave);
    return 1;
}

/* ==== the RIFF length ===================================================== */

static int set_riff(struct wave *wave, uint32_t length)
{
    if (wave->length < FIRST_CHUNK) {
        return 0;
    }
    wave_set_number(wave, RIFF_LENGTH, length, 4);
    return 1;
}

static uint32_t riff_of(const struct wave *wave)
{
    return wave_number(wave, RIFF_LENGTH, 4);
}

static int change_riff_below_4(struct wave *wave)
{
    return set_riff(wave, random_below(4));
}

static int change_riff_odd(struct wave *wave)
{
    return set_riff(wave, random_below(wave->length + 1) | 1);
}

static int change_riff_one_more(struct wave *wave)
{
    return set_riff(wave, riff_of(wave) + 1);
}

static int change_riff_one_less(struct wave *wave)
{
    return set_riff(wave, riff_of(wave) - 1);
}

/* At a chunk's end the rest is not looked at; within one it is broken. */
static int change_riff_short(struct wave *wave)
{
    uint32_t chunk;

    if (random_once_in(2) && any_chunk(wave, &chunk)) {
        return set_riff(wave, wave->places[chunk] - RIFF_KIND);
    }
    return set_riff(wave, random_below(wave->length + 1));
}

static int change_riff_beyond(struct wave *wave)
{
    uint32_t past = wave->length - RIFF_KIND + 1;

    if (random_once_in(3)) {
        return set_riff(wave, 0u - 1 - random_below(24));
    }
    return set_riff(wave, past + random_below(random_once_in(2) ? 9 : 60000));
}

/* ==== what is in the chunks =============================================== */

static int change_byte(struct wave *wave)
{
    uint32_t place;

    if (wave->length == 0) {
        return 0;
    }
    /* Mostly where headers and numbers are, not in the midst of the data. */
    place = random_below(random_once_in(3) || wave->length < 64 ? wave->length
                                                                : 64);
    if (random_once_in(2)) {
        wave->bytes[place] ^= (uint8_t)(1u << random_below(8));
    } else {
        wave->bytes[place] = (uint8_t)random_word();
    }
    return 1;
}

/* Of a chunk, of the file, or of 'WAVE'. Bit 5 is the case of a letter. */
static int change_case(struct wave *wave)
{
    uint32_t letter = random_below(4);
    uint32_t chunk;
    uint32_t place;

    if (wave->length < FIRST_CHUNK) {
        return 0;
    }
    if (random_once_in(6) || !any_chunk(wave, &chunk)) {
        place = random_once_in(2) ? 0 : RIFF_KIND;
    } else {
        place = wave->places[chunk];
    }
    wave->bytes[place + letter] ^= 0x20;
    return 1;
}

static int change_format(struct wave *wave)
{
    static const uint32_t fields[] = { FORMAT_TAG, CHANNELS, 4, 6, 8, 10, 12,
                                       SAMPLE_BITS };
    static const uint32_t values[] = { 0, 1, 2, 3, 8, 15, 16, 17, 24, 32,
                                       0x0101, 0x0110, 0x8001, 0xFFFE };
    uint32_t place;

    if (!find_chunk(wave, "fmt ", FORMAT_BYTES, &place)) {
        return 0;
    }
    wave_set_number(wave,
                    place + HEADER_BYTES + fields[random_below(COUNT(fields))],
                    values[random_below(COUNT(values))], 2);
    return 1;
}

/* How many samples the data chunk has, by its place. */
static uint32_t samples_of(const struct wave *wave)
{
    uint32_t place;

    return find_chunk(wave, "data", 0, &place)
               ? wave_number(wave, place + CHUNK_LENGTH, 4) / 2
               : 0;
}

/* Its number, type, points, fraction and times; points near the last sample,
   near each other, and far off. */
static int change_loop(struct wave *wave)
{
    uint32_t field = 4 * random_below(LOOP_BYTES / 4);
    uint32_t other = random_once_in(2) ? LOOP_START : LOOP_END;
    uint32_t number = random_word();
    uint32_t place;
    uint32_t near;

    if (!find_chunk(wave, "smpl", SAMPLER_BYTES + LOOP_BYTES, &place)) {
        return 0;
    }
    place += HEADER_BYTES + SAMPLER_BYTES;
    near = random_once_in(3) ? samples_of(wave)
                             : wave_number(wave, place + other, 4);
    if (field == LOOP_TYPE && !random_once_in(4)) {
        number = random_below(4);
    } else if (!random_once_in(6)) {
        number = near + random_below(5) - 2;
    }
    wave_set_number(wave, place + field, number, 4);
    return 1;
}

/* Also counts by which the bytes of all loops, in 32 bits, run over to few. */
static int change_loop_count(struct wave *wave)
{
    static const uint32_t counts[] = { 0x0AAAAAAAu, 0x0AAAAAABu, 0x20000000u,
                                       0x80000000u, 0xFFFFFFFFu };
    uint32_t place;

    if (!find_chunk(wave, "smpl", SAMPLER_BYTES, &place)) {
        return 0;
    }
    wave_set_number(wave, place + HEADER_BYTES + LOOP_COUNT,
                    random_once_in(3) ? counts[random_below(COUNT(counts))]
                                      : random_below(4),
                    4);
    return 1;
}

/* ==== all ================================================================= */

static const struct {
    const char *name;
    int (*change)(struct wave *wave);
} changes[WAVE_CHANGES] = {
    [WAVE_CUT] = { "cut", change_cut },
    [WAVE_GROWN] = { "grown", change_grown },
    [WAVE_FILLED] = { "filled", change_filled },
    [WAVE_OVERFILLED] = { "overfilled", change_overfilled },
    [WAVE_LENGTH] = { "length", change_length },
    [WAVE_HUGE] = { "huge length", change_huge },
    [WAVE_DOUBLED] = { "doubled", change_doubled },
    [WAVE_DROPPED] = { "dropped", change_dropped },
    [WAVE_MOVED] = { "moved", change_moved },
    [WAVE_SHORTENED] = { "shortened", change_shortened },
    [WAVE_RIFF_BELOW_4] = { "RIFF below 4", change_riff_below_4 },
    [WAVE_RIFF_ODD] = { "RIFF odd", change_riff_odd },
    [WAVE_RIFF_ONE_MORE] = { "RIFF one more", change_riff_one_more },
    [WAVE_RIFF_ONE_LESS] = { "RIFF one less", change_riff_one_less },
    [WAVE_RIFF_SHORT] = { "RIFF short", change_riff_short },
    [WAVE_RIFF_BEYOND] = { "RIFF beyond", change_riff_beyond },
    [WAVE_BYTE] = { "byte", change_byte },
    [WAVE_CASE] = { "case", change_case },
    [WAVE_FORMAT] = { "format", change_format },
    [WAVE_LOOP] = { "loop", change_loop },
    [WAVE_LOOP_COUNT] = { "loop count", change_loop_count },
};

const char *wave_change_name(enum wave_change change)
{
    return changes[change].name;
}

int wave_change(struct wave *wave, enum wave_change change)
{
    return changes[change].change(wave);
}
