/*
 * The reference model of bringing in a WAVE file: what is asked of the file,
 * in the order of the answers, each of the whole file before the next; then
 * what is written and what is answered. Numbers have 64 bits, so that no
 * length that a file may name runs over.
 */
#include "reference.h"

#define PCM             1u
#define MONO            1u
#define BITS            16u
#define SAMPLE_BYTES    2u
#define GREATEST_END    0xFFFFFFFFu /* that a register of 32 bits could hold */

#define ONE_DIRECTION   0u
#define BOTH_DIRECTIONS 1u
#define BACKWARD        2u

/* ==== bytes =============================================================== */

/* A number of so many bytes, the low byte first. */
static uint64_t number_at(const uint8_t *file, uint64_t place, uint32_t bytes)
{
    uint64_t number = 0;

    while (bytes > 0) {
        bytes -= 1;
        number = 256 * number + file[place + bytes];
    }
    return number;
}

/* Whether four letters stand there, capitals told from small ones. */
static int is_named(const uint8_t *file, uint64_t place, const char *name)
{
    uint32_t letter;

    for (letter = 0; letter < 4; letter++) {
        if (file[place + letter] != (uint8_t)name[letter]) {
            return 0;
        }
    }
    return 1;
}

/* ==== chunks ============================================================== */

/* A chunk is known by the place of its name. */

/* Where the RIFF chunk ends, and with it the row of chunks in it. */
static uint64_t row_end(const uint8_t *file)
{
    return RIFF_KIND + number_at(file, RIFF_LENGTH, 4);
}

static uint64_t length_of(const uint8_t *file, uint64_t chunk)
{
    return number_at(file, chunk + CHUNK_LENGTH, 4);
}

/* What stands after an odd length is a pad. */
static uint64_t next_chunk(const uint8_t *file, uint64_t chunk)
{
    uint64_t length = length_of(file, chunk);

    return chunk + HEADER_BYTES + length + length % 2;
}

/* The first chunk of a name from a chunk on, or the row's end where there is
   none. */
static uint64_t find(const uint8_t *file, uint64_t chunk, const char *name)
{
    while (chunk < row_end(file) && !is_named(file, chunk, name)) {
        chunk = next_chunk(file, chunk);
    }
    return chunk;
}

static uint64_t find_first(const uint8_t *file, const char *name)
{
    return find(file, FIRST_CHUNK, name);
}

static uint32_t count_of(const uint8_t *file, const char *name)
{
    uint64_t chunk = find_first(file, name);
    uint32_t count = 0;

    while (chunk < row_end(file)) {
        count += 1;
        chunk = find(file, next_chunk(file, chunk), name);
    }
    return count;
}

/* ==== answer 20: the file is broken ======================================= */

/* A length that does not reach past 'WAVE' makes no WAVE file either. */
static int is_riff_wave(const uint8_t *file, size_t file_bytes)
{
    return file_bytes >= FIRST_CHUNK && is_named(file, 0, "RIFF") &&
           is_named(file, RIFF_KIND, "WAVE") && row_end(file) >= FIRST_CHUNK;
}

/* Every chunk has its header, its length and its pad within the row. */
static int row_is_whole(const uint8_t *file)
{
    uint64_t chunk = FIRST_CHUNK;

    while (chunk < row_end(file)) {
        if (chunk + HEADER_BYTES > row_end(file)) {
            return 0;
        }
        chunk = next_chunk(file, chunk);
    }
    return chunk == row_end(file);
}

/* Every format chunk, also one too many. */
static int formats_are_whole(const uint8_t *file)
{
    uint64_t chunk = find_first(file, "fmt ");

    while (chunk < row_end(file)) {
        if (length_of(file, chunk) < FORMAT_BYTES) {
            return 0;
        }
        chunk = find(file, next_chunk(file, chunk), "fmt ");
    }
    return 1;
}

/* The first sampler chunk has all the loops that it counts; later ones are
   not looked into. */
static int sampler_is_whole(const uint8_t *file)
{
    uint64_t chunk = find_first(file, "smpl");
    uint64_t loops;

    if (chunk == row_end(file)) {
        return 1;
    }
    if (length_of(file, chunk) < SAMPLER_BYTES) {
        return 0;
    }
    loops = number_at(file, chunk + HEADER_BYTES + LOOP_COUNT, 4);
    return SAMPLER_BYTES + LOOP_BYTES * loops <= length_of(file, chunk);
}

static int file_is_broken(const uint8_t *file, size_t file_bytes)
{
    return file_bytes > MOST_FILE_BYTES || !is_riff_wave(file, file_bytes) ||
           row_end(file) > file_bytes || !row_is_whole(file) ||
           !formats_are_whole(file) || !sampler_is_whole(file);
}

/* ==== answers 21 and 22: the format and the data ========================== */

static int chunks_are_missing_or_twice(const uint8_t *file)
{
    return count_of(file, "fmt ") != 1 || count_of(file, "data") != 1;
}

/* The rate, the bytes a second and the block's bytes may be anything. */
static int format_is_another(const uint8_t *file)
{
    uint64_t format = find_first(file, "fmt ") + HEADER_BYTES;
    uint64_t data = find_first(file, "data");

    return number_at(file, format + FORMAT_TAG, 2) != PCM ||
           number_at(file, format + CHANNELS, 2) != MONO ||
           number_at(file, format + SAMPLE_BITS, 2) != BITS ||
           length_of(file, data) % SAMPLE_BYTES != 0;
}

static uint64_t count_samples(const uint8_t *file)
{
    return length_of(file, find_first(file, "data")) / SAMPLE_BYTES;
}

/* ==== answer 23: the loop ================================================= */

/* The first of the first sampler chunk. Its points are numbers of samples,
   both of them played. */
struct loop {
    int is_there;
    uint64_t type;
    uint64_t start;
    uint64_t end;
};

static struct loop loop_of(const uint8_t *file)
{
    struct loop loop = { 0, 0, 0, 0 };
    uint64_t chunk = find_first(file, "smpl");
    uint64_t first;

    if (chunk == row_end(file) ||
        number_at(file, chunk + HEADER_BYTES + LOOP_COUNT, 4) == 0) {
        return loop;
    }
    first = chunk + HEADER_BYTES + SAMPLER_BYTES;
    loop.is_there = 1;
    loop.type = number_at(file, first + LOOP_TYPE, 4);
    loop.start = number_at(file, first + LOOP_START, 4);
    loop.end = number_at(file, first + LOOP_END, 4);
    return loop;
}

static int loop_is_invalid(const uint8_t *file)
{
    struct loop loop = loop_of(file);

    return loop.is_there &&
           (loop.end >= count_samples(file) || loop.end < loop.start ||
            loop.type > BACKWARD);
}

/* ==== answer 24: the place ================================================ */

/* One whole sample past the loop's last, counted from the bank's first word
   and not yet held to 32 bits. */
static uint64_t end_of(struct loop loop, size_t word)
{
    return (word % BANK_WORDS + loop.end + 1) * WHOLE_SAMPLE;
}

/* The first test leaves numbers that can be added. */
static int place_is_none(const uint8_t *file, size_t memory_words, size_t word)
{
    uint64_t samples = count_samples(file);
    struct loop loop = loop_of(file);

    return word > memory_words || word + samples > memory_words ||
           word % BANK_WORDS + samples > BANK_WORDS ||
           (loop.is_there && end_of(loop, word) > GREATEST_END);
}

/* ==== bringing in ========================================================= */

static uint32_t ask(const uint8_t *file, size_t file_bytes,
                    size_t memory_words, size_t word)
{
    if (memory_words > MOST_MEMORY_WORDS) {
        return ANSWER_MEMORY_LENGTH;
    }
    if (file_is_broken(file, file_bytes)) {
        return ANSWER_FILE_BROKEN;
    }
    if (chunks_are_missing_or_twice(file)) {
        return ANSWER_CHUNK_COUNT;
    }
    if (format_is_another(file)) {
        return ANSWER_SAMPLE_FORMAT;
    }
    if (loop_is_invalid(file)) {
        return ANSWER_LOOP_INVALID;
    }
    if (place_is_none(file, memory_words, word)) {
        return ANSWER_NO_PLACE;
    }
    return ANSWER_DONE;
}

/* Bits of CR; the last type runs one way too, but backward. */
static uint32_t loop_bits(uint64_t type)
{
    if (type == ONE_DIRECTION) {
        return CR_LPE;
    }
    if (type == BOTH_DIRECTIONS) {
        return CR_BLE | CR_LPE;
    }
    return CR_LPE | CR_DIR;
}

static void write_samples(const uint8_t *file, uint16_t *memory, size_t word)
{
    uint64_t first = find_first(file, "data") + HEADER_BYTES;
    uint64_t samples = count_samples(file);
    uint64_t number;

    for (number = 0; number < samples; number++) {
        memory[word + number] = (uint16_t)number_at(
            file, first + SAMPLE_BYTES * number, SAMPLE_BYTES);
    }
}

uint32_t reference_import(const uint8_t *file, size_t file_bytes,
                          uint16_t *memory, size_t memory_words, size_t word,
                          uint32_t *start, uint32_t *end, uint32_t *loop,
                          uint32_t *samples)
{
    struct loop found;
    uint32_t answer = ask(file, file_bytes, memory_words, word);

    *start = 0;
    *end = 0;
    *loop = 0;
    *samples = 0;
    if (answer != ANSWER_DONE) {
        return answer;
    }
    write_samples(file, memory, word);
    *samples = (uint32_t)count_samples(file);

    /* Without a loop the other three stay 0. */
    found = loop_of(file);
    if (found.is_there) {
        *start = (uint32_t)((word % BANK_WORDS + found.start) * WHOLE_SAMPLE);
        *end = (uint32_t)end_of(found, word);
        *loop = loop_bits(found.type);
    }
    return ANSWER_DONE;
}
