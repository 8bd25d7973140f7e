/*
 * WAVE files for two engines: walks through what can be listed, and random
 * files that are changed at random, brought in at places that lean toward
 * edges.
 */
#include "import_traces.h"

#include "import_pair.h"
#include "random.h"
#include "reference.h"

#define COUNT(list) ((uint32_t)(sizeof(list) / sizeof(list)[0]))

unsigned long import_changes[WAVE_CHANGES];

static struct wave wave;

static const size_t memory_lengths[] = { 0,       1,       40,
                                         2097151, 2097152, 2097153,
                                         4194304, 8388608, 8388609 };

/* ==== chunks ============================================================== */

static void add_noise(const char *name, uint32_t bytes)
{
    wave_open(&wave, name);
    for (uint32_t i = 0; i < bytes; i++) {
        wave_put(&wave, random_word(), 1);
    }
    wave_close(&wave);
    if (bytes % 2 == 1) {
        /* The pad may be anything. */
        wave.bytes[wave.length - 1] = (uint8_t)random_word();
    }
}

static void add_data(uint32_t bytes)
{
    add_noise("data", bytes);
}

/* A format chunk of the right kind with so many bytes, or the first of them. */
static void add_format(uint32_t bytes)
{
    wave_open(&wave, "fmt ");
    wave_put_format(&wave, &wave_mono);
    for (uint32_t i = FORMAT_BYTES; i < bytes; i++) {
        wave_put(&wave, random_word(), 1);
    }
    if (bytes < FORMAT_BYTES) {
        wave.length -= FORMAT_BYTES - bytes;
    }
    wave_close(&wave);
}

static void add_loop(uint32_t type, uint32_t start, uint32_t end)
{
    struct wave_loop loop = { type, start, end, random_word(), 0 };

    wave_add_loop(&wave, &loop);
}

/* ==== walks =============================================================== */

#define ROOM 40u /* words, for the small files */

/* Enough memory, behind which some words are not lent. */
static void bring_in(void)
{
    (void)import_both(&wave, ROOM, random_below(4), 3);
}

#define SMALL_SAMPLES 5u

/* Every kind of chunk once, with an odd length in front. */
static void make_small(void)
{
    wave_begin(&wave);
    add_noise("LIST", 3);
    add_format(FORMAT_BYTES);
    add_data(2 * SMALL_SAMPLES);
    add_loop(1, 1, 3);
}

/* With the RIFF length as it was, and with one that is true. */
static void walk_cuts(void)
{
    uint32_t whole;

    make_small();
    whole = wave.length;
    for (uint32_t length = 0; length <= whole; length++) {
        wave.length = length;
        wave_set_length(&wave);
        bring_in();
        wave_set_number(&wave, RIFF_LENGTH, length - RIFF_KIND, 4);
        bring_in();
    }
}

/* Of a file that ends with its chunks, and of one that has chunks behind. */
static void walk_riff_lengths(void)
{
    make_small();
    for (int behind = 0; behind < 2; behind++) {
        for (uint32_t length = 0; length < wave.length + 40; length++) {
            wave_set_number(&wave, RIFF_LENGTH, length, 4);
            bring_in();
            wave_set_number(&wave, RIFF_LENGTH, 0u - 1 - length, 4);
            bring_in();
            wave_set_number(&wave, RIFF_LENGTH, 0x80000000u - length, 4);
            bring_in();
        }
        add_noise("more", 3);
        add_data(4);
    }
}

static void walk_bytes(void)
{
    make_small();
    for (uint32_t place = 0; place < wave.length; place++) {
        uint8_t old = wave.bytes[place];

        for (uint32_t value = 0; value < 256; value++) {
            wave.bytes[place] = (uint8_t)value;
            bring_in();
        }
        wave.bytes[place] = old;
    }
}

/* What each chunk says of its own length. */
static void walk_chunk_lengths(void)
{
    make_small();
    for (uint32_t chunk = 0; chunk < wave.chunks; chunk++) {
        uint32_t place = wave.places[chunk] + CHUNK_LENGTH;
        uint32_t old = wave_number(&wave, place, 4);

        for (uint32_t bytes = 0; bytes < 200; bytes++) {
            wave_set_number(&wave, place, bytes, 4);
            bring_in();
            wave_set_number(&wave, place, 0u - 1 - bytes, 4);
            bring_in();
            wave_set_number(&wave, place, 0x80000000u + 100 - bytes, 4);
            bring_in();
        }
        wave_set_number(&wave, place, old, 4);
    }
}

/* Rows of one to four chunks, each of any of four kinds: so every order, and
   files that lack a kind or have it more than once. */
static void walk_orders(void)
{
    for (uint32_t order = 0; order < 256; order++) {
        wave_begin(&wave);
        for (uint32_t place = 0; place < 4; place++) {
            switch (order >> 2 * place & 3) {
            case 0:
                add_format(FORMAT_BYTES + place);
                break;
            case 1:
                add_data(6);
                break;
            case 2:
                add_loop(place % 3, 0, 2);
                break;
            default:
                add_noise("LIST", place);
            }
            bring_in();
        }
    }
}

/* Points and types of a loop in four samples, in the midst of memory and at a
   bank's end, where END may have no place. */
static void walk_loops(void)
{
    static const uint32_t points[] = { 0, 1, 2, 3, 4, 5, 7, 8, 0x80000000u,
                                       0xFFFFFFFEu, 0xFFFFFFFFu };
    static const uint32_t types[] = { 0, 1, 2, 3, 4, 0x100, 0x10000,
                                      0xFFFFFFFFu };

    for (uint32_t type = 0; type < COUNT(types); type++) {
        for (uint32_t start = 0; start < COUNT(points); start++) {
            for (uint32_t end = 0; end < COUNT(points); end++) {
                wave_begin(&wave);
                add_format(FORMAT_BYTES);
                add_loop(types[type], points[start], points[end]);
                add_data(8);
                bring_in();
                (void)import_both(&wave, BANK_WORDS + 9, 1, BANK_WORDS - 4);
                (void)import_both(&wave, BANK_WORDS + 9, 0, BANK_WORDS - 3);
            }
        }
    }
}

/* Loops that are there and loops that are counted. */
static void walk_samplers(void)
{
    static const uint32_t wraps[] = { 0x0AAAAAAAu, 0x0AAAAAABu, 0x15555555u,
                                      0x20000000u, 0x80000000u, 0xFFFFFFFFu };
    struct wave_loop loops[3] = { { 2, 1, 1, 5, 6 }, { 9, 9, 9, 9, 9 },
                                  { 0, 0, 0, 0, 0 } };

    for (uint32_t there = 0; there < 4; there++) {
        for (uint32_t counted = 0; counted < 6 + COUNT(wraps); counted++) {
            for (uint32_t more = 0; more < 26; more++) {
                wave_begin(&wave);
                add_data(4);
                wave_open(&wave, "smpl");
                wave_put_loops(&wave, loops, there,
                               counted < 6 ? counted : wraps[counted - 6]);
                for (uint32_t i = 0; i < more; i++) {
                    wave_put(&wave, random_word(), 1);
                }
                wave_close(&wave);
                add_format(FORMAT_BYTES);
                bring_in();
            }
        }
    }
}

/* Sampler chunks of so few bytes that their loop is not whole, nor what comes
   before it; the first of the file, and a later one. */
static void walk_short_samplers(void)
{
    static const struct wave_loop loop = { 0, 0, 0, 0, 0 };

    for (uint32_t i = 0; i < 2 * (SAMPLER_BYTES + LOOP_BYTES); i++) {
        uint32_t missing = 1 + i / 2;

        wave_begin(&wave);
        add_data(2);
        wave_open(&wave, "smpl");
        wave_put_loops(&wave, &loop, 1, i % 2);
        wave.length -= missing;
        wave_close(&wave);
        add_format(FORMAT_BYTES);
        bring_in();
        make_small();
        add_noise("smpl", SAMPLER_BYTES + LOOP_BYTES - missing);
        bring_in();
    }
}

/* Kinds of sample, and lengths of format chunks, the second short too. */
static void walk_formats(void)
{
    static const uint32_t values[] = { 0, 1, 2, 3, 8, 15, 16, 17, 24, 32,
                                       0x0101, 0x0110, 0x1001, 0xFFFE };

    for (uint32_t i = 0; i < COUNT(values) * COUNT(values); i++) {
        struct wave_format format = wave_mono;

        format.tag = values[i % COUNT(values)];
        format.channels = values[i / COUNT(values)];
        format.rate = random_word();
        format.rate_bytes = random_word();
        format.block_bytes = random_word();
        for (uint32_t bits = 0; bits < 40; bits++) {
            format.bits = bits;
            wave_begin(&wave);
            wave_add_format(&wave, &format);
            add_data(2);
            bring_in();
        }
    }
    for (uint32_t bytes = 0; bytes < 40; bytes++) {
        wave_begin(&wave);
        add_format(bytes);
        add_data(2);
        bring_in();
        add_format(FORMAT_BYTES);
        bring_in();
        make_small();
        add_format(bytes);
        bring_in();
    }
}

/* Every choice among eight things that are wrong, so that the order in which
   they are asked shows. */
static void walk_answers(void)
{
    for (uint32_t wrong = 0; wrong < 256; wrong++) {
        struct wave_format format = wave_mono;
        size_t words = (wrong & 1) != 0 ? MOST_MEMORY_WORDS + 1 : ROOM;
        uint32_t bytes = (wrong & 2) != 0 ? 7 : 6;

        format.channels += wrong >> 2 & 1;
        wave_begin(&wave);
        wave_add_format(&wave, &format);
        if ((wrong & 8) != 0) {
            wave.bytes[wave.places[0]] = 'F';
        }
        add_data(bytes);
        if ((wrong & 16) != 0) {
            add_data(bytes);
        }
        add_loop(0, 1, (wrong & 32) != 0 ? 3 : 2);
        add_noise("LIST", 4);
        if ((wrong & 64) != 0) {
            wave.length -= 1;
        }
        (void)import_both(&wave, words, 0,
                          (wrong & 128) != 0 ? MOST_MEMORY_WORDS : 3);
    }
}

/* Few bytes of data in little memory. */
static void walk_samples(void)
{
    for (uint32_t bytes = 0; bytes < 10; bytes++) {
        wave_begin(&wave);
        add_data(bytes);
        add_format(FORMAT_BYTES);
        for (size_t words = 0; words < 8; words++) {
            for (size_t word = 0; word < 10; word++) {
                (void)import_both(&wave, words, word % 3, word);
            }
        }
    }
}

/* The words about a place, for a file of so many samples. */
static void walk_about(size_t place, size_t words, uint32_t samples)
{
    for (size_t near = 0; near < samples + 7; near++) {
        (void)import_both(&wave, words, near % 2, place + 3 - near);
    }
}

/* The ends of each memory and of each bank, and words so far off that their
   addresses come round: for samples without a loop, with one that ends with
   them, with one that does not; for no sample, and for one. */
static void walk_places(void)
{
    for (uint32_t kind = 0; kind < 5; kind++) {
        uint32_t samples = kind < 3 ? 6 : kind - 3;

        wave_begin(&wave);
        add_format(FORMAT_BYTES);
        add_data(2 * samples);
        if (kind == 1 || kind == 2) {
            add_loop(kind, 2, samples - kind);
        }
        for (uint32_t i = 0; i < COUNT(memory_lengths); i++) {
            size_t words = memory_lengths[i];

            walk_about(words, words, samples);
            for (size_t bank = 0; bank <= 5; bank++) {
                walk_about(bank * BANK_WORDS, words, samples);
            }
            for (uint32_t bit = 24; bit < 64; bit++) {
                walk_about((size_t)1 << bit, words, samples);
                walk_about(((size_t)1 << bit) + words, words, samples);
                walk_about((size_t)0 - ((size_t)1 << bit), words, samples);
            }
        }
    }
}

/* Files about the greatest length: of samples, of a chunk that is skipped, and
   of bytes behind the row. */
static void walk_long_files(void)
{
    for (uint32_t length = MOST_FILE_BYTES - 5; length < MOST_FILE_BYTES + 6;
         length++) {
        wave_begin(&wave);
        add_format(FORMAT_BYTES);
        add_data(length - wave.length - HEADER_BYTES);
        (void)import_both(&wave, MOST_FILE_BYTES, 0, 7);
        wave.length = length; /* an odd length stands without its pad */
        (void)import_both(&wave, MOST_FILE_BYTES, 0, 7);
        make_small();
        add_noise("LIST", length - wave.length - HEADER_BYTES);
        bring_in();
        wave.length = length;
        bring_in();
        make_small();
        while (wave.length < length) {
            wave.bytes[wave.length] = 0;
            wave.length += 1;
        }
        bring_in();
    }
}

void import_walks(void)
{
    import_start(0);
    random_seed(0);
    walk_cuts();
    walk_riff_lengths();
    walk_bytes();
    walk_chunk_lengths();
    walk_orders();
    walk_loops();
    walk_samplers();
    walk_short_samplers();
    walk_formats();
    walk_answers();
    walk_samples();
    walk_places();
    walk_long_files();
    import_end();
}

/* ==== random files ======================================================== */

#define FILES 500u /* of one seed */

static uint32_t any_samples(void)
{
    switch (random_below(16)) {
    case 0:
    case 1:
        return 0;
    case 2:
        return random_below(32760); /* what a file holds at the most */
    case 3:
    case 4:
        return random_below(2000);
    default:
        return 1 + random_below(60);
    }
}

/* Mostly a loop in so many samples: of one, of all, of some in the midst. */
static struct wave_loop any_loop(uint32_t samples)
{
    struct wave_loop loop = { random_below(3), 0, 0, random_word(),
                              random_word() };

    loop.end = random_once_in(3) ? samples - 1 : random_below(samples + 1);
    loop.start = random_once_in(3) ? loop.end
                                   : random_below(loop.end < samples
                                                      ? loop.end + 1
                                                      : samples + 1);
    switch (random_below(24)) {
    case 0:
        loop.type = random_once_in(2) ? 3 : random_word();
        break;
    case 1:
        loop.end = samples + random_below(3);
        break;
    case 2:
        loop.start = loop.end + 1 + random_below(3);
        break;
    case 3:
        loop.start = random_word();
        loop.end = random_word();
        break;
    }
    return loop;
}

static void add_any_format(void)
{
    static const struct wave_format others[] = {
        { 1, 2, 31250, 125000, 4, 16 },  { 1, 1, 31250, 31250, 1, 8 },
        { 1, 1, 31250, 93750, 3, 24 },   { 3, 1, 31250, 125000, 4, 32 },
        { 2, 1, 31250, 16000, 256, 4 },  { 0xFFFE, 1, 31250, 62500, 2, 16 },
        { 6, 1, 8000, 8000, 1, 8 },      { 1, 0, 31250, 62500, 2, 16 },
        { 1, 1, 31250, 62500, 2, 15 },
    };
    struct wave_format format = wave_mono;

    if (random_once_in(16)) {
        format = others[random_below(COUNT(others))];
    } else if (random_once_in(4)) {
        format.rate = random_word();
        format.rate_bytes = random_word();
        format.block_bytes = random_word();
    }
    wave_open(&wave, "fmt ");
    wave_put_format(&wave, &format);
    if (random_once_in(4)) {
        wave_put(&wave, random_word(), 1 + random_below(4));
    }
    wave_close(&wave);
}

/* Loops, and bytes of the maker's own behind them. */
static void add_any_sampler(uint32_t samples)
{
    struct wave_loop loops[4];
    uint32_t count = random_once_in(samples == 0 ? 1 : 6)
                         ? 0
                         : 1 + random_below(4);

    for (uint32_t i = 0; i < count; i++) {
        loops[i] = any_loop(samples);
    }
    wave_open(&wave, "smpl");
    wave_put_loops(&wave, loops, count, count);
    if (random_once_in(4)) {
        wave_put(&wave, random_word(), 1 + random_below(4));
    }
    wave_close(&wave);
}

/* Names that are skipped, some of them close to those that are not. */
static void add_any_other(void)
{
    static const char *const names[] = { "LIST", "fact", "cue ", "inst",
                                         "RIFF", "WAVE", "FMT ", "Data",
                                         "smpL", "fmt_", "dat ", "SMPL" };

    add_noise(names[random_below(COUNT(names))],
              random_below(random_once_in(4) ? 300 : 12));
}

enum part { FORMAT, DATA, SAMPLER, LATER, OTHER, AGAIN };

static void add_part(enum part part, uint32_t samples, int *sampled)
{
    switch (part) {
    case FORMAT:
        add_any_format();
        break;
    case DATA:
        add_data(2 * samples + (random_once_in(40) ? 1 : 0));
        break;
    case SAMPLER:
        if (!random_once_in(4)) {
            add_any_sampler(samples);
            *sampled = 1;
        }
        break;
    case LATER:
        /* Of any length, where one stands in front of it. */
        if (*sampled && random_once_in(2)) {
            add_noise("smpl", random_below(100));
        }
        break;
    case OTHER:
        if (random_once_in(2)) {
            add_any_other();
        }
        break;
    case AGAIN:
        /* One too many, maybe too short. */
        if (random_once_in(40)) {
            add_noise(random_once_in(2) ? "fmt " : "data", random_below(24));
        }
    }
}

/* The parts in any order. */
static void make_any(uint32_t samples)
{
    enum part parts[] = { FORMAT, DATA,  SAMPLER, LATER,
                          OTHER,  OTHER, AGAIN };
    int sampled = 0;

    wave_begin(&wave);
    for (uint32_t left = COUNT(parts); left > 0; left--) {
        uint32_t taken = random_below(left);

        add_part(parts[taken], samples, &sampled);
        parts[taken] = parts[left - 1];
    }
}

/* One file in three is left as it is, one in six is changed twice. */
static void change_any(void)
{
    uint32_t times = random_once_in(3) ? 0 : random_once_in(4) ? 2 : 1;

    for (uint32_t i = 0; i < times; i++) {
        enum wave_change change = random_below(WAVE_CHANGES);

        import_changes[change] += (unsigned long)wave_change(&wave, change);
    }
}

/* ==== random places ======================================================= */

/* In so little memory that the samples fill it, or one word less. */
static void in_little(uint32_t samples)
{
    size_t word = random_below(random_once_in(2) ? 3 : 40);
    size_t words = word + samples + random_below(3);

    if (random_once_in(6) && word + samples > 0) {
        words = word + samples - 1;
    }
    (void)import_both(&wave, words, random_below(MOST_IMPORT_BEHIND + 1), word);
}

/* About the end of a bank, with memory that ends there or not. */
static void about_a_bank(uint32_t samples)
{
    size_t edge = (1 + random_below(4)) * (size_t)BANK_WORDS;
    size_t words = random_once_in(2) ? MOST_MEMORY_WORDS
                                     : edge + random_below(3) - 1;
    size_t word = edge - samples + random_below(5) - 2;

    if (words > MOST_MEMORY_WORDS && !random_once_in(4)) {
        words = edge;
    }
    (void)import_both(&wave, words, random_below(2), word);
}

/* In any memory, also the one that is too long; about its end, about a bank's
   first word, or so far off that the address comes round. */
static void anywhere(uint32_t samples)
{
    size_t words = memory_lengths[random_below(COUNT(memory_lengths))];
    size_t word = words + random_below(5) - 2;

    switch (random_below(4)) {
    case 0:
        word -= samples;
        break;
    case 1:
        word = random_below(5) * (size_t)BANK_WORDS + random_below(9);
        break;
    case 2:
        word = (size_t)0 - 1 - random_below(2 * samples + 9);
        break;
    }
    if (random_once_in(8)) {
        word += (size_t)1 << (24 + random_below(40));
    }
    (void)import_both(&wave, words, random_below(3), word);
}

void import_random(uint64_t seed)
{
    import_start(seed);
    random_seed(seed);
    for (uint32_t file = 0; file < FILES; file++) {
        uint32_t samples = any_samples();

        make_any(samples);
        change_any();
        switch (random_below(8)) {
        case 0:
            anywhere(samples);
            break;
        case 1:
        case 2:
            about_a_bank(samples);
            break;
        default:
            in_little(samples);
        }
    }
    import_end();
}
