/*
 * Traces for two engines: walks through what can be listed, and random calls
 * that lean toward edges.
 */
#include "traces.h"

#include "otto.h"
#include "pair.h"
#include "random.h"
#include "reference.h"

#define WORDS OTTO_RECORD_WORDS
#define COUNT(list) (sizeof(list) / sizeof(list)[0])

static uint32_t kept[WORDS]; /* the bits of each word that a record may have */

static const size_t lengths[] = {
    0,           1,
    12,          VOICE_WORDS,
    WORD_PAGE,   WORD_PAGE + 1,
    WORD_SUMS,   WORDS - 2,
    WORDS - 1,   WORDS + 1,
    WORDS + 2,   WORDS + VOICE_WORDS,
    MOST_RECORD
};

static const size_t memory_lengths[] = {
    0,       1,       2,       3,       100,     2048,    65536,
    2097151, 2097152, 2097153, 4194303, 4194304, 4194305, 6291455,
    6291457, 8388607, 8388608, 8388609
};

static const size_t output_lengths[] = { 0, 1, 11, 13, 24, 32 };

/* ==== words put by the host =============================================== */

/* Makes the mask of waiting voices what the control registers say. */
static void tell_mask(void)
{
    pair_poke(WORD_WAITING, pair_flags());
}

static int is_control(uint32_t word)
{
    return word < WORD_PAGE && word % VOICE_WORDS == VOICE_CR;
}

/* With a control register the mask goes along, so that it stays true. */
static void poke_true(uint32_t word, uint32_t value)
{
    pair_poke(word, value);
    if (is_control(word)) {
        tell_mask();
    }
}

static void poke_kept(uint32_t word, uint32_t value)
{
    poke_true(word, value & kept[word]);
}

/* ==== values ============================================================== */

void trace_prepare(void)
{
    pair_start(0, 0);
    for (uint32_t word = 0; word < WORDS; word++) {
        uint32_t old = pair_word(word);

        for (uint32_t bit = 0; bit < 32; bit++) {
            poke_true(word, 1u << bit);
            if (pair_set_pot(WORDS, POT_LIMIT) == OTTO_DONE) {
                kept[word] |= 1u << bit;
            }
        }
        poke_true(word, old);
    }
}

/* Any word, often at an edge. */
static uint32_t any_word(void)
{
    switch (random_below(6)) {
    case 0:
        return 0;
    case 1:
        return 0xFFFFFFFFu;
    case 2:
        return 1u << random_below(32);
    case 3:
        return (1u << random_below(32)) - 1u;
    default:
        return random_word();
    }
}

/* A value that the word may have. */
static uint32_t valid_word(uint32_t word)
{
    if (word == WORD_IRQV) {
        return random_once_in(2) ? NO_INTERRUPT : random_below(VOICES);
    }
    if (word == WORD_WAITING) {
        return pair_flags();
    }
    return any_word() & kept[word];
}

/* An address close by another, or at an edge of the 32 bits. */
static uint32_t close_to(uint32_t address)
{
    switch (random_below(4)) {
    case 0:
        return address + random_below(9) - 4;
    case 1:
        return address + random_below(0x40000u) - 0x20000u;
    case 2:
        return random_once_in(2) ? random_below(0x1000u)
                                 : 0u - random_below(0x1000u);
    default:
        return address;
    }
}

/* ==== voices ============================================================== */

/* A voice at work: most of them run, close to their loop points. */
static void set_voice(uint32_t v)
{
    uint32_t first = v * VOICE_WORDS;
    uint32_t start = any_word();
    uint32_t end = random_once_in(3) ? any_word() : close_to(start);

    for (uint32_t word = first; word < first + VOICE_WORDS; word++) {
        poke_true(word, valid_word(word));
    }
    if (!random_once_in(5)) {
        poke_kept(first + VOICE_CR, random_word() & ~(CR_STP0 | CR_STP1));
    }
    poke_kept(first + VOICE_START, start);
    poke_kept(first + VOICE_END, end);
    poke_kept(first + VOICE_ACCUM, close_to(random_once_in(2) ? start : end));
    if (random_once_in(3)) {
        poke_kept(first + VOICE_FC, random_below(16));
    }
}

static void set_all_voices(void)
{
    for (uint32_t v = 0; v < VOICES; v++) {
        set_voice(v);
    }
}

/* The flags of all voices: CR_IRQ, or 0 for none. */
static void set_flags(uint32_t flag)
{
    for (uint32_t v = 0; v < VOICES; v++) {
        uint32_t word = v * VOICE_WORDS + VOICE_CR;

        poke_true(word, (pair_word(word) & ~CR_IRQ) | flag);
    }
}

/* ==== walks =============================================================== */

static void walk_codes(void)
{
    for (int32_t sample = -32768; sample <= 32767; sample++) {
        pair_compress((int16_t)sample);
    }
    for (uint32_t code = 0; code < 256; code++) {
        pair_expand((uint8_t)code);
    }
}

/* Each call but reset, with the record as it is. */
static void each_call(size_t words)
{
    uint8_t value = (uint8_t)random_word();
    size_t values;

    (void)pair_write(words, random_below(66), value);
    (void)pair_read(words, random_below(66));
    (void)pair_set_pot(words, random_below(1030));
    values = random_once_in(4) ? 11 : OTTO_OUTPUT_VALUES;
    (void)pair_frame(words, memory_lengths[random_below(COUNT(memory_lengths))],
                     values);
    (void)pair_waiting(words);
}

static void walk_lengths(void)
{
    for (size_t i = 0; i < COUNT(lengths); i++) {
        (void)pair_reset(lengths[i]);
        each_call(lengths[i]);
    }
    for (size_t i = 0; i < COUNT(memory_lengths); i++) {
        set_all_voices();
        (void)pair_frame(WORDS, memory_lengths[i], OTTO_OUTPUT_VALUES);
        for (size_t j = 0; j < COUNT(output_lengths); j++) {
            (void)pair_frame(WORDS, memory_lengths[i], output_lengths[j]);
        }
    }
}

/* Addresses and pot results about their limits, and far beyond. */
static void walk_limits(void)
{
    static const uint32_t far[] = { 255, 256, 1024, 0x80000000u, 0xFFFFFFFFu };

    for (uint32_t near = 0; near < 8; near++) {
        (void)pair_write(WORDS, ADDRESS_LIMIT - 3 + near, 0);
        (void)pair_read(WORDS, ADDRESS_LIMIT - 3 + near);
        (void)pair_set_pot(WORDS, POT_LIMIT - 3 + near);
    }
    for (size_t i = 0; i < COUNT(far); i++) {
        (void)pair_write(WORDS, far[i], 0);
        (void)pair_read(WORDS, far[i]);
        (void)pair_set_pot(WORDS, far[i]);
    }
}

/* Each bit that a word does not keep, of the mask each the other way, and each
   vector that is none. */
static void walk_damage(void)
{
    for (uint32_t word = 0; word < WORDS; word++) {
        uint32_t old = pair_word(word);

        for (uint32_t bit = 0; bit < 32; bit++) {
            if ((kept[word] >> bit) % 2 == 0) {
                pair_poke(word, old ^ 1u << bit);
                each_call(WORDS);
            }
        }
        pair_poke(word, old);
    }
    for (uint32_t vector = 0; vector < 260; vector++) {
        pair_poke(WORD_IRQV, vector);
        each_call(WORDS);
    }
    pair_poke(WORD_IRQV, NO_INTERRUPT);
}

/* A mask put by the host: where it is not what the control registers say, no
   call is done. */
static void try_mask(uint32_t mask)
{
    pair_poke(WORD_WAITING, mask);
    each_call(WORDS);
    tell_mask();
}

/* A flag the other way, and the mask as it was. */
static void try_flag(uint32_t v)
{
    uint32_t word = v * VOICE_WORDS + VOICE_CR;
    uint32_t old = pair_word(word);

    pair_poke(word, old ^ CR_IRQ);
    each_call(WORDS);
    pair_poke(word, old);
}

/* The flags of the active voices alone. */
static uint32_t active_flags(void)
{
    return pair_flags() & ((2u << pair_word(WORD_ACTV)) - 1u);
}

/* With each count of voices the mask as it is, each bit of it and each flag the
   other way, the flags of the active voices alone, those of the voices next to
   them, and none and all. */
static void walk_masks(void)
{
    for (uint32_t last = 0; last < VOICES; last++) {
        set_all_voices();
        pair_poke(WORD_ACTV, last);
        (void)pair_waiting(WORDS);
        for (uint32_t v = 0; v < VOICES; v++) {
            try_mask(pair_flags() ^ 1u << v);
            try_flag(v);
        }
        try_mask(active_flags());
        try_mask(pair_flags() << 1);
        try_mask(pair_flags() << 1 | pair_flags() >> 31);
        try_mask(pair_flags() >> 1);
        try_mask(0);
        try_mask(0xFFFFFFFFu);
    }
}

/* Each address, read while every voice waits, with each vector. */
static void walk_vectors(void)
{
    for (uint32_t v = 0; v <= VOICES; v++) {
        for (uint32_t address = 0; address < 64; address++) {
            set_flags(CR_IRQ);
            pair_poke(WORD_IRQV, v < VOICES ? v : NO_INTERRUPT);
            (void)pair_read(WORDS, address);
        }
    }
}

/* Each count of voices, with memory and output that are refused and that are
   not; and a record that is refused before its voices are counted. */
static void walk_voices(void)
{
    for (uint32_t last = 0; last < VOICES; last++) {
        set_all_voices();
        for (size_t i = 0; i < COUNT(memory_lengths); i++) {
            pair_poke(WORD_ACTV, last);
            (void)pair_frame(WORDS, memory_lengths[i], OTTO_OUTPUT_VALUES);
            (void)pair_frame(WORDS, memory_lengths[i], 11);
        }
        each_call(WORDS - 1);
        pair_poke(WORD_PAGE, 128);
        each_call(WORDS);
        pair_poke(WORD_PAGE, 0);
    }
}

/* Each address on each page, written and read whole, with a voice in the vector
   on some pages. */
static void walk_registers(void)
{
    for (uint32_t page = 0; page < 128; page++) {
        for (uint32_t address = 0; address < 64; address++) {
            pair_poke(WORD_PAGE, page);
            (void)pair_write(WORDS, address, (uint8_t)random_word());
        }
        pair_poke(WORD_IRQV, page % 2 == 0 ? page % 32 : NO_INTERRUPT);
        pair_poke(WORD_PAR, page);
        for (uint32_t address = 0; address < 64; address++) {
            pair_poke(WORD_PAGE, page);
            (void)pair_read(WORDS, address);
        }
    }
}

/* One voice close by its loop points, with the CR given. */
static void set_step(uint32_t v, uint32_t cr, uint32_t at)
{
    static const uint32_t starts[] = { 0, 2048, 0x80000000u, 0xFFFFF800u };
    static const uint32_t ends[] = { 0, 128, 10240, 0x80000080u, 0xFFFFFF80u };
    static const uint32_t steps[] = { 0, 1, 5, 2048, 0x1FFFFu };
    uint32_t first = v * VOICE_WORDS;
    uint32_t start = starts[at % COUNT(starts)];
    uint32_t end = ends[at / 4 % COUNT(ends)];
    uint32_t step = steps[at / 20 % COUNT(steps)];
    uint32_t side = (cr & CR_DIR) != 0 ? start + step : end - step;

    set_voice(v);
    poke_kept(first + VOICE_CR, cr);
    poke_kept(first + VOICE_START, start);
    poke_kept(first + VOICE_END, end);
    poke_kept(first + VOICE_FC, step);
    poke_kept(first + VOICE_ACCUM, side + at / 100 - 1);
}

/* Each of CR's low eight bits, at each edge: on it, one short, one past. */
static void walk_loops(void)
{
    pair_poke(WORD_ACTV, VOICES - 1);
    for (uint32_t cr = 0; cr < 256; cr++) {
        for (uint32_t at = 0; at < 300;) {
            for (uint32_t v = 0; v < VOICES; v++, at++) {
                set_step(v, cr | (random_word() & 0xFF00u), at % 300);
            }
            pair_poke(WORD_IRQV, NO_INTERRUPT);
            (void)pair_frame(WORDS, 65536, OTTO_OUTPUT_VALUES);
        }
    }
}

/* One voice at one of the words about the end of a memory or of a bank, at a
   whole sample or between two, plain or coded. It hardly moves, so that it is
   there in the next frame too. */
static void set_end(uint32_t v, uint32_t at, uint32_t words)
{
    uint32_t first = v * VOICE_WORDS;
    uint32_t bank = at % 4;
    uint32_t end = at / 4 % 2 == 0 ? 0 : words - bank * BANK_WORDS;
    uint32_t between = at / 8 % 2 == 0 ? 0 : random_below(2048);

    set_voice(v);
    poke_kept(first + VOICE_CR,
              bank * CR_BS0 | at / 16 % 2 * CR_CMPD | CR_LEI);
    poke_kept(first + VOICE_FC, random_below(16));
    poke_kept(first + VOICE_ACCUM, (end + at / 32 - 2) * 2048u + between);
}

/* Each such place, and with it that of the voice before. */
static void walk_ends(void)
{
    pair_poke(WORD_ACTV, VOICES - 1);
    for (size_t i = 0; i < COUNT(memory_lengths); i++) {
        for (uint32_t v = 0; v < VOICES; v++) {
            poke_kept(v * VOICE_WORDS + VOICE_CR, CR_STP0);
        }
        for (uint32_t at = 0; at < 4 * VOICES; at++) {
            set_end(at % VOICES, at, (uint32_t)memory_lengths[i]);
            poke_kept((at + VOICES - 2) % VOICES * VOICE_WORDS + VOICE_CR,
                      random_once_in(2) ? CR_STP0 : CR_STP1);
            (void)pair_frame(WORDS, memory_lengths[i], OTTO_OUTPUT_VALUES);
        }
    }
}

/* Each bank's first and last words, with memory that ends about there. */
static void walk_banks(void)
{
    pair_poke(WORD_ACTV, VOICES - 1);
    for (size_t i = 0; i < COUNT(memory_lengths); i++) {
        for (uint32_t v = 0; v < VOICES; v++) {
            uint32_t first = v * VOICE_WORDS;
            uint32_t edge = v / 4 % 4 < 2 ? 0u : 0u - 2048u * (v / 4 % 2 + 1);

            set_voice(v);
            poke_kept(first + VOICE_CR, v % 4 * CR_BS0 | v / 16 * CR_CMPD);
            poke_kept(first + VOICE_ACCUM, edge + random_below(2048));
        }
        (void)pair_frame(WORDS, memory_lengths[i], OTTO_OUTPUT_VALUES);
        (void)pair_frame(WORDS, memory_lengths[i], OTTO_OUTPUT_VALUES);
    }
}

void trace_walks(void)
{
    for (uint32_t behind = 0; behind <= MOST_BEHIND; behind++) {
        pair_start(0, behind);
        random_seed(0);
        walk_lengths();
        walk_limits();
        walk_damage();
        walk_masks();
        walk_vectors();
        walk_voices();
        walk_registers();
        walk_loops();
        walk_banks();
        walk_ends();
    }
    walk_codes();
}

/* ==== random calls ======================================================== */

#define ROUNDS   1000
#define LONG_RUN 2000 /* frames */

static size_t memory_words; /* lent in this trace */

static size_t any_length(void)
{
    return random_once_in(200) ? lengths[random_below(COUNT(lengths))] : WORDS;
}

static uint32_t any_address(void)
{
    return random_once_in(100) ? 64 + (any_word() & 0x7FFFFFFFu)
                               : random_below(64);
}

static void write_register(uint32_t number, uint32_t value)
{
    for (uint32_t byte = 0; byte < 4; byte++) {
        (void)pair_write(WORDS, 4 * number + byte,
                         (uint8_t)(value >> (24 - 8 * byte)));
    }
}

static void read_register(uint32_t number)
{
    for (uint32_t byte = 0; byte < 4; byte++) {
        (void)pair_read(WORDS, 4 * number + byte);
    }
}

/* Ten byte calls, in order or not, and who waits after them. */
static void bytes(void)
{
    uint32_t value = any_word();
    uint32_t address;

    write_register(random_once_in(4) ? 15 : random_below(16), value);
    read_register(random_below(16));
    value = any_word();
    address = any_address();
    (void)pair_write(any_length(), address, (uint8_t)value);
    address = any_address();
    (void)pair_read(any_length(), address);
    (void)pair_waiting(any_length());
}

/* A word put by the host, mostly one that the record may not have. Where it
   may, the calls are done, and may have changed flags. */
static void damage(void)
{
    uint32_t word = random_below(WORDS);
    uint32_t old = pair_word(word);

    pair_poke(word, any_word());
    each_call(any_length());
    pair_poke(word, old);
    tell_mask();
}

/* A mask or a flag put by the host, mostly not what the other says. */
static void damage_mask(void)
{
    switch (random_below(8)) {
    case 0:
        try_mask(active_flags());
        break;
    case 1:
        try_mask(pair_flags() << 1);
        break;
    case 2:
        try_mask(pair_flags() >> 1);
        break;
    case 3:
        try_mask(any_word());
        break;
    case 4:
    case 5:
        try_flag(random_below(VOICES));
        break;
    default:
        try_mask(pair_flags() ^ 1u << random_below(VOICES));
    }
}

/* As many voices as the calls before left active, or enough for a frame. */
static void enough_voices(void)
{
    if (pair_word(WORD_ACTV) < LEAST_ACTV) {
        pair_poke(WORD_ACTV, LEAST_ACTV + random_below(VOICES - LEAST_ACTV));
    }
}

/* Now and then one to five voices, of which all but five are too few. */
static void some_voices(void)
{
    if (random_once_in(8)) {
        pair_poke(WORD_ACTV, random_below(LEAST_ACTV + 1));
    } else {
        enough_voices();
    }
}

static void frames(uint32_t count)
{
    while (count > 0) {
        (void)pair_frame(WORDS, memory_words, OTTO_OUTPUT_VALUES);
        count -= 1;
    }
}

/* A host that asks who waits, and takes what the vector has after each frame;
   now and then from no flag on. */
static void take_interrupts(void)
{
    enough_voices();
    if (random_once_in(4)) {
        set_flags(0);
    }
    for (uint32_t i = random_below(8); i > 0; i--) {
        (void)pair_waiting(WORDS);
        frames(1);
        read_register(14);
    }
    (void)pair_waiting(WORDS);
}

static void other_calls(void)
{
    uint32_t word = random_below(WORDS);
    uint32_t pot = random_below(1030);

    (void)pair_set_pot(any_length(), pot);
    poke_true(word, valid_word(word));
    if (random_once_in(20)) {
        damage();
    }
    if (random_once_in(20)) {
        damage_mask();
    }
    if (random_once_in(20)) {
        take_interrupts();
    }
    if (random_once_in(20)) {
        size_t values = output_lengths[random_below(COUNT(output_lengths))];

        (void)pair_frame(any_length(), memory_words, values);
    }
    if (random_once_in(200)) {
        (void)pair_reset(any_length());
        set_all_voices();
    }
}

void trace_random(uint64_t seed)
{
    pair_start(seed, (uint32_t)(seed % (MOST_BEHIND + 1)));
    random_seed(seed);
    memory_words = memory_lengths[random_below(COUNT(memory_lengths) - 1)];
    set_all_voices();
    for (int round = 0; round < ROUNDS; round++) {
        bytes();
        if (random_once_in(20)) {
            set_voice(random_below(VOICES));
            some_voices();
            frames(random_below(4));
        }
        if (random_once_in(5)) {
            other_calls();
        }
    }
    set_all_voices();
    enough_voices();
    /* Each 17th trace is long, so that long ones have all four alignments. */
    frames(seed % 17 == 0 ? LONG_RUN : 20);
}
