/*
 * The reference model: each rule in the order and words it is written in,
 * over 64-bit numbers, so that what is compared with it is compared with
 * something that can be read.
 */
#include "reference.h"

/* ==== the record: which bits each word may hold ========================== */

static const uint32_t voice_kept[VOICE_WORDS] = {
    0x0000FFFFu, /* CR */
    0x0001FFFFu, /* FC */
    0x0000FFFFu, /* LVOL */
    0x0000FF00u, /* LVRAMP */
    0x0000FFFFu, /* RVOL */
    0x0000FF00u, /* RVRAMP */
    0x000001FFu, /* ECOUNT */
    0x0000FFFFu, /* K2 */
    0x0000FF01u, /* K2RAMP */
    0x0000FFFFu, /* K1 */
    0x0000FF01u, /* K1RAMP */
    0xFFFFF800u, /* START */
    0xFFFFFF80u, /* END */
    0xFFFFFFFFu, /* ACCUM */
    0x0003FFFFu, /* O4(n-1) */
    0x0003FFFFu, /* O3(n-1) */
    0x0003FFFFu, /* O3(n-2) */
    0x0003FFFFu, /* O2(n-1) */
    0x0003FFFFu, /* O2(n-2) */
    0x0003FFFFu  /* O1(n-1) */
};

static const uint32_t shared_kept[RECORD_WORDS - WORD_PAGE] = {
    0x0000007Fu, /* PAGE */
    0x000000FFu, /* IRQV; not every value of these bits, see record_is_valid */
    0x000003FFu, /* PAR */
    0x0000001Fu, /* ACTV */
    0x0000001Fu, /* MODE */
    0x0000007Fu, /* W_ST */
    0x0000007Fu, /* W_END */
    0x0000007Fu, /* LR_END */
    0x00000007u, /* slow-ramp counter */
    0xFFFFFFFFu, /* write latch */
    0xFFFFFFFFu, /* read latch */
    0x007FFFFFu, 0x007FFFFFu, /* channel 0, left and right */
    0x007FFFFFu, 0x007FFFFFu, /* channel 1 */
    0x007FFFFFu, 0x007FFFFFu, /* channel 2 */
    0x007FFFFFu, 0x007FFFFFu, /* channel 3 */
    0x007FFFFFu, 0x007FFFFFu, /* channel 4 */
    0x007FFFFFu, 0x007FFFFFu, /* channel 5 */
    0xFFFFFFFFu  /* waiting voices; one value only, see record_is_valid */
};

#define FILTER_BITS  18u
#define CHANNEL_BITS 23u

static uint32_t kept_bits(uint32_t word)
{
    return word < WORD_PAGE ? voice_kept[word % VOICE_WORDS]
                            : shared_kept[word - WORD_PAGE];
}

/* The voices that wait, by the control registers alone: each of the 32 whose
   IRQ bit is set, active or not, adds 2 to the power of its number. */
static uint32_t waiting_voices(const uint32_t *record)
{
    uint64_t weight = 1;
    uint64_t mask = 0;
    uint32_t voice;

    for (voice = 0; voice < VOICES; voice++) {
        if ((record[voice * VOICE_WORDS + VOICE_CR] & CR_IRQ) != 0) {
            mask += weight;
        }
        weight *= 2;
    }
    return (uint32_t)mask;
}

/* The mask is made anew after whatever may have changed a flag. */
static void remake_mask(uint32_t *record)
{
    record[WORD_WAITING] = waiting_voices(record);
}

static int record_is_valid(const uint32_t *record)
{
    uint32_t word;

    for (word = 0; word < RECORD_WORDS; word++) {
        if ((record[word] & ~kept_bits(word)) != 0) {
            return 0;
        }
    }
    /* The interrupt vector is a voice number or the sign for none. */
    if (record[WORD_IRQV] >= VOICES && record[WORD_IRQV] != NO_INTERRUPT) {
        return 0;
    }
    /* The mask says what the control registers say. */
    return record[WORD_WAITING] == waiting_voices(record);
}

/* Answers 1 and 2, which come first in every operation but reset. */
static uint32_t ask_record(const uint32_t *record, size_t words)
{
    if (words != RECORD_WORDS) {
        return ANSWER_RECORD_LENGTH;
    }
    if (!record_is_valid(record)) {
        return ANSWER_RECORD_INVALID;
    }
    return ANSWER_DONE;
}

/* ==== whole-number helpers =============================================== */

int64_t reference_divide(int64_t value, int64_t divisor)
{
    int64_t quotient = value / divisor;

    /* C cuts toward zero: one less when something negative was cut off. */
    if (value % divisor < 0) {
        quotient -= 1;
    }
    return quotient;
}

int64_t reference_remainder(int64_t value, int64_t divisor)
{
    int64_t rest = value % divisor;

    if (rest < 0) {
        rest += divisor;
    }
    return rest;
}

static int64_t power_of_two(uint32_t exponent)
{
    int64_t power = 1;

    while (exponent > 0) {
        power *= 2;
        exponent -= 1;
    }
    return power;
}

/* The number that the low bits of a word mean in two's complement. */
static int64_t signed_from_bits(uint32_t word, uint32_t bits)
{
    int64_t value = (int64_t)word;

    if (value >= power_of_two(bits - 1)) {
        value -= power_of_two(bits);
    }
    return value;
}

/* The low bits of a number, as a word whose upper bits are 0. */
static uint32_t bits_from_signed(int64_t value, uint32_t bits)
{
    return (uint32_t)reference_remainder(value, power_of_two(bits));
}

static int64_t hold(int64_t value, int64_t least, int64_t greatest)
{
    if (value < least) {
        return least;
    }
    if (value > greatest) {
        return greatest;
    }
    return value;
}

/* ==== reset ============================================================== */

uint32_t reference_reset(uint32_t *record, size_t words)
{
    uint32_t word;
    uint32_t voice;

    /* The length is asked, the old contents are not. */
    if (words != RECORD_WORDS) {
        return ANSWER_RECORD_LENGTH;
    }
    for (word = 0; word < RECORD_WORDS; word++) {
        record[word] = 0;
    }
    for (voice = 0; voice < VOICES; voice++) {
        record[voice * VOICE_WORDS + VOICE_CR] = CR_STP0 | CR_STP1;
    }
    record[WORD_IRQV] = NO_INTERRUPT;
    record[WORD_PAR] = 1023;
    record[WORD_ACTV] = 31;
    record[WORD_MODE] = 23;
    return ANSWER_DONE;
}

/* ==== registers by byte ================================================== */

#define REGISTER_PAR  13u
#define REGISTER_IRQV 14u
#define REGISTER_PAGE 15u
#define NO_WORD       RECORD_WORDS /* the place has no word behind it */

/* Pages of a voice's lower half. */
static uint32_t word_of_lower(uint32_t page, uint32_t number)
{
    if (number == 11) {
        return WORD_ACTV;
    }
    if (number == 12) {
        return WORD_MODE;
    }
    return page * VOICE_WORDS + number;
}

/* Pages of a voice's upper half; CR shows here too. */
static uint32_t word_of_upper(uint32_t page, uint32_t number)
{
    static const uint32_t words[10] = {
        VOICE_CR,    VOICE_START, VOICE_END,   VOICE_ACCUM, VOICE_O4_N1,
        VOICE_O3_N1, VOICE_O3_N2, VOICE_O2_N1, VOICE_O2_N2, VOICE_O1_N1
    };

    if (number == 10) {
        return WORD_W_ST;
    }
    if (number == 11) {
        return WORD_W_END;
    }
    if (number == 12) {
        return WORD_LR_END;
    }
    return (page - 32) * VOICE_WORDS + words[number];
}

/* The record word that a page and a register number stand for. None stands for
   the mask of waiting voices. */
static uint32_t word_of_register(uint32_t page, uint32_t number)
{
    /* The same three on every page. */
    if (number == REGISTER_PAR) {
        return WORD_PAR;
    }
    if (number == REGISTER_IRQV) {
        return WORD_IRQV;
    }
    if (number == REGISTER_PAGE) {
        return WORD_PAGE;
    }
    if (page <= 31) {
        return word_of_lower(page, number);
    }
    if (page <= 63) {
        return word_of_upper(page, number);
    }
    /* Channel sums, and one empty place. */
    return number <= 11 ? WORD_SUMS + number : NO_WORD;
}

/* Byte 0 is the highest of the four. */
static uint32_t byte_weight(uint32_t byte)
{
    static const uint32_t weights[4] = { 0x1000000u, 0x10000u, 0x100u, 1u };

    return weights[byte];
}

uint32_t reference_write(uint32_t *record, size_t words, uint32_t address,
                         uint8_t value)
{
    uint32_t number;
    uint32_t byte;
    uint32_t weight;
    uint32_t latch;
    uint32_t word;
    uint32_t answer = ask_record(record, words);

    if (answer != ANSWER_DONE) {
        return answer;
    }
    if (address > ADDRESS_LIMIT) {
        return ANSWER_ADDRESS;
    }
    number = address / 4;
    byte = address % 4;

    /* The byte takes its place in the one write latch. */
    weight = byte_weight(byte);
    latch = record[WORD_WRITE_LATCH];
    latch = (latch & ~(0xFFu * weight)) | ((uint32_t)value * weight);

    /* Bytes 0 to 2 go no further. */
    if (byte != 3) {
        record[WORD_WRITE_LATCH] = latch;
        return ANSWER_DONE;
    }

    /* Byte 3 stores what the register keeps and empties the latch; places
       that the host cannot write only see the latch emptied. */
    word = word_of_register(record[WORD_PAGE], number);
    if (word != WORD_PAR && word != WORD_IRQV && word != NO_WORD) {
        record[word] = latch & kept_bits(word);
        remake_mask(record); /* the word may be a control register */
    }
    record[WORD_WRITE_LATCH] = 0;
    return ANSWER_DONE;
}

/* Byte 0 of a register is read: all of it goes in the read latch. */
static void take_register(uint32_t *record, uint32_t word)
{
    /* The channels and the empty place show as 0. */
    if (word == NO_WORD || word >= WORD_SUMS) {
        record[WORD_READ_LATCH] = 0;
    } else {
        record[WORD_READ_LATCH] = record[word];
    }

    /* Taking the pot result makes the register full scale again. */
    if (word == WORD_PAR) {
        record[WORD_PAR] = 1023;
    }

    /* Taking the interrupt that is in the vector clears its voice's flag and
       frees the vector. */
    if (word == WORD_IRQV && record[WORD_IRQV] < VOICES) {
        record[record[WORD_IRQV] * VOICE_WORDS + VOICE_CR] &= ~CR_IRQ;
        record[WORD_IRQV] = NO_INTERRUPT;
        remake_mask(record);
    }
}

uint32_t reference_read(uint32_t *record, size_t words, uint32_t address,
                        uint8_t *byte)
{
    uint32_t number;
    uint32_t place;
    uint32_t answer = ask_record(record, words);

    *byte = 0;
    if (answer != ANSWER_DONE) {
        return answer;
    }
    if (address > ADDRESS_LIMIT) {
        return ANSWER_ADDRESS;
    }
    number = address / 4;
    place = address % 4;
    if (place == 0) {
        take_register(record, word_of_register(record[WORD_PAGE], number));
    }

    /* Every byte comes out of the read latch. */
    *byte = (uint8_t)(record[WORD_READ_LATCH] / byte_weight(place) % 256);
    return ANSWER_DONE;
}

/* ==== pot result ========================================================= */

uint32_t reference_set_pot(uint32_t *record, size_t words, uint32_t pot)
{
    uint32_t answer = ask_record(record, words);

    if (answer != ANSWER_DONE) {
        return answer;
    }
    if (pot > POT_LIMIT) {
        return ANSWER_POT;
    }
    record[WORD_PAR] = pot;
    return ANSWER_DONE;
}

/* ==== one frame ========================================================== */

/* -- sample -- */

/* One sample as a signed 16-bit number. */
static int64_t fetch(const uint16_t *memory, size_t memory_words,
                     uint32_t bank, uint32_t index, int compressed)
{
    uint32_t position = bank * BANK_WORDS + index;
    uint32_t word = 0; /* what lies beyond the lent memory */

    if (position < memory_words) {
        word = memory[position];
    }
    if (compressed) {
        /* Only the high byte counts. */
        return reference_expand((uint8_t)(word / 256));
    }
    return signed_from_bits(word, 16);
}

int64_t reference_interpolate(int64_t s1, int64_t s2, int64_t fraction)
{
    return 4 * s1 + reference_divide(fraction * (s2 - s1), 128);
}

/* The filter input of a running voice. */
static int64_t sample_input(const uint32_t *voice, const uint16_t *memory,
                            size_t memory_words)
{
    uint32_t accum = voice[VOICE_ACCUM];
    uint32_t index = accum / 2048;
    uint32_t bank = voice[VOICE_CR] / 16384;
    int compressed = (voice[VOICE_CR] & CR_CMPD) != 0;
    int64_t s1 = fetch(memory, memory_words, bank, index, compressed);
    /* The neighbour of a bank's last word is the same bank's first. */
    int64_t s2 = fetch(memory, memory_words, bank, (index + 1) % BANK_WORDS,
                       compressed);
    int64_t fraction = (int64_t)(accum % 2048 / 4);

    return reference_interpolate(s1, s2, fraction);
}

/* -- filters -- */

int64_t reference_low_pass(int64_t k, int64_t x, int64_t yp)
{
    return yp + reference_divide(k * (x - yp), 4096);
}

int64_t reference_high_pass(int64_t k, int64_t x, int64_t xp, int64_t yp)
{
    int64_t y = x - xp + reference_divide((4096 + k) * yp, 8192);

    return hold(y, -131072, 131071);
}

/* Pole 3, of the kind that LP4 and LP3 choose. A high pass takes the last
   output of the pole before it as its own last input. */
static int64_t pole_3(const uint32_t *old, int64_t x, int64_t xp, int64_t yp)
{
    int64_t k1 = (int64_t)(old[VOICE_K1] / 16);
    int64_t k2 = (int64_t)(old[VOICE_K2] / 16);

    if ((old[VOICE_CR] & CR_LP3) != 0) {
        return reference_low_pass(k1, x, yp);
    }
    if ((old[VOICE_CR] & CR_LP4) != 0) {
        return reference_low_pass(k2, x, yp);
    }
    return reference_high_pass(k2, x, xp, yp);
}

/* Pole 4, of the kind that LP4 chooses. */
static int64_t pole_4(const uint32_t *old, int64_t x, int64_t xp, int64_t yp)
{
    int64_t k2 = (int64_t)(old[VOICE_K2] / 16);

    if ((old[VOICE_CR] & CR_LP4) != 0) {
        return reference_low_pass(k2, x, yp);
    }
    return reference_high_pass(k2, x, xp, yp);
}

/* Four poles in a row; stores the filter words and gives pole 4's output. */
static int64_t run_filters(const uint32_t *old, uint32_t *voice, int64_t x)
{
    int64_t k1 = (int64_t)(old[VOICE_K1] / 16);
    int64_t old_o1 = signed_from_bits(old[VOICE_O1_N1], FILTER_BITS);
    int64_t old_o2 = signed_from_bits(old[VOICE_O2_N1], FILTER_BITS);
    int64_t old_o3 = signed_from_bits(old[VOICE_O3_N1], FILTER_BITS);
    int64_t old_o4 = signed_from_bits(old[VOICE_O4_N1], FILTER_BITS);
    int64_t o1 = reference_low_pass(k1, x, old_o1);
    int64_t o2 = reference_low_pass(k1, o1, old_o2);
    int64_t o3 = pole_3(old, o2, old_o2, old_o3);
    int64_t o4 = pole_4(old, o3, old_o3, old_o4);

    /* New outputs in the (n-1) words, the former ones in the (n-2) words. */
    voice[VOICE_O1_N1] = bits_from_signed(o1, FILTER_BITS);
    voice[VOICE_O2_N1] = bits_from_signed(o2, FILTER_BITS);
    voice[VOICE_O3_N1] = bits_from_signed(o3, FILTER_BITS);
    voice[VOICE_O4_N1] = bits_from_signed(o4, FILTER_BITS);
    voice[VOICE_O2_N2] = old[VOICE_O2_N1];
    voice[VOICE_O3_N2] = old[VOICE_O3_N1];
    return o4;
}

/* -- volume -- */

int64_t reference_volume(int64_t o, uint32_t volume)
{
    int64_t mantissa = (int64_t)(volume / 16 % 256);
    uint32_t exponent = volume / 4096;
    int64_t product = reference_divide(o * (256 + mantissa), 32);

    return reference_divide(product, power_of_two(15 - exponent));
}

uint32_t reference_add_to_sum(uint32_t sum, int64_t value)
{
    return bits_from_signed((int64_t)sum + value, CHANNEL_BITS);
}

static void add_volume(const uint32_t *old, uint32_t *record, int64_t o4)
{
    uint32_t channel = old[VOICE_CR] / CR_CA0 % 8;
    int64_t o = reference_divide(o4, 4);
    uint32_t *sums;

    /* There are six channels; the two other numbers go nowhere. */
    if (channel > 5) {
        return;
    }
    sums = record + WORD_SUMS + 2 * channel;
    sums[0] = reference_add_to_sum(sums[0],
                                   reference_volume(o, old[VOICE_LVOL]));
    sums[1] = reference_add_to_sum(sums[1],
                                   reference_volume(o, old[VOICE_RVOL]));
}

/* -- address -- */

/* A loop event: the loop point was passed by d. forward is 1 or -1; other is
   the point at the loop's far side. */
static void loop_event(const uint32_t *old, uint32_t *voice, int64_t point,
                       int64_t other, int64_t d, int64_t forward)
{
    uint32_t cr = old[VOICE_CR];
    int ble = (cr & CR_BLE) != 0;
    int lpe = (cr & CR_LPE) != 0;

    if (!ble && !lpe) {
        /* No loop: rest on the point. */
        voice[VOICE_ACCUM] = bits_from_signed(point, 32);
        cr |= CR_STP0;
    } else if (!ble && lpe) {
        /* One-directional: on from the other point. */
        voice[VOICE_ACCUM] = bits_from_signed(other + forward * d, 32);
    } else if (ble && !lpe) {
        /* Trans-wave: jump once, then run free. */
        voice[VOICE_ACCUM] = bits_from_signed(other + forward * d, 32);
        cr &= ~CR_BLE;
        cr |= CR_LEI;
    } else {
        /* Bi-directional: turn about at the point. */
        voice[VOICE_ACCUM] = bits_from_signed(point - forward * d, 32);
        cr ^= CR_DIR;
    }
    /* Flag it if the voice may interrupt. */
    if ((cr & CR_IRQE) != 0) {
        cr |= CR_IRQ;
    }
    voice[VOICE_CR] = cr;
}

static void move_address(const uint32_t *old, uint32_t *voice)
{
    int ignore = (old[VOICE_CR] & CR_LEI) != 0;
    int reverse = (old[VOICE_CR] & CR_DIR) != 0;
    int64_t start = (int64_t)old[VOICE_START];
    int64_t end = (int64_t)old[VOICE_END];
    int64_t accum = (int64_t)old[VOICE_ACCUM];
    int64_t fc = (int64_t)old[VOICE_FC];
    int64_t t = reverse ? accum - fc : accum + fc; /* not yet wrapped */

    if (!ignore && !reverse && t > end) {
        loop_event(old, voice, end, start, t - end, 1);
    } else if (!ignore && reverse && t < start) {
        loop_event(old, voice, start, end, start - t, -1);
    } else {
        voice[VOICE_ACCUM] = bits_from_signed(t, 32);
    }
}

/* -- ramps -- */

uint32_t reference_ramp(uint32_t value, uint32_t ramp)
{
    int64_t step = signed_from_bits(ramp / 256 % 256, 8);

    return (uint32_t)hold((int64_t)value + step, 0, 65535);
}

/* A coefficient with the slow bit moves in one frame of eight only. */
static uint32_t ramp_coefficient(uint32_t value, uint32_t ramp, uint32_t slow)
{
    if (ramp % 2 == 1 && slow != 0) {
        return value;
    }
    return reference_ramp(value, ramp);
}

static void run_ramps(const uint32_t *old, uint32_t *voice, uint32_t slow)
{
    if (old[VOICE_ECOUNT] == 0) {
        return;
    }
    voice[VOICE_LVOL] = reference_ramp(old[VOICE_LVOL], old[VOICE_LVRAMP]);
    voice[VOICE_RVOL] = reference_ramp(old[VOICE_RVOL], old[VOICE_RVRAMP]);
    voice[VOICE_K1] =
        ramp_coefficient(old[VOICE_K1], old[VOICE_K1RAMP], slow);
    voice[VOICE_K2] =
        ramp_coefficient(old[VOICE_K2], old[VOICE_K2RAMP], slow);
    voice[VOICE_ECOUNT] = old[VOICE_ECOUNT] - 1;
}

/* -- a voice's turn, and the whole frame -- */

static void run_voice(uint32_t *record, uint32_t number,
                      const uint16_t *memory, size_t memory_words)
{
    uint32_t *voice = record + number * VOICE_WORDS;
    uint32_t old[VOICE_WORDS]; /* the registers as the turn begins */
    int running;
    int64_t x = 0; /* what a stopped voice feeds its filters */
    int64_t o4;
    uint32_t word;

    for (word = 0; word < VOICE_WORDS; word++) {
        old[word] = voice[word];
    }
    running = (old[VOICE_CR] & (CR_STP0 | CR_STP1)) == 0;

    /* Sample, then filters; the filters work in stopped voices as well. */
    if (running) {
        x = sample_input(old, memory, memory_words);
    }
    o4 = run_filters(old, voice, x);

    /* Volume, address and ramps are for running voices. */
    if (running) {
        add_volume(old, record, o4);
        move_address(old, voice);
        run_ramps(old, voice, record[WORD_SLOW]);
    }

    /* A flagged voice takes the vector if that is free. */
    if ((voice[VOICE_CR] & CR_IRQ) != 0 &&
        record[WORD_IRQV] == NO_INTERRUPT) {
        record[WORD_IRQV] = number;
    }
}

/* The words that a voice asks for and the lent memory does not have. Both of a
   running voice count, each by its own place, whether it is heard or not. */
static uint32_t missing_words(const uint32_t *voice, size_t memory_words)
{
    uint32_t base = voice[VOICE_CR] / 16384 * BANK_WORDS;
    uint32_t index = voice[VOICE_ACCUM] / 2048;
    uint32_t missing = 0;

    if ((voice[VOICE_CR] & (CR_STP0 | CR_STP1)) != 0) {
        return 0;
    }
    if (base + index >= memory_words) {
        missing += 1;
    }
    if (base + (index + 1) % BANK_WORDS >= memory_words) {
        missing += 1;
    }
    return missing;
}

int32_t reference_output_value(uint32_t sum)
{
    return (int32_t)hold(signed_from_bits(sum, CHANNEL_BITS), -524288,
                         524287);
}

uint32_t reference_frame(uint32_t *record, size_t words,
                         const uint16_t *memory, size_t memory_words,
                         int32_t *output, size_t output_values,
                         uint32_t *missing)
{
    uint32_t number;
    uint32_t place;
    uint32_t answer = ask_record(record, words);

    *missing = 0;
    if (answer != ANSWER_DONE) {
        return answer;
    }
    if (record[WORD_ACTV] < LEAST_ACTV) {
        return ANSWER_TOO_FEW_VOICES;
    }
    if (memory_words > MOST_MEMORY_WORDS) {
        return ANSWER_MEMORY_LENGTH;
    }
    if (output_values != OUTPUT_VALUES) {
        return ANSWER_OUTPUT_LENGTH;
    }

    /* By the registers as the frame begins, before any voice has a turn. */
    for (number = 0; number <= record[WORD_ACTV]; number++) {
        *missing += missing_words(record + number * VOICE_WORDS, memory_words);
    }

    /* The active voices, lowest first. */
    for (number = 0; number <= record[WORD_ACTV]; number++) {
        run_voice(record, number, memory, memory_words);
    }
    remake_mask(record); /* loop events may have set flags */

    /* The sums go out, held to 20 bits, and start again from 0. */
    for (place = 0; place < OUTPUT_VALUES; place++) {
        output[place] = reference_output_value(record[WORD_SUMS + place]);
        record[WORD_SUMS + place] = 0;
    }

    record[WORD_SLOW] = (record[WORD_SLOW] + 1) % 8;
    return ANSWER_DONE;
}

/* ==== the waiting voices ================================================= */

uint32_t reference_waiting(const uint32_t *record, size_t words,
                           uint32_t *mask)
{
    uint32_t answer = ask_record(record, words);

    *mask = 0;
    if (answer != ANSWER_DONE) {
        return answer;
    }
    *mask = record[WORD_WAITING];
    return ANSWER_DONE;
}

/* ==== compressed samples ================================================= */

int16_t reference_expand(uint8_t code)
{
    uint32_t e = (uint32_t)code / 32;
    int64_t m = (int64_t)code % 32;

    if (e >= 1) {
        /* The lower half of the mantissas is the negative one. */
        if (m < 16) {
            m -= 32;
        }
        return (int16_t)(power_of_two(3 + e) * m);
    }
    /* With exponent 0 the mantissa is an ordinary signed number. */
    if (m >= 16) {
        m -= 32;
    }
    return (int16_t)(16 * m);
}

uint8_t reference_compress(int16_t sample)
{
    uint32_t code;
    uint32_t best = 0;
    int found = 0;

    /* Of all codes, the one whose value is greatest without passing the
       sample. No two codes have one value. */
    for (code = 0; code < 256; code++) {
        int16_t value = reference_expand((uint8_t)code);

        if (value <= sample &&
            (!found || value > reference_expand((uint8_t)best))) {
            best = code;
            found = 1;
        }
    }
    return (uint8_t)best;
}
