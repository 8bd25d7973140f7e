/*
 * Checks the reference model against known figures: the table of checked
 * figures in the rules, the manual's examples of compressed samples, the
 * refusals and their order, the mask of waiting voices, and the places where
 * the wording could be taken in two ways. Those of WAVE files are in
 * wave_figures.c.
 *
 * Record words are mostly written as plain numbers here, so that the names in
 * the header are checked too.
 */
#include <stdio.h>
#include <string.h>

#include "checks.h"
#include "reference.h"
#include "wave_figures.h"

/* ==== the bench =========================================================== */

#define ALL (RECORD_WORDS + 1)       /* a record and one word more */

static uint32_t rec[ALL];
static uint32_t before[ALL];
static int32_t out[13];
static uint32_t missing;            /* words, in the last frame */
static uint16_t loud[16];           /* every word 32767 */
static uint16_t whole[8388608];     /* the longest memory */

#define W(voice, word) rec[20u * (voice) + (word)]

static void fresh(void)
{
    memset(rec, 0, sizeof rec);
    (void)reference_reset(rec, RECORD_WORDS);
    memset(out, 0, sizeof out);
}

static uint32_t frame(const uint16_t *memory, size_t length)
{
    return reference_frame(rec, RECORD_WORDS, memory, length, out, 12,
                           &missing);
}

static uint32_t put(uint32_t address, uint32_t value)
{
    return reference_write(rec, RECORD_WORDS, address, (uint8_t)value);
}

static uint32_t get(uint32_t address)
{
    uint8_t byte = 0xEE;

    (void)reference_read(rec, RECORD_WORDS, address, &byte);
    return byte;
}

/* The four bytes of one register, highest first. */
static void put_register(uint32_t number, uint32_t value)
{
    (void)put(4 * number, value / 0x1000000u % 256);
    (void)put(4 * number + 1, value / 0x10000u % 256);
    (void)put(4 * number + 2, value / 0x100u % 256);
    (void)put(4 * number + 3, value % 256);
}

static uint32_t get_register(uint32_t number)
{
    uint32_t value = get(4 * number);

    value = value * 256 + get(4 * number + 1);
    value = value * 256 + get(4 * number + 2);
    return value * 256 + get(4 * number + 3);
}

/* Makes the mask what the control registers say, after one with a flag was put
   by hand. */
static void tell_mask(void)
{
    uint32_t voice;

    rec[663] = 0;
    for (voice = 0; voice < 32; voice++) {
        rec[663] |= (W(voice, 0) / 0x80 % 2) << voice;
    }
}

static void keep(void)
{
    memcpy(before, rec, sizeof rec);
}

/* The first word that is not as it was kept, or ALL. */
static uint32_t first_change(void)
{
    uint32_t word;

    for (word = 0; word < ALL; word++) {
        if (rec[word] != before[word]) {
            break;
        }
    }
    return word;
}

static uint32_t count_changes(void)
{
    uint32_t word;
    uint32_t count = 0;

    for (word = 0; word < ALL; word++) {
        if (rec[word] != before[word]) {
            count += 1;
        }
    }
    return count;
}

/* A voice that stays still on a sample, with filters settled on it. Given
   o 32767 and LVOL, RVOL FFF0 it adds 523248 to both sides. */
static void steady(uint32_t voice, int32_t sample, uint32_t cr)
{
    uint32_t level = (uint32_t)(4 * sample + 262144) % 262144;

    W(voice, 0) = 0x0300u | cr; /* poles 3 and 4 low pass */
    W(voice, 1) = 0;
    W(voice, 2) = 0xFFF0u;
    W(voice, 4) = 0xFFF0u;
    W(voice, 7) = 0xFFF0u;
    W(voice, 9) = 0xFFF0u;
    W(voice, 11) = 0;
    W(voice, 12) = 0xFFFFFF80u;
    W(voice, 13) = 0;
    W(voice, 14) = level;
    W(voice, 15) = level;
    W(voice, 16) = level;
    W(voice, 17) = level;
    W(voice, 18) = level;
    W(voice, 19) = level;
}

/* One frame of the address step alone, in voice 0. */
static void step(uint32_t cr, uint32_t start, uint32_t end, uint32_t accum,
                 uint32_t fc)
{
    fresh();
    W(0, 0) = cr;
    W(0, 1) = fc;
    W(0, 11) = start;
    W(0, 12) = end;
    W(0, 13) = accum;
    check("address step is done", frame(NULL, 0), 0);
}

/* ==== the checked figures ================================================= */

static void figure_1_and_2(void)
{
    check("figure 1: FF", reference_expand(0xFF), 31744);
    check("figure 1: 10", reference_expand(0x10), -256);
    check("figure 1: 0F", reference_expand(0x0F), 240);
    check("figure 1: 1F", reference_expand(0x1F), -16);
    check("figure 2: -17", reference_compress(-17), 0x1E);
    check("figure 2: 256", reference_compress(256), 0x30);
}

/* Tells the filter input apart through pole 1: with k 4095 the pole stays
   where it is for inputs 0 or 1 above, and moves by 1 for 2 above. */
static uint32_t pole_1(uint16_t s1, uint16_t s2, uint32_t yp)
{
    uint16_t pair[2];

    pair[0] = s1;
    pair[1] = s2;
    fresh();
    steady(0, 0, 0);
    W(0, 13) = 511 * 4; /* word 0, F 511 */
    W(0, 19) = yp;
    (void)frame(pair, 2);
    return W(0, 19);
}

static void figure_3(void)
{
    check("figure 3: rising", reference_interpolate(100, 101, 511), 403);
    check("figure 3: falling", reference_interpolate(101, 100, 511), 400);
    check("figure 3: rising, 403 or 404", pole_1(100, 101, 403), 403);
    check("figure 3: rising, 402 or 403", pole_1(100, 101, 402), 402);
    check("figure 3: falling, 400 or 401", pole_1(101, 100, 400), 400);
    check("figure 3: falling, 399 or 400", pole_1(101, 100, 399), 399);
}

static void figure_4(void)
{
    check("figure 4: 100", reference_low_pass(4095, 0, 100), 0);
    check("figure 4: -1", reference_low_pass(4095, 0, -1), -1);
    fresh();
    W(0, 9) = 0xFFF0u;
    W(1, 9) = 0xFFF0u;
    W(0, 19) = 100;
    W(1, 19) = 0x3FFFFu;
    (void)frame(NULL, 0);
    check("figure 4: 100 in a frame", W(0, 19), 0);
    check("figure 4: -1 in a frame", W(1, 19), 0x3FFFF);
}

static void figure_5(void)
{
    check("figure 5", reference_high_pass(4095, 131071, -131072, 0), 131071);
    /* Pole 3 is driven to 131071 from -131072; pole 4 stood at 0. */
    fresh();
    steady(0, 32767, 0);
    W(0, 0) = 0;
    W(0, 7) = 0;
    W(0, 17) = 0x20000u;
    W(0, 15) = 0x20000u;
    W(0, 14) = 0;
    (void)frame(loud, 16);
    check("figure 5 in a frame: pole 2", W(0, 17), 131004);
    check("figure 5 in a frame: pole 3", W(0, 15), 131071);
    check("figure 5 in a frame: pole 4", W(0, 14), 131071);
    /* The other rail. */
    check("held below", reference_high_pass(0, -131072, 131071, 0), -131072);
}

static void figure_6(void)
{
    uint16_t low[2];

    low[0] = 0xFFFFu;
    low[1] = 0xFFFFu;
    check("figure 6: FFF0", reference_volume(32767, 0xFFF0u), 523248);
    check("figure 6: 0", reference_volume(32767, 0), 7);
    check("figure 6: -1", reference_volume(-1, 0), -1);
    fresh();
    steady(0, 32767, 0);
    W(0, 4) = 0;
    (void)frame(loud, 16);
    check("figure 6: FFF0 in a frame", out[0], 523248);
    check("figure 6: 0 in a frame", out[1], 7);
    fresh();
    steady(0, -1, 0);
    W(0, 2) = 0;
    (void)frame(low, 2);
    check("figure 6: -1 in a frame", out[0], -1);
}

static void figure_7(void)
{
    uint32_t voice;

    fresh();
    for (voice = 0; voice < 8; voice++) {
        steady(voice, 32767, 0x0800u); /* channel 2 */
    }
    (void)frame(loud, 16);
    check("figure 7: eight, left", out[4], 524287);
    check("figure 7: eight, right", out[5], 524287);
    check("figure 7: eight, elsewhere", out[0], 0);
    fresh();
    for (voice = 0; voice < 9; voice++) {
        steady(voice, 32767, 0x0800u);
    }
    (void)frame(loud, 16);
    check("figure 7: nine, left", out[4], -524288);
    check("figure 7: nine, right", out[5], -524288);
    check("figure 7: sum starts again", rec[655], 0);
}

static void figure_8(void)
{
    step(0x08, 2048, 10240, 10239, 1);
    check("figure 8: to the end, ACCUM", W(0, 13), 10240);
    check("figure 8: to the end, CR", W(0, 0), 0x08);
    step(0x08, 2048, 10240, 10240, 1);
    check("figure 8: past the end, ACCUM", W(0, 13), 2049);
    check("figure 8: past the end, CR", W(0, 0), 0x08);
}

static void figure_9(void)
{
    step(0x18, 2048, 10240, 10240, 5);
    check("figure 9: ACCUM", W(0, 13), 10235);
    check("figure 9: CR", W(0, 0), 0x58);
    step(0x18, 0, 0, 0, 5);
    check("figure 9: ACCUM below 0", W(0, 13), INT64_C(4294967291));
    check("figure 9: CR below 0", W(0, 0), 0x58);
}

static void figure_10(void)
{
    step(0x40, 0, 10240, 3, 5);
    check("figure 10: ACCUM", W(0, 13), 0);
    check("figure 10: CR", W(0, 0), 0x41);
}

static void figure_11(void)
{
    check("figure 11: up", reference_ramp(65500, 0x7F00u), 65535);
    check("figure 11: down", reference_ramp(100, 0x8000u), 0);
    fresh();
    W(0, 0) = 0;
    W(1, 0) = 0;
    W(0, 6) = 1;
    W(1, 6) = 1;
    W(0, 2) = 65500;
    W(0, 3) = 0x7F00u;
    W(1, 2) = 100;
    W(1, 3) = 0x8000u;
    (void)frame(NULL, 0);
    check("figure 11: up in a frame", W(0, 2), 65535);
    check("figure 11: down in a frame", W(1, 2), 0);
}

static void figure_12(void)
{
    step(0, 0, 10240, 10240, 0);
    check("figure 12: on the end, ACCUM", W(0, 13), 10240);
    check("figure 12: on the end, CR", W(0, 0), 0);
    step(0, 0, 10240, 10241, 0);
    check("figure 12: past the end, ACCUM", W(0, 13), 10240);
    check("figure 12: past the end, CR", W(0, 0), 1);
}

/* With the poles before it at 0, pole 4 has no input in a frame. */
static uint32_t pole_4_alone(uint32_t k2, uint32_t yp)
{
    fresh();
    W(0, 7) = k2;
    W(0, 14) = yp;
    (void)frame(NULL, 0);
    return W(0, 14);
}

static void figure_13(void)
{
    check("figure 13: 1000", reference_high_pass(0, 0, 0, 1000), 500);
    check("figure 13: -1", reference_high_pass(1, 0, 0, -1), -1);
    check("figure 13: 1000 in a frame", pole_4_alone(0, 1000), 500);
    check("figure 13: -1 in a frame", pole_4_alone(0x10, 0x3FFFFu), 0x3FFFF);
}

/* ==== the manual's examples of compressed samples ========================= */

struct example {
    int32_t left;
    int32_t right;
    uint32_t left_hex;
    uint32_t right_hex;
    uint32_t exponent;
    uint32_t mantissa;
    uint32_t code;
};

/* Two hex figures of the print are put right: 000F and FFF0. */
static const struct example examples[] = {
    { 32767, 31744, 0x7FFF, 0x7C00, 7, 31, 0xFF },
    { 25599, 24576, 0x63FF, 0x6000, 7, 24, 0xF8 },
    { 17407, 16384, 0x43FF, 0x4000, 7, 16, 0xF0 },
    { 16383, 15872, 0x3FFF, 0x3E00, 6, 31, 0xDF },
    { 8703, 8192, 0x21FF, 0x2000, 6, 16, 0xD0 },
    { 8191, 7936, 0x1FFF, 0x1F00, 5, 31, 0xBF },
    { 4351, 4096, 0x10FF, 0x1000, 5, 16, 0xB0 },
    { 4095, 3968, 0x0FFF, 0x0F80, 4, 31, 0x9F },
    { 2175, 2048, 0x087F, 0x0800, 4, 16, 0x90 },
    { 2047, 1984, 0x07FF, 0x07C0, 3, 31, 0x7F },
    { 1087, 1024, 0x043F, 0x0400, 3, 16, 0x70 },
    { 1023, 992, 0x03FF, 0x03E0, 2, 31, 0x5F },
    { 543, 512, 0x021F, 0x0200, 2, 16, 0x50 },
    { 511, 496, 0x01FF, 0x01F0, 1, 31, 0x3F },
    { 271, 256, 0x010F, 0x0100, 1, 16, 0x30 },
    { 255, 240, 0x00FF, 0x00F0, 0, 15, 0x0F },
    { 15, 0, 0x000F, 0x0000, 0, 0, 0x00 },
    { -32768, -31745, 0x8000, 0x83FF, 7, 0, 0xE0 },
    { -17408, -16385, 0xBC00, 0xBFFF, 7, 15, 0xEF },
    { -16384, -15873, 0xC000, 0xC1FF, 6, 0, 0xC0 },
    { -8704, -8193, 0xDE00, 0xDFFF, 6, 15, 0xCF },
    { -8192, -7937, 0xE000, 0xE0FF, 5, 0, 0xA0 },
    { -4352, -4097, 0xEF00, 0xEFFF, 5, 15, 0xAF },
    { -4096, -3969, 0xF000, 0xF07F, 4, 0, 0x80 },
    { -2176, -2049, 0xF780, 0xF7FF, 4, 15, 0x8F },
    { -2048, -1985, 0xF800, 0xF83F, 3, 0, 0x60 },
    { -1088, -1025, 0xFBC0, 0xFBFF, 3, 15, 0x6F },
    { -1024, -993, 0xFC00, 0xFC1F, 2, 0, 0x40 },
    { -544, -513, 0xFDE0, 0xFDFF, 2, 15, 0x4F },
    { -512, -497, 0xFE00, 0xFE0F, 1, 0, 0x20 },
    { -272, -257, 0xFEF0, 0xFEFF, 1, 15, 0x2F },
    { -256, -241, 0xFF00, 0xFF0F, 0, 16, 0x10 },
    { -16, -1, 0xFFF0, 0xFFFF, 0, 31, 0x1F }
};

/* The manual's program: shift out equal leading bits, then cut. */
static uint32_t compress_by_shifting(int32_t sample)
{
    uint32_t bits = (uint32_t)(sample + 65536) % 65536;
    uint32_t e = 7;

    while (e > 0) {
        if (bits / 32768 == bits / 16384 % 2) {
            bits = bits * 2 % 65536;
            e -= 1;
        } else {
            return e * 32 + bits % 32768 / 1024; /* sign bit left out */
        }
    }
    return bits / 2048; /* sign bit kept */
}

static void compressed_row(uint32_t row)
{
    const struct example *x = &examples[row];
    int32_t least = x->left < x->right ? x->left : x->right;
    int32_t greatest = x->left < x->right ? x->right : x->left;

    check_at("example hex, left", row, x->code, x->left_hex,
             (x->left + 65536) % 65536);
    check_at("example hex, right", row, x->code, x->right_hex,
             (x->right + 65536) % 65536);
    check_at("example code", row, x->code,
             x->exponent * 32 + x->mantissa, x->code);
    check_at("example compress, left", row, x->code,
             reference_compress((int16_t)x->left), x->code);
    check_at("example compress, right", row, x->code,
             reference_compress((int16_t)x->right), x->code);
    check_at("example expand", row, x->code,
             reference_expand((uint8_t)x->code), least);
    if (least > -32768) {
        check_at("example, below the row", row, x->code,
                 reference_compress((int16_t)(least - 1)) == x->code, 0);
    }
    if (greatest < 32767) {
        check_at("example, above the row", row, x->code,
                 reference_compress((int16_t)(greatest + 1)) == x->code,
                 0);
    }
}

static void compressed_codes(void)
{
    uint32_t code;
    uint32_t other;
    int64_t equal = 0;

    for (code = 0; code < 256; code++) {
        for (other = 0; other < code; other++) {
            if (reference_expand((uint8_t)code) ==
                reference_expand((uint8_t)other)) {
                equal += 1;
            }
        }
        check_at("a code's value has that code", code, 0,
                 reference_compress(reference_expand((uint8_t)code)), code);
    }
    check("no two codes have one value", equal, 0);
}

static void compressed_each(void)
{
    uint32_t code;
    int32_t sample;
    int64_t unlike = 0;
    int64_t above = 0;
    int64_t better = 0;

    for (sample = -32768; sample <= 32767; sample++) {
        uint8_t found = reference_compress((int16_t)sample);
        int32_t value = reference_expand(found);

        if (found != compress_by_shifting(sample)) {
            unlike += 1;
        }
        if (value > sample) {
            above += 1;
        }
        for (code = 0; code < 256; code++) {
            int32_t rival = reference_expand((uint8_t)code);

            if (rival <= sample && rival > value) {
                better += 1;
            }
        }
    }
    check("compress is the manual's program", unlike, 0);
    check("no value above its sample", above, 0);
    check("no nearer code below a sample", better, 0);
}

static void compressed_samples(void)
{
    uint32_t row;

    for (row = 0; row < sizeof examples / sizeof examples[0]; row++) {
        compressed_row(row);
    }
    compressed_codes();
    compressed_each();
    check("compress 32767", reference_compress(32767), 255);
    check("compress 0", reference_compress(0), 0);
    check("compress -32768", reference_compress(-32768), 224);
    check("compress -1", reference_compress(-1), 0x1F);
    check("compress 15", reference_compress(15), 0);
}

/* ==== rounding ============================================================ */

static void rounding(void)
{
    check("-1 / 128", reference_divide(-1, 128), -1);
    check("-128 / 128", reference_divide(-128, 128), -1);
    check("-129 / 128", reference_divide(-129, 128), -2);
    check("127 / 128", reference_divide(127, 128), 0);
    check("0 / 128", reference_divide(0, 128), 0);
    check("-1 mod 128", reference_remainder(-1, 128), 127);
    check("-128 mod 128", reference_remainder(-128, 128), 0);
    check("129 mod 128", reference_remainder(129, 128), 1);
    check("sum over the top", reference_add_to_sum(0x3FFFFFu, 1), 0x400000);
    check("sum under the bottom", reference_add_to_sum(0x400000u, -1),
          0x3FFFFF);
    check("sum under 0", reference_add_to_sum(0, -1), 0x7FFFFF);
    check("output of the greatest sum", reference_output_value(0x3FFFFFu),
          524287);
    check("output of the least sum", reference_output_value(0x400000u),
          -524288);
    check("output of sum -1", reference_output_value(0x7FFFFFu), -1);
    check("output of 524287", reference_output_value(524287), 524287);
    check("output of 524288", reference_output_value(524288), 524287);
}

/* ==== reset =============================================================== */

static void reset(void)
{
    uint32_t word;

    for (word = 0; word < ALL; word++) {
        rec[word] = 0xA5A5A5A5u;
    }
    check("reset of a damaged record", reference_reset(rec, RECORD_WORDS),
          0);
    for (word = 0; word < RECORD_WORDS; word++) {
        uint32_t want = 0;

        if (word < 640 && word % 20 == 0) {
            want = 3;
        }
        if (word == 641) {
            want = 128;
        }
        if (word == 642) {
            want = 1023;
        }
        if (word == 643) {
            want = 31;
        }
        if (word == 644) {
            want = 23;
        }
        check_at("reset word", word, 0, rec[word], want);
    }
    check("reset goes no further", rec[RECORD_WORDS], 0xA5A5A5A5);
}

/* ==== validity ============================================================ */

static uint32_t allowed_bits(uint32_t word)
{
    static const uint32_t voice[20] = {
        0xFFFF,     0x1FFFF,    0xFFFF,     0xFF00,  0xFFFF,
        0xFF00,     0x1FF,      0xFFFF,     0xFF01,  0xFFFF,
        0xFF01,     0xFFFFF800, 0xFFFFFF80, 0xFFFFFFFF, 0x3FFFF,
        0x3FFFF,    0x3FFFF,    0x3FFFF,    0x3FFFF, 0x3FFFF
    };

    if (word < 640) {
        return voice[word % 20];
    }
    switch (word) {
    case 640:
    case 645:
    case 646:
    case 647:
        return 0x7F;
    case 641:
        return 0x9F; /* one bit alone */
    case 642:
        return 0x3FF;
    case 643:
    case 644:
        return 0x1F;
    case 648:
        return 7;
    case 649:
    case 650:
        return 0xFFFFFFFF;
    case 663:
        return 0; /* while no voice has a flag */
    default:
        return 0x7FFFFF;
    }
}

static void validity(void)
{
    uint32_t word;

    /* Each single bit of each word, on top of a record just reset. */
    for (word = 0; word < RECORD_WORDS; word++) {
        uint32_t taken = 0;
        uint32_t bit;

        fresh();
        for (bit = 0; bit < 32; bit++) {
            uint32_t answer;

            rec[word] = (uint32_t)1 << bit;
            if (word < 640) {
                tell_mask();
            }
            answer = reference_set_pot(rec, RECORD_WORDS, 0);
            if (answer == 0) {
                taken |= (uint32_t)1 << bit;
            }
        }
        check_at("bits taken in word", word, 0, taken, allowed_bits(word));
    }
}

static void valid_vectors(void)
{
    uint32_t value;

    /* The vector holds 0..31 or 128. */
    for (value = 0; value < 300; value++) {
        fresh();
        rec[641] = value;
        check_at("vector value", value, 0, put(0, 0),
                 value < 32 || value == 128 ? 0 : 2);
    }

    /* Nothing ties the vector to flags or to the active voices. */
    fresh();
    rec[641] = 31;
    rec[643] = 7;
    check("vector above the active voices", put(0, 0), 0);
}

static void valid_latches_and_signs(void)
{
    /* Latches hold anything. */
    fresh();
    rec[649] = 0x000000FFu;
    rec[650] = 0xFFFFFFFFu;
    check("any latch", reference_set_pot(rec, RECORD_WORDS, 1), 0);

    /* Signed words stand without sign extension. */
    fresh();
    W(0, 14) = 0xFFFFFFFFu;
    check("sign-extended filter word", put(0, 0), 2);
    fresh();
    rec[651] = 0xFFFFFFFFu;
    check("sign-extended sum", put(0, 0), 2);
}

/* ==== refusals ============================================================ */

/* Runs all that a refusal must leave alone, and looks at the answer. */
static void refused_frame(const char *name, size_t words, size_t memory_words,
                          size_t output_values, uint32_t want)
{
    uint32_t place;

    for (place = 0; place < 13; place++) {
        out[place] = 77;
    }
    missing = 77;
    keep();
    check(name,
          reference_frame(rec, words, loud, memory_words, out, output_values,
                          &missing),
          want);
    check(name, missing, 0);
    check(name, first_change(), ALL);
    for (place = 0; place < 13; place++) {
        check(name, out[place], 77);
    }
}

static void refused_bytes(const char *name, size_t words, uint32_t address,
                          uint32_t pot, uint32_t want_byte, uint32_t want_pot)
{
    uint8_t byte = 0xEE;

    keep();
    check(name, reference_write(rec, words, address, 0x5A), want_byte);
    check(name, reference_read(rec, words, address, &byte), want_byte);
    check(name, byte, 0);
    check(name, reference_set_pot(rec, words, pot), want_pot);
    check(name, first_change(), ALL);
}

static void refused_waiting(const char *name, size_t words, uint32_t want)
{
    uint32_t mask = 77;

    keep();
    check(name, reference_waiting(rec, words, &mask), want);
    check(name, mask, 0);
    check(name, first_change(), ALL);
}

static void refusals(void)
{
    /* Lengths around the right one; everything else wrong as well. */
    fresh();
    rec[650] = 0x12345678u;
    rec[640] = 200;
    refused_bytes("a word short", RECORD_WORDS - 1, 64, 1024, 1, 1);
    refused_bytes("a word long", RECORD_WORDS + 1, 64, 1024, 1, 1);
    refused_bytes("length 0", 0, 64, 1024, 1, 1);
    refused_frame("frame, a word short", RECORD_WORDS - 1, 8388609, 11, 1);
    refused_frame("frame, a word long", RECORD_WORDS + 1, 8388609, 13, 1);
    refused_frame("frame, length 0", 0, 8388609, 0, 1);
    refused_waiting("waiting, a word short", RECORD_WORDS - 1, 1);
    refused_waiting("waiting, a word long", RECORD_WORDS + 1, 1);
    refused_waiting("waiting, length 0", 0, 1);
    keep();
    check("reset, a word short", reference_reset(rec, RECORD_WORDS - 1), 1);
    check("reset, a word long", reference_reset(rec, RECORD_WORDS + 1), 1);
    check("reset, length 0", reference_reset(rec, 0), 1);
    check("reset refused changes nothing", first_change(), ALL);

    /* An invalid record comes before address, pot, memory and output. */
    refused_bytes("invalid record", RECORD_WORDS, 64, 1024, 2, 2);
    refused_frame("frame, invalid record", RECORD_WORDS, 8388609, 11, 2);
    refused_waiting("waiting, invalid record", RECORD_WORDS, 2);
}

static void refused_arguments(void)
{
    /* Then the arguments. */
    fresh();
    rec[650] = 0x12345678u;
    refused_bytes("first bad address and pot", RECORD_WORDS, 64, 1024, 3, 4);
    refused_bytes("far address and pot", RECORD_WORDS, 0xFFFFFFFFu,
                  0xFFFFFFFFu, 3, 4);
    refused_frame("memory too long", RECORD_WORDS, 8388609, 12, 5);
    refused_frame("memory and output", RECORD_WORDS, 8388609, 11, 5);
    refused_frame("output short", RECORD_WORDS, 16, 11, 6);
    refused_frame("output long", RECORD_WORDS, 16, 13, 6);
    refused_frame("no output", RECORD_WORDS, 8388608, 0, 6);

    /* The last good ones. */
    fresh();
    check("address 63", put(63, 5), 0);
    check("page", rec[640], 5);
    check("pot 1023", reference_set_pot(rec, RECORD_WORDS, 1023), 0);
    check("pot 0", reference_set_pot(rec, RECORD_WORDS, 0), 0);
    check("PAR", rec[642], 0);
    check("empty memory", frame(NULL, 0), 0);
    check("longest memory", frame(whole, 8388608), 0);
}

/* A frame of fewer than five voices is refused: after the record is asked, and
   before the memory and the output are. */
static void few_voices(void)
{
    uint32_t last;

    for (last = 0; last < 4; last++) {
        fresh();
        W(0, 0) = 0x0300u;
        check_at("few voices written", last, 0, put(47, last), 0);
        check_at("few voices", last, 0, rec[643], last);
        refused_frame("few voices, a frame", RECORD_WORDS, 16, 12, 7);
        refused_frame("few voices, longest memory", RECORD_WORDS, 8388608, 12,
                      7);
        refused_frame("few voices, memory too long", RECORD_WORDS, 8388609, 12,
                      7);
        refused_frame("few voices, output short", RECORD_WORDS, 16, 11, 7);
        refused_frame("few voices, memory and output", RECORD_WORDS, 8388609,
                      0, 7);
        refused_bytes("few voices, address and pot", RECORD_WORDS, 64, 1024, 3,
                      4);
        refused_frame("few voices, a word short", RECORD_WORDS - 1, 8388609,
                      11, 1);
        rec[640] = 200;
        refused_frame("few voices, invalid record", RECORD_WORDS, 8388609, 11,
                      2);
    }
}

/* Five voices are enough, and all other calls take fewer. */
static void five_voices(void)
{
    fresh();
    W(0, 1) = 0x0400u;
    W(0, 12) = 0xFFFFFF80u;
    W(0, 0) = 0x0300u;
    check("ACTV below 4 is taken", put(47, 3), 0);
    refused_frame("four voices", RECORD_WORDS, 16, 12, 7);
    check("ACTV is read", get_register(11), 3);
    check("pot, four voices", reference_set_pot(rec, RECORD_WORDS, 5), 0);
    check("ACTV 4 is taken", put(47, 4), 0);
    check("five voices", frame(loud, 16), 0);
    check("five voices, a step", W(0, 13), 0x0400);
    check("five voices, memory too long",
          reference_frame(rec, RECORD_WORDS, whole, 8388609, out, 11,
                          &missing),
          5);
    check("ACTV below 4 again", put(47, 0), 0);
    check("reset, one voice", reference_reset(rec, RECORD_WORDS), 0);
    check("ACTV after a reset", rec[643], 31);
}

/* ==== registers by byte =================================================== */

#define NO_WORD RECORD_WORDS

/* Word of a register; NO_WORD where there is none. */
static uint32_t map_word(uint32_t page, uint32_t number)
{
    static const uint32_t lower[16] = { 0, 1,  2,   3,   4,   5,   6,   7,
                                        8, 9, 10, 643, 644, 642, 641, 640 };
    static const uint32_t upper[16] = { 0,  11,  12,  13,  14,  15,  16, 17,
                                        18, 19, 645, 646, 647, 642, 641, 640 };
    static const uint32_t test[16] = { 651, 652, 653,     654, 655, 656,
                                       657, 658, 659,     660, 661, 662,
                                       NO_WORD, 642, 641, 640 };

    if (page < 32) {
        return lower[number] < 20 ? 20 * page + lower[number] : lower[number];
    }
    if (page < 64) {
        return upper[number] < 20 ? 20 * (page - 32) + upper[number]
                                  : upper[number];
    }
    return test[number];
}

static void write_place(uint32_t page, uint32_t number)
{
    uint32_t home = map_word(page, number);
    int fixed = number == 13 || number == 14 || home == NO_WORD;
    int is_control = number == 0 && page < 64;
    uint32_t word;

    /* Write all ones over zeros: one word changes, cut as kept; with a control
       register the mask does too. */
    fresh();
    for (word = 0; word < RECORD_WORDS; word++) {
        rec[word] = 0;
    }
    rec[640] = page;
    keep();
    put_register(number, 0xFFFFFFFFu);
    if (fixed || (number == 15 && page == 127)) {
        check_at("write, no change", page, number, count_changes(),
                 0);
    } else {
        check_at("write, place", page, number, first_change(), home);
        check_at("write, count", page, number, count_changes(),
                 is_control ? 2 : 1);
        check_at("write, value", page, number, rec[home],
                 allowed_bits(home));
        check_at("write, mask", page, number, rec[663],
                 is_control ? INT64_C(1) << page % 32 : 0);
    }
}

static void read_place(uint32_t page, uint32_t number)
{
    uint32_t home = map_word(page, number);
    uint32_t word;

    /* Read a record in which every word is told by its bits. */
    for (word = 0; word < RECORD_WORDS; word++) {
        rec[word] = (word * 0x9E3779B1u) & allowed_bits(word);
    }
    rec[640] = page;
    rec[641] = 128;
    tell_mask();
    keep();
    check_at("read, value", page, number, get_register(number),
             page >= 64 && number <= 12 ? 0 : before[home]);
    check_at("read, latch", page, number, rec[650],
             page >= 64 && number <= 12 ? 0 : before[home]);
    rec[650] = before[650];
    if (number == 13) {
        check_at("read, pot set back", page, number, rec[642], 1023);
        rec[642] = before[642];
    }
    check_at("read, nothing else", page, number, count_changes(), 0);
}

static void register_map(void)
{
    uint32_t page;
    uint32_t number;

    for (page = 0; page < 128; page++) {
        for (number = 0; number < 16; number++) {
            write_place(page, number);
            read_place(page, number);
        }
    }
}

static void latches(void)
{
    uint32_t address;

    /* Byte 3 of a place that the host cannot write empties the latch. */
    for (address = 55; address <= 59; address += 4) {
        fresh();
        (void)put(0, 0x12);
        (void)put(address, 0x34);
        check_at("byte 3 without a store", address, 0, rec[649], 0);
        check_at("PAR stands", address, 0, rec[642], 1023);
        check_at("IRQV stands", address, 0, rec[641], 128);
    }
    fresh();
    rec[640] = 64;
    (void)put(0, 0x12);
    (void)put(51, 0x34);
    check("byte 3 of the empty place", rec[649], 0);
    fresh();
    (void)put(52, 0x12);
    (void)put(57, 0x34);
    (void)put(2, 0x56);
    check("bytes 0 to 2 fill the latch", rec[649], 0x12345600);
    (void)put(1, 0x78);
    check("a byte replaces its like", rec[649], 0x12785600);
}

static void shared_latch(void)
{
    /* One latch for all registers. */
    fresh();
    (void)put(4 * 9 + 2, 0xAB);
    (void)put(4 * 2 + 3, 0xCD);
    check("bytes of two registers", W(0, 2), 0xABCD);
    check("the first register stands", W(0, 9), 0);
    check("the latch is empty", rec[649], 0);

    /* The page that counts is the one at byte 3, and setting it by a lone
       byte 3 loses the bytes before it. */
    fresh();
    (void)put(0, 0xFF);
    (void)put(1, 0xFF);
    (void)put(2, 0xFF);
    (void)put(63, 1);
    check("page from a lone byte, cut", rec[640], 1);
    check("latch lost", rec[649], 0);
    (void)put(3, 0x40);
    check("CR of the new page", W(1, 0), 0x40);
    check("CR of the old page", W(0, 0), 3);
    fresh();
    rec[649] = 0xFFFFFF00u;
    (void)put(63, 0xFF);
    check("page cut to 7 bits", rec[640], 127);
}

static void channels_by_byte(void)
{
    /* Channels read as 0 through the latch. */
    fresh();
    rec[640] = 64;
    rec[650] = 0x12345678u;
    rec[651] = 0x7FFFFFu;
    check("byte 3 before byte 0", get(3), 0x78);
    check("channel byte 0", get(0), 0);
    check("channel byte 3", get(3), 0);
    check("sum stands", rec[651], 0x7FFFFF);
}

static void taken_values(void)
{
    /* Bytes 1 to 3 only look at the latch. */
    fresh();
    rec[641] = 5;
    rec[642] = 7;
    W(5, 0) = 0x83;
    tell_mask();
    rec[650] = 0x12345678u;
    check("PAR byte 1", get(53), 0x34);
    check("PAR byte 3", get(55), 0x78);
    check("IRQV byte 2", get(58), 0x56);
    check("IRQV byte 3", get(59), 0x78);
    check("PAR not taken", rec[642], 7);
    check("IRQV not taken", rec[641], 5);
    check("flag not cleared", W(5, 0), 0x83);

    /* Byte 0 takes them, and the old value is answered. */
    check("PAR taken", get_register(13), 7);
    check("PAR afterwards", rec[642], 1023);
    check("IRQV byte 0", get(56), 0);
    check("flag cleared", W(5, 0), 3);
    check("IRQV afterwards", rec[641], 128);
    check("IRQV byte 3 from the latch", get(59), 5);
    check("IRQV again", get_register(14), 128);
}

static void vector_and_flags(void)
{
    /* Also of a voice that is not active, and one whose flag is off. */
    fresh();
    rec[643] = 3;
    rec[641] = 30;
    W(30, 0) = 0xFFFFu;
    tell_mask();
    check("inactive voice's interrupt", get_register(14), 30);
    check("inactive voice's flag", W(30, 0), 0xFF7F);
    rec[641] = 2;
    check("vector without flag", get_register(14), 2);
    check("CR without flag", W(2, 0), 3);
    check("vector free", rec[641], 128);

    /* A CR write leaves the vector alone. */
    fresh();
    rec[641] = 0;
    W(0, 0) = 0x83;
    tell_mask();
    put_register(0, 3);
    check("flag written off", W(0, 0), 3);
    check("vector stands", rec[641], 0);
}

static void odd_registers(void)
{
    /* Filter words come without sign extension. */
    fresh();
    rec[640] = 32;
    put_register(4, 0xFFFFFFFFu);
    check("filter word kept", W(0, 14), 0x3FFFF);
    check("filter word read", get_register(4), 0x3FFFF);

    /* Register 0 of both halves is one CR. */
    fresh();
    rec[640] = 39;
    put_register(0, 0xBEEF);
    rec[640] = 7;
    check("CR from the other half", get_register(0), 0xBEEF);

    /* Test page 127 is as 64. */
    fresh();
    rec[640] = 127;
    put_register(11, 0x00ABCDEFu);
    check("channel 5R, page 127", rec[662], 0x2BCDEF);
}

/* ==== frame: sample ======================================================= */

/* X of a running voice 0, read off two poles: with k 4095 pole 1 stays on yp
   exactly when X is yp or yp + 1. */
static int input_is(uint32_t cr, uint32_t accum, const uint16_t *memory,
                    size_t length, int32_t x)
{
    uint32_t here = (uint32_t)(x + 262144) % 262144;
    uint32_t below = (uint32_t)(x - 1 + 262144) % 262144;
    int fits = 1;

    fresh();
    steady(0, 0, cr);
    W(0, 13) = accum;
    W(0, 19) = here;
    (void)frame(memory, length);
    fits = fits && W(0, 19) == here;
    fresh();
    steady(0, 0, cr);
    W(0, 13) = accum;
    W(0, 19) = below;
    (void)frame(memory, length);
    fits = fits && W(0, 19) == below;
    return fits;
}

static void sample(void)
{
    uint16_t words[4];

    words[0] = 1000;
    words[1] = 2000;
    words[2] = 0xFC18u; /* -1000 */
    words[3] = 0x1034u; /* compressed: -256, whatever the low byte */

    check("sample 0", input_is(0, 0, words, 4, 4000), 1);
    check("half way", input_is(0, 1024, words, 4, 6000), 1);
    check("two low bits unused", input_is(0, 1027, words, 4, 6000), 1);
    check("one fraction step", input_is(0, 4, words, 4, 4007), 1);
    check("negative neighbour", input_is(0, 2048 + 1024, words, 4, 2000), 1);
    check("a falling step", input_is(0, 2048 + 4, words, 4, 7976), 1);
    check("beyond memory", input_is(0, 2048 + 1024, words, 2, 4000), 1);
    check("wholly beyond memory", input_is(0, 2048, words, 1, 0), 1);
    check("other bank beyond memory", input_is(0x4000, 0, words, 4, 0), 1);

    /* Compressed: the high byte alone. */
    check("compressed", input_is(0x2000, 3 * 2048, words, 4, -1024), 1);
    /* FC is exponent 7, mantissa 28: 28672; half way to -256. */
    check("compressed, between", input_is(0x2000, 2 * 2048 + 1024, words, 4,
                                          4 * 28672 - 2 * 28928),
          1);
}

static void bank_ends(void)
{
    /* Last word of a bank, and its neighbour at the bank's other end. */
    whole[0] = 11;
    whole[2097151] = 100;
    whole[2097152] = 22;
    whole[3 * 2097152u] = 300;
    whole[8388607] = 500;
    check("bank 0 wraps", input_is(0, 0xFFFFF800u + 1024, whole, 8388608, 222),
          1);
    check("bank 3 wraps",
          input_is(0xC000, 0xFFFFF800u + 1024, whole, 8388608, 1600), 1);
    check("bank 1", input_is(0x4000, 0, whole, 8388608, 88), 1);
    /* First word there, last word beyond the lent memory. */
    check("wrap in a short memory",
          input_is(0, 0xFFFFF800u + 1024, whole, 1, 22), 1);
    memset(whole, 0, sizeof whole);
}

/* ==== frame: missing words ================================================ */

/* How many words are missing in a frame, which must not be refused. */
static uint32_t missed_now(const uint16_t *memory, size_t length)
{
    missing = 77;
    check("a frame that counts", frame(memory, length), 0);
    return missing;
}

/* The same in a frame where all voices but voice 0 are stopped. */
static uint32_t missed(uint32_t cr, uint32_t accum, size_t length)
{
    fresh();
    steady(0, 0, cr);
    W(0, 13) = accum;
    return missed_now(whole, length);
}

static void missing_words(void)
{
    check("memory of one word", missed(0, 0, 1), 1);
    check("memory of two words", missed(0, 0, 2), 0);
    check("no memory", missed(0, 0, 0), 2);

    /* At the memory's end, at a whole sample and between two. */
    check("last pair", missed(0, 14 * 2048u, 16), 0);
    check("last pair, between", missed(0, 14 * 2048u + 2047, 16), 0);
    check("last word", missed(0, 15 * 2048u, 16), 1);
    check("last word, between", missed(0, 15 * 2048u + 2047, 16), 1);
    check("past the last word", missed(0, 16 * 2048u, 16), 2);
    check("codes", missed(0x2000, 15 * 2048u, 16), 1);

    /* At the start of a bank that the memory reaches, or does not. */
    check("bank 1, none of it", missed(0x4000, 0, 2097152), 2);
    check("bank 1, a word of it", missed(0x4000, 0, 2097153), 1);
    check("bank 1, two words of it", missed(0x4000, 0, 2097154), 0);

    /* At the end of a bank the next word is the bank's first. */
    for (uint32_t bank = 0; bank < 4; bank++) {
        uint32_t cr = 0x4000 * bank;
        size_t start = 2097152 * (size_t)bank;

        check_at("wraps, none of it", bank, 0, missed(cr, 0xFFFFF800u, start),
                 2);
        check_at("wraps, a word of it", bank, 0,
                 missed(cr, 0xFFFFF800u, start + 1), 1);
        check_at("wraps, all but one", bank, 0,
                 missed(cr, 0xFFFFFFFFu, start + 2097151), 1);
        check_at("wraps, all", bank, 0,
                 missed(cr, 0xFFFFFFFFu, start + 2097152), 0);
    }

    /* A stopped voice asks for none, whoever stopped it. */
    check("stopped by itself", missed(1, 0, 0), 0);
    check("stopped by the host", missed(2, 0, 0), 0);
    check("stopped by both", missed(3, 0, 0), 0);
}

/* All voices run beyond the memory; those that are active count. */
static void missing_of_all(void)
{
    uint32_t last;
    uint32_t voice;

    for (last = 4; last < 32; last++) {
        fresh();
        rec[643] = last;
        for (voice = 0; voice < 32; voice++) {
            steady(voice, 0, 0);
        }
        check_at("all beyond", last, 0, missed_now(NULL, 0), 2 * (last + 1));
        W(3, 0) = 2;
        check_at("one stopped", last, 0, missed_now(NULL, 0), 2 * last);
    }
}

/* What counts is the registers as the frame begins. */
static void missing_as_it_begins(void)
{
    fresh();
    W(0, 0) = 0x0300u; /* it stops when it has passed END */
    W(0, 1) = 2048;
    W(0, 12) = 17 * 2048u;
    W(0, 13) = 14 * 2048u;
    check("first step", missed_now(loud, 16), 0);
    check("second step", missed_now(loud, 16), 1);
    check("third step", missed_now(loud, 16), 2);
    check("to END, and beyond", missed_now(loud, 16), 2);
    check("it has stopped", W(0, 0), 0x0301);
    check("stopped", missed_now(loud, 16), 0);
}

/* ==== frame: filters ====================================================== */

static void filters_with(uint32_t cr, uint32_t o3, uint32_t o4)
{
    fresh();
    W(0, 0) = 3 | cr;
    W(0, 7) = 0x400Fu; /* k 1024, low bits unused */
    W(0, 9) = 0x800Fu; /* k 2048 */
    W(0, 14) = 400;
    W(0, 15) = 600;
    W(0, 16) = 22;
    W(0, 17) = 800;
    W(0, 18) = 11;
    W(0, 19) = 1000;
    (void)frame(loud, 16);
    check_at("pole 1", cr, 0, W(0, 19), 500);
    check_at("pole 2", cr, 0, W(0, 17), 650);
    check_at("pole 3", cr, 0, W(0, 15), o3);
    check_at("pole 4", cr, 0, W(0, 14), o4);
    check_at("older pole 2", cr, 0, W(0, 18), 800);
    check_at("older pole 3", cr, 0, W(0, 16), 600);
    check_at("stopped voice is silent", cr, 0, out[0], 0);
}

static void filters(void)
{
    uint32_t voice;

    filters_with(0x000, 225, 262144 - 125);
    filters_with(0x100, 625, 275);
    filters_with(0x200, 612, 453);
    filters_with(0x300, 625, 456);

    /* Voices above the active ones stay as they are. */
    fresh();
    rec[643] = 6;
    for (voice = 5; voice < 10; voice++) {
        W(voice, 9) = 0x8000u;
        W(voice, 19) = 1000;
        W(voice, 0) = 0x83;
    }
    tell_mask();
    rec[641] = 128;
    (void)frame(NULL, 0);
    check("active, stopped filter", W(6, 19), 500);
    check("inactive filter", W(7, 19), 1000);
    check("vector, lowest active", rec[641], 5);
    fresh();
    rec[643] = 6;
    W(7, 0) = 0x80;
    tell_mask();
    keep();
    (void)frame(loud, 16);
    rec[648] = 0;
    check("inactive voice: nothing", count_changes(), 0);
}

static void pole_edges(void)
{
    /* Only the whole of the high pass is held. */
    check("high pass, parts not held",
          reference_high_pass(4095, 131071, -131072, -131072), 131071);
    check("high pass, top", reference_high_pass(4095, 0, 0, 131071), 131055);
    check("high pass, bottom", reference_high_pass(4095, 0, 0, -131072),
          -131056);
    check("low pass, floor", reference_low_pass(1, 0, 1), 0);
    check("low pass, k 0", reference_low_pass(0, 131071, -131072), -131072);
    check("low pass, least", reference_low_pass(4095, -131072, 131071),
          -131009);
}

/* ==== a high pass without input =========================================== */

static const int32_t last_outputs[] = {
    131071, 131070, 65536, 1000, 3, 2, 1, 0, -1, -2, -3, -1000, -65537,
    -131071, -131072
};

#define LAST_OUTPUTS (sizeof last_outputs / sizeof last_outputs[0])

/* At k 0 every frame leaves half, rounded down: after n frames that is Yp
   divided by 2 to the n, once. */
static void halving(void)
{
    size_t place;
    uint32_t frames;

    for (place = 0; place < LAST_OUTPUTS; place++) {
        fresh();
        W(0, 14) = (uint32_t)(last_outputs[place] + 262144) % 262144;
        for (frames = 0; frames <= 20; frames++) {
            int64_t left = reference_divide(last_outputs[place],
                                            INT64_C(1) << frames);

            check_at("halving", (uint32_t)place, frames, W(0, 14),
                     (left + 262144) % 262144);
            (void)frame(NULL, 0);
        }
    }
}

/* How many of 40 outputs are not between Yp and the rest of k 0. */
static int64_t outside(int64_t k, int64_t yp)
{
    int64_t least = yp < 0 ? yp : 0;
    int64_t greatest = yp < 0 ? -1 : yp;
    int64_t y = yp;
    int64_t count = 0;
    int frames;

    for (frames = 0; frames < 40; frames++) {
        y = reference_high_pass(k, 0, 0, y);
        count += y < least || y > greatest;
    }
    return count;
}

/* At every k the output stays between Yp and the rest of k 0. From below it
   may come to rest before it gets there. */
static void range(void)
{
    size_t place;
    int64_t k;

    for (place = 0; place < LAST_OUTPUTS; place++) {
        int64_t count = 0;

        for (k = 0; k < 4096; k++) {
            count += outside(k, last_outputs[place]);
        }
        check_at("range", (uint32_t)place, 0, count, 0);
    }
    check("rest of k 4095", reference_high_pass(4095, 0, 0, -8191), -8191);
    check("one before it", reference_high_pass(4095, 0, 0, -8192), -8191);
}

/* ==== frame: volume ======================================================= */

static void volume(void)
{
    uint32_t channel;
    uint32_t place;

    for (channel = 0; channel < 8; channel++) {
        fresh();
        steady(3, 32767, channel * 0x400);
        W(3, 4) = 0xEFFFu; /* half of FFF0: four low bits unused */
        (void)frame(loud, 16);
        for (place = 0; place < 12; place++) {
            int64_t want = 0;

            if (channel < 6 && place == 2 * channel) {
                want = 523248;
            }
            if (channel < 6 && place == 2 * channel + 1) {
                want = 261624;
            }
            check_at("channel", channel, place, out[place], want);
        }
        check_at("channel, beyond the record", channel, 0, rec[RECORD_WORDS],
                 0);
    }
}

static void what_sounds(void)
{
    /* It is pole 4's new output that sounds, cut to 16 bits. */
    fresh();
    steady(0, 32767, 0);
    W(0, 14) = 0;
    (void)frame(loud, 16);
    check("new output of pole 4", W(0, 14), 131036);
    check("new output sounds", out[0], 523120);

    /* The sum is held at the end alone: order does not matter. */
    fresh();
    steady(0, 32767, 0);
    steady(1, 32767, 0);
    steady(2, -32768, 0x4000);
    memset(whole, 0, sizeof whole);
    whole[0] = 32767;
    whole[1] = 32767;
    whole[2097152] = 0x8000u;
    whole[2097153] = 0x8000u;
    (void)frame(whole, 8388608);
    /* -32768 at FFF0 gives -523264. */
    check("mixed signs", out[0], 2 * 523248 - 523264);
    memset(whole, 0, sizeof whole);
}

static void written_sums(void)
{
    /* What the host wrote in a channel goes out with the next frame. */
    fresh();
    rec[640] = 64;
    put_register(0, 1);
    put_register(11, 0x7FFFFFu);
    (void)frame(NULL, 0);
    check("written sum goes out", out[0], 1);
    check("written sum, negative", out[11], -1);
    check("written sum is gone", rec[651], 0);
    (void)frame(NULL, 0);
    check("next frame is empty", out[0], 0);
    fresh();
    steady(0, 32767, 0);
    rec[651] = 0x7FFFFFu;
    (void)frame(loud, 16);
    check("written sum is added to", out[0], 523247);
}

/* ==== frame: address ====================================================== */

static void forward_events(uint32_t irqe)
{
    uint32_t flags = irqe + 4 * irqe; /* IRQE, and IRQ after an event */
    uint32_t vector = irqe ? 0 : 128;

    /* Forward, 5 past the end. */
    step(irqe, 2048, 10240, 10235, 10);
    check_at("forward 0,0 ACCUM", irqe, 0, W(0, 13), 10240);
    check_at("forward 0,0 CR", irqe, 0, W(0, 0), flags + 0x01);
    check_at("forward 0,0 IRQV", irqe, 0, rec[641], vector);
    step(irqe + 0x08, 2048, 10240, 10235, 10);
    check_at("forward 0,1 ACCUM", irqe, 0, W(0, 13), 2053);
    check_at("forward 0,1 CR", irqe, 0, W(0, 0), flags + 0x08);
    step(irqe + 0x10, 2048, 10240, 10235, 10);
    check_at("forward 1,0 ACCUM", irqe, 0, W(0, 13), 2053);
    check_at("forward 1,0 CR", irqe, 0, W(0, 0), flags + 0x04);
    step(irqe + 0x18, 2048, 10240, 10235, 10);
    check_at("forward 1,1 ACCUM", irqe, 0, W(0, 13), 10235);
    check_at("forward 1,1 CR", irqe, 0, W(0, 0), flags + 0x58);
}

static void reverse_events(uint32_t irqe)
{
    uint32_t flags = irqe + 4 * irqe; /* IRQE, and IRQ after an event */
    uint32_t vector = irqe ? 0 : 128;

    /* Reverse, 3 below the start. */
    step(irqe + 0x40, 2048, 10240, 2055, 10);
    check_at("reverse 0,0 ACCUM", irqe, 0, W(0, 13), 2048);
    check_at("reverse 0,0 CR", irqe, 0, W(0, 0), flags + 0x41);
    check_at("reverse 0,0 IRQV", irqe, 0, rec[641], vector);
    step(irqe + 0x48, 2048, 10240, 2055, 10);
    check_at("reverse 0,1 ACCUM", irqe, 0, W(0, 13), 10237);
    check_at("reverse 0,1 CR", irqe, 0, W(0, 0), flags + 0x48);
    step(irqe + 0x50, 2048, 10240, 2055, 10);
    check_at("reverse 1,0 ACCUM", irqe, 0, W(0, 13), 10237);
    check_at("reverse 1,0 CR", irqe, 0, W(0, 0), flags + 0x44);
    step(irqe + 0x58, 2048, 10240, 2055, 10);
    check_at("reverse 1,1 ACCUM", irqe, 0, W(0, 13), 2051);
    check_at("reverse 1,1 CR", irqe, 0, W(0, 0), flags + 0x18);
}

static void no_events(uint32_t irqe)
{
    /* No event: on the point itself, or with the loop end ignored. */
    step(irqe + 0x58, 2048, 10240, 2058, 10);
    check_at("to the start, ACCUM", irqe, 0, W(0, 13), 2048);
    check_at("to the start, CR", irqe, 0, W(0, 0), irqe + 0x58);
    step(irqe + 0x1C, 2048, 10240, 10235, 10);
    check_at("ignored end, ACCUM", irqe, 0, W(0, 13), 10245);
    check_at("ignored end, CR", irqe, 0, W(0, 0), irqe + 0x1C);
    check_at("ignored end, IRQV", irqe, 0, rec[641], 128);
    step(irqe + 0x5C, 2048, 10240, 3, 5);
    check_at("ignored start, ACCUM", irqe, 0, W(0, 13),
             INT64_C(4294967294));
    check_at("ignored start, CR", irqe, 0, W(0, 0), irqe + 0x5C);
}

static void address(void)
{
    uint32_t irqe;

    for (irqe = 0; irqe <= 0x20; irqe += 0x20) {
        forward_events(irqe);
        reverse_events(irqe);
        no_events(irqe);
    }

    /* The test comes before the wrap. */
    step(0x08, 2048, 0xFFFFFF80u, 0xFFFFFFFFu, 1);
    check("event at the top", W(0, 13), 2048 + 128);
    step(0x04, 2048, 0xFFFFFF80u, 0xFFFFFFFFu, 0x1FFFF);
    check("wrap at the top", W(0, 13), 0x1FFFE);
    step(0x08, 2048, 0xFFFFFF80u, 0xFFFFFF7Fu, 1);
    check("no event at the top", W(0, 13), 0xFFFFFF80);
    step(0x08, 0xFFFFF800u, 0, 0x1FFFFu, 0x1FFFF);
    check("start + d wraps", W(0, 13), 0x3FFFE - 2048);
}

static void address_rest(void)
{
    /* END keeps four bits of fraction. */
    step(0x08, 0, 10368, 10300, 60);
    check("below a fractional end", W(0, 13), 10360);
    step(0x08, 0, 10368, 10300, 69);
    check("past a fractional end", W(0, 13), 1);

    /* Steps of 0 past the end go on giving events. */
    step(0x08, 20480, 10240, 10250, 0);
    check("step 0, first event", W(0, 13), 20490);
    (void)frame(NULL, 0);
    check("step 0, second event", W(0, 13), 20480 + 10250);

    /* Stopped voices stay where they are. */
    step(0x01, 0, 10240, 10250, 5);
    check("STP0 stands still", W(0, 13), 10250);
    step(0x02, 0, 10240, 10250, 5);
    check("STP1 stands still", W(0, 13), 10250);
}

/* ==== frame: ramps ======================================================== */

static void ramps(void)
{
    /* All four, up and down, at the low end of the register. */
    fresh();
    W(0, 0) = 0;
    W(0, 2) = 1000;
    W(0, 3) = 0x0100;
    W(0, 4) = 1000;
    W(0, 5) = 0xFF00u;
    W(0, 6) = 511;
    W(0, 7) = 1000;
    W(0, 8) = 0x7F00;
    W(0, 9) = 1000;
    W(0, 10) = 0x8000u;
    (void)frame(NULL, 0);
    check("LVOL", W(0, 2), 1001);
    check("RVOL", W(0, 4), 999);
    check("K2", W(0, 7), 1127);
    check("K1", W(0, 9), 872);
    check("ECOUNT", W(0, 6), 510);

    /* Nothing with ECOUNT 0, nothing in a stopped voice. */
    fresh();
    W(0, 0) = 0;
    W(0, 2) = 1000;
    W(0, 3) = 0x0100;
    W(1, 2) = 1000;
    W(1, 3) = 0x0100;
    W(1, 6) = 5;
    (void)frame(NULL, 0);
    check("ECOUNT 0, LVOL", W(0, 2), 1000);
    check("ECOUNT 0", W(0, 6), 0);
    check("stopped, LVOL", W(1, 2), 1000);
    check("stopped, ECOUNT", W(1, 6), 5);
}

static void slow_ramps(void)
{
    uint32_t turn;

    /* Slow ramps move when the counter is 0; ECOUNT falls every frame. */
    fresh();
    W(0, 0) = 0;
    W(0, 6) = 20;
    W(0, 7) = 1000;
    W(0, 8) = 0x0101;
    W(0, 9) = 1000;
    W(0, 10) = 0xFF01u;
    for (turn = 0; turn < 17; turn++) {
        check_at("slow counter", turn, 0, rec[648], turn % 8);
        (void)frame(NULL, 0);
        check_at("slow K2", turn, 0, W(0, 7), 1001 + turn / 8);
        check_at("slow K1", turn, 0, W(0, 9), 999 - turn / 8);
        check_at("ECOUNT with slow ramps", turn, 0, W(0, 6), 19 - turn);
    }

    /* One slow, the other not. */
    fresh();
    rec[648] = 5;
    W(0, 0) = 0;
    W(0, 6) = 2;
    W(0, 8) = 0x0101;
    W(0, 10) = 0x0100;
    (void)frame(NULL, 0);
    check("held back", W(0, 7), 0);
    check("not held back", W(0, 9), 1);
}

static void values_before_ramps(void)
{
    /* Sound and filters take the values before the ramp. */
    fresh();
    steady(0, 32767, 0);
    W(0, 3) = 0x8000u;
    W(0, 6) = 1;
    (void)frame(loud, 16);
    check("volume before the ramp", out[0], 523248);
    check("volume after the ramp", W(0, 2), 0xFF70);
    (void)frame(loud, 16);
    /* 32767 x 503 / 32 */
    check("volume of the next frame", out[0], 515056);
    fresh();
    steady(0, 32767, 0);
    W(0, 6) = 1;
    W(0, 9) = 0;
    W(0, 10) = 0x7F00;
    W(0, 19) = 0;
    (void)frame(loud, 16);
    check("K1 before the ramp", W(0, 19), 0);
    check("K1 after the ramp", W(0, 9), 127);
    (void)frame(loud, 16);
    /* k 7: 7 x 131068 / 4096 */
    check("K1 of the next frame", W(0, 19), 223);
}

/* ==== frame: a voice that stops, interrupts =============================== */

static void events(void)
{
    /* A voice that stops itself sounds and ramps once more. */
    fresh();
    steady(0, 32767, 0);
    W(0, 1) = 1;
    W(0, 12) = 0;
    W(0, 3) = 0x8000u;
    W(0, 6) = 1;
    (void)frame(loud, 16);
    check("stops itself, CR", W(0, 0), 0x301);
    check("stops itself, ACCUM", W(0, 13), 0);
    check("stops itself, sounds", out[0], 523248);
    check("stops itself, ramps", W(0, 2), 0xFF70);
    check("stops itself, ECOUNT", W(0, 6), 0);
    (void)frame(loud, 16);
    check("stopped afterwards", out[0], 0);
    check("filter runs empty", W(0, 19), 31);
}

static void waiting_interrupts(void)
{
    /* IRQE is not asked of a flag that the host set; stopped voices too. */
    fresh();
    W(0, 0) = 0x83;
    tell_mask();
    (void)frame(NULL, 0);
    check("forced interrupt", rec[641], 0);
    check("forced flag stands", W(0, 0), 0x83);

    /* The lowest of several, each in its turn. */
    fresh();
    W(4, 0) = 0x28; /* an event of this very frame */
    W(4, 1) = 1;
    W(9, 0) = 0x83;
    tell_mask();
    (void)frame(NULL, 0);
    check("event of this frame first", rec[641], 4);
    check("event sets the flag", W(4, 0), 0xA8);
    check("event ACCUM", W(4, 13), 1);
    (void)frame(NULL, 0);
    check("vector stays", rec[641], 4);
    check("vector read", get_register(14), 4);
    check("flag gone", W(4, 0), 0x28);
    W(4, 0) = 3;
    (void)frame(NULL, 0);
    check("the next one waiting", rec[641], 9);

    /* A taken vector is not changed, not even by a lower voice. */
    fresh();
    rec[641] = 20;
    W(4, 0) = 0x83;
    tell_mask();
    (void)frame(NULL, 0);
    check("vector taken", rec[641], 20);
    check("flag waits", W(4, 0), 0x83);
}

static void idle_frames(void)
{
    /* An idle frame moves the slow counter and nothing else. */
    fresh();
    keep();
    (void)frame(NULL, 0);
    check("idle frame, slow counter", rec[648], 1);
    check("idle frame, changes", count_changes(), 1);

    /* Latches, page and pot are not a frame's business. */
    fresh();
    rec[640] = 99;
    rec[642] = 5;
    rec[645] = 1;
    rec[646] = 2;
    rec[647] = 3;
    rec[648] = 7;
    rec[649] = 0x11111111u;
    rec[650] = 0x22222222u;
    keep();
    (void)frame(loud, 16);
    check("counter comes round", rec[648], 0);
    check("others stand", count_changes(), 1);
}

/* ==== the waiting voices ================================================== */

#define BIT(voice) ((uint32_t)1 << (voice))

/* The mask, asked for by a call that must be done. */
static uint32_t mask_now(void)
{
    uint32_t mask = 77;

    keep();
    check("waiting, done", reference_waiting(rec, RECORD_WORDS, &mask), 0);
    check("waiting changes nothing", first_change(), ALL);
    check("waiting gives the word", mask, rec[663]);
    return mask;
}

/* A whole control register, written on the given page. */
static void put_control(uint32_t page, uint32_t cr)
{
    put_register(15, page);
    put_register(0, cr);
}

/* A stopped voice with its flag on, put by hand. */
static void put_flag(uint32_t voice)
{
    W(voice, 0) = 0x83;
    tell_mask();
}

static void mask_after_reset(void)
{
    check("length of a record", RECORD_WORDS, 664);
    fresh();
    check("mask after reset", mask_now(), 0);
    memset(rec, 0xFF, sizeof rec);
    check("reset with a mask", reference_reset(rec, RECORD_WORDS), 0);
    check("mask after a reset with a mask", mask_now(), 0);
    put_control(31, 0x83);
    check("mask before a reset", mask_now(), 0x80000000);
    check("reset with a flag", reference_reset(rec, RECORD_WORDS), 0);
    check("mask after a reset with a flag", mask_now(), 0);
}

/* The flag of a voice, and then of another one, by the two pages that have it;
   ten voices are active. */
static void written_flags(uint32_t voice, uint32_t set, uint32_t clear)
{
    uint32_t other = (voice + 7) % 32;

    fresh();
    rec[643] = 9;
    put_control(set + voice, 0x83);
    check_at("flag written", voice, set, mask_now(), BIT(voice));
    put_control(set + voice, 0xFFFF);
    check_at("flag written again", voice, set, mask_now(), BIT(voice));
    put_control(clear + other, 0x80);
    check_at("two flags", voice, set, mask_now(), BIT(voice) + BIT(other));
    put_control(clear + voice, 0xFF7F);
    check_at("all but the flag", voice, clear, mask_now(), BIT(other));
    put_control(set + other, 3);
    check_at("both flags off", voice, clear, mask_now(), 0);
    put_control(clear + voice, 3);
    check_at("flag off again", voice, clear, mask_now(), 0);
}

static void mask_by_writes(void)
{
    uint32_t voice;

    for (voice = 0; voice < 32; voice++) {
        written_flags(voice, 0, 0);
        written_flags(voice, 0, 32);
        written_flags(voice, 32, 0);
        written_flags(voice, 32, 32);
    }
}

/* All 32 flags, one after another, and off again from the last on. */
static void mask_of_all(void)
{
    uint32_t voice;

    fresh();
    for (voice = 0; voice < 32; voice++) {
        put_control(voice % 2 * 32 + voice, 0x83);
        check_at("so many flags", voice, 0, mask_now(),
                 (INT64_C(2) << voice) - 1);
    }
    for (voice = 32; voice-- > 0;) {
        put_control(voice % 2 * 32 + voice, 3);
        check_at("so many left", voice, 0, mask_now(),
                 (INT64_C(1) << voice) - 1);
    }
}

/* However many voices are active, also too few for a frame. */
static void mask_of_any_count(void)
{
    uint32_t last;

    for (last = 0; last < 32; last++) {
        fresh();
        put_flag(2);
        put_flag(31);
        rec[643] = last;
        check_at("mask, so many active", last, 0, mask_now(), 0x80000004);
    }
}

/* A frame in which the voice alone runs, with a step of 1 from 0, where START
   and END are: an event in either direction, unless LEI is set. */
static uint32_t mask_of_event(uint32_t voice, uint32_t cr, uint32_t last)
{
    fresh();
    rec[643] = last;
    W(voice, 0) = cr;
    W(voice, 1) = 1;
    tell_mask();
    check("a frame that may flag", frame(NULL, 0), 0);
    return mask_now();
}

/* Each loop mode in both directions: DIR, BLE, LPE. */
static void mask_of_modes(uint32_t voice)
{
    uint32_t mode;

    for (mode = 0; mode < 8; mode++) {
        uint32_t cr = mode / 4 * 0x40 + mode % 4 * 0x08;

        check_at("an event", voice, cr, mask_of_event(voice, cr + 0x20, 31),
                 BIT(voice));
        check_at("an event without IRQE", voice, cr,
                 mask_of_event(voice, cr, 31), 0);
        check_at("an event of a flagged voice", voice, cr,
                 mask_of_event(voice, cr + 0x80, 31), BIT(voice));
        check_at("with LEI", voice, cr, mask_of_event(voice, cr + 0x24, 31),
                 0);
    }
}

static void mask_by_events(void)
{
    uint32_t voice;

    for (voice = 0; voice < 32; voice++) {
        mask_of_modes(voice);
        check_at("stopped", voice, 0, mask_of_event(voice, 0x29, 31), 0);
        check_at("active or not", voice, 0, mask_of_event(voice, 0x28, 15),
                 voice < 16 ? BIT(voice) : 0);
        check_at("flagged, active or not", voice, 0,
                 mask_of_event(voice, 0xA8, 15), BIT(voice));
    }
}

/* Reading byte 0 of the vector takes the flag of the voice that it names; no
   other byte takes one. */
static void mask_after_read(uint32_t voice)
{
    uint32_t next = (voice + 1) % 32;
    uint32_t address;

    for (address = 0; address < 64; address++) {
        int taken = address == 56;

        fresh();
        rec[643] = 9;
        put_flag(voice);
        put_flag(next);
        rec[641] = voice;
        (void)get(address);
        check_at("mask after a read", voice, address, mask_now(),
                 taken ? BIT(next) : BIT(next) + BIT(voice));
        check_at("vector after a read", voice, address, rec[641],
                 taken ? 128 : voice);
    }
}

static void mask_by_reads(void)
{
    uint32_t voice;

    for (voice = 0; voice < 32; voice++) {
        mask_after_read(voice);
    }

    /* No voice in the vector, and one that does not wait. */
    fresh();
    put_flag(30);
    (void)get(56);
    check("mask, vector free", mask_now(), BIT(30));
    rec[641] = 2;
    (void)get(56);
    check("mask, vector without flag", mask_now(), BIT(30));
    check("vector without flag, free now", rec[641], 128);
}

/* Voices wait for the vector one after another, those that are not active for
   ever; the host takes each. */
static void mask_taken_in_turn(void)
{
    fresh();
    rec[643] = 9;
    put_flag(4);
    put_flag(9);
    put_flag(10);
    check("three wait", mask_now(), 0x610);
    (void)frame(NULL, 0);
    check("the vector takes none", mask_now(), 0x610);
    check("first taken", get_register(14), 4);
    check("two wait", mask_now(), 0x600);
    (void)frame(NULL, 0);
    check("second taken", get_register(14), 9);
    check("one waits", mask_now(), 0x400);
    (void)frame(NULL, 0);
    check("none to take", get_register(14), 128);
    check("one still waits", mask_now(), 0x400);
    put_control(42, 3);
    check("none waits", mask_now(), 0);
}

/* Everything but reset refuses a record with another mask, and reset mends
   it. */
static void refused_mask(const char *name)
{
    refused_bytes(name, RECORD_WORDS, 0, 0, 2, 2);
    refused_frame(name, RECORD_WORDS, 16, 12, 2);
    refused_waiting(name, RECORD_WORDS, 2);
    refused_waiting(name, RECORD_WORDS - 1, 1);
    refused_waiting(name, RECORD_WORDS + 1, 1);
    check(name, reference_reset(rec, RECORD_WORDS), 0);
    check(name, mask_now(), 0);
}

static void false_masks(void)
{
    uint32_t voice;

    for (voice = 0; voice < 32; voice++) {
        fresh();
        rec[663] = BIT(voice);
        refused_mask("a bit and no flag");
        put_flag(voice);
        rec[663] = 0;
        refused_mask("a flag and no bit");
        put_flag(voice);
        rec[663] = BIT((voice + 1) % 32);
        refused_mask("the bit of the next voice");
        put_flag(voice);
        rec[663] = ~rec[663];
        refused_mask("all bits but the flag's");
        put_flag(3);
        put_flag(31);
        W(voice, 0) ^= 0x80;
        refused_mask("a flag changed alone");
    }
    put_flag(3);
    put_flag(20);
    rec[643] = 9;
    rec[663] = BIT(3);
    refused_mask("active voices only");
}

/* Bytes 0 to 2 of a control register leave the mask alone, and so does every
   register that is none. */
static void mask_left_by_writes(void)
{
    uint32_t page;
    uint32_t number;

    for (page = 0; page < 128; page++) {
        fresh();
        put_flag(0);
        put_flag(31);
        put_register(15, page);
        (void)put(0, 0xFF);
        (void)put(1, 0xFF);
        (void)put(2, 0xFF);
        check_at("bytes 0 to 2", page, 0, mask_now(), 0x80000001);
        for (number = page < 64 ? 1 : 0; number < 15; number++) {
            put_register(number, 0xFFFFFFFFu);
        }
        check_at("other registers", page, 0, mask_now(), 0x80000001);
    }
}

/* The pot, a call that is refused, and a frame without events. */
static void mask_left_by_calls(void)
{
    fresh();
    put_flag(0);
    put_flag(31);
    check("pot", reference_set_pot(rec, RECORD_WORDS, 0), 0);
    check("pot, mask", mask_now(), 0x80000001);
    check("pot refused", reference_set_pot(rec, RECORD_WORDS, 1024), 4);
    check("pot refused, mask", mask_now(), 0x80000001);
    check("address refused", put(64, 0), 3);
    check("address refused, mask", mask_now(), 0x80000001);
    check("a frame", frame(NULL, 0), 0);
    check("a frame, mask", mask_now(), 0x80000001);
}

/* Register 12 of the pages from 64 on is no word; the mask, which comes after
   the sums, least of all. */
static void mask_of_no_register(void)
{
    uint32_t page;

    for (page = 64; page < 128; page++) {
        fresh();
        put_flag(17);
        rec[640] = page;
        keep();
        put_register(12, 0xFFFFFFFFu);
        check_at("register 12, nothing written", page, 0, count_changes(), 0);
        put_register(12, 0);
        check_at("register 12, nothing cleared", page, 0, count_changes(), 0);
        check_at("register 12 is read", page, 0, get_register(12), 0);
        check_at("register 12, mask", page, 0, mask_now(), BIT(17));
    }
}

/* Of a mask the lowest voice up to the last one, or the sign for none. */
static uint32_t lowest_of(uint32_t mask, uint32_t last)
{
    uint32_t voice;

    for (voice = 0; voice <= last; voice++) {
        if (mask / BIT(voice) % 2 == 1) {
            return voice;
        }
    }
    return 128;
}

/* Voices that wait, that come to wait in this frame, that have an event without
   IRQE, or that are stopped; the lowest ones are stopped in any case. Gives the
   mask that a frame leaves. */
static uint32_t set_mixture(uint32_t trial, uint32_t last)
{
    static const uint32_t controls[4] = { 0x83, 0x28, 0x08, 0x03 };
    uint32_t mask = 0;
    uint32_t voice;

    for (voice = trial % 16 * 2; voice < 32; voice++) {
        uint32_t kind = (trial * 32 + voice) * 0x9E3779B1u / BIT(30);

        W(voice, 0) = controls[kind];
        W(voice, 1) = 1;
        if (kind == 0 || (kind == 1 && voice <= last)) {
            mask += BIT(voice);
        }
    }
    tell_mask();
    return mask;
}

/* A frame that finds the vector free leaves the lowest active voice of the mask
   in it. */
static void vector_and_mask(void)
{
    uint32_t last;
    uint32_t trial;
    uint32_t mask;

    for (last = 4; last < 32; last++) {
        for (trial = 0; trial < 64; trial++) {
            fresh();
            rec[643] = last;
            mask = set_mixture(trial, last);
            (void)frame(NULL, 0);
            check_at("mask of a frame", last, trial, mask_now(), mask);
            check_at("vector of a mask", last, trial, rec[641],
                     lowest_of(mask, last));
        }
    }
}

/* ==== all ================================================================= */

static void (*const groups[])(void) = {
    figure_1_and_2, figure_3, figure_4, figure_5, figure_6, figure_7,
    figure_8, figure_9, figure_10, figure_11, figure_12, figure_13,
    compressed_samples, rounding, reset, validity, valid_vectors,
    valid_latches_and_signs, refusals, refused_arguments, few_voices,
    five_voices, register_map, latches, shared_latch, channels_by_byte,
    taken_values, vector_and_flags, odd_registers, sample, bank_ends,
    missing_words, missing_of_all, missing_as_it_begins, filters, pole_edges,
    halving, range, volume, what_sounds, written_sums, address, address_rest,
    ramps, slow_ramps, values_before_ramps, events, waiting_interrupts,
    idle_frames, mask_after_reset, mask_by_writes, mask_of_all,
    mask_of_any_count, mask_by_events, mask_by_reads, mask_taken_in_turn,
    false_masks, mask_left_by_writes, mask_left_by_calls, mask_of_no_register,
    vector_and_mask, wave_figures,
};

int main(void)
{
    size_t place;

    for (place = 0; place < sizeof loud / sizeof loud[0]; place++) {
        loud[place] = 32767;
    }
    for (place = 0; place < sizeof groups / sizeof groups[0]; place++) {
        groups[place]();
    }
    printf("figures: %lu checks, %lu failed\n", checks, failed);
    return failed == 0 ? 0 : 1;
}
