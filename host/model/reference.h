/*
 * A plain reference model of the sound chip: the nine public operations over
 * what the caller lends, and the few arithmetic rules that are worth checking
 * by themselves. Bringing in a WAVE file is in reference_wave.c, all else in
 * reference.c.
 *
 * The model favours being easy to compare with the written rules over speed.
 */
#ifndef REFERENCE_H
#define REFERENCE_H

#include <stddef.h>
#include <stdint.h>

/* ---- answers of the public operations ---------------------------------- */

#define ANSWER_DONE           0u
#define ANSWER_RECORD_LENGTH  1u
#define ANSWER_RECORD_INVALID 2u
#define ANSWER_ADDRESS        3u
#define ANSWER_POT            4u
#define ANSWER_MEMORY_LENGTH  5u
#define ANSWER_OUTPUT_LENGTH  6u
#define ANSWER_TOO_FEW_VOICES 7u
#define ANSWER_FILE_BROKEN    20u
#define ANSWER_CHUNK_COUNT    21u
#define ANSWER_SAMPLE_FORMAT  22u
#define ANSWER_LOOP_INVALID   23u
#define ANSWER_NO_PLACE       24u

/* ---- limits ------------------------------------------------------------- */

#define RECORD_WORDS      664u
#define VOICES            32u
#define VOICE_WORDS       20u
#define OUTPUT_VALUES     12u
#define BANK_WORDS        2097152u
#define MOST_MEMORY_WORDS 8388608u
#define ADDRESS_LIMIT     63u
#define POT_LIMIT         1023u
#define NO_INTERRUPT      128u
#define LEAST_ACTV        4u /* that a frame takes: five voices */
#define MOST_FILE_BYTES   65536u
#define WHOLE_SAMPLE      2048u /* in START, END and ACCUM */

/* ---- the record: words of a voice, counted from the voice's first word -- */

#define VOICE_CR     0u
#define VOICE_FC     1u
#define VOICE_LVOL   2u
#define VOICE_LVRAMP 3u
#define VOICE_RVOL   4u
#define VOICE_RVRAMP 5u
#define VOICE_ECOUNT 6u
#define VOICE_K2     7u
#define VOICE_K2RAMP 8u
#define VOICE_K1     9u
#define VOICE_K1RAMP 10u
#define VOICE_START  11u
#define VOICE_END    12u
#define VOICE_ACCUM  13u
#define VOICE_O4_N1  14u
#define VOICE_O3_N1  15u
#define VOICE_O3_N2  16u
#define VOICE_O2_N1  17u
#define VOICE_O2_N2  18u
#define VOICE_O1_N1  19u

/* ---- the record: words that all voices share ---------------------------- */

#define WORD_PAGE        640u
#define WORD_IRQV        641u
#define WORD_PAR         642u
#define WORD_ACTV        643u
#define WORD_MODE        644u
#define WORD_W_ST        645u
#define WORD_W_END       646u
#define WORD_LR_END      647u
#define WORD_SLOW        648u
#define WORD_WRITE_LATCH 649u
#define WORD_READ_LATCH  650u
#define WORD_SUMS        651u /* 0L, 0R, 1L, 1R .. 5L, 5R */
#define WORD_WAITING     663u /* bit v is the IRQ bit of voice v */

/* ---- bits of CR ---------------------------------------------------------- */

#define CR_STP0 0x0001u
#define CR_STP1 0x0002u
#define CR_LEI  0x0004u
#define CR_LPE  0x0008u
#define CR_BLE  0x0010u
#define CR_IRQE 0x0020u
#define CR_DIR  0x0040u
#define CR_IRQ  0x0080u
#define CR_LP3  0x0100u
#define CR_LP4  0x0200u
#define CR_CA0  0x0400u
#define CR_CA1  0x0800u
#define CR_CA2  0x1000u
#define CR_CMPD 0x2000u
#define CR_BS0  0x4000u
#define CR_BS1  0x8000u

/* ---- WAVE files: lengths, and places of what is read --------------------- */

#define RIFF_LENGTH   4u /* the place of the RIFF chunk's length */
#define RIFF_KIND     8u /* of 'WAVE', from which that length counts */
#define FIRST_CHUNK   12u
#define CHUNK_LENGTH  4u /* counted from a chunk's name */
#define HEADER_BYTES  8u /* of a chunk: its name and its length */
#define FORMAT_BYTES  16u
#define FORMAT_TAG    0u /* counted from the first byte after the length */
#define CHANNELS      2u
#define SAMPLE_BITS   14u
#define SAMPLER_BYTES 36u
#define LOOP_COUNT    28u
#define LOOP_BYTES    24u
#define LOOP_TYPE     4u /* counted from the loop's first byte */
#define LOOP_START    8u
#define LOOP_END      12u

/* ---- the nine public operations ----------------------------------------- */

uint32_t reference_reset(uint32_t *record, size_t words);
uint32_t reference_write(uint32_t *record, size_t words, uint32_t address,
                         uint8_t value);
uint32_t reference_read(uint32_t *record, size_t words, uint32_t address,
                        uint8_t *byte);
uint32_t reference_set_pot(uint32_t *record, size_t words, uint32_t pot);
uint32_t reference_frame(uint32_t *record, size_t words,
                         const uint16_t *memory, size_t memory_words,
                         int32_t *output, size_t output_values,
                         uint32_t *missing);
uint32_t reference_waiting(const uint32_t *record, size_t words,
                           uint32_t *mask);
uint32_t reference_import(const uint8_t *file, size_t file_bytes,
                          uint16_t *memory, size_t memory_words, size_t word,
                          uint32_t *start, uint32_t *end, uint32_t *loop,
                          uint32_t *samples);
uint8_t reference_compress(int16_t sample);
int16_t reference_expand(uint8_t code);

/* ---- arithmetic rules, open to separate checks -------------------------- */

/* Quotient rounded down and remainder from 0 up; the divisor is above 0. */
int64_t reference_divide(int64_t value, int64_t divisor);
int64_t reference_remainder(int64_t value, int64_t divisor);

/* Filter input, 18 bits, between two samples; fraction is 0..511. */
int64_t reference_interpolate(int64_t s1, int64_t s2, int64_t fraction);

/* One filter pole; k is 0..4095. */
int64_t reference_low_pass(int64_t k, int64_t x, int64_t yp);
int64_t reference_high_pass(int64_t k, int64_t x, int64_t xp, int64_t yp);

/* What a voice adds to one side of its channel; o is signed 16 bits. */
int64_t reference_volume(int64_t o, uint32_t volume);

/* A volume or coefficient moved one step by its ramp register. */
uint32_t reference_ramp(uint32_t value, uint32_t ramp);

/* Channel sum (kept as 23 bits) with a value added, and as it is put out. */
uint32_t reference_add_to_sum(uint32_t sum, int64_t value);
int32_t reference_output_value(uint32_t sum);

#endif
