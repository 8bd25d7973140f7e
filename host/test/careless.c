/*
 * careless: a host's mistakes, for compilers to warn of, and after them calls
 * that are just right. It is compiled and never run. test/warnings holds the
 * compilers to the marks: a line is warned of by each compiler, or by the one
 * that its mark names, and a line without a mark by none.
 */
#include "otto.h"

static uint32_t machine[OTTO_RECORD_WORDS];
static uint32_t older[663]; /* as a record was before version 5.0.0 */
static uint16_t memory[1024];
static int32_t output[OTTO_OUTPUT_VALUES];
static uint8_t wave[44];

/* What is lent as it should be. */
#define MACHINE machine, OTTO_RECORD_WORDS
#define MEMORY  memory, 1024
#define OUTPUT  output, OTTO_OUTPUT_VALUES
#define WAVE    wave, sizeof wave

uint32_t careless(uint32_t number);
uint32_t careful(const uint16_t *banks);
uint32_t careful_import(uint16_t *banks, const uint8_t *file);

uint32_t careless(uint32_t number)
{
    uint32_t missing, mask, start, end, loop, samples;
    uint32_t answer = 0;
    uint8_t byte;

    /* Answers are dropped. */
    otto_reset(MACHINE);                               /* warned */
    otto_write(MACHINE, OTTO_ADDRESS(OTTO_CR, 3u), 0); /* warned */
    otto_frame(MACHINE, MEMORY, OUTPUT, &missing);     /* warned */
    otto_compress(1000);                               /* warned */

    /* A null pointer stands for a value that nobody wants. */
    answer |= otto_frame(MACHINE, MEMORY, OUTPUT, NULL); /* warned */
    answer |= otto_read(MACHINE, number, NULL);          /* warned */
    answer |= otto_waiting(MACHINE, NULL);               /* warned */
    answer |= otto_import(WAVE, MEMORY, 0, &start, &end, &loop, NULL); /* warned */

    /* And for sample memory that is not there yet. */
    answer |= otto_frame(MACHINE, NULL, 1024, OUTPUT, &missing); /* warned */

    /* Bytes are given for words and values. */
    answer |= otto_reset(machine, sizeof machine); /* warned */
    answer |= otto_frame(MACHINE, memory, sizeof memory, OUTPUT, &missing); /* warned */
    answer |= otto_frame(MACHINE, MEMORY, output, sizeof output, &missing); /* warned */

    /* The record has the words of an older version. */
    answer |= otto_waiting(older, OTTO_RECORD_WORDS, &mask); /* warned */
    answer |= otto_set_pot(older, 663, 512); /* warned by clang */

    /* A number stands for an address: that of a word, or of a page where that
       of a register is due. (A register's number is itself an address.) */
    answer |= otto_write(MACHINE, OTTO_WORD_ACTV, 31); /* warned by clang */
    answer |= otto_read(MACHINE, OTTO_ADDRESS(OTTO_PAGE_UPPER(0), 0), &byte); /* warned by clang */

    /* A pot result has more than ten bits. */
    answer |= otto_set_pot(MACHINE, 4095); /* warned by clang */

    /* Two numbers go into one variable. */
    answer |= otto_import(WAVE, MEMORY, 0, &start, &end, &end, &samples); /* warned by gcc */
    return answer;
}

uint32_t careful(const uint16_t *banks)
{
    uint32_t fresh[OTTO_RECORD_WORDS];
    uint32_t missing, mask;
    uint8_t byte;
    uint32_t answer = otto_reset(fresh, OTTO_RECORD_WORDS);

    answer |= otto_read(MACHINE, OTTO_ADDRESS(OTTO_PAGE, 3u), &byte);
    answer |= otto_write(MACHINE, OTTO_ADDRESS(OTTO_PAGE, 3u), byte);
    answer |= otto_set_pot(MACHINE, 1023);
    answer |= otto_waiting(MACHINE, &mask);
    answer |= otto_frame(MACHINE, NULL, 0, OUTPUT, &missing);
    answer |= otto_frame(MACHINE, banks, OTTO_MOST_MEMORY_WORDS, OUTPUT, &missing);
    return answer;
}

uint32_t careful_import(uint16_t *banks, const uint8_t *file)
{
    uint16_t room[64];
    uint32_t start, end, loop, samples;
    uint32_t answer = otto_import(WAVE, room, 64, 64, &start, &end, &loop, &samples);

    answer |= otto_import(file, OTTO_MOST_FILE_BYTES, banks, OTTO_MOST_MEMORY_WORDS,
                          OTTO_MOST_MEMORY_WORDS, &start, &end, &loop, &samples);
    answer |= otto_import(NULL, 0, NULL, 0, 0, &start, &end, &loop, &samples);
    return answer;
}
