/*
 * header VERSION CHANGELOG: that the register map of include/otto.h is the
 * library's, its sizes, answers and bits the model's, and its version that of
 * the two files. Each register is written by its name with all bits set; then
 * the word of its name has the bits that the header lists, no other word has
 * changed, and the register reads as those bits, or where it is a sum as 0.
 * Each answer has words of its own, and no other number has any.
 */
#include <stdio.h>
#include <string.h>

#include "checks.h"
#include "otto.h"
#include "reference.h"

#define SAME(name, model) _Static_assert((name) == (model), #name)

SAME(OTTO_RECORD_WORDS, RECORD_WORDS);
SAME(OTTO_OUTPUT_VALUES, OUTPUT_VALUES);
SAME(OTTO_VOICES, VOICES);
SAME(OTTO_LEAST_ACTV, LEAST_ACTV);
SAME(OTTO_WHOLE_SAMPLE, WHOLE_SAMPLE);
SAME(OTTO_BANK_WORDS, BANK_WORDS);
SAME(OTTO_MOST_MEMORY_WORDS, MOST_MEMORY_WORDS);
SAME(OTTO_MOST_FILE_BYTES, MOST_FILE_BYTES);
SAME(OTTO_NO_VOICE, NO_INTERRUPT);

/* All answers, and what the model calls them. */
#define ANSWERS(ANSWER)                                    \
    ANSWER(OTTO_DONE, ANSWER_DONE)                         \
    ANSWER(OTTO_RECORD_LENGTH, ANSWER_RECORD_LENGTH)       \
    ANSWER(OTTO_RECORD_INVALID, ANSWER_RECORD_INVALID)     \
    ANSWER(OTTO_ADDRESS_ABOVE, ANSWER_ADDRESS)             \
    ANSWER(OTTO_POT_ABOVE, ANSWER_POT)                     \
    ANSWER(OTTO_MEMORY_LENGTH, ANSWER_MEMORY_LENGTH)       \
    ANSWER(OTTO_OUTPUT_LENGTH, ANSWER_OUTPUT_LENGTH)       \
    ANSWER(OTTO_TOO_FEW_VOICES, ANSWER_TOO_FEW_VOICES)     \
    ANSWER(OTTO_FILE_BROKEN, ANSWER_FILE_BROKEN)           \
    ANSWER(OTTO_CHUNK_COUNT, ANSWER_CHUNK_COUNT)           \
    ANSWER(OTTO_SAMPLE_FORMAT, ANSWER_SAMPLE_FORMAT)       \
    ANSWER(OTTO_LOOP_INVALID, ANSWER_LOOP_INVALID)         \
    ANSWER(OTTO_NO_PLACE, ANSWER_NO_PLACE)

#define SAME_ANSWER(name, model) SAME(name, model);
ANSWERS(SAME_ANSWER)

#define NUMBER(name, model) name,
static const uint32_t answers[] = { ANSWERS(NUMBER) };

SAME(OTTO_CR_STP0, CR_STP0);
SAME(OTTO_CR_STP1, CR_STP1);
SAME(OTTO_CR_LEI, CR_LEI);
SAME(OTTO_CR_LPE, CR_LPE);
SAME(OTTO_CR_BLE, CR_BLE);
SAME(OTTO_CR_IRQE, CR_IRQE);
SAME(OTTO_CR_DIR, CR_DIR);
SAME(OTTO_CR_IRQ, CR_IRQ);
SAME(OTTO_CR_LP3, CR_LP3);
SAME(OTTO_CR_LP4, CR_LP4);
SAME(OTTO_CR_CA(1u), CR_CA0);
SAME(OTTO_CR_CA(2u), CR_CA1);
SAME(OTTO_CR_CA(4u), CR_CA2);
SAME(OTTO_CR_CMPD, CR_CMPD);
SAME(OTTO_CR_BS(1u), CR_BS0);
SAME(OTTO_CR_BS(2u), CR_BS1);

SAME(OTTO_WORD_PAGE, WORD_PAGE);
SAME(OTTO_WORD_IRQV, WORD_IRQV);
SAME(OTTO_WORD_PAR, WORD_PAR);
SAME(OTTO_WORD_SLOW, WORD_SLOW);
SAME(OTTO_WORD_WRITE_LATCH, WORD_WRITE_LATCH);
SAME(OTTO_WORD_READ_LATCH, WORD_READ_LATCH);

/* From the highest bit that a register keeps to the lowest. */
#define BITS(high, low) ((uint32_t)((2ull << (high)) - (1ull << (low))))

struct row {
    const char *name;
    uint32_t number, bits;
};

#define ROW(name, bits) { #name, OTTO_##name, bits }

static const struct row lower[] = {
    ROW(CR, BITS(15, 0)),         ROW(FC, BITS(16, 0)),
    ROW(LVOL, BITS(15, 0)),       ROW(LVRAMP, BITS(15, 8)),
    ROW(RVOL, BITS(15, 0)),       ROW(RVRAMP, BITS(15, 8)),
    ROW(ECOUNT, BITS(8, 0)),      ROW(K2, BITS(15, 0)),
    ROW(K2RAMP, BITS(15, 8) | 1), ROW(K1, BITS(15, 0)),
    ROW(K1RAMP, BITS(15, 8) | 1),
};

static const struct row upper[] = {
    ROW(START, BITS(31, 11)), ROW(END, BITS(31, 7)),
    ROW(ACCUM, BITS(31, 0)),  ROW(O4_N1, BITS(17, 0)),
    ROW(O3_N1, BITS(17, 0)),  ROW(O3_N2, BITS(17, 0)),
    ROW(O2_N1, BITS(17, 0)),  ROW(O2_N2, BITS(17, 0)),
    ROW(O1_N1, BITS(17, 0)),
};

static uint32_t machine[OTTO_RECORD_WORDS];

static void put(uint32_t number, uint32_t value)
{
    for (uint32_t byte = 0; byte < 4; byte++) {
        check("a write", otto_write(machine, OTTO_RECORD_WORDS,
                                    OTTO_ADDRESS(number, byte),
                                    (uint8_t)(value >> (24 - 8 * byte))),
              OTTO_DONE);
    }
}

static uint32_t get(uint32_t number)
{
    uint32_t value = 0;

    for (uint32_t byte = 0; byte < 4; byte++) {
        uint8_t got;

        check("a read", otto_read(machine, OTTO_RECORD_WORDS,
                                  OTTO_ADDRESS(number, byte), &got),
              OTTO_DONE);
        value = value << 8 | got;
    }
    return value;
}

/* All bits into a register of a page: the record that comes of it has the bits
   that are kept in the word, and is otherwise as it was. But all bits of CR are
   the voice's flag too, so that the mask follows. */
static void check_register(uint32_t page, const struct row *row, uint32_t word)
{
    uint32_t want[OTTO_RECORD_WORDS];

    check("a reset", otto_reset(machine, OTTO_RECORD_WORDS), OTTO_DONE);
    put(OTTO_PAGE, page);
    memcpy(want, machine, sizeof want);
    want[word] = row->bits;
    if (word % 20 == OTTO_CR && word < OTTO_WORD_PAGE) {
        want[OTTO_WORD_WAITING] = 1u << word / 20;
    }
    put(row->number, 0xFFFFFFFFu);
    check_at(row->name, page, word, memcmp(machine, want, sizeof want), 0);
    check_at(row->name, page, word, get(row->number),
             word < OTTO_WORD_SUMS ? row->bits : 0);
}

static void check_voice(uint32_t voice)
{
    for (size_t i = 0; i < sizeof lower / sizeof lower[0]; i++) {
        check_register(OTTO_PAGE_LOWER(voice), &lower[i],
                       OTTO_WORD_LOWER(voice, lower[i].number));
    }
    check_register(OTTO_PAGE_UPPER(voice), &lower[0],
                   OTTO_WORD_LOWER(voice, OTTO_CR));
    for (size_t i = 0; i < sizeof upper / sizeof upper[0]; i++) {
        check_register(OTTO_PAGE_UPPER(voice), &upper[i],
                       OTTO_WORD_UPPER(voice, upper[i].number));
    }
}

/* What all voices share, on the pages of one. */
static void check_shared(uint32_t voice)
{
    const struct row actv = ROW(ACTV, BITS(4, 0));
    const struct row mode = ROW(MODE, BITS(4, 0));
    const struct row first = ROW(W_ST, BITS(6, 0));
    const struct row last = ROW(W_END, BITS(6, 0));
    const struct row right = ROW(LR_END, BITS(6, 0));

    check_register(OTTO_PAGE_LOWER(voice), &actv, OTTO_WORD_ACTV);
    check_register(OTTO_PAGE_LOWER(voice), &mode, OTTO_WORD_MODE);
    check_register(OTTO_PAGE_UPPER(voice), &first, OTTO_WORD_W_ST);
    check_register(OTTO_PAGE_UPPER(voice), &last, OTTO_WORD_W_END);
    check_register(OTTO_PAGE_UPPER(voice), &right, OTTO_WORD_LR_END);
}

/* The sums of the channels, on a page from OTTO_PAGE_CHANNELS on. */
static void check_channels(uint32_t page)
{
    for (uint32_t channel = 0; channel < OTTO_CHANNELS; channel++) {
        const struct row sums[2] = {
            { "left", OTTO_CHANNEL_LEFT(channel), BITS(22, 0) },
            { "right", OTTO_CHANNEL_RIGHT(channel), BITS(22, 0) },
        };

        for (uint32_t side = 0; side < 2; side++) {
            check_register(page, &sums[side],
                           OTTO_WORD_SUMS + 2 * channel + side);
        }
    }
}

/* The three registers that are on every page. */
static void check_on_every_page(uint32_t page)
{
    const struct row here = ROW(PAGE, BITS(6, 0));

    check_register(page, &here, OTTO_WORD_PAGE);
    check("a reset", otto_reset(machine, OTTO_RECORD_WORDS), OTTO_DONE);
    check("a pot value", otto_set_pot(machine, OTTO_RECORD_WORDS, 345),
          OTTO_DONE);
    put(OTTO_PAGE, page);
    put(OTTO_PAR, 0);
    check("PAR's word", machine[OTTO_WORD_PAR], 345);
    check("PAR", get(OTTO_PAR), 345);
    check("PAR once it was read", machine[OTTO_WORD_PAR], 1023);
    put(OTTO_IRQV, 0);
    check("IRQV's word", machine[OTTO_WORD_IRQV], OTTO_NO_VOICE);
    check("IRQV", get(OTTO_IRQV), OTTO_NO_VOICE);
}

/* ---- answers in words ---------------------------------------------------- */

static int is_answer(uint32_t number)
{
    for (size_t i = 0; i < sizeof answers / sizeof answers[0]; i++) {
        if (answers[i] == number) {
            return 1;
        }
    }
    return 0;
}

/* That the words of an answer have the size that they speak of. */
static void check_size(uint32_t answer, uint32_t size)
{
    char text[16];

    (void)snprintf(text, sizeof text, " %u", (unsigned)size);
    check_at("a size in words", answer, size,
             strstr(otto_reason(answer), text) != NULL, 1);
}

static void check_words(void)
{
    const char *no_answer = otto_reason(UINT32_MAX);

    for (uint32_t number = 0; number < 1000; number++) {
        const char *words = otto_reason(number);

        check_at("words of an answer", number, 0,
                 strcmp(words, no_answer) != 0, is_answer(number));
        for (uint32_t other = 0; other < number && is_answer(number); other++) {
            check_at("words of another", number, other,
                     strcmp(words, otto_reason(other)) != 0, 1);
        }
    }
    check_size(OTTO_RECORD_LENGTH, OTTO_RECORD_WORDS);
    check_size(OTTO_ADDRESS_ABOVE, OTTO_ADDRESS(OTTO_PAGE, 3u));
    check_size(OTTO_OUTPUT_LENGTH, OTTO_OUTPUT_VALUES);
    check_size(OTTO_TOO_FEW_VOICES, OTTO_LEAST_ACTV);
}

/* ---- the version --------------------------------------------------------- */

/* The beginning of a file, as text; of a file that is not there, nothing. */
static void read_text(const char *name, char *text, size_t size)
{
    FILE *file = fopen(name, "r");
    size_t bytes = 0;

    if (file == NULL) {
        perror(name);
    } else {
        bytes = fread(text, 1, size - 1, file);
        (void)fclose(file);
    }
    text[bytes] = '\0';
}

/* VERSION has one line, and the newest heading of the changelog is its first. */
static void check_version(const char *version, const char *changelog)
{
    const char heading[] = "\n## " OTTO_VERSION_TEXT "\n";
    char text[4096];
    const char *newest;
    int major = 0, minor = 0, patch = 0, length = 0;

    read_text(version, text, sizeof text);
    check("the version in VERSION", strcmp(text, OTTO_VERSION_TEXT "\n"), 0);
    read_text(changelog, text, sizeof text);
    newest = strstr(text, "\n## ");
    check("and in the changelog",
          newest != NULL && strncmp(newest, heading, strlen(heading)) == 0, 1);

    check("three numbers", sscanf(OTTO_VERSION_TEXT, "%d.%d.%d%n", &major,
                                  &minor, &patch, &length), 3);
    check("and nothing more", OTTO_VERSION_TEXT[length], '\0');
    check("the version as a number", OTTO_VERSION,
          10000 * major + 100 * minor + patch);
}

int main(int words, char **word)
{
    if (words != 3) {
        fprintf(stderr, "header VERSION CHANGELOG\n");
        return 2;
    }
    check_version(word[1], word[2]);
    check_words();
    for (uint32_t voice = 0; voice < OTTO_VOICES; voice++) {
        check_voice(voice);
        check_shared(voice);
    }
    for (uint32_t page = OTTO_PAGE_CHANNELS; page < 128; page++) {
        check_channels(page);
    }
    for (uint32_t page = 0; page < 128; page++) {
        check_on_every_page(page);
    }
    printf("header: %lu checks, %lu failed\n", checks, failed);
    return failed != 0;
}
