/*
 * nulls: a buffer of length 0 may be a null pointer, in every call and place
 * that takes a length. Each call is made so by the library and by the model,
 * and the answers and all that is lent are compared.
 */
#include <stdio.h>
#include <string.h>

#include "checks.h"
#include "otto.h"
#include "reference.h"

#define NOTHING 0x5A5A5A5Au /* in every place before a call */

/* What one side lends. A length of 0 makes the pointer null. */
struct lent {
    uint32_t record[OTTO_RECORD_WORDS];
    uint16_t memory[4];
    int32_t output[OTTO_OUTPUT_VALUES];
    uint32_t given[4];
    uint8_t byte;
};

static struct lent library, model;

static void prepare(struct lent *lent)
{
    memset(lent, 0, sizeof *lent);
    for (size_t i = 0; i < 4; i++) {
        lent->given[i] = NOTHING;
    }
    lent->byte = 0x5A;
    check("a reset", reference_reset(lent->record, OTTO_RECORD_WORDS), 0);
    lent->record[0] = 0; /* voice 0 runs */
}

static void begin(void)
{
    prepare(&library);
    prepare(&model);
}

static void agree(const char *name, uint32_t got, uint32_t want)
{
    check(name, got, want);
    check(name, memcmp(&library, &model, sizeof library), 0);
}

#define OR_NULL(pointer, length) ((length) == 0 ? NULL : (pointer))
#define RECORD(lent, length)     OR_NULL((lent).record, length), length
#define MEMORY(lent, length)     OR_NULL((lent).memory, length), length
#define OUTPUT(lent, length)     OR_NULL((lent).output, length), length

static void check_frames(void)
{
    const size_t records[2] = { 0, OTTO_RECORD_WORDS };
    const size_t memories[2] = { 0, 4 };
    const size_t outputs[2] = { 0, OTTO_OUTPUT_VALUES };

    for (int i = 0; i < 8; i++) {
        size_t words = records[i & 1];
        size_t memory = memories[i >> 1 & 1];
        size_t values = outputs[i >> 2];

        begin();
        agree("a frame",
              otto_frame(RECORD(library, words), MEMORY(library, memory),
                         OUTPUT(library, values), library.given),
              reference_frame(RECORD(model, words), MEMORY(model, memory),
                              OUTPUT(model, values), model.given));
    }
}

static void check_other_calls(void)
{
    size_t none = 0; /* a variable: of a constant compilers warn */

    begin();
    agree("a reset", otto_reset(NULL, none), reference_reset(NULL, 0));
    agree("a write", otto_write(NULL, none, 3, 1),
          reference_write(NULL, 0, 3, 1));
    agree("a pot value", otto_set_pot(NULL, none, 5),
          reference_set_pot(NULL, 0, 5));
    agree("a read", otto_read(NULL, none, 3, &library.byte),
          reference_read(NULL, 0, 3, &model.byte));
    begin();
    agree("a mask", otto_waiting(NULL, none, library.given),
          reference_waiting(NULL, 0, model.given));
}

/* A file of no samples, and one of one. */
static const uint8_t silent[44] = "RIFF\44\0\0\0WAVEfmt \20\0\0\0\1\0\1\0"
                                  "\22\172\0\0\44\364\0\0\2\0\20\0data";
static const uint8_t single[46] = "RIFF\46\0\0\0WAVEfmt \20\0\0\0\1\0\1\0"
                                  "\22\172\0\0\44\364\0\0\2\0\20\0data\2\0\0\0"
                                  "\7";

static void check_import(const uint8_t *file, size_t bytes, size_t memory,
                         uint32_t answer)
{
    uint32_t *got = library.given;
    uint32_t *want = model.given;
    uint32_t answered;

    begin();
    answered = otto_import(OR_NULL(file, bytes), bytes,
                           MEMORY(library, memory), 0, &got[0], &got[1],
                           &got[2], &got[3]);
    check("an import's answer", answered, answer);
    agree("an import", answered,
          reference_import(OR_NULL(file, bytes), bytes, MEMORY(model, memory),
                           0, &want[0], &want[1], &want[2], &want[3]));
}

int main(void)
{
    check_frames();
    check_other_calls();
    check_import(NULL, 0, 4, OTTO_FILE_BROKEN);
    check_import(NULL, 0, 0, OTTO_FILE_BROKEN);
    check_import(silent, sizeof silent, 0, OTTO_DONE);
    check_import(single, sizeof single, 0, OTTO_NO_PLACE);
    check_import(single, sizeof single, 4, OTTO_DONE);
    printf("nulls: %lu checks, %lu failed\n", checks, failed);
    return failed != 0;
}
