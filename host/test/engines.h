/*
 * The engines behind one table of calls, so that a test or a bench is written
 * once: the library, the reference model, and the builds of the C for speed.
 */
#ifndef ENGINES_H
#define ENGINES_H

#include <stddef.h>
#include <stdint.h>

struct engine {
    const char *name;
    uint32_t (*reset)(uint32_t *record, size_t words);
    uint32_t (*write)(uint32_t *record, size_t words, uint32_t address,
                      uint8_t value);
    uint32_t (*read)(uint32_t *record, size_t words, uint32_t address,
                     uint8_t *byte);
    uint32_t (*set_pot)(uint32_t *record, size_t words, uint32_t pot);
    uint32_t (*frame)(uint32_t *record, size_t words, const uint16_t *memory,
                      size_t memory_words, int32_t *output,
                      size_t output_values, uint32_t *missing);
    uint32_t (*waiting)(const uint32_t *record, size_t words, uint32_t *mask);
    uint32_t (*import)(const uint8_t *file, size_t file_bytes,
                       uint16_t *memory, size_t memory_words, size_t word,
                       uint32_t *start, uint32_t *end, uint32_t *loop,
                       uint32_t *samples);
    uint8_t (*compress)(int16_t sample);
    int16_t (*expand)(uint8_t code);
};

extern const struct engine engine_otto;
extern const struct engine engine_reference;

/* The engine of a name, or NULL. */
const struct engine *engine_named(const char *name);

#endif
