/*
 * player < SCORE > WAVE: plays a score by the public calls and writes what is
 * heard as a WAVE file.
 *
 * What a score is, commands.h says. Each frame gives one sample for the left
 * and one for the right, 16 bits each, at 31,250 a second: the sum of the six
 * channels' sides, 20 bits each, divided by 16.
 *
 * A score that is no score gives one line on standard error and no sound. Else
 * the one line there says how many frames were played, how loud the loudest
 * sample is, and how many calls were refused.
 */
#include <inttypes.h>
#include <stdio.h>
#include <string.h>

#include "commands.h"
#include "otto.h"

#define RATE         31250u
#define SIDES        2u
#define SAMPLE_BYTES 4u /* both sides */
#define HEADER_BYTES 44u

/* A WAVE file counts its bytes, all but the first eight, in 32 bits. */
#define MOST_FRAMES ((0xFFFFFFFFu - (HEADER_BYTES - 8u)) / SAMPLE_BYTES)

static unsigned char score[MOST_BYTES + 1]; /* one more tells a longer one */
static unsigned char commands[MOST_COMMANDS * COMMAND_BYTES]; /* in full */
static size_t command_count;
static uint16_t memory[SCORE_WORDS];
static uint32_t machine[OTTO_RECORD_WORDS];

static uint32_t frames;  /* that the score has */
static int32_t loudest;  /* sample that was heard, without its sign */
static uint32_t refused; /* calls */

/* ==== the score =========================================================== */

static uint32_t frames_of(const unsigned char *command)
{
    if (command[0] == FRAMES) {
        return number_in(command);
    }
    return command[0] == FRAME ? 1u : 0u;
}

/* Counts the frames. Says what is wrong with the commands, or NULL. */
static const char *look_at_commands(void)
{
    uint64_t all = 0; /* at most 2^16 commands of fewer than 2^16 */
    size_t place;

    for (place = 0; place < command_count; place++) {
        const unsigned char *command = commands + place * COMMAND_BYTES;

        if (command[0] >= REPEAT) {
            return "a command of a kind that there is not, or a repeat of "
                   "commands that are not there";
        }
        all += frames_of(command);
    }
    if (all > MOST_FRAMES) {
        return "more frames than a WAVE file holds";
    }
    frames = (uint32_t)all;
    return NULL;
}

/* Nothing may be written before the whole score is known to be right. */
static const char *look_at_score(void)
{
    size_t bytes = fread(score, 1, sizeof score, stdin);

    if (ferror(stdin)) {
        return "the score cannot be read";
    }
    if (bytes > MOST_BYTES) {
        return "a score of more than 65536 bytes";
    }
    if (bytes < SCORE_MEMORY) {
        return "a score that ends within the sample memory";
    }
    if ((bytes - SCORE_MEMORY) % COMMAND_BYTES != 0) {
        return "a score that ends within a command";
    }
    command_count = put_in_full(commands, score + SCORE_MEMORY,
                                (bytes - SCORE_MEMORY) / COMMAND_BYTES);
    if (command_count > MOST_COMMANDS) {
        return "a score of more than 65536 commands in full";
    }
    return look_at_commands();
}

/* ==== the WAVE file ======================================================= */

/* The low byte first, as a WAVE file has its numbers. */
static void put_little(uint32_t value, uint32_t bytes)
{
    uint32_t byte;

    for (byte = 0; byte < bytes; byte++) {
        putchar((int)(value >> (8u * byte) & 0xFFu));
    }
}

static void put_header(void)
{
    fputs("RIFF", stdout);
    put_little(HEADER_BYTES - 8u + SAMPLE_BYTES * frames, 4);
    fputs("WAVEfmt ", stdout);
    put_little(16, 4); /* bytes, to the name of the data */
    put_little(1, 2);  /* plain samples */
    put_little(SIDES, 2);
    put_little(RATE, 4);
    put_little(SAMPLE_BYTES * RATE, 4);
    put_little(SAMPLE_BYTES, 2);
    put_little(16, 2); /* bits */
    fputs("data", stdout);
    put_little(SAMPLE_BYTES * frames, 4);
}

/* A quotient that is rounded down, which C's is not below 0. */
static int32_t sixteenth(int32_t sum)
{
    return sum >= 0 ? sum / 16 : -((15 - sum) / 16);
}

static void put_sample(int32_t sum)
{
    int32_t sample = sixteenth(sum);

    sample = sample < -32768 ? -32768 : sample > 32767 ? 32767 : sample;
    if (sample > loudest || -sample > loudest) {
        loudest = sample < 0 ? -sample : sample;
    }
    put_little((uint32_t)sample, 2);
}

/* ==== playing ============================================================= */

static void answered(uint32_t answer)
{
    if (answer != OTTO_DONE) {
        refused += 1;
    }
}

/* The output is 0 at first, so that a frame that is refused is silence. */
static void play_frame(void)
{
    int32_t output[OTTO_OUTPUT_VALUES] = { 0 };
    int32_t sums[SIDES] = { 0, 0 };
    uint32_t missing;
    uint32_t place;

    answered(otto_frame(machine, OTTO_RECORD_WORDS, memory, SCORE_WORDS,
                        output, OTTO_OUTPUT_VALUES, &missing));
    for (place = 0; place < OTTO_OUTPUT_VALUES; place++) {
        sums[place % SIDES] += output[place];
    }
    put_sample(sums[0]);
    put_sample(sums[1]);
}

static void play_frames(uint32_t count)
{
    while (count > 0) {
        play_frame();
        count -= 1;
    }
}

static void play_command(const unsigned char *command)
{
    uint32_t number = number_in(command);
    uint32_t mask;
    uint8_t byte;

    switch (command[0]) {
    case RESET:
        answered(otto_reset(machine, OTTO_RECORD_WORDS));
        break;
    case WRITE:
        answered(otto_write(machine, OTTO_RECORD_WORDS, number, command[3]));
        break;
    case READ:
        answered(otto_read(machine, OTTO_RECORD_WORDS, number, &byte));
        break;
    case POT:
        answered(otto_set_pot(machine, OTTO_RECORD_WORDS, number));
        break;
    case WAITING:
        answered(otto_waiting(machine, OTTO_RECORD_WORDS, &mask));
        break;
    default:
        play_frames(frames_of(command));
    }
}

static void play(void)
{
    size_t place;

    for (place = 0; place < SCORE_WORDS; place++) {
        memory[place] = (uint16_t)number_of(score + 2 * place, 2);
    }
    /* No valid record: what is asked before a reset is refused. */
    memset(machine, 0xFF, sizeof machine);
    for (place = 0; place < command_count; place++) {
        play_command(commands + place * COMMAND_BYTES);
    }
}

int main(void)
{
    const char *wrong = look_at_score();

    if (wrong != NULL) {
        fprintf(stderr, "player: %s\n", wrong);
        return 1;
    }
    put_header();
    play();
    if (fflush(stdout) != 0 || ferror(stdout)) {
        fprintf(stderr, "player: the sound cannot be written\n");
        return 1;
    }
    fprintf(stderr,
            "player: %" PRIu32 " frames, loudest %" PRId32 ", %" PRIu32
            " calls refused\n", frames, loudest, refused);
    return 0;
}
