/*
 * Changes of registers, gathered, sorted and written as a score (commands.h).
 * What changes nothing is left out, and commands that stand there already are
 * repeated.
 */
#include <stdio.h>
#include <stdlib.h>
#include <string.h>

#include "changes.h"
#include "commands.h"
#include "samples.h"

/* A change of a register, by the number of its word in the voice. */
struct change {
    uint32_t tick, voice, word, value;
    uint32_t order; /* of two changes of one register the later one counts */
};

static struct change changes[MOST_COMMANDS];
static uint32_t change_count;

static void give_up(const char *why)
{
    fprintf(stderr, "song: %s\n", why);
    exit(1);
}

void set(uint32_t tick, uint32_t voice, uint32_t word, uint32_t value)
{
    struct change *change = &changes[change_count];

    if (change_count == LENGTH_OF(changes)) {
        give_up("more changes than a score has room for");
    }
    *change = (struct change){ tick, voice, word, value, change_count };
    change_count += 1;
}

/* ---- in the order of time ------------------------------------------------ */

/* The lower page, the upper page, and CR last, which is on both. */
static uint32_t rank(uint32_t word)
{
    return word == VOICE_CR ? VOICE_WORDS : word;
}

static int compare(uint32_t a, uint32_t b)
{
    return (a > b) - (a < b);
}

static int in_order(const void *first, const void *second)
{
    const struct change *a = first;
    const struct change *b = second;
    int by = compare(a->tick, b->tick);

    by = by != 0 ? by : compare(a->voice, b->voice);
    by = by != 0 ? by : compare(rank(a->word), rank(b->word));
    return by != 0 ? by : compare(a->order, b->order);
}

static int is_same_register(const struct change *a, const struct change *b)
{
    return a->tick == b->tick && a->voice == b->voice && a->word == b->word;
}

/* ---- as commands --------------------------------------------------------- */

struct command {
    uint32_t kind, number, byte;
};

static struct command commands[MOST_COMMANDS];
static uint32_t command_count;

static void command(enum kind kind, uint32_t number, uint32_t byte)
{
    if (command_count == MOST_COMMANDS) {
        give_up("more commands than a score may have");
    }
    commands[command_count] = (struct command){ kind, number, byte };
    command_count += 1;
}

/* Byte 3 stores the register, and leaves a latch of 0: of the others only
   those are written that are not. */
static void put_register(uint32_t number, uint32_t value)
{
    uint32_t byte;

    for (byte = 0; byte < 4; byte++) {
        uint32_t part = value >> (24 - 8 * byte) & 0xFFu;

        if (part != 0 || byte == 3) {
            command(WRITE, 4 * number + byte, part);
        }
    }
}

/* ---- what need not be written -------------------------------------------- */

#define REGISTER_PAGE 15u
#define UPPER_PAGES   32u
#define NOT_KNOWN     0xFFFFFFFFu

static uint32_t page;
static uint32_t known[VOICES][VOICE_WORDS]; /* what a register has, or not */

/* The ramp that moves a level, or CR for what is none. */
static uint32_t ramp_of(uint32_t word)
{
    switch (word) {
    case VOICE_LVOL:
    case VOICE_RVOL:
    case VOICE_K1:
    case VOICE_K2:
        return word + 1u;
    default:
        return VOICE_CR;
    }
}

static int is_ramp(uint32_t word)
{
    return word == VOICE_LVRAMP || word == VOICE_RVRAMP ||
           word == VOICE_K1RAMP || word == VOICE_K2RAMP;
}

/* A register keeps what is written, but for those that the chip changes: a
   level whose ramp is not 0, the count, the place, and CR. */
static void remember(uint32_t voice, uint32_t word, uint32_t value)
{
    uint32_t *words = known[voice];
    uint32_t ramp = ramp_of(word);

    words[word] = value;
    if (is_ramp(word) && value != 0) {
        words[word - 1u] = NOT_KNOWN;
    }
    if (word == VOICE_ECOUNT || word == VOICE_ACCUM || word == VOICE_CR ||
        (ramp != VOICE_CR && words[ramp] != 0)) {
        words[word] = NOT_KNOWN;
    }
}

static void turn_to(uint32_t next)
{
    if (page != next) {
        put_register(REGISTER_PAGE, next);
        page = next;
    }
}

static void write_change(const struct change *change)
{
    uint32_t voice = change->voice;
    uint32_t word = change->word;

    if (known[voice][word] == change->value) {
        return;
    }
    if (word >= VOICE_START) {
        turn_to(UPPER_PAGES + voice);
        put_register(word - VOICE_START + 1u, change->value);
    } else {
        if (word != VOICE_CR || page != UPPER_PAGES + voice) {
            turn_to(voice);
        }
        put_register(word, change->value);
    }
    remember(voice, word, change->value);
}

/* After a reset all is 0 but CR; a voice's place does not stay so. */
static void write_reset(void)
{
    uint32_t voice;

    command(RESET, 0, 0);
    page = 0;
    memset(known, 0, sizeof known);
    for (voice = 0; voice < VOICES; voice++) {
        known[voice][VOICE_CR] = NOT_KNOWN;
        known[voice][VOICE_ACCUM] = NOT_KNOWN;
    }
}

/* ---- in frames ----------------------------------------------------------- */

static uint32_t least(uint32_t a, uint32_t b)
{
    return a < b ? a : b;
}

/* The last tempo, which has no frames, is where the song ends. */
static uint32_t frames_before(const struct tempo *tempo, uint32_t tick)
{
    uint32_t frames = 0;

    for (; tempo->frames != 0 && tempo->tick < tick; tempo++) {
        frames += tempo->frames * (least(tempo[1].tick, tick) - tempo->tick);
    }
    return frames;
}

static void write_frames(const struct tempo *tempos, uint32_t from,
                         uint32_t to)
{
    uint32_t frames = frames_before(tempos, to) - frames_before(tempos, from);

    for (; frames > MOST_NUMBER; frames -= MOST_NUMBER) {
        command(FRAMES, MOST_NUMBER, 0);
    }
    command(FRAMES, frames, 0);
}

static uint32_t end_of(const struct tempo *tempo)
{
    while (tempo->frames != 0) {
        tempo++;
    }
    return tempo->tick;
}

/* ---- as bytes ------------------------------------------------------------ */

static int is_same_command(const struct command *a, const struct command *b)
{
    return a->kind == b->kind && a->number == b->number && a->byte == b->byte;
}

/* How many commands from one on are the same as those from an earlier one on,
   which end before it. */
static uint32_t same_from(uint32_t earlier, uint32_t one)
{
    uint32_t most = least(least(one - earlier, command_count - one),
                          MOST_REPEATED);
    uint32_t same = 0;

    while (same < most && is_same_command(&commands[earlier + same],
                                          &commands[one + same])) {
        same += 1;
    }
    return same;
}

/* The most that a repeat can stand for from one command on, and how far back
   they are. */
static uint32_t longest_repeat(uint32_t one, uint32_t *back)
{
    uint32_t longest = 0;
    uint32_t distance;

    for (distance = 1; distance <= least(one, MOST_NUMBER); distance++) {
        uint32_t same = same_from(one - distance, one);

        if (same > longest) {
            longest = same;
            *back = distance;
        }
    }
    return longest;
}

static struct command shorter[MOST_COMMANDS]; /* the same, with repeats */

/* A repeat of one command would be no shorter than the command. */
static uint32_t shorten(void)
{
    uint32_t count = 0;
    uint32_t i, more, back = 0;

    for (i = 0; i < command_count; i += more, count++) {
        more = longest_repeat(i, &back);
        if (more > 1) {
            shorter[count] = (struct command){ REPEAT, back, more };
        } else {
            more = 1;
            shorter[count] = commands[i];
        }
    }
    return count;
}

static void gather_commands(const struct tempo *tempos)
{
    uint32_t tick = 0;
    uint32_t i;

    qsort(changes, change_count, sizeof changes[0], in_order);
    write_reset();
    for (i = 0; i < change_count; i++) {
        const struct change *change = &changes[i];

        if (i + 1 < change_count && is_same_register(change, change + 1)) {
            continue;
        }
        if (change->tick > tick) {
            write_frames(tempos, tick, change->tick);
            tick = change->tick;
        }
        write_change(change);
    }
    write_frames(tempos, tick, end_of(tempos));
}

void write_score(const struct tempo *tempos)
{
    uint32_t count;
    uint32_t i;

    gather_commands(tempos);
    count = shorten();
    if (SCORE_MEMORY + COMMAND_BYTES * count > MOST_BYTES) {
        give_up("more bytes than a score may have");
    }
    for (i = 0; i < SCORE_WORDS; i++) {
        put_number(memory[i], 2);
    }
    for (i = 0; i < count; i++) {
        put_command(shorter[i].kind, shorter[i].number, shorter[i].byte);
    }
    if (fflush(stdout) != 0 || ferror(stdout)) {
        give_up("the score cannot be written");
    }
}
