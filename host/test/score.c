/*
 * The scores that the programs crates/score and crates/play play, and what the
 * first of them has to print. What a score is, commands.h says.
 *
 *   score make          writes the score of crates/score
 *   score short         writes that of crates/play, which has few frames; what
 *                       is heard of it, player.c says
 *   score play < SCORE  plays a score on the reference model and prints one
 *                       line for each call
 *
 * The score sets its voices up as a host does, by bytes: the page, and then
 * the four bytes of each register.
 */
#include <inttypes.h>
#include <stdio.h>
#include <string.h>

#include "commands.h"
#include "reference.h"

#define LAST_KIND 255u

/* ==== the sample memory =================================================== */

/* Six shapes share the memory; each begins at one of these words. */
#define SAW      0u
#define TRIANGLE 512u
#define NOISE    1024u
#define CODES    2048u
#define HIGHEST  3072u
#define LOWEST   3584u

/* Bytes that look like chance and are the same each time. */
static uint32_t noise_byte(uint32_t place)
{
    return (place * 1664525u + 1013904223u) / 65536u % 256u;
}

static uint32_t sample_word(uint32_t place)
{
    if (place >= LOWEST) {
        return 0x8000u;
    }
    if (place >= HIGHEST) {
        return 0x7FFFu;
    }
    if (place >= CODES) {
        /* Every code; the low byte must not be heard. */
        return 256u * ((place - CODES) * 37u % 256u) + noise_byte(place);
    }
    if (place >= NOISE) {
        return 256u * noise_byte(place) + noise_byte(place + 5000u);
    }
    if (place >= TRIANGLE) {
        uint32_t step = (place - TRIANGLE) % 32u;

        return (step < 16u ? step : 32u - step) * 4000u % 65536u;
    }
    return (place + 1u) * 1280u % 65536u;
}

/* ==== the voices ========================================================== */

#define AT(word)      ((word) * 2048u) /* as START, END and ACCUM have it */
#define TO_CHANNEL(n) ((n) * CR_CA0)
#define ALL_LOW       (CR_LP4 | CR_LP3)
#define BOTH_WAYS     (CR_BLE | CR_LPE)

#define SET_WORDS 14u /* the words of a voice that the host sets */

/* Each row is the words 0 to 13 of a voice: CR, FC, LVOL, LVRAMP, RVOL, RVRAMP,
   ECOUNT, K2, K2RAMP, K1, K1RAMP; then START, END, ACCUM. */
static const uint32_t voices[][SET_WORDS] = {
    /* 0, 1: to the end, and to the start, which is address 0; there they stop
       and interrupt. */
    { ALL_LOW | CR_IRQE | TO_CHANNEL(0), 0x0733,
      0xE000, 0, 0xD800, 0, 0, 0xF000, 0, 0xE000, 0,
      AT(SAW + 16), AT(SAW + 60) + 0x480, AT(SAW + 16) },
    { ALL_LOW | CR_IRQE | CR_DIR | TO_CHANNEL(0), 0x0911,
      0xC340, 0, 0xE120, 0, 0, 0xFFFF, 0, 0xFFFF, 0,
      AT(SAW), AT(SAW + 44), AT(SAW + 43) + 0x3FF },
    /* 2, 3: round and round; 3 also steps on its start itself. All four ramps,
       up and down, also to the limits; K1 has the slow bit. */
    { ALL_LOW | CR_LPE | TO_CHANNEL(1), 0x0A37,
      0xA000, 0x7F00, 0xF000, 0x8100, 300, 0xFFFF, 0xC000, 0x4000, 0x4001,
      AT(TRIANGLE), AT(TRIANGLE + 32), AT(TRIANGLE + 3) },
    { ALL_LOW | CR_LPE | CR_DIR | TO_CHANNEL(1), 0x0400,
      0x0130, 0xFF00, 0xFF80, 0x0500, 100, 0xFF00, 0x1000, 0x0140, 0xE001,
      AT(TRIANGLE + 64), AT(TRIANGLE + 80) + 0x780, AT(TRIANGLE + 70) },
    /* 4, 5: one jump, and then on for good. */
    { ALL_LOW | CR_BLE | CR_IRQE | TO_CHANNEL(2), 0x0D05,
      0xD000, 0, 0xC000, 0, 0, 0xD000, 0, 0xD000, 0,
      AT(NOISE + 200), AT(NOISE + 60), AT(NOISE + 20) },
    { ALL_LOW | CR_BLE | CR_IRQE | CR_DIR | TO_CHANNEL(2), 0x0B99,
      0xCF00, 0, 0xDF00, 0, 0, 0xD000, 0, 0xD000, 0,
      AT(NOISE + 500), AT(NOISE + 900), AT(NOISE + 540) },
    /* 6, 7: to and fro. */
    { CR_LP4 | BOTH_WAYS | CR_IRQE | TO_CHANNEL(3), 0x1001,
      0xE400, 0, 0xE800, 0, 0, 0x8000, 0, 0xFFFF, 0,
      AT(SAW + 100), AT(SAW + 130) + 0x80, AT(SAW + 101) },
    { CR_LP3 | BOTH_WAYS | CR_IRQE | CR_DIR | TO_CHANNEL(3), 0x07FF,
      0xE200, 0, 0xE600, 0, 0, 0xFFF0, 0, 0x9000, 0,
      AT(SAW + 200), AT(SAW + 225), AT(SAW + 220) + 0x123 },
    /* 8, 9: compressed samples, through high pass poles; 8 steps on its end
       itself. */
    { CR_CMPD | CR_LPE | TO_CHANNEL(4), 0x0800,
      0xF400, 0, 0xF000, 0, 0, 0xF800, 0, 0xFFFF, 0,
      AT(CODES), AT(CODES + 250), AT(CODES + 7) },
    { CR_CMPD | CR_LP3 | BOTH_WAYS | CR_DIR | TO_CHANNEL(4), 0x1F0F,
      0xEC00, 0xFE00, 0xE000, 0x0300, 511, 0xFFFF, 0xF001, 0xFFFF, 0xFD00,
      AT(CODES + 300), AT(CODES + 420), AT(CODES + 360) },
    /* 10, 11: past END out of the memory, and below word 0 to the top of
       the bank. */
    { ALL_LOW | CR_LEI | TO_CHANNEL(5), 0x0C40,
      0xD800, 0, 0xD000, 0, 0, 0xFFFF, 0, 0xFFFF, 0,
      AT(SAW), AT(SAW + 10), AT(LOWEST + 300) },
    { ALL_LOW | CR_LEI | CR_DIR | TO_CHANNEL(5), 0x0155,
      0xD400, 0, 0xD200, 0, 0, 0xFFFF, 0, 0xFFFF, 0,
      AT(SAW + 20), AT(SAW + 30), AT(SAW + 6) },
    /* 12: END at the top, so that the next address has more than 32 bits. */
    { ALL_LOW | CR_LPE | CR_IRQE | TO_CHANNEL(5), 0x1ABC,
      0xC800, 0, 0xC000, 0, 0, 0xFFFF, 0, 0xFFFF, 0,
      AT(2097136), 0xFFFFFF80, 0xFFFFF000 },
    /* 13, 14: the two channel numbers that go nowhere. */
    { ALL_LOW | CR_LPE | TO_CHANNEL(6), 0x0800,
      0xFFF0, 0, 0xFFF0, 0, 0, 0xFFFF, 0, 0xFFFF, 0,
      AT(HIGHEST), AT(HIGHEST + 40), AT(HIGHEST) },
    { ALL_LOW | CR_LPE | TO_CHANNEL(7), 0x0800,
      0xFFF0, 0, 0xFFF0, 0, 0, 0xFFFF, 0, 0xFFFF, 0,
      AT(HIGHEST), AT(HIGHEST + 40), AT(HIGHEST) },
    /* 15: a bank that the memory does not reach. */
    { ALL_LOW | CR_LPE | CR_BS0 | TO_CHANNEL(1), 0x0800,
      0xFFF0, 0, 0xFFF0, 0, 0, 0xFFFF, 0, 0xFFFF, 0,
      AT(HIGHEST), AT(HIGHEST + 40), AT(HIGHEST) },
};

#define TABLE_VOICES ((uint32_t)(sizeof voices / sizeof voices[0]))

/* The voices of the chords: as loud as can be, on one sample. */
static const uint32_t highest[SET_WORDS] = {
    ALL_LOW | CR_LPE | TO_CHANNEL(0), 0x0400,
    0xFFF0, 0, 0xF7F0, 0, 0, 0xFFFF, 0, 0xFFFF, 0,
    AT(HIGHEST), AT(HIGHEST + 40), AT(HIGHEST)
};
static const uint32_t lowest[SET_WORDS] = {
    ALL_LOW | CR_LPE | TO_CHANNEL(4), 0x0400,
    0xFFF0, 0, 0xE7F0, 0, 0, 0xFFFF, 0, 0xFFFF, 0,
    AT(LOWEST), AT(LOWEST + 40), AT(LOWEST)
};

/* Voices about the ends of memory and bank, the last four. Two cross the
   memory's end, one forward and one in reverse; one stays on the last word of
   the bank, whose next is word 0; one is in a bank that is not there. */
static const uint32_t ends[][SET_WORDS] = {
    { ALL_LOW | TO_CHANNEL(2), 0x0200,
      0xE000, 0, 0xE000, 0, 0, 0xFFFF, 0, 0xFFFF, 0,
      0, 0xFFFFFF80, AT(SCORE_WORDS - 3) },
    { ALL_LOW | CR_DIR | TO_CHANNEL(3), 0x0355,
      0xE000, 0, 0xE000, 0, 0, 0xFFFF, 0, 0xFFFF, 0,
      0, 0xFFFFFF80, AT(SCORE_WORDS + 2) },
    { ALL_LOW | CR_LEI | TO_CHANNEL(4), 0,
      0xE000, 0, 0xE000, 0, 0, 0xFFFF, 0, 0xFFFF, 0,
      0, 0xFFFFFF80, AT(BANK_WORDS - 1) },
    { ALL_LOW | CR_LEI | CR_BS1 | TO_CHANNEL(4), 0x0800,
      0xE000, 0, 0xE000, 0, 0, 0xFFFF, 0, 0xFFFF, 0,
      0, 0xFFFFFF80, 0 },
};

#define END_VOICES ((uint32_t)(sizeof ends / sizeof ends[0]))

/* ==== commands ============================================================ */

static void who_waits(void)
{
    put_command(WAITING, 0, 0);
}

static void frames(uint32_t count)
{
    while (count > 0) {
        put_command(FRAME, 0, 0);
        count -= 1;
    }
}

/* ==== registers =========================================================== */

#define PAR  13u
#define IRQV 14u
#define PAGE 15u

/* The same registers on each page of their kind. */
#define HIGH_PAGES 32u
#define SUM_PAGES  64u
#define ACTV       11u
#define MODE       12u

static void put_register(uint32_t number, uint32_t value)
{
    uint32_t byte;

    for (byte = 0; byte < 4; byte++) {
        put_command(WRITE, 4 * number + byte,
                    value >> (24 - 8 * byte) & 0xFFu);
    }
}

static void get_register(uint32_t number)
{
    uint32_t byte;

    for (byte = 0; byte < 4; byte++) {
        put_command(READ, 4 * number + byte, 0);
    }
}

static void turn_to(uint32_t page)
{
    put_register(PAGE, page);
}

/* The first registers of a page; each value is one step from the last. */
static void put_registers(uint32_t page, uint32_t count, uint32_t value,
                          uint32_t step)
{
    uint32_t number;

    turn_to(page);
    for (number = 0; number < count; number++) {
        put_register(number, value + step * number);
    }
}

static void get_registers(uint32_t page, uint32_t count)
{
    uint32_t number;

    turn_to(page);
    for (number = 0; number < count; number++) {
        get_register(number);
    }
}

/* CR last, so that the voice starts with everything set. */
static void set_voice(uint32_t voice, const uint32_t *words)
{
    uint32_t word;

    turn_to(HIGH_PAGES + voice);
    for (word = VOICE_START; word <= VOICE_ACCUM; word++) {
        put_register(word - VOICE_START + 1, words[word]);
    }
    turn_to(voice);
    for (word = VOICE_FC; word <= VOICE_K1RAMP; word++) {
        put_register(word, words[word]);
    }
    put_register(VOICE_CR, words[VOICE_CR]);
}

static void set_control(uint32_t page, uint32_t cr)
{
    turn_to(page);
    put_register(VOICE_CR, cr);
}

/* ==== the passages of the score =========================================== */

/* Nothing is done before the reset. A repeat that goes back past the first
   command is none, and stays none where it is repeated; one that goes back to
   the first is one. */
static void play_refused(void)
{
    put_command(WRITE, 4 * PAGE + 3, 5);
    put_command(REPEAT, 2, 1);
    put_command(REPEAT, 1, 1);
    put_command(REPEAT, 3, 1);
    put_command(READ, 4 * IRQV, 0);
    put_command(POT, 300, 0);
    put_command(FRAME, 0, 0);
    put_command(FRAMES, 2, 0);
    who_waits();
    put_command(RESET, 0, 0);
    who_waits();
    put_command(FRAME, 0, 0);
    put_command(READ, 64, 0);
    put_command(WRITE, 64, 1);
    put_command(WRITE, MOST_NUMBER, 1);
    put_command(POT, 1024, 0);
    put_command(KINDS, 0, 0);
    put_command(LAST_KIND, MOST_NUMBER, 255);
    put_command(FRAMES, 0, 0);
    put_command(FRAMES, 3, 255);
}

/* Every register of each kind of page takes a value of its own and then ones,
   and is read; the reset takes all of it back. */
static void play_registers(void)
{
    static const uint32_t pages[] = { 5, HIGH_PAGES + 5, SUM_PAGES + 5 };
    uint32_t kind;

    for (kind = 0; kind < 3; kind++) {
        put_registers(pages[kind], PAGE, 0xFEDCBA98u, 0x9E3779B9u);
        get_registers(pages[kind], 16);
        put_registers(pages[kind], PAGE, 0xFFFFFFFFu, 0);
        get_registers(pages[kind], 16);
    }
    put_command(FRAME, 0, 0);
    get_registers(HIGH_PAGES + 5, 10);
    put_command(RESET, 0, 0);
    get_registers(5, 16);
}

/* Bytes of several registers meet in the latches; the pot result reads once. */
static void play_latches(void)
{
    turn_to(3);
    put_command(WRITE, 4 * VOICE_LVOL, 0x12);
    put_command(WRITE, 4 * VOICE_RVOL + 2, 0x34);
    put_command(WRITE, 4 * VOICE_K1 + 3, 0x56);
    put_command(WRITE, 4 * VOICE_K2 + 3, 0x78);
    get_register(VOICE_K1);
    get_register(VOICE_K2);
    put_command(READ, 4 * VOICE_CR + 3, 0);
    put_command(POT, 725, 0);
    get_register(PAR);
    get_register(PAR);
    put_command(POT, 1023, 0);
    get_register(PAR);
}

/* The voices about the ends: each alone, all four, and all but the last, which
   is inactive; then they stop, one after another. */
static void play_ends(void)
{
    uint32_t first = VOICES - END_VOICES;
    uint32_t voice;

    for (voice = 0; voice < END_VOICES; voice++) {
        set_voice(first + voice, ends[voice]);
        frames(16);
        set_control(first + voice, CR_STP1);
    }
    for (voice = 0; voice < END_VOICES; voice++) {
        set_voice(first + voice, ends[voice]);
    }
    frames(8);
    put_register(ACTV, VOICES - 2);
    frames(2);
    put_register(ACTV, VOICES - 1);
    for (voice = 0; voice < END_VOICES; voice++) {
        frames(1);
        set_control(first + voice, CR_STP1);
    }
    frames(2); /* eighty in all, so that the slow-ramp counter comes round */
}

/* All voices of the table; the host answers an interrupt every fourth frame,
   so that voices wait for their turn. */
static void play_voices(void)
{
    uint32_t voice;
    uint32_t round;

    for (voice = 0; voice < TABLE_VOICES; voice++) {
        set_voice(voice, voices[voice]);
    }
    for (round = 0; round < 50; round++) {
        frames(4);
        who_waits();
        get_register(IRQV);
        who_waits();
    }
}

/* A voice that stopped by itself starts again; another is stopped, reads as
   stopped, and goes on. */
static void play_stops(void)
{
    set_voice(0, voices[0]);
    set_control(6, voices[6][VOICE_CR] | CR_STP1);
    set_control(HIGH_PAGES + 7, voices[7][VOICE_CR] | CR_STP0);
    frames(20);
    get_registers(HIGH_PAGES + 6, 10);
    set_control(HIGH_PAGES + 6, voices[6][VOICE_CR]);
    set_control(7, voices[7][VOICE_CR]);
    frames(40);
    get_register(IRQV);
    get_register(IRQV);
}

/* Five voices; one to four, of which no frame is played, and five again, which
   go on where they were; then all. */
static void play_fewer(void)
{
    uint32_t last;

    turn_to(0);
    put_register(ACTV, LEAST_ACTV);
    frames(12);
    for (last = 0; last <= LEAST_ACTV; last++) {
        put_register(ACTV, last);
        frames(1);
    }
    put_register(ACTV, VOICES - 1);
    frames(4);
}

/* Sums that the host sets go out with the voices' values on top. */
static void play_sums(void)
{
    put_registers(SUM_PAGES, OUTPUT_VALUES, 0x07FFF0u, 0x0B4321u);
    get_register(0);
    frames(2);
}

/* Nine voices one after another on channel 0: it stays at its upper rail
   until the ninth takes the sum around. Then three on channel 4, down. */
static void play_chords(void)
{
    uint32_t voice;

    for (voice = 16; voice < 25; voice++) {
        set_voice(voice, highest);
        frames(6);
    }
    for (voice = 25; voice < 28; voice++) {
        set_voice(voice, lowest);
        frames(6);
    }
}

/* What all this left in the record. */
static void play_end(void)
{
    uint32_t voice;

    for (voice = 0; voice < 28; voice++) {
        get_registers(voice, 11);
        get_registers(HIGH_PAGES + voice, 10);
    }
    get_register(IRQV);
    put_command(RESET, 0, 0);
    frames(1);
}

/* Every voice gets its flag on one of its pages and loses it on the other, the
   odd ones the other way round. Ten voices are active. */
static void play_flags(void)
{
    uint32_t voice;

    turn_to(0);
    put_register(ACTV, 9);
    for (voice = 0; voice < VOICES; voice++) {
        set_control(voice % 2 * HIGH_PAGES + voice, CR_STP0 | CR_IRQ);
        who_waits();
    }
    for (voice = VOICES; voice-- > 0;) {
        set_control((1 - voice % 2) * HIGH_PAGES + voice, CR_STP0);
        who_waits();
    }
}

/* What leaves the flags alone: bytes 0 to 2 of a control register, another
   register, the place after the sums, and the pot. */
static void play_no_flags(void)
{
    set_control(12, 0xFFFFu);
    who_waits();
    put_command(WRITE, 4 * VOICE_CR, 0);
    put_command(WRITE, 4 * VOICE_CR + 1, 0);
    put_command(WRITE, 4 * VOICE_CR + 2, 0);
    who_waits();
    put_register(VOICE_LVOL, 0);
    turn_to(SUM_PAGES);
    put_register(OUTPUT_VALUES, 0xFFFFFFFFu);
    get_register(OUTPUT_VALUES);
    put_register(OUTPUT_VALUES, 0);
    put_command(POT, 128, 0);
    who_waits();
    set_control(HIGH_PAGES + 12, 0xFF7Fu);
    who_waits();
}

/* Two voices come into the vector, one after the other; a third, which is not
   active, waits until its control register is written. */
static void play_turns(void)
{
    uint32_t round;

    set_control(9, CR_STP0 | CR_IRQ);
    set_control(HIGH_PAGES + 10, CR_STP0 | CR_IRQ);
    set_control(2, CR_STP1 | CR_IRQ);
    who_waits();
    for (round = 0; round < 3; round++) {
        frames(1);
        who_waits();
        get_register(IRQV);
        who_waits();
    }
    set_control(10, CR_STP0);
    who_waits();
}

/* Three voices stop at their loop points; the second may not interrupt. */
static void play_events(void)
{
    uint32_t round;

    set_voice(3, voices[0]);
    set_voice(4, voices[0]);
    set_control(4, voices[0][VOICE_CR] & ~CR_IRQE);
    set_voice(8, voices[1]);
    who_waits();
    for (round = 0; round < 4; round++) {
        frames(16);
        who_waits();
        get_register(IRQV);
        who_waits();
    }
}

/* The waiting voices, until none waits. */
static void play_waiting(void)
{
    play_flags();
    play_no_flags();
    play_turns();
    play_events();
    put_command(RESET, 0, 0);
    who_waits();
}

/* Commands once more: all from one on, all but the last of them, some that were
   repeated themselves, none, and as many as one repeat can ask for. One that
   asks for more commands than it goes back by is no repeat, and neither is one
   that goes back too far, be it for none. */
static void play_repeats(void)
{
    put_command(POT, 333, 0);
    get_register(PAR);
    put_command(REPEAT, 5, 5);
    put_command(REPEAT, 5, 4);
    put_command(REPEAT, 7, 6);
    put_command(REPEAT, 3, 0);
    put_command(REPEAT, 0, 0);
    put_command(REPEAT, 2, 3);
    put_command(REPEAT, 0, 1);
    put_command(REPEAT, MOST_NUMBER, 1);
    put_command(REPEAT, MOST_NUMBER, 0);
    put_command(REPEAT, MOST_REPEATED, MOST_REPEATED);
    put_command(REPEAT, 2 * MOST_REPEATED, MOST_REPEATED);
}

static void put_memory(void)
{
    uint32_t place;

    for (place = 0; place < SCORE_WORDS; place++) {
        put_number(sample_word(place), 2);
    }
}

static void make(void)
{
    put_memory();
    play_refused();
    play_registers();
    play_latches();
    play_ends();
    play_voices();
    play_stops();
    play_fewer();
    play_sums();
    play_chords();
    play_end();
    play_waiting();
    play_repeats();
    put_number(0, 3); /* a command cut short, which gives no line */
}

/* ==== the short score ===================================================== */

/* The same words on three channels, to be louder than 16 bits. */
static void set_on_channels(uint32_t voice, const uint32_t *words)
{
    uint32_t channel;
    uint32_t moved[SET_WORDS];

    memcpy(moved, words, sizeof moved);
    for (channel = 0; channel < 3; channel++) {
        moved[VOICE_CR] = ALL_LOW | CR_LPE | TO_CHANNEL(channel);
        set_voice(voice + channel, moved);
    }
}

/* Frames that are refused, a chord on all channels, the highest and the lowest
   that there is, one by one and many at once; and calls after the last. */
static void make_short(void)
{
    uint32_t voice;

    put_memory();
    put_command(FRAME, 0, 0);
    put_command(FRAMES, 2, 0);
    put_command(RESET, 0, 0);
    for (voice = 0; voice < 12; voice++) {
        set_voice(voice, voices[voice]);
    }
    put_command(FRAMES, 40, 0);
    put_command(FRAMES, 0, 0);
    set_on_channels(16, highest);
    put_command(FRAMES, 6, 0);
    put_command(FRAME, 0, 0);
    put_command(REPEAT, 2, 2);
    turn_to(0);
    put_register(ACTV, 3);
    put_command(FRAMES, 2, 0);
    put_register(ACTV, 31);
    set_on_channels(16, lowest);
    put_command(FRAMES, 7, 0);
    get_register(IRQV);
    put_command(POT, 1024, 0);
    who_waits();
}

/* ==== playing ============================================================= */

static unsigned char input[MOST_BYTES];
static unsigned char full[MOST_COMMANDS * COMMAND_BYTES];
static uint16_t memory[SCORE_WORDS];
static uint32_t record[RECORD_WORDS];

static void print_frame(void)
{
    int32_t output[OUTPUT_VALUES] = { 0 };
    uint32_t place;
    uint32_t missing;
    uint32_t answer = reference_frame(record, RECORD_WORDS, memory,
                                      SCORE_WORDS, output, OUTPUT_VALUES,
                                      &missing);

    printf("%" PRIu32 " %" PRIu32, answer, missing);
    for (place = 0; place < OUTPUT_VALUES; place++) {
        printf(" %" PRId32, output[place]);
    }
    printf("\n");
}

static void print_read(uint32_t address)
{
    uint8_t byte;
    uint32_t answer = reference_read(record, RECORD_WORDS, address, &byte);

    printf("%" PRIu32 " %u\n", answer, (unsigned)byte);
}

static void print_waiting(void)
{
    uint32_t mask;
    uint32_t answer = reference_waiting(record, RECORD_WORDS, &mask);

    printf("%" PRIu32 " %" PRIu32 "\n", answer, mask);
}

static void print_answer(uint32_t answer)
{
    printf("%" PRIu32 "\n", answer);
}

/* As many lines as frames, or that there was none. */
static void print_frames(uint32_t count)
{
    if (count == 0) {
        printf("no call\n");
    }
    for (; count > 0; count--) {
        print_frame();
    }
}

static void play_command(const unsigned char *command)
{
    uint32_t number = number_in(command);

    switch (command[0]) {
    case RESET:
        print_answer(reference_reset(record, RECORD_WORDS));
        break;
    case WRITE:
        print_answer(reference_write(record, RECORD_WORDS, number,
                                     command[3]));
        break;
    case READ:
        print_read(number);
        break;
    case POT:
        print_answer(reference_set_pot(record, RECORD_WORDS, number));
        break;
    case FRAME:
        print_frame();
        break;
    case WAITING:
        print_waiting();
        break;
    case FRAMES:
        print_frames(number);
        break;
    default:
        printf("no call\n");
    }
}

static void play(void)
{
    size_t bytes = fread(input, 1, sizeof input, stdin);
    size_t commands;
    size_t place;

    if (bytes < SCORE_MEMORY) {
        return;
    }
    commands = put_in_full(full, input + SCORE_MEMORY,
                           (bytes - SCORE_MEMORY) / COMMAND_BYTES);
    if (commands > MOST_COMMANDS) {
        return;
    }
    for (place = 0; place < SCORE_WORDS; place++) {
        memory[place] = (uint16_t)number_of(input + 2 * place, 2);
    }
    /* No valid record: what is asked before a reset is refused. */
    memset(record, 0xFF, sizeof record);
    for (place = 0; place < commands; place++) {
        play_command(full + place * COMMAND_BYTES);
    }
}

int main(int count, char **words)
{
    if (count == 2 && strcmp(words[1], "make") == 0) {
        make();
        return 0;
    }
    if (count == 2 && strcmp(words[1], "short") == 0) {
        make_short();
        return 0;
    }
    if (count == 2 && strcmp(words[1], "play") == 0) {
        play();
        return 0;
    }
    fprintf(stderr, "usage: score make, score short, or score play < SCORE\n");
    return 2;
}
