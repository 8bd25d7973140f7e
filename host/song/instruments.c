/*
 * The instruments. A register costs the score a command for each of its bytes
 * that is not 0, so a note writes only what changes: what stays is set up once;
 * sounds that are played once die away in their samples; bowed ones go on to
 * the next note by their pitch alone.
 */
#include "instruments.h"

#include "changes.h"
#include "samples.h"

/* ---- pitch and level ----------------------------------------------------- */

#define RATE 31250u

/* The step of a voice: the pitch times the 2048ths of a wave, over the rate.
   The pitches are those of the octave from C8 on, in millionths of a hertz. */
static uint32_t step_for(uint32_t note, uint32_t wave)
{
    static const uint64_t octave_8[OCTAVE] = {
        4186009045, 4434922096, 4698636287, 4978031740, 5274040911, 5587651703,
        5919910763, 6271926976, 6644875161, 7040000000, 7458620184, 7902132820
    };
    uint64_t down = UINT64_C(1) << (9u - note / OCTAVE);
    uint64_t whole = UINT64_C(1000000) * RATE * down;

    return (uint32_t)((octave_8[note % OCTAVE] * wave + whole / 2) / whole);
}

/* Of a volume 0x1000 is 6 dB. A pan is how many eighths of that a sound is
   louder on the right, and softer on the left, than in the middle. */
static void set_volumes(uint32_t tick, uint32_t voice, uint32_t level,
                        int32_t pan)
{
    int32_t aside = 0x200 * pan;

    set(tick, voice, VOICE_LVOL, (uint32_t)((int32_t)level - aside));
    set(tick, voice, VOICE_RVOL, (uint32_t)((int32_t)level + aside));
}

/* A signed number as a ramp register has it. */
static uint32_t ramp(int32_t step)
{
    return ((uint32_t)step & 0xFFu) << 8;
}

#define SLOW 1u /* a ramp of K1 or K2 that moves in every eighth frame */

static void set_volume_ramps(uint32_t tick, uint32_t voice, int32_t step)
{
    set(tick, voice, VOICE_LVRAMP, ramp(step));
    set(tick, voice, VOICE_RVRAMP, ramp(step));
}

#define SHORT_COUNT 255u /* frames of a ramp, in one byte */

/* The ramps of a voice for so many ticks, a count for each. */
static void run_ramps(uint32_t tick, uint32_t voice, uint32_t ticks)
{
    uint32_t i;

    for (i = 0; i < ticks; i++) {
        set(tick + i, voice, VOICE_ECOUNT, TICK);
    }
}

/* ---- voices -------------------------------------------------------------- */

#define AT(word)      ((word) * WHOLE_SAMPLE)
#define TO_CHANNEL(n) ((n) * CR_CA0)
#define ALL_LOW       (CR_LP4 | CR_LP3)
#define OPEN          0xFFF0u /* a low pass */
#define LET_PASS      0xFF00u /* a high pass, all above 10 Hz */

/* Who has which voices. */
#define BASS_VOICE   0u  /* two, in turn */
#define KICK_VOICE   2u
#define BRUSH_VOICE  3u
#define HAT_VOICE    4u  /* the loud one, and the soft one */
#define TOM_VOICE    6u
#define ECHO_VOICE   7u  /* two, in turn */
#define PLUCK_VOICE  9u  /* six, in turn; then the three of the melodies */
#define CHORD_VOICE  18u /* four notes, two to each */
#define HELD_VOICE   26u /* five notes */

#define PLUCK_CR   0u /* 0 is one byte: two low passes, two high, channel 0 */
#define STRINGS_CR (ALL_LOW | CR_LPE | TO_CHANNEL(1))
#define LEAD_CR    (ALL_LOW | CR_LPE | TO_CHANNEL(2))
#define BASS_CR    (ALL_LOW | CR_LPE | TO_CHANNEL(3))
#define SKIN_CR    (ALL_LOW | TO_CHANNEL(4))
#define BRUSH_CR   (CR_LP3 | CR_CMPD | TO_CHANNEL(4))
#define HAT_CR     (CR_CMPD | TO_CHANNEL(4)) /* two low passes, two high */
#define HELD_CR    (ALL_LOW | CR_LPE | TO_CHANNEL(5))

/* What stays as it is for a voice. */
static void set_up(uint32_t voice, uint32_t word, uint32_t length, uint32_t k1,
                   uint32_t k2)
{
    set(0, voice, VOICE_START, AT(word));
    set(0, voice, VOICE_END, AT(word) + length);
    set(0, voice, VOICE_K1, k1);
    set(0, voice, VOICE_K2, k2);
}

static void stop(uint32_t tick, uint32_t voice, uint32_t cr)
{
    set(tick, voice, VOICE_CR, cr | CR_STP1);
}

/* ---- plucked strings ----------------------------------------------------- */

#define PLUCK_VOICES 6u
#define ECHO_VOICES  2u

/* A bar of eighths takes the six in turn, so that its first and its fourth have
   a voice each, which is louder. */
static void set_up_plucks(void)
{
    static const struct {
        uint32_t level;
        int32_t pan;
    } voices[ECHO_VOICES + PLUCK_VOICES] = {
        { 0xD000, 5 }, { 0xD000, -5 },
        { 0xE200, -2 }, { 0xDC00, 1 }, { 0xDD00, 4 },
        { 0xE000, -3 }, { 0xDC00, 3 }, { 0xDD00, -1 },
    };
    uint32_t i;

    for (i = 0; i < LENGTH_OF(voices); i++) {
        uint32_t voice = ECHO_VOICE + i;

        set_up(voice, PLUCK, AT(PLUCK_WORDS - 1u), OPEN, LET_PASS);
        set(0, voice, VOICE_K1RAMP, ramp(-110));
        set_volumes(0, voice, voices[i].level, voices[i].pan);
    }
}

/* Played once: it dies away in its sample, and the filter closes at once by
   some way, so that it is brighter at first. */
static void pluck_on(uint32_t tick, uint32_t voice, uint32_t note,
                     uint32_t brightness)
{
    set(tick, voice, VOICE_FC, step_for(note, PLUCK_WAVE));
    set(tick, voice, VOICE_K1, brightness);
    set(tick, voice, VOICE_ECOUNT, SHORT_COUNT);
    set(tick, voice, VOICE_ACCUM, AT(PLUCK));
    set(tick, voice, VOICE_CR, PLUCK_CR);
}

void pluck(uint32_t tick, uint32_t note)
{
    static uint32_t turn;

    pluck_on(tick, PLUCK_VOICE + turn, note, OPEN);
    turn = (turn + 1u) % PLUCK_VOICES;
}

void echo(uint32_t tick, uint32_t note)
{
    static uint32_t turn;

    pluck_on(tick, ECHO_VOICE + turn, note, 0xC000u);
    turn = (turn + 1u) % ECHO_VOICES;
}

/* ---- the bass ------------------------------------------------------------ */

#define BASS_VOICES 2u
#define BASS_LEVEL  0xE000u

/* One ramp is a note's first fall and its release. That of K1 is slow: a filter
   that comes to K1 0 does not forget its note, and the next one clicks. */
static void set_up_bass(void)
{
    uint32_t voice;

    for (voice = BASS_VOICE; voice < BASS_VOICE + BASS_VOICES; voice++) {
        set_up(voice, BASS, BASS_WAVE, 0, 0x6000u);
        set_volume_ramps(0, voice, -40);
        set(0, voice, VOICE_K1RAMP, ramp(-88) | SLOW);
    }
}

static uint32_t bass_on(uint32_t tick, uint32_t note)
{
    static uint32_t turn;
    uint32_t voice = BASS_VOICE + turn;

    set(tick, voice, VOICE_FC, step_for(note, BASS_WAVE));
    set_volumes(tick, voice, BASS_LEVEL, 0);
    set(tick, voice, VOICE_K1, 0x4000u);
    set(tick, voice, VOICE_ECOUNT, 80);
    set(tick, voice, VOICE_ACCUM, AT(BASS));
    set(tick, voice, VOICE_CR, BASS_CR);
    turn = (turn + 1u) % BASS_VOICES;
    return voice;
}

void bass(uint32_t tick, uint32_t note, uint32_t ticks)
{
    uint32_t voice = bass_on(tick, note);

    run_ramps(tick + ticks - 2u, voice, 2);
    stop(tick + ticks, voice, BASS_CR);
}

/* The last note dies away for three bars. */
void bass_last(uint32_t tick, uint32_t note)
{
    uint32_t voice = bass_on(tick, note);
    uint32_t i;

    set(tick + 1u, voice, VOICE_K1RAMP, 0);
    set_volume_ramps(tick + 1u, voice, -7);
    for (i = EIGHTH; i < 3u * BAR; i += EIGHTH) {
        set(tick + i, voice, VOICE_ECOUNT, SHORT_COUNT);
    }
    stop(tick + 3u * BAR, voice, BASS_CR);
}

/* ---- drums --------------------------------------------------------------- */

/* Played once, and each at one level. */
static const struct sound {
    uint32_t voice, word, words;
    uint32_t step, level;
    int32_t pan;
    uint32_t k1, k2, cr;
} drums[] = {
    [KICK] = { KICK_VOICE, THUMP, THUMP_WORDS, 96, 0xE600, 0,
               0x3000, 0x6000, SKIN_CR },
    [TOM] = { TOM_VOICE, THUMP, THUMP_WORDS, 200, 0xD800, 0,
              0x5000, 0x8000, SKIN_CR },
    [BRUSH] = { BRUSH_VOICE, NOISE, NOISE_WORDS, 900, 0xD400, -1,
                0x9000, 0xB000, BRUSH_CR },
    [HAT] = { HAT_VOICE, NOISE, NOISE_WORDS, 1900, 0xD400, 3,
              OPEN, 0, HAT_CR },
    [SOFT_HAT] = { HAT_VOICE + 1u, NOISE, NOISE_WORDS, 2700, 0xCC00, 3,
                   OPEN, 0, HAT_CR },
};

static void set_up_drums(void)
{
    uint32_t i;

    for (i = 0; i < LENGTH_OF(drums); i++) {
        const struct sound *d = &drums[i];

        set_up(d->voice, d->word, AT(d->words - 1u), d->k1, d->k2);
        set(0, d->voice, VOICE_FC, d->step);
        set_volumes(0, d->voice, d->level, d->pan);
    }
}

void drum(uint32_t tick, enum drum number)
{
    set(tick, drums[number].voice, VOICE_ACCUM, AT(drums[number].word));
    set(tick, drums[number].voice, VOICE_CR, drums[number].cr);
}

void tom(uint32_t tick, uint32_t step)
{
    set(tick, TOM_VOICE, VOICE_FC, step);
    drum(tick, TOM);
}

/* ---- the lead ------------------------------------------------------------ */

#define ATTACK_STEP   16
#define ATTACK_TICKS  2u
#define RELEASE_STEP  (-24)
#define RELEASE_TICKS 3u

/* So much lower a level starts that the ramp takes it to where it has to be. */
#define ATTACK ((uint32_t)ATTACK_STEP * ATTACK_TICKS * TICK)

static void set_up_lead(uint32_t first, uint32_t voices)
{
    uint32_t i;

    for (i = 0; i < voices; i++) {
        set_up(first + i, LEAD, LEAD_WAVE, 0, 0xB000u);
    }
}

/* The other voice is two steps of FC higher, at most 2.2 cents. */
void lead_pitch(uint32_t tick, const struct part *part, uint32_t note)
{
    uint32_t i;

    for (i = 0; i < part->voices; i++) {
        set(tick, part->first + i, VOICE_FC,
            step_for(note, LEAD_WAVE) + 2u * i);
    }
}

void lead_on(uint32_t tick, const struct part *part, uint32_t level)
{
    uint32_t i;

    for (i = 0; i < part->voices; i++) {
        uint32_t voice = part->first + i;

        set_volumes(tick, voice, level - 0x1400u * i - ATTACK,
                    i == 0 ? part->pan : -3 * part->pan);
        set(tick, voice, VOICE_K1, part->brightness - ATTACK);
        set(tick, voice, VOICE_K1RAMP, ramp(ATTACK_STEP));
        set_volume_ramps(tick, voice, ATTACK_STEP);
        run_ramps(tick, voice, ATTACK_TICKS);
        set(tick, voice, VOICE_ACCUM, AT(LEAD));
        set(tick, voice, VOICE_CR, LEAD_CR);
        set(tick + ATTACK_TICKS, voice, VOICE_K1RAMP, 0);
    }
}

void lead_off(uint32_t tick, const struct part *part)
{
    uint32_t i;

    for (i = 0; i < part->voices; i++) {
        set_volume_ramps(tick, part->first + i, RELEASE_STEP);
        run_ramps(tick, part->first + i, RELEASE_TICKS);
        stop(tick + RELEASE_TICKS, part->first + i, LEAD_CR);
    }
}

/* The bow turns: 6 dB down before the tick, and up again. */
void turn_bow(uint32_t tick, uint32_t voice)
{
    set_volume_ramps(tick - 1u, voice, -ATTACK_STEP);
    set(tick - 1u, voice, VOICE_ECOUNT, SHORT_COUNT);
    set_volume_ramps(tick, voice, ATTACK_STEP);
    set(tick, voice, VOICE_ECOUNT, SHORT_COUNT);
}

/* Five times a second up and down by some 8 cents, once a note has been held
   for an eighth. Of the lead's two voices the one has it. */
void vibrato(uint32_t tick, uint32_t voice, uint32_t note, uint32_t ticks)
{
    uint32_t step = step_for(note, LEAD_WAVE);
    uint32_t depth = (step + 108u) / 216u;
    uint32_t i = 0;
    uint32_t at;

    for (at = EIGHTH; at + 3u <= ticks; at += 3u) {
        static const uint32_t parts[] = { 2, 1, 0, 1 };

        set(tick + at, voice, VOICE_FC, step - depth +
                                        depth * parts[i % LENGTH_OF(parts)]);
        i += 1u;
    }
}

/* ---- the strings --------------------------------------------------------- */

#define PAIR         2u
#define CHORD_VOICES (PAIR * CHORD_NOTES)

static void set_up_chord(void)
{
    uint32_t i;

    for (i = 0; i < CHORD_VOICES; i++) {
        set_up(CHORD_VOICE + i, STRINGS, STRINGS_WAVE, 0x3800u, 0x8000u);
    }
}

/* The two voices of a note are a step of FC below and above it, at most 1.7
   cents, on the two sides. */
void chord_pitch(uint32_t tick, const uint8_t *notes)
{
    uint32_t i;

    for (i = 0; i < CHORD_NOTES; i++) {
        uint32_t step = step_for(notes[i], STRINGS_WAVE);

        set(tick, CHORD_VOICE + PAIR * i, VOICE_FC, step - 1u);
        set(tick, CHORD_VOICE + PAIR * i + 1u, VOICE_FC, step + 1u);
    }
}

/* No two begin at one place of their wave, so that they do not beat as one;
   they are too soft yet for that to be heard as a click. */
void chord_on(uint32_t tick, uint32_t level)
{
    uint32_t i;

    for (i = 0; i < CHORD_VOICES; i++) {
        set_volumes(tick, CHORD_VOICE + i, level, i % PAIR == 0 ? -6 : 6);
        set(tick, CHORD_VOICE + i, VOICE_ACCUM, AT(STRINGS + 13u * i % 64u));
        set(tick, CHORD_VOICE + i, VOICE_CR, STRINGS_CR);
    }
}

void chord_ramp(uint32_t tick, int32_t louder, int32_t brighter,
                uint32_t counts, uint32_t apart)
{
    uint32_t i, count;

    for (i = 0; i < CHORD_VOICES; i++) {
        uint32_t voice = CHORD_VOICE + i;

        set_volume_ramps(tick, voice, louder);
        set(tick, voice, VOICE_K1RAMP, ramp(brighter));
        for (count = 0; count < counts; count++) {
            set(tick + count * apart, voice, VOICE_ECOUNT, SHORT_COUNT);
        }
    }
}

void chord_off(uint32_t tick)
{
    uint32_t i;

    for (i = 0; i < CHORD_VOICES; i++) {
        stop(tick, CHORD_VOICE + i, STRINGS_CR);
    }
}

/* ---- the held chord ------------------------------------------------------ */

/* Each note is on the loop of its name, which is exactly in tune. */
static const struct held {
    uint32_t note, word, wave;
    int32_t pan;
} held[HELD_NOTES] = {
    { D3, HELD_D, HELD_D_WAVE, 0 },
    { A3, HELD_A, HELD_A_WAVE, -5 },
    { D4, HELD_D, HELD_D_WAVE, 5 },
    { Fs4, HELD_FS, HELD_FS_WAVE, -3 },
    { A4, HELD_A, HELD_A_WAVE, 3 },
};

static void set_up_held(void)
{
    uint32_t i;

    for (i = 0; i < HELD_NOTES; i++) {
        set_up(HELD_VOICE + i, held[i].word, held[i].wave, 0x4000u, OPEN);
        set(0, HELD_VOICE + i, VOICE_FC, step_for(held[i].note, held[i].wave));
    }
}

void held_on(uint32_t tick, uint32_t i, uint32_t level)
{
    set_volumes(tick, HELD_VOICE + i, level, held[i].pan);
    set(tick, HELD_VOICE + i, VOICE_ACCUM, AT(held[i].word));
    set(tick, HELD_VOICE + i, VOICE_CR, HELD_CR);
}

void held_ramp(uint32_t tick, uint32_t i, int32_t step, uint32_t counts,
               uint32_t apart)
{
    uint32_t count;

    set_volume_ramps(tick, HELD_VOICE + i, step);
    for (count = 0; count < counts; count++) {
        set(tick + count * apart, HELD_VOICE + i, VOICE_ECOUNT, SHORT_COUNT);
    }
}

void held_off(uint32_t tick, uint32_t i)
{
    stop(tick, HELD_VOICE + i, HELD_CR);
}

/* ---- all of them --------------------------------------------------------- */

void set_up_instruments(void)
{
    set_up_plucks();
    set_up_bass();
    set_up_drums();
    set_up_lead(LEAD_VOICE, 2);
    set_up_lead(SECOND_VOICE, 1);
    set_up_chord();
    set_up_held();
}
