/*
 * song > SCORE: the score of "Lilac", a slow song in D major, six eighths to
 * the bar, for the voices of the chip.
 *
 *   samples.c       the sample memory, which is computed
 *   commands.c      the commands of a score, as bytes
 *   changes.c       changes of registers, and how they become commands
 *   instruments.c   a note of each instrument, as changes of registers
 *   song.c          the tune, in tables, and the arrangement: who plays what
 *
 * A held chord on D and plucked strings begin; a bowed lead has the theme, over
 * a bass that goes down the scale; the middle part leads it through B minor to
 * its highest note; the theme comes back with a second part under it; the end
 * turns away from D, comes to it by way of G minor, and stays on the held
 * chord.
 */
#include <string.h>

#include "changes.h"
#include "instruments.h"
#include "samples.h"

/* ==== the tune ============================================================ */

/* A bar's harmony, of its first and its second half: the bass, and four notes
   from the lowest up, which the strings bow and the plucked strings break. */
struct bar {
    uint8_t bass[2];
    uint8_t chord[2][CHORD_NOTES];
};

#define BOTH(...) { { __VA_ARGS__ }, { __VA_ARGS__ } }

#define INTRO_BARS 4u
#define THEME_BARS 8u
#define CODA_BARS  4u

static const struct bar intro[INTRO_BARS] = {
    { { D2, D2 }, BOTH(A3, D4, E4, A4) },
    { { D2, D2 }, BOTH(B3, D4, G4, B4) },
    { { D3, D2 }, BOTH(A3, D4, Fs4, A4) },
    { { A2, A2 }, { { A3, D4, E4, G4 }, { A3, Cs4, E4, G4 } } },
};

/* The bass goes down the scale, from D to E. */
static const struct bar theme[THEME_BARS] = {
    { { D3, A2 }, BOTH(A3, D4, Fs4, A4) },
    { { Cs3, A2 }, BOTH(A3, Cs4, E4, A4) },
    { { B2, Fs2 }, BOTH(B3, D4, Fs4, A4) },
    { { A2, Cs3 }, BOTH(A3, Cs4, Fs4, A4) },
    { { G2, D3 }, BOTH(B3, D4, G4, A4) },
    { { Fs2, A2 }, BOTH(A3, D4, Fs4, A4) },
    { { E2, B2 }, BOTH(B3, D4, E4, G4) },
    { { A2, E2 }, { { A3, D4, E4, G4 }, { A3, Cs4, E4, G4 } } },
};

/* By way of B minor, with its own dominant, back to that of D. */
static const struct bar middle[THEME_BARS] = {
    { { G2, D3 }, BOTH(B3, D4, Fs4, B4) },
    { { G2, G2 }, BOTH(A3, E4, A4, Cs5) },
    { { Fs2, Cs3 }, BOTH(A3, E4, A4, Cs5) },
    { { B2, Fs2 }, BOTH(A3, D4, Fs4, B4) },
    { { E2, B2 }, BOTH(B3, D4, G4, B4) },
    { { Fs2, As2 }, BOTH(Cs4, E4, Fs4, As4) },
    { { B2, A2 }, BOTH(B3, D4, Fs4, B4) },
    { { Gs2, A2 }, { { B3, D4, E4, B4 }, { A3, Cs4, E4, G4 } } },
};

/* Not to D at first, and by way of G minor in the end. */
static const struct bar coda[CODA_BARS] = {
    { { B2, Fs2 }, BOTH(B3, D4, Fs4, A4) },
    { { G2, D3 }, BOTH(B3, D4, G4, B4) },
    { { G2, D2 }, BOTH(As3, D4, E4, G4) },
    { { D2, D2 }, BOTH(A3, D4, Fs4, A4) },
};

struct tone {
    uint8_t note, eighths;
};

static const struct tone theme_tones[] = {
    { D5, 3 }, { Cs5, 1 }, { D5, 1 }, { Fs5, 1 },
    { E5, 5 }, { A4, 1 },
    { D5, 3 }, { Cs5, 1 }, { B4, 1 }, { D5, 1 },
    { Cs5, 3 }, { A4, 2 }, { REST, 1 },
    { B4, 3 }, { A4, 1 }, { B4, 1 }, { D5, 1 },
    { A4, 3 }, { Fs5, 3 },
    { G5, 2 }, { Fs5, 1 }, { E5, 2 }, { D5, 1 },
    { E5, 3 }, { Cs5, 2 }, { REST, 1 },
};

/* Under the theme when it comes back, mostly in sixths and thirds. */
static const struct tone second_tones[] = {
    { Fs4, 3 }, { E4, 1 }, { Fs4, 1 }, { A4, 1 },
    { A4, 3 }, { Cs5, 2 }, { A4, 1 },
    { Fs4, 3 }, { E4, 1 }, { D4, 1 }, { Fs4, 1 },
    { A4, 3 }, { Fs4, 2 }, { REST, 1 },
    { G4, 3 }, { Fs4, 1 }, { G4, 1 }, { B4, 1 },
    { Fs4, 3 }, { D5, 3 },
    { E5, 2 }, { D5, 1 }, { B4, 3 },
    { A4, 5 }, { REST, 1 },
};

/* The theme's first bar, higher and higher. */
static const struct tone middle_tones[] = {
    { G5, 3 }, { Fs5, 1 }, { G5, 1 }, { B5, 1 },
    { A5, 3 }, { E5, 3 },
    { Fs5, 3 }, { E5, 1 }, { Fs5, 1 }, { A5, 1 },
    { Fs5, 3 }, { D5, 2 }, { REST, 1 },
    { E5, 2 }, { Fs5, 1 }, { G5, 2 }, { E5, 1 },
    { Fs5, 2 }, { As5, 1 }, { Cs6, 3 },
    { D6, 3 }, { Cs6, 1 }, { B5, 1 }, { A5, 1 },
    { B5, 2 }, { Gs5, 1 }, { A5, 2 }, { REST, 1 },
};

static const struct tone coda_tones[] = {
    { D5, 3 }, { Cs5, 1 }, { D5, 1 }, { Fs5, 1 },
    { E5, 2 }, { D5, 1 }, { B4, 3 },
    { D5, 3 }, { As4, 3 },
    { A4, 8 }, { REST, 1 },
};

/* In which order a bar breaks its chord, by eighths or by sixteenths: 0 to 3
   are the four notes, and 4 to 7 the same an octave higher. */
#define UP_AND_DOWN "012321"
#define WIDE        "013523"
#define HIGH        "135746"
#define RUN_UP      "012132345467"
#define RUN_DOWN    "765645342312"

/* ==== the arrangement ===================================================== */

/* The note of a number among so many in the bar. */
static uint32_t broken(const struct bar *bar, uint32_t number,
                       const char *order)
{
    const uint8_t *chord = bar->chord[2u * number / (uint32_t)strlen(order)];
    uint32_t i = (uint32_t)(order[number] - '0');

    return chord[i % CHORD_NOTES] + OCTAVE * (i / CHORD_NOTES);
}

static void play_plucks(uint32_t tick, const struct bar *bar,
                        const char *order)
{
    uint32_t count = (uint32_t)strlen(order);
    uint32_t i;

    for (i = 0; i < count; i++) {
        pluck(tick + i * BAR / count, broken(bar, i, order));
    }
}

/* The third note and the last once more, a sixteenth and an eighth later: an
   octave higher, softer, and across the room. */
static void play_echoes(uint32_t tick, const struct bar *bar,
                        const char *order)
{
    uint32_t i;

    for (i = 0; i < 6; i += 3u) {
        echo(tick + (i + 2u) * EIGHTH + 3u * EIGHTH / 2u,
             broken(bar, i + 2u, order) + OCTAVE);
    }
}

static void play_bass(uint32_t tick, const struct bar *bar, int lively)
{
    if (lively) {
        bass(tick, bar->bass[0], 2u * EIGHTH);
        bass(tick + 2u * EIGHTH, bar->bass[0], EIGHTH);
    } else {
        bass(tick, bar->bass[0], 3u * EIGHTH);
    }
    bass(tick + 3u * EIGHTH, bar->bass[1], 3u * EIGHTH);
}

static void play_chord(uint32_t tick, const struct bar *bar)
{
    chord_pitch(tick, bar->chord[0]);
    chord_pitch(tick + 3u * EIGHTH, bar->chord[1]);
}

/* A bar of drums, by eighths: k the kick, b the brush, B that with a tom; X and
   x the hats. */
static void play_drums(uint32_t tick, const char *skins, const char *hats)
{
    uint32_t i;

    for (i = 0; i < 6; i++, tick += EIGHTH) {
        if (skins[i] == 'k') {
            drum(tick, KICK);
        }
        if (skins[i] == 'b' || skins[i] == 'B') {
            drum(tick, BRUSH);
        }
        if (skins[i] == 'B') {
            tom(tick, 260);
        }
        if (hats[i] == 'X') {
            drum(tick, HAT);
        }
        if (hats[i] == 'x') {
            drum(tick, SOFT_HAT);
        }
    }
}

/* Five strokes downward, into the next bar. */
static void play_fill(uint32_t tick)
{
    static const uint32_t steps[] = { 280, 250, 210, 180, 150 };
    uint32_t i;

    for (i = 0; i < LENGTH_OF(steps); i++) {
        tom(tick + i * EIGHTH / 2u, steps[i]);
    }
}

/* A melody: after a rest a new note, and else only a new pitch; before the
   long notes the lead turns its bow. */
static void play_melody(uint32_t tick, const struct part *part,
                        const struct tone *tones, uint32_t count)
{
    uint32_t level = part->level;
    int sounds = 0;
    uint32_t i;

    for (i = 0; i < count; i++) {
        uint32_t ticks = tones[i].eighths * EIGHTH;
        int is_long = tones[i].eighths >= 3 && part->first == LEAD_VOICE;

        if (tones[i].note == REST) {
            lead_off(tick, part);
            level += part->louder;
        } else {
            lead_pitch(tick, part, tones[i].note);
            if (!sounds) {
                lead_on(tick, part, level);
            } else if (is_long) {
                turn_bow(tick, part->first);
            }
            if (is_long) {
                vibrato(tick, part->first, tones[i].note, ticks);
            }
        }
        sounds = tones[i].note != REST;
        tick += ticks;
    }
}

/* ---- the parts ----------------------------------------------------------- */

static const struct part lead = {
    .first = LEAD_VOICE, .voices = 2, .level = 0xD300, .louder = 0x100,
    .brightness = 0x6800, .pan = 1
};
static const struct part lead_high = {
    .first = LEAD_VOICE, .voices = 2, .level = 0xD400, .louder = 0x600,
    .brightness = 0x9000, .pan = 1
};
static const struct part lead_full = {
    .first = LEAD_VOICE, .voices = 2, .level = 0xD600, .louder = 0,
    .brightness = 0x7800, .pan = 2
};
static const struct part second = {
    .first = SECOND_VOICE, .voices = 1, .level = 0xD000, .louder = 0,
    .brightness = 0x6800, .pan = -4
};

/* Plucked strings over the held chord, which has no third yet; then the bass
   and a hat. */
static void play_intro(uint32_t tick)
{
    uint32_t i;

    for (i = 0; i < INTRO_BARS; i++) {
        play_plucks(tick + i * BAR, &intro[i], UP_AND_DOWN);
        play_echoes(tick + i * BAR, &intro[i], UP_AND_DOWN);
        if (i >= 2) {
            play_bass(tick + i * BAR, &intro[i], 0);
        }
    }
    for (i = 0; i < HELD_NOTES; i++) {
        if (i == HELD_THIRD) {
            continue;
        }
        held_on(tick, i, 0x7000u);
        held_ramp(tick + i, i, 8, 8, 9);
        held_ramp(tick + (INTRO_BARS - 1u) * BAR + i, i, -16, 7, 9);
        held_off(tick + (INTRO_BARS + 1u) * BAR, i);
    }
    play_drums(tick + 3u * BAR, "......", "..x.xx");
}

/* The theme alone at first; the strings come in with its second half. */
static void play_theme(uint32_t tick)
{
    uint32_t i;

    for (i = 0; i < THEME_BARS; i++) {
        uint32_t at = tick + i * BAR;

        play_plucks(at, &theme[i], UP_AND_DOWN);
        play_bass(at, &theme[i], 0);
        play_drums(at, i < 4 ? "k....." : "k..b..", "x.xX.x");
        if (i >= 4) {
            play_chord(at, &theme[i]);
        }
    }
    chord_on(tick + 4u * BAR, 0x8400u);
    chord_ramp(tick + 4u * BAR, 9, 0, 5, 9);
    play_melody(tick, &lead, theme_tones, LENGTH_OF(theme_tones));
}

/* The strings swell and brighten up to the return. */
static void play_middle(uint32_t tick)
{
    uint32_t i;

    for (i = 0; i < THEME_BARS; i++) {
        uint32_t at = tick + i * BAR;
        int last = i + 1u == THEME_BARS;

        play_plucks(at, &middle[i], i == 6 ? RUN_UP : last ? RUN_DOWN : WIDE);
        play_bass(at, &middle[i], i >= 4);
        play_chord(at, &middle[i]);
        play_drums(at, last ? "k..b.." : i % 2u == 0 ? "k..b.k" : "k.kb..",
                   last ? "Xx...." : i < 4 ? "X.xX.x" : "XxxXxx");
    }
    play_fill(tick + (THEME_BARS - 1u) * BAR + 7u * EIGHTH / 2u);
    chord_ramp(tick + 4u * BAR, 2, 16, 4, 60);
    play_melody(tick, &lead_high, middle_tones, LENGTH_OF(middle_tones));
}

/* The theme with a second part under it, and everybody. */
static void play_return(uint32_t tick)
{
    uint32_t i;

    for (i = 0; i < THEME_BARS; i++) {
        uint32_t at = tick + i * BAR;

        play_plucks(at, &theme[i], HIGH);
        play_bass(at, &theme[i], 1);
        play_chord(at, &theme[i]);
        play_drums(at, i % 2u == 0 ? "k..B.k" : "k.kB..", "XxxXxx");
    }
    play_melody(tick, &lead_full, theme_tones, LENGTH_OF(theme_tones));
    play_melody(tick, &second, second_tones, LENGTH_OF(second_tones));
}

/* The theme's first bar once more, and one after the other leaves. */
static void play_coda(uint32_t tick)
{
    uint32_t i;

    for (i = 0; i < 3; i++) {
        uint32_t at = tick + i * BAR;

        play_plucks(at, &coda[i], UP_AND_DOWN);
        play_echoes(at, &coda[i], UP_AND_DOWN);
        play_bass(at, &coda[i], 0);
        play_chord(at, &coda[i]);
        play_drums(at, i < 2 ? "k....." : "......",
                   i < 2 ? "x..x.." : "x.....");
    }
    play_chord(tick + 3u * BAR, &coda[3]);
    chord_ramp(tick, -2, -16, 4, 60);
    chord_ramp(tick + 3u * BAR, -10, -2, 11, EIGHTH);
    chord_off(tick + 5u * BAR);
    play_melody(tick, &lead, coda_tones, LENGTH_OF(coda_tones));
}

/* The held chord with its third, and the plucked strings up to the last D. */
static void play_end(uint32_t tick)
{
    static const uint8_t rise[] = { D4, A4, D5, Fs5, A5, D6 };
    static const uint8_t last[] = { D4, A4, Fs5, D6 };
    uint32_t i;

    bass_last(tick, D2);
    for (i = 0; i < LENGTH_OF(rise); i++) {
        pluck(tick + i * EIGHTH, rise[i]);
    }
    for (i = 0; i < LENGTH_OF(last); i++) {
        pluck(tick + BAR + 3u * i, last[i]);
    }
    echo(tick + BAR + 4u * EIGHTH, D6);
    echo(tick + 2u * BAR, A5);
    echo(tick + 2u * BAR + 2u * EIGHTH, D6);
    for (i = 0; i < HELD_NOTES; i++) {
        held_on(tick, i, 0x7800u);
        held_ramp(tick + i, i, 9, 8, 7);
        held_ramp(tick + 2u * BAR + i, i, -8, 16, 11);
        held_off(tick + 4u * BAR, i);
    }
}

/* Where each begins, in bars. */
#define INTRO  0u
#define THEME  (INTRO + INTRO_BARS)
#define MIDDLE (THEME + THEME_BARS)
#define RETURN (MIDDLE + THEME_BARS)
#define CODA   (RETURN + THEME_BARS)
#define LAST   (CODA + 3u)

/* The song ends more slowly than it began. */
static const struct tempo tempos[] = {
    { 0, TICK },
    { (CODA + 1u) * BAR, 495 },
    { (CODA + 2u) * BAR, 530 },
    { LAST * BAR, 590 },
    { (LAST + 1u) * BAR, 640 },
    { (LAST + 4u) * BAR + 6u, 0 },
};

int main(void)
{
    make_memory();
    set_up_instruments();
    play_intro(INTRO * BAR);
    play_theme(THEME * BAR);
    play_middle(MIDDLE * BAR);
    play_return(RETURN * BAR);
    play_coda(CODA * BAR);
    play_end(LAST * BAR);
    write_score(tempos);
    return 0;
}
