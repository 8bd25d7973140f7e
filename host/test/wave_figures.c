/*
 * Small WAVE files with what they must give, worked out by hand: each kind of
 * loop, each refusal and their order, and the places where the wording could
 * be taken in two ways.
 *
 * The files are written out byte by byte, and numbers are plain, so that the
 * names in the header are checked too.
 */
#include "wave_figures.h"

#include <stdio.h>
#include <string.h>

#include "checks.h"
#include "reference.h"

/* ==== chunks ============================================================== */

/* Numbers of four bytes, of which the lowest is given. */
#define N(low) low "\0\0\0"
#define ZERO   N("\0")
#define FAR    "\0\0\0\200" /* 2^31 */
#define TOP    "\377\377\377\377"

/* Tag, channels, bytes of a block and bits are given; the rate is 31250, the
   bytes a second are 62500. */
#define FORMAT(tag, channels, block, bits)                                   \
    "fmt " N("\20") tag channels "\22\172\0\0" "\44\364\0\0" block bits
#define FMT    FORMAT("\1\0", "\1\0", "\2\0", "\20\0")
#define STEREO FORMAT("\1\0", "\2\0", "\4\0", "\20\0")

/* Three samples: 0201, 0403 and 0605. */
#define DATA  "data" N("\6") "\1\2\3\4\5\6"
#define EMPTY "data" ZERO
#define ODD   "data" N("\5") "\1\2\3\4\5\0"

/* A sampler chunk as far as its loops; its length and count are given. */
#define SAMPLER(length, count)                                               \
    "smpl" length ZERO ZERO ZERO ZERO ZERO ZERO ZERO count ZERO
#define LOOP(type, start, end) ZERO type start end ZERO ZERO
#define LOOPED(type, start, end)                                             \
    SAMPLER(N("\74"), N("\1")) LOOP(type, start, end)

/* One that a file may have, and one that it may not. */
#define GOOD_LOOP LOOPED(ZERO, N("\1"), N("\2"))
#define BAD_LOOP  LOOPED(ZERO, N("\1"), N("\3"))

/* Chunks that are skipped; the second is odd and has its pad, the third lacks
   a byte. */
#define SKIPPED "LIST" N("\4") "abcd"
#define PADDED  "LIST" N("\3") "abcd"
#define BROKEN  "LIST" N("\6") "abcd"

/* ==== the rows ============================================================ */

#define BANK 2097152u
#define MOST 8388608u

/* The chunks after 'WAVE' and how many bytes they are; how much more than the
   truth the RIFF length says; the words of memory, and the word; the answer,
   START, END, loop bits and samples. */
struct row {
    const char *name;
    const char *chunks;
    size_t bytes;
    int32_t more;
    size_t memory_words;
    size_t word;
    uint32_t want[5];
};

#define CHUNKS(text) text, sizeof(text) - 1

/* Where most files are brought in: at word 4 of 16. START of the loop above is
   5 x 2048, END 7 x 2048. */
#define SMALL   0, 16, 4
#define LOOPS   10240, 14336
#define GOOD    { 0, LOOPS, 8, 3 }
#define PLAIN   { 0, 0, 0, 0, 3 }
#define NOTHING { 0, 0, 0, 0, 0 }
#define NO(answer) { answer, 0, 0, 0, 0 }

static const struct row rows[] = {
    /* What is given. */
    { "samples alone", CHUNKS(FMT DATA), SMALL, PLAIN },
    { "loop of type 0", CHUNKS(FMT DATA GOOD_LOOP), SMALL, GOOD },
    { "loop of type 1", CHUNKS(FMT DATA LOOPED(N("\1"), N("\1"), N("\2"))),
      SMALL, { 0, LOOPS, 0x18, 3 } },
    { "loop of type 2", CHUNKS(FMT DATA LOOPED(N("\2"), N("\1"), N("\2"))),
      SMALL, { 0, LOOPS, 0x48, 3 } },
    { "loop of type 3", CHUNKS(FMT DATA LOOPED(N("\3"), N("\1"), N("\2"))),
      SMALL, NO(23) },
    { "loop of type 256",
      CHUNKS(FMT DATA LOOPED("\0\1\0\0", N("\1"), N("\2"))), SMALL, NO(23) },
    { "loop of type 2^31", CHUNKS(FMT DATA LOOPED(FAR, N("\1"), N("\2"))),
      SMALL, NO(23) },
    { "another order", CHUNKS(GOOD_LOOP SKIPPED DATA PADDED FMT), SMALL, GOOD },
    { "what is not looked at",
      CHUNKS(FMT DATA "smpl" N("\74") TOP TOP TOP TOP TOP TOP TOP N("\1") TOP
             TOP ZERO N("\1") N("\2") TOP TOP), SMALL, GOOD },
    { "the second of two loops",
      CHUNKS(FMT DATA SAMPLER(N("\124"), N("\2")) LOOP(ZERO, N("\1"), N("\2"))
             LOOP(TOP, TOP, ZERO)), SMALL, GOOD },
    { "no loop in the sampler chunk",
      CHUNKS(FMT DATA SAMPLER(N("\44"), ZERO)), SMALL, PLAIN },

    /* The RIFF length and the file's end. */
    { "RIFF length one more", CHUNKS(FMT DATA), 1, 16, 4, NO(20) },
    { "RIFF length two more", CHUNKS(FMT DATA), 2, 16, 4, NO(20) },
    { "RIFF length 2^31 more", CHUNKS(FMT DATA), INT32_MIN, 16, 4, NO(20) },
    { "bytes behind the RIFF chunk", CHUNKS(FMT DATA "junk"), -4, 16, 4,
      PLAIN },
    { "chunks behind it", CHUNKS(FMT DATA DATA), -14, 16, 4, PLAIN },
    { "a chunk that is needed behind it", CHUNKS(FMT DATA), -14, 16, 4,
      NO(21) },
    { "a broken chunk behind it", CHUNKS(FMT DATA BROKEN), -12, 16, 4, PLAIN },
    { "a chunk across its end", CHUNKS(FMT DATA SKIPPED), -2, 16, 4, NO(20) },
    { "data across its end", CHUNKS(FMT DATA), -2, 16, 4, NO(20) },
    { "a header across its end", CHUNKS(FMT DATA SKIPPED), -8, 16, 4, NO(20) },
    { "RIFF length 0", CHUNKS(FMT DATA), -42, 16, 4, NO(20) },
    { "RIFF length 3", CHUNKS(FMT DATA), -39, 16, 4, NO(20) },
    { "RIFF length 4", CHUNKS(FMT DATA), -38, 16, 4, NO(21) },
    { "no chunks", "", 0, SMALL, NO(21) },

    /* Headers. */
    { "1 byte left", CHUNKS(FMT DATA "L"), SMALL, NO(20) },
    { "4 bytes left", CHUNKS(FMT DATA "LIST"), SMALL, NO(20) },
    { "7 bytes left", CHUNKS(FMT DATA "LIST\0\0\0"), SMALL, NO(20) },
    { "8 bytes left", CHUNKS(FMT DATA "LIST" ZERO), SMALL, PLAIN },

    /* Lengths and pads. */
    { "a pad at the end", CHUNKS(FMT DATA PADDED), SMALL, PLAIN },
    { "no pad at the end", CHUNKS(FMT DATA "LIST" N("\3") "abc"), SMALL,
      NO(20) },
    { "a pad behind the RIFF chunk", CHUNKS(FMT DATA PADDED), -1, 16, 4,
      NO(20) },
    { "a pad in the midst", CHUNKS(FMT PADDED DATA), SMALL, PLAIN },
    { "no pad in the midst", CHUNKS(FMT "LIST" N("\3") "abc" DATA), SMALL,
      NO(20) },
    { "a format of 17 bytes", CHUNKS("fmt " N("\21") "\1\0\1\0\22\172\0\0"
                                     "\44\364\0\0\2\0\20\0" "ab" DATA),
      SMALL, PLAIN },
    { "one byte too few", CHUNKS(FMT DATA "LIST" N("\5") "abcd"), SMALL,
      NO(20) },
    { "length 2^32 - 1", CHUNKS(FMT DATA "LIST" TOP), SMALL, NO(20) },
    { "length that leads back", CHUNKS(FMT DATA "LIST\370\377\377\377"), SMALL,
      NO(20) },
    { "length 2^31", CHUNKS(FMT DATA "LIST" FAR), SMALL, NO(20) },

    /* Format and data chunks. */
    { "format missing", CHUNKS(DATA), SMALL, NO(21) },
    { "data missing", CHUNKS(FMT), SMALL, NO(21) },
    { "format twice", CHUNKS(FMT FMT DATA), SMALL, NO(21) },
    { "data twice", CHUNKS(DATA FMT DATA), SMALL, NO(21) },
    { "data twice, empty", CHUNKS(FMT DATA EMPTY), SMALL, NO(21) },
    { "a format of 15 bytes", CHUNKS("fmt " N("\17") "\1\0\1\0\22\172\0\0"
                                     "\44\364\0\0\2\0\20\0" DATA),
      SMALL, NO(20) },
    { "a second format of 4 bytes",
      CHUNKS(FMT "fmt " N("\4") "\1\0\1\0" DATA), SMALL, NO(20) },
    { "Fmt", CHUNKS("Fmt " N("\20") "\1\0\1\0\22\172\0\0" "\44\364\0\0\2\0\20\0"
                    DATA), SMALL, NO(21) },
    { "DATA", CHUNKS(FMT "DATA" N("\2") "\1\2"), SMALL, NO(21) },
    { "Data besides", CHUNKS(FMT DATA "Data" N("\2") "\1\2"), SMALL, PLAIN },
    { "data in a LIST", CHUNKS(FMT "LIST" N("\22") "adtl" DATA), SMALL,
      NO(21) },
    { "data in a LIST besides", CHUNKS(FMT "LIST" N("\22") "adtl" DATA DATA),
      SMALL, PLAIN },

    /* Kinds of sample. */
    { "tag 0", CHUNKS(FORMAT("\0\0", "\1\0", "\2\0", "\20\0") DATA), SMALL,
      NO(22) },
    { "tag 3", CHUNKS(FORMAT("\3\0", "\1\0", "\2\0", "\20\0") DATA), SMALL,
      NO(22) },
    { "tag 0101", CHUNKS(FORMAT("\1\1", "\1\0", "\2\0", "\20\0") DATA), SMALL,
      NO(22) },
    { "tag FFFE", CHUNKS(FORMAT("\376\377", "\1\0", "\2\0", "\20\0") DATA),
      SMALL, NO(22) },
    { "no channel", CHUNKS(FORMAT("\1\0", "\0\0", "\2\0", "\20\0") DATA),
      SMALL, NO(22) },
    { "two channels", CHUNKS(STEREO DATA), SMALL, NO(22) },
    { "257 channels", CHUNKS(FORMAT("\1\0", "\1\1", "\2\0", "\20\0") DATA),
      SMALL, NO(22) },
    { "8 bits", CHUNKS(FORMAT("\1\0", "\1\0", "\1\0", "\10\0") DATA), SMALL,
      NO(22) },
    { "15 bits", CHUNKS(FORMAT("\1\0", "\1\0", "\2\0", "\17\0") DATA), SMALL,
      NO(22) },
    { "24 bits", CHUNKS(FORMAT("\1\0", "\1\0", "\3\0", "\30\0") DATA), SMALL,
      NO(22) },
    { "272 bits", CHUNKS(FORMAT("\1\0", "\1\0", "\2\0", "\20\1") DATA), SMALL,
      NO(22) },
    { "blocks of 4 bytes", CHUNKS(FORMAT("\1\0", "\1\0", "\4\0", "\20\0") DATA),
      SMALL, PLAIN },
    { "any rate", CHUNKS("fmt " N("\20") "\1\0\1\0" ZERO TOP "\0\0\20\0" DATA),
      SMALL, PLAIN },
    { "odd data", CHUNKS(FMT ODD), SMALL, NO(22) },
    { "odd data of one byte", CHUNKS(FMT "data" N("\1") "\1\0"), SMALL,
      NO(22) },

    /* Sampler chunks. */
    { "35 bytes", CHUNKS(FMT DATA SAMPLER(N("\43"), ZERO)), SMALL, NO(20) },
    { "no bytes", CHUNKS(FMT DATA "smpl" ZERO), SMALL, NO(20) },
    { "one loop of two", CHUNKS(FMT DATA SAMPLER(N("\74"), N("\2"))
                                LOOP(ZERO, N("\1"), N("\2"))),
      SMALL, NO(20) },
    { "23 bytes of a loop", CHUNKS(FMT DATA SAMPLER(N("\73"), N("\1"))
                                   LOOP(ZERO, N("\1"), N("\2"))),
      SMALL, NO(20) },
    { "so many loops that 32 bits run over to 8 bytes",
      CHUNKS(FMT DATA SAMPLER(N("\74"), "\253\252\252\12")
             LOOP(ZERO, N("\1"), N("\2"))), SMALL, NO(20) },
    { "2^31 loops", CHUNKS(FMT DATA SAMPLER(N("\74"), FAR)
                           LOOP(ZERO, N("\1"), N("\2"))),
      SMALL, NO(20) },
    { "bytes behind the loops",
      CHUNKS(FMT DATA SAMPLER(N("\77"), N("\1")) LOOP(ZERO, N("\1"), N("\2"))
             "abcd"), SMALL, GOOD },
    { "SMPL", CHUNKS(FMT DATA "SMPL" N("\2") "ab"), SMALL, PLAIN },
    { "a later one without bytes", CHUNKS(FMT DATA GOOD_LOOP "smpl" ZERO),
      SMALL, GOOD },
    { "a later one with a bad loop", CHUNKS(FMT DATA GOOD_LOOP BAD_LOOP),
      SMALL, GOOD },
    { "a later one with loops that are not there",
      CHUNKS(GOOD_LOOP FMT DATA SAMPLER(N("\44"), TOP)), SMALL, GOOD },
    { "a later one with a loop, the first without",
      CHUNKS(SAMPLER(N("\44"), ZERO) GOOD_LOOP FMT DATA), SMALL, PLAIN },
    { "a later one that is broken", CHUNKS(FMT DATA GOOD_LOOP "smpl" N("\2")),
      SMALL, NO(20) },
    { "a later one that is odd, without its pad",
      CHUNKS(FMT DATA GOOD_LOOP "smpl" N("\1") "a"), SMALL, NO(20) },

    /* Points of the loop, numbers of samples. */
    { "of one sample", CHUNKS(FMT DATA LOOPED(ZERO, N("\2"), N("\2"))), SMALL,
      { 0, 12288, 14336, 8, 3 } },
    { "of all", CHUNKS(FMT DATA LOOPED(ZERO, ZERO, N("\2"))), SMALL,
      { 0, 8192, 14336, 8, 3 } },
    { "of the first", CHUNKS(FMT DATA LOOPED(ZERO, ZERO, ZERO)), SMALL,
      { 0, 8192, 10240, 8, 3 } },
    { "end past the last sample", CHUNKS(FMT DATA BAD_LOOP), SMALL, NO(23) },
    { "end at the last byte", CHUNKS(FMT DATA LOOPED(ZERO, ZERO, N("\5"))),
      SMALL, NO(23) },
    { "end before start", CHUNKS(FMT DATA LOOPED(ZERO, N("\1"), ZERO)), SMALL,
      NO(23) },
    { "start far off", CHUNKS(FMT DATA LOOPED(ZERO, FAR, N("\2"))), SMALL,
      NO(23) },
    { "end far off", CHUNKS(FMT DATA LOOPED(ZERO, ZERO, TOP)), SMALL, NO(23) },
    { "loop without samples", CHUNKS(FMT EMPTY LOOPED(ZERO, ZERO, ZERO)),
      SMALL, NO(23) },

    /* The end of memory. */
    { "just fits", CHUNKS(FMT DATA), 0, 16, 13, PLAIN },
    { "just fits, with a loop", CHUNKS(FMT DATA GOOD_LOOP), 0, 16, 13,
      { 0, 28672, 32768, 8, 3 } },
    { "one word too few", CHUNKS(FMT DATA), 0, 16, 14, NO(24) },
    { "word at the end", CHUNKS(FMT DATA), 0, 16, 16, NO(24) },
    { "no memory", CHUNKS(FMT DATA), 0, 0, 0, NO(24) },
    { "last word there is", CHUNKS(FMT DATA), 0, 16, SIZE_MAX, NO(24) },
    { "word + 3 is 0", CHUNKS(FMT DATA), 0, 16, SIZE_MAX - 2, NO(24) },
    { "word + 3 is 1", CHUNKS(FMT DATA), 0, 16, SIZE_MAX - 1, NO(24) },
    { "no samples, word at the end", CHUNKS(FMT EMPTY), 0, 16, 16, NOTHING },
    { "no samples, word past it", CHUNKS(FMT EMPTY), 0, 16, 17, NO(24) },
    { "no samples, no memory", CHUNKS(FMT EMPTY), 0, 0, 0, NOTHING },
    { "no samples, no memory, word 1", CHUNKS(FMT EMPTY), 0, 0, 1, NO(24) },
    { "no samples, last word", CHUNKS(FMT EMPTY), 0, 16, SIZE_MAX, NO(24) },
    { "no samples, a bank's end", CHUNKS(FMT EMPTY), 0, BANK, BANK, NOTHING },
    { "no samples, all memory's end", CHUNKS(FMT EMPTY), 0, MOST, MOST,
      NOTHING },

    /* The end of a bank. END fits as long as it is not 2^32. */
    { "to a bank's end", CHUNKS(FMT DATA), 0, BANK, BANK - 3, PLAIN },
    { "across it", CHUNKS(FMT DATA), 0, BANK + 1, BANK - 2, NO(24) },
    { "across it by two", CHUNKS(FMT DATA), 0, MOST, BANK - 1, NO(24) },
    { "from it on", CHUNKS(FMT DATA GOOD_LOOP), 0, BANK + 3, BANK,
      { 0, 2048, 6144, 8, 3 } },
    { "to it, looped to the last", CHUNKS(FMT DATA GOOD_LOOP), 0, MOST,
      BANK - 3, NO(24) },
    { "to it, looped to the last but one",
      CHUNKS(FMT DATA LOOPED(ZERO, ZERO, N("\1"))), 0, MOST, BANK - 3,
      { 0, 0xFFFFE800u, 0xFFFFF800u, 8, 3 } },
    { "one before it, looped to the last", CHUNKS(FMT DATA GOOD_LOOP), 0, MOST,
      BANK - 4, { 0, 0xFFFFE800u, 0xFFFFF800u, 8, 3 } },
    { "in the second bank", CHUNKS(FMT DATA GOOD_LOOP), 0, MOST, BANK + 5,
      { 0, 12288, 16384, 8, 3 } },
    { "to the third's end", CHUNKS(FMT DATA LOOPED(N("\1"), ZERO, N("\1"))), 0,
      MOST, 3 * BANK - 3, { 0, 0xFFFFE800u, 0xFFFFF800u, 0x18, 3 } },
    { "to the end of all", CHUNKS(FMT DATA), 0, MOST, MOST - 3, PLAIN },
    { "to it, looped", CHUNKS(FMT DATA GOOD_LOOP), 0, MOST, MOST - 3, NO(24) },
    { "past the end of all", CHUNKS(FMT DATA), 0, MOST, MOST - 2, NO(24) },

    /* The order of the answers; each is asked of the whole file. */
    { "memory too long", CHUNKS(FMT DATA), 0, MOST + 1, 4, NO(5) },
    { "memory too long, file broken", CHUNKS(BROKEN), 0, MOST + 1, 4, NO(5) },
    { "broken behind all else", CHUNKS(FMT DATA GOOD_LOOP BROKEN), SMALL,
      NO(20) },
    { "broken, format missing", CHUNKS(DATA BROKEN), SMALL, NO(20) },
    { "broken, data twice", CHUNKS(FMT DATA DATA BROKEN), SMALL, NO(20) },
    { "broken, stereo", CHUNKS(STEREO DATA BROKEN), SMALL, NO(20) },
    { "broken, odd data", CHUNKS(FMT ODD BROKEN), SMALL, NO(20) },
    { "broken, bad loop", CHUNKS(FMT DATA BAD_LOOP BROKEN), SMALL, NO(20) },
    { "broken, no place", CHUNKS(FMT DATA BROKEN), 0, 16, 17, NO(20) },
    { "sampler chunk short, format missing", CHUNKS(DATA "smpl" ZERO), SMALL,
      NO(20) },
    { "format twice, stereo", CHUNKS(STEREO STEREO DATA), SMALL, NO(21) },
    { "data twice, odd", CHUNKS(FMT ODD ODD), SMALL, NO(21) },
    { "format missing, bad loop", CHUNKS(BAD_LOOP DATA), SMALL, NO(21) },
    { "data missing, no place", CHUNKS(FMT), 0, 0, 17, NO(21) },
    { "stereo, bad loop", CHUNKS(BAD_LOOP STEREO DATA), SMALL, NO(22) },
    { "odd data, bad loop", CHUNKS(BAD_LOOP FMT ODD), SMALL, NO(22) },
    { "stereo, no place", CHUNKS(STEREO DATA), 0, 0, 17, NO(22) },
    { "bad loop, no place", CHUNKS(FMT DATA BAD_LOOP), 0, 0, 17, NO(23) },
};

/* ==== one file ============================================================ */

#define BEFORE 0xA5A5u /* in each word */

static uint8_t file[65600];
static size_t file_bytes;
static uint16_t memory[MOST + 16]; /* some words more than are lent */

/* The number that four bytes after 'RIFF' stand for, and then all else. */
static void set_file(const char *chunks, size_t bytes, uint32_t riff)
{
    static const char start[] = "RIFF....WAVE";
    uint32_t byte;

    memcpy(file, start, 12);
    for (byte = 0; byte < 4; byte++) {
        file[4 + byte] = (uint8_t)(riff >> 8 * byte);
    }
    memcpy(file + 12, chunks, bytes);
    file_bytes = 12 + bytes;
}

/* How many words are not what they must be: the samples of DATA in their
   places, in every other place what was there before. */
static uint32_t count_wrong(size_t words, size_t word, uint32_t samples)
{
    uint32_t wrong = 0;
    size_t place;

    for (place = 0; place < words; place++) {
        uint32_t want = BEFORE;

        if (place >= word && place - word < samples) {
            want = 0x0201u + 0x0202u * (uint32_t)(place - word);
        }
        wrong += memory[place] != want;
    }
    return wrong;
}

/* What is lent is looked at whole, and what is behind it. */
static void check_file(const char *name, size_t memory_words, size_t word,
                       const uint32_t *want)
{
    static const char *const names[5] = { "answer", "START", "END", "loop",
                                          "samples" };
    uint32_t got[5] = { 99, 99, 99, 99, 99 };
    size_t words = memory_words < MOST ? memory_words + 16 : MOST + 16;
    char text[160];
    size_t place;

    for (place = 0; place < words; place++) {
        memory[place] = BEFORE;
    }
    got[0] = reference_import(file, file_bytes, memory, memory_words, word,
                              &got[1], &got[2], &got[3], &got[4]);
    for (place = 0; place < 5; place++) {
        (void)snprintf(text, sizeof text, "wave: %s: %s", name, names[place]);
        check(text, got[place], want[place]);
    }
    (void)snprintf(text, sizeof text, "wave: %s: wrong words", name);
    check(text, count_wrong(words, word, want[4]), 0);
}

static void check_rows(void)
{
    size_t place;

    for (place = 0; place < sizeof rows / sizeof rows[0]; place++) {
        const struct row *row = &rows[place];

        set_file(row->chunks, row->bytes,
                 4 + (uint32_t)row->bytes + (uint32_t)row->more);
        check_file(row->name, row->memory_words, row->word, row->want);
    }
}

/* ==== whole files ========================================================= */

/* The front of a file, byte by byte. */
static void check_fronts(void)
{
    static const struct {
        const char *bytes;
        size_t length;
        uint32_t answer;
    } fronts[] = {
        { CHUNKS(""), 20 },
        { CHUNKS("RIFF"), 20 },
        { CHUNKS("RIFF\4\0\0\0WAV"), 20 },
        { CHUNKS("RIFF\4\0\0\0WAVE"), 21 },
        { CHUNKS("RIFF\5\0\0\0WAVE"), 20 },
        { CHUNKS("RIFF\5\0\0\0WAVEx"), 20 },
        { CHUNKS("RIFF\4\0\0\0WAVEx"), 21 },
        { CHUNKS("RIFF\3\0\0\0WAVE"), 20 },
        { CHUNKS("RIFF\0\0\0\0WAVE"), 20 },
        { CHUNKS("RIFF\4\0\1\0WAVE"), 20 },
        { CHUNKS("RIFX\0\0\0\4WAVE"), 20 },
        { CHUNKS("RIFX\4\0\0\0WAVE"), 20 },
        { CHUNKS("riff\4\0\0\0WAVE"), 20 },
        { CHUNKS("RIFF\4\0\0\0WAVe"), 20 },
        { CHUNKS("RIFF\4\0\0\0AVI "), 20 },
        { CHUNKS("RIFF\52\0\0\0WAVE" FMT DATA), 0 },
    };
    size_t place;

    for (place = 0; place < sizeof fronts / sizeof fronts[0]; place++) {
        uint32_t want[5] = { fronts[place].answer, 0, 0, 0, 0 };
        char name[16];

        memcpy(file, fronts[place].bytes, fronts[place].length);
        file_bytes = fronts[place].length;
        want[4] = want[0] == 0 ? 3 : 0;
        (void)snprintf(name, sizeof name, "front %u", (unsigned)place);
        check_file(name, 16, 4, want);
    }
}

/* 65,536 bytes are taken, whatever the RIFF length is; one more is not. The
   chunk that fills the file up has 65,536 - 12 - 24 - 14 - 8 = 65,478 bytes. */
static void check_long_files(void)
{
    static const char chunks[] = FMT DATA "fill\306\377\0\0";
    static const uint32_t done[5] = PLAIN;
    static const uint32_t refused[5] = NO(20);

    memset(file, 0, sizeof file);
    set_file(chunks, sizeof chunks - 1, 65528);
    file_bytes = 65536;
    check_file("65,536 bytes", 16, 4, done);
    file_bytes = 65535;
    check_file("one of them missing", 16, 4, refused);
    file_bytes = 65537;
    check_file("65,537 bytes", 16, 4, refused);
    set_file(chunks, sizeof chunks - 1, 42);
    file_bytes = 65536;
    check_file("65,536 bytes, all but 50 behind", 16, 4, done);
    file_bytes = 65537;
    check_file("65,537 bytes, all but 50 behind", 16, 4, refused);
}

void wave_figures(void)
{
    check_rows();
    check_fronts();
    check_long_files();
}
