/*
 * The engine in C as one would write it for speed, in the order of the rules:
 * words of 32 bits, shifts for divisions, a table for codes, vectors of
 * sixteen bytes where the same is done to many words, and each of the library's
 * own shapes that saves something here too. It makes the same checks as the
 * library and is compared with the reference model too, so that the measure
 * itself is known to be right.
 *
 * It is built by more than one compiler: ENGINE is the table of calls that a
 * build gives, NAME what it is called.
 *
 * It is for x86-64 alone: the flags of sixteen voices are taken by one of its
 * own instructions.
 *
 * Shifting a negative number right is left to the compiler by the language;
 * every compiler that this is for keeps the sign, which rounds down.
 */
#include <emmintrin.h>
#include <string.h>

#include "reference.h"
#include "swift.h"

#define UNFOLD inline __attribute__((always_inline))
#define LIKELY(test) __builtin_expect((test), 1)

/* ==== the check =========================================================== */

static const uint32_t voice_stray[VOICE_WORDS] = {
    ~0xFFFFu,  ~0x1FFFFu, ~0xFFFFu,  ~0xFF00u,     ~0xFFFFu,
    ~0xFF00u,  ~0x1FFu,   ~0xFFFFu,  ~0xFF01u,     ~0xFFFFu,
    ~0xFF01u,  0x7FFu,    0x7Fu,     0u,           ~0x3FFFFu,
    ~0x3FFFFu, ~0x3FFFFu, ~0x3FFFFu, ~0x3FFFFu,    ~0x3FFFFu
};

static const uint32_t shared_stray[RECORD_WORDS - WORD_PAGE] = {
    ~0x7Fu,     ~0xFFu,     ~0x3FFu,    ~0x1Fu,     ~0x1Fu,     ~0x7Fu,
    ~0x7Fu,     ~0x7Fu,     ~0x7u,      0u,         0u,         ~0x7FFFFFu,
    ~0x7FFFFFu, ~0x7FFFFFu, ~0x7FFFFFu, ~0x7FFFFFu, ~0x7FFFFFu, ~0x7FFFFFu,
    ~0x7FFFFFu, ~0x7FFFFFu, ~0x7FFFFFu, ~0x7FFFFFu, ~0x7FFFFFu, 0u
};

typedef uint32_t four __attribute__((vector_size(16)));

static UNFOLD four four_at(const uint32_t *words)
{
    four all;

    memcpy(&all, words, sizeof all);
    return all;
}

/* The bits of four words, of eight voices and of all. */
static UNFOLD four eight(const uint32_t *words)
{
    return four_at(words) | four_at(words + VOICE_WORDS) |
           four_at(words + 2 * VOICE_WORDS) | four_at(words + 3 * VOICE_WORDS) |
           four_at(words + 4 * VOICE_WORDS) | four_at(words + 5 * VOICE_WORDS) |
           four_at(words + 6 * VOICE_WORDS) | four_at(words + 7 * VOICE_WORDS);
}

static UNFOLD four gather(const uint32_t *words)
{
    return eight(words) | eight(words + 8 * VOICE_WORDS) |
           eight(words + 16 * VOICE_WORDS) | eight(words + 24 * VOICE_WORDS);
}

/* Of some voices the bits of their first four words, and beside each other the
   low bytes of their control registers, which are the first of these. */
struct firsts {
    four bits;
    __m128i lows;
};

static UNFOLD struct firsts two_firsts(const uint32_t *words)
{
    four one = four_at(words);
    four other = four_at(words + VOICE_WORDS);

    return (struct firsts){ one | other,
                            _mm_unpacklo_epi8((__m128i)one, (__m128i)other) };
}

static UNFOLD struct firsts four_firsts(const uint32_t *words)
{
    struct firsts one = two_firsts(words);
    struct firsts other = two_firsts(words + 2 * VOICE_WORDS);

    return (struct firsts){ one.bits | other.bits,
                            _mm_unpacklo_epi16(one.lows, other.lows) };
}

static UNFOLD struct firsts eight_firsts(const uint32_t *words)
{
    struct firsts one = four_firsts(words);
    struct firsts other = four_firsts(words + 4 * VOICE_WORDS);

    return (struct firsts){ one.bits | other.bits,
                            _mm_unpacklo_epi32(one.lows, other.lows) };
}

static UNFOLD struct firsts sixteen_firsts(const uint32_t *words)
{
    struct firsts one = eight_firsts(words);
    struct firsts other = eight_firsts(words + 8 * VOICE_WORDS);

    return (struct firsts){ one.bits | other.bits,
                            _mm_unpacklo_epi64(one.lows, other.lows) };
}

/* The same of all, but in place of the bytes their highest bits, the flags. */
static UNFOLD four gather_firsts(const uint32_t *record, uint32_t *flags)
{
    struct firsts low = sixteen_firsts(record);
    struct firsts high = sixteen_firsts(record + 16 * VOICE_WORDS);

    *flags = (uint32_t)_mm_movemask_epi8(low.lows) |
             (uint32_t)_mm_movemask_epi8(high.lows) << 16;
    return low.bits | high.bits;
}

/* A word keeps the same bits in every voice, so all voices' bits are gathered
   and held against these once; so are those of the twelve channel sums. */
static UNFOLD four stray_bits(const uint32_t *record, uint32_t *flags)
{
    const uint32_t *shared = record + WORD_PAGE;
    const uint32_t *sums = record + WORD_SUMS;
    four stray = gather_firsts(record, flags) & four_at(voice_stray);

    stray |= (four_at(sums) | four_at(sums + 4) | four_at(sums + 8)) &
             four_at(shared_stray + WORD_SUMS - WORD_PAGE);
    stray |= gather(record + 4) & four_at(voice_stray + 4);
    stray |= gather(record + 8) & four_at(voice_stray + 8);
    stray |= gather(record + 12) & four_at(voice_stray + 12);
    stray |= gather(record + 16) & four_at(voice_stray + 16);
    stray |= four_at(shared) & four_at(shared_stray);
    stray |= four_at(shared + 4) & four_at(shared_stray + 4);
    return stray | (four_at(shared + 8) & four_at(shared_stray + 8));
}

static inline uint32_t check(const uint32_t *record, size_t words)
{
    four stray;
    uint32_t flags;
    uint32_t vector;

    if (words != RECORD_WORDS) {
        return ANSWER_RECORD_LENGTH;
    }
    stray = stray_bits(record, &flags);
    flags ^= record[WORD_WAITING];
    vector = record[WORD_IRQV];
    if ((stray[0] | stray[1] | stray[2] | stray[3] | flags) != 0 ||
        (vector >= VOICES && vector != NO_INTERRUPT)) {
        return ANSWER_RECORD_INVALID;
    }
    return ANSWER_DONE;
}

/* ==== registers =========================================================== */

static uint32_t reset(uint32_t *record, size_t words)
{
    if (words != RECORD_WORDS) {
        return ANSWER_RECORD_LENGTH;
    }
    memset(record, 0, RECORD_WORDS * sizeof *record);
    for (size_t voice = 0; voice < WORD_PAGE; voice += VOICE_WORDS) {
        record[voice + VOICE_CR] = CR_STP0 | CR_STP1;
    }
    record[WORD_IRQV] = NO_INTERRUPT;
    record[WORD_PAR] = 1023;
    record[WORD_ACTV] = 31;
    record[WORD_MODE] = 23;
    return ANSWER_DONE;
}

/* The word behind a register, or WORD_WAITING, which is behind none. */
static uint32_t word_of(uint32_t page, uint32_t number)
{
    if (number >= 13) {
        return number == 15 ? WORD_PAGE : number == 14 ? WORD_IRQV : WORD_PAR;
    }
    if (page < 32) {
        return number < 11 ? page * VOICE_WORDS + number
                           : WORD_ACTV - 11 + number;
    }
    if (page < 64) {
        uint32_t first = (page - 32) * VOICE_WORDS;

        return number == 0  ? first
               : number < 10 ? first + 10 + number
                             : WORD_W_ST - 10 + number;
    }
    return WORD_SUMS + number; /* number 12 is WORD_WAITING */
}

/* The voice's bit of the mask becomes what its control register says. */
static UNFOLD void mark(uint32_t *record, uint32_t v, uint32_t cr)
{
    record[WORD_WAITING] =
        (record[WORD_WAITING] & ~(1u << v)) | cr / CR_IRQ % 2 << v;
}

static uint32_t write(uint32_t *record, size_t words, uint32_t address,
                      uint8_t value)
{
    uint32_t answer = check(record, words);
    uint32_t shift = 24 - 8 * (address & 3);
    uint32_t latch;
    uint32_t word;

    if (answer != ANSWER_DONE) {
        return answer;
    }
    if (address > ADDRESS_LIMIT) {
        return ANSWER_ADDRESS;
    }
    latch = record[WORD_WRITE_LATCH];
    latch = (latch & ~(0xFFu << shift)) | (uint32_t)value << shift;
    if (shift != 0) {
        record[WORD_WRITE_LATCH] = latch;
        return ANSWER_DONE;
    }
    word = word_of(record[WORD_PAGE], address >> 2);
    if (word < WORD_PAGE) {
        record[word] = latch & ~voice_stray[word % VOICE_WORDS];
        if (address == 3) { /* of CR, on either page of the voice */
            mark(record, record[WORD_PAGE] % VOICES, latch);
        }
    } else if (word < WORD_WAITING && word != WORD_PAR && word != WORD_IRQV) {
        record[word] = latch & ~shared_stray[word - WORD_PAGE];
    }
    record[WORD_WRITE_LATCH] = 0;
    return ANSWER_DONE;
}

static void open_register(uint32_t *record, uint32_t word)
{
    record[WORD_READ_LATCH] = word < WORD_SUMS ? record[word] : 0;
    if (word == WORD_PAR) {
        record[WORD_PAR] = 1023;
    } else if (word == WORD_IRQV && record[WORD_IRQV] < VOICES) {
        record[record[WORD_IRQV] * VOICE_WORDS] &= ~CR_IRQ;
        record[WORD_WAITING] &= ~(1u << record[WORD_IRQV]);
        record[WORD_IRQV] = NO_INTERRUPT;
    }
}

static uint32_t read(uint32_t *record, size_t words, uint32_t address,
                     uint8_t *byte)
{
    uint32_t answer = check(record, words);

    *byte = 0;
    if (answer != ANSWER_DONE) {
        return answer;
    }
    if (address > ADDRESS_LIMIT) {
        return ANSWER_ADDRESS;
    }
    if ((address & 3) == 0) {
        open_register(record, word_of(record[WORD_PAGE], address >> 2));
    }
    *byte = (uint8_t)(record[WORD_READ_LATCH] >> (24 - 8 * (address & 3)));
    return ANSWER_DONE;
}

static uint32_t set_pot(uint32_t *record, size_t words, uint32_t pot)
{
    uint32_t answer = check(record, words);

    if (answer != ANSWER_DONE) {
        return answer;
    }
    if (pot > POT_LIMIT) {
        return ANSWER_POT;
    }
    record[WORD_PAR] = pot;
    return ANSWER_DONE;
}

/* ==== compressed samples ================================================== */

#define STEP(e, m) ((int16_t)((m) * (1 << (3 + (e)))))
#define HALF(e, m)                                                           \
    STEP(e, m), STEP(e, m + 1), STEP(e, m + 2), STEP(e, m + 3),              \
        STEP(e, m + 4), STEP(e, m + 5), STEP(e, m + 6), STEP(e, m + 7),      \
        STEP(e, m + 8), STEP(e, m + 9), STEP(e, m + 10), STEP(e, m + 11),    \
        STEP(e, m + 12), STEP(e, m + 13), STEP(e, m + 14), STEP(e, m + 15)
#define OCTAVE(e) HALF(e, -32), HALF(e, 16)

static const int16_t values[256] = {
    HALF(1, 0), HALF(1, -16), OCTAVE(1), OCTAVE(2), OCTAVE(3),
    OCTAVE(4),  OCTAVE(5),    OCTAVE(6), OCTAVE(7)
};

static int16_t expand(uint8_t code)
{
    return values[code];
}

/* The leading bits that equal the sign are counted, at most 24, which is
   exponent 0, and shifted out, at most 23; the five on top are the mantissa. */
static uint8_t compress(int16_t sample)
{
    int32_t s = sample;
    uint32_t magnitude = (uint32_t)(s ^ (s >> 31));
    uint32_t zeros = (uint32_t)__builtin_clz(magnitude | 255);
    uint32_t shift = zeros < 23 ? zeros : 23;
    uint32_t mantissa = (uint32_t)s << shift >> 27;

    return (uint8_t)(32 * (24 - zeros) + mantissa);
}

/* ==== one frame =========================================================== */

/* The number that the low bits of a word mean in two's complement. */
static int32_t number(uint32_t word, uint32_t bits)
{
    return (int32_t)(word << (32 - bits)) >> (32 - bits);
}

static int32_t hold(int32_t value, int32_t least, int32_t greatest)
{
    return value < least ? least : value > greatest ? greatest : value;
}

static uint32_t fetch(const uint16_t *memory, size_t memory_words, uint32_t at)
{
    return at < memory_words ? memory[at] : 0;
}

/* Of each bank the last word that is lent: below it, a word and the next one
   are both lent and in one bank. */
static void find_lasts(uint32_t *lasts, size_t memory_words)
{
    for (uint32_t bank = 0; bank < 4; bank++) {
        uint32_t end = (bank + 1) * BANK_WORDS;
        uint32_t lent = memory_words < end ? (uint32_t)memory_words : end;

        lasts[bank] = lent != 0 ? lent - 1 : 0;
    }
}

/* How many words are missing is added to *missing; none on the likely way. */
static int32_t input_of(uint32_t cr, uint32_t accum, const uint16_t *memory,
                        size_t memory_words, const uint32_t *lasts,
                        uint32_t *missing)
{
    uint32_t bank = (cr >> 14) * BANK_WORDS;
    uint32_t index = accum >> 11;
    uint32_t at = bank + index;
    int coded = (cr & CR_CMPD) != 0;
    uint32_t w1;
    uint32_t w2;
    int32_t s1;
    int32_t s2;

    if (LIKELY(at < lasts[cr >> 14])) {
        w1 = memory[at];
        w2 = memory[at + 1];
    } else {
        uint32_t next = bank + (index + 1) % BANK_WORDS;

        w1 = fetch(memory, memory_words, at);
        w2 = fetch(memory, memory_words, next);
        *missing += (uint32_t)(at >= memory_words) + (next >= memory_words);
    }
    s1 = coded ? values[w1 >> 8] : (int16_t)w1;
    s2 = coded ? values[w2 >> 8] : (int16_t)w2;
    return 4 * s1 + (((int32_t)(accum & 2044) * (s2 - s1)) >> 9);
}

static int32_t low(int32_t k, int32_t x, int32_t yp)
{
    return yp + ((k * (x - yp)) >> 12);
}

static int32_t high(int32_t k, int32_t x, int32_t xp, int32_t yp)
{
    return hold(x - xp + (((4096 + k) * yp) >> 13), -131072, 131071);
}

/* Poles 3 and 4 are of four kinds together: one switch for both. */
static UNFOLD int32_t last_poles(uint32_t cr, int32_t k1, int32_t k2,
                                 int32_t y2, int32_t p2, int32_t p3,
                                 int32_t p4, int32_t *y3)
{
    switch (cr & (CR_LP4 | CR_LP3)) {
    case 0:
        *y3 = high(k2, y2, p2, p3);
        return high(k2, *y3, p3, p4);
    case CR_LP3:
        *y3 = low(k1, y2, p3);
        return high(k2, *y3, p3, p4);
    case CR_LP4:
        *y3 = low(k2, y2, p3);
        return low(k2, *y3, p4);
    default:
        *y3 = low(k1, y2, p3);
        return low(k2, *y3, p4);
    }
}

static int32_t filter(uint32_t *voice, uint32_t cr, int32_t x)
{
    int32_t k1 = (int32_t)(voice[VOICE_K1] >> 4);
    int32_t k2 = (int32_t)(voice[VOICE_K2] >> 4);
    int32_t p2 = number(voice[VOICE_O2_N1], 18);
    int32_t p3 = number(voice[VOICE_O3_N1], 18);
    int32_t p4 = number(voice[VOICE_O4_N1], 18);
    int32_t y1 = low(k1, x, number(voice[VOICE_O1_N1], 18));
    int32_t y2 = low(k1, y1, p2);
    int32_t y3;
    int32_t y4;

    voice[VOICE_O3_N2] = voice[VOICE_O3_N1];
    voice[VOICE_O2_N2] = voice[VOICE_O2_N1];
    y4 = last_poles(cr, k1, k2, y2, p2, p3, p4, &y3);
    voice[VOICE_O1_N1] = (uint32_t)y1 & 0x3FFFFu;
    voice[VOICE_O2_N1] = (uint32_t)y2 & 0x3FFFFu;
    voice[VOICE_O3_N1] = (uint32_t)y3 & 0x3FFFFu;
    voice[VOICE_O4_N1] = (uint32_t)y4 & 0x3FFFFu;
    return y4;
}

static void add(uint32_t *sum, int32_t o, uint32_t volume)
{
    int64_t gain = (int64_t)(4096 + (volume & 0xFF0u)) << (volume >> 12);

    *sum = (*sum + (uint32_t)(o * gain >> 24)) & 0x7FFFFFu;
}

/* ACCUM passes a loop point. A voice with LEI set goes on; any other stops, or
   goes on from the other loop point or back from this one, as CR says. */
static void loop(uint32_t *voice, uint32_t cr, uint32_t on, uint32_t stop,
                 uint32_t other, uint32_t back)
{
    if ((cr & CR_LEI) != 0) {
        voice[VOICE_ACCUM] = on;
        return;
    }
    voice[VOICE_ACCUM] = other;
    switch (cr & (CR_BLE | CR_LPE)) {
    case 0:
        voice[VOICE_ACCUM] = stop;
        cr |= CR_STP0;
        break;
    case CR_BLE:
        cr ^= CR_BLE | CR_LEI;
        break;
    case CR_BLE | CR_LPE:
        voice[VOICE_ACCUM] = back;
        cr ^= CR_DIR;
        break;
    }
    voice[VOICE_CR] = cr | (cr & CR_IRQE) << 2;
}

static void move(uint32_t *voice, uint32_t cr)
{
    uint32_t accum = voice[VOICE_ACCUM];
    uint32_t fc = voice[VOICE_FC];

    if ((cr & CR_DIR) == 0) {
        if (LIKELY((uint64_t)accum + fc <= voice[VOICE_END])) {
            voice[VOICE_ACCUM] = accum + fc;
        } else {
            uint32_t start = voice[VOICE_START];
            uint32_t end = voice[VOICE_END];
            uint32_t d = accum + fc - end;

            loop(voice, cr, accum + fc, end, start + d, end - d);
        }
    } else {
        if (LIKELY((int64_t)accum - fc >= voice[VOICE_START])) {
            voice[VOICE_ACCUM] = accum - fc;
        } else {
            uint32_t start = voice[VOICE_START];
            uint32_t end = voice[VOICE_END];
            uint32_t d = start + fc - accum;

            loop(voice, cr, accum - fc, start, end - d, start + d);
        }
    }
}

static void ramp(uint32_t *value, uint32_t by)
{
    int32_t step = (int8_t)(by >> 8);

    *value = (uint32_t)hold((int32_t)*value + step, 0, 65535);
}

static void ramps(uint32_t *voice, uint32_t slow)
{
    if (voice[VOICE_ECOUNT] == 0) {
        return;
    }
    voice[VOICE_ECOUNT] -= 1;
    ramp(&voice[VOICE_LVOL], voice[VOICE_LVRAMP]);
    ramp(&voice[VOICE_RVOL], voice[VOICE_RVRAMP]);
    if (slow == 0 || (voice[VOICE_K1RAMP] & 1) == 0) {
        ramp(&voice[VOICE_K1], voice[VOICE_K1RAMP]);
    }
    if (slow == 0 || (voice[VOICE_K2RAMP] & 1) == 0) {
        ramp(&voice[VOICE_K2], voice[VOICE_K2RAMP]);
    }
}

/* What a running voice does after the filters: volume, address and ramps. */
static void run(uint32_t *record, uint32_t *voice, uint32_t cr, uint32_t slow,
                int32_t o)
{
    uint32_t channel = cr >> 10 & 7;

    if (channel < 6) {
        uint32_t *sums = record + WORD_SUMS + 2 * channel;

        add(&sums[0], o, voice[VOICE_LVOL]);
        add(&sums[1], o, voice[VOICE_RVOL]);
    }
    move(voice, cr);
    ramps(voice, slow);
}

static UNFOLD void turn(uint32_t *record, uint32_t v, uint32_t slow,
                        const uint16_t *memory, size_t memory_words,
                        const uint32_t *lasts, uint32_t *missing)
{
    uint32_t *voice = record + v * VOICE_WORDS;
    uint32_t cr = voice[VOICE_CR];
    int runs = (cr & (CR_STP0 | CR_STP1)) == 0;
    int32_t x = 0;
    int32_t o;

    if (runs) {
        x = input_of(cr, voice[VOICE_ACCUM], memory, memory_words, lasts,
                     missing);
    }
    o = filter(voice, cr, x) >> 2;
    if (runs) {
        run(record, voice, cr, slow, o);
    }
    if ((voice[VOICE_CR] & CR_IRQ) != 0) {
        record[WORD_WAITING] |= 1u << v;
        if (record[WORD_IRQV] == NO_INTERRUPT) {
            record[WORD_IRQV] = v;
        }
    }
}

static void close_frame(uint32_t *record, int32_t *output)
{
    int32_t held[OUTPUT_VALUES];

    for (size_t place = 0; place < OUTPUT_VALUES; place++) {
        held[place] =
            hold(number(record[WORD_SUMS + place], 23), -524288, 524287);
    }
    memcpy(output, held, sizeof held);
    memset(record + WORD_SUMS, 0, sizeof held);
    record[WORD_SLOW] = (record[WORD_SLOW] + 1) & 7;
}

static uint32_t frame(uint32_t *record, size_t words, const uint16_t *memory,
                      size_t memory_words, int32_t *output,
                      size_t output_values, uint32_t *missing)
{
    uint32_t answer = check(record, words);
    uint32_t lasts[4];
    uint32_t active;
    uint32_t slow;
    uint32_t missed = 0;

    *missing = 0;
    if (answer != ANSWER_DONE) {
        return answer;
    }
    if (record[WORD_ACTV] < LEAST_ACTV) {
        return ANSWER_TOO_FEW_VOICES;
    }
    if (memory_words > MOST_MEMORY_WORDS) {
        return ANSWER_MEMORY_LENGTH;
    }
    if (output_values != OUTPUT_VALUES) {
        return ANSWER_OUTPUT_LENGTH;
    }
    active = record[WORD_ACTV] + 1;
    slow = record[WORD_SLOW];
    find_lasts(lasts, memory_words);
    for (uint32_t v = 0; v < active; v++) {
        turn(record, v, slow, memory, memory_words, lasts, &missed);
    }
    close_frame(record, output);
    *missing = missed;
    return ANSWER_DONE;
}

/* ==== the waiting voices ================================================== */

static uint32_t waiting(const uint32_t *record, size_t words, uint32_t *mask)
{
    uint32_t answer = check(record, words);

    *mask = 0;
    if (answer != ANSWER_DONE) {
        return answer;
    }
    *mask = record[WORD_WAITING];
    return ANSWER_DONE;
}

/* ==== WAVE files ========================================================== */

/* Numbers of a file, low byte first; compilers make one load of each. */
static UNFOLD uint32_t short_at(const uint8_t *bytes)
{
    return (uint32_t)bytes[0] | (uint32_t)bytes[1] << 8;
}

static UNFOLD uint32_t long_at(const uint8_t *bytes)
{
    return (uint32_t)bytes[0] | (uint32_t)bytes[1] << 8 |
           (uint32_t)bytes[2] << 16 | (uint32_t)bytes[3] << 24;
}

#define LETTERS(a, b, c, d)                                                  \
    ((uint32_t)(a) | (uint32_t)(b) << 8 | (uint32_t)(c) << 16 |              \
     (uint32_t)(d) << 24)

/* What one walk over the chunks finds: where in the file each stands, 0 where
   there is none, and its length. */
struct found {
    uint64_t format;
    uint64_t data;
    uint64_t sampler; /* the first */
    uint32_t data_bytes;
    uint32_t sampler_bytes;
    int is_short; /* a format chunk */
    int is_twice; /* the format or the data chunk */
};

static UNFOLD void take(uint32_t name, uint64_t at, uint32_t bytes,
                        struct found *found)
{
    switch (name) {
    case LETTERS('f', 'm', 't', ' '):
        found->is_twice |= found->format != 0;
        found->is_short |= bytes < FORMAT_BYTES;
        found->format = at;
        break;
    case LETTERS('d', 'a', 't', 'a'):
        found->is_twice |= found->data != 0;
        found->data = at;
        found->data_bytes = bytes;
        break;
    case LETTERS('s', 'm', 'p', 'l'):
        if (found->sampler == 0) {
            found->sampler = at;
            found->sampler_bytes = bytes;
        }
        break;
    }
}

/* Whether the chunks end where the row does. One test does for header, length
   and pad: a chunk that reaches past the end is the last, and of no chunk more
   than the header is read here. */
static UNFOLD int walk(const uint8_t *file, uint64_t end, struct found *found)
{
    uint64_t at = FIRST_CHUNK;

    while (at <= end - HEADER_BYTES) {
        uint32_t bytes = long_at(file + at + CHUNK_LENGTH);

        take(long_at(file + at), at, bytes, found);
        at += HEADER_BYTES + (((uint64_t)bytes + 1) & ~(uint64_t)1);
    }
    return at == end;
}

/* Whether the first sampler chunk, if there is one, has the loops that it
   counts; *loop is then the first of them, or NULL. */
static UNFOLD int has_loops(const uint8_t *file, const struct found *found,
                            const uint8_t **loop)
{
    const uint8_t *sampler = file + found->sampler + HEADER_BYTES;
    uint32_t loops;

    *loop = NULL;
    if (found->sampler == 0) {
        return 1;
    }
    if (found->sampler_bytes < SAMPLER_BYTES) {
        return 0;
    }
    loops = long_at(sampler + LOOP_COUNT);
    if (loops != 0) {
        *loop = sampler + SAMPLER_BYTES;
    }
    return loops <= (found->sampler_bytes - SAMPLER_BYTES) / LOOP_BYTES;
}

static UNFOLD int is_whole(const uint8_t *file, size_t file_bytes,
                           struct found *found, const uint8_t **loop)
{
    uint64_t end;

    if (file_bytes > MOST_FILE_BYTES || file_bytes < FIRST_CHUNK ||
        long_at(file) != LETTERS('R', 'I', 'F', 'F') ||
        long_at(file + RIFF_KIND) != LETTERS('W', 'A', 'V', 'E')) {
        return 0;
    }
    end = (uint64_t)long_at(file + RIFF_LENGTH) + RIFF_KIND;
    return end <= file_bytes && end >= FIRST_CHUNK &&
           walk(file, end, found) && !found->is_short &&
           has_loops(file, found, loop);
}

static UNFOLD uint32_t check_file(const uint8_t *file, size_t file_bytes,
                                  struct found *found, const uint8_t **loop)
{
    const uint8_t *format;

    if (!is_whole(file, file_bytes, found, loop)) {
        return ANSWER_FILE_BROKEN;
    }
    if (found->format == 0 || found->data == 0 || found->is_twice) {
        return ANSWER_CHUNK_COUNT;
    }
    format = file + found->format + HEADER_BYTES;
    if (short_at(format + FORMAT_TAG) != 1 ||
        short_at(format + CHANNELS) != 1 ||
        short_at(format + SAMPLE_BITS) != 16 ||
        (found->data_bytes & 1) != 0) {
        return ANSWER_SAMPLE_FORMAT;
    }
    if (*loop != NULL &&
        (long_at(*loop + LOOP_END) >= found->data_bytes / 2 ||
         long_at(*loop + LOOP_END) < long_at(*loop + LOOP_START) ||
         long_at(*loop + LOOP_TYPE) > 2)) {
        return ANSWER_LOOP_INVALID;
    }
    return ANSWER_DONE;
}

#define BLOCK 32u /* samples */

/* Block by block, of which compilers make loads and stores of sixteen bytes. */
static UNFOLD void copy(uint16_t *memory, const uint8_t *bytes, size_t samples)
{
    size_t at = 0;

    for (; at + BLOCK <= samples; at += BLOCK) {
        uint16_t block[BLOCK];

        for (size_t i = 0; i < BLOCK; i++) {
            block[i] = (uint16_t)short_at(bytes + 2 * (at + i));
        }
        memcpy(memory + at, block, sizeof block);
    }
    for (; at < samples; at++) {
        memory[at] = (uint16_t)short_at(bytes + 2 * at);
    }
}

static uint32_t import(const uint8_t *file, size_t file_bytes,
                       uint16_t *memory, size_t memory_words, size_t word,
                       uint32_t *start, uint32_t *end, uint32_t *loop,
                       uint32_t *samples)
{
    static const uint8_t bits[3] = { CR_LPE, CR_BLE | CR_LPE,
                                     CR_LPE | CR_DIR };
    struct found found = { 0, 0, 0, 0, 0, 0, 0 };
    const uint8_t *looped;
    uint32_t first = (uint32_t)(word % BANK_WORDS);
    uint32_t answer;
    uint32_t count;

    *start = *end = *loop = *samples = 0;
    if (memory_words > MOST_MEMORY_WORDS) {
        return ANSWER_MEMORY_LENGTH;
    }
    answer = check_file(file, file_bytes, &found, &looped);
    if (answer != ANSWER_DONE) {
        return answer;
    }
    count = found.data_bytes / 2;
    if (word > memory_words || count > memory_words - word ||
        first + count > BANK_WORDS) {
        return ANSWER_NO_PLACE;
    }
    if (looped != NULL) {
        uint32_t past = first + long_at(looped + LOOP_END) + 1;

        if (past == BANK_WORDS) {
            return ANSWER_NO_PLACE;
        }
        *start = (first + long_at(looped + LOOP_START)) * WHOLE_SAMPLE;
        *end = past * WHOLE_SAMPLE;
        *loop = bits[long_at(looped + LOOP_TYPE)];
    }
    copy(memory + word, file + found.data + HEADER_BYTES, count);
    *samples = count;
    return ANSWER_DONE;
}

const struct engine ENGINE = { NAME,    reset,   write,  read,     set_pot,
                               frame,   waiting, import, compress, expand };
