/*
 * libotto: the voice engine of the ES5506, for hosts in C and C++.
 *
 * The engine owns nothing: the host lends each call what it works on. A machine
 * is a record of 664 words, which every call on it is lent. A frame is also
 * lent sample memory, an output and a place for a number, a read a place for a
 * byte, and otto_waiting a place for a mask. An import needs no record: it is
 * lent the bytes of a file, sample memory and places for four numbers.
 *
 * What a call does is fixed by what is lent and nothing else. There is no
 * global state, no allocation and no lock, and no file is opened, so any number
 * of records may be in use, and two threads may call at once if neither lends a
 * buffer that the other one's call may change. A frame only reads sample
 * memory: threads may share it, but not while one of them imports into it.
 * otto_waiting only reads the record: threads may ask about one record at once,
 * but not while any other call on it runs.
 *
 * Every pointer must be aligned for its type and must point at as many values
 * as the length after it says, or at one where no length comes after it. Where
 * that length is 0 it may be null, as that of an empty std::vector is: nothing
 * is read or written through it. No other pointer may be null. Buffers of one
 * call must not overlap.
 *
 * A call on a record, and an import, answers 0 or the number of its refusal.
 * It asks in the order in which its refusals are listed below, and a refused
 * call changes no word of the record or of sample memory and no value of the
 * output; a refused otto_read sets its byte to 0, a refused otto_frame its
 * number of missing words, a refused otto_waiting its mask, and a refused
 * otto_import its four numbers. otto_reason says an answer in words.
 */
#ifndef OTTO_H
#define OTTO_H

#include <stddef.h>
#include <stdint.h>

#ifdef __cplusplus
extern "C" {
#endif

/* ---- the version --------------------------------------------------------- */

/*
 * major * 10000 + minor * 100 + patch. A host that goes to another major number
 * has to change its source or the records that it stored, or sounds otherwise;
 * with another minor number there is something more to use. CHANGELOG.md says
 * what. Headers before 6.1.0 have no number, and the library has none: a host
 * is compiled with the header that came with the library that it links.
 */
#define OTTO_VERSION      60100
#define OTTO_VERSION_TEXT "6.1.0"

/* ---- sizes --------------------------------------------------------------- */

#define OTTO_RECORD_WORDS      664u
#define OTTO_OUTPUT_VALUES     12u      /* channels 0 to 5, left then right */
#define OTTO_VOICES            32u
#define OTTO_CHANNELS          6u
#define OTTO_LEAST_ACTV        4u       /* that a frame takes: five voices */
#define OTTO_WHOLE_SAMPLE      2048u    /* in FC, START, END and ACCUM */
#define OTTO_BANK_WORDS        2097152u
#define OTTO_MOST_MEMORY_WORDS 8388608u /* four banks */
#define OTTO_MOST_FILE_BYTES   65536u   /* of a WAVE file */

/* ---- answers ------------------------------------------------------------- */

#define OTTO_DONE           0u
#define OTTO_RECORD_LENGTH  1u /* the record is not 664 words */
#define OTTO_RECORD_INVALID 2u /* a word has a bit or value it may not have, or
                                  the mask of waiting voices is not true */
#define OTTO_ADDRESS_ABOVE  3u /* the byte address is above 63 */
#define OTTO_POT_ABOVE      4u /* the pot result is above 1023 */
#define OTTO_MEMORY_LENGTH  5u /* sample memory is longer than four banks */
#define OTTO_OUTPUT_LENGTH  6u /* the output is not 12 values */
#define OTTO_TOO_FEW_VOICES 7u /* ACTV is below 4: fewer than five active */
#define OTTO_FILE_BROKEN   20u /* too long, no RIFF/WAVE, or a part that ends
                                  too soon */
#define OTTO_CHUNK_COUNT   21u /* no format or data chunk, or two of one */
#define OTTO_SAMPLE_FORMAT 22u /* not format tag 1, one channel and 16 bits, or
                                  the last sample lacks a byte */
#define OTTO_LOOP_INVALID  23u /* a point of the loop is past the data's last
                                  sample, its end point is before its start
                                  point, or its type is none of 0, 1, 2 */
#define OTTO_NO_PLACE      24u /* memory or the bank ends before the samples do,
                                  or END is more than its register holds */

/* ---- registers ----------------------------------------------------------- */

/*
 * A register has a number, 0 to 15, on a page, 0 to 127; the register PAGE says
 * which page the host is on. Voice v has its registers on two pages. A number
 * means another register on another page, and no call knows which was meant:
 * START written on a lower page is FC. Of each register the bits that are
 * listed are kept, and the others read as 0.
 *
 * OTTO_ADDRESS is the address of a register's byte, for otto_write and
 * otto_read. Byte 0 is the highest, bits 31 to 24, and byte 3 the lowest. A
 * register's number alone is an address too, that of a byte of registers 0 to
 * 3, so no call and no compiler can tell where OTTO_ADDRESS was left out. What
 * the macros are given is unsigned.
 */
#define OTTO_ADDRESS(number, byte) (4u * (number) + (byte))

#define OTTO_PAGE_LOWER(voice) (0u + (voice))
#define OTTO_PAGE_UPPER(voice) (32u + (voice))
#define OTTO_PAGE_CHANNELS     64u /* 65 to 127 are as this one */

/* On every page. PAR and IRQV are to be read: writing them changes neither. */
#define OTTO_PAR      13u /* 9..0   the pot's result, 1023 once it was read */
#define OTTO_IRQV     14u /* 7..0   the interrupt vector: a voice, or none */
#define OTTO_PAGE     15u /* 6..0   the page */

#define OTTO_NO_VOICE 128u /* in the vector where it is empty */

/*
 * On page OTTO_PAGE_LOWER(v), 0 to 31: levels and pitch of voice v. ACTV and
 * MODE are one for all voices.
 *
 * A volume is an exponent E in bits 15 to 12 and a mantissa M in bits 11 to 4:
 * it makes a sound (256 + M) / 511 * 2^(E - 15) of the loudest. So 0x1000 more
 * is twice the sound, 6 dB, and 0xFFF0 the loudest. 0 is not silence but 96 dB
 * below the loudest: a full sample still gives 7, of 524,287. Bits 3 to 0 are
 * not heard, but ramps count through them.
 *
 * K1 and K2 are 12 bits at the top, the other four as in a volume. In a low
 * pass 0xFFF0 lets nearly all through, and 0, which a reset leaves there,
 * nothing: the pole stands at its last output. So of a voice with K1 0, or with
 * LP4 in CR and K2 0, no sample is heard, only what its filter words hold, 0
 * after a reset, while every call answers 0. In a high pass 0xFFF0 is the
 * lowest cutoff and 0 the highest.
 *
 * A ramp is a signed number, -128 to 127, in bits 15 to 8. While ECOUNT is not
 * 0, each frame of a running voice adds its ramp to each of LVOL, RVOL, K2 and
 * K1, held to 0 and 65535, and takes 1 off ECOUNT. So ECOUNT sets all four off:
 * one that is not to move needs ramp 0. A slow ramp, bit 0 of K2RAMP or K1RAMP,
 * moves its K in every eighth frame only.
 */
#define OTTO_VOL_LOUDEST 0xFFF0u
#define OTTO_K_OPEN      0xFFF0u
#define OTTO_MOST_ECOUNT 511u

#define OTTO_CR       0u  /* 15..0  control, on both pages: see below */
#define OTTO_FC       1u  /* 16..0  2048ths of a sample to go each frame */
#define OTTO_LVOL     2u  /* 15..0  left volume */
#define OTTO_LVRAMP   3u  /* 15..8  and its ramp */
#define OTTO_RVOL     4u  /* 15..0  right volume */
#define OTTO_RVRAMP   5u  /* 15..8 */
#define OTTO_ECOUNT   6u  /* 8..0   frames that the four ramps still run */
#define OTTO_K2       7u  /* 15..0  filter poles 3 and 4, as CR says */
#define OTTO_K2RAMP   8u  /* 15..8  and 0 */
#define OTTO_K1       9u  /* 15..0  filter poles 1 and 2, and 3 with LP3 */
#define OTTO_K1RAMP   10u /* 15..8  and 0 */
#define OTTO_ACTV     11u /* 4..0   the last active voice, 31 after a reset */
#define OTTO_MODE     12u /* 4..0   kept, and of no effect */

/*
 * On page OTTO_PAGE_UPPER(v), 32 to 63: where voice v reads, and what its
 * filter remembers. START, END and ACCUM are in 2048ths of a sample from the
 * bank's first word on; START keeps whole samples, and END sixteenths. W_ST,
 * W_END and LR_END are one for all voices.
 */
#define OTTO_START    1u  /* 31..11 */
#define OTTO_END      2u  /* 31..7 */
#define OTTO_ACCUM    3u  /* 31..0  where the voice is */
#define OTTO_O4_N1    4u  /* 17..0  the last output of pole 4, signed */
#define OTTO_O3_N1    5u  /* 17..0  of pole 3 */
#define OTTO_O3_N2    6u  /* 17..0  and the one before it */
#define OTTO_O2_N1    7u  /* 17..0  of pole 2 */
#define OTTO_O2_N2    8u  /* 17..0  and the one before it */
#define OTTO_O1_N1    9u  /* 17..0  of pole 1 */
#define OTTO_W_ST     10u /* 6..0   kept, and of no effect, as the next two */
#define OTTO_W_END    11u /* 6..0 */
#define OTTO_LR_END   12u /* 6..0 */

/* On page OTTO_PAGE_CHANNELS: the sums of the channels, 0 to 5, 23 bits, which
   the host may write, for the next frame to add to, and which read as 0. The
   output of a frame has the channels at the same numbers. */
#define OTTO_CHANNEL_LEFT(channel)  (2u * (channel))
#define OTTO_CHANNEL_RIGHT(channel) (2u * (channel) + 1u)

/* ---- the control register, CR -------------------------------------------- */

/*
 * A voice runs where both stop bits are 0. A frame first plays what is at ACCUM
 * and then goes on by FC, up, or down in reverse. Where that would take it past
 * END, or in reverse past START, by a number d, there is a loop event:
 *
 *                         ACCUM becomes
 *                         up         down
 *   neither LPE nor BLE   END        START      it stops: STP0 is set
 *   LPE                   START + d  END - d    it loops
 *   BLE                   START + d  END - d    once: BLE is cleared, LEI set
 *   LPE and BLE           END - d    START + d  it turns: DIR changes
 *
 * The new ACCUM is not tested in the same frame, even where d is so great that
 * it is outside the loop. With LEI there is no loop event, whatever else is
 * set.
 *
 * The four poles of the filter stand one behind the other. Poles 1 and 2 are
 * low passes with K1; the two bits decide over poles 3 and 4:
 *
 *   neither               high pass K2, high pass K2
 *   LP3                   low pass K1, high pass K2
 *   LP4                   low pass K2, low pass K2
 *   LP3 and LP4           low pass K1, low pass K2
 */
#define OTTO_CR_STP0        0x0001u /* stopped; a loop event sets it */
#define OTTO_CR_STP1        0x0002u /* stopped; only the host sets it */
#define OTTO_CR_LEI         0x0004u /* no loop events */
#define OTTO_CR_LPE         0x0008u /* the voice loops */
#define OTTO_CR_BLE         0x0010u /* with LPE: there and back */
#define OTTO_CR_IRQE        0x0020u /* a loop event sets IRQ */
#define OTTO_CR_DIR         0x0040u /* in reverse */
#define OTTO_CR_IRQ         0x0080u /* the voice's interrupt waits */
#define OTTO_CR_LP3         0x0100u
#define OTTO_CR_LP4         0x0200u
#define OTTO_CR_CA(channel) (0x0400u * (channel)) /* the channel, 0 to 5; 6 and
                                                     7 add nowhere */
#define OTTO_CR_CMPD        0x2000u /* sample memory has codes */
#define OTTO_CR_BS(bank)    (0x4000u * (bank)) /* the bank, 0 to 3 */

/* ---- the record's words -------------------------------------------------- */

/*
 * The record is the host's own: between calls a host may look at its words,
 * copy it, keep it and bring it back, and write words itself, which the next
 * call checks. A word has its register's bits where the register has them, and
 * 0 in all others. CR and registers 1 to 10 of a voice's lower page are at
 * record[OTTO_WORD_LOWER(voice, number)], registers 1 to 9 of its upper page,
 * not CR, at record[OTTO_WORD_UPPER(voice, number)].
 */
#define OTTO_WORD_LOWER(voice, number) (20u * (voice) + (number))
#define OTTO_WORD_UPPER(voice, number) (20u * (voice) + 10u + (number))

#define OTTO_WORD_PAGE        640u
#define OTTO_WORD_IRQV        641u /* 0 to 31, or OTTO_NO_VOICE */
#define OTTO_WORD_PAR         642u
#define OTTO_WORD_ACTV        643u
#define OTTO_WORD_MODE        644u
#define OTTO_WORD_W_ST        645u
#define OTTO_WORD_W_END       646u
#define OTTO_WORD_LR_END      647u
#define OTTO_WORD_SLOW        648u /* the slow ramps' counter, 0 to 7: they move
                                      where it is 0 */
#define OTTO_WORD_WRITE_LATCH 649u
#define OTTO_WORD_READ_LATCH  650u
#define OTTO_WORD_SUMS        651u /* of channels 0 to 5, left then right */
#define OTTO_WORD_WAITING     663u /* the waiting voices: see otto_waiting */

/* ---- what compilers warn of ---------------------------------------------- */

/*
 * With -Wall gcc and clang warn of an answer that is not looked at, of a null
 * pointer where none may be, and of a buffer with fewer values than the length
 * after it says, as where that length is in bytes. gcc also warns of a buffer
 * that is lent twice in one call, clang of a length, an address or a pot result
 * that is always refused. They look at constants, and at objects by their
 * names, where the call stands, so a call without a warning may be wrong still.
 *
 * A compiler may rely on what is declared, too. Where a pointer to a single
 * value is lent it may leave out the host's own test of it for null, and of
 * several calls of otto_compress or otto_expand with the same argument it may
 * make one.
 *
 * The macros that say this to a compiler are undefined at the file's end. For
 * other compilers they stand for nothing.
 */
#if defined(__GNUC__)
#define OTTO_LOOK_AT       __attribute__((__warn_unused_result__))
#define OTTO_NOT_NULL(n)   __attribute__((__nonnull__(n)))
#define OTTO_BY_ARGUMENT   __attribute__((__const__))
#define OTTO_MAY_BE_UNUSED __attribute__((__unused__))
#define OTTO_RESTRICT      __restrict
#if defined(__has_attribute)
#if __has_attribute(__access__)
#define OTTO_ACCESS(how)   __attribute__((__access__ how))
#endif
#if __has_attribute(__diagnose_if__)
#define OTTO_WARN_IF(condition, text)                                         \
    __attribute__((__diagnose_if__(condition, text, "warning")))
#endif
#endif
#else
#define OTTO_LOOK_AT
#define OTTO_NOT_NULL(n)
#define OTTO_BY_ARGUMENT
#define OTTO_MAY_BE_UNUSED
#define OTTO_RESTRICT
#endif
#ifndef OTTO_ACCESS
#define OTTO_ACCESS(how)
#endif
#ifndef OTTO_WARN_IF
#define OTTO_WARN_IF(condition, text)
#endif

/* Parameter n is a pointer to a single value, which the call writes. */
#define OTTO_SINGLE(n) OTTO_NOT_NULL(n) OTTO_ACCESS((__write_only__, n))

/* Parameter n is a pointer, and the next one its length. */
#define OTTO_LENT(mode, n, pointer, length)                                   \
    OTTO_ACCESS((mode, n, n + 1))                                             \
    OTTO_WARN_IF(!pointer && length != 0,                                     \
                 #pointer " is null, and " #length " is not 0")               \
    OTTO_WARN_IF(length > __builtin_object_size(pointer, 0) / sizeof *pointer, \
                 #pointer " has fewer values than " #length " says")

#define OTTO_REFUSED_IF(condition)                                            \
    OTTO_WARN_IF(condition, "always refused: " #condition)

/* The record comes first. */
#define OTTO_RECORD(mode)                                                     \
    OTTO_LENT(mode, 1, record, words)                                         \
    OTTO_REFUSED_IF(words != OTTO_RECORD_WORDS)

/* clang would warn of an attribute that gcc lacks. */
#if defined(__clang__)
#pragma clang diagnostic push
#pragma clang diagnostic ignored "-Wgcc-compat"
#endif

/* ---- the machine --------------------------------------------------------- */

/*
 * Makes the record that of a machine after power-on, whatever it held: every
 * voice stopped, by both stop bits, with 0 in all its other bits and registers;
 * page 0, no interrupt waiting, PAR 1023, ACTV 31, MODE 23. A new record needs
 * this first.
 *
 * Refusals: 1.
 */
uint32_t otto_reset(uint32_t *record, size_t words)
    OTTO_LOOK_AT OTTO_RECORD(__write_only__);

/*
 * The host writes one byte, at OTTO_ADDRESS(register, byte). Bytes gather in a
 * latch, one for all registers. Byte 3 stores all four in its register and
 * clears the latch: to write a register, write its bytes 0 to 3 in order, or
 * leave out the first ones where they are 0.
 *
 * Refusals: 1, 2, 3.
 */
uint32_t otto_write(uint32_t *record, size_t words, uint32_t address,
                    uint8_t value)
    OTTO_LOOK_AT OTTO_RECORD(__read_write__)
    OTTO_REFUSED_IF(address > 63u);

/*
 * The host reads one byte, into *byte. Reading byte 0 takes the whole register
 * into a latch, and all four bytes are read from there: to read a register,
 * read its bytes 0 to 3 in order. Byte 0 of the interrupt vector, register 14,
 * also takes the interrupt that is in it: the voice's IRQ bit becomes 0, and
 * the vector is empty. The voice's number, 0 to 31, is then in byte 3, or 128
 * where the vector was empty; byte 0 is always 0. Byte 0 of the pot result,
 * register 13, also takes the result. So this call changes the record.
 *
 * Refusals: 1, 2, 3.
 */
uint32_t otto_read(uint32_t *OTTO_RESTRICT record, size_t words,
                   uint32_t address, uint8_t *OTTO_RESTRICT byte)
    OTTO_LOOK_AT OTTO_RECORD(__read_write__) OTTO_SINGLE(4)
    OTTO_REFUSED_IF(address > 63u);

/*
 * Stores a result of the pot's converter, 0 to 1023, for the host to read.
 *
 * Refusals: 1, 2, 4.
 */
uint32_t otto_set_pot(uint32_t *record, size_t words, uint32_t pot)
    OTTO_LOOK_AT OTTO_RECORD(__read_write__)
    OTTO_REFUSED_IF(pot > 1023u);

/*
 * Runs one frame: a turn of each active voice. output takes twelve values of
 * 20 bits, -524288 to 524287, in channel order, left before right. A word of
 * sample memory is a signed sample of 16 bits, or, for a voice with CMPD in its
 * CR, a code in the high byte, whose low byte is not looked at.
 *
 * *missing is always set: to how many words of sample memory the frame asked
 * for and missed, 0 to 64, and to 0 where the frame is refused. Each voice
 * that is active and runs as the frame begins asks for two: the word that
 * ACCUM is at then, in the voice's bank, and the next, which after the bank's
 * last word is its first. Both count, also where ACCUM is at a whole sample
 * and the next is not heard. A word beyond the lent memory is missing, and
 * sounds as 0. So a number above 0 says that a note reads past the set that is
 * loaded; with memory of four banks it is always 0. A host that does not want
 * the number lends a place for it all the same.
 *
 * ACTV, register 11 of pages 0 to 31, is the number of the last active voice;
 * a reset makes it 31. At least five voices must be active, stopped or not, so
 * ACTV must be at least 4. The host may write less than 4, and every other
 * call takes a record that has less.
 *
 * Refusals: 1, 2, 7, 5, 6.
 */
uint32_t otto_frame(uint32_t *OTTO_RESTRICT record, size_t words,
                    const uint16_t *OTTO_RESTRICT memory, size_t memory_words,
                    int32_t *OTTO_RESTRICT output, size_t output_values,
                    uint32_t *OTTO_RESTRICT missing)
    OTTO_LOOK_AT OTTO_RECORD(__read_write__)
    OTTO_LENT(__read_only__, 3, memory, memory_words)
    OTTO_LENT(__write_only__, 5, output, output_values)
    OTTO_SINGLE(7)
    OTTO_REFUSED_IF(memory_words > OTTO_MOST_MEMORY_WORDS)
    OTTO_REFUSED_IF(output_values != OTTO_OUTPUT_VALUES);

/*
 * Which voices wait, as a mask: bit v is the IRQ bit of voice v, bit 7 of its
 * CR. All 32 voices count, active or not. *mask is always set, to 0 where the
 * call is refused.
 *
 * A voice comes to wait by a loop event while IRQE, bit 5 of its CR, is set, or
 * by a CR that the host writes with IRQ set. A CR written without IRQ withdraws
 * the interrupt: it takes the voice out of the mask, but not out of the vector.
 * So a host that writes CR for another reason sets OTTO_CR_IRQ in it where the
 * mask has the voice. And where the vector names a voice that was not in the
 * mask before the vector was read, the host has nothing to do; it must look at
 * the mask first, since the read takes the voice that is named out of it.
 *
 * The call changes nothing and takes nothing, however often it is made. An
 * interrupt is taken by reading the vector, register 14: byte 0 takes it, and
 * byte 3 says whose it was. The vector names one voice at a time, and takes the
 * next only in a frame: after a frame that was done and found it empty, it
 * names the lowest active voice of the mask, if there is one. So a host reads
 * it once after each frame. Where the mask is 0 it may leave that out: the
 * vector is empty then, or it has a name that was withdrawn, which is read
 * before the next one, so that the next one comes a frame later.
 *
 * A host must not go on reading in the hope that the mask becomes 0: between
 * two frames reading takes one voice at most out of it, and a voice that is not
 * active does not enter the vector. Where the vector does not name it already,
 * such a voice stays in the mask until its CR is written without IRQ, until it
 * is active again and its interrupt is taken, or until a reset.
 *
 * The mask is a word of the record, and no call makes it false; a reset makes
 * it 0. Between calls a host may look at record[OTTO_WORD_WAITING] itself; no
 * register shows it. A host that stores a CR into the record itself, for voice
 * v at record[20 * v], or brings a record from elsewhere, must make the mask
 * true: where bit v of it is not bit 7 of record[20 * v], for any v from 0 to
 * 31, every call on the record but otto_reset is refused with 2. A record that
 * was saved when it had 663 words needs the mask behind its last.
 *
 * Refusals: 1, 2.
 */
uint32_t otto_waiting(const uint32_t *OTTO_RESTRICT record, size_t words,
                      uint32_t *OTTO_RESTRICT mask)
    OTTO_LOOK_AT OTTO_RECORD(__read_only__) OTTO_SINGLE(3);

/* ---- compressed samples -------------------------------------------------- */

/* The code with the greatest value that is not above the sample. The call takes
   the same instructions for every sample. */
uint8_t otto_compress(int16_t sample) OTTO_LOOK_AT OTTO_BY_ARGUMENT;

/* The value of a code. Compressed sample memory has codes in its high bytes. */
int16_t otto_expand(uint8_t code) OTTO_LOOK_AT OTTO_BY_ARGUMENT;

/* ---- WAVE files ---------------------------------------------------------- */

/*
 * Imports a RIFF/WAVE file of at most 65,536 bytes, which the host has read or
 * made: mono, 16-bit PCM. Its samples are written into sample memory from
 * memory[word] on, and no other word changes. They must lie in one bank of
 * 2,097,152 words: a voice plays them with that bank, word / 2097152, in bits
 * 15 and 14 of its CR, and with CMPD 0.
 *
 * *start, *end, *loop and *samples, four variables of their own, are always
 * set, to 0 where the call is refused. *samples is the number of samples, which
 * may be 0. The other three are what a voice needs for the file's loop. START
 * and END, in 2048ths of a word from the bank's first on, are written as they
 * are; the loop bits take the place of the same three of CR, whose other bits,
 * the bank among them, are the host's:
 *
 *   type 0, one-directional               OTTO_CR_LPE
 *   type 1, there and back                OTTO_CR_LPE | OTTO_CR_BLE
 *   type 2, one-directional, in reverse   OTTO_CR_LPE | OTTO_CR_DIR
 *
 * A voice starts at the first sample, ACCUM (word % 2097152) * 2048, and comes
 * to the loop; in reverse it starts within the loop, such as at END - 2048, the
 * loop's last sample. END is where the next one begins, so a loop of n samples
 * has a period of just n samples (there and back 2n), where FC is at most
 * n * 2048 and LEI is 0.
 *
 * The voice also fetches the word at END, memory[first + *end / 2048], where
 * first = word - word % 2097152: before END as the second of the two that are
 * blended, and when it comes to stand on END as the one that is heard, while it
 * asks for the word after that as well, unheard. The word at END is the sample
 * after the loop, or, where the loop ends with the data, a word that the import
 * does not write. A word that is not lent counts as missing.
 *
 * A loop of type 0 or 2 goes round smoothly where the word at END repeats the
 * loop's first sample, memory[first + *start / 2048]. A loop of type 1 turns at
 * END, so the sample after it does, and where there is none a repeat of its
 * last, memory[first + *end / 2048 - 1]. A host that wants this writes the word
 * itself, after it has looked that first + *end / 2048 is below memory_words;
 * where the data goes on after the loop, it writes over a sample of the file.
 *
 * Where the file has no loop the three are 0, and say nothing of where the
 * samples are. A host then sets START and END itself: where there are samples,
 * a voice with no loop bit and LEI 0 stops once it is past the last one, with
 * END (word % 2097152 + *samples - 1) * 2048.
 *
 * Chunks may stand in any order. What stands after the RIFF length is not
 * looked at. Of the sampler chunks the first counts, and of its loops the
 * first; the loop's fraction and its number of rounds are not looked at, nor is
 * the file's sample rate: the voice's FC is the host's. Chunks of other names
 * are skipped, but must be whole like all others.
 *
 * Refusals: 5, 20, 21, 22, 23, 24. 20 is the answer to a RIFF length greater
 * than the file has, to one without room for WAVE, to a chunk that with its pad
 * goes beyond the RIFF length, to a format chunk of less than 16 bytes, and to
 * a first sampler chunk of less than 36 and 24 for each loop that it counts.
 * The extensible format has another tag than 1: 22. A word above memory_words
 * is 24 even where there are no samples.
 */
uint32_t otto_import(const uint8_t *OTTO_RESTRICT file, size_t file_bytes,
                     uint16_t *OTTO_RESTRICT memory, size_t memory_words,
                     size_t word, uint32_t *OTTO_RESTRICT start,
                     uint32_t *OTTO_RESTRICT end, uint32_t *OTTO_RESTRICT loop,
                     uint32_t *OTTO_RESTRICT samples)
    OTTO_LOOK_AT OTTO_LENT(__read_only__, 1, file, file_bytes)
    OTTO_LENT(__write_only__, 3, memory, memory_words)
    OTTO_SINGLE(6) OTTO_SINGLE(7) OTTO_SINGLE(8) OTTO_SINGLE(9)
    OTTO_REFUSED_IF(file_bytes > OTTO_MOST_FILE_BYTES)
    OTTO_REFUSED_IF(memory_words > OTTO_MOST_MEMORY_WORDS)
    OTTO_REFUSED_IF(word > memory_words);

/* ---- answers in words ---------------------------------------------------- */

/*
 * An answer in words, for a message: a text that begins with no capital, ends
 * with no full stop, and is not to be freed. Of a number that is no answer it
 * says that. The function is here alone, not in the library, and in C from C99
 * on. In C++ it is one function for all files, since otto.hpp's call it.
 */
#if defined(__cplusplus) ||                                                   \
    (defined(__STDC_VERSION__) && __STDC_VERSION__ >= 199901L)
#ifdef __cplusplus
#define OTTO_INLINE inline
#else
#define OTTO_INLINE OTTO_MAY_BE_UNUSED static inline
#endif
OTTO_INLINE const char *otto_reason(uint32_t answer)
{
    switch (answer) {
    case OTTO_DONE:
        return "the call was done";
    case OTTO_RECORD_LENGTH:
        return "the record is not 664 words";
    case OTTO_RECORD_INVALID:
        return "a word of the record has a bit or value that it may not have, "
               "or the mask of waiting voices is not true";
    case OTTO_ADDRESS_ABOVE:
        return "the byte address is above 63";
    case OTTO_POT_ABOVE:
        return "the pot result is above 1023";
    case OTTO_MEMORY_LENGTH:
        return "sample memory is longer than four banks";
    case OTTO_OUTPUT_LENGTH:
        return "the output is not 12 values";
    case OTTO_TOO_FEW_VOICES:
        return "ACTV is below 4, so that fewer than five voices are active";
    case OTTO_FILE_BROKEN:
        return "the file is longer than 65,536 bytes, is not RIFF/WAVE, or has "
               "a part that ends too soon";
    case OTTO_CHUNK_COUNT:
        return "the file has no format chunk or no data chunk, or more than "
               "one of them";
    case OTTO_SAMPLE_FORMAT:
        return "the file is not format tag 1 with one channel of 16 bits, or "
               "its last sample lacks a byte";
    case OTTO_LOOP_INVALID:
        return "the file's loop has a point past the last sample, an end point "
               "before its start point, or a type that is none of 0, 1, 2";
    case OTTO_NO_PLACE:
        return "sample memory or the bank ends before the samples do, or END "
               "is more than its register holds";
    default:
        return "this number is no answer of the engine";
    }
}
#endif

#if defined(__clang__)
#pragma clang diagnostic pop
#endif

#undef OTTO_LOOK_AT
#undef OTTO_NOT_NULL
#undef OTTO_BY_ARGUMENT
#undef OTTO_MAY_BE_UNUSED
#undef OTTO_INLINE
#undef OTTO_RESTRICT
#undef OTTO_ACCESS
#undef OTTO_WARN_IF
#undef OTTO_SINGLE
#undef OTTO_LENT
#undef OTTO_REFUSED_IF
#undef OTTO_RECORD

#ifdef __cplusplus
}
#endif

#endif
