//! The sizes and values of `otto.h`, under its names.

// ---- sizes ----

/// The words of a record.
pub const RECORD_WORDS: usize = 664;
/// The values of a frame: channels 0 to 5, left before right.
pub const OUTPUT_VALUES: usize = 12;
/// The voices of a machine.
pub const VOICES: usize = 32;
/// The channels of a machine, each of two sides.
pub const CHANNELS: usize = 6;
/// The least ACTV that a frame takes: five voices.
pub const LEAST_ACTV: u32 = 4;
/// A whole sample in FC, START, END and ACCUM.
pub const WHOLE_SAMPLE: u32 = 2048;
/// The words of a bank of sample memory.
pub const BANK_WORDS: usize = 2_097_152;
/// The greatest number of words of sample memory: four banks.
pub const MOST_MEMORY_WORDS: usize = 8_388_608;
/// The greatest number of bytes of a WAVE file.
pub const MOST_FILE_BYTES: usize = 65_536;

// ---- what registers hold ----

/// In IRQV where it names no voice.
pub const NO_VOICE: u32 = 128;
/// The loudest volume. 0x1000 less is 6 dB less; 0 is not silence, but 96 dB less.
pub const VOL_LOUDEST: u32 = 0xFFF0;
/// K1 or K2 of a low pass that lets nearly all through.
pub const K_OPEN: u32 = 0xFFF0;
/// The greatest ECOUNT.
pub const MOST_ECOUNT: u32 = 511;

// ---- the bits of CR; Channel and Bank have theirs ----

/// Stopped; a loop event sets it.
pub const CR_STP0: u32 = 0x0001;
/// Stopped; only the host sets it.
pub const CR_STP1: u32 = 0x0002;
/// No loop events.
pub const CR_LEI: u32 = 0x0004;
/// The voice loops.
pub const CR_LPE: u32 = 0x0008;
/// With [`CR_LPE`]: there and back.
pub const CR_BLE: u32 = 0x0010;
/// A loop event sets [`CR_IRQ`].
pub const CR_IRQE: u32 = 0x0020;
/// In reverse.
pub const CR_DIR: u32 = 0x0040;
/// The voice's interrupt waits.
pub const CR_IRQ: u32 = 0x0080;
/// Pole 3 is a low pass with K1, or with [`CR_LP4`] both are low passes.
pub const CR_LP3: u32 = 0x0100;
/// Pole 4 is a low pass with K2, and so is pole 3 without [`CR_LP3`].
pub const CR_LP4: u32 = 0x0200;
/// Sample memory has codes.
pub const CR_CMPD: u32 = 0x2000;

// ---- words of the record that are no register; Register::word has the others ----

/// The slow ramps' counter, 0 to 7: they move where it is 0.
pub const WORD_SLOW: usize = 648;
/// The bytes that were written and wait for byte 3.
pub const WORD_WRITE_LATCH: usize = 649;
/// The register whose byte 0 was read last.
pub const WORD_READ_LATCH: usize = 650;
/// The waiting voices, as [`Machine::waiting`](crate::Machine::waiting) gives them.
pub const WORD_WAITING: usize = 663;
