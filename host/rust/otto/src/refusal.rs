//! Why a call was refused.

use core::error::Error;
use core::fmt;

/// Why a call was refused. A refused call has changed nothing.
#[derive(Clone, Copy, Debug, PartialEq, Eq, Hash)]
#[non_exhaustive]
#[repr(u32)]
pub enum Refusal {
    /// The record is not [`RECORD_WORDS`](crate::RECORD_WORDS) long.
    RecordLength = 1,
    /// A word of the record has a bit or value that it may not have, or the mask of waiting
    /// voices is not true.
    RecordInvalid = 2,
    /// The byte address is above 63.
    AddressAbove = 3,
    /// The pot result is above 1023.
    PotAbove = 4,
    /// Sample memory is longer than [`MOST_MEMORY_WORDS`](crate::MOST_MEMORY_WORDS).
    MemoryLength = 5,
    /// The output is not [`OUTPUT_VALUES`](crate::OUTPUT_VALUES) long.
    OutputLength = 6,
    /// ACTV is below [`LEAST_ACTV`](crate::LEAST_ACTV).
    TooFewVoices = 7,
    /// The file is too long, has no RIFF/WAVE, or a part of it ends too soon.
    FileBroken = 20,
    /// The file has no format or data chunk, or two of one.
    ChunkCount = 21,
    /// The file is not of format tag 1, one channel and 16 bits, or its last sample lacks a byte.
    SampleFormat = 22,
    /// A point of the loop is past the data's last sample, its end point is before its start
    /// point, or its type is none of 0, 1, 2.
    LoopInvalid = 23,
    /// Memory or the bank ends before the samples do, or END is more than its register holds.
    NoPlace = 24,
}

impl Refusal {
    /// Its number in `otto.h`, which a call of the library answers.
    #[must_use]
    pub const fn number(self) -> u32 {
        self as u32
    }

    /// The sentence of `otto_reason`, without a capital and a full stop.
    #[must_use]
    pub const fn reason(self) -> &'static str {
        match self {
            Refusal::RecordLength => "the record is not 664 words",
            Refusal::RecordInvalid => {
                "a word of the record has a bit or value that it may not have, or the mask of \
                 waiting voices is not true"
            }
            Refusal::AddressAbove => "the byte address is above 63",
            Refusal::PotAbove => "the pot result is above 1023",
            Refusal::MemoryLength => "sample memory is longer than four banks",
            Refusal::OutputLength => "the output is not 12 values",
            Refusal::TooFewVoices => "ACTV is below 4, so that fewer than five voices are active",
            Refusal::FileBroken => {
                "the file is longer than 65,536 bytes, is not RIFF/WAVE, or has a part that ends \
                 too soon"
            }
            Refusal::ChunkCount => {
                "the file has no format chunk or no data chunk, or more than one of them"
            }
            Refusal::SampleFormat => {
                "the file is not format tag 1 with one channel of 16 bits, or its last sample \
                 lacks a byte"
            }
            Refusal::LoopInvalid => {
                "the file's loop has a point past the last sample, an end point before its start \
                 point, or a type that is none of 0, 1, 2"
            }
            Refusal::NoPlace => {
                "sample memory or the bank ends before the samples do, or END is more than its \
                 register holds"
            }
        }
    }
}

impl fmt::Display for Refusal {
    fn fmt(&self, f: &mut fmt::Formatter<'_>) -> fmt::Result {
        f.write_str(self.reason())
    }
}

impl Error for Refusal {}

impl From<Refusal> for u32 {
    fn from(refusal: Refusal) -> u32 {
        refusal.number()
    }
}

impl TryFrom<u32> for Refusal {
    type Error = UnknownRefusal;

    fn try_from(number: u32) -> Result<Refusal, UnknownRefusal> {
        Ok(match number {
            1 => Refusal::RecordLength,
            2 => Refusal::RecordInvalid,
            3 => Refusal::AddressAbove,
            4 => Refusal::PotAbove,
            5 => Refusal::MemoryLength,
            6 => Refusal::OutputLength,
            7 => Refusal::TooFewVoices,
            20 => Refusal::FileBroken,
            21 => Refusal::ChunkCount,
            22 => Refusal::SampleFormat,
            23 => Refusal::LoopInvalid,
            24 => Refusal::NoPlace,
            _ => return Err(UnknownRefusal(number)),
        })
    }
}

/// A number that is no refusal's.
#[derive(Clone, Copy, Debug, PartialEq, Eq, Hash)]
pub struct UnknownRefusal(
    /// The number.
    pub u32,
);

impl fmt::Display for UnknownRefusal {
    fn fmt(&self, f: &mut fmt::Formatter<'_>) -> fmt::Result {
        write!(f, "{} is the number of no refusal", self.0)
    }
}

impl Error for UnknownRefusal {}
