//! WAVE files.

use crate::{sys, Refusal};

/// What a voice needs to play a WAVE file.
#[derive(Clone, Copy, Debug, Default, PartialEq, Eq, Hash)]
pub struct Import {
    /// START of the file's loop, as the register takes it; 0 where there is no loop.
    pub start: u32,
    /// END of the loop, as the register takes it; 0 where there is none.
    pub end: u32,
    /// The loop's bits of CR: [`CR_LPE`](crate::CR_LPE), [`CR_BLE`](crate::CR_BLE) and
    /// [`CR_DIR`](crate::CR_DIR); 0 where there is none.
    pub loop_bits: u32,
    /// How many samples there are.
    pub samples: u32,
}

/// Writes the samples of a WAVE file, mono and 16 bits, into sample memory, from `memory[word]`
/// on. All of them must lie in one bank.
///
/// # Errors
///
/// [`Refusal::MemoryLength`], [`FileBroken`](Refusal::FileBroken),
/// [`ChunkCount`](Refusal::ChunkCount), [`SampleFormat`](Refusal::SampleFormat),
/// [`LoopInvalid`](Refusal::LoopInvalid) and [`NoPlace`](Refusal::NoPlace), the first that holds;
/// memory is then as it was.
pub fn import_wave(file: &[u8], memory: &mut [u16], word: usize) -> Result<Import, Refusal> {
    sys::import(file, memory, word)
}
