//! The machine.

use crate::register::WORD_PAGE;
use crate::values::{OUTPUT_VALUES, RECORD_WORDS, WORD_READ_LATCH, WORD_WRITE_LATCH};
use crate::{sys, Address, Refusal, Register, Voice};

/// A machine. It owns its record, and a clone of it is the machine saved, which plays on as it
/// does.
#[derive(Clone, Debug, PartialEq, Eq)]
pub struct Machine {
    record: [u32; RECORD_WORDS],
}

/// Of a call that a valid record and a register's own address leave nothing to refuse.
fn done<T>(given: Result<T, Refusal>) -> T {
    given.unwrap_or_else(|refusal| {
        unreachable!("the linked libotto is of another version: {refusal}")
    })
}

impl Machine {
    /// A machine after power-on: every voice is stopped.
    #[must_use]
    pub fn new() -> Machine {
        let mut machine = Machine {
            record: [0; RECORD_WORDS],
        };

        machine.reset();
        machine
    }

    /// Makes it a machine after power-on again.
    pub fn reset(&mut self) {
        done(sys::reset(&mut self.record));
    }

    /// The record's words, to look at and to store. A register's word is
    /// `record()[register.word()]`.
    #[must_use]
    pub const fn record(&self) -> &[u32; RECORD_WORDS] {
        &self.record
    }

    /// Takes words that were stored.
    ///
    /// # Errors
    ///
    /// [`Refusal::RecordLength`] where they are not [`RECORD_WORDS`], and
    /// [`Refusal::RecordInvalid`] where no machine has them; the machine is then as it was.
    pub fn restore(&mut self, words: &[u32]) -> Result<(), Refusal> {
        let record = words.try_into().map_err(|_| Refusal::RecordLength)?;

        sys::waiting(words)?;
        self.record = record;
        Ok(())
    }

    /// Writes a register, all four bytes of it.
    ///
    /// Where the machine's page does not have the register, the page becomes the lowest that
    /// does. The write latch is empty afterwards. PAR and IRQV are to be read: writing them
    /// changes neither.
    pub fn write(&mut self, register: Register, value: u32) {
        let [.., last] = register.addresses();
        let [.., byte] = value.to_be_bytes();

        self.turn_to(register);
        // Bytes 0 to 2 do nothing but wait in the latch for byte 3, and the latch is a word of
        // the record.
        self.record[WORD_WRITE_LATCH] = value;
        done(sys::write(&mut self.record, last.0, byte));
    }

    /// Reads a register, all four bytes of it.
    ///
    /// Where the machine's page does not have the register, the page becomes the lowest that
    /// does. Reading IRQV takes the interrupt that is in it, and reading PAR its result.
    pub fn read(&mut self, register: Register) -> u32 {
        let [first, ..] = register.addresses();

        self.turn_to(register);
        // Byte 0 takes all four into the latch, a word as well.
        done(sys::read(&mut self.record, first.0));
        self.record[WORD_READ_LATCH]
    }

    /// Writes one byte, on the page that the machine is on. Bytes 0 to 2 of a register wait in
    /// the write latch, and byte 3 stores all four.
    ///
    /// # Errors
    ///
    /// [`Refusal::AddressAbove`].
    pub fn write_byte(&mut self, address: Address, value: u8) -> Result<(), Refusal> {
        sys::write(&mut self.record, address.0, value)
    }

    /// Reads one byte, on the page that the machine is on. Byte 0 takes the register into the
    /// read latch, from which all four are read; of IRQV it also takes the interrupt, and of PAR
    /// the result.
    ///
    /// # Errors
    ///
    /// [`Refusal::AddressAbove`].
    pub fn read_byte(&mut self, address: Address) -> Result<u8, Refusal> {
        sys::read(&mut self.record, address.0)
    }

    /// Stores a result of the pot's converter, 0 to 1023, for the host to read in PAR.
    ///
    /// # Errors
    ///
    /// [`Refusal::PotAbove`].
    pub fn set_pot(&mut self, pot: u32) -> Result<(), Refusal> {
        sys::set_pot(&mut self.record, pot)
    }

    /// Runs one frame, a turn of each active voice, and gives the number of words that it asked
    /// for beyond the end of `memory`, each of which sounds as 0.
    ///
    /// The output is twelve values of 20 bits, of channels 0 to 5, left before right. An output
    /// of another length does not compile:
    ///
    /// ```
    /// # let mut machine = otto::Machine::new();
    /// let mut output = [0; 12];
    /// # let _ =
    /// machine.frame(&[], &mut output);
    /// ```
    ///
    /// ```compile_fail,E0308
    /// # let mut machine = otto::Machine::new();
    /// let mut output = [0; 11];
    /// # let _ =
    /// machine.frame(&[], &mut output);
    /// ```
    ///
    /// # Errors
    ///
    /// [`Refusal::TooFewVoices`] where ACTV is below [`LEAST_ACTV`](crate::LEAST_ACTV), and
    /// [`Refusal::MemoryLength`] where `memory` is longer than
    /// [`MOST_MEMORY_WORDS`](crate::MOST_MEMORY_WORDS); machine and output are then as they were.
    pub fn frame(
        &mut self,
        memory: &[u16],
        output: &mut [i32; OUTPUT_VALUES],
    ) -> Result<u32, Refusal> {
        sys::frame(&mut self.record, memory, output)
    }

    /// Whose interrupts wait: bit v is that of voice v. Takes none.
    #[must_use]
    pub fn waiting(&self) -> u32 {
        done(sys::waiting(&self.record))
    }

    /// Takes the interrupt that the vector names, once after each frame; gives nothing where
    /// there is none, or one that was withdrawn.
    pub fn take_interrupt(&mut self) -> Option<Voice> {
        let mask = self.waiting();

        if mask == 0 {
            return None;
        }
        Voice::new(self.read(Register::IRQV)).filter(|voice| mask >> voice.number() & 1 != 0)
    }

    fn turn_to(&mut self, register: Register) {
        if !register.is_on(self.record[WORD_PAGE]) {
            self.record[WORD_PAGE] = register.lowest_page();
        }
    }
}

impl Default for Machine {
    fn default() -> Machine {
        Machine::new()
    }
}
