//! A voice engine with the rules of the ES5506 "OTTO" sound chip, exact to the bit: safe Rust
//! over `libotto.a`, without the standard library and without an allocation.
//!
//! A [`Machine`] owns its record; what else a call works on is lent as a slice. One voice that
//! plays a sample, and one frame of it:
//!
//! ```
//! use otto::{Machine, Voice, CR_LP3, CR_LP4, K_OPEN, OUTPUT_VALUES, VOL_LOUDEST};
//!
//! let voice = Voice::ALL[0];
//! let memory = [20000; 2];
//! let mut output = [0; OUTPUT_VALUES];
//!
//! let mut machine = Machine::new();
//! machine.write(voice.lvol(), VOL_LOUDEST);
//! machine.write(voice.k2(), K_OPEN);
//! machine.write(voice.k1(), K_OPEN);
//! machine.write(voice.cr(), CR_LP3 | CR_LP4); // neither stop bit: it runs
//! let missing = machine.frame(&memory, &mut output)?;
//! assert_eq!((missing, output[0]), (0, 319_055));
//! # Ok::<(), otto::Refusal>(())
//! ```
//!
//! A machine's record is valid and of the right length, since the machine alone writes it. So a
//! call that no other fault can refuse gives what it gives, and one that can be refused gives a
//! `Result` with a [`Refusal`]. What each call does, the C header `otto.h` says; the constants
//! have its names without `OTTO_`.
//!
//! # Linking
//!
//! The environment variable `OTTO_LIB_DIR` names the folder of `libotto.a`, by its whole path.
//! Where there is no such variable, it is `crates/otto/out` of the repository that this crate is
//! part of. A call panics in one case alone: the archive is of another version than the crate,
//! and answers what one of this version does not.

#![no_std]

mod machine;
mod refusal;
mod register;
mod sys;
mod values;
mod wave;

pub use machine::Machine;
pub use refusal::{Refusal, UnknownRefusal};
pub use register::{Address, Bank, Channel, Register, Voice};
pub use values::*;
pub use wave::{import_wave, Import};

/// The code of a sample: that with the greatest value which is not above it.
#[must_use]
pub fn compress(sample: i16) -> u8 {
    sys::otto_compress(sample)
}

/// The value of a code. Compressed sample memory has codes in its high bytes.
#[must_use]
pub fn expand(code: u8) -> i16 {
    sys::otto_expand(code)
}
