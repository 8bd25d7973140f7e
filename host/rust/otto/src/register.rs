//! Registers and the pages that they are on, and the numbers that say whose they are.

use crate::values::{BANK_WORDS, CHANNELS, MOST_MEMORY_WORDS, VOICES};

/// The address of one byte, 0 to 63; a greater one is refused by the call that it is given to. It
/// names no page: the byte is that of the page which the machine is on.
#[derive(Clone, Copy, Debug, PartialEq, Eq, PartialOrd, Ord, Hash)]
pub struct Address(pub u32);

// Of each register, its number on a page.
const CR: u32 = 0;
const ACTV: u32 = 11;
const MODE: u32 = 12;
const W_ST: u32 = 10;
const W_END: u32 = 11;
const LR_END: u32 = 12;
const PAR: u32 = 13;
const IRQV: u32 = 14;
const PAGE: u32 = 15;

const PAGE_LOWER: u32 = 0; // of voice 0; that of voice 1 is the next
const PAGE_UPPER: u32 = 32;
const PAGE_CHANNELS: u32 = 64;

pub(crate) const WORD_PAGE: usize = 640;
const VOICE_WORDS: usize = 20;
const WORD_UPPER: usize = 10; // from a voice's first word, less register 0, to its upper page
const WORD_SUMS: usize = 651;

// The bits of a page that say whether a register is on it.
const EVERY_PAGE: u32 = 0x00;
const EVERY_CHANNEL: u32 = 0x40;
const EVERY_VOICE: u32 = 0x60;
const BOTH_PAGES: u32 = 0x5F;
const ONE_PAGE: u32 = 0x7F;

/// A register with the pages that it is on. A voice's are had from its [`Voice`], the sums of a
/// channel from its [`Channel`], and all others here.
#[derive(Clone, Copy, Debug, PartialEq, Eq, Hash)]
pub struct Register {
    lowest_page: u32,
    page_bits: u32,
    number: u32,
    word: usize,
}

impl Register {
    /// The pot's result, 0 to 1023, and 1023 once it was read.
    pub const PAR: Register = Register::new(0, EVERY_PAGE, PAR, 642);
    /// The interrupt vector: a voice's number, or [`NO_VOICE`](crate::NO_VOICE).
    pub const IRQV: Register = Register::new(0, EVERY_PAGE, IRQV, 641);
    /// The page.
    pub const PAGE: Register = Register::new(0, EVERY_PAGE, PAGE, WORD_PAGE);
    /// The last active voice, 31 after a reset.
    pub const ACTV: Register = Register::new(PAGE_LOWER, EVERY_VOICE, ACTV, 643);
    /// Kept, and of no effect.
    pub const MODE: Register = Register::new(PAGE_LOWER, EVERY_VOICE, MODE, 644);
    /// Kept, and of no effect.
    pub const W_ST: Register = Register::new(PAGE_UPPER, EVERY_VOICE, W_ST, 645);
    /// Kept, and of no effect.
    pub const W_END: Register = Register::new(PAGE_UPPER, EVERY_VOICE, W_END, 646);
    /// Kept, and of no effect.
    pub const LR_END: Register = Register::new(PAGE_UPPER, EVERY_VOICE, LR_END, 647);

    const fn new(lowest_page: u32, page_bits: u32, number: u32, word: usize) -> Register {
        Register {
            lowest_page,
            page_bits,
            number,
            word,
        }
    }

    /// Its word in the record.
    #[must_use]
    pub const fn word(self) -> usize {
        self.word
    }

    /// The lowest page that it is on.
    #[must_use]
    pub const fn lowest_page(self) -> u32 {
        self.lowest_page
    }

    /// Whether it is on a page.
    #[must_use]
    pub const fn is_on(self, page: u32) -> bool {
        page & self.page_bits == self.lowest_page
    }

    /// The addresses of its bytes 0 to 3, from the highest down, on any of its pages.
    #[must_use]
    pub const fn addresses(self) -> [Address; 4] {
        let first = 4 * self.number;

        [
            Address(first),
            Address(first + 1),
            Address(first + 2),
            Address(first + 3),
        ]
    }
}

/// A number below a count, as a type.
macro_rules! numbered {
    ($(#[$text:meta])* $name:ident, $count:expr) => {
        $(#[$text])*
        #[derive(Clone, Copy, Debug, PartialEq, Eq, PartialOrd, Ord, Hash)]
        pub struct $name(u32);

        impl $name {
            /// All that there are, from 0 on.
            pub const ALL: [$name; $count] = {
                let mut all = [$name(0); $count];
                let mut number = 0;

                while (number as usize) < $count {
                    all[number as usize] = $name(number);
                    number += 1;
                }
                all
            };

            /// The one of a number, if there is one.
            #[must_use]
            pub const fn new(number: u32) -> Option<$name> {
                if (number as usize) < $count {
                    Some($name(number))
                } else {
                    None
                }
            }

            /// Its number.
            #[must_use]
            pub const fn number(self) -> u32 {
                self.0
            }
        }
    };
}

numbered! {
    /// A voice, 0 to 31, with its registers.
    ///
    /// A constant is had from `ALL`, and does not compile where there is no such voice:
    ///
    /// ```
    /// const LAST: otto::Voice = otto::Voice::ALL[31];
    /// # let _ = LAST;
    /// ```
    ///
    /// ```compile_fail,E0080
    /// const NONE: otto::Voice = otto::Voice::ALL[32];
    /// # let _ = NONE;
    /// ```
    Voice, VOICES
}

numbered! {
    /// A channel, 0 to 5: its bits in CR, and its sums.
    Channel, CHANNELS
}

numbered! {
    /// A bank of sample memory, 0 to 3: its bits in CR.
    Bank, MOST_MEMORY_WORDS / BANK_WORDS
}

/// The registers of a voice on one of its pages, each by its number there.
macro_rules! voice_registers {
    ($page:ident: $($(#[$text:meta])* $name:ident = $number:literal;)*) => {
        impl Voice {
            $(
                $(#[$text])*
                #[must_use]
                pub const fn $name(self) -> Register {
                    self.$page($number)
                }
            )*
        }
    };
}

voice_registers! { lower:
    /// FC, 17 bits: 2048ths of a sample to go each frame.
    fc = 1;
    /// The left volume, 16 bits: an exponent of 4 and a mantissa of 8.
    lvol = 2;
    /// The left volume's ramp, a signed number in bits 15 to 8.
    lvramp = 3;
    /// The right volume.
    rvol = 4;
    /// The right volume's ramp.
    rvramp = 5;
    /// The frames that the four ramps still run, 0 to 511.
    ecount = 6;
    /// The filter's K2, 12 bits at the top of 16: poles 3 and 4, as CR says.
    k2 = 7;
    /// K2's ramp; bit 0 makes it a slow one.
    k2ramp = 8;
    /// The filter's K1: poles 1 and 2, and 3 with LP3.
    k1 = 9;
    /// K1's ramp; bit 0 makes it a slow one.
    k1ramp = 10;
}

voice_registers! { upper:
    /// START, in 2048ths of a sample from the bank's first word on: whole samples are kept.
    start = 1;
    /// END, as START: sixteenths of a sample are kept.
    end = 2;
    /// ACCUM, as START: where the voice is.
    accum = 3;
    /// The last output of pole 4, signed, 18 bits.
    o4_n1 = 4;
    /// The last output of pole 3.
    o3_n1 = 5;
    /// The output of pole 3 before the last.
    o3_n2 = 6;
    /// The last output of pole 2.
    o2_n1 = 7;
    /// The output of pole 2 before the last.
    o2_n2 = 8;
    /// The last output of pole 1.
    o1_n1 = 9;
}

impl Voice {
    /// CR, 16 bits, on both of the voice's pages: `CR_` and the bits of its channel and bank.
    #[must_use]
    pub const fn cr(self) -> Register {
        Register::new(PAGE_LOWER + self.0, BOTH_PAGES, CR, self.first_word())
    }

    const fn lower(self, number: u32) -> Register {
        let word = self.first_word() + number as usize;

        Register::new(PAGE_LOWER + self.0, ONE_PAGE, number, word)
    }

    const fn upper(self, number: u32) -> Register {
        let word = self.first_word() + WORD_UPPER + number as usize;

        Register::new(PAGE_UPPER + self.0, ONE_PAGE, number, word)
    }

    const fn first_word(self) -> usize {
        VOICE_WORDS * self.0 as usize
    }
}

impl Channel {
    /// Its bits in CR: the voice is heard on it.
    #[must_use]
    pub const fn cr_bits(self) -> u32 {
        0x0400 * self.0
    }

    /// The sum of its left side, 23 bits, for the next frame to add to; it reads as 0.
    #[must_use]
    pub const fn left(self) -> Register {
        Channel::sum(2 * self.0)
    }

    /// The sum of its right side.
    #[must_use]
    pub const fn right(self) -> Register {
        Channel::sum(2 * self.0 + 1)
    }

    const fn sum(number: u32) -> Register {
        Register::new(
            PAGE_CHANNELS,
            EVERY_CHANNEL,
            number,
            WORD_SUMS + number as usize,
        )
    }
}

impl Bank {
    /// Its bits in CR: the voice plays from it.
    #[must_use]
    pub const fn cr_bits(self) -> u32 {
        0x4000 * self.0
    }
}
