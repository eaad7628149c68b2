//! What the chip's registers say: its edition, a guest's marks, and what ran.

use crate::long::Origin;
use crate::status::Marks;

/// The field of four bits at a register's bits from `low` up: one of its hexadecimal
/// digits.
fn digit(register: u64, low: usize) -> u32 {
    let digits = format!("{register:016x}");
    let digit = digits.chars().rev().nth(low / 4).and_then(|digit| digit.to_digit(16));
    digit.expect("a digit")
}

/// The same of a field that is signed.
fn signed_digit(register: u64, low: usize) -> i32 {
    let digit = digit(register, low) as i32;
    if digit < 8 {
        digit
    } else {
        digit - 16
    }
}

/// The edition by ID_AA64PFR0_EL1, ID_AA64MMFR0_EL1 and ID_AA64MMFR1_EL1.
pub fn edition(pfr0: u64, mmfr0: u64, mmfr1: u64) -> u32 {
    let ras = digit(pfr0, 28) > 0;
    let lpa2 = signed_digit(mmfr0, 28) == 1 || digit(mmfr0, 20) == 2;
    let hafdbs = digit(mmfr1, 0) > 0;
    let lpa = digit(mmfr0, 0) > 5;
    [(ras, 1), (lpa2, 2), (hafdbs, 4), (lpa, 8)]
        .into_iter()
        .filter_map(|(has, counts)| has.then_some(counts))
        .sum()
}

/// The short form's edition by ID_PFR0.
pub fn short_edition(pfr0: u64) -> u32 {
    u32::from(digit(pfr0, 28) > 0)
}

/// A guest's marks by ID_MMFR3, ID_PFR2 and ID_PFR0.
pub fn marks(mmfr3: u64, pfr2: u64, pfr0: u64) -> Marks {
    Marks { pan: digit(mmfr3, 16) > 0, ssbs: digit(pfr2, 4) > 0, dit: digit(pfr0, 24) > 0 }
}

/// What ran when the chip trapped.
#[derive(Clone, Copy, Debug, PartialEq, Eq)]
pub enum Ran {
    /// EL1 is AArch32, and so is all below it.
    Guest,
    AArch64,
    /// A 32-bit program at EL0 below EL1 in AArch64.
    Program,
}

impl Ran {
    /// By SPSR_EL2 and HCR_EL2: M[4] is in the second digit of the one, RW in the
    /// eighth of the other.
    pub fn of(spsr: u64, hcr: u64) -> Ran {
        let aarch32 = digit(spsr, 4) % 2 == 1;
        let below_aarch64 = digit(hcr, 28) >= 8;
        match (aarch32, below_aarch64) {
            (false, _) => Ran::AArch64,
            (true, true) => Ran::Program,
            (true, false) => Ran::Guest,
        }
    }

    /// The number that a row shows.
    pub fn number(self) -> u8 {
        self as u8
    }

    pub fn origin(self) -> Origin {
        if self == Ran::AArch64 {
            Origin::AArch64
        } else {
            Origin::AArch32
        }
    }
}

#[cfg(test)]
mod tests {
    use super::*;

    #[test]
    fn the_board_that_the_guide_shows() {
        let edition = edition(0x1100_0000_1011_2222, 0x0010_1122, 0x1021_2122);
        assert_eq!(edition, 5);
    }

    #[test]
    fn no_pages_of_4_kb_are_no_lpa2() {
        assert_eq!(edition(0, 0xf000_0000, 0), 0);
        assert_eq!(edition(0, 0x1000_0000, 0), 2);
        assert_eq!(edition(0, 0xf020_0000, 0), 2);
        assert_eq!(edition(0, 0x0000_0006, 0), 8);
    }

    #[test]
    fn a_program_below_a_64_bit_kernel_is_no_guest() {
        assert_eq!(Ran::of(0x10, 0), Ran::Guest);
        assert_eq!(Ran::of(0x10, 1 << 31), Ran::Program);
        assert_eq!(Ran::of(0x05, 1 << 31), Ran::AArch64);
        assert_eq!(Ran::Program.origin(), Origin::AArch32);
    }
}
