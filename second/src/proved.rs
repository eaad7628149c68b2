//! The proved code, called through its static library.

use crate::form::Form;
use crate::long::{AARCH64, LONG};
use crate::short::SHORT;

/// What `rewrite` gives where reading or writing refused.
pub const REFUSED: u64 = u64::MAX;

extern "C" {
    fn knucklepin_read(edition: u32, word: u64) -> u64;
    fn knucklepin_rewrite(reader: u32, writer: u32, word: u64) -> u64;
    fn knucklepin_aarch64_read(edition: u32, word: u64) -> u64;
    fn knucklepin_aarch64_rewrite(reader: u32, writer: u32, word: u64) -> u64;
    fn knucklepin_short_read(edition: u32, word: u32) -> u64;
    fn knucklepin_short_rewrite(reader: u32, writer: u32, word: u32) -> u64;
    fn knucklepin_a32_form(word: u32) -> u64;
    fn knucklepin_a32_rewrite(word: u32) -> u64;
}

/// The proved reader and writer of a form.
pub struct Proved {
    pub name: &'static str,
    pub form: &'static Form,
    /// The answer to reading a word: number, mask << 8, count << 24.
    pub read: fn(u32, u32) -> u64,
    /// The word that the second edition puts out for the record that the first
    /// reads.
    pub rewrite: fn(u32, u32, u32) -> u64,
}

pub const PROVED: [Proved; 3] = [
    Proved { name: "long", form: &LONG, read: read_long, rewrite: rewrite_long },
    Proved { name: "AArch64 long", form: &AARCH64, read: read_aarch64, rewrite: rewrite_aarch64 },
    Proved { name: "short", form: &SHORT, read: read_short, rewrite: rewrite_short },
];

pub fn read_long(edition: u32, word: u32) -> u64 {
    // SAFETY: the call takes and gives plain numbers and keeps no state.
    unsafe { knucklepin_read(edition, word.into()) }
}

fn rewrite_long(reader: u32, writer: u32, word: u32) -> u64 {
    // SAFETY: the call takes and gives plain numbers and keeps no state.
    unsafe { knucklepin_rewrite(reader, writer, word.into()) }
}

fn read_aarch64(edition: u32, word: u32) -> u64 {
    // SAFETY: the call takes and gives plain numbers and keeps no state.
    unsafe { knucklepin_aarch64_read(edition, word.into()) }
}

fn rewrite_aarch64(reader: u32, writer: u32, word: u32) -> u64 {
    // SAFETY: the call takes and gives plain numbers and keeps no state.
    unsafe { knucklepin_aarch64_rewrite(reader, writer, word.into()) }
}

fn read_short(edition: u32, word: u32) -> u64 {
    // SAFETY: the call takes and gives plain numbers and keeps no state.
    unsafe { knucklepin_short_read(edition, word) }
}

fn rewrite_short(reader: u32, writer: u32, word: u32) -> u64 {
    // SAFETY: the call takes and gives plain numbers and keeps no state.
    unsafe { knucklepin_short_rewrite(reader, writer, word) }
}

/// The form of an A32 word, its transfer's number and 16 for each way before its
/// own to give the address, or `REFUSED`.
pub fn a32_form(word: u32) -> u64 {
    // SAFETY: the call takes and gives plain numbers and keeps no state.
    unsafe { knucklepin_a32_form(word) }
}

pub fn a32_rewrite(word: u32) -> u64 {
    // SAFETY: the call takes and gives plain numbers and keeps no state.
    unsafe { knucklepin_a32_rewrite(word) }
}
