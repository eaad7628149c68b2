//! The change of a short record to a long one, by the manual's mapping of
//! AArch32 registers to AArch64 numbers.

use crate::catalogue::Catalogue;
use crate::form::Record;
use crate::long::LONG;
use crate::status::is_mode;
use crate::syndrome::Refusal;

/// The AArch64 numbers of registers 8 to 14 in the modes that have their own,
/// and else in User mode.
fn banked(mode: u32) -> [u32; 7] {
    match mode {
        0x11 => [24, 25, 26, 27, 28, 29, 30],
        0x12 => [8, 9, 10, 11, 12, 17, 16],
        0x13 => [8, 9, 10, 11, 12, 19, 18],
        0x17 => [8, 9, 10, 11, 12, 21, 20],
        0x1b => [8, 9, 10, 11, 12, 23, 22],
        _ => [8, 9, 10, 11, 12, 13, 14],
    }
}

/// The AArch64 number of a register in a mode; 15 has none.
pub fn mapped(mode: u32, register: u32) -> Option<u32> {
    match register {
        0..=7 => Some(register),
        8..=14 => Some(banked(mode)[register as usize - 8]),
        _ => None,
    }
}

/// A short record's fields as a long record, whether or not an edition has it;
/// none where a register that is known is 15.
pub fn widened(mode: u32, short: &Record) -> Option<Record> {
    let kind = LONG.kinds.iter().find(|kind| kind.number == short.kind.number)?;
    let literal = short.get("AM").is_some_and(|am| am >= 0b100);
    let value = |name: &str| match name {
        "Rt" | "Rt2" => mapped(mode, short.get(name)?),
        "Rn" if !literal => mapped(mode, short.get(name)?),
        "SRT" if short.is_set("ISV") => mapped(mode, short.get(name)?),
        "IL" if short.class == 0x22 => Some(1),
        "SET" | "SF" => Some(0),
        // A data abort's FnV is the lower of bits 11:10.
        "FnV" if short.get("AET").is_some() => short.get("AET").map(|bits| bits & 1),
        _ => short.get(name),
    };
    let values = kind.fields.iter().map(|field| value(field.name)).collect::<Option<_>>()?;
    Some(Record { kind, class: short.class, values })
}

pub fn widen(
    short: &Catalogue,
    long: &Catalogue,
    mode: u32,
    record: &Record,
) -> Result<Record, Refusal> {
    if !is_mode(mode) {
        return Err(Refusal::plain(9));
    }
    let had = Some(record).filter(|record| short.has(record));
    let wide = had.and_then(|record| widened(mode, record));
    wide.filter(|wide| long.has(wide)).ok_or(Refusal::plain(5))
}

#[cfg(test)]
mod tests {
    use super::*;
    use crate::status::MODES;

    /// The link registers of document 01's table of injections, and the rest
    /// of the manual's table read by its AArch64 number.
    #[test]
    fn registers_are_those_of_the_manual() {
        let links = [(0x10, 14), (0x11, 30), (0x12, 16), (0x13, 18), (0x17, 20), (0x1b, 22)];
        for (mode, link) in links {
            assert_eq!(mapped(mode, 14), Some(link));
        }
        let stacks = [(0x1f, 13), (0x11, 29), (0x12, 17), (0x13, 19), (0x17, 21), (0x1b, 23)];
        for (mode, stack) in stacks {
            assert_eq!(mapped(mode, 13), Some(stack));
        }
        for mode in MODES.map(u32::from) {
            let mut numbers: Vec<u32> = (0..15).filter_map(|r| mapped(mode, r)).collect();
            numbers.sort();
            numbers.dedup();
            assert_eq!(numbers.len(), 15);
            assert!(numbers.iter().all(|&number| number < 31 && number != 15));
            assert_eq!(mapped(mode, 15), None);
        }
    }
}
