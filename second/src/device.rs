//! A guest's load or store at an emulated device, finished by its record.

use crate::catalogue::Catalogue;
use crate::form::Record;
use crate::guest::State;
use crate::status::Status;

/// What the device has to do with it.
#[derive(Clone, Copy, Debug, PartialEq, Eq)]
pub enum Access {
    Load,
    /// The value that the device gets.
    Store(u32),
}

/// The access and the state after it, or the number of the refusal.
pub fn finish(
    catalogue: &Catalogue,
    state: &State,
    record: &Record,
    value: u32,
) -> Result<(Access, State), u8> {
    if !catalogue.has(record) {
        return Err(5);
    }
    let status = Status::unpack(state.status);
    if !status.is_accepted(&state.marks) {
        return Err(9);
    }
    let described = Described::of(record).ok_or(18)?;
    let mut after = state.clone();
    let register = &mut after.registers[described.register];
    let access = if described.store {
        Access::Store(number_of(&described.passing(*register, status.e)))
    } else {
        *register = described.extended(&described.passing(value, status.e));
        Access::Load
    };
    let length = if described.il { 4 } else { 2 };
    after.pc = ((u64::from(state.pc) + length) % (1 << 32)) as u32;
    after.status = Status { it: it_advance(status.it), ..status }.pack();
    Ok((access, after))
}

/// A record's fields that describe a load or store.
struct Described {
    il: bool,
    bytes: usize,
    signed: bool,
    register: usize,
    store: bool,
}

impl Described {
    /// Those of a data abort with ISV 1.
    fn of(record: &Record) -> Option<Described> {
        if !record.is_set("ISV") {
            return None;
        }
        Some(Described {
            il: record.is_set("IL"),
            bytes: 1 << record.get("SAS")?,
            signed: record.is_set("SSE"),
            register: record.get("SRT")? as usize,
            store: record.is_set("WnR"),
        })
    }

    /// The bytes that pass, the lowest first as the receiver sees them.
    fn passing(&self, value: u32, big_endian: bool) -> Vec<u8> {
        let mut bytes = value.to_le_bytes()[..self.bytes].to_vec();
        if big_endian {
            bytes.reverse();
        }
        bytes
    }

    /// What a register holds after a load of the bytes.
    fn extended(&self, bytes: &[u8]) -> u32 {
        let negative = bytes.last().is_some_and(|&top| top >= 0x80);
        let above = if self.signed && negative { 0xff } else { 0 };
        let mut whole = bytes.to_vec();
        whole.resize(4, above);
        number_of(&whole)
    }
}

/// The number whose bytes these are, the lowest first.
fn number_of(bytes: &[u8]) -> u32 {
    bytes.iter().rev().fold(0, |number, &byte| number * 256 + u32::from(byte))
}

/// The manual's ITAdvance: where IT[2:0] is 000 the block ends, else IT[4:0] moves
/// up by one, and IT[7:5] stays.
pub fn it_advance(it: u8) -> u8 {
    let (base, mask) = (it / 32, it % 32);
    if it.is_multiple_of(8) {
        0
    } else {
        base * 32 + mask * 2 % 32
    }
}

#[cfg(test)]
mod tests {
    use super::*;

    fn described(bytes: usize, signed: bool) -> Described {
        Described { il: true, bytes, signed, register: 0, store: false }
    }

    fn loaded(bytes: usize, signed: bool, value: u32, big_endian: bool) -> u32 {
        let described = described(bytes, signed);
        described.extended(&described.passing(value, big_endian))
    }

    #[test]
    fn a_load_is_cut_reversed_and_then_extended() {
        assert_eq!(loaded(1, false, 0x1234_8081, true), 0x81);
        assert_eq!(loaded(1, true, 0x1234_8081, true), 0xffff_ff81);
        assert_eq!(loaded(2, true, 0x1234_8001, false), 0xffff_8001);
        assert_eq!(loaded(2, true, 0x1234_8001, true), 0x0180);
        assert_eq!(loaded(2, true, 0x1234_0180, true), 0xffff_8001);
        assert_eq!(loaded(2, false, 0x1234_0180, true), 0x8001);
        assert_eq!(loaded(4, false, 0x1234_8081, true), 0x8180_3412);
    }

    #[test]
    fn it_advances_as_in_the_manual() {
        // A block of four that is entered with the condition EQ.
        let block = [0b0000_0001, 0b0000_0010, 0b0000_0100, 0b0000_1000, 0];
        for pair in block.windows(2) {
            assert_eq!(it_advance(pair[0]), pair[1]);
        }
        assert_eq!(it_advance(0b1110_1111), 0b1111_1110);
        assert_eq!(it_advance(0b1111_1111), 0b1111_1110);
        assert_eq!(it_advance(0b1111_1000), 0);
    }
}
