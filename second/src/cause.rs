//! Why an abort came: the manual's list of fault codes, code by code.

use crate::catalogue::Catalogue;
use crate::form::Record;
use crate::guest::{long_status, Fault};

/// The kinds of fault, in the order of their numbers.
#[derive(Clone, Copy, Debug, PartialEq, Eq)]
pub enum Kind {
    External,
    Translation,
    AccessFlag,
    Permission,
    Alignment,
    AddressSize,
    Parity,
    TlbConflict,
    Update,
    Lockdown,
    Exclusive,
}

#[derive(Clone, Copy, Debug, PartialEq, Eq)]
pub struct Cause {
    pub kind: Kind,
    pub level: Option<i8>,
    pub walk: bool,
    /// Whether an injection tells the guest the same.
    pub passes: bool,
}

/// A code, its kind and its level, and whether it is of a table walk.
type Row = (u32, Kind, Option<i8>, bool);

const CODES: [Row; 35] = [
    (0b000000, Kind::AddressSize, Some(0), false),
    (0b000001, Kind::AddressSize, Some(1), false),
    (0b000010, Kind::AddressSize, Some(2), false),
    (0b000011, Kind::AddressSize, Some(3), false),
    (0b000100, Kind::Translation, Some(0), false),
    (0b000101, Kind::Translation, Some(1), false),
    (0b000110, Kind::Translation, Some(2), false),
    (0b000111, Kind::Translation, Some(3), false),
    (0b001000, Kind::AccessFlag, Some(0), false),
    (0b001001, Kind::AccessFlag, Some(1), false),
    (0b001010, Kind::AccessFlag, Some(2), false),
    (0b001011, Kind::AccessFlag, Some(3), false),
    (0b001100, Kind::Permission, Some(0), false),
    (0b001101, Kind::Permission, Some(1), false),
    (0b001110, Kind::Permission, Some(2), false),
    (0b001111, Kind::Permission, Some(3), false),
    (0b010000, Kind::External, None, false),
    (0b010011, Kind::External, Some(-1), true),
    (0b010100, Kind::External, Some(0), true),
    (0b010101, Kind::External, Some(1), true),
    (0b010110, Kind::External, Some(2), true),
    (0b010111, Kind::External, Some(3), true),
    (0b011000, Kind::Parity, None, false),
    (0b011011, Kind::Parity, Some(-1), true),
    (0b011100, Kind::Parity, Some(0), true),
    (0b011101, Kind::Parity, Some(1), true),
    (0b011110, Kind::Parity, Some(2), true),
    (0b011111, Kind::Parity, Some(3), true),
    (0b100001, Kind::Alignment, None, false),
    (0b101001, Kind::AddressSize, Some(-1), false),
    (0b101011, Kind::Translation, Some(-1), false),
    (0b110000, Kind::TlbConflict, None, false),
    (0b110001, Kind::Update, None, false),
    (0b110100, Kind::Lockdown, None, false),
    (0b110101, Kind::Exclusive, None, false),
];

/// The cause that a record tells of, or the number of the refusal.
pub fn cause(catalogue: &Catalogue, record: &Record) -> Result<Cause, u8> {
    if !catalogue.has(record) {
        return Err(5);
    }
    let code = record.get("code").ok_or(18)?;
    let row = CODES.iter().find(|row| row.0 == code);
    let &(_, kind, level, of_the_walk) = row.expect("a code that an edition has");
    let walk = of_the_walk || record.is_set("S1PTW");
    // The fault whose code of the long format is the trap's own.
    let passes = !walk && faults().any(|fault| long_status(fault) == Some(code));
    Ok(Cause { kind, level, walk, passes })
}

/// Every fault that an injection has.
fn faults() -> impl Iterator<Item = Fault> {
    let levelled = [Fault::Translation, Fault::AccessFlag, Fault::Permission];
    let at_levels = levelled.into_iter().flat_map(|fault| (1..4).map(fault));
    at_levels.chain([Fault::External, Fault::Alignment])
}

impl Cause {
    /// Its row: level 4 is none, and -1 has all 32 bits set.
    pub fn row(&self) -> Vec<u64> {
        let level = self.level.map_or(4, |level| i32::from(level) as u32);
        vec![self.kind as u64, level.into(), self.walk.into(), self.passes.into()]
    }
}
