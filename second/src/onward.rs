//! Going on after a trap: conditions by their names, steps, coprocessor reads and
//! writes, and A32 loads and stores from their word.

use crate::a32::{describe, find, Form};
use crate::catalogue::Catalogue;
use crate::device::it_advance;
use crate::form::Record;
use crate::guest::State;
use crate::status::Status;
use crate::widen::mapped;

struct Flags {
    n: bool,
    z: bool,
    c: bool,
    v: bool,
}

impl Flags {
    fn of(status: &Status) -> Flags {
        let [n, z, c, v] = [16, 8, 4, 2].map(|place| status.nzcvq / place % 2 == 1);
        Flags { n, z, c, v }
    }
}

/// A condition's name and its test.
type Condition = (&'static str, fn(&Flags) -> bool);

/// The conditions in the order of their numbers.
const CONDITIONS: [Condition; 16] = [
    ("equal", |f| f.z),
    ("not equal", |f| !f.z),
    ("carry set", |f| f.c),
    ("carry clear", |f| !f.c),
    ("minus", |f| f.n),
    ("plus or zero", |f| !f.n),
    ("overflow", |f| f.v),
    ("no overflow", |f| !f.v),
    ("unsigned higher", |f| f.c && !f.z),
    ("unsigned lower or same", |f| !f.c || f.z),
    ("signed greater or equal", |f| f.n == f.v),
    ("signed less", |f| f.n != f.v),
    ("signed greater", |f| !f.z && f.n == f.v),
    ("signed less or equal", |f| f.z || f.n != f.v),
    ("always", |_| true),
    ("always", |_| true),
];

/// Whether the condition of a trapped instruction passes.
pub fn passes(status: &Status, record: &Record) -> bool {
    let Some(cond) = record.get("COND") else { return true };
    if record.get("CCKNOWNPASS") == Some(0) {
        return true;
    }
    let number = match (record.is_set("CV"), status.t) {
        (true, _) => cond % 16,
        (false, true) if !status.it.is_multiple_of(16) => u32::from(status.it / 16),
        _ => 14,
    };
    CONDITIONS[number as usize].1(&Flags::of(status))
}

/// The first two tests, and the status word.
fn tested(catalogue: &Catalogue, state: &State, record: &Record) -> Result<Status, u8> {
    if !catalogue.has(record) {
        return Err(5);
    }
    let status = Status::unpack(state.status);
    if !status.is_accepted(&state.marks) {
        return Err(9);
    }
    Ok(status)
}

/// The state past an instruction of a length.
fn past(state: &State, length: u64) -> State {
    let status = Status::unpack(state.status);
    State {
        pc: ((u64::from(state.pc) + length) % (1 << 32)) as u32,
        status: Status { it: it_advance(status.it), ..status }.pack(),
        ..state.clone()
    }
}

fn length(record: &Record) -> u64 {
    if record.is_set("IL") {
        4
    } else {
        2
    }
}

/// The state past an instruction that is stepped over, or the number of the refusal.
pub fn step_over(catalogue: &Catalogue, state: &State, record: &Record) -> Result<State, u8> {
    let status = tested(catalogue, state, record)?;
    // A watchpoint has CM as well, and is no cache maintenance; and an instruction on whose
    // walk the fault came has still to be executed.
    let maintenance = record.class == 0x24 && record.is_set("CM") && !record.is_set("S1PTW");
    if !matches!(record.class, 0x01 | 0x13) && !maintenance && passes(&status, record) {
        return Err(18);
    }
    Ok(past(state, length(record)))
}

/// What a coprocessor write gives, nothing for a read, and the state after it; or the
/// number of the refusal.
pub fn coprocess(
    catalogue: &Catalogue,
    state: &State,
    record: &Record,
    values: [u32; 2],
) -> Result<(Vec<u32>, State), u8> {
    let status = tested(catalogue, state, record)?;
    let registers: Vec<usize> =
        ["Rt", "Rt2"].iter().filter_map(|name| Some(record.get(name)? as usize)).collect();
    if registers.is_empty() || !passes(&status, record) {
        return Err(18);
    }
    let mut after = past(state, length(record));
    if !record.is_set("Direction") {
        let held = |&n: &usize| state.registers.get(n).copied().unwrap_or(0);
        return Ok((registers.iter().map(held).collect(), after));
    }
    if registers == [31] {
        // The flags, and Q below them as it was.
        let status = Status::unpack(after.status);
        let nzcvq = (values[0] >> 28) as u8 * 2 + status.nzcvq % 2;
        after.status = Status { nzcvq, ..status }.pack();
    }
    for (&register, value) in registers.iter().zip(values) {
        if let Some(place) = after.registers.get_mut(register) {
            *place = value;
        }
    }
    Ok((Vec::new(), after))
}

/// A described load or store that was finished: where each transfer went, what a
/// store gives there, and the state after it.
pub struct Access {
    pub stored: bool,
    pub addresses: Vec<u32>,
    pub values: Vec<u32>,
    pub state: State,
}

/// How many bytes a transfer has, and whether a load extends its sign.
fn lane(form: &Form) -> (usize, bool) {
    let kind = form.name.split(' ').next().unwrap_or_default();
    let bytes = match kind.trim_start_matches("LDR").trim_start_matches("STR") {
        "B" | "SB" => 1,
        "H" | "SH" => 2,
        _ => 4,
    };
    (bytes, kind.starts_with("LDRS"))
}

/// The low bytes of a number as they pass, the lowest first.
fn passing(value: u32, bytes: usize, big_endian: bool) -> Vec<u8> {
    let mut low = value.to_le_bytes()[..bytes].to_vec();
    if big_endian {
        low.reverse();
    }
    low
}

/// The number of some bytes, the lowest first, and what stands above them.
fn number(bytes: &[u8], above: u8) -> u32 {
    let mut whole = [above; 4];
    whole[..bytes.len()].copy_from_slice(bytes);
    u32::from_le_bytes(whole)
}

pub fn access(forms: &[Form], state: &State, word: u32, values: &[u32; 16]) -> Result<Access, u8> {
    let (_, effect) = describe(forms, state, word)?;
    let form = find(forms, word).ok_or(19)?;
    let status = Status::unpack(state.status);
    let (bytes, signed) = lane(form);
    let place = |register| mapped(status.mode.into(), register).map(|number| number as usize);
    let addresses =
        (0..effect.registers.len() as u32).map(|i| effect.address.wrapping_add(4 * i)).collect();
    let mut after = past(state, 4);
    if let Some(base) = form.base(word).and_then(place) {
        let moved = i64::from(state.registers[base]) + effect.change;
        after.registers[base] = moved.rem_euclid(1 << 32) as u32;
    }
    if !form.load {
        let held = |&register: &u32| match place(register) {
            Some(number) => state.registers[number],
            None => (u64::from(state.pc) + 8) as u32,
        };
        let given = |register| number(&passing(held(register), bytes, status.e), 0);
        let values = effect.registers.iter().map(given).collect();
        return Ok(Access { stored: true, addresses, values, state: after });
    }
    for (&register, &value) in effect.registers.iter().zip(values) {
        let low = passing(value, bytes, status.e);
        let negative = low[bytes - 1] >= 0x80;
        let loaded = number(&low, if signed && negative { 0xff } else { 0 });
        match place(register) {
            Some(number) => after.registers[number] = loaded,
            None => {
                let t = loaded % 2 == 1;
                after.pc = if t { loaded - 1 } else { loaded / 4 * 4 };
                after.status = Status { t, ..Status::unpack(after.status) }.pack();
            }
        }
    }
    Ok(Access { stored: false, addresses, values: Vec::new(), state: after })
}

#[cfg(test)]
mod tests {
    use super::*;
    use crate::a32::forms;
    use crate::cases::state;

    fn holds(number: usize, nzcv: u8) -> bool {
        let status = Status { nzcvq: nzcv * 2, ..Status::unpack(0x10) };
        CONDITIONS[number].1(&Flags::of(&status))
    }

    /// Each condition but the last two is the one before it turned over, or after it.
    #[test]
    fn conditions_come_in_pairs() {
        for pair in 0..7 {
            for nzcv in 0..16 {
                assert_ne!(holds(2 * pair, nzcv), holds(2 * pair + 1, nzcv), "{pair} {nzcv}");
            }
        }
        assert!((0..16).all(|nzcv| holds(14, nzcv) && holds(15, nzcv)));
        assert!(holds(8, 0b0010) && !holds(8, 0b0110));
        assert!(holds(12, 0b1001) && !holds(12, 0b1101) && !holds(12, 0b1000));
    }

    fn done(word: u32, state: &State, values: &[u32]) -> Access {
        let mut all = [0; 16];
        all[..values.len()].copy_from_slice(values);
        access(&forms(), state, word, &all).unwrap_or_else(|number| panic!("refused {number}"))
    }

    #[test]
    fn a_pop_into_register_15_branches() {
        let mut before = state(0x13, 0x8000, 0);
        before.registers[19] = 0x2000;
        // pop {r4, pc}
        let access = done(0xe8bd_8010, &before, &[7, 0x9001]);
        assert_eq!(access.addresses, [0x2000, 0x2004]);
        let after = access.state;
        assert_eq!((after.registers[4], after.registers[19]), (7, 0x2008));
        assert_eq!((after.pc, after.status), (0x9000, 0x33));
        assert_eq!(done(0xe8bd_8010, &before, &[7, 0x9002]).state.pc, 0x9000);
    }

    #[test]
    fn a_signed_byte_keeps_its_sign() {
        let before = state(0x10, 0x8000, 0);
        // ldrsb r0, [r1]
        assert_eq!(done(0xe1d1_00d0, &before, &[0x1280]).state.registers[0], 0xffff_ff80);
        // ldrb r0, [r1]
        assert_eq!(done(0xe5d1_0000, &before, &[0x1280]).state.registers[0], 0x80);
    }

    #[test]
    fn a_store_of_register_15_gives_pc_plus_8() {
        // str pc, [r1]
        let access = done(0xe581_f000, &state(0x10, 0xffff_fffc, 0), &[]);
        assert_eq!((access.values, access.state.pc), (vec![4], 0));
    }
}
