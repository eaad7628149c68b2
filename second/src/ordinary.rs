//! An ordinary reader: the word taken apart with shifts and masks. It is what
//! the proved reader is timed against.

use crate::edition::EditionMask;
use crate::long::LONG;
use crate::syndrome::Refusal;

const RAS: u32 = 0xaaaa;
const LPA2: u32 = 0xcccc;
const HAFDBS: u32 = 0xf0f0;
const ALL: u32 = 0xffff;

/// A record as this reader holds it. Nobody reads it: it is built since the
/// proved reader builds one too.
#[derive(Clone, Copy, Debug)]
#[allow(dead_code)]
pub enum Record {
    Plain { class: u8, il: bool },
    Wfx { il: bool, condition: Condition, ti: bool },
    Mcr { class: u8, il: bool, condition: Condition, opc: [u8; 2], cr: [u8; 2], rt: u8, read: bool },
    Mcrr { class: u8, il: bool, condition: Condition, opc1: u8, crm: u8, rt: [u8; 2], read: bool },
    Ldc { il: bool, condition: Condition, imm8: u8, rn: u8, offset: bool, am: u8, read: bool },
    FloatingPoint { il: bool, condition: Condition },
    Call { class: u8, il: bool, imm16: u16 },
    Smc { il: bool, condition: Condition, ccknownpass: bool },
    InstructionAbort { il: bool, status: FaultStatus },
    DataAbort { il: bool, access: Access, cm: bool, wnr: bool, status: FaultStatus },
    Debug { class: u8, il: bool },
    Step { il: bool, isv: bool, ex: bool },
    Watchpoint { il: bool, cm: bool, wnr: bool },
    SError { il: bool, aet: u8, ea: bool, code: u8 },
}

#[derive(Clone, Copy, Debug)]
#[allow(dead_code)]
pub struct Condition {
    cv: bool,
    cond: u8,
}

#[derive(Clone, Copy, Debug)]
#[allow(dead_code)]
pub struct Access {
    isv: bool,
    sas: u8,
    sse: bool,
    srt: u8,
    sf: bool,
    ar: bool,
}

#[derive(Clone, Copy, Debug)]
pub struct FaultStatus {
    set: u8,
    fnv: bool,
    ea: bool,
    s1ptw: bool,
    code: u8,
}

/// A word's record with the editions that have it; None where no edition has.
type Found = Option<(Record, u32)>;

pub fn read(edition: u32, word: u64) -> Result<Record, Refusal> {
    if edition >= LONG.editions {
        return Err(Refusal::plain(1));
    }
    if word >> 32 != 0 {
        return Err(Refusal::plain(2));
    }
    let word = word as u32;
    if !class_is_read(bits(word, 31, 26)) {
        return Err(Refusal::plain(3));
    }
    if needs_il(word) && !bit(word, 25) {
        return Err(Refusal::plain(4));
    }
    match found(word) {
        None => Err(Refusal::plain(5)),
        Some((record, editions)) if editions >> edition & 1 == 1 => Ok(record),
        Some((_, editions)) => Err(Refusal::other_editions(EditionMask(editions))),
    }
}

fn bits(word: u32, high: u32, low: u32) -> u8 {
    (word >> low & ((1 << (high - low + 1)) - 1)) as u8
}

fn bit(word: u32, at: u32) -> bool {
    word >> at & 1 == 1
}

fn class_is_read(class: u8) -> bool {
    matches!(
        class,
        0x00 | 0x01
            | 0x03..=0x08
            | 0x0c
            | 0x0e
            | 0x11..=0x13
            | 0x20
            | 0x22
            | 0x24
            | 0x2f
            | 0x30
            | 0x32
            | 0x34
            | 0x38
            | 0x3a
    )
}

fn needs_il(word: u32) -> bool {
    match bits(word, 31, 26) {
        0x00 | 0x0e | 0x20 | 0x22 | 0x2f | 0x30 | 0x32 | 0x34 | 0x3a => true,
        0x24 => !bit(word, 24),
        class => matches!(class, 0x03..=0x08 | 0x0c | 0x12 | 0x13),
    }
}

fn found(word: u32) -> Found {
    let class = bits(word, 31, 26);
    let il = bit(word, 25);
    let record = match class {
        0x00 | 0x0e | 0x22 => only(word, 0).then_some(Record::Plain { class, il }),
        0x01 => wfx(word, il),
        0x03 | 0x05 | 0x08 => mcr(word, class, il),
        0x04 | 0x0c => mcrr(word, class, il),
        0x06 => ldc(word, il),
        0x07 => floating_point(word, il),
        0x11 | 0x12 | 0x38 => call(word, class, il),
        0x13 => smc(word, il),
        0x20 => return instruction_abort(word, il),
        0x24 => return data_abort(word, il),
        0x30 | 0x3a => debug(word, 0).then_some(Record::Debug { class, il }),
        0x32 => step(word, il),
        0x34 => watchpoint(word, il),
        _ => return serror(word, il),
    };
    record.map(|record| (record, ALL))
}

/// Whether the ISS has no bit outside the named ones.
fn only(word: u32, named: u32) -> bool {
    word & 0x01ff_ffff & !named == 0
}

fn condition(word: u32) -> Option<Condition> {
    let (cv, cond) = (bit(word, 24), bits(word, 23, 20));
    (!cv || cond != 0b1111).then_some(Condition { cv, cond })
}

fn wfx(word: u32, il: bool) -> Option<Record> {
    let condition = condition(word)?;
    let ti = bit(word, 0);
    only(word, 0x01f0_0001).then_some(Record::Wfx { il, condition, ti })
}

fn mcr(word: u32, class: u8, il: bool) -> Option<Record> {
    if class == 0x08 && !bit(word, 0) {
        return None;
    }
    Some(Record::Mcr {
        class,
        il,
        condition: condition(word)?,
        opc: [bits(word, 16, 14), bits(word, 19, 17)],
        cr: [bits(word, 13, 10), bits(word, 4, 1)],
        rt: bits(word, 9, 5),
        read: bit(word, 0),
    })
}

fn mcrr(word: u32, class: u8, il: bool) -> Option<Record> {
    if bit(word, 15) || (class == 0x0c && !bit(word, 0)) {
        return None;
    }
    Some(Record::Mcrr {
        class,
        il,
        condition: condition(word)?,
        opc1: bits(word, 19, 16),
        crm: bits(word, 4, 1),
        rt: [bits(word, 9, 5), bits(word, 14, 10)],
        read: bit(word, 0),
    })
}

fn ldc(word: u32, il: bool) -> Option<Record> {
    let (am, direction) = (bits(word, 3, 1), bit(word, 0));
    let form_exists = am < 0b100 || (am & 1 == 0 && direction);
    if bits(word, 11, 10) != 0 || !form_exists {
        return None;
    }
    Some(Record::Ldc {
        il,
        condition: condition(word)?,
        imm8: bits(word, 19, 12),
        rn: bits(word, 9, 5),
        offset: bit(word, 4),
        am,
        read: direction,
    })
}

fn floating_point(word: u32, il: bool) -> Option<Record> {
    let condition = condition(word)?;
    only(word, 0x01f0_0000).then_some(Record::FloatingPoint { il, condition })
}

fn call(word: u32, class: u8, il: bool) -> Option<Record> {
    let imm16 = (word & 0xffff) as u16;
    let named = if il { 0xffff } else { 0xff };
    only(word, named).then_some(Record::Call { class, il, imm16 })
}

fn smc(word: u32, il: bool) -> Option<Record> {
    let condition = condition(word)?;
    let ccknownpass = bit(word, 19);
    let named = if ccknownpass { 0x01f8_0000 } else { 0 };
    only(word, named).then_some(Record::Smc { il, condition, ccknownpass })
}

/// Whether the fault code is a debug exception's and the ISS has no bit outside
/// it and the named ones.
fn debug(word: u32, named: u32) -> bool {
    bits(word, 5, 0) == 0x22 && only(word, named | 0x3f)
}

fn step(word: u32, il: bool) -> Option<Record> {
    let (isv, ex) = (bit(word, 24), bit(word, 6));
    (debug(word, 0x0100_0040) && (isv || !ex)).then_some(Record::Step { il, isv, ex })
}

fn watchpoint(word: u32, il: bool) -> Option<Record> {
    let (cm, wnr) = (bit(word, 8), bit(word, 6));
    (debug(word, 0x0140) && (wnr || !cm)).then_some(Record::Watchpoint { il, cm, wnr })
}

fn serror(word: u32, il: bool) -> Found {
    let (aet, ea, code) = (bits(word, 12, 10), bit(word, 9), bits(word, 5, 0));
    let editions = match code {
        0 if aet == 0 && !ea => ALL,
        0x11 if aet < 4 || aet == 6 => RAS,
        _ => return None,
    };
    only(word, 0x1e3f).then_some((Record::SError { il, aet, ea, code }, editions))
}

fn fault_code_editions(code: u8) -> u32 {
    match code {
        0x00..=0x07 | 0x09..=0x0b | 0x0d..=0x10 | 0x14..=0x17 | 0x30 => ALL,
        0x08 | 0x0c | 0x13 | 0x29 | 0x2b => LPA2,
        0x18 | 0x1c..=0x1f => !RAS,
        0x1b => LPA2 & !RAS,
        0x31 => HAFDBS,
        _ => 0,
    }
}

fn data_fault_code_editions(code: u8) -> u32 {
    match code {
        0x21 | 0x34 | 0x35 => ALL,
        _ => fault_code_editions(code),
    }
}

/// The fields of both aborts, with the editions that SET leaves.
fn fault_status(word: u32) -> Option<(FaultStatus, u32)> {
    let status = FaultStatus {
        set: bits(word, 12, 11),
        fnv: bit(word, 10),
        ea: bit(word, 9),
        s1ptw: bit(word, 7),
        code: bits(word, 5, 0),
    };
    let external = status.code == 0x10;
    let editions = match status.set {
        0 => ALL,
        2 | 3 if external => RAS,
        _ => return None,
    };
    if (status.fnv && !external)
        || (status.ea && status.code >> 4 != 1)
        || (status.s1ptw && !is_mmu_fault(status.code))
    {
        return None;
    }
    Some((status, editions))
}

fn is_mmu_fault(code: u8) -> bool {
    code < 0x10 || code == 0x29 || code == 0x2b
}

fn instruction_abort(word: u32, il: bool) -> Found {
    let (status, mut editions) = fault_status(word)?;
    editions &= fault_code_editions(status.code);
    let taken = only(word, 0x1ebf) && editions != 0;
    taken.then_some((Record::InstructionAbort { il, status }, editions))
}

fn data_abort(word: u32, il: bool) -> Found {
    let (status, mut editions) = fault_status(word)?;
    let (cm, wnr) = (bit(word, 8), bit(word, 6));
    editions &= data_fault_code_editions(status.code);
    if bit(word, 24) {
        editions &= access_editions(word, status.code);
    } else if word >> 14 & 0x3ff != 0 {
        return None;
    }
    if bit(word, 13) || (cm && !wnr) || editions == 0 {
        return None;
    }
    let record = Record::DataAbort { il, access: access(word), cm, wnr, status };
    Some((record, editions))
}

fn access(word: u32) -> Access {
    Access {
        isv: bit(word, 24),
        sas: bits(word, 23, 22),
        sse: bit(word, 21),
        srt: bits(word, 20, 16),
        sf: bit(word, 15),
        ar: bit(word, 14),
    }
}

/// The editions in which the access of a word with ISV 1 may stand.
fn access_editions(word: u32, code: u8) -> u32 {
    let access = access(word);
    let (cm, s1ptw, wnr) = (bit(word, 8), bit(word, 7), bit(word, 6));
    let sign_extends_a_store_or_word = access.sse && (access.sas > 1 || wnr);
    if access.sf
        || access.sas == 3
        || access.srt & 0xf == 0xf
        || cm
        || s1ptw
        || sign_extends_a_store_or_word
    {
        return 0;
    }
    match code {
        0x13..=0x17 => !RAS,
        _ if is_mmu_fault(code) => ALL,
        _ => 0,
    }
}
