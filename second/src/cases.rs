//! The cases of the paper, "Cases from both sides of the line", with the
//! answers typed in from it.

use crate::call::{answers, lines, text, Call, Way};
use crate::form::Record;
use crate::guest::{Fault, Injection, State};
use crate::long::{Origin, LONG};
use crate::status::Marks;
use crate::trap::Registers;

/// A word and the answer to reading it. A case that names no edition holds in
/// every one.
pub struct ReadCase {
    origin: Origin,
    edition: Option<u32>,
    word: u64,
    answer: &'static str,
}

const fn reads(word: u64, answer: &'static str) -> ReadCase {
    ReadCase { origin: Origin::AArch32, edition: None, word, answer }
}

const fn reads_in(edition: u32, word: u64, answer: &'static str) -> ReadCase {
    ReadCase { origin: Origin::AArch32, edition: Some(edition), word, answer }
}

impl ReadCase {
    fn editions(&self) -> Vec<u32> {
        self.edition.map_or_else(|| (0..LONG.editions).collect(), |edition| vec![edition])
    }
}

const READS: [ReadCase; 31] = [
    reads(0x0200_0000, "0 0 0 1"),
    reads(0x0000_0000, "4 0 0"),
    // WFE.
    reads(0x07e0_0001, "0 1 1 1 e 1"),
    reads(0x07f0_0000, "5 0 0"),
    reads(0x06f0_0000, "0 1 1 0 f 0"),
    // MRC p15 read.
    reads(0x0fe0_0001, "0 2 3 1 1 e 0 0 0 0 0 1"),
    reads(0x1be0_000b, "5 0 0"),
    // HVC 1.
    reads(0x4a00_0001, "0 6 12 1 1"),
    reads(0x4a01_0000, "5 0 0"),
    reads(0x5a00_0000, "3 0 0"),
    reads(0x4e00_0000, "0 7 1 0 0 0"),
    reads(0x4fe8_0000, "0 7 1 1 e 1"),
    reads(0x4ff0_0000, "5 0 0"),
    reads(0x4ff8_0000, "5 0 0"),
    // Word store, register 3, translation level 1.
    reads(0x9383_0045, "0 9 1 1 2 0 3 0 0 0 0 0 0 0 1 5"),
    reads(0x9183_0005, "0 9 0 1 2 0 3 0 0 0 0 0 0 0 0 5"),
    reads(0x9000_0005, "4 0 0"),
    reads(0x9383_0085, "5 0 0"),
    // The masks are 21845, 17476, 61680, 43690 and 21845.
    reads_in(1, 0x9200_0018, "6 5555 8"),
    reads_in(7, 0x9200_001b, "6 4444 4"),
    reads_in(3, 0x9200_0031, "6 f0f0 8"),
    reads_in(0, 0x9200_1010, "6 aaaa 8"),
    reads(0x9200_0810, "5 0 0"),
    reads_in(1, 0x9383_0014, "6 5555 8"),
    reads(0x8200_0021, "5 0 0"),
    reads(0x1_9200_0005, "2 0 0"),
    // Request C-20: an SError interrupt's code without RAS, a reserved type, EA
    // without a code, and a watchpoint on cache maintenance that isn't a write.
    reads_in(0, 0xbe00_0011, "6 aaaa 8"),
    reads(0xbe00_1011, "5 0 0"),
    reads(0xbe00_0200, "5 0 0"),
    reads(0xd200_0122, "5 0 0"),
    // The first line that the paper's program is given.
    reads_in(0, 0x9200_0005, "0 9 1 0 0 0 0 0 0 0 0 0 0 0 0 5"),
];

/// The cases of request C-23, in every edition: what AArch32 refuses 3, and what
/// AArch64 has.
const ORIGIN_READS: [ReadCase; 30] = [
    // SVC, HVC and SMC of AArch64, and an MSR.
    reads(0x5600_0000, "3 0 0"),
    reads(0x5a00_0000, "3 0 0"),
    reads(0x5e00_0000, "3 0 0"),
    reads(0x6200_0000, "3 0 0"),
    reads64(0x5600_0000, "0 6 15 1 0"),
    reads64(0x5a00_ffff, "0 6 16 1 ffff"),
    reads64(0x5e00_0001, "0 6 17 1 1"),
    reads64(0x5e01_0000, "5 0 0"),
    reads64(0x6200_0000, "0 e 1 0 0 0 0 0 0 0"),
    reads64(0x623f_ffff, "0 e 1 3 7 7 f 1f f 1"),
    reads64(0x6202_4000, "0 e 1 0 1 1 0 0 0 0"),
    reads64(0x6240_0000, "5 0 0"),
    // IL 0, and classes that AArch64 lacks, with either IL.
    reads64(0x5400_0000, "4 0 0"),
    reads64(0x05e0_0001, "4 0 0"),
    reads64(0x9183_0005, "4 0 0"),
    reads64(0x4a00_0001, "3 0 0"),
    reads64(0x4800_0001, "3 0 0"),
    reads64(0x0fe0_0001, "3 0 0"),
    reads64(0xea00_0022, "3 0 0"),
    // CV is 1 and COND 1110.
    reads64(0x07e0_0001, "0 1 1 1 e 1"),
    reads64(0x0600_0000, "5 0 0"),
    reads64(0x0700_0000, "5 0 0"),
    // 64 bits into register 31; 64 bits with SF 0.
    reads64(0x93df_8005, "0 9 1 1 3 0 1f 1 0 0 0 0 0 0 0 5"),
    reads64(0x93c3_0005, "0 9 1 1 3 0 3 0 0 0 0 0 0 0 0 5"),
    // A word with sign: with SF 1 alone, not a store, and not of 64 bits.
    reads64(0x93a3_8005, "0 9 1 1 2 1 3 1 0 0 0 0 0 0 0 5"),
    reads64(0x93a3_0005, "5 0 0"),
    reads64(0x93a3_8045, "5 0 0"),
    reads64(0x93e3_8005, "5 0 0"),
    // AArch32 has neither.
    reads(0x93df_8005, "5 0 0"),
    reads(0x93a3_8005, "5 0 0"),
];

const fn reads64(word: u64, answer: &'static str) -> ReadCase {
    ReadCase { origin: Origin::AArch64, edition: None, word, answer }
}

/// A word that is taken, its record, and the addresses that are known.
struct TrapCase {
    esr: u64,
    record: &'static str,
    addresses: &'static str,
}

const fn trap(esr: u64, record: &'static str, addresses: &'static str) -> TrapCase {
    TrapCase { esr, record, addresses }
}

/// The address cases, with FAR 0x8ABC and HPFAR 0x12340, for both aborts and in
/// every edition.
const TRAPS: [TrapCase; 4] = [
    trap(0x9200_0005, "0 9 1 0 0 0 0 0 0 0 0 0 0 0 0 5", "1 8abc 2 1234abc"),
    trap(0x9200_0085, "0 9 1 0 0 0 0 0 0 0 0 0 0 1 0 5", "1 8abc 1 1234000"),
    trap(0x8200_0005, "0 8 1 0 0 0 0 5", "1 8abc 2 1234abc"),
    trap(0x8200_0085, "0 8 1 0 0 0 1 5", "1 8abc 1 1234000"),
];

/// An injection that is taken, with the state before and after it.
struct InjectionCase {
    injection: Injection,
    before: State,
    after: State,
}

/// A state whose numbers are short and all differ, so that one put in the wrong place is
/// seen, and which has no mark. What the paper gives is set over it.
pub fn state(status: u32, pc: u32, sctlr: u32) -> State {
    State {
        registers: std::array::from_fn(|register| 0x40 + register as u32),
        pc,
        status,
        spsr_fiq: 0x61,
        spsr_irq: 0x62,
        spsr_svc: 0x63,
        spsr_abt: 0x64,
        spsr_und: 0x65,
        dfsr: 0x71,
        ifsr: 0x72,
        dfar: 0x73,
        ifar: 0x74,
        sctlr,
        vbar: 0x1000,
        ttbcr: 0,
        marks: Marks::NONE,
    }
}

fn undefined(injection: Injection, before: State, [status, link, pc]: [u32; 3]) -> InjectionCase {
    let mut after = before.clone();
    after.spsr_und = before.status;
    after.registers[22] = link;
    (after.status, after.pc) = (status, pc);
    InjectionCase { injection, before, after }
}

/// Data translation fault of level 2 by a write at 0x5678.
fn data_abort(before: State, [status, link, pc, dfsr]: [u32; 4]) -> InjectionCase {
    let mut after = before.clone();
    after.spsr_abt = before.status;
    after.registers[20] = link;
    (after.status, after.pc) = (status, pc);
    (after.dfsr, after.dfar) = (dfsr, 0x5678);
    InjectionCase {
        injection: Injection::DataAbort {
            fault: Fault::Translation(2),
            address: 0x5678,
            write: true,
            domain: 0,
        },
        before,
        after,
    }
}

fn injections() -> Vec<InjectionCase> {
    let at = Injection::UndefinedAt;
    let after = Injection::UndefinedAfter;
    let high_vectors = 0x4200_2000;
    let long = |state| State { ttbcr: 1 << 31, ..state };
    vec![
        undefined(at, state(0x10, 0x8000, 0), [0x9b, 0x8004, 0x1004]),
        undefined(at, state(0x30, 0x8000, 0), [0x9b, 0x8002, 0x1004]),
        undefined(after, state(0x30, 0, 0), [0x9b, 0xffff_fffe, 0x1004]),
        data_abort(state(0x10, 0x8000, high_vectors), [0x3b7, 0x8008, 0xffff_0010, 0x807]),
        data_abort(state(0x10, 0xffff_fffc, high_vectors), [0x3b7, 4, 0xffff_0010, 0x807]),
        data_abort(long(state(0x10, 0x8000, 0)), [0x197, 0x8008, 0x1010, 0xa06]),
    ]
}

/// A question with the answer that the paper gives.
pub struct Case {
    pub call: Call,
    pub answer: String,
}

pub fn cases() -> Vec<Case> {
    let mut cases: Vec<Case> = READS.iter().flat_map(read).collect();
    for case in &TRAPS {
        for edition in 0..LONG.editions {
            let registers = Registers { esr: case.esr, far: 0x8abc, hpfar: 0x1_2340 };
            let call = Call::Trap { origin: Origin::AArch32, edition, registers };
            let answer = format!("{} {}", in_words(case.record), case.addresses);
            cases.push(Case { call, answer });
        }
    }
    cases.extend(injections().into_iter().flat_map(injected));
    cases
}

/// The cases of request C-23: words, and an address of 64 bits, which from AArch32
/// is refused 8.
pub fn cases_of_origins() -> Vec<Case> {
    let mut cases: Vec<Case> = ORIGIN_READS.iter().flat_map(read).collect();
    let registers = Registers { esr: 0x9200_0005, far: 0xffff_8000_0000_8abc, hpfar: 0x1_2340 };
    for edition in 0..LONG.editions {
        let record = in_words("0 9 1 0 0 0 0 0 0 0 0 0 0 0 0 5");
        let shown = format!("{record} 1 ffff800000008abc 2 1234abc");
        for (origin, answer) in [(Origin::AArch32, "8 0 0".into()), (Origin::AArch64, shown)] {
            let call = Call::Trap { origin, edition, registers };
            cases.push(Case { call, answer });
        }
    }
    cases
}

/// An answer to reading with the zeros that a record's sixteen words end in.
fn in_words(answer: &str) -> String {
    let missing = match answer.starts_with("0 ") {
        true => 17 - answer.split(' ').count(),
        false => 0,
    };
    answer.to_string() + &" 0".repeat(missing)
}

fn read(case: &ReadCase) -> Vec<Case> {
    let mut cases = Vec::new();
    for edition in case.editions() {
        let call = Call::Read { origin: case.origin, edition, word: case.word };
        cases.push(Case { call, answer: in_words(case.answer) });
        cases.extend(written_back(case, edition));
    }
    cases
}

/// A record that is taken writes to its word again, and is carried to itself.
fn written_back(case: &ReadCase, edition: u32) -> Vec<Case> {
    let Some(row) = case.answer.strip_prefix("0 ") else { return vec![] };
    let number = |word| u64::from_str_radix(word, 16).expect("a hexadecimal number");
    let row: Vec<u64> = row.split(' ').map(number).collect();
    let record = Record::of(&LONG, &row).expect("a record");
    let origin = case.origin;
    let carried = Call::Carry { origin, writer: edition, reader: edition, record: record.clone() };
    let written = Call::Write { origin, edition, record };
    vec![
        Case { call: written, answer: format!("0 {:x}", case.word) },
        Case { call: carried, answer: format!("0 {}", in_words(case.answer)) },
    ]
}

fn injected(case: InjectionCase) -> [Case; 2] {
    let InjectionCase { injection, before, after } = case;
    let answer = format!("0 {}", text(&before.changes_to(&after)));
    [Way::ByValue, Way::Lent].map(|way| {
        let call = Call::Inject { way, injection, state: before.clone() };
        Case { call, answer: answer.clone() }
    })
}

/// The cases that this program answers otherwise than the paper.
pub fn failures() -> Vec<String> {
    let cases: Vec<Case> = cases().into_iter().chain(cases_of_origins()).collect();
    let questions: String = cases.iter().map(|case| case.call.line() + "\n").collect();
    let calls: Vec<_> = lines(questions.as_bytes()).map(Call::parse).collect();
    let answers = answers(&calls);
    let wrong = |(case, answer): (Case, &[u8])| {
        let answer = String::from_utf8_lossy(answer).into_owned();
        let expected = case.answer;
        (answer != expected)
            .then(|| format!("{}: {answer} but the paper says {expected}", case.call.line()))
    };
    cases.into_iter().zip(lines(&answers)).filter_map(wrong).collect()
}

#[cfg(test)]
mod tests {
    use super::*;

    #[test]
    fn answers_are_those_of_the_paper() {
        let failures = failures();
        assert!(failures.is_empty(), "{}", failures.join("\n"));
    }
}
