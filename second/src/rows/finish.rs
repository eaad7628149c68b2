//! Questions to the call that finishes a load or store.

use super::samples::{calls, fields_too_large, record, samples, sweep, with};
use super::Turn;
use crate::call::Call;
use crate::cases::state;
use crate::form::Record;
use crate::guest::State;
use crate::long::{Origin, LONG};
use crate::random::Random;
use crate::status::{Marks, Status, MODES};

/// A device value, a state and a record.
type Question = (u32, State, Record);

pub fn questions() -> Vec<Call> {
    let mut questions = values();
    questions.extend(registers());
    questions.extend(it_values());
    questions.extend(program_counters());
    questions.extend(status_words());
    questions.extend(order_of_tests());
    questions.extend(records());
    questions.extend(random_questions());
    questions.into_iter().map(ask).collect()
}

/// Request C-23: records of AArch64's classes alone, and loads that only AArch64 has.
pub fn records_of_aarch64() -> Vec<Call> {
    let records = samples(Origin::AArch64).map(|record| (7, plain_state(), record));
    records.map(ask).collect()
}

fn ask((value, state, record): Question) -> Call {
    Call::Finish { value, state, record }
}

/// A word load of register 3.
fn load() -> Record {
    record(&[9, 1, 1, 2, 0, 3, 0, 0, 0, 0, 0, 0, 0, 0, 0x05])
}

/// A word store of register 3.
fn store() -> Record {
    with(&load(), "WnR", 1)
}

/// By turns a halfword load with sign, a byte store and a word load.
fn by_turns(turn: &mut Turn) -> Record {
    match turn.next() % 3 {
        0 => with(&with(&load(), "SAS", 1), "SSE", 1),
        1 => with(&store(), "SAS", 0),
        _ => load(),
    }
}

/// A state of short numbers that all differ, in user mode.
fn plain_state() -> State {
    state(0x10, 0x8000, 0)
}

/// A state of zeros with a status word.
fn blank_state(status: u32) -> State {
    let zeros = State::from_numbers(&[0; 48]).expect("a state");
    State { status, ..zeros }
}

/// Every size with either SSE and E, loads and stores, over values whose bytes
/// have either top bit. A store is given a device value too.
fn values() -> Vec<Question> {
    let mut questions = Vec::new();
    let values = [0, 0x7f, 0x80, 0x807f, 0x7f80, 0x7f80_0180, 0x8081_7e82, u32::MAX];
    for access in sweep(&load(), "WnR SAS SSE") {
        for e in [0, 1] {
            for value in values {
                let mut state = blank_state(0x10 + (e << 9));
                // A record that no edition has is asked once.
                if access.get("SAS") == Some(3) && value != 0x80 {
                    continue;
                }
                if access.is_set("WnR") {
                    state.registers[3] = value;
                    questions.push((0x1122_3384, state, access.clone()));
                } else {
                    state.registers[3] = 0x5566_7788;
                    questions.push((value, state, access.clone()));
                }
            }
        }
    }
    questions
}

/// Every number of a register, in the modes by turns; and the registers that
/// modes have of their own, in every mode.
fn registers() -> Vec<Question> {
    let mut questions = Vec::new();
    for (turn, access) in sweep(&load(), "SRT WnR").into_iter().enumerate() {
        let status = MODES[turn / 2 % 7].into();
        questions.push((0x8000_0000 + turn as u32, State { status, ..plain_state() }, access));
    }
    for mode in MODES.map(u32::from) {
        for (register, record) in [(8, store()), (13, load()), (14, store())] {
            let mut state = blank_state(mode);
            state.registers = plain_state().registers;
            questions.push((9, state, with(&record, "SRT", register)));
        }
    }
    questions
}

/// Every value of IT, with T and IL by turns.
fn it_values() -> Vec<Question> {
    let mut questions = Vec::new();
    let mut turn = Turn::over(60);
    for it in 0..=255 {
        let t = turn.number % 4 < 2;
        let record = with(&by_turns(&mut turn), "IL", u32::from(it) % 2);
        let status = Status { it, t, ..Status::unpack(0x10) };
        questions.push((7, blank_state(status.pack()), record));
    }
    questions
}

/// PC at both ends of its range and where the sign turns, with either IL and T.
fn program_counters() -> Vec<Question> {
    let mut questions = Vec::new();
    let mut turn = Turn::over(3);
    let places = [0, 1, 2, 0x7fff_fffc, 0x7fff_fffe, 0xffff_fffb].into_iter().chain([
        0xffff_fffc,
        0xffff_fffd,
        0xffff_fffe,
        0xffff_ffff,
    ]);
    for pc in places {
        for (il, status) in [(0, 0x1f), (0, 0x3f), (1, 0x1f), (1, 0x3f)] {
            let record = with(&by_turns(&mut turn), "IL", il);
            questions.push((1, State { pc, status, ..plain_state() }, record));
        }
    }
    questions
}

/// Every mode; each bit of the word alone and as the only one that is 0, with all
/// marks and with none; every choice of the marks with bits 24:21.
fn status_words() -> Vec<Question> {
    let mut questions = Vec::new();
    let mut turn = Turn::over(3);
    let mut ask = |status, marks| {
        let state = State { marks, ..blank_state(status) };
        questions.push((0x0102_0384, state, by_turns(&mut turn)));
    };
    for bit in 0..32 {
        ask(bit, Marks::NONE);
        ask(0x10 | 1 << bit, if bit > 20 { Marks::ALL } else { Marks::NONE });
        ask(0xfeff_ffff & !(1 << bit), Marks::ALL);
    }
    for marks in Marks::every() {
        for bits in [1, 2, 4, 8, 7] {
            ask(0x13 + (bits << 21), marks);
        }
    }
    questions
}

/// Records that no edition has, that describe nothing and that describe an access,
/// each in a sound state and in states that aren't, VBAR wrong in all.
fn order_of_tests() -> Vec<Question> {
    let nothing = record(&[9, 1, 0, 0, 0, 0, 0, 0, 0, 0, 0, 0, 0, 0, 0x05]);
    let wrong = [
        with(&load(), "SRT", 31),
        with(&store(), "SAS", 3),
        with(&nothing, "SAS", 1),
        // A writer would say 4 of these two.
        with(&nothing, "IL", 0),
        record(&[0, 0x0e, 0]),
        record(&[6, 0x12, 1, 0x1_0000]),
        record(&[6, 0x13, 1, 0]),
    ];
    // A software step with ISV 1 describes no access.
    let step = record(&[11, 1, 1, 1]);
    let had = [nothing, record(&[6, 0x12, 1, 0xffff]), step, load(), store()];
    let mut questions = Vec::new();
    for record in wrong.into_iter().chain(had) {
        for status in [0x10, 0x16, 0x0100_0010, 0x0040_0010] {
            let state = State { status, vbar: 0x1010, ..plain_state() };
            questions.push((0x55, state, record.clone()));
        }
    }
    questions
}

/// Records of each class; a load with each fault code, which some editions lack, and
/// with each other field; and fields that are too large.
fn records() -> Vec<Question> {
    let mut records: Vec<Record> = samples(Origin::AArch32).collect();
    records.extend(calls(&LONG));
    records.extend(sweep(&load(), "code"));
    records.extend(sweep(&store(), "AR CM S1PTW"));
    records.extend(["SF", "SET", "FnV", "EA", "ISV"].iter().flat_map(|name| sweep(&load(), name)));
    records.extend(sweep(&with(&load(), "code", 0x10), "EA ISV"));
    records.extend(fields_too_large(&load()));
    records.into_iter().map(|record| (0x12, blank_state(0x1f), record)).collect()
}

/// Random states, sound ones, and accesses of random sizes and registers.
fn random_questions() -> Vec<Question> {
    let mut random = Random::seeded(17);
    let mut questions = Vec::new();
    for _ in 0..24 {
        let mut numbers: Vec<u64> = (0..45).map(|_| random.word().into()).collect();
        numbers[32] = numbers[32] & !0x01e0_001f | u64::from(random.pick(&MODES));
        numbers.extend((0..3).map(|_| random.below(2)));
        let state = State::from_numbers(&numbers).expect("a state");
        let sizes: Vec<Record> = sweep(&load(), "SAS WnR");
        let access = &sizes[random.below(6) as usize];
        let signed = access.get("SAS") != Some(2) && !access.is_set("WnR");
        let record = with(access, "SSE", random.below(1 + u64::from(signed)) as u32);
        let record = with(&record, "SRT", random.below(31) as u32);
        questions.push((random.word(), state, with(&record, "IL", random.below(2) as u32)));
    }
    questions
}
