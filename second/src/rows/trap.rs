//! Questions to the trap reader: an origin, an edition or two, and three registers.

use super::aborts::{data_aborts, instruction_abort, random_abort};
use super::samples::{samples, sweep, with, word};
use super::{seed, Turn};
use crate::call::Call;
use crate::long::Origin;
use crate::random::Random;
use crate::trap::Registers;

pub fn questions(origin: Origin) -> Vec<Call> {
    let mut questions = refused_syndromes(origin);
    questions.extend(every_sample(origin));
    questions.extend(every_fault_code(origin));
    questions.extend(register_bits(origin));
    questions.extend(register_limits(origin));
    questions.extend(random_traps(origin));
    questions
}

/// FAR and HPFAR that every edition takes.
const GOOD: (u64, u64) = (0x89ab_cdef, 0x12_3456_7890);

/// The good registers, then FAR, HPFAR and both with a bit that they lack.
const GOOD_AND_BAD: [(u64, u64); 4] = [
    GOOD,
    (GOOD.0 + (1 << 32), GOOD.1),
    (GOOD.0, GOOD.1 + 1),
    (GOOD.0 + (1 << 63), GOOD.1 + (1 << 63)),
];

fn trap(origin: Origin, edition: u32, esr: u64, (far, hpfar): (u64, u64)) -> Call {
    Call::Trap { origin, edition, registers: Registers { esr, far, hpfar } }
}

fn both(origin: Origin, editions: [u32; 2], esr: u64, (far, hpfar): (u64, u64)) -> Call {
    Call::Both { origin, editions, registers: Registers { esr, far, hpfar } }
}

/// Refusals 1 to 6 come before the two address registers are looked at, and
/// those of the first edition before those of the second.
fn refused_syndromes(origin: Origin) -> Vec<Call> {
    let no_edition = origin.form().editions;
    let refused = [
        (no_edition, 0x9200_0005),
        (0xffff_ffff, 0x9200_0005),
        (0, 0x1_9200_0005),
        (7, 0x5a00_0000),
        (0, 0x9000_0005),
        (7, 0x8200_0021),
        (1, 0x9200_0018),
        (0, 0x9200_0029),
        (0, 0x8200_0008),
    ];
    let mut questions = Vec::new();
    for (edition, esr) in refused {
        for addresses in GOOD_AND_BAD {
            questions.push(trap(origin, edition, esr, addresses));
            for other in [2, 3, 12, no_edition] {
                questions.push(both(origin, [edition, other], esr, addresses));
                questions.push(both(origin, [other, edition], esr, addresses));
            }
        }
    }
    questions
}

fn every_sample(origin: Origin) -> Vec<Call> {
    let mut editions = Turn::over(origin.form().editions);
    let mut questions = Vec::new();
    for sample in samples(origin) {
        for addresses in GOOD_AND_BAD {
            let edition = editions.next();
            let other = (edition + 9) % origin.form().editions;
            questions.push(trap(origin, edition, word(&sample), addresses));
            questions.push(both(origin, [edition, other], word(&sample), addresses));
        }
    }
    questions
}

/// Fault codes with the fields that say which address is known.
fn every_fault_code(origin: Origin) -> Vec<Call> {
    let mut editions = Turn::over(origin.form().editions);
    let mut bad = Turn::over(3);
    let [plain, _] = data_aborts();
    let mut questions = Vec::new();
    for abort in [instruction_abort(), plain] {
        let known =
            ["S1PTW", "FnV"].into_iter().flat_map(|name| sweep(&abort, &format!("{name} code")));
        for record in known.chain(sweep(&with(&abort, "code", 0x10), "FnV EA")) {
            let edition = editions.next();
            let other = (edition + 8) % origin.form().editions;
            let bad = GOOD_AND_BAD[1 + bad.next() as usize];
            questions.push(trap(origin, edition, word(&record), GOOD));
            questions.push(trap(origin, edition, word(&record), bad));
            questions.push(both(origin, [other, edition], word(&record), GOOD));
        }
    }
    questions
}

/// Each bit of FAR and of HPFAR where the register counts, and the bits around
/// the ends of its field where it counts and where it doesn't: translation
/// faults (also on a walk), permission faults without and with S1PTW, an
/// external abort without and with FnV, an alignment fault, PC alignment, HVC, a
/// watchpoint, a breakpoint and an SError interrupt.
fn register_bits(origin: Origin) -> Vec<Call> {
    let mut questions = Vec::new();
    for bit in 0..64 {
        questions.push(trap(origin, bit % origin.form().editions, 0x9200_0005, (1 << bit, 0)));
        for edition in [0, 2, 8] {
            questions.push(trap(origin, edition, 0x9200_0005, (0, 1 << bit)));
        }
        questions.push(both(origin, [2, 8], 0x9200_0085, (0, 1 << bit)));
        questions.push(both(origin, [8, 2], 0x9200_0085, (0, 1 << bit)));
    }
    let syndromes = [
        0x9200_0085,
        0x8200_0007,
        0x8200_0087,
        0x9200_000d,
        0x9200_008d,
        0x8200_008f,
        0x9200_0010,
        0x9200_0410,
        0x8200_0410,
        0x9200_0021,
        0x8a00_0000,
        0x4a00_0001,
        0xd200_0022,
        0xc200_0022,
        0xbe00_0000,
    ];
    let mut editions = Turn::over(origin.form().editions);
    for esr in syndromes {
        for bit in [0, 11, 12, 31, 32, 33, 63] {
            questions.push(trap(origin, editions.next(), esr, (1 << bit, 0)));
        }
        for bit in [0, 3, 4, 39, 40, 43, 44, 63] {
            let edition = editions.next();
            let other = (edition + 8) % origin.form().editions;
            questions.push(trap(origin, edition, esr, (0, 1 << bit)));
            questions.push(trap(origin, other, esr, (0, 1 << bit)));
            questions.push(both(origin, [edition, other], esr, (0, 1 << bit)));
        }
    }
    questions
}

/// The largest page numbers of both widths and one more, in every edition.
fn register_limits(origin: Origin) -> Vec<Call> {
    let pages = [0, 0x10, 0xff_ffff_fff0, 0x100_0000_0000, 0xfff_ffff_fff0, 0x1000_0000_0000];
    let mut questions = Vec::new();
    for edition in 0..origin.form().editions {
        for (esr, far) in [(0x9200_0005, 0xfff), (0x8200_008d, 0xffff_ffff), (0x8200_0005, 0x1000)]
        {
            for hpfar in pages {
                let other = (edition + 1 + hpfar as u32 % 3) % origin.form().editions;
                questions.push(trap(origin, edition, esr, (far, hpfar)));
                questions.push(both(origin, [edition, other], esr, (far, hpfar)));
            }
        }
    }
    questions
}

fn random_traps(origin: Origin) -> Vec<Call> {
    let mut random = Random::seeded(seed(origin, 3));
    let mut questions = Vec::new();
    for _ in 0..200 {
        let esr = word(&random_abort(&mut random));
        let far = random.next() >> random.pick(&[0, 32, 32, 32]);
        let hpfar = random.below(1 << 42) >> random.pick(&[0, 2, 4, 6]) << 4;
        let [edition, other] = [(); 2].map(|()| random.below(origin.form().editions.into()) as u32);
        questions.push(trap(origin, edition, esr, (far, hpfar)));
        questions.push(both(origin, [edition, other], esr, (far, hpfar)));
    }
    questions
}
