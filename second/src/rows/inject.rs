//! Questions to the injector: an injection and a state, by value and lent; and
//! to the call that makes a status word of a saved one.

use super::samples::words_with_marks;
use super::Turn;
use crate::call::{Call, Way};
use crate::cases::state;
use crate::guest::{Fault, Injection, State};
use crate::random::Random;
use crate::status::{Marks, MODES};

type Question = (Injection, State);

pub fn questions() -> Vec<Call> {
    let mut questions = every_injection();
    questions.extend(every_level());
    questions.extend(status_words());
    questions.extend(program_counters());
    questions.extend(control_bits());
    questions.extend(address_bits());
    questions.extend(order_of_tests());
    questions.extend(random_questions());
    questions.extend(every_mark());
    questions.extend(marked_words());
    by_value_and_lent(&questions).chain(saved_words()).collect()
}

/// Data aborts with a domain.
pub fn domain_questions() -> Vec<Call> {
    let mut questions = every_domain();
    questions.extend(order_with_domain());
    by_value_and_lent(&questions).collect()
}

/// The lent call makes the call by value: a quarter of its questions.
fn by_value_and_lent(questions: &[Question]) -> impl Iterator<Item = Call> + '_ {
    let by_value = questions.iter().map(|question| ask(Way::ByValue, question));
    by_value.chain(questions.iter().step_by(4).map(|question| ask(Way::Lent, question)))
}

fn ask(way: Way, (injection, state): &Question) -> Call {
    Call::Inject { way, injection: *injection, state: state.clone() }
}

/// TTBCR for the long format.
const LONG: u32 = 1 << 31;

/// The status word with T as given.
fn with_t(status: u32, t: bool) -> u32 {
    let bit = 1 << 5;
    (status & !bit) | (u32::from(t) * bit)
}

/// The bits 24:21 that a guest with the marks may have.
fn allowed(marks: &Marks) -> u32 {
    (u32::from(marks.ssbs) << 23) + (u32::from(marks.pan) << 22) + (u32::from(marks.dit) << 21)
}

/// SCTLR with TE, EE and V as the three low bits of the choice say.
fn sctlr(choice: u32) -> u32 {
    let bit = |at: u32| choice >> at & 1;
    (bit(0) << 30) + (bit(1) << 25) + (bit(2) << 13)
}

/// A state of small numbers that all differ, in user mode, without marks.
fn plain_state() -> State {
    state(0x10, 0x8000, 0)
}

/// The aborts of a fault, with domain 0.
fn aborts(fault: Fault, address: u64) -> [Injection; 3] {
    let data = |write| Injection::DataAbort { fault, address, write, domain: 0 };
    [Injection::PrefetchAbort { fault, address }, data(false), data(true)]
}

/// Each of the five injections once, the aborts with a fault that can be
/// written in both formats.
fn five() -> [Injection; 5] {
    let [prefetch, _, data] = aborts(Fault::Translation(1), 0x1234_5678);
    [Injection::UndefinedAt, Injection::UndefinedAfter, Injection::SupervisorCall, prefetch, data]
}

fn faults_at(levels: &[u8]) -> Vec<Fault> {
    let mut faults = vec![Fault::External, Fault::Alignment];
    for &level in levels {
        faults.extend([
            Fault::Translation(level),
            Fault::AccessFlag(level),
            Fault::Permission(level),
        ]);
    }
    faults
}

/// Every injection and fault in both formats, from A32 and T32; and each of
/// the five with each choice of T, of the three SCTLR bits and of the mode.
fn every_injection() -> Vec<Question> {
    let mut questions = Vec::new();
    for fault in faults_at(&[0, 1, 2, 3, 4]) {
        for injection in aborts(fault, 0x8765_4321) {
            for choice in 0..4 {
                let mut state = plain_state();
                state.status = with_t(state.status, choice % 2 == 1);
                state.ttbcr = choice / 2 * LONG;
                questions.push((injection, state));
            }
        }
    }
    for injection in five() {
        for choice in 0..16 {
            for (turn, &mode) in MODES.iter().enumerate() {
                if turn % 2 == choice as usize % 2 || choice == 0 {
                    let mut state = plain_state();
                    state.sctlr = sctlr(choice);
                    state.status = with_t(mode.into(), choice / 8 == 1);
                    questions.push((injection, state));
                }
            }
        }
    }
    questions
}

/// Levels that are none, or that would be 1..3 if their top bits were lost.
fn every_level() -> Vec<Question> {
    let mut questions = Vec::new();
    let levels = [5, 7, 9, 0x11, 0x22, 0x43, 0x7f, 0x80, 0x81, 0xfe, 0xff];
    for (turn, fault) in faults_at(&levels).into_iter().enumerate() {
        let [prefetch, read, _] = aborts(fault, 0x8000);
        for (injection, ttbcr) in [(prefetch, turn % 2), (read, (turn + 1) % 2)] {
            questions.push((injection, State { ttbcr: ttbcr as u32 * LONG, ..plain_state() }));
        }
    }
    questions
}

/// All 32 modes, all of bits 24:21, and each bit of the word alone and as the
/// only one that is 0.
fn status_words() -> Vec<Question> {
    let mut words: Vec<u32> = (0..32).collect();
    words.extend((0..16).map(|bits| 0x13 | bits << 21));
    words.extend((5..32).map(|bit| 0x10 | 1 << bit));
    words.extend((5..32).map(|bit| 0xfe1f_ffff & !(1 << bit)));
    let mut questions = Vec::new();
    for (turn, status) in words.into_iter().enumerate() {
        let five = five();
        for injection in [five[turn % 5], five[(turn + 1 + turn / 5 % 4) % 5]] {
            questions.push((injection, State { status, ..plain_state() }));
        }
    }
    questions
}

/// PC at both ends of its range and where the sign turns.
fn program_counters() -> Vec<Question> {
    let near_0 = (0..5).chain(8..9).map(|distance: u32| distance.wrapping_neg());
    let places = near_0.chain([1, 2, 3, 4, 6, 0x7fff_fffc, 0x8000_0000, 0xffff_fff4]);
    let mut questions = Vec::new();
    for pc in places {
        for injection in five() {
            for t in [false, true] {
                let status = with_t(0x1f, t);
                questions.push((injection, State { pc, status, ..plain_state() }));
            }
        }
    }
    questions
}

/// Each bit of VBAR, SCTLR and TTBCR alone and then all of them, VBAR also
/// with high vectors and with all bits that it may have.
fn control_bits() -> Vec<Question> {
    let mut questions = Vec::new();
    let all_bits = (0..32).map(|bit| 1 << bit).chain([!0x1f, !0]);
    for (turn, bits) in all_bits.enumerate() {
        let settings = [(bits, 0, 0), (bits, sctlr(4), 0), (0, bits, 0), (0, 0, bits)];
        for (vbar, sctlr, ttbcr) in settings {
            for injection in [five()[turn % 5], five()[3 + turn % 2]] {
                questions.push((injection, State { vbar, sctlr, ttbcr, ..plain_state() }));
            }
        }
    }
    questions
}

/// Each bit of the fault address alone.
fn address_bits() -> Vec<Question> {
    let mut questions = Vec::new();
    for bit in 0..64 {
        let [prefetch, read, write] = aborts(Fault::Permission(2), 1 << bit);
        for injection in [prefetch, if bit % 2 == 0 { read } else { write }] {
            questions.push((injection, plain_state()));
        }
    }
    questions
}

/// Every choice of the tests 9 to 12 that fail together.
fn order_of_tests() -> Vec<Question> {
    let mut questions = Vec::new();
    for choice in 0..16 {
        let fails = |test: u32| choice >> (test - 9) & 1 == 1;
        let level = if fails(11) { 0 } else { 1 };
        let address = if fails(12) { 0xffff_ffff_0000_0000 } else { 0 };
        let injections = aborts(Fault::AccessFlag(level), address);
        for injection in injections.into_iter().chain(five()) {
            let mut state = plain_state();
            state.vbar += u32::from(fails(10)) << 4;
            state.status |= u32::from(fails(9)) << 22;
            questions.push((injection, state));
        }
    }
    questions
}

/// States of random words from which every injection of a writable fault is
/// taken, the latter half with random marks.
fn random_questions() -> Vec<Question> {
    let mut random = Random::seeded(4);
    let mut questions = Vec::new();
    for turn in 0..40 {
        let mut numbers: Vec<u64> = (0..45).map(|_| random.word().into()).collect();
        numbers[32] = numbers[32] & !0x1f | u64::from(random.pick(&MODES));
        numbers[43] = numbers[43] / 32 * 32;
        numbers.extend((0..3).map(|_| if turn < 20 { 0 } else { random.below(2) }));
        let mut state = State::from_numbers(&numbers).expect("a state");
        state.status &= !0x01e0_0000 | allowed(&state.marks);
        let fault = random.pick(&faults_at(&[1, 2, 3]));
        let address = random.word().into();
        let abort = random.pick(&aborts(fault, address));
        questions.push((abort, state.clone()));
        questions.push((random.pick(&five()), state));
    }
    questions
}

/// Every choice of the marks and of bits 24:21. Where the word is sound, with
/// every choice of SCTLR's DSSBS and SPAN, and two of the five by turns.
fn every_mark() -> Vec<Question> {
    let mut questions = Vec::new();
    let mut turn = Turn::over(5);
    for marks in Marks::every() {
        for bits in (0..16).map(|choice| choice << 21) {
            let state = State { status: 0x10 + bits, marks, ..plain_state() };
            if bits & !allowed(&marks) != 0 {
                questions.push((five()[turn.next() as usize], state));
                continue;
            }
            for (dssbs, span) in [(0, 0), (0, 1), (1, 0), (1, 1)] {
                let sctlr = (dssbs << 31) + (span << 23);
                for injection in [turn.next(), turn.next()].map(|turn| five()[turn as usize]) {
                    questions.push((injection, State { sctlr, ..state.clone() }));
                }
            }
        }
    }
    questions
}

/// A guest with all marks: all modes, each bit of the word alone and as the only
/// one that is 0, and each bit of SCTLR alone. And with each choice of the marks:
/// the tests 9 to 11 that fail together.
fn marked_words() -> Vec<Question> {
    let mut questions = Vec::new();
    let marked = State { marks: Marks::ALL, ..plain_state() };
    let mut turn = Turn::over(5);
    for bit in 0..32 {
        let (alone, missing) = (1 << bit, !(1 << bit));
        let settings =
            [(bit, 0), (0x10 | alone, 0), (0xfeff_ffff & missing, 1 << 23), (0x00e0_0010, alone)];
        for (status, sctlr) in settings {
            let injection = five()[turn.next() as usize];
            questions.push((injection, State { status, sctlr, ..marked.clone() }));
        }
    }
    for marks in Marks::every() {
        for choice in 0..8 {
            let fails = |test: u32| choice >> (test - 9) & 1 == 1;
            let bits = if fails(9) { 0x01e0_0000 } else { allowed(&marks) };
            let vbar = 0x1000 + (u32::from(fails(10)) << 4);
            let fault = Fault::Permission(if fails(11) { 3 } else { 1 });
            let state = State { status: 0x13 + bits, vbar, marks, ..plain_state() };
            questions.push((aborts(fault, 0x8000)[turn.next() as usize % 3], state));
        }
    }
    questions
}

/// Every fault in both formats with domains on both sides of the boundary; and of
/// the faults that report one, every bit of it alone and every number of four bits.
fn every_domain() -> Vec<Question> {
    let mut questions = Vec::new();
    let mut turn = Turn::over(3);
    let mut ask = |fault, domain, ttbcr| {
        let write = turn.next() == 0;
        let injection = Injection::DataAbort { fault, address: 0x8765_4321, write, domain };
        questions.push((injection, State { ttbcr, ..plain_state() }));
    };
    for fault in faults_at(&[0, 1, 2, 3, 4]) {
        for domain in [0, 1, 15, 16, 255] {
            for ttbcr in [0, LONG] {
                ask(fault, domain, ttbcr);
            }
        }
    }
    for fault in [Fault::Translation(2), Fault::AccessFlag(2)] {
        for domain in (2..15).chain([17, 32, 64, 128]) {
            ask(fault, domain, 0);
        }
    }
    questions
}

/// Every choice of the tests 9, 10, 11, 20 and 12 that fail together, by a fault that
/// reports its domain and by one that doesn't.
fn order_with_domain() -> Vec<Question> {
    let mut questions = Vec::new();
    for choice in 0..32 {
        let fails = |place: u32| choice >> place & 1 == 1;
        let level = if fails(2) { 3 } else { 2 };
        let domain = if fails(3) { 16 } else { 15 };
        let address = if fails(4) { 0x1_0000_0000 } else { 0xffff_ffff };
        for fault in [Fault::Translation(level), Fault::Permission(level)] {
            let mut state = plain_state();
            state.status |= u32::from(fails(0)) << 22;
            state.vbar += u32::from(fails(1)) << 4;
            let write = fails(3) == fails(4);
            questions.push((Injection::DataAbort { fault, address, write, domain }, state));
        }
    }
    questions
}

fn saved_words() -> impl Iterator<Item = Call> {
    words_with_marks(15).map(|(marks, word)| Call::Spsr { marks, word })
}
