//! Questions to the return: runs in which exceptions are taken one inside the other and
//! then returned in turn, and returns that are refused.

use super::Turn;
use crate::call::Call;
use crate::cases::state;
use crate::guest::{inject, interrupt, status_of, Fault, Injection, Interrupt, State};
use crate::pending::{Correction, Run, RunCall};
use crate::random::Random;
use crate::status::{Marks, MODES};

pub fn questions() -> Vec<Call> {
    let mut runs = three_modes();
    runs.extend(five_modes());
    runs.extend(virtual_aborts());
    runs.extend(program_counters());
    runs.extend(changed_handlers());
    runs.extend(one_mode_twice());
    runs.extend(refused_returns());
    runs.extend(saved_words());
    runs.extend(corrections());
    runs.extend(random_nests());
    runs.into_iter().map(|run| Call::Run { run }).collect()
}

/// Places of numbers in a state.
const STATUS: usize = 32;
const SPSR_FIQ: usize = 33;
const VBAR: usize = 43;

/// The modes with a saved word, in the order of their saved words in a state.
const BANKED: [u32; 5] = [0x11, 0x12, 0x13, 0x17, 0x1b];

/// SCTLR.TE: handlers run in T32.
const TE: u32 = 1 << 30;

/// What enters a mode.
#[derive(Clone, Copy)]
enum Entry {
    Injected(Injection),
    Delivered(Interrupt),
}

use Entry::{Delivered, Injected};

const AT: Entry = Injected(Injection::UndefinedAt);
const AFTER: Entry = Injected(Injection::UndefinedAfter);
const CALL: Entry = Injected(Injection::SupervisorCall);
const PREFETCH: Entry =
    Injected(Injection::PrefetchAbort { fault: Fault::Translation(1), address: 0xffff_fffc });
const DATA: Entry = Injected(Injection::DataAbort {
    fault: Fault::Translation(2),
    address: 0x1234_5678,
    write: true,
    domain: 9,
});
const FIQ: Entry = Delivered(Interrupt::Fiq);
const IRQ: Entry = Delivered(Interrupt::Irq);
const ABORT: Entry = Delivered(Interrupt::Abort);

impl Entry {
    /// The calls that enter from a state, the state after them and the correction of the
    /// return; none where the state is refused.
    fn calls(self, before: &State) -> Option<(Vec<RunCall>, State, i64)> {
        match self {
            Injected(injection) => {
                let after = inject(before, &injection).ok()?;
                Some((vec![RunCall::Inject(injection)], after, injection.correction(before)))
            }
            Delivered(which) => {
                let status = status_of(before).ok()?;
                let calls = vec![RunCall::Raise(which), RunCall::Step { changes: vec![] }];
                let unmasked = !which.is_masked(&status);
                let after = unmasked.then(|| interrupt(before, &status, which))?;
                Some((calls, after, which.correction(before)))
            }
        }
    }
}

/// All of them taken in turn, and then returned, the last first.
fn nest(first: State, entries: &[Entry]) -> Run {
    let mut calls = Vec::new();
    let mut corrections = Vec::new();
    let mut state = first.clone();
    for entry in entries {
        let (made, after, correction) = entry.calls(&state).expect("taken");
        calls.extend(made);
        corrections.push(correction);
        state = after;
    }
    calls.extend(corrections.into_iter().rev().map(returning));
    Run { state: first, calls }
}

fn returning(correction: i64) -> RunCall {
    RunCall::Return(Correction::of(correction))
}

/// A state of small numbers that all differ, whose saved words are sound status words.
fn plain_state() -> State {
    State {
        spsr_fiq: 0x8000_0030,
        spsr_irq: 0x4000_001f,
        spsr_svc: 0x2000_0011,
        spsr_abt: 0x1000_0032,
        spsr_und: 0x0800_0013,
        ..state(0x10, 0x8000, 0)
    }
}

/// All orders of some of them.
fn orders(entries: &[Entry]) -> Vec<Vec<Entry>> {
    let mut orders = vec![vec![]];
    for (place, &first) in entries.iter().enumerate() {
        let others = [&entries[..place], &entries[place + 1..]].concat();
        for mut order in self::orders(&others) {
            order.insert(0, first);
            orders.push(order);
        }
    }
    orders
}

/// Every nest of the three modes that injections enter, with either kind of undefined
/// instruction and of abort, from A32 and T32 into either.
fn three_modes() -> Vec<Run> {
    let mut runs = Vec::new();
    let mut modes = Turn::over(MODES.len() as u32);
    for undefined in [AT, AFTER] {
        for abort in [PREFETCH, DATA] {
            for order in orders(&[undefined, CALL, abort]) {
                for choice in 0..4u32 {
                    let mode = u32::from(MODES[modes.next() as usize]);
                    let status = mode + ((choice & 1) << 5);
                    let sctlr = (choice >> 1) * TE;
                    runs.push(nest(State { status, sctlr, ..plain_state() }, &order));
                }
            }
        }
    }
    runs.retain(|run| !run.calls.is_empty());
    runs
}

/// All five modes. Every entry masks IRQs, so that one comes first.
fn five_modes() -> Vec<Run> {
    let mut runs = Vec::new();
    let mut turn = Turn::over(4);
    for order in orders(&[FIQ, CALL, PREFETCH, AT]) {
        let choice = turn.next();
        let state = State {
            status: 0x10 + ((choice & 1) << 5),
            sctlr: (choice >> 1) * TE,
            ..plain_state()
        };
        runs.push(nest(state, &[vec![IRQ], order].concat()));
    }
    runs
}

/// A virtual abort, which writes DFSR alone, at the bottom of a nest.
fn virtual_aborts() -> Vec<Run> {
    let mut runs = Vec::new();
    for order in orders(&[FIQ, CALL, AFTER]) {
        for ttbcr in [0, 1 << 31] {
            let state = State { ttbcr, status: 0x3f, ..plain_state() };
            runs.push(nest(state, &[vec![ABORT], order.clone()].concat()));
        }
    }
    runs
}

/// PC at both ends of its range and where the sign turns, in both instruction sets: each
/// alone, and two with the outer one's PC there.
fn program_counters() -> Vec<Run> {
    let near_0 = (0..9).map(|distance: u32| distance.wrapping_neg());
    let places = near_0.chain([1, 2, 4, 0x7fff_fffc, 0x8000_0000]);
    let mut runs = Vec::new();
    for pc in places {
        for t in [0, 0x20] {
            let first = State { pc, status: 0x10 + t, ..plain_state() };
            for entry in [AT, AFTER, CALL, PREFETCH, DATA, FIQ, IRQ, ABORT] {
                runs.push(nest(first.clone(), &[entry]));
            }
            runs.push(nest(first.clone(), &[AFTER, DATA]));
        }
    }
    // The vectors at the top of the range.
    for sctlr in [1 << 13, TE + (1 << 13)] {
        let first = State { sctlr, pc: 0xffff_ffff, ..plain_state() };
        runs.push(nest(first, &[IRQ, FIQ, DATA, AT, CALL]));
    }
    runs
}

/// Handlers that changed their status word, the masks among it, before the next entry:
/// what they return to is the word as they changed it.
fn changed_handlers() -> Vec<Run> {
    let mut runs = Vec::new();
    for (first, second) in [(CALL, IRQ), (FIQ, ABORT), (DATA, FIQ), (AT, IRQ), (IRQ, ABORT)] {
        let (Some((mut calls, inner, outer)), Delivered(which)) =
            (first.calls(&plain_state()), second)
        else {
            panic!("taken, and an interrupt inside it");
        };
        let unmasked = State { status: inner.status & !0x1c0 | 0xf800_0000, ..inner };
        let changes = vec![(STATUS, unmasked.status.into())];
        let correction = which.correction(&unmasked);
        calls.extend([RunCall::Raise(which), RunCall::Step { changes }]);
        calls.extend([returning(correction), returning(outer)]);
        runs.push(Run { state: plain_state(), calls });
    }
    runs
}

/// Two that enter one mode: the first one's saved word and link are lost.
fn one_mode_twice() -> Vec<Run> {
    let mut runs = Vec::new();
    for pair in [[AT, AT], [AT, AFTER], [CALL, CALL], [PREFETCH, DATA], [ABORT, DATA]] {
        for t in [0, 0x20] {
            let first = State { status: 0x10 + t, sctlr: TE, ..plain_state() };
            runs.push(nest(first.clone(), &pair));
            runs.push(nest(first, &[pair[0], FIQ, pair[1]]));
        }
    }
    runs
}

/// A return from a state, and a second one from what it left.
fn two_returns(state: State) -> Run {
    Run { state, calls: vec![returning(4), returning(-4)] }
}

/// Every number of a mode, and each bit of the word alone, without marks and with each
/// choice of them for bits 24:21. VBAR isn't tested.
fn refused_returns() -> Vec<Run> {
    let mut runs = Vec::new();
    for status in 0..32 {
        runs.push(two_returns(State { status, vbar: status, ..plain_state() }));
    }
    for bit in 5..32 {
        let mode = BANKED[bit % 5];
        runs.push(two_returns(State { status: mode | 1 << bit, ..plain_state() }));
    }
    let mut turn = Turn::over(5);
    for marks in Marks::every() {
        for bits in 1..16 {
            let status = BANKED[turn.next() as usize] + (bits << 21);
            runs.push(two_returns(State { status, marks, ..plain_state() }));
        }
    }
    runs
}

/// The saved word of the current mode: every mode, each bit alone and as the only one
/// that is 0, and bits 24:21 with each choice of the marks. The others are not looked at.
fn saved_words() -> Vec<Run> {
    let mut words: Vec<(u32, Marks)> = (0..32).map(|word| (word, Marks::NONE)).collect();
    words.extend((5..32).map(|bit| (0x10 | 1 << bit, Marks::NONE)));
    words.extend((5..32).map(|bit| (0xfeff_ffff & !(1 << bit), Marks::ALL)));
    for marks in Marks::every() {
        words.extend((1..16).map(|bits| (0x13 | bits << 21, marks)));
    }
    let mut turn = Turn::over(5);
    let mut runs = Vec::new();
    for (word, marks) in words {
        let place = turn.next() as usize;
        let mut numbers = State { status: BANKED[place], marks, ..plain_state() }.numbers();
        // Unsound, every one but the current mode's.
        for spsr in &mut numbers[SPSR_FIQ..SPSR_FIQ + 5] {
            *spsr |= 1 << 24;
        }
        numbers[SPSR_FIQ + place] = word.into();
        runs.push(two_returns(State::from_numbers(&numbers).expect("a state")));
    }
    runs
}

/// Any correction: each bit of its size, and all, with either sign, in each mode by turns.
fn corrections() -> Vec<Run> {
    let mut turn = Turn::over(5);
    let mut runs = Vec::new();
    for size in (0..32).map(|bit| 1 << bit).chain([0, 3, 0xffff_fffe, u32::MAX]) {
        for minus in [false, true] {
            let status = BANKED[turn.next() as usize];
            let mut state = State { status, vbar: 1, ..plain_state() };
            state.registers.iter_mut().for_each(|register| *register *= 0x0123_4567);
            let calls = vec![RunCall::Return(Correction { minus, size })];
            runs.push(Run { state, calls });
        }
    }
    runs
}

/// States of random words, and entries by chance: those that are taken, and then as many
/// returns and one more, with the right correction or another.
fn random_nests() -> Vec<Run> {
    let mut random = Random::seeded(22);
    let mut runs = Vec::new();
    for turn in 0..80 {
        let mut numbers: Vec<u64> = (0..45).map(|_| random.word().into()).collect();
        numbers[VBAR] = numbers[VBAR] / 32 * 32;
        let mode: u32 = random.pick(&MODES).into();
        numbers[STATUS] &= !0x01e0_01df;
        numbers[STATUS] |= u64::from(mode);
        numbers.extend((0..3).map(|_| if turn < 20 { 0 } else { random.below(2) }));
        let first = State::from_numbers(&numbers).expect("a state");
        let mut calls = Vec::new();
        let mut corrections = Vec::new();
        let mut state = first.clone();
        for _ in 0..1 + random.below(5) {
            let entry = random.pick(&[AT, AFTER, CALL, PREFETCH, DATA, FIQ, IRQ, ABORT]);
            if let Some((made, after, correction)) = entry.calls(&state) {
                calls.extend(made);
                corrections.push(correction);
                state = after;
            }
        }
        corrections.insert(0, 0);
        if turn % 4 == 3 {
            corrections.push(random.word().into());
        }
        calls.extend(corrections.into_iter().rev().map(returning));
        runs.push(Run { state: first, calls });
    }
    runs
}

#[cfg(test)]
mod tests {
    use super::*;
    use crate::call::{answers, lines};
    use std::collections::BTreeSet;

    #[test]
    fn every_nest_is_a_row() {
        for question in questions() {
            let line = question.line();
            let call = Call::parse(line.as_bytes()).expect("a row");
            assert_eq!(call.line(), line);
        }
    }

    #[test]
    fn no_answer_has_more_numbers_than_a_reply() {
        let questions: Vec<_> = questions().into_iter().map(Some).collect();
        for answer in lines(&answers(&questions)) {
            assert!(answer.split(|&byte| byte == b' ').count() <= 256);
        }
    }

    /// After a nest in which no mode is entered twice PC and status word are as before.
    #[test]
    fn nests_come_back() {
        let nests = [three_modes(), five_modes(), virtual_aborts(), program_counters()].concat();
        for run in nests {
            let (pc, status) = last_place(&run);
            assert_eq!((pc, status), (run.state.pc, run.state.status));
        }
        let lost = one_mode_twice().into_iter().filter(|run| last_place(run).1 != run.state.status);
        assert_eq!(lost.count(), one_mode_twice().len());
    }

    /// PC and status word after a run, by the changes that its answer tells.
    fn last_place(run: &Run) -> (u32, u32) {
        let mut numbers = run.state.numbers();
        let answer = run.answer();
        let mut rest = answer.iter();
        for call in &run.calls {
            let told = match call {
                RunCall::Raise(_) => {
                    rest.next();
                    continue;
                }
                RunCall::Step { changes } => {
                    for &(place, number) in changes {
                        numbers[place] = number;
                    }
                    2
                }
                RunCall::Inject(_) => 3,
                RunCall::Return(_) => 1,
            };
            assert!(rest.nth(told - 1).is_some());
            while let Some(&place) = rest.next().filter(|&&place| place != 48) {
                numbers[place as usize] = *rest.next().expect("a number");
            }
        }
        (numbers[31] as u32, numbers[32] as u32)
    }

    #[test]
    fn returns_give_both_answers() {
        let mut given = BTreeSet::new();
        for run in [refused_returns(), saved_words()].concat() {
            given.insert(run.answer()[0]);
        }
        assert_eq!(given, BTreeSet::from([0, 9]));
    }
}
