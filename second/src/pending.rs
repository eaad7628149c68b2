//! Waiting interrupts, by tickets: a raise hands out the next number, and the smallest
//! number whose interrupt isn't masked is served. And runs of calls on one guest: raises,
//! delivery steps, injections and returns.

use crate::call::{injection_of, injection_row};
use crate::guest::{inject, interrupt, resume, status_of, Injection, Interrupt, State};

/// The number that each interrupt which waits was given, and the next one.
#[derive(Clone, Default)]
pub struct Tickets {
    abort: Option<u32>,
    fiq: Option<u32>,
    irq: Option<u32>,
    next: u32,
}

/// What a delivery step answers, with the state after it.
#[derive(Clone, Debug, PartialEq, Eq)]
pub enum Step {
    Refused(u8),
    Nothing,
    Delivered(Interrupt, State),
}

impl Tickets {
    fn of(&mut self, which: Interrupt) -> &mut Option<u32> {
        match which {
            Interrupt::Abort => &mut self.abort,
            Interrupt::Fiq => &mut self.fiq,
            Interrupt::Irq => &mut self.irq,
        }
    }

    /// One that has a ticket keeps it.
    pub fn raise(&mut self, which: Interrupt) {
        let number = self.next;
        self.of(which).get_or_insert(number);
        self.next += 1;
    }

    /// A state that is refused is no step, whatever waits.
    pub fn deliver(&mut self, state: &State) -> Step {
        let status = match status_of(state) {
            Ok(status) => status,
            Err(refusal) => return Step::Refused(refusal),
        };
        let unmasked = Interrupt::ALL.into_iter().filter(|which| !which.is_masked(&status));
        let waiting = unmasked.filter_map(|which| Some(((*self.of(which))?, which)));
        match waiting.min() {
            None => Step::Nothing,
            Some((_, first)) => {
                *self.of(first) = None;
                Step::Delivered(first, interrupt(state, &status, first))
            }
        }
    }
}

/// A call of a run. Each but a raise is made on the state that the call before it left;
/// before a step some of its numbers are changed, each given by its place.
#[derive(Clone, Debug, PartialEq, Eq)]
pub enum RunCall {
    Raise(Interrupt),
    Step { changes: Vec<(usize, u64)> },
    Inject(Injection),
    Return(Correction),
}

/// A signed number of 32 bits by its sign and its size, which may be 0 with either sign.
#[derive(Clone, Copy, Debug, PartialEq, Eq)]
pub struct Correction {
    pub minus: bool,
    pub size: u32,
}

impl Correction {
    /// The number as it is told: 0 has no sign.
    pub fn of(number: i64) -> Correction {
        let size = u32::try_from(number.unsigned_abs()).expect("32 bits");
        Correction { minus: number < 0, size }
    }

    fn number(self) -> i64 {
        let size = i64::from(self.size);
        if self.minus {
            -size
        } else {
            size
        }
    }

    fn row(self) -> [u64; 2] {
        [self.minus.into(), self.size.into()]
    }
}

/// Calls in their order, and the state before them.
#[derive(Clone, Debug, PartialEq, Eq)]
pub struct Run {
    pub state: State,
    pub calls: Vec<RunCall>,
}

/// How many numbers a state has: no place, and so the end of a list of changes.
const END: u64 = 48;

/// The most calls that a run has, and the most numbers of its row.
const CALLS: usize = 24;
const NUMBERS: usize = 256;

impl Run {
    pub fn row(&self) -> Vec<u64> {
        let mut row = self.state.numbers();
        for call in &self.calls {
            match call {
                RunCall::Raise(which) => row.extend([0, *which as u64]),
                RunCall::Step { changes } => {
                    row.push(1);
                    row.extend(changes.iter().flat_map(|&(place, number)| [place as u64, number]));
                    row.push(END);
                }
                RunCall::Inject(injection) => {
                    row.push(2);
                    row.extend(injection_row(injection));
                }
                RunCall::Return(correction) => {
                    row.push(3);
                    row.extend(correction.row());
                }
            }
        }
        row
    }

    /// The run that a row shows, which has at least one call.
    pub fn from_row(row: &[u64]) -> Option<Run> {
        let (state, mut rest) = row.split_at_checked(END as usize)?;
        let state = State::from_numbers(state)?;
        let mut calls = Vec::new();
        while !rest.is_empty() {
            let (call, after) = first_call(rest)?;
            calls.push(call);
            rest = after;
        }
        let run = Run { state, calls };
        let fits = (1..=CALLS).contains(&run.calls.len()) && row.len() <= NUMBERS;
        (fits && run.states_are_states()).then_some(run)
    }

    /// Whether every change leaves a state, of 32 bits in each word.
    fn states_are_states(&self) -> bool {
        let changes = self.calls.iter().flat_map(|call| match call {
            RunCall::Step { changes } => changes.iter(),
            _ => [].iter(),
        });
        changes.into_iter().all(|&change| with_change(&self.state, change).is_some())
    }

    /// What each call answers: a raise 0; a step its number and what it delivered; an
    /// injection its number and its correction; a return its number. But for a raise the
    /// numbers follow that the call changed in the state, each after its place.
    pub fn answer(&self) -> Vec<u64> {
        let mut tickets = Tickets::default();
        let mut state = self.state.clone();
        let mut answer = Vec::new();
        for call in &self.calls {
            let after = match call {
                RunCall::Raise(which) => {
                    tickets.raise(*which);
                    answer.push(0);
                    continue;
                }
                RunCall::Step { changes } => {
                    for &change in changes {
                        state = with_change(&state, change).expect("a state");
                    }
                    let (number, name, after) = match tickets.deliver(&state) {
                        Step::Refused(refusal) => (refusal, 0, state.clone()),
                        Step::Nothing => (0, 0, state.clone()),
                        Step::Delivered(which, after) => (0, 1 + which as u64, after),
                    };
                    answer.extend([number.into(), name]);
                    after
                }
                RunCall::Inject(injection) => {
                    let (number, after) = taken_or_refused(inject(&state, injection), &state);
                    answer.push(number);
                    answer.extend(Correction::of(injection.correction(&state)).row());
                    after
                }
                RunCall::Return(correction) => {
                    let (number, after) =
                        taken_or_refused(resume(&state, correction.number()), &state);
                    answer.push(number);
                    after
                }
            };
            answer.extend(state.changes_to(&after));
            answer.push(END);
            state = after;
        }
        answer
    }
}

/// The number of an answer, and the state after it: a refusal's is the one before.
fn taken_or_refused(answer: Result<State, u8>, before: &State) -> (u64, State) {
    match answer {
        Ok(after) => (0, after),
        Err(refusal) => (refusal.into(), before.clone()),
    }
}

/// The state with another number at a place, if that is a state.
fn with_change(state: &State, (place, number): (usize, u64)) -> Option<State> {
    let mut numbers = state.numbers();
    *numbers.get_mut(place)? = number;
    State::from_numbers(&numbers)
}

/// The call that numbers begin with, and the numbers after it.
fn first_call(numbers: &[u64]) -> Option<(RunCall, &[u64])> {
    match numbers {
        [0, which, rest @ ..] => {
            let which = Interrupt::ALL.get(usize::try_from(*which).ok()?)?;
            Some((RunCall::Raise(*which), rest))
        }
        [1, rest @ ..] => {
            let mut changes = Vec::new();
            let mut rest = rest;
            loop {
                match rest {
                    [END, after @ ..] => return Some((RunCall::Step { changes }, after)),
                    [place, number, after @ ..] => {
                        changes.push((usize::try_from(*place).ok()?, *number));
                        rest = after;
                    }
                    _ => return None,
                }
            }
        }
        [2, kind @ 0..=4, fault, level, address, write, domain, rest @ ..] => {
            let injection = injection_of([*kind, *fault, *level, *address, *write, *domain])?;
            Some((RunCall::Inject(injection), rest))
        }
        [3, minus @ (0 | 1), size, rest @ ..] => {
            let size = u32::try_from(*size).ok()?;
            Some((RunCall::Return(Correction { minus: *minus == 1, size }), rest))
        }
        _ => None,
    }
}

#[cfg(test)]
mod tests {
    use super::*;
    use crate::cases::state;
    use crate::guest::Fault;
    use crate::random::Random;
    use crate::status::Marks;

    fn step(tickets: &mut Tickets, status: u32) -> Option<Interrupt> {
        match tickets.deliver(&state(status, 0x8000, 0)) {
            Step::Refused(refusal) => panic!("refused {refusal}"),
            Step::Nothing => None,
            Step::Delivered(which, _) => Some(which),
        }
    }

    /// The table of C-19, from A32 and from T32.
    #[test]
    fn the_three_entries_are_the_papers() {
        let expected = [
            (Interrupt::Fiq, 0x11, 0x1c, 30, 4, 0x1c0),
            (Interrupt::Irq, 0x12, 0x18, 16, 4, 0x180),
            (Interrupt::Abort, 0x17, 0x10, 20, 8, 0x180),
        ];
        for (which, mode, vector, link, correction, masks) in expected {
            for t in [0, 0x20] {
                let before = State { vbar: 0x2000, ..state(0x10 + t, 0xffff_fffc, 0) };
                let mut tickets = Tickets::default();
                tickets.raise(which);
                let Step::Delivered(name, after) = tickets.deliver(&before) else {
                    panic!("nothing delivered");
                };
                assert_eq!(name, which);
                assert_eq!(after.status, mode + masks);
                assert_eq!(after.pc, 0x2000 + vector);
                assert_eq!(after.registers[link], 0xffff_fffc_u32.wrapping_add(correction));
                let saved = [after.spsr_fiq, after.spsr_irq, after.spsr_abt];
                let place = [0x11, 0x12, 0x17].iter().position(|&number| number == mode);
                assert_eq!(saved[place.expect("a mode")], before.status);
            }
        }
    }

    #[test]
    fn a_virtual_abort_writes_dfsr_alone() {
        for (ttbcr, dfsr) in [(0, 0x406), (1 << 31, 0x211)] {
            let before = State { ttbcr, ..state(0x10, 0x8000, 0) };
            let mut tickets = Tickets::default();
            tickets.raise(Interrupt::Abort);
            let Step::Delivered(_, after) = tickets.deliver(&before) else {
                panic!("nothing delivered");
            };
            assert_eq!(after.dfsr, dfsr);
            let kept = |state: &State| [state.ifsr, state.dfar, state.ifar];
            assert_eq!(kept(&after), kept(&before));
        }
    }

    #[test]
    fn f_is_set_by_a_fiq_and_kept_by_the_others() {
        for f in [0, 0x40] {
            for which in [Interrupt::Abort, Interrupt::Irq] {
                let before = state(0x10 + f, 0x8000, 0);
                let mut tickets = Tickets::default();
                tickets.raise(which);
                let Step::Delivered(_, after) = tickets.deliver(&before) else {
                    panic!("nothing delivered");
                };
                assert_eq!(after.status & 0x40, f);
            }
        }
    }

    #[test]
    fn the_oldest_that_is_not_masked_comes_first() {
        use Interrupt::{Abort, Fiq, Irq};
        let mut tickets = Tickets::default();
        for which in [Irq, Abort, Fiq, Irq, Abort] {
            tickets.raise(which);
        }
        // I masks the IRQ, which is the oldest.
        assert_eq!(step(&mut tickets, 0x90), Some(Abort));
        tickets.raise(Abort);
        assert_eq!(step(&mut tickets, 0x10), Some(Irq));
        assert_eq!(step(&mut tickets, 0x150), None);
        assert_eq!(step(&mut tickets, 0x10), Some(Fiq));
        assert_eq!(step(&mut tickets, 0x10), Some(Abort));
        assert_eq!(step(&mut tickets, 0x10), None);
    }

    /// 9 before 10, with nothing waiting too; what waits is left.
    #[test]
    fn a_refused_state_is_no_step() {
        let sound = state(0x10, 0x8000, 0);
        let bad_status = State { status: 0x0020_0010, ..sound.clone() };
        let bad_vbar = State { vbar: 0x10, ..sound.clone() };
        let both = State { vbar: 0x10, ..bad_status.clone() };
        let mut tickets = Tickets::default();
        for _ in 0..2 {
            assert_eq!(tickets.deliver(&bad_status), Step::Refused(9));
            assert_eq!(tickets.deliver(&bad_vbar), Step::Refused(10));
            assert_eq!(tickets.deliver(&both), Step::Refused(9));
            tickets.raise(Interrupt::Irq);
        }
        let marked = State { marks: Marks::ALL, ..bad_status };
        assert!(matches!(tickets.deliver(&marked), Step::Delivered(Interrupt::Irq, _)));
        assert_eq!(tickets.deliver(&sound), Step::Nothing);
    }

    /// In random runs: at most two steps that find an interrupt's mask bit 0 pass before
    /// it is delivered, and sometimes two do.
    #[test]
    fn one_that_waits_is_delivered_in_the_third_step_at_the_latest() {
        let mut random = Random::seeded(19);
        let mut most = 0;
        let mut tickets = Tickets::default();
        let mut passed: [Option<u32>; 3] = [None; 3];
        for _ in 0..20_000 {
            if random.below(2) == 0 {
                let which = random.pick(&Interrupt::ALL);
                tickets.raise(which);
                passed[which as usize].get_or_insert(0);
                continue;
            }
            let masks = random.below(8) as u32;
            let delivered = step(&mut tickets, 0x10 + (masks << 6));
            if let Some(which) = delivered {
                let waited = passed[which as usize].take();
                most = most.max(waited.expect("one that was raised"));
            }
            // A is bit 2 of the choice, F bit 0, I bit 1.
            for (which, bit) in Interrupt::ALL.into_iter().zip([2, 0, 1]) {
                if masks >> bit & 1 == 0 {
                    if let Some(count) = &mut passed[which as usize] {
                        *count += 1;
                    }
                }
            }
        }
        assert_eq!(most, 2);
    }

    /// What is equal in two states: all but the saved word and the link of some modes, by
    /// their places, and the fault registers.
    fn but_for(state: &State, places: &[(usize, usize)]) -> Vec<u64> {
        let mut numbers = state.numbers();
        let saved = places.iter().flat_map(|&(link, saved)| [link, saved]);
        for place in saved.chain(38..42) {
            numbers[place] = 0;
        }
        numbers
    }

    /// A return right after each injection, at both ends of PC's range.
    #[test]
    fn a_return_undoes_an_injection() {
        let abort = |address| Injection::PrefetchAbort { fault: Fault::External, address };
        let data =
            Injection::DataAbort { fault: Fault::External, address: 1, write: true, domain: 3 };
        let injections = [
            (Injection::UndefinedAt, (22, 37)),
            (Injection::UndefinedAfter, (22, 37)),
            (Injection::SupervisorCall, (18, 35)),
            (abort(0xffff_ffff), (20, 36)),
            (data, (20, 36)),
        ];
        for (injection, places) in injections {
            for pc in [0, 1, 0x8000, 0xffff_fffd, 0xffff_ffff] {
                for status in [0x10, 0x30, 0x1f, 0xfe1f_ffd3] {
                    let first = state(status, pc, 0x4000_0000);
                    let taken = inject(&first, &injection).expect("taken");
                    let back = resume(&taken, injection.correction(&first)).expect("returned");
                    assert_eq!(but_for(&back, &[places]), but_for(&first, &[places]));
                    let numbers = back.numbers();
                    assert_eq!(numbers[places.0], u64::from(taken.registers[places.0]));
                    assert_eq!(numbers[places.1], u64::from(first.status));
                }
            }
        }
    }

    /// The saved word is that of the second.
    #[test]
    fn two_of_one_mode_do_not_come_back() {
        let first = state(0x10, 0x8000, 0);
        let once = inject(&first, &Injection::UndefinedAt).expect("taken");
        let twice = inject(&once, &Injection::UndefinedAt).expect("taken");
        let back = resume(&twice, 4).expect("returned");
        assert_eq!(resume(&back, 4).expect("returned").status, 0x9b);
    }

    #[test]
    fn a_return_is_refused_by_9_alone() {
        let sound = State { vbar: 1, spsr_irq: 0x0020_0010, ..state(0x12, 0, 0) };
        assert_eq!(resume(&sound, 0), Err(9));
        let marked = State { marks: Marks::ALL, ..sound.clone() };
        assert_eq!(resume(&marked, 0).expect("returned").pc, sound.registers[16]);
        for status in [0x10, 0x1f, 0x16, 0x0100_0012] {
            assert_eq!(resume(&State { status, ..marked.clone() }, 0), Err(9));
        }
        assert_eq!(resume(&State { spsr_irq: 0x1a, ..marked }, 0), Err(9));
    }

    #[test]
    fn a_run_is_parsed_back() {
        let run = Run {
            state: state(0x10, 0x8000, 0),
            calls: vec![
                RunCall::Raise(Interrupt::Irq),
                RunCall::Step { changes: vec![(32, 0x90), (47, 1)] },
                RunCall::Inject(Injection::UndefinedAfter),
                RunCall::Return(Correction { minus: true, size: 2 }),
                RunCall::Step { changes: vec![] },
            ],
        };
        assert_eq!(Run::from_row(&run.row()), Some(run));
    }

    #[test]
    fn what_is_no_run_is_not_parsed() {
        let run = |calls: &[u64]| {
            Run::from_row(&[state(0x10, 0x8000, 0).numbers(), calls.into()].concat())
        };
        assert!(run(&[0, 2]).is_some());
        assert!(run(&[1, 48]).is_some());
        assert!(run(&[1, 0, 0xffff_ffff, 47, 2, 48]).is_some());
        assert!(run(&[2, 2, 0, 0, 0, 0, 0]).is_some());
        assert!(run(&[3, 1, 0xffff_ffff]).is_some());
        let bad: [&[u64]; 19] = [
            &[],
            &[0],
            &[0, 3],
            &[2],
            &[2, 2, 0, 0, 0, 0],
            &[2, 2, 1 << 32, 0, 0, 0, 0],
            &[2, 5, 0, 0, 0, 0, 0],
            &[3, 0],
            &[3, 2, 0],
            &[3, 0, 1 << 32],
            &[4],
            &[1],
            &[1, 0],
            &[1, 0, 0],
            &[1, 0, 1 << 32, 48],
            &[1, 45, 1 << 32, 48],
            &[1, 49, 0, 48],
            &[0, 0, 48],
            &[1, 48, 1],
        ];
        for calls in bad {
            assert!(run(calls).is_none(), "{calls:?}");
        }
        assert!(run(&[0, 1].repeat(24)).is_some());
        assert!(run(&[0, 1].repeat(25)).is_none());
        let long = |changes: usize| run(&[vec![1], [0, 1].repeat(changes), vec![48]].concat());
        assert!(long(103).is_some());
        assert!(long(104).is_none());
        assert!(Run::from_row(&[0; 47]).is_none());
    }
}
