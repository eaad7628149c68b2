//! Questions to the queue of waiting interrupts: whole runs, which start with nothing
//! waiting.

use super::Turn;
use crate::call::Call;
use crate::cases::state;
use crate::guest::{Interrupt, State};
use crate::pending::{Run, RunCall};
use crate::random::Random;
use crate::status::{Marks, MODES};
use Interrupt::{Abort, Fiq, Irq};

pub fn questions() -> Vec<Call> {
    let mut runs = orders_and_masks();
    runs.extend(raised_again());
    runs.extend(third_step());
    runs.extend(refused_steps());
    runs.extend(entries());
    runs.extend(status_words());
    runs.extend(program_counters());
    runs.extend(control_bits());
    runs.extend(every_mark());
    runs.extend(random_runs());
    runs.into_iter().map(|run| Call::Run { run }).collect()
}

/// Places of numbers in a state.
const PC: usize = 31;
const STATUS: usize = 32;
const VBAR: usize = 43;
const PAN: usize = 45;

/// TTBCR for the long format.
const LONG: u32 = 1 << 31;

/// The bits of the status word that mask the three, A, F and I.
const MASKS: [u32; 3] = [1 << 8, 1 << 6, 1 << 7];

/// User mode, with the mask bits that a choice names: bit 0 A, bit 1 F, bit 2 I.
fn masked(choice: u32) -> u32 {
    let bits = (0..).zip(MASKS).filter(|(bit, _)| choice >> bit & 1 == 1);
    0x10 + bits.map(|(_, mask)| mask).sum::<u32>()
}

/// A state of small numbers that all differ, in user mode, without marks.
fn plain_state() -> State {
    state(0x10, 0x8000, 0)
}

fn raise(which: Interrupt) -> RunCall {
    RunCall::Raise(which)
}

/// A step on the state as it stands.
fn step() -> RunCall {
    RunCall::Step { changes: vec![] }
}

/// A step with another status word.
fn step_in(status: u32) -> RunCall {
    RunCall::Step { changes: vec![(STATUS, status.into())] }
}

/// Steps with nothing masked until nothing waits, and one more.
fn emptied() -> Vec<RunCall> {
    vec![step_in(0x10); 4]
}

fn run(calls: Vec<RunCall>) -> Run {
    Run { state: plain_state(), calls }
}

/// All sixteen orders in which different ones may be raised.
fn orders() -> Vec<Vec<Interrupt>> {
    let mut orders = vec![vec![]];
    let mut longest = orders.clone();
    for _ in 0..3 {
        let longer = |order: &Vec<Interrupt>| {
            let left = Interrupt::ALL.into_iter().filter(|which| !order.contains(which));
            left.map(|which| [order.clone(), vec![which]].concat()).collect::<Vec<_>>()
        };
        longest = longest.iter().flat_map(longer).collect();
        orders.extend(longest.clone());
    }
    orders
}

/// Every order with every choice of the mask bits; then what is left, in its order.
fn orders_and_masks() -> Vec<Run> {
    let mut runs = Vec::new();
    for order in orders() {
        for choice in 0..8 {
            let mut calls: Vec<RunCall> = order.iter().copied().map(raise).collect();
            calls.push(step_in(masked(choice)));
            calls.extend(emptied());
            runs.push(run(calls));
        }
    }
    runs
}

/// Every order, and one of them or another raised again: at once, and after a step.
fn raised_again() -> Vec<Run> {
    let mut runs = Vec::new();
    for order in orders() {
        for again in Interrupt::ALL {
            let first: Vec<RunCall> = order.iter().copied().map(raise).collect();
            runs.push(run([first.clone(), vec![raise(again)], emptied()].concat()));
            let calls = [first, vec![step_in(0x10), raise(again), raise(again)], emptied()];
            runs.push(run(calls.concat()));
        }
    }
    runs
}

/// The last of three is delivered in the third step that finds its mask bit 0, whatever
/// is raised; steps that are refused, or find the bit 1, come between.
fn third_step() -> Vec<Run> {
    let mut runs = Vec::new();
    for order in orders().into_iter().filter(|order| order.len() == 3) {
        let [first, second, last] = [order[0], order[1], order[2]];
        let mask = |which| masked(1 << which as u32);
        let refused = RunCall::Step { changes: vec![(STATUS, 0x16)] };
        let raised = order.iter().copied().map(raise).collect::<Vec<_>>();
        let between = [
            vec![],
            vec![raise(last)],
            vec![refused.clone()],
            vec![step_in(mask(last)), raise(first), raise(second)],
            vec![step_in(masked(7)), refused, step_in(mask(last))],
        ];
        for between in between {
            let calls = [
                raised.clone(),
                between.clone(),
                vec![step_in(0x10), raise(first)],
                between,
                vec![step_in(0x10), raise(second)],
                vec![step_in(0x10); 4],
            ];
            runs.push(run(calls.concat()));
        }
        // The others are masked: the last comes first.
        let calls = vec![step_in(masked(7 ^ (1 << last as u32)))];
        runs.push(run([raised, calls, emptied()].concat()));
    }
    runs
}

/// States that are refused 9, 10 and both, with each number of those that wait, and
/// with everything masked or nothing.
fn refused_steps() -> Vec<Run> {
    let mut runs = Vec::new();
    let orders = [vec![], vec![Irq], vec![Fiq, Abort], vec![Irq, Fiq, Abort]];
    for (turn, order) in (0..).zip(&orders) {
        for masks in [0, 0x1c0] {
            for fails in 1..4u64 {
                let status = 0x10 + masks + ((fails & 1) << (21 + turn));
                let vbar = 0x1000 + ((fails >> 1) << turn);
                let refused = RunCall::Step { changes: vec![(STATUS, status), (VBAR, vbar)] };
                let sound = RunCall::Step { changes: vec![(STATUS, 0x10 + masks), (VBAR, 0x1000)] };
                let raised = order.iter().copied().map(raise).collect();
                let calls = [raised, vec![refused.clone(), sound, refused], emptied()];
                let mut calls = calls.concat();
                // VBAR is mended for the last steps.
                calls.push(RunCall::Step { changes: vec![(VBAR, 0x1000)] });
                calls.extend(emptied());
                runs.push(run(calls));
            }
        }
    }
    for bit in 0..32 {
        let state = State { vbar: 1 << bit, ..plain_state() };
        runs.push(Run { state, calls: vec![raise(Interrupt::ALL[bit % 3]), step(), step()] });
    }
    runs
}

/// A run of one interrupt, and a second step.
fn entry(which: Interrupt, state: State) -> Run {
    Run { state, calls: vec![raise(which), step(), step()] }
}

/// Each of the three with each choice of T, of SCTLR's TE, EE and V, of the format and
/// of F where it doesn't mask, from every mode by turns; and one inside another.
fn entries() -> Vec<Run> {
    let mut runs = Vec::new();
    let mut modes = Turn::over(MODES.len() as u32);
    for which in Interrupt::ALL {
        for choice in 0..64u32 {
            let bit = |at: u32| choice >> at & 1;
            let f = if which == Fiq { 0 } else { bit(5) };
            let mode = u32::from(MODES[modes.next() as usize]);
            let state = State {
                status: mode + (bit(0) << 5) + (f << 6),
                sctlr: (bit(1) << 30) + (bit(2) << 25) + (bit(3) << 13),
                ttbcr: bit(4) * LONG,
                ..plain_state()
            };
            runs.push(entry(which, state));
        }
    }
    // The state is handed on from step to step, with the masks that entry set.
    for order in orders() {
        for second in Interrupt::ALL {
            let mut calls: Vec<RunCall> = order.iter().copied().map(raise).collect();
            calls.extend([step(), step(), raise(second), step(), step_in(0x11), step()]);
            runs.push(run(calls));
        }
    }
    runs
}

/// All modes, and each bit of the word alone and as the only one that is 0: what is
/// delivered of three, and the state after it.
fn status_words() -> Vec<Run> {
    let words = (0..32)
        .chain((5..32).map(|bit| 0x10 | 1 << bit))
        .chain((5..32).map(|bit| 0xfe1f_fe3f & !(1 << bit)))
        .chain(MASKS.map(|mask| 0xfe1f_ffff & !mask));
    let mut turn = Turn::over(6);
    let mut runs = Vec::new();
    for status in words {
        let orders = [[Abort, Fiq, Irq], [Fiq, Irq, Abort], [Irq, Abort, Fiq]];
        let order = orders[turn.next() as usize % 3];
        let calls = [order.map(raise).to_vec(), vec![step()]].concat();
        runs.push(Run { state: State { status, ..plain_state() }, calls });
    }
    runs
}

/// PC at both ends of its range and where the sign turns, in both instruction sets.
fn program_counters() -> Vec<Run> {
    let near_0 = (0..9).map(|distance: u32| distance.wrapping_neg());
    let places = near_0.chain([1, 4, 0x7fff_fff8, 0x7fff_fffc, 0x8000_0000, 0xffff_fff4]);
    let mut runs = Vec::new();
    for pc in places {
        for t in [0, 0x20] {
            let steps = Interrupt::ALL.into_iter().flat_map(|which| {
                let changes = vec![(PC, pc.into()), (STATUS, 0x1f + t)];
                [raise(which), RunCall::Step { changes }]
            });
            runs.push(run(steps.collect()));
        }
    }
    runs
}

/// Each bit of SCTLR and of TTBCR alone and then all of them.
fn control_bits() -> Vec<Run> {
    let mut turn = Turn::over(3);
    let mut runs = Vec::new();
    for bits in (0..32).map(|bit| 1 << bit).chain([!0]) {
        let which = Interrupt::ALL[turn.next() as usize];
        runs.push(entry(which, State { sctlr: bits, ..plain_state() }));
        for which in [which, Abort] {
            runs.push(entry(which, State { ttbcr: bits, ..plain_state() }));
        }
    }
    runs
}

/// Every choice of the marks and of bits 24:21 that they allow, with every choice of
/// SCTLR's DSSBS and SPAN; and a mark that comes late.
fn every_mark() -> Vec<Run> {
    let mut turn = Turn::over(3);
    let mut runs = Vec::new();
    for marks in Marks::every() {
        for bits in 0..8u32 {
            let allowed = [marks.dit, marks.pan, marks.ssbs];
            let lacking = (0..).zip(allowed).any(|(bit, mark)| bits >> bit & 1 == 1 && !mark);
            let status = 0x10 + (bits << 21);
            let choices = if lacking { 0..1u32 } else { 0..4 };
            for choice in choices {
                let sctlr = ((choice & 1) << 31) + ((choice >> 1) << 23);
                let state = State { status, sctlr, marks, ..plain_state() };
                runs.push(entry(Interrupt::ALL[turn.next() as usize], state));
            }
        }
    }
    let state = State { status: 0x0040_0010, ..plain_state() };
    let late = RunCall::Step { changes: vec![(PAN, 1)] };
    runs.push(Run { state, calls: vec![raise(Irq), step(), late] });
    runs
}

/// States of random words, and random calls: raises, steps whose mask bits are random,
/// and some on states that are refused.
fn random_runs() -> Vec<Run> {
    let mut random = Random::seeded(19);
    let mut runs = Vec::new();
    for turn in 0..60 {
        let mut numbers: Vec<u64> = (0..45).map(|_| random.word().into()).collect();
        numbers[VBAR] = numbers[VBAR] / 32 * 32;
        numbers.extend((0..3).map(|_| if turn < 20 { 0 } else { random.below(2) }));
        let status = |random: &mut Random| -> u64 {
            let bits = if random.below(8) == 0 { 0 } else { 0x01e0_0000 };
            let mode: u32 = random.pick(&MODES).into();
            (random.word() & !bits & !0x1f | mode).into()
        };
        numbers[STATUS] = status(&mut random);
        let state = State::from_numbers(&numbers).expect("a state");
        let calls = (0..16 + random.below(9)).map(|_| match random.below(8) {
            0..4 => raise(random.pick(&Interrupt::ALL)),
            4 => step(),
            5 => RunCall::Step { changes: vec![(VBAR, u64::from(random.word()) & !0x1e)] },
            _ => {
                let mended = (VBAR, u64::from(random.word()) & !0x1f);
                RunCall::Step { changes: vec![(STATUS, status(&mut random)), mended] }
            }
        });
        runs.push(Run { state, calls: calls.collect() });
    }
    runs
}

#[cfg(test)]
mod tests {
    use super::*;
    use crate::call::{answers, lines};
    use std::collections::BTreeSet;

    /// Every row is one, and gives back the call that it was made of.
    #[test]
    fn every_run_is_a_row() {
        for question in questions() {
            let line = question.line();
            let call = Call::parse(line.as_bytes()).expect("a row");
            assert_eq!(call.line(), line);
        }
    }

    /// What each step of the questions answers, its number and its name.
    #[test]
    fn steps_give_every_answer_that_they_can_give() {
        let questions = questions();
        let answers = answers(&questions.iter().cloned().map(Some).collect::<Vec<_>>());
        let mut given = BTreeSet::new();
        for (question, answer) in questions.iter().zip(lines(&answers)) {
            let Call::Run { run, .. } = question else { panic!("a run") };
            let answer = String::from_utf8_lossy(answer);
            assert!(answer.len() < 1000, "{}", answer.len());
            let mut numbers = answer.split(' ');
            for call in &run.calls {
                let number = numbers.next().expect("a number").to_string();
                if let RunCall::Step { .. } = call {
                    let name = numbers.next().expect("a name").to_string();
                    while numbers.next().expect("a place") != "30" {
                        numbers.next().expect("a number");
                    }
                    given.insert(format!("{number} {name}"));
                }
            }
            assert_eq!(numbers.next(), None);
        }
        let expected = ["0 0", "0 1", "0 2", "0 3", "9 0", "a 0"];
        assert_eq!(given, expected.map(String::from).into());
    }
}
