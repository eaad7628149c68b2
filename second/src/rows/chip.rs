//! Questions to the calls on the chip's registers, to the call that makes a saved
//! word of a status word, and to the one that tells why an abort came.

use super::aborts;
use super::samples::{fields_too_large, samples, with, words_with_marks};
use crate::call::Call;
use crate::long::Origin;
use crate::random::Random;

pub fn questions() -> Vec<Call> {
    let written = words_with_marks(41).map(|(marks, word)| Call::ToSpsr { marks, word });
    let mut questions: Vec<Call> = written.collect();
    questions.extend(editions());
    questions.extend(marks());
    questions.extend(who_ran());
    for origin in [Origin::AArch32, Origin::AArch64] {
        questions.extend(causes(origin));
    }
    questions
}

/// Words of a register: none and all, each field of four bits at each of its values
/// beside zeros and beside ones, each bit alone, and random ones.
fn words(random: &mut Random) -> Vec<u64> {
    let mut words = vec![0, u64::MAX];
    for low in (0..64).step_by(4) {
        for value in 0..16 {
            words.push(value << low);
            words.push(!(15 << low) | value << low);
        }
    }
    words.extend((0..64).map(|bit| 1 << bit));
    words.extend((0..20).map(|_| random.next()));
    words
}

/// Each register's words beside zeros and beside ones in the other two; and random
/// words in all three.
fn three(random: &mut Random) -> Vec<[u64; 3]> {
    let mut questions = Vec::new();
    for place in 0..3 {
        for word in words(random) {
            for others in [0, u64::MAX] {
                let mut registers = [others; 3];
                registers[place] = word;
                questions.push(registers);
            }
        }
    }
    questions.extend((0..200).map(|_| std::array::from_fn(|_| random.next())));
    questions
}

fn editions() -> Vec<Call> {
    let mut random = Random::seeded(42);
    let mut questions: Vec<Call> = three(&mut random)
        .into_iter()
        .map(|[pfr0, mmfr0, mmfr1]| Call::Edition { pfr0, mmfr0, mmfr1 })
        .collect();
    // TGran4, TGran16 and PARange together, at every value of each two.
    for first in 0..16 {
        for second in 0..16 {
            for mmfr0 in [first << 28 | second << 20, first << 28 | second, first << 20 | second] {
                questions.push(Call::Edition { pfr0: 0, mmfr0, mmfr1: 0 });
            }
        }
    }
    // Every choice of the four features.
    for choice in 0..16_u64 {
        let has = |place: u32| choice >> place & 1;
        let [ras, lpa2, hafdbs, lpa] = [0, 1, 2, 3].map(has);
        let mmfr0 = (lpa2 << 28) | (lpa * 6);
        questions.push(Call::Edition { pfr0: ras << 28, mmfr0, mmfr1: hafdbs });
    }
    questions.extend(words(&mut random).into_iter().map(|pfr0| Call::ShortEdition { pfr0 }));
    questions
}

fn marks() -> Vec<Call> {
    let mut random = Random::seeded(43);
    three(&mut random)
        .into_iter()
        .map(|[mmfr3, pfr2, pfr0]| Call::MarksOf { mmfr3, pfr2, pfr0 })
        .collect()
}

/// Both bits at every choice, beside zeros and beside ones; and each bit of either
/// register alone and as the only one that is 0, at every choice of the other's.
fn who_ran() -> Vec<Call> {
    let mut questions = Vec::new();
    for bit in 0..64 {
        for word in [1 << bit, !(1 << bit)] {
            for hcr in [0, 1 << 31, !(1 << 31), u64::MAX] {
                questions.push(Call::Ran { spsr: word, hcr });
            }
            for spsr in [0, 1 << 4, !(1 << 4), u64::MAX] {
                questions.push(Call::Ran { spsr, hcr: word });
            }
        }
    }
    questions
}

/// Every code of each abort, with every choice of the fields that go by the code; the
/// samples of every class; and fields that are too large.
fn causes(origin: Origin) -> Vec<Call> {
    let mut records = aborts::fault_codes();
    records.extend(aborts::fault_fields());
    for abort in aborts::fault_codes() {
        records.push(with(&abort, "S1PTW", 1));
    }
    for sample in samples(origin) {
        records.extend(fields_too_large(&sample));
        records.push(sample);
    }
    records.into_iter().map(|record| Call::Cause { origin, record }).collect()
}
