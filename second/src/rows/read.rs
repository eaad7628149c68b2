//! Questions to the reader: an edition and a word.

use super::aborts::{fault_codes, fault_fields, random_abort};
use super::samples::{errors, field_limits, random_record, samples, tied_fields, word};
use super::{aborts, seed, Turn};
use crate::call::Call;
use crate::long::Origin;
use crate::random::Random;

pub fn questions(origin: Origin) -> Vec<Call> {
    let mut questions = order_of_tests(origin);
    questions.extend(every_class(origin));
    questions.extend(single_bits(origin));
    questions.extend(records_at_the_edges(origin));
    questions.extend(random_words(origin));
    questions
}

/// Words that fail test 2, 3, 4, 5 or 6, or none, with every later test that
/// can fail beside it, in editions that exist and that don't.
fn order_of_tests(origin: Origin) -> Vec<Call> {
    let words = [
        0x9200_0005,
        0x1_9200_0005,
        0xffff_ffff_ffff_ffff,
        0x5a00_0000,
        0x58ff_ffff,
        0x0000_0000,
        0x0000_0001,
        0x9000_0810,
        0x9200_0810,
        0x9200_0018,
        0x9200_001b,
        0x9200_0031,
    ];
    let last = origin.form().editions - 1;
    let editions = [0, 1, 6, last, last + 1, last + 2, 0xff, 0x100, 0x8000_0000, 0xffff_ffff];
    let ask = |edition| words.into_iter().map(move |word| Call::Read { origin, edition, word });
    editions.into_iter().flat_map(ask).collect()
}

/// All 64 classes with either IL and an ISS of zeros or ones.
fn every_class(origin: Origin) -> Vec<Call> {
    let mut editions = Turn::over(origin.form().editions);
    let mut questions = Vec::new();
    for top in 0..128 {
        for iss in [0, 0x01ff_ffff] {
            let word = (top << 25) + iss;
            questions.push(Call::Read { origin, edition: editions.next(), word });
        }
    }
    questions
}

/// Each sample's word with each bit turned over: unnamed bits, bits above the
/// word, and other classes.
fn single_bits(origin: Origin) -> Vec<Call> {
    let mut editions = Turn::over(origin.form().editions);
    let mut questions = Vec::new();
    for sample in samples(origin) {
        let word = word(&sample);
        let turned = (0..34).chain([62, 63]).map(|bit| word ^ 1 << bit);
        for word in turned.chain([word]) {
            questions.push(Call::Read { origin, edition: editions.next(), word });
        }
    }
    questions
}

/// Fault codes in every edition. The fields that depend on them without and
/// with RAS: one of the two lacks what not every edition has, and its answer
/// names those that have it. The other edges by turns. The codes are no other
/// from AArch64: there four editions are enough.
fn records_at_the_edges(origin: Origin) -> Vec<Call> {
    let form = origin.form();
    let read = |edition, word| Call::Read { origin, edition, word };
    let of_codes: Vec<u32> = match origin {
        Origin::AArch32 => (0..form.editions).collect(),
        Origin::AArch64 => vec![0, 3, 6, form.editions - 1],
    };
    let mut questions = Vec::new();
    for record in fault_codes() {
        let word = word(&record);
        questions.extend(of_codes.iter().map(|&edition| read(edition, word)));
    }
    for record in fault_fields().into_iter().chain(errors()) {
        let word = word(&record);
        questions.extend([0, 1].map(|edition| read(edition, word)));
    }
    let mut editions = Turn::over(form.editions);
    let limits = samples(origin).flat_map(|sample| field_limits(&sample));
    let tied = tied_fields(origin).into_iter().chain(aborts::tied_fields(origin));
    questions.extend(limits.chain(tied).map(|record| read(editions.next(), word(&record))));
    questions
}

fn random_words(origin: Origin) -> Vec<Call> {
    let form = origin.form();
    let mut random = Random::seeded(seed(origin, 1));
    let classes: Vec<u8> = form.every_class().collect();
    let mut questions = Vec::new();
    for _ in 0..100 {
        let class = u64::from(random.pick(&classes)) << 26;
        let record = word(&random_record(&mut random, form));
        let abort = word(&random_abort(&mut random));
        let flipped = abort ^ 1 << random.below(26);
        for word in [random.next(), class + random.below(1 << 26), record, abort, flipped] {
            let edition = random.below(form.editions.into()) as u32;
            questions.push(Call::Read { origin, edition, word });
        }
    }
    questions
}

#[cfg(test)]
mod tests {
    use super::*;
    use crate::catalogue::Catalogue;
    use crate::long::LONG;
    use crate::ordinary;
    use crate::syndrome::{read, word_to_look_up};

    #[test]
    fn the_ordinary_reader_gives_the_same_answers() {
        let questions = questions(Origin::AArch32);
        let words = questions.iter().filter_map(|call| match *call {
            Call::Read { edition, word, .. } => Some(word_to_look_up(&LONG, edition, word).ok()?.1),
            _ => None,
        });
        let catalogue = Catalogue::of(&LONG, words);
        for call in questions {
            let Call::Read { edition, word, .. } = call else { continue };
            let answer = read(&catalogue, edition, word).map(|_| ());
            assert_eq!(ordinary::read(edition, word).map(|_| ()), answer, "{edition} {word:x}");
        }
    }
}
