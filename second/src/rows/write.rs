//! Questions to the writer, and to the writer and a reader one after the
//! other.

use super::aborts::{fault_codes, fault_fields, random_abort};
use super::samples::{
    calls, errors, field_limits, fields_too_large, random_record, samples, tied_fields, with,
};
use super::{aborts, seed, Turn};
use crate::call::Call;
use crate::form::Record;
use crate::long::Origin;
use crate::random::Random;

pub fn questions(origin: Origin) -> Vec<Call> {
    let mut questions = editions_that_do_not_exist(origin);
    questions.extend(every_class(origin));
    questions.extend(il_before_fields(origin));
    questions.extend(records_at_the_edges(origin));
    questions.extend(carried(origin));
    questions.extend(random_records(origin));
    questions
}

fn no_editions(origin: Origin) -> [u32; 4] {
    let editions = origin.form().editions;
    [editions, editions + 1, 0x100, 0xffff_ffff]
}

/// The last record names a class that its kind lacks.
fn editions_that_do_not_exist(origin: Origin) -> Vec<Call> {
    let mut records: Vec<Record> = samples(origin).collect();
    records.push(Record { class: 0x24, ..with(&records[0], "IL", 0) });
    let ask = |record: &Record| {
        let record = record.clone();
        no_editions(origin).map(|edition| Call::Write { origin, edition, record: record.clone() })
    };
    records.iter().flat_map(ask).collect()
}

/// Every class and some larger numbers for a kind that holds its class, with
/// either IL: a class that the kind or the origin lacks comes before an IL that
/// must be 1.
fn every_class(origin: Origin) -> Vec<Call> {
    let mut editions = Turn::over(origin.form().editions);
    let mut kinds: Vec<Record> =
        samples(Origin::AArch32).filter(|sample| sample.kind.holds_class()).collect();
    kinds.sort_by_key(|sample| sample.kind.number);
    kinds.dedup_by_key(|sample| sample.kind.number);
    let classes = (0..64).chain([0x40, 0x43, 0x52, 0x100, 0x8000_0003, 0xffff_ffff]);
    let mut questions = Vec::new();
    for class in classes {
        for (sample, il) in kinds.iter().zip([class / 2 % 2, 0, 1, 0, 1]) {
            let record = Record { class, ..with(sample, "IL", il) };
            questions.push(Call::Write { origin, edition: editions.next(), record });
        }
    }
    questions
}

/// The other origin's samples, with either IL: where this one lacks the class that
/// comes before IL.
pub fn records_of_the_other(origin: Origin) -> Vec<Call> {
    let other = match origin {
        Origin::AArch32 => Origin::AArch64,
        Origin::AArch64 => Origin::AArch32,
    };
    let mut editions = Turn::over(origin.form().editions);
    let mut questions = Vec::new();
    for sample in samples(other) {
        for il in [0, 1] {
            let record = with(&sample, "IL", il);
            questions.push(Call::Write { origin, edition: editions.next(), record });
        }
    }
    questions
}

/// Aborts with IL 0: where it must be 1 that comes before a field that is
/// wrong or too large.
fn il_before_fields(origin: Origin) -> Vec<Call> {
    let mut editions = Turn::over(origin.form().editions);
    let mut questions = Vec::new();
    for sample in samples(origin).filter(|sample| sample.kind.has("code")) {
        let sample = with(&sample, "IL", 0);
        for record in field_limits(&sample).into_iter().chain(fields_too_large(&sample)) {
            questions.push(Call::Write { origin, edition: editions.next(), record });
        }
    }
    questions
}

/// As in reading, and with fields that are too large.
fn records_at_the_edges(origin: Origin) -> Vec<Call> {
    let mut questions = Vec::new();
    for record in fault_codes().into_iter().chain(fault_fields()).chain(errors()) {
        let write = |edition| Call::Write { origin, edition, record: record.clone() };
        questions.extend([0, 1].map(write));
    }
    let mut editions = Turn::over(origin.form().editions);
    let limits = samples(origin).flat_map(|sample| field_limits(&sample));
    let large = samples(origin).flat_map(|sample| fields_too_large(&sample));
    let tied = tied_fields(origin).into_iter().chain(aborts::tied_fields(origin));
    let records = limits.chain(large).chain(calls(origin.form())).chain(tied);
    questions.extend(records.map(|record| Call::Write {
        origin,
        edition: editions.next(),
        record,
    }));
    questions
}

/// Two different editions: every fault code from one edition to the next and
/// back, the fields that depend on them, and every sample.
fn carried(origin: Origin) -> Vec<Call> {
    let last = origin.form().editions;
    let mut writers = Turn::over(last);
    let mut questions = Vec::new();
    let mut carry = |record: &Record, step: u32| {
        let writer = writers.next();
        let reader = (writer + step) % last;
        for (writer, reader) in [(writer, reader), (reader, writer)] {
            questions.push(Call::Carry { origin, writer, reader, record: record.clone() });
        }
    };
    for (step, record) in (0..).zip(fault_codes()) {
        carry(&record, 1 + step % (last - 1));
        carry(&record, 1 + (step + 3) % (last - 1));
    }
    for (step, record) in (0..).zip(fault_fields().into_iter().filter(names_external_abort)) {
        carry(&record, 1 + 2 * step % (last - 1));
    }
    for record in samples(origin).chain(errors().into_iter().filter(has_aet)) {
        carry(&record, 1);
    }
    let record = samples(origin).last().expect("a sample");
    for edition in no_editions(origin) {
        for (writer, reader) in [(edition, 1), (1, edition), (edition, edition)] {
            questions.push(Call::Carry { origin, writer, reader, record: record.clone() });
        }
    }
    questions
}

fn has_aet(record: &Record) -> bool {
    record.get("AET") != Some(0)
}

fn names_external_abort(record: &Record) -> bool {
    record.get("code") == Some(0x10)
}

fn random_records(origin: Origin) -> Vec<Call> {
    let form = origin.form();
    let mut random = Random::seeded(seed(origin, 2));
    let mut questions = Vec::new();
    for _ in 0..100 {
        let record = random_record(&mut random, form);
        let edition = random.below(form.editions.into()) as u32;
        questions.push(Call::Write { origin, edition, record });
        let record = random_abort(&mut random);
        let [writer, reader] = [(); 2].map(|()| random.below(form.editions.into()) as u32);
        questions.push(Call::Write { origin, edition: writer, record: record.clone() });
        questions.push(Call::Carry { origin, writer, reader, record });
    }
    questions
}
