//! Questions to the reader and the writer of the short form, and to the change
//! of a short record to a long one.

use super::samples::{calls, field_limits, fields_too_large, random_record, sweep, with};
use crate::call::Call;
use crate::form::Record;
use crate::random::Random;
use crate::short::SHORT;
use crate::status::MODES;

/// At least one ordinary record of each class, as rows.
const SAMPLES: [&[u64]; 24] = [
    &[0, 0x00, 1],
    &[0, 0x0e, 1],
    &[0, 0x22, 1],
    &[0, 0x22, 0],
    &[1, 1, 1, 0xe, 1],
    &[2, 0x03, 1, 1, 0xe, 0, 0, 0, 0, 0, 1],
    &[2, 0x05, 1, 0, 5, 7, 7, 0xf, 0xe, 0xf, 1],
    &[2, 0x08, 1, 1, 0, 0, 7, 9, 0xd, 0, 1],
    &[3, 0x04, 1, 1, 0xe, 0xf, 0xd, 0xe, 0xf, 0],
    &[3, 0x0c, 1, 0, 0xf, 0, 8, 0xc, 0, 1],
    &[4, 1, 1, 0xe, 0xff, 0xe, 1, 3, 0],
    &[4, 1, 0, 0xf, 0x5a, 0xf, 0, 4, 1],
    &[5, 1, 1, 0xe, 0, 0],
    &[5, 1, 0, 0xf, 1, 0xa],
    &[6, 0x11, 0, 0xff],
    &[6, 0x12, 1, 0xffff],
    &[7, 1, 1, 0xe, 1],
    &[8, 1, 0, 0, 0, 0x05],
    &[8, 1, 1, 1, 0, 0x10],
    &[9, 1, 0, 0, 0, 0, 0, 0, 0, 0, 0, 0, 0x05],
    &[9, 1, 0, 0, 0, 0, 0, 0, 0, 1, 1, 1, 0x0f],
    &[9, 1, 1, 2, 0, 3, 0, 0, 0, 0, 0, 1, 0x05],
    &[9, 0, 1, 1, 1, 0xe, 1, 0, 0, 0, 0, 0, 0x07],
    &[9, 1, 0, 0, 0, 0, 0, 3, 1, 0, 0, 0, 0x11],
];

fn record(row: &[u64]) -> Record {
    Record::of(&SHORT, row).expect("a short record")
}

fn samples() -> impl Iterator<Item = Record> {
    SAMPLES.iter().map(|row| record(row))
}

pub fn questions() -> Vec<Call> {
    let mut questions = words();
    questions.extend(records());
    questions.extend(changes());
    questions
}

/// A word in both editions.
fn read(word: u32) -> impl Iterator<Item = Call> {
    [0, 1].into_iter().map(move |edition| Call::ShortRead { edition, word })
}

/// Records whose fields fit, around the edges of the rules.
fn edges() -> Vec<Record> {
    let mut records: Vec<Record> = samples().flat_map(|sample| field_limits(&sample)).collect();
    for row in
        [&[1, 1, 1, 0xe, 1][..], &[2, 0x03, 1, 1, 0xe, 0, 0, 0, 0, 0, 1], &[5, 1, 1, 0xe, 0, 0]]
    {
        records.extend(sweep(&record(row), "CV COND"));
    }
    records.extend(sweep(&record(&[4, 1, 1, 0xe, 0x81, 0xb, 1, 0, 0]), "AM Direction"));
    records.extend(sweep(&record(&[5, 1, 1, 0xe, 0, 0]), "TA coproc"));
    records.extend(sweep(&record(&[7, 1, 0, 0, 0]), "CCKNOWNPASS CV COND"));
    records.extend(calls(&SHORT));
    for sample in samples().filter(|sample| sample.kind.has("Direction")) {
        records.extend(sweep(&sample, "IL Direction"));
    }
    let fetch = record(&[8, 1, 0, 0, 0, 0x05]);
    let plain = record(&[9, 1, 0, 0, 0, 0, 0, 0, 0, 0, 0, 0, 0x05]);
    let valid = record(&[9, 1, 1, 2, 0, 3, 0, 0, 0, 0, 0, 0, 0x05]);
    for abort in [&fetch, &plain, &valid] {
        records.extend(sweep(abort, "code"));
        for name in ["FnV", "EA", "S1PTW", "WnR", "CM", "AET"] {
            if abort.kind.has(name) {
                records.extend(sweep(&with(abort, name, 1), "code"));
            }
        }
    }
    records.extend(sweep(&with(&with(&plain, "CM", 1), "WnR", 1), "code"));
    records.extend(sweep(&with(&plain, "AET", 2), "code"));
    for abort in [&plain, &valid] {
        records.extend(sweep(abort, "ISV SAS SSE WnR"));
        records.extend(sweep(abort, "SRT IL"));
        records.extend(sweep(abort, "ISV AR CM WnR S1PTW"));
    }
    for code in [0x10, 0x11, 0x19] {
        records.extend(sweep(&with(&plain, "code", code), "AET WnR"));
    }
    records
}

fn words() -> Vec<Call> {
    let mut questions = Vec::new();
    for top in 0..128 {
        questions.extend([0, 0x01ff_ffff].map(|iss| {
            let word = (top << 25) + iss;
            Call::ShortRead { edition: top % 2, word }
        }));
    }
    for word in samples().filter_map(|sample| sample.word()) {
        for edition in [2, 3, 0x100, 0xffff_ffff] {
            questions.push(Call::ShortRead { edition, word });
        }
        questions
            .extend((0..32).map(|bit| Call::ShortRead { edition: bit % 2, word: word ^ 1 << bit }));
        questions.extend(read(word));
    }
    questions.extend(edges().iter().filter_map(Record::word).flat_map(read));
    let mut random = Random::seeded(7);
    let records = (0..100).filter_map(|_| random_record(&mut random, &SHORT).word());
    questions.extend(records.collect::<Vec<_>>().into_iter().flat_map(read));
    questions
}

fn records() -> Vec<Call> {
    let large = samples().flat_map(|sample| fields_too_large(&sample));
    let foreign = [0x03, 0x24, 0x40, 0x8000_0000].into_iter().flat_map(|class| {
        samples()
            .filter(|sample| sample.kind.holds_class())
            .map(move |sample| Record { class, ..with(&sample, "IL", 0) })
    });
    let no_edition = samples().map(|record| Call::ShortWrite { edition: 2, record });
    let both =
        |record: Record| [0, 1].map(|edition| Call::ShortWrite { edition, record: record.clone() });
    let records = edges().into_iter().chain(large).chain(foreign);
    no_edition.chain(records.flat_map(both)).collect()
}

/// Every register in every mode, every number for the mode, and records at the
/// edges.
fn changes() -> Vec<Call> {
    let mut questions = Vec::new();
    for mode in (0..0x24).chain([0x30, 0x50, 0x110, 0x8000_0010, 0xffff_ffff]) {
        for row in [&[0, 0x22, 0][..], &[8, 1, 0, 0, 0, 0x22], &[0, 0x24, 1]] {
            questions.push(Call::Widen { mode, record: record(row) });
        }
    }
    for mode in MODES.map(u32::from) {
        for (row, name) in [
            (&[2, 0x05, 1, 1, 0xe, 1, 2, 3, 0, 4, 1][..], "Rt"),
            (&[3, 0x04, 1, 1, 0xe, 1, 0, 2, 3, 1], "Rt2"),
            (&[3, 0x04, 1, 1, 0xe, 1, 2, 0, 3, 0], "Rt"),
            (&[4, 1, 1, 0xe, 0x7f, 0, 1, 2, 1], "Rn"),
            (&[4, 1, 1, 0xe, 0x7f, 0, 1, 6, 1], "Rn"),
            (&[9, 1, 1, 0, 1, 0, 1, 0, 0, 0, 0, 0, 0x06], "SRT"),
        ] {
            let records = sweep(&record(row), name);
            questions.extend(records.into_iter().map(|record| Call::Widen { mode, record }));
        }
    }
    let large = samples().flat_map(|sample| fields_too_large(&sample));
    for (turn, record) in edges().into_iter().chain(samples()).chain(large).enumerate() {
        let mode = MODES[turn % MODES.len()].into();
        questions.push(Call::Widen { mode, record });
    }
    questions
}
