//! Records and status words around the edges of the rules.

use crate::form::{Form, Kind, Record};
use crate::long::{Origin, LONG};
use crate::random::Random;
use crate::status::{Marks, MODES};

/// At least one ordinary record of each class of AArch32, by its words. Some of the
/// aborts are had by some editions only.
const SAMPLES: [&[u64]; 40] = [
    &[0, 0x00, 1],
    &[0, 0x0e, 1],
    &[0, 0x22, 1],
    &[1, 1, 1, 0xe, 1],
    &[1, 0, 0, 0xf, 0],
    &[2, 0x03, 1, 1, 0xe, 0, 0, 0, 0, 0, 1],
    &[2, 0x03, 1, 0, 0xf, 7, 7, 0xf, 0x1f, 0xf, 0],
    &[2, 0x05, 1, 0, 5, 7, 7, 0xf, 0x1f, 0xf, 1],
    &[2, 0x08, 1, 1, 0, 2, 5, 9, 0x12, 6, 1],
    &[3, 0x04, 1, 1, 0xe, 0xf, 0x1f, 0x1f, 0xf, 0],
    &[3, 0x0c, 1, 0, 0xf, 0, 0, 0, 0, 1],
    &[3, 0x0c, 1, 1, 9, 6, 0x15, 0xa, 0xc, 1],
    &[4, 1, 1, 0xe, 0xff, 0x1f, 1, 3, 0],
    &[4, 1, 0, 0xf, 0x5a, 7, 0, 4, 1],
    &[5, 1, 1, 0xe],
    &[5, 1, 0, 0xf],
    &[6, 0x11, 1, 0],
    &[6, 0x11, 0, 0xff],
    &[6, 0x12, 1, 1],
    &[7, 1, 0, 0, 0],
    &[7, 1, 1, 0xe, 1],
    &[7, 1, 0, 0xf, 1],
    &[8, 1, 0, 0, 0, 0, 0x05],
    &[8, 1, 0, 0, 0, 1, 0x0d],
    &[8, 1, 3, 1, 1, 0, 0x10],
    &[9, 1, 0, 0, 0, 0, 0, 0, 0, 0, 0, 0, 0, 0, 0x05],
    &[9, 1, 0, 0, 0, 0, 0, 0, 0, 0, 0, 1, 1, 1, 0x0f],
    &[9, 1, 1, 2, 0, 3, 0, 0, 0, 0, 0, 0, 0, 1, 0x05],
    &[9, 0, 1, 1, 1, 0x1e, 0, 1, 0, 0, 0, 0, 0, 0, 0x07],
    &[9, 1, 1, 0, 0, 0xe, 0, 0, 0, 0, 1, 0, 0, 0, 0x14],
    &[9, 1, 0, 0, 0, 0, 0, 0, 2, 1, 1, 0, 0, 1, 0x10],
    &[6, 0x38, 1, 0xbeef],
    &[6, 0x38, 0, 0xbe],
    &[10, 0x30, 1],
    &[10, 0x3a, 1],
    &[11, 1, 1, 1],
    &[12, 1, 0, 0],
    &[12, 1, 1, 1],
    &[13, 1, 0, 0, 0],
    &[13, 1, 6, 1, 0x11],
];

/// The same of AArch64.
const AARCH64_SAMPLES: [&[u64]; 24] = [
    &[0, 0x00, 1],
    &[0, 0x0e, 1],
    &[0, 0x22, 1],
    &[1, 1, 1, 0xe, 1],
    &[5, 1, 1, 0xe],
    &[6, 0x15, 1, 0],
    &[6, 0x16, 1, 0xffff],
    &[6, 0x17, 1, 0xbeef],
    &[14, 1, 3, 0, 0, 0, 0, 0, 1],
    &[14, 1, 1, 5, 2, 9, 0x12, 6, 0],
    &[8, 1, 0, 0, 0, 0, 0x05],
    &[8, 1, 3, 1, 1, 0, 0x10],
    &[9, 1, 0, 0, 0, 0, 0, 0, 0, 0, 0, 0, 0, 0, 0x05],
    &[9, 1, 0, 0, 0, 0, 0, 0, 0, 0, 0, 1, 1, 1, 0x0f],
    &[9, 1, 1, 2, 0, 3, 0, 0, 0, 0, 0, 0, 0, 1, 0x05],
    &[9, 1, 1, 2, 1, 0x1f, 1, 1, 0, 0, 0, 0, 0, 0, 0x07],
    &[9, 1, 1, 3, 0, 0xf, 1, 0, 0, 0, 0, 0, 0, 0, 0x14],
    &[10, 0x30, 1],
    &[11, 1, 0, 0],
    &[11, 1, 1, 1],
    &[12, 1, 0, 0],
    &[12, 1, 1, 1],
    &[13, 1, 0, 0, 0],
    &[13, 1, 6, 1, 0x11],
];

pub fn record(row: &[u64]) -> Record {
    Record::of(&LONG, row).expect("a record")
}

pub fn samples(origin: Origin) -> impl Iterator<Item = Record> {
    let rows: &[&[u64]] = match origin {
        Origin::AArch32 => &SAMPLES,
        Origin::AArch64 => &AARCH64_SAMPLES,
    };
    rows.iter().map(|row| record(row))
}

/// The word of a record whose class and fields fit.
pub fn word(record: &Record) -> u64 {
    record.word().expect("a record that fits").into()
}

pub fn with(record: &Record, name: &str, value: u32) -> Record {
    let mut changed = record.clone();
    changed.values[record.kind.index(name)] = value;
    changed
}

/// The record with every value, that fits, of each of the named fields.
pub fn sweep(record: &Record, names: &str) -> Vec<Record> {
    names.split(' ').fold(vec![record.clone()], |records, name| {
        let values = record.kind.fields[record.kind.index(name)].values();
        let each = |record: &Record| {
            let values = 0..values;
            values.map(|value| with(record, name, value)).collect::<Vec<_>>()
        };
        records.iter().flat_map(each).collect()
    })
}

/// The record with each field in turn at its smallest and largest value.
pub fn field_limits(record: &Record) -> Vec<Record> {
    let limits = record
        .kind
        .fields
        .iter()
        .flat_map(|field| [0, field.values() - 1].map(|value| with(record, field.name, value)));
    limits.collect()
}

/// The record with each number in turn too large for its place: by one, by a
/// bit above it with a value below that might look right, and by far.
pub fn fields_too_large(record: &Record) -> Vec<Record> {
    let mut records = Vec::new();
    for (field, &value) in record.kind.fields.iter().zip(&record.values) {
        if field.width() > 1 {
            let large = [field.values(), field.values() + value, 0x8000_0000 + value, u32::MAX];
            records.extend(large.map(|value| with(record, field.name, value)));
        }
    }
    records
}

/// Immediates around 8 bits, with either IL.
pub fn calls(form: &Form) -> Vec<Record> {
    let mut records = Vec::new();
    for class in form.classes_of(&form.kinds[6]) {
        for il in [0, 1] {
            for imm16 in [0, 1, 0xfe, 0xff, 0x100, 0x101, 0x1ff, 0x8000, 0xff00, 0xffff, 0x1_0000] {
                records.extend(Record::of(form, &[6, class.into(), il, imm16]));
            }
        }
    }
    records
}

/// The rules that tie fields of classes other than aborts to each other.
pub fn tied_fields(origin: Origin) -> Vec<Record> {
    let mut records = calls(origin.form());
    records.retain(|record| record.word().is_some());
    for sample in samples(origin).filter(|sample| sample.kind.has("Direction")) {
        records.extend(sweep(&sample, "IL Direction"));
    }
    for sample in samples(origin).filter(|sample| sample.kind.has("COND")) {
        records.extend(sweep(&sample, "CV COND"));
    }
    if origin == Origin::AArch32 {
        let ldc = record(&[4, 1, 1, 0xe, 0x81, 0x11, 1, 0, 0]);
        records.extend(sweep(&ldc, "AM Direction CV Offset"));
        records.extend(sweep(&record(&[7, 1, 0, 0, 0]), "CCKNOWNPASS CV COND"));
    }
    records.extend(sweep(&record(&[11, 1, 0, 0]), "IL ISV EX"));
    records.extend(sweep(&record(&[12, 1, 0, 0]), "IL CM WnR"));
    records
}

/// SError interrupts, whose fields hang on DFSC and RAS: every DFSC, and with
/// the two that there are every AET and EA.
pub fn errors() -> Vec<Record> {
    let mut records = sweep(&record(&[13, 1, 0, 0, 0]), "DFSC");
    records.extend(sweep(&record(&[13, 1, 0, 0, 0]), "AET EA"));
    records.extend(sweep(&record(&[13, 1, 0, 0, 0x11]), "AET EA"));
    records
}

/// A record of random fields that fit.
pub fn random_record(random: &mut Random, form: &Form) -> Record {
    let kinds: Vec<&'static Kind> = form.kinds_here().collect();
    let kind = random.pick(&kinds);
    let classes: Vec<u8> = form.classes_of(kind).collect();
    let class = random.pick(&classes).into();
    let value = |field: &crate::form::Field| random.below(field.values().into()) as u32;
    let values = kind.fields.iter().map(value).collect();
    Record { kind, class, values }
}

/// Status words, or saved ones, with the marks of a guest: every choice of the marks and
/// of bits 24:21 with a sound mode and with one that isn't; every mode; each bit alone
/// and as the only one that is 0.
pub fn words_with_marks(seed: u64) -> impl Iterator<Item = (Marks, u32)> {
    let mut random = Random::seeded(seed);
    Marks::every().flat_map(move |marks| {
        let mut words: Vec<u32> = Vec::new();
        for bits in 0..16 {
            words.extend([0x10, 0xfe1f_ffff, 0x16].map(|word| word + (bits << 21)));
            words.push(random.word() & !0x01e0_001f | bits << 21 | u32::from(random.pick(&MODES)));
        }
        words.extend(0..32);
        words.extend((5..32).map(|bit| 0x1f | 1 << bit));
        words.extend((0..32).map(|bit| !(1 << bit)));
        words.push(u32::MAX);
        words.into_iter().map(move |word| (marks, word))
    })
}
