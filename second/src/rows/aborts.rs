//! Aborts around the edges of their rules.

use super::samples::{record, sweep, with};
use crate::form::Record;
use crate::long::Origin;
use crate::random::Random;

pub fn instruction_abort() -> Record {
    record(&[8, 1, 0, 0, 0, 0, 0x05])
}

/// The plain data abort, and one with ISV.
pub fn data_aborts() -> [Record; 2] {
    [
        record(&[9, 1, 0, 0, 0, 0, 0, 0, 0, 0, 0, 0, 0, 0, 0x05]),
        record(&[9, 1, 1, 2, 0, 3, 0, 0, 0, 0, 0, 0, 0, 0, 0x05]),
    ]
}

fn three() -> [Record; 3] {
    let [plain, with_isv] = data_aborts();
    [instruction_abort(), plain, with_isv]
}

/// Every fault code of both aborts.
pub fn fault_codes() -> Vec<Record> {
    three().iter().flat_map(|abort| sweep(abort, "code")).collect()
}

/// Every fault code with each of the fields that depend on it.
pub fn fault_fields() -> Vec<Record> {
    let mut records = Vec::new();
    for name in ["SET", "FnV", "EA", "S1PTW", "CM"] {
        for abort in three().iter().filter(|abort| abort.kind.has(name)) {
            records.extend(sweep(&with(abort, name, 1), "code"));
        }
    }
    let [plain, with_isv] = data_aborts();
    for abort in [instruction_abort(), plain, with_isv] {
        records.extend(sweep(&with(&abort, "SET", 2), "code"));
        records.extend(sweep(&with(&abort, "code", 0x10), "SET FnV EA"));
    }
    records
}

/// The rules of the access: what goes with ISV, and with what.
pub fn tied_fields(origin: Origin) -> Vec<Record> {
    let mut records = Vec::new();
    for abort in data_aborts() {
        records.extend(sweep(&abort, "ISV SAS SSE WnR"));
        records.extend(sweep(&abort, "ISV SRT IL"));
        records.extend(sweep(&abort, "ISV SF AR CM WnR S1PTW"));
        records.extend(sweep(&with(&abort, "CM", 1), "code WnR"));
    }
    records.extend(sweep(&instruction_abort(), "IL code"));
    // From AArch64 SF has a part in what goes with SAS and SSE.
    if origin == Origin::AArch64 {
        let [_, with_isv] = data_aborts();
        records.extend(sweep(&with_isv, "SAS SSE SF WnR"));
        records.extend(sweep(&with_isv, "SRT SF"));
    }
    records
}

/// A random abort whose fields are mostly 0, since the rules let few of them
/// be set together.
pub fn random_abort(random: &mut Random) -> Record {
    let sample = &three()[random.below(3) as usize];
    let mut abort = with(sample, "code", random.below(64) as u32);
    for _ in 0..random.below(4) {
        let field = &sample.kind.fields[random.below(sample.kind.fields.len() as u64) as usize];
        abort = with(&abort, field.name, random.below(field.values().into()) as u32);
    }
    abort
}
