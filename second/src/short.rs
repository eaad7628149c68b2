//! The short form: HSR words, by source 004, and document 01's rule for a
//! field where 004 says nothing else.

use crate::edition::Edition;
use crate::form::{bit, field, Family, Field, Form, Kind};
use crate::long::{
    addressing_modes, bit_if, calls_of_either_length, calls_to_the_monitor, conditions,
    has_no_16_bit_form, instructions, CODE, COND, CV, DIRECTION, EA, FNV, IL, S1PTW,
};

pub static SHORT: Form = Form {
    kinds: &KINDS,
    classes: &[
        0x00, 0x01, 0x03, 0x04, 0x05, 0x06, 0x07, 0x08, 0x0c, 0x0e, 0x11, 0x12, 0x13, 0x20, 0x22,
        0x24,
    ],
    editions: 2,
    needs_il,
    families,
    address_bits: 32,
};

const RT: Field = field("Rt", 8, 5);

/// The kinds have the numbers of the long form. A data abort's bits 11:10 are
/// one field: AET with code 0x11, and else FnV in its lower bit.
static KINDS: [Kind; 10] = [
    Kind { number: 0, classes: &[0x00, 0x0e, 0x22], fixed: 0, fields: &[IL] },
    Kind { number: 1, classes: &[0x01], fixed: 0, fields: &[IL, CV, COND, bit("TI", 0)] },
    Kind {
        number: 2,
        classes: &[0x03, 0x05, 0x08],
        fixed: 0,
        fields: &[
            IL,
            CV,
            COND,
            field("Opc2", 19, 17),
            field("Opc1", 16, 14),
            field("CRn", 13, 10),
            RT,
            field("CRm", 4, 1),
            DIRECTION,
        ],
    },
    Kind {
        number: 3,
        classes: &[0x04, 0x0c],
        fixed: 0,
        fields: &[
            IL,
            CV,
            COND,
            field("Opc1", 19, 16),
            field("Rt2", 13, 10),
            RT,
            field("CRm", 4, 1),
            DIRECTION,
        ],
    },
    Kind {
        number: 4,
        classes: &[0x06],
        fixed: 0,
        fields: &[
            IL,
            CV,
            COND,
            field("imm8", 19, 12),
            field("Rn", 8, 5),
            bit("Offset", 4),
            field("AM", 3, 1),
            DIRECTION,
        ],
    },
    Kind {
        number: 5,
        classes: &[0x07],
        fixed: 0,
        fields: &[IL, CV, COND, bit("TA", 5), field("coproc", 3, 0)],
    },
    Kind { number: 6, classes: &[0x11, 0x12], fixed: 0, fields: &[IL, field("imm16", 15, 0)] },
    Kind { number: 7, classes: &[0x13], fixed: 0, fields: &[IL, CV, COND, bit("CCKNOWNPASS", 19)] },
    Kind { number: 8, classes: &[0x20], fixed: 0, fields: &[IL, FNV, EA, S1PTW, CODE] },
    Kind {
        number: 9,
        classes: &[0x24],
        fixed: 0,
        fields: &[
            IL,
            bit("ISV", 24),
            field("SAS", 23, 22),
            bit("SSE", 21),
            field("SRT", 19, 16),
            bit("AR", 14),
            field("AET", 11, 10),
            EA,
            bit("CM", 8),
            S1PTW,
            bit("WnR", 6),
            CODE,
        ],
    },
];

/// IL is UNKNOWN for a PC alignment fault, class 0x22.
fn needs_il(class: u8, isv: bool) -> bool {
    match class {
        0x00 | 0x0e | 0x20 => true,
        0x24 => !isv,
        _ => has_no_16_bit_form(class),
    }
}

fn families(kind: &'static Kind, class: u8, edition: Edition) -> Vec<Family> {
    let every = instructions(kind, class);
    match class {
        0x00 | 0x0e => vec![every.with("IL", [1])],
        0x22 => vec![every],
        0x01 | 0x03 | 0x04 | 0x05 | 0x08 | 0x0c => conditions(&every).into(),
        0x06 => conditions(&every).iter().flat_map(addressing_modes).collect(),
        0x07 => conditions(&every).iter().flat_map(advanced_simd).collect(),
        0x11 => calls_of_either_length(&every).into(),
        0x12 => vec![every],
        0x13 => calls_to_the_monitor(&every),
        0x20 => fault_statuses(&every.with("IL", [1]), &fault_codes(edition)),
        0x24 => data_aborts(&every, edition),
        _ => vec![],
    }
}

/// coproc is 1010 with TA 1, and else 0.
fn advanced_simd(family: &Family) -> [Family; 2] {
    [(0, 0), (1, 0b1010)]
        .map(|(ta, coproc)| family.clone().with("TA", [ta]).with("coproc", [coproc]))
}

/// The codes of IFSC.
fn fault_codes(edition: Edition) -> Vec<u32> {
    let mut codes = Vec::new();
    codes.extend(0x00..=0x03);
    codes.extend(0x05..=0x07);
    codes.extend(0x09..=0x0b);
    codes.extend(0x0d..=0x0f);
    codes.push(0x10);
    codes.extend(0x15..=0x17);
    codes.extend([0x22, 0x30]);
    if !edition.ras() {
        codes.push(0x18);
        codes.extend(0x1d..=0x1f);
    }
    codes
}

/// The codes of DFSC: those of IFSC, and SError interrupts, alignment faults
/// and the two IMPLEMENTATION DEFINED faults.
fn data_fault_codes(edition: Edition) -> Vec<u32> {
    let mut codes = fault_codes(edition);
    codes.extend([0x11, 0x21, 0x34, 0x35]);
    if !edition.ras() {
        codes.push(0x19);
    }
    codes
}

fn is_mmu_fault(code: u32) -> bool {
    code <= 0x0f
}

fn is_asynchronous(code: u32) -> bool {
    matches!(code, 0x11 | 0x19)
}

/// The fields of both aborts with each of the codes.
fn fault_statuses(family: &Family, codes: &[u32]) -> Vec<Family> {
    let status = |&code: &u32| {
        let family = family.clone().with("code", [code]);
        let valid = bit_if(code == 0x10);
        let family = match family.has("FnV") {
            true => family.with("FnV", valid),
            false if is_asynchronous(code) => family,
            false => family.with("AET", valid),
        };
        family
            .with("EA", bit_if((0x10..=0x1f).contains(&code)))
            .with("S1PTW", bit_if(is_mmu_fault(code)))
    };
    codes.iter().map(status).collect()
}

fn data_aborts(every: &Family, edition: Edition) -> Vec<Family> {
    let (asynchronous, synchronous): (Vec<u32>, Vec<u32>) =
        data_fault_codes(edition).into_iter().partition(|&code| is_asynchronous(code));
    let plain = without_syndrome(every);
    let mut families = fault_statuses(&plain.clone().with("CM", [0]), &synchronous);
    let maintenance = plain.clone().with("CM", [1]).with("WnR", [1]);
    families.extend(fault_statuses(&maintenance, &synchronous));
    for code in asynchronous {
        // AET needs RAS; WnR is UNKNOWN without it, and 0 with it.
        let types = if edition.ras() && code == 0x11 { 0..=3 } else { 0..=0 };
        let family = plain.clone().with("AET", types).with("CM", [0]);
        families.extend(fault_statuses(&family.with("WnR", bit_if(!edition.ras())), &[code]));
    }
    for code in synchronous.into_iter().filter(|&code| code_may_have_isv(edition, code)) {
        for family in with_syndrome(every) {
            let statuses = fault_statuses(&family, &[code]);
            families.extend(statuses.into_iter().map(|family| family.with("S1PTW", [0])));
        }
    }
    families
}

/// ISV 0, where IL is 1 and the bits of the access are 0.
fn without_syndrome(every: &Family) -> Family {
    let no_access = ["ISV", "SAS", "SSE", "SRT", "AR"];
    let family = no_access.iter().fold(every.clone(), |family, name| family.with(name, [0]));
    family.with("IL", [1])
}

fn code_may_have_isv(edition: Edition, code: u32) -> bool {
    is_mmu_fault(code) || (!edition.ras() && (0x13..=0x17).contains(&code))
}

/// ISV 1, with a register that isn't PC.
fn with_syndrome(every: &Family) -> [Family; 2] {
    let family = every.clone().with("ISV", [1]).with("SRT", 0..=14).with("CM", [0]);
    let sign_extended = family.clone().with("SSE", [1]).with("SAS", 0..=1).with("WnR", [0]);
    [family.with("SSE", [0]).with("SAS", 0..=2), sign_extended]
}

#[cfg(test)]
mod tests {
    use super::*;
    use crate::edition::EditionMask;
    use std::collections::HashMap;

    #[test]
    fn classes_have_the_records_that_the_layout_counts() {
        let conditions = 31;
        let expected = [
            (0x00, 1),
            (0x22, 2),
            (0x03, conditions << 19),
            (0x04, conditions << 17),
            (0x06, conditions * 256 * 16 * 2 * 10),
            (0x07, conditions * 2),
            (0x08, conditions << 18),
            (0x0c, conditions << 16),
            (0x11, (1 << 16) + 256),
        ];
        for (class, number) in expected {
            let mut seen = 0;
            SHORT.records_of_class(class, &mut |_, _, _| seen += 1);
            assert_eq!(seen, number, "class {class:#x}");
        }
    }

    #[test]
    fn no_two_records_make_one_word() {
        for class in [0x00, 0x07, 0x13, 0x20, 0x22, 0x24] {
            let mut words: HashMap<u32, (Vec<u32>, EditionMask)> = HashMap::new();
            SHORT.records_of_class(class, &mut |values, word, editions| {
                let known =
                    words.entry(word).or_insert_with(|| (values.to_vec(), EditionMask::NONE));
                assert_eq!(known.0, values);
                assert!(!known.1.meets(editions), "a record twice in one edition");
                known.1 = known.1.joined(editions);
            });
        }
    }
}
