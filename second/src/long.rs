//! The long form: ESR words, by the layout lines of document 01 and, for the
//! classes of request C-20, of source 001. A trap's origin makes a form of its
//! own: the same kinds, other classes and other families. Nothing here looks at
//! a word.

use crate::edition::Edition;
use crate::form::{bit, field, Family, Field, Form, Kind};

/// Where a trap came from.
#[derive(Clone, Copy, Debug, PartialEq, Eq)]
pub enum Origin {
    AArch32,
    AArch64,
}

impl Origin {
    pub fn form(self) -> &'static Form {
        match self {
            Origin::AArch32 => &LONG,
            Origin::AArch64 => &AARCH64,
        }
    }

    /// The number that a row shows.
    pub fn number(self) -> u8 {
        self as u8
    }

    /// Every number but 0 is AArch64.
    pub fn from_number(number: u32) -> Origin {
        match number {
            0 => Origin::AArch32,
            _ => Origin::AArch64,
        }
    }
}

/// Words of a trap from AArch32.
pub static LONG: Form = Form {
    kinds: &KINDS,
    classes: &[
        0x00, 0x01, 0x03, 0x04, 0x05, 0x06, 0x07, 0x08, 0x0c, 0x0e, 0x11, 0x12, 0x13, 0x20, 0x22,
        0x24, 0x2f, 0x30, 0x32, 0x34, 0x38, 0x3a,
    ],
    editions: 16,
    needs_il,
    families,
    address_bits: 32,
};

/// Words of a trap from AArch64, where every instruction has 32 bits.
pub static AARCH64: Form = Form {
    kinds: &KINDS,
    classes: &[
        0x00, 0x01, 0x07, 0x0e, 0x15, 0x16, 0x17, 0x18, 0x20, 0x22, 0x24, 0x2f, 0x30, 0x32, 0x34,
    ],
    editions: 16,
    needs_il: |_, _| true,
    families: families_of_aarch64,
    address_bits: 64,
};

pub const IL: Field = bit("IL", 25);
pub const CV: Field = bit("CV", 24);
pub const COND: Field = field("COND", 23, 20);
pub const DIRECTION: Field = bit("Direction", 0);
const SET: Field = field("SET", 12, 11);
pub const FNV: Field = bit("FnV", 10);
pub const EA: Field = bit("EA", 9);
pub const S1PTW: Field = bit("S1PTW", 7);
pub const CODE: Field = field("code", 5, 0);
const CM: Field = bit("CM", 8);
const WNR: Field = bit("WnR", 6);

/// IFSC or DFSC of a debug exception.
const DEBUG_EXCEPTION: u32 = 0b10_0010;

static KINDS: [Kind; 15] = [
    Kind { number: 0, classes: &[0x00, 0x0e, 0x22], fixed: 0, fields: &[IL] },
    Kind { number: 1, classes: &[0x01], fixed: 0, fields: &[IL, CV, COND, bit("TI", 0)] },
    Kind {
        number: 2,
        classes: &[0x03, 0x05, 0x08],
        fixed: 0,
        fields: &[
            IL,
            CV,
            COND,
            field("Opc2", 19, 17),
            field("Opc1", 16, 14),
            field("CRn", 13, 10),
            field("Rt", 9, 5),
            field("CRm", 4, 1),
            DIRECTION,
        ],
    },
    Kind {
        number: 3,
        classes: &[0x04, 0x0c],
        fixed: 0,
        fields: &[
            IL,
            CV,
            COND,
            field("Opc1", 19, 16),
            field("Rt2", 14, 10),
            field("Rt", 9, 5),
            field("CRm", 4, 1),
            DIRECTION,
        ],
    },
    Kind {
        number: 4,
        classes: &[0x06],
        fixed: 0,
        fields: &[
            IL,
            CV,
            COND,
            field("imm8", 19, 12),
            field("Rn", 9, 5),
            bit("Offset", 4),
            field("AM", 3, 1),
            DIRECTION,
        ],
    },
    Kind { number: 5, classes: &[0x07], fixed: 0, fields: &[IL, CV, COND] },
    Kind {
        number: 6,
        classes: &[0x11, 0x12, 0x38, 0x15, 0x16, 0x17],
        fixed: 0,
        fields: &[IL, field("imm16", 15, 0)],
    },
    Kind { number: 7, classes: &[0x13], fixed: 0, fields: &[IL, CV, COND, bit("CCKNOWNPASS", 19)] },
    Kind { number: 8, classes: &[0x20], fixed: 0, fields: &[IL, SET, FNV, EA, S1PTW, CODE] },
    Kind {
        number: 9,
        classes: &[0x24],
        fixed: 0,
        fields: &[
            IL,
            bit("ISV", 24),
            field("SAS", 23, 22),
            bit("SSE", 21),
            field("SRT", 20, 16),
            bit("SF", 15),
            bit("AR", 14),
            SET,
            FNV,
            EA,
            CM,
            S1PTW,
            WNR,
            CODE,
        ],
    },
    Kind { number: 10, classes: &[0x30, 0x3a], fixed: DEBUG_EXCEPTION, fields: &[IL] },
    Kind {
        number: 11,
        classes: &[0x32],
        fixed: DEBUG_EXCEPTION,
        fields: &[IL, bit("ISV", 24), bit("EX", 6)],
    },
    Kind { number: 12, classes: &[0x34], fixed: DEBUG_EXCEPTION, fields: &[IL, CM, WNR] },
    Kind {
        number: 13,
        classes: &[0x2f],
        fixed: 0,
        fields: &[IL, field("AET", 12, 10), EA, field("DFSC", 5, 0)],
    },
    Kind {
        number: 14,
        classes: &[0x18],
        fixed: 0,
        fields: &[
            IL,
            field("Op0", 21, 20),
            field("Op2", 19, 17),
            field("Op1", 16, 14),
            field("CRn", 13, 10),
            field("Rt", 9, 5),
            field("CRm", 4, 1),
            DIRECTION,
        ],
    },
];

fn needs_il(class: u8, isv: bool) -> bool {
    match class {
        0x00 | 0x0e | 0x20 | 0x22 => true,
        0x2f | 0x30 | 0x32 | 0x34 | 0x3a => true,
        0x24 => !isv,
        _ => has_no_16_bit_form(class),
    }
}

/// Of the trapped instructions only WFI, WFE and SVC have a 16-bit form.
pub fn has_no_16_bit_form(class: u8) -> bool {
    matches!(class, 0x03..=0x08 | 0x0c | 0x12 | 0x13)
}

/// Every record of a trapped instruction's class: one with no 16-bit form has
/// IL 1, and class 0x08 is a VMRS and 0x0C an MRRC, which read.
pub fn instructions(kind: &'static Kind, class: u8) -> Family {
    let every = Family::every(kind);
    match class {
        0x08 | 0x0c => every.with("IL", [1]).with("Direction", [1]),
        _ if has_no_16_bit_form(class) => every.with("IL", [1]),
        _ => every,
    }
}

/// A 16-bit SVC or BKPT has an immediate of 8 bits.
pub fn calls_of_either_length(family: &Family) -> [Family; 2] {
    let short = family.clone().with("IL", [0]).with("imm16", 0..=255);
    [family.clone().with("IL", [1]), short]
}

fn families(kind: &'static Kind, class: u8, edition: Edition) -> Vec<Family> {
    let every = instructions(kind, class);
    match class {
        0x00 | 0x0e | 0x22 => vec![every.with("IL", [1])],
        0x01 | 0x03 | 0x04 | 0x05 | 0x07 | 0x08 | 0x0c => conditions(&every).into(),
        0x06 => conditions(&every).iter().flat_map(addressing_modes).collect(),
        0x11 | 0x38 => calls_of_either_length(&every).into(),
        0x12 => vec![every],
        0x13 => calls_to_the_monitor(&every),
        0x20 => fault_statuses(&every.with("IL", [1]), edition, &fault_codes(edition)),
        0x24 => data_aborts(&every, edition, &with_syndrome(&every)),
        0x30 | 0x3a => vec![every.with("IL", [1])],
        0x32 => steps(&every.with("IL", [1])).into(),
        0x34 => maintenance(&every.with("IL", [1])).into(),
        0x2f => errors(&every.with("IL", [1]), edition),
        _ => vec![],
    }
}

/// From AArch64 IL is 1 in every class.
fn families_of_aarch64(kind: &'static Kind, class: u8, edition: Edition) -> Vec<Family> {
    let every = Family::every(kind).with("IL", [1]);
    match class {
        0x00 | 0x0e | 0x15 | 0x16 | 0x17 | 0x18 | 0x22 | 0x30 => vec![every],
        0x01 | 0x07 => vec![every.with("CV", [1]).with("COND", [0b1110])],
        0x20 => fault_statuses(&every, edition, &fault_codes(edition)),
        0x24 => data_aborts(&every, edition, &accesses_of_aarch64(&every)),
        0x2f => errors(&every, edition),
        0x32 => steps(&every).into(),
        0x34 => maintenance(&every).into(),
        _ => vec![],
    }
}

/// CV 1 with COND 1111 isn't had; with CV 0 COND is UNKNOWN and may be
/// anything.
pub fn conditions(family: &Family) -> [Family; 2] {
    let valid = family.clone().with("CV", [1]).with("COND", 0..=14);
    [family.clone().with("CV", [0]), valid]
}

/// The literal forms 100 and 110 only load; 101 and 111 are reserved.
pub fn addressing_modes(family: &Family) -> [Family; 2] {
    let literal = family.clone().with("AM", [0b100, 0b110]).with("Direction", [1]);
    [family.clone().with("AM", 0b000..=0b011), literal]
}

/// With CCKNOWNPASS 0 there is one condition, its CV and COND 0.
pub fn calls_to_the_monitor(family: &Family) -> Vec<Family> {
    let unknown = family.clone().with("CCKNOWNPASS", [0]).with("CV", [0]).with("COND", [0]);
    let known = conditions(&family.clone().with("CCKNOWNPASS", [1]));
    [unknown].into_iter().chain(known).collect()
}

/// The fault codes that both aborts have in an edition.
fn fault_codes(edition: Edition) -> Vec<u32> {
    let mut codes = Vec::new();
    codes.extend(0x00..=0x07);
    codes.extend(0x09..=0x0b);
    codes.extend(0x0d..=0x0f);
    codes.push(0x10);
    codes.extend(0x14..=0x17);
    codes.push(0x30);
    if edition.lpa2() {
        codes.extend([0x08, 0x0c, 0x13, 0x29, 0x2b]);
    }
    if !edition.ras() {
        codes.push(0x18);
        codes.extend(0x1c..=0x1f);
    }
    if edition.lpa2() && !edition.ras() {
        codes.push(0x1b);
    }
    if edition.hafdbs() {
        codes.push(0x31);
    }
    codes
}

fn data_fault_codes(edition: Edition) -> Vec<u32> {
    let mut codes = fault_codes(edition);
    codes.extend([0x21, 0x34, 0x35]);
    codes
}

/// Address size, translation, access flag and permission faults: the codes
/// that may come from a walk of the first stage.
fn is_mmu_fault(code: u32) -> bool {
    matches!(code, 0x00..=0x0f | 0x29 | 0x2b)
}

/// The values of a bit that may be 1 only where the rules allow it.
pub fn bit_if(may_be_1: bool) -> std::ops::RangeInclusive<u32> {
    0..=may_be_1.into()
}

fn sets(edition: Edition, code: u32) -> &'static [u32] {
    if code == 0x10 && edition.ras() {
        &[0, 2, 3]
    } else {
        &[0]
    }
}

/// The fields of both aborts with which an edition has each of the codes.
fn fault_statuses(family: &Family, edition: Edition, codes: &[u32]) -> Vec<Family> {
    let status = |&code: &u32| {
        let family = family.clone().with("code", [code]);
        family
            .with("SET", sets(edition, code).iter().copied())
            .with("FnV", bit_if(code == 0x10))
            .with("EA", bit_if((0x10..=0x1f).contains(&code)))
            .with("S1PTW", bit_if(is_mmu_fault(code)))
    };
    codes.iter().map(status).collect()
}

/// Those with ISV 0, and those of the accesses with the codes that go with ISV 1.
fn data_aborts(every: &Family, edition: Edition, accesses: &[Family]) -> Vec<Family> {
    let codes = data_fault_codes(edition);
    let mut families: Vec<Family> =
        without_syndrome(every).iter().flat_map(|f| fault_statuses(f, edition, &codes)).collect();
    for code in codes.into_iter().filter(|&code| code_may_have_isv(edition, code)) {
        for family in accesses {
            let statuses = fault_statuses(family, edition, &[code]);
            families.extend(statuses.into_iter().map(|family| family.with("S1PTW", [0])));
        }
    }
    families
}

/// ISV 0, where IL is 1 and the bits of the access are 0.
fn without_syndrome(every: &Family) -> [Family; 2] {
    let no_access = ["ISV", "SAS", "SSE", "SRT", "SF", "AR"];
    let family = no_access.iter().fold(every.clone(), |family, name| family.with(name, [0]));
    maintenance(&family.with("IL", [1]))
}

/// Cache maintenance counts as a write.
fn maintenance(family: &Family) -> [Family; 2] {
    [family.clone().with("CM", [0]), family.clone().with("CM", [1]).with("WnR", [1])]
}

/// Without ISV there is no EX.
fn steps(family: &Family) -> [Family; 2] {
    [family.clone().with("ISV", [0]).with("EX", [0]), family.clone().with("ISV", [1])]
}

/// An uncategorized SError interrupt, and with RAS an asynchronous one, whose
/// type is one of five.
fn errors(family: &Family, edition: Edition) -> Vec<Family> {
    let plain = family.clone().with("DFSC", [0]).with("AET", [0]).with("EA", [0]);
    let asynchronous = family.clone().with("DFSC", [0b01_0001]).with("AET", [0, 1, 2, 3, 6]);
    match edition.ras() {
        true => vec![plain, asynchronous],
        false => vec![plain],
    }
}

fn code_may_have_isv(edition: Edition, code: u32) -> bool {
    is_mmu_fault(code) || (!edition.ras() && (0x13..=0x17).contains(&code))
}

/// ISV 1. SF is 0 and the register is neither 15 nor 31, since the guest is
/// AArch32. A load of a byte or halfword may extend the sign.
fn with_syndrome(every: &Family) -> [Family; 2] {
    let registers = (0..=14).chain(16..=30);
    let family =
        every.clone().with("ISV", [1]).with("SRT", registers).with("SF", [0]).with("CM", [0]);
    let sign_extended = family.clone().with("SSE", [1]).with("SAS", 0..=1).with("WnR", [0]);
    [family.with("SSE", [0]).with("SAS", 0..=2), sign_extended]
}

/// ISV 1 from AArch64: any size, width and register. A load of a byte or halfword
/// may extend the sign, and one of a word too where the register has 64 bits.
fn accesses_of_aarch64(every: &Family) -> [Family; 3] {
    let family = every.clone().with("ISV", [1]).with("CM", [0]);
    let sign_extended = family.clone().with("SSE", [1]).with("WnR", [0]);
    [
        family.with("SSE", [0]),
        sign_extended.clone().with("SAS", 0..=1),
        sign_extended.with("SAS", [2]).with("SF", [1]),
    ]
}

#[cfg(test)]
mod tests {
    use super::*;
    use crate::edition::EditionMask;
    use std::collections::HashMap;

    /// The layout lines give each class a number of records that can be
    /// counted by hand.
    #[test]
    fn classes_have_the_records_that_the_layout_counts() {
        let conditions = 31;
        let expected = [
            (0x00, 1),
            (0x01, 2 * conditions * 2),
            (0x03, conditions << 20),
            (0x04, conditions << 19),
            (0x06, conditions * 256 * 32 * 2 * 10),
            (0x07, conditions),
            (0x08, conditions << 19),
            (0x0c, conditions << 18),
            (0x11, (1 << 16) + 256),
            (0x12, 1 << 16),
            (0x13, 1 + conditions),
            (0x30, 1),
            (0x32, 3),
            (0x34, 3),
            (0x38, (1 << 16) + 256),
            (0x3a, 1),
        ];
        for (class, number) in expected {
            let mut seen = 0;
            LONG.records_of_class(class, &mut |_, _, _| seen += 1);
            assert_eq!(seen, number, "class {class:#x}");
        }
    }

    /// So do those of AArch64: 2^22 MSR, MRS and System instructions; and of data
    /// aborts with ISV 1, without RAS and LPA2, 18 codes, of which 4 are external
    /// aborts with EA either, each with 2 sizes of SSE that load, one of them by the
    /// width, and 4 of either direction.
    #[test]
    fn aarch64_has_the_records_that_the_layout_counts() {
        let expected = [
            (0x00, 1),
            (0x01, 2),
            (0x07, 1),
            (0x0e, 1),
            (0x15, 1 << 16),
            (0x16, 1 << 16),
            (0x17, 1 << 16),
            (0x18, 1 << 22),
            (0x22, 1),
            (0x30, 1),
            (0x32, 3),
            (0x34, 3),
        ];
        for (class, number) in expected {
            let mut seen = 0;
            AARCH64.records_of_class(class, &mut |_, _, _| seen += 1);
            assert_eq!(seen, number, "class {class:#x}");
        }
        let mut accesses = 0;
        AARCH64.records_of_class(0x24, &mut |values, _, editions| {
            accesses += u32::from(values[1] == 1 && editions.contains(Edition(0)));
        });
        let codes = 14 + 4 * 2;
        let plain = 4 * 2 * 2;
        let sign_extended = 2 * 2 + 1;
        assert_eq!(accesses, codes * 2 * 32 * (plain + sign_extended));
    }

    /// What a form lacks it refuses: no record of another origin's class.
    #[test]
    fn each_origin_has_its_own_classes() {
        for class in 0..64 {
            for form in [&LONG, &AARCH64] {
                let mut seen = false;
                form.records_of_class(class, &mut |_, _, _| seen = true);
                assert_eq!(seen, form.classes.contains(&class), "class {class:#x}");
            }
        }
    }

    /// One SError interrupt without RAS, and ten more with it.
    #[test]
    fn ras_has_ten_more_serror_interrupts() {
        let mut words: HashMap<u32, EditionMask> = HashMap::new();
        LONG.records_of_class(0x2f, &mut |_, word, editions| {
            let known = words.entry(word).or_insert(EditionMask::NONE);
            *known = known.joined(editions);
        });
        for edition in LONG.every_edition() {
            let had = words.values().filter(|editions| editions.contains(edition)).count();
            assert_eq!(had, if edition.ras() { 11 } else { 1 });
        }
    }

    #[test]
    fn no_two_records_make_one_word() {
        for class in LONG.every_class() {
            if matches!(class, 0x03 | 0x04 | 0x05 | 0x06 | 0x08 | 0x0c) {
                continue;
            }
            let mut words: HashMap<u32, (Vec<u32>, EditionMask)> = HashMap::new();
            LONG.records_of_class(class, &mut |values, word, editions| {
                let known =
                    words.entry(word).or_insert_with(|| (values.to_vec(), EditionMask::NONE));
                assert_eq!(known.0, values);
                assert!(!known.1.meets(editions), "a record twice in one edition");
                known.1 = known.1.joined(editions);
            });
        }
    }
}
