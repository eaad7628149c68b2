//! What the program explain must write: a word's record, field by field, in
//! the manual's words; or the refusal, and for 6 the features that set the
//! editions apart, found by going through the editions.

use crate::catalogue::Catalogue;
use crate::edition::{Edition, EditionMask};
use crate::form::{Form, Record};
use crate::long::LONG;
use crate::short::SHORT;
use crate::syndrome::{read, word_to_look_up, Refusal};
use crate::trap::{read_trap, Intermediate, Registers, Trap};

/// What a line asks.
#[derive(Clone, Copy, Debug)]
enum Question {
    Word { edition: u32, esr: u64 },
    Trap { edition: u32, registers: Registers },
    Short { edition: u32, hsr: u32 },
}

fn hexadecimal(text: &str, digits: usize) -> Option<u64> {
    let are_digits = text.bytes().all(|byte| byte.is_ascii_hexdigit());
    (text.len() == digits && are_digits).then(|| u64::from_str_radix(text, 16).ok())?
}

fn question(line: &[u8]) -> Option<Question> {
    let line = std::str::from_utf8(line).ok()?;
    let words: Vec<&str> = line.split(' ').collect();
    let edition = |text| hexadecimal(text, 1).map(|edition| edition as u32);
    match words[..] {
        ["short", number, hsr] => {
            Some(Question::Short { edition: edition(number)?, hsr: hexadecimal(hsr, 8)? as u32 })
        }
        [number, esr] => {
            Some(Question::Word { edition: edition(number)?, esr: hexadecimal(esr, 16)? })
        }
        [number, esr, far, hpfar] => {
            let (esr, far) = (hexadecimal(esr, 16)?, hexadecimal(far, 16)?);
            let registers = Registers { esr, far, hpfar: hexadecimal(hpfar, 16)? };
            Some(Question::Trap { edition: edition(number)?, registers })
        }
        _ => None,
    }
}

/// What the program writes for an input.
pub fn explain(input: &[u8]) -> Vec<u8> {
    let questions: Vec<Option<Question>> = crate::call::lines(input).map(question).collect();
    let long = questions.iter().flatten().filter_map(|asked| match *asked {
        Question::Word { edition, esr } => word_to_look_up(&LONG, edition, esr).ok(),
        Question::Trap { edition, registers } => {
            word_to_look_up(&LONG, edition, registers.esr).ok()
        }
        Question::Short { .. } => None,
    });
    let long = Catalogue::of(&LONG, long.map(|(_, word)| word));
    let short = questions.iter().flatten().filter_map(|asked| match *asked {
        Question::Short { edition, hsr } => word_to_look_up(&SHORT, edition, hsr.into()).ok(),
        _ => None,
    });
    let short = Catalogue::of(&SHORT, short.map(|(_, word)| word));
    let answer = |asked: &Option<Question>| match *asked {
        None => "no line\n".into(),
        Some(Question::Word { edition, esr }) => word(&long, edition, esr),
        Some(Question::Trap { edition, registers }) => trap(&long, edition, registers),
        Some(Question::Short { edition, hsr }) => word(&short, edition, hsr.into()),
    };
    questions.iter().map(answer).collect::<String>().into_bytes()
}

fn word(catalogue: &Catalogue, edition: u32, word: u64) -> String {
    match read(catalogue, edition, word) {
        Ok(record) => format!("taken\n{}", fields(catalogue.form, &record)),
        Err(refusal) => refused(catalogue, word, refusal),
    }
}

/// What is said of a whole trap in an edition.
pub fn trap(catalogue: &Catalogue, edition: u32, registers: Registers) -> String {
    // The fields of a syndrome that is taken, where a register refuses the trap.
    let found = || {
        let entry = catalogue.find(registers.esr as u32).expect("a syndrome that is taken");
        fields(catalogue.form, &entry.record)
    };
    match read_trap(catalogue, edition, registers) {
        Ok(trap) => {
            format!("taken\n{}{}", fields(catalogue.form, &trap.record), addresses(&trap))
        }
        Err(Refusal { number: 7, .. }) => {
            let top = if Edition(edition).lpa() { 43 } else { 39 };
            format!("refused 7: a bit of HPFAR outside {top}:4 is set\n{}", found())
        }
        Err(Refusal { number: 8, .. }) => {
            format!("refused 8: bits 63:32 of FAR are not zero\n{}", found())
        }
        Err(refusal) => refused(catalogue, registers.esr, refusal),
    }
}

fn addresses(trap: &Trap) -> String {
    let is_abort = matches!(trap.record.class, 0x20 | 0x24);
    let virtual_line = match trap.virtual_address {
        Some(address) => format!("virtual address {address:#x}: FAR\n"),
        None if is_abort => {
            "virtual address not known: FnV is 1, and FAR holds an UNKNOWN value\n".into()
        }
        None => return "no address: this class has none\n".into(),
    };
    let intermediate = match trap.intermediate {
        Intermediate::Page(page) => {
            format!("address {page:#x}: the page in HPFAR alone, since S1PTW is 1")
        }
        Intermediate::Byte(byte) => format!("address {byte:#x}: the page in HPFAR with FAR 11:0"),
        Intermediate::None if is_abort => {
            "address not known: this code, with this S1PTW, leaves HPFAR UNKNOWN".into()
        }
        Intermediate::None => {
            return format!("{virtual_line}no intermediate address: this class has none\n")
        }
    };
    format!("{virtual_line}intermediate {intermediate}\n")
}

fn refused(catalogue: &Catalogue, word: u64, refusal: Refusal) -> String {
    let form = catalogue.form;
    match refusal.number {
        1 => format!("refused 1: the edition is above {}\n", form.editions - 1),
        2 => "refused 2: bits 63:32 of the syndrome are not zero\n".into(),
        3 => {
            let place = if is_short(form) { "in the short form" } else { "from AArch32" };
            format!("refused 3: EC 31:26 is no class of the build {place}\n")
        }
        4 => "refused 4: IL 25 is 0 where it must be 1\n".into(),
        5 => {
            let rule = why(form, word as u32).expect("a rule that the word breaks");
            format!("refused 5: no edition has it\nwhy: {rule}\n")
        }
        _ => {
            let entry = catalogue.find(word as u32).expect("what other editions have");
            format!(
                "refused 6: this edition doesn't have it, others do\n{}editions{}\n{}",
                features(form, refusal.editions),
                editions(form, refusal.editions),
                fields(form, &entry.record)
            )
        }
    }
}

/// Whether some record of a class that some edition has holds a fault code.
fn is_code(form: &Form, class: u8, code: u32) -> bool {
    let kind = form.kind_of_class(class).expect("a class of the form");
    let mut families =
        form.every_edition().flat_map(|edition| (form.families)(kind, class, edition));
    families.any(|family| family.allows("code", code))
}

/// The first rule that a word breaks, in the order of the definition: the fixed
/// code, bits of no field, and the rules of its class. A rule of fields that a
/// form lacks is broken by none of its words.
fn why(form: &Form, word: u32) -> Option<&'static str> {
    let class = (word >> 26) as u8;
    let kind = form.kind_of_class(class).expect("a class of the form");
    let value = |name: &str| kind.fields.iter().find(|f| f.name == name).map(|f| f.value_in(word));
    let get = |name: &str| value(name).unwrap_or(0);
    let is = |name: &str| get(name) == 1;
    let named = kind.fields.iter().fold(0x3f << 26, |bits, field| bits | field.place());
    let (code, set) = (get("code"), get("SET"));
    let is_mmu_fault = matches!(code, 0x00..=0x0f | 0x29 | 0x2b);
    let is_short = is_short(form);
    let is_data = class == 0x24;
    let is_abort = is_data || class == 0x20;
    // An SError interrupt among the aborts, and what its bits 11:10 hold.
    let is_interrupt = is_short && is_data && matches!(code, 0x11 | 0x19);
    let aet = if is_data { get("AET") } else { 0 };
    // ISS[23:14] of a data abort.
    let syndrome = word >> 14 & 0x3ff;
    let error = (get("DFSC"), get("AET"), is("EA"));
    let rules = [
        (kind.fixed != 0 && word % 64 != kind.fixed, "the fault code 5:0 is not 0x22, a debug exception"),
        (
            word & !(named | kind.fixed) != 0,
            "a bit is set that belongs to no field that the build has in this class",
        ),
        (is("CV") && get("COND") == 15, "CV 24 is 1 and COND 23:20 is 0b1111"),
        (
            !matches!((is("TA"), get("coproc")), (false, 0) | (true, 0b1010)),
            "TA 5 is 1 and coproc 3:0 is not 0b1010, or TA 5 is 0 and coproc 3:0 is not 0",
        ),
        (
            matches!(class, 0x08 | 0x0c) && !is("Direction"),
            "Direction 0 is 0, and this class only reads",
        ),
        (
            matches!(get("AM"), 5 | 7) || get("AM") > 3 && !is("Direction"),
            "AM 3:1 is reserved, or is a literal form and Direction 0 is 0",
        ),
        (!is("IL") && get("imm16") > 255, "IL 25 is 0 and the immediate 15:0 is above 255"),
        (
            value("CCKNOWNPASS") == Some(0) && (is("CV") || get("COND") != 0),
            "CCKNOWNPASS 19 is 0, and CV 24 or COND 23:20 is not",
        ),
        (is_abort && is("FnV") && code != 0x10, "FnV 10 is 1 and the fault code 5:0 is not 0x10"),
        (
            is_abort && is("EA") && code / 16 != 1,
            "EA 9 is 1 and the fault code 5:0 is not among 0x10 to 0x1f",
        ),
        (
            is("S1PTW") && !is_mmu_fault,
            "S1PTW 7 is 1 and the fault code 5:0 is not among 0x00 to 0x0f, 0x29 and 0x2b",
        ),
        (is_data && !is("ISV") && syndrome != 0, "ISV 24 is 0 and bits 23:14 are not"),
        (
            is_data && is("ISV")
                && (is("SF") || get("SAS") == 3 || matches!(get("SRT"), 15 | 31)),
            match is_short {
                true => "ISV 24 is 1, and SAS 23:22 is 3 or SRT 19:16 is 15",
                false => "ISV 24 is 1, and the access is none of an AArch32 guest: SF 15 is 1, SAS 23:22 is 3, or SRT 20:16 is 15 or 31",
            },
        ),
        (
            is_data && is("ISV") && (is("CM") || is("S1PTW")),
            "ISV 24 is 1, and CM 8 or S1PTW 7 is 1",
        ),
        (is_interrupt && is("CM"), "CM 8 is 1 in an SError interrupt"),
        (
            is("SSE") && (get("SAS") > 1 || is("WnR")),
            "SSE 21 is 1, and SAS 23:22 is above 1 or WnR 6 is 1",
        ),
        (is("CM") && !is("WnR"), "CM 8 is 1 and WnR 6 is 0"),
        (is("EX") && !is("ISV"), "EX 6 is 1 and ISV 24 is 0"),
        (
            class == 0x2f
                && error != (0, 0, false)
                && !(error.0 == 0x11 && matches!(error.1, 0..=3 | 6)),
            "DFSC 5:0 is neither 0 with AET 12:10 and EA 9 both 0, nor 0x11 with an AET of 0 to 3 or 6",
        ),
        (
            is_abort && !is_code(form, class, code),
            "no edition has the fault code 5:0 in this class",
        ),
        (
            is_abort && set != 0 && !(code == 0x10 && set > 1),
            "SET 12:11 is neither 0 nor, with the fault code 0x10, 2 or 3",
        ),
        (
            !matches!((code, aet), (_, 0) | (0x10, 1) | (0x11, _)),
            "bits 11:10 are not 0, and the fault code 5:0 is neither 0x11, nor 0x10 with bits 11:10 equal to 1",
        ),
        (
            is_interrupt && is("WnR") && aet != 0,
            "AET 11:10 is not 0, which needs RAS, and WnR 6 is 1, which RAS makes 0",
        ),
        (
            is_data && is("ISV") && !is_mmu_fault && !matches!(code, 0x13..=0x17),
            "ISV 24 is 1 and the fault code 5:0 is not among 0x00 to 0x0f, 0x13 to 0x17, 0x29 and 0x2b",
        ),
    ];
    rules.into_iter().find(|(is_broken, _)| *is_broken).map(|(_, rule)| rule)
}

fn editions(form: &Form, mask: EditionMask) -> String {
    let of_mask = form.every_edition().filter(|&edition| mask.contains(edition));
    of_mask.map(|edition| format!(" {:x}", edition.0)).collect()
}

/// A feature's name, and whether an edition has it.
type Feature = (&'static str, fn(Edition) -> bool);

/// The features that all editions of the mask have, and those that none has,
/// where the editions that fit them are the mask's and no others.
fn features(form: &Form, mask: EditionMask) -> String {
    let all: [Feature; 4] = [
        ("LPA2", Edition::lpa2),
        ("HAFDBS", Edition::hafdbs),
        ("LPA", Edition::lpa),
        ("RAS", Edition::ras),
    ];
    let inside = || form.every_edition().filter(|&edition| mask.contains(edition));
    // A feature that no edition of the form has sets none of them apart.
    let known = |has: fn(Edition) -> bool| form.every_edition().any(has);
    let needed: Vec<Feature> = all.into_iter().filter(|&(_, has)| inside().all(has)).collect();
    let barred: Vec<Feature> =
        all.into_iter().filter(|&(_, has)| known(has) && !inside().any(has)).collect();
    let fits = |edition: Edition| {
        needed.iter().all(|(_, has)| has(edition)) && !barred.iter().any(|(_, has)| has(edition))
    };
    for edition in form.every_edition() {
        assert_eq!(fits(edition), mask.contains(edition), "the features of a mask");
    }
    let needed = needed.iter().map(|(name, _)| format!("needs {name}\n"));
    let barred = barred.iter().map(|(name, _)| format!("not with {name}\n"));
    needed.chain(barred).collect()
}

/// The lines of a record: its class, its fields, and what the layout fixes.
fn fields(form: &Form, record: &Record) -> String {
    let class_text = class_name(is_short(form), record.class);
    let class = format!("EC 31:26 = {:#x}{}\n", record.class, said(class_text));
    let own = record.kind.fields.iter().zip(&record.values).map(|(field, &value)| {
        let name = field_name(form, record, field.name);
        format!(
            "{name} {} = {value:#x}{}\n",
            field.bits(),
            said(meaning(form, record, name, value))
        )
    });
    let fixed = match record.kind.fixed {
        0 => String::new(),
        code => {
            let name = if record.class == 0x34 { "DFSC" } else { "IFSC" };
            format!("{name} 5:0 = {code:#x}{}\n", said(fault(code)))
        }
    };
    class + &own.collect::<String>() + &fixed
}

fn is_short(form: &Form) -> bool {
    form.editions == 2
}

fn said(meaning: Option<String>) -> String {
    meaning.map_or(String::new(), |text| format!(": {text}"))
}

/// The manual's name of a field.
fn field_name(form: &Form, record: &Record, name: &'static str) -> &'static str {
    match (name, record.class) {
        ("code", 0x20) => "IFSC",
        ("code", _) => "DFSC",
        ("imm16", 0x38) => "Comment",
        ("AET", _) if is_short(form) && record.get("code") != Some(0x11) => "0:FnV",
        _ => name,
    }
}

/// What a field is worth beside the others.
enum Standing {
    /// It says what its value means.
    Counts,
    /// The manual calls it UNKNOWN.
    Unknown,
    /// It is RES0, or has one value whatever happened.
    Silent,
}

/// A field's standing, by the manual's sentences below it: "valid only if",
/// "RES0 for", "is UNKNOWN".
fn standing(form: &Form, record: &Record, name: &str) -> Standing {
    use Standing::{Counts, Silent, Unknown};
    let is = |name| record.is_set(name);
    let code = record.get("code");
    let is_serror = is_short(form) && matches!(code, Some(0x11 | 0x19));
    let is_mmu_fault = matches!(code, Some(0x00..=0x0f | 0x29 | 0x2b));
    match (name, record.class) {
        ("IL", 0x22) if is_short(form) => Unknown,
        ("IL", 0x00 | 0x0e | 0x20 | 0x22 | 0x2f | 0x30 | 0x32 | 0x34 | 0x3a) => Silent,
        ("IL", 0x24) if !is("ISV") => Silent,
        ("CV" | "COND", 0x13) if !is("CCKNOWNPASS") => Silent,
        ("COND", _) if !is("CV") => Unknown,
        ("Rn", _) if record.get("AM") >= Some(0b100) => Unknown,
        ("SAS" | "SSE" | "SRT" | "SF" | "AR" | "EX", _) if !is("ISV") => Silent,
        ("SSE", _) if is("WnR") => Silent,
        ("SET" | "FnV" | "0:FnV", _) if code != Some(0x10) => Silent,
        ("S1PTW", _) if !is_mmu_fault => Silent,
        ("CM" | "WnR", _) if is_serror => Silent,
        ("WnR", 0x24) if !is_short(form) && matches!(code, Some(0x31 | 0x35)) => Unknown,
        ("WnR", _) if is("CM") => Silent,
        ("AET", 0x2f) if record.get("DFSC") != Some(0x11) => Silent,
        _ => Counts,
    }
}

/// A class of ESR, or where HSR's words differ of HSR.
fn class_name(is_short: bool, class: u32) -> Option<String> {
    let name = match (is_short, class) {
        (true, 0x07) => {
            "Access to Advanced SIMD or floating-point functionality trapped by a HCPTR.{TASE, TCP10} control"
        }
        (true, 0x0e) => "Illegal exception return to AArch32 state",
        (true, 0x11) => "Exception on SVC instruction execution in AArch32 state routed to EL2",
        (true, 0x13) => "Trapped execution of SMC instruction in AArch32 state",
        (true, 0x20) => "Prefetch Abort from a lower Exception level",
        (true, 0x25..) => return None,
        (_, 0x00) => "Unknown reason",
        (_, 0x01) => "Trapped WFI or WFE instruction execution",
        (_, 0x03) => "Trapped MCR or MRC access with coproc 0b1111",
        (_, 0x04) => "Trapped MCRR or MRRC access with coproc 0b1111",
        (_, 0x05) => "Trapped MCR or MRC access with coproc 0b1110",
        (_, 0x06) => "Trapped LDC or STC access",
        (_, 0x07) => "Trapped access to Advanced SIMD or floating-point functionality",
        (_, 0x08) => "Trapped VMRS access, from ID group trap",
        (_, 0x0c) => "Trapped MRRC access with coproc 0b1110",
        (_, 0x0e) => "Illegal Execution state",
        (_, 0x11) => "SVC instruction execution in AArch32 state",
        (_, 0x12) => "HVC instruction execution in AArch32 state",
        (_, 0x13) => "SMC instruction execution in AArch32 state",
        (_, 0x20) => "Instruction Abort from a lower Exception level",
        (_, 0x22) => "PC alignment fault exception",
        (_, 0x24) => "Data Abort from a lower Exception level",
        (_, 0x2f) => "SError interrupt",
        (_, 0x30) => "Breakpoint exception from a lower Exception level",
        (_, 0x32) => "Software Step exception from a lower Exception level",
        (_, 0x34) => "Watchpoint exception from a lower Exception level",
        (_, 0x38) => "BKPT instruction execution in AArch32 state",
        (_, 0x3a) => "Vector Catch exception from AArch32 state",
        _ => return None,
    };
    Some(name.into())
}

/// A fault status code of ESR: what failed, and at which level.
fn fault(code: u32) -> Option<String> {
    const UPDATE: &str = "translation table walk or hardware update of translation table";
    const ECC: &str = "Synchronous parity or ECC error on memory access";
    let level = code % 4;
    let text = match code {
        0x00 => {
            "Address size fault, level 0 of translation or translation table base register".into()
        }
        0x01..=0x03 => format!("Address size fault, level {level}"),
        0x04..=0x07 => format!("Translation fault, level {level}"),
        0x08..=0x0b => format!("Access flag fault, level {level}"),
        0x0c..=0x0f => format!("Permission fault, level {level}"),
        0x10 => format!("Synchronous External abort, not on {UPDATE}"),
        0x13 => format!("Synchronous External abort on {UPDATE}, level -1"),
        0x14..=0x17 => format!("Synchronous External abort on {UPDATE}, level {level}"),
        0x18 => format!("{ECC}, not on translation table walk"),
        0x1b => format!("{ECC} on {UPDATE}, level -1"),
        0x1c..=0x1f => format!("{ECC} on {UPDATE}, level {level}"),
        0x21 => "Alignment fault".into(),
        0x22 => "Debug exception".into(),
        0x29 => "Address size fault, level -1".into(),
        0x2b => "Translation fault, level -1".into(),
        0x30 => "TLB conflict abort".into(),
        0x31 => "Unsupported atomic hardware update fault".into(),
        0x34 => "IMPLEMENTATION DEFINED fault (Lockdown)".into(),
        0x35 => "IMPLEMENTATION DEFINED fault (Unsupported Exclusive or Atomic access)".into(),
        _ => return None,
    };
    Some(text)
}

/// A fault status code of HSR, whose walks have the levels 1 to 3.
fn short_fault(code: u32) -> Option<String> {
    const WALK: &str = "on translation table walk";
    const ECC: &str = "parity or ECC error on memory access";
    let level = code % 4;
    let has_level = |what: String| (level != 0).then(|| format!("{what}, level {level}"));
    let text = match code {
        0x00 => "Address size fault, translation table base register".into(),
        0x10 => format!("Synchronous External abort, not {WALK}"),
        0x11 => "SError interrupt".into(),
        0x18 => format!("Synchronous {ECC}, not {WALK}"),
        0x19 => format!("SError interrupt from a {ECC}"),
        0x21 => "Alignment fault".into(),
        0x22 => "Debug exception".into(),
        0x30 => "TLB conflict abort".into(),
        0x34 => "IMPLEMENTATION DEFINED fault (Lockdown)".into(),
        0x35 => "IMPLEMENTATION DEFINED fault (Unsupported Exclusive access)".into(),
        0x01..=0x0f => {
            let kinds = ["Address size", "Translation", "Access flag", "Permission"];
            return has_level(format!("{} fault", kinds[code as usize / 4]));
        }
        0x14..=0x17 => return has_level(format!("Synchronous External abort, {WALK}")),
        0x1c..=0x1f => return has_level(format!("Synchronous {ECC} {WALK}")),
        _ => return None,
    };
    Some(text)
}

/// A code of an SError interrupt in ESR.
fn error(code: u32) -> Option<String> {
    match code {
        0x00 => Some("Uncategorized error, where the board has RAS".into()),
        0x11 => Some("Asynchronous SError interrupt".into()),
        _ => None,
    }
}

const LENGTHS: &[&str] = &["16-bit instruction trapped", "32-bit instruction trapped"];
const VALIDITY: &[&str] = &["The COND field is not valid", "The COND field is valid"];
const CONDITIONS: &[&str] =
    &["EQ", "NE", "CS", "CC", "MI", "PL", "VS", "VC", "HI", "LS", "GE", "LT", "GT", "LE", "AL"];
const WAITS: &[&str] = &["WFI trapped", "WFE trapped"];
const MCR: &[&str] = &[
    "Write to System register space, MCR instruction",
    "Read from System register space, MRC or VMRS instruction",
];
const MCRR: &[&str] = &[
    "Write to System register space, MCRR instruction",
    "Read from System register space, MRRC instruction",
];
const LDC: &[&str] = &["Write to memory, STC instruction", "Read from memory, LDC instruction"];
const OFFSETS: &[&str] = &["Subtract offset", "Add offset"];
const ADDRESSING: &[&str] = &[
    "Immediate unindexed",
    "Immediate post-indexed",
    "Immediate offset",
    "Immediate pre-indexed",
    "Literal unindexed",
    "",
    "Literal offset",
];
const PASSES: &[&str] = &[
    "The instruction was unconditional, or passed its condition code check",
    "The instruction was conditional, and might have failed its condition code check",
];
const ERROR_TYPES: &[&str] = &[
    "Recoverable state (UER), where the board has RAS",
    "",
    "Uncontainable (UC)",
    "Restartable state (UEO)",
];
const FAR: &[&str] = &["FAR is valid", "FAR is not valid, and holds an UNKNOWN value"];
const HIFAR: &[&str] = &["HIFAR is valid", "HIFAR is not valid, and holds an UNKNOWN value"];
const HDFAR: &[&str] = &["HDFAR is valid", "HDFAR is not valid, and holds an UNKNOWN value"];
const EXTERNAL: &[&str] = &["", "IMPLEMENTATION DEFINED classification of External aborts"];
const WALKS: &[&str] = &[
    "Fault not on a stage 2 translation for a stage 1 translation table walk",
    "Fault on the stage 2 translation of an access for a stage 1 translation table walk",
];
const STEPS: &[&str] = &["EX bit is RES0", "EX bit is valid"];
const SYNDROMES: &[&str] =
    &["No valid instruction syndrome", "ISS[23:14] hold a valid instruction syndrome"];
const MAINTENANCE: &[&str] = &[
    "Not from a cache maintenance or address translation instruction",
    "From a cache maintenance or address translation instruction",
];
const ACCESSES: &[&str] = &["Read from a memory location", "Write to a memory location"];
const SHORT_ASYNCHRONOUS: &[&str] = &[
    "Uncontainable error (UC) or uncategorized, where the board has RAS",
    "Unrecoverable error (UEU)",
    "Restartable error (UEO) or Corrected error (CE)",
    "Recoverable error (UER)",
];
const ASYNCHRONOUS: &[&str] = &[
    "Uncontainable (UC)",
    "Unrecoverable state (UEU)",
    "Restartable state (UEO)",
    "Recoverable state (UER)",
    "",
    "",
    "Corrected (CE)",
];
const SIMD: &[&str] = &[
    "Exception was not caused by trapped use of Advanced SIMD functionality",
    "Exception was caused by trapped use of Advanced SIMD functionality",
];
const SIZES: &[&str] = &["Byte", "Halfword", "Word"];
const EXTENSIONS: &[&str] = &["Sign-extension not required", "Data item must be sign-extended"];
const WIDTHS: &[&str] = &["Instruction loads/stores a 32-bit wide register"];
const SEMANTICS: &[&str] = &[
    "Instruction did not have acquire/release semantics",
    "Instruction did have acquire/release semantics",
];
const EXCLUSIVES: &[&str] = &[
    "An instruction other than a Load-Exclusive instruction was stepped",
    "A Load-Exclusive instruction was stepped",
];

/// What a value means, by the name of its field.
fn meaning(form: &Form, record: &Record, name: &str, value: u32) -> Option<String> {
    match standing(form, record, name) {
        Standing::Counts => {}
        Standing::Unknown => return Some("UNKNOWN".into()),
        Standing::Silent => return None,
    }
    let texts = match (name, record.class) {
        ("IFSC" | "DFSC", _) if is_short(form) => return short_fault(value),
        ("DFSC", 0x2f) => return error(value),
        ("IFSC" | "DFSC", _) => return fault(value),
        ("Rt" | "Rt2" | "Rn" | "SRT", _) if !is_short(form) => return Some(register(value)),
        ("IL", _) => LENGTHS,
        ("CV", _) => VALIDITY,
        ("COND", _) => CONDITIONS,
        ("TI", _) => WAITS,
        ("Direction", 0x04 | 0x0c) => MCRR,
        ("Direction", 0x06) => LDC,
        ("Direction", _) => MCR,
        ("Offset", _) => OFFSETS,
        ("AM", _) => ADDRESSING,
        ("CCKNOWNPASS", _) => PASSES,
        ("SET", _) => ERROR_TYPES,
        ("FnV", 0x20) if is_short(form) => HIFAR,
        ("0:FnV", _) => HDFAR,
        ("FnV", _) => FAR,
        ("EA", _) => EXTERNAL,
        ("S1PTW", _) => WALKS,
        ("ISV", 0x32) => STEPS,
        ("ISV", _) => SYNDROMES,
        ("CM", _) => MAINTENANCE,
        ("WnR", _) => ACCESSES,
        ("AET", _) if is_short(form) => SHORT_ASYNCHRONOUS,
        ("AET", _) => ASYNCHRONOUS,
        ("TA", _) => SIMD,
        ("SAS", _) => SIZES,
        ("SSE", _) => EXTENSIONS,
        ("SF", _) => WIDTHS,
        ("AR", _) => SEMANTICS,
        ("EX", _) => EXCLUSIVES,
        _ => return None,
    };
    texts.get(value as usize).filter(|text| !text.is_empty()).map(|&text| text.into())
}

/// The AArch32 register that the AArch64 view has under a number: those of User
/// mode, and then a pair of each mode that has its own, FIQ mode's R8 to R12
/// before its pair.
fn register(number: u32) -> String {
    let of_mode =
        |mode: &str, is_link: bool| format!("{}_{mode}", if is_link { "LR" } else { "SP" });
    match number {
        0..=7 => format!("R{number}"),
        8..=12 => format!("R{number}_usr"),
        13 | 14 => of_mode("usr", number == 14),
        15 => of_mode("hyp", false),
        16..=23 => {
            let mode = ["irq", "svc", "abt", "und"][(number as usize - 16) / 2];
            of_mode(mode, number.is_multiple_of(2))
        }
        24..=28 => format!("R{}_fiq", number - 16),
        29 | 30 => of_mode("fiq", number == 30),
        _ => "register 15 of the instruction".into(),
    }
}

/// Words of every class and kind, in editions that have them and that don't,
/// whole traps, short words, and lines that are none.
pub fn questions() -> String {
    let words = [
        0x0200_0000u64,
        0x0000_0000,
        0x07e0_0001,
        0x07e0_0000,
        0x06f0_0000,
        0x07f0_0000,
        0x0fe0_0001,
        0x0fe8_4c20,
        0x13e1_0841,
        0x17e0_0001,
        0x1be0_1003,
        0x1bea_50d4,
        0x1be0_0009,
        0x1a00_000d,
        0x1fe0_0000,
        0x1e50_0000,
        0x23e7_c001,
        0x33e1_0801,
        0x3a00_0000,
        0x4600_0012,
        0x4400_0012,
        0x4a00_0001,
        0x4a01_0000,
        0x4e00_0000,
        0x4fe8_0000,
        0x5a00_0000,
        0x8200_0010,
        0x8200_1010,
        0x8200_1810,
        0x8200_0610,
        0x8200_0087,
        0x8200_0021,
        0x8a00_0000,
        0x9383_0045,
        0x9363_4007,
        0x93a3_0006,
        0x9183_0005,
        0x9000_0005,
        0x9383_0085,
        0x9200_0144,
        0x9200_0018,
        0x9200_001b,
        0x9200_0013,
        0x9200_0029,
        0x9200_002b,
        0x9200_0008,
        0x9200_000c,
        0x9200_0031,
        0x9200_0034,
        0x9200_0035,
        0x9200_0030,
        0x9200_1010,
        0x9200_0810,
        0x9383_0014,
        0x9383_0013,
        0x1_9200_0005,
        0xbe00_0000,
        0xbe00_0011,
        0xbe00_1a11,
        0xbe00_0400,
        0xc200_0022,
        0xc200_0021,
        0xca00_0022,
        0xcb00_0062,
        0xca00_0062,
        0xd200_0022,
        0xd200_0162,
        0xd200_0122,
        0xe000_0003,
        0xe200_0103,
        0xea00_0022,
        0xffff_ffff,
        0x0600_0002,
        0x23e7_c000,
        0x33e1_0800,
        0x1be0_000b,
        0x1be0_0008,
        0x1be0_0269,
        0x4400_0100,
        0x4e10_0000,
        0x8200_0405,
        0x8200_0205,
        0x8200_0090,
        0x8200_0810,
        0x9200_8005,
        0x9383_8045,
        0x93c3_0005,
        0x938f_0005,
        0x9383_0145,
        0x93a3_0005,
        0x9363_0047,
        0x9200_0105,
        0x9200_0020,
        0x9200_1005,
        0x9383_0010,
        0xbe00_1011,
        0xbe00_0200,
        0xca00_0042,
        0xd200_0121,
    ];
    let mut text = String::new();
    for (at, word) in words.into_iter().enumerate() {
        for edition in [0, 7, at as u32 % 16] {
            text += &format!("{edition:x} {word:016x}\n");
        }
    }
    // Each register, where the four kinds of field that name one stand, and Rn of a literal form.
    for register in 0..32u32 {
        text += &format!("0 {:016x}\n", 0x0fe0_0001 + (register << 5));
        text += &format!("0 {:016x}\n", 0x13e0_0001 + (register << 10));
        text += &format!("0 {:016x}\n", 0x9380_0005 + (register << 16));
        text += &format!("0 {:016x}\n", 0x1be0_0005 + (register << 5));
        text += &format!("0 {:016x}\n", 0x1be0_000d + (register << 5));
    }
    // Each condition, valid or not, and Rn of HSR.
    for condition in 0..16u32 {
        for word in [0x0600_0000, 0x0700_0000, 0x4e08_0000, 0x4f08_0000] {
            let word = word + (condition << 20);
            text += &format!("0 {word:016x}\nshort 0 {word:08x}\n");
        }
        text += &format!("short 0 {:08x}\n", 0x1be0_0005 + (condition << 5));
        text += &format!("short 0 {:08x}\n", 0x1be0_000d + (condition << 5));
    }
    // Classes of both forms, and fields that count by another one, which has one value and then the other.
    let words = [
        0x0fe8_4c20u32,
        0x17e0_0001,
        0x23e7_c001,
        0x33e1_0801,
        0x3a00_0000,
        0x4400_0012,
        0x4a00_0001,
        0x13e1_0840, // MCRR
        0x1be0_0001, // AM
        0x1be0_0010,
        0x1be0_0007,
        0x1be0_0009,
        0x4e00_0000, // CCKNOWNPASS
        0x4e08_0000,
        0x8200_0005, // S1PTW, SET and FnV by the fault code
        0x8200_0010,
        0x8200_0410,
        0x9200_0010,
        0x9200_0410,
        0x9200_1c10,
        0x9200_0085,
        0x9200_0145, // WnR by CM
        0x9200_0045,
        0x9300_0005, // SSE by WnR
        0x9300_0045,
        0x9320_0005,
        0x9340_4005,
        0x9200_0071, // WnR by the fault code
        0x9200_0075,
        0x9200_0035,
        0x8200_0031,
        0x9200_0411, // AET by the fault code
        0x9200_0211,
        0x9200_0051,
        0x9200_0059,
        0xbe00_0000,
        0xbe00_0011,
        0xbe00_0411,
        0xbe00_0811,
        0xbe00_0c11,
        0xbe00_1811,
        0xca00_0022, // EX by ISV
        0xcb00_0022,
        0xd200_0062, // WnR of a watchpoint by CM
        0xd200_0162,
        0x8800_0000, // IL of a PC alignment fault
        0x8a00_0000,
    ];
    for word in words {
        for edition in [0, 5] {
            text += &format!("{edition} {word:016x}\n");
        }
        for edition in 0..2 {
            text += &format!("short {edition} {word:08x}\n");
        }
    }
    for code in 0..64u32 {
        text += &format!("{:x} {:016x}\n", code % 16, 0x9200_0000 + code);
        text += &format!("{:x} {:016x}\n", 15 - code % 16, 0x8200_0000 + code);
    }
    let traps = [
        (0x9200_0005u64, 0x8abcu64, 0x12340u64),
        (0x9200_0085, 0x8abc, 0x12340),
        (0x9200_000f, 0x8abc, u64::MAX),
        (0x9200_008f, 0x8abc, 0x12340),
        (0x9200_0410, u64::MAX, u64::MAX),
        (0x9200_0010, 0x8abc, u64::MAX),
        (0x9200_0005, 0x1_0000_0000, 0x12340),
        (0x9200_0005, 0x8abc, 0x12341),
        (0x9200_0005, 0x8abc, 0x100_0000_0000),
        (0x8200_0007, 0x4000, 0x40000),
        (0x8a00_0000, 0x8001, 0),
        (0xd200_0062, 0x1004, u64::MAX),
        (0x4a00_0001, u64::MAX, u64::MAX),
        (0x9200_0018, 0x8abc, 0),
        (0x9000_0005, 0, 0),
    ];
    for (esr, far, hpfar) in traps {
        for edition in [0, 1, 8] {
            text += &format!("{edition:x} {esr:016x} {far:016X} {hpfar:016x}\n");
        }
    }
    let shorts = [
        0x0200_0000u32,
        0x07e0_0001,
        0x0fe0_0001,
        0x13e1_0841,
        0x1be0_1003,
        0x1fe0_002a,
        0x1fe0_0020,
        0x1fe0_0000,
        0x4600_0012,
        0x4fe8_0000,
        0x5a00_0000,
        0x8200_0007,
        0x8200_0018,
        0x8800_0000,
        0x9383_0045,
        0x9200_0410,
        0x9200_0011,
        0x9200_0811,
        0x9200_0c11,
        0x9200_0051,
        0x9200_0019,
        0x9200_0022,
        0x9000_0005,
        0x9200_0008,
        0x0600_0002,
        0x0fe0_0201,
        0x13e1_0c41,
        0x13e1_4841,
        0x07f0_0000,
        0x23e7_c000,
        0x33e1_0800,
        0x1be0_000b,
        0x1be0_0008,
        0x1fe0_000a,
        0x4400_0100,
        0x4e10_0000,
        0x8200_0405,
        0x8200_0205,
        0x8200_0090,
        0x8200_0810,
        0x9200_4005,
        0x9200_8005,
        0x9210_0005,
        0x93c3_0005,
        0x938f_0005,
        0x939f_0005,
        0x9383_0145,
        0x9383_0085,
        0x9200_0151,
        0x9200_0119,
        0x93a3_0005,
        0x9363_0047,
        0x9200_0105,
        0x9200_0285,
        0x9200_0091,
        0x9200_0405,
        0x9200_0810,
        0x9200_0419,
        0x9200_0451,
        0x9200_0c51,
        0x9200_0059,
        0x9383_0010,
        0x9383_0011,
        0x9383_0015,
        0x9383_0013,
    ];
    for hsr in shorts {
        for edition in 0..3 {
            text += &format!("short {edition} {hsr:08x}\n");
        }
    }
    for code in 0..64u32 {
        text += &format!("short {} {:08x}\n", code % 2, 0x9200_0000 + code);
        text += &format!("short {} {:08x}\n", 1 - code % 2, 0x8200_0000 + code);
    }
    text + NO_LINES
}

/// Lines that ask nothing, and some that do between them.
const NO_LINES: &str = "x\n\n0 92000005\n0 0x00000000920005\n0 0000000092000005\r\nshort 0 0000000092000005\n\
    short0 92000005\nShort 0 92000005\nshort  92000005\nshort 0_92000005\nshort g 92000005\nshort 0 9200000g\n\
    0 0000000092000005 0000000000008abc\n0 0000000092000005 0000000000008abc 0000000000012340 \n\
    0 0000000092000005_0000000000008abc 0000000000012340\n0 0000000092000005 0000000000008abc_0000000000012340\n\
    0 0000000092000005 000000000000 abc 0000000000012340\n0 0000000092000005 0000000000008abc 000000000001234g\n\
    g 0000000092000005 0000000000008abc 0000000000012340\n0 0000000092000005";

#[cfg(test)]
mod tests {
    use super::*;
    use crate::catalogue::class_of;
    use crate::form::{Family, Kind};
    use crate::syndrome::lacks_il;
    use std::collections::BTreeSet;
    use std::sync::LazyLock;

    /// Words around some records of each class: up to two bits turned over.
    fn words_around_records(form: &Form) -> Vec<u32> {
        let mut samples = Vec::new();
        for class in form.every_class() {
            let mut number = 0u32;
            form.records_of_class(class, &mut |_, word, _| {
                number += 1;
                if number.is_power_of_two() && number.ilog2().is_multiple_of(2) {
                    samples.push(word);
                }
            });
        }
        let pairs = (0..26).flat_map(|first| (first..26).map(move |second| (first, second)));
        let around = |&sample| pairs.clone().map(move |(a, b)| sample ^ (1 << a) ^ (1 << b));
        let words = samples.iter().flat_map(around);
        words.filter(|&word| !lacks_il(form, word)).collect()
    }

    #[test]
    fn a_word_breaks_a_rule_exactly_where_no_edition_has_it() {
        for form in [&LONG, &SHORT] {
            let words = words_around_records(form);
            let catalogue = Catalogue::of(form, words.iter().copied());
            for word in words {
                let rule = why(form, word);
                let class = class_of(word);
                assert_eq!(
                    rule.is_none(),
                    catalogue.find(word).is_some(),
                    "{class:#x} {word:#x} {rule:?}"
                );
            }
        }
    }

    /// Fields that others hang on.
    const DECIDING: [&str; 7] = ["CV", "CCKNOWNPASS", "AM", "ISV", "CM", "WnR", "code"];

    /// A family with one value of each field that nothing hangs on, but for
    /// the one that is asked for.
    fn narrowed(kind: &'static Kind, family: Family, asked: &str) -> Family {
        let others = kind.fields.iter().filter(|field| {
            field.name != asked && field.name != "DFSC" && !DECIDING.contains(&field.name)
        });
        others.fold(family, |family, field| {
            let first = (0..field.values()).find(|&value| family.allows(field.name, value));
            family.with(field.name, first)
        })
    }

    /// The lines of all records of a form that say what a value means.
    fn lines_that_say_something(form: &'static Form) -> BTreeSet<String> {
        let mut lines = BTreeSet::new();
        for class in form.every_class() {
            let kind = form.kind_of_class(class).expect("a class of the form");
            for edition in form.every_edition() {
                for family in (form.families)(kind, class, edition) {
                    for field in kind.fields {
                        let family = narrowed(kind, family.clone(), field.name);
                        family.each(class, &mut |values, _| {
                            let values = values.to_vec();
                            let record = Record { kind, class: class.into(), values };
                            let text = fields(form, &record);
                            lines.extend(text.lines().filter(is_said).map(String::from));
                        });
                    }
                }
            }
        }
        lines
    }

    fn is_said(line: &&str) -> bool {
        line.split_once(" = ").is_some_and(|(_, value)| value.contains(": "))
    }

    /// The lines of the stored answers, on the long form and on the short one.
    static STORED: LazyLock<[BTreeSet<String>; 2]> = LazyLock::new(|| {
        let questions = questions();
        [false, true].map(|is_short| {
            let own = questions.lines().filter(|line| line.starts_with("short") == is_short);
            let input = own.map(|line| format!("{line}\n")).collect::<String>();
            let answers = String::from_utf8(explain(input.as_bytes())).expect("text");
            answers.lines().map(String::from).collect()
        })
    });

    fn stored_lines(form: &Form) -> &'static BTreeSet<String> {
        &STORED[usize::from(is_short(form))]
    }

    /// The texts of the tables that a form's fields go by.
    fn texts_of_the_tables(form: &Form) -> Vec<String> {
        let both = [
            LENGTHS,
            VALIDITY,
            CONDITIONS,
            WAITS,
            MCR,
            MCRR,
            LDC,
            OFFSETS,
            ADDRESSING,
            PASSES,
            EXTERNAL,
            WALKS,
            SYNDROMES,
            MAINTENANCE,
            ACCESSES,
            SIZES,
            EXTENSIONS,
            SEMANTICS,
        ];
        let own: &[&[&str]] = match is_short(form) {
            true => &[HIFAR, HDFAR, SHORT_ASYNCHRONOUS, SIMD],
            false => &[FAR, ERROR_TYPES, STEPS, ASYNCHRONOUS, WIDTHS, EXCLUSIVES],
        };
        let tables = both.iter().chain(own).flat_map(|table| table.iter());
        let tables = tables.filter(|text| !text.is_empty()).map(|&text| Some(text.into()));
        let of_form = |code| match is_short(form) {
            true => [short_fault(code), None, None],
            false => [fault(code), error(code), (code < 32).then(|| register(code))],
        };
        let numbered =
            (0..64).flat_map(|n| of_form(n).into_iter().chain([class_name(is_short(form), n)]));
        tables.chain(numbered).flatten().collect()
    }

    #[test]
    fn the_stored_answers_have_every_text() {
        for form in [&LONG, &SHORT] {
            let stored = stored_lines(form);
            let reached = lines_that_say_something(form);
            let missing: Vec<&String> = reached.difference(stored).collect();
            assert!(missing.is_empty(), "{missing:#?}");
            let said = stored.iter().filter_map(|line| line.split_once(": "));
            let said: BTreeSet<&str> = said.map(|(_, text)| text).collect();
            let texts = texts_of_the_tables(form);
            let unused: Vec<&String> =
                texts.iter().filter(|text| !said.contains(text.as_str())).collect();
            assert!(unused.is_empty(), "{unused:#?}");
        }
    }

    /// What is said beside the fields. "refused 1: the edition is above 15"
    /// is missing: no such edition can be typed.
    const OTHER_LINES: [&str; 25] = [
        "taken",
        "no line",
        "refused 1: the edition is above 1",
        "refused 2: bits 63:32 of the syndrome are not zero",
        "refused 3: EC 31:26 is no class of the build from AArch32",
        "refused 3: EC 31:26 is no class of the build in the short form",
        "refused 4: IL 25 is 0 where it must be 1",
        "refused 5: no edition has it",
        "refused 6: this edition doesn't have it, others do",
        "refused 7: a bit of HPFAR outside 39:4 is set",
        "refused 7: a bit of HPFAR outside 43:4 is set",
        "refused 8: bits 63:32 of FAR are not zero",
        "needs LPA2",
        "needs HAFDBS",
        "needs RAS",
        "not with RAS",
        "editions 0",
        "editions 1",
        "virtual address 0x8abc: FAR",
        "virtual address not known: FnV is 1, and FAR holds an UNKNOWN value",
        "intermediate address 0x1234000: the page in HPFAR alone, since S1PTW is 1",
        "intermediate address 0x1234abc: the page in HPFAR with FAR 11:0",
        "intermediate address not known: this code, with this S1PTW, leaves HPFAR UNKNOWN",
        "no intermediate address: this class has none",
        "no address: this class has none",
    ];

    #[test]
    fn the_stored_answers_have_every_other_line() {
        let [long, short] = &*STORED;
        for line in OTHER_LINES {
            assert!(long.contains(line) || short.contains(line), "{line}");
        }
    }

    #[test]
    fn the_stored_answers_have_every_rule() {
        for lines in &*STORED {
            let rules = lines.iter().filter(|line| line.starts_with("why: "));
            assert_eq!(rules.count(), 20);
        }
    }
}
