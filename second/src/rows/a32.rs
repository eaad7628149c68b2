//! Questions to the calls on A32 loads and stores.

use super::Turn;
use crate::a32::{forms, Fields, Form};
use crate::call::Call;
use crate::cases::state;
use crate::guest::State;
use crate::random::Random;
use crate::status::{Marks, MODES};

pub fn questions() -> Vec<Call> {
    let words = words();
    let decoded = words.iter().map(|&word| Call::Decode { word });
    let encoded = fields().into_iter().map(|fields| Call::Encode { fields });
    let described = accesses().into_iter().map(|(word, state)| Call::Describe { word, state });
    decoded.chain(encoded).chain(described).collect()
}

/// Fields of a form: condition AL, base 2, register 4, offset 5 or register 6, a
/// list of registers 0, 2 and 15; an offset that is added, and no write-back.
fn sample(form: &Form) -> Vec<(char, u32)> {
    let value = |letter| match letter {
        'c' => 14,
        'p' | 'u' => 1,
        'n' => 2,
        't' => 4,
        'i' => 5,
        'm' => 6,
        'r' => 0x8005,
        _ => 0,
    };
    form.letters().chars().map(|letter| (letter, value(letter))).collect()
}

/// The sample with other values of some fields. A field that the form lacks is
/// passed over.
fn with(form: &Form, values: &[(char, u32)]) -> Vec<(char, u32)> {
    let mut fields = sample(form);
    for &(letter, value) in values {
        fields.iter_mut().filter(|(c, _)| *c == letter).for_each(|field| field.1 = value);
    }
    fields
}

/// The word of the sample with other values of some fields.
fn word_with(form: &Form, values: &[(char, u32)]) -> u32 {
    form.pattern(&with(form, values))
}

/// Each bit of each form's sample turned over; each form's bases, registers, offset
/// registers and lists with every addressing; conditions; random words of the groups.
fn words() -> Vec<u32> {
    let mut words = Vec::new();
    for form in forms() {
        let word = word_with(&form, &[]);
        words.push(word);
        words.extend((0..32).map(|bit| word ^ 1 << bit));
        words.extend(tied_fields(&form).iter().map(|values| word_with(&form, values)));
    }
    let ldr = forms().remove(0);
    words.extend((0..16).map(|cond| word_with(&ldr, &[('c', cond)])));
    let mut random = Random::seeded(18);
    for group in [0x0000_0090, 0x0400_0000, 0x0600_0000, 0x0800_0000] {
        words.extend((0..40).map(|_| random.word() & 0x81ff_f06f | 0x6000_0000 | group));
    }
    words
}

/// Values of fields that a rule ties to each other.
fn tied_fields(form: &Form) -> Vec<Vec<(char, u32)>> {
    let mut values = Vec::new();
    for (p, w) in [(1, 0), (1, 1), (0, 0), (0, 1)] {
        let addressing = [('p', p), ('w', w)];
        let mut push = |tied: &[(char, u32)]| values.push([&addressing, tied].concat());
        for (n, t) in [(2, 2), (3, 2), (4, 2), (15, 2), (14, 15), (15, 15), (15, 14), (15, 3)] {
            push(&[('n', n), ('t', t)]);
        }
        if p == 1 && w == 0 {
            (0..16).for_each(|t| push(&[('t', t)]));
        }
        if form.letters().contains('m') {
            for (m, t) in [(2, 2), (3, 2), (5, 4), (15, 4), (14, 12)] {
                push(&[('m', m), ('t', t)]);
            }
        }
        if form.letters().contains('r') {
            for (n, list) in [
                (2, 0),
                (2, 4),
                (2, 0xfffb),
                (0, 1),
                (0, 0xffff),
                (14, 0x4000),
                (14, 0xbfff),
                (15, 0x8000),
                (15, 1),
            ] {
                push(&[('n', n), ('r', list)]);
            }
        }
    }
    values
}

/// Each form's sample; each field at its ends and too large for its place, but for a
/// flag, which a row can't have too large; tied fields; literals of stores, which no
/// form has.
fn fields() -> Vec<Fields> {
    let mut rows: Vec<Vec<u64>> = Vec::new();
    let row = |form: &Form, values: &[(char, u32)]| {
        let head = [form.addressing as u64, form.number.into()];
        let values = values.iter().map(|&(_, value)| value.into());
        head.into_iter().chain(values).collect::<Vec<u64>>()
    };
    for form in forms() {
        rows.push(row(&form, &sample(&form)));
        for (letter, value) in sample(&form) {
            let values = 1 << form.width(letter);
            for other in [0, values - 1, values, values + value, 0x8000_0000 + value, u32::MAX] {
                rows.push(row(&form, &with(&form, &[(letter, other)])));
            }
        }
        let tied = tied_fields(&form);
        rows.extend(tied.iter().step_by(3).map(|values| row(&form, &with(&form, values))));
    }
    rows.extend([1, 3, 5, 9].map(|transfer| vec![2, transfer, 14, 1, 4, 5]));
    rows.iter().filter_map(|row| Fields::from_row(row)).collect()
}

/// A state with all registers' numbers told apart by their values.
fn plain_state(status: u32, pc: u32) -> State {
    state(status, pc, 0)
}

/// Instructions in states.
pub fn accesses() -> Vec<(u32, State)> {
    let mut accesses = every_form();
    accesses.extend(modes());
    accesses.extend(ends());
    accesses.extend(lists());
    accesses.extend(order_of_tests());
    accesses.extend(status_words());
    accesses
}

/// Each form with each addressing and either U.
fn every_form() -> Vec<(u32, State)> {
    let mut accesses = Vec::new();
    for form in forms() {
        for (p, w) in [(1, 0), (1, 1), (0, 0), (0, 1)] {
            for u in [0, 1] {
                let word = word_with(&form, &[('p', p), ('u', u), ('w', w)]);
                accesses.push((word, plain_state(0x10, 0x8000)));
            }
        }
    }
    accesses
}

/// Each register as base, and as offset, in every mode.
fn modes() -> Vec<(u32, State)> {
    let mut accesses = Vec::new();
    let by_name = |name: &str| forms().into_iter().find(|form| form.name == name).expect("a form");
    let (str, ldr, stm) = (by_name("STR (immediate)"), by_name("LDR (register)"), by_name("STM"));
    for mode in MODES {
        for n in 0..16 {
            let state = plain_state(mode.into(), 0x1000);
            accesses.push((word_with(&str, &[('n', n)]), state.clone()));
            if n > 7 {
                let offset = word_with(&ldr, &[('n', 0), ('m', n)]);
                accesses.push((offset, state.clone()));
                accesses.push((word_with(&stm, &[('n', n), ('w', 1)]), state));
            }
        }
    }
    accesses
}

/// PC, bases and offsets at both ends of the address range, unaligned ones too; the
/// literals, which alone align.
fn ends() -> Vec<(u32, State)> {
    let mut accesses = Vec::new();
    let numbers = [0, 1, 2, 3, 4, 0x7fff_ffff, 0x8000_0000, 0xffff_fff4, 0xffff_fff7];
    let numbers: Vec<u32> =
        numbers.into_iter().chain(0xffff_fff8..=0xffff_fffb).chain([u32::MAX]).collect();
    let mut turn = Turn::over(2);
    for form in forms() {
        // One transfer of each group will do.
        if !form.name.starts_with("LDRB") && !form.name.starts_with("STRH") {
            continue;
        }
        for &pc in &numbers {
            let word = word_with(&form, &[('u', turn.next()), ('n', 15)]);
            accesses.push((word, plain_state(0x1f, pc)));
        }
        for &base in &numbers {
            for offset in [1, 0x8000_0000, u32::MAX] {
                let values = [('u', turn.next()), ('w', 1), ('i', offset % 256)];
                let mut state = plain_state(0x10, 0x8000);
                (state.registers[2], state.registers[6]) = (base, offset);
                accesses.push((word_with(&form, &values), state));
            }
        }
    }
    accesses
}

/// The four modes of a list, with and without write-back, at bases where its
/// addresses wrap.
fn lists() -> Vec<(u32, State)> {
    let mut accesses = Vec::new();
    let all = forms();
    for form in all.iter().filter(|form| form.letters().contains('r')) {
        for (p, u) in [(0, 0), (0, 1), (1, 0), (1, 1)] {
            for (list, base) in [
                (1, 0),
                (0x8000, 3),
                (0x00f1, 0xffff_fffc),
                (0x8100, 0x8000),
                (0xfffb, 0x3c),
                (0xff00, 0xffff_ffff),
            ] {
                let w = u32::from(list != 1);
                let values = [('p', p), ('u', u), ('w', w), ('r', list)];
                let mut state = plain_state(0x10, 0x8000);
                state.registers[2] = base;
                accesses.push((word_with(form, &values), state));
            }
        }
    }
    accesses
}

/// Words that are a form and that are none, in states that are refused and in T32.
fn order_of_tests() -> Vec<(u32, State)> {
    let mut accesses = Vec::new();
    for word in [0xe591_0004, 0xf591_0004, 0xe1a0_0000, 0x0000_0000, u32::MAX] {
        for status in [0x10, 0x30, 0x16, 0x36, 0x0100_0030, 0x0020_0010] {
            accesses.push((word, State { vbar: 0x1010, ..plain_state(status, 0x8000) }));
        }
    }
    accesses
}

/// Each bit of the status word alone, with all marks and with none.
fn status_words() -> Vec<(u32, State)> {
    let mut accesses = Vec::new();
    for bit in 0..32 {
        for marks in [Marks::NONE, Marks::ALL] {
            let state = State { marks, ..plain_state(0x13 ^ 1 << bit, 0x8000) };
            accesses.push((0xe59d_0004, state));
        }
    }
    accesses
}
