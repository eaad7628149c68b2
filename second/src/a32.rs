//! A32 loads and stores (request C-18): which words are one, its fields, and
//! what it does.
//!
//! No word is taken apart to be judged. Each form is a *pattern*, a mask and a
//! value written as the manual's row of 32 bits, and each thing that the manual
//! calls another instruction or UNPREDICTABLE is a list of patterns too: "base
//! and target alike" is sixteen of them. A word is one of these instructions
//! when it matches a form and none of what the form excludes. How many words a
//! form takes is counted by enumerating the free bits that its exclusions name.

use crate::guest::State;
use crate::status::Status;
use crate::widen::mapped;

/// The bits that are fixed, and what they are.
#[derive(Debug, Clone, Copy, PartialEq, Eq)]
pub struct Pattern {
    pub mask: u32,
    pub value: u32,
}

impl Pattern {
    pub fn matches(self, word: u32) -> bool {
        word & self.mask == self.value
    }
}

/// A form's row of 32 bits: `0` and `1` are fixed, and each letter is a field,
/// its highest bit first.
#[derive(Debug, Clone, Copy, PartialEq, Eq)]
pub struct Row(&'static str);

impl Row {
    fn fixed(self) -> Pattern {
        let bit = |c: char, want: char| u32::from(c == want);
        let number = |want| self.0.chars().fold(0, |n, c| (n << 1) | bit(c, want));
        let value = number('1');
        Pattern { mask: number('0') | value, value }
    }

    /// The word's bits of a field, or nothing where the form lacks it.
    fn field(self, letter: char, word: u32) -> Option<u32> {
        let places = self.0.chars().enumerate().filter(|(_, c)| *c == letter);
        places.fold(None, |n, (at, _)| Some(n.unwrap_or(0) << 1 | word >> (31 - at) & 1))
    }

    /// The bits of a field.
    fn width(self, letter: char) -> usize {
        self.0.chars().filter(|&c| c == letter).count()
    }

    /// The pattern in which some fields have these values.
    fn with(self, values: &[(char, u32)]) -> Pattern {
        let mut pattern = Pattern { mask: 0, value: 0 };
        for &(letter, value) in values {
            let width = self.width(letter);
            let places = self.0.chars().enumerate().filter(|(_, c)| *c == letter);
            for (index, (at, _)) in places.enumerate() {
                let bit = value >> (width - 1 - index) & 1;
                pattern.mask |= 1 << (31 - at);
                pattern.value |= bit << (31 - at);
            }
        }
        pattern
    }
}

#[derive(Debug, Clone, Copy, PartialEq, Eq)]
pub enum Transfer {
    Word,
    Narrow,
    Dual,
    Multiple,
}

/// How the address is given.
#[derive(Debug, Clone, Copy, PartialEq, Eq)]
pub enum Addressing {
    Immediate,
    Register,
    Literal,
    List,
}

impl Addressing {
    const ALL: [Addressing; 4] =
        [Addressing::Immediate, Addressing::Register, Addressing::Literal, Addressing::List];

    /// The letters of the fields, in the order of a row of numbers.
    fn letters(self) -> &'static str {
        match self {
            Addressing::Immediate => "cpuwnti",
            Addressing::Register => "cpuwntm",
            Addressing::Literal => "cuti",
            Addressing::List => "cpuwnr",
        }
    }

    /// How many transfers a row of numbers can name.
    fn transfers(self) -> u32 {
        match self {
            Addressing::List => 2,
            _ => 10,
        }
    }
}

/// What a row of numbers says of an instruction, whether or not a word has it.
#[derive(Debug, Clone, PartialEq, Eq)]
pub struct Fields {
    addressing: Addressing,
    /// Which of the ten transfers; of a list, whether it is loaded.
    transfer: u32,
    /// The fields by their letters.
    values: Vec<u32>,
}

impl Fields {
    pub fn from_row(row: &[u64]) -> Option<Fields> {
        let [addressing, transfer, values @ ..] = row else { return None };
        let addressing = *Addressing::ALL.get(usize::try_from(*addressing).ok()?)?;
        let transfer = u32::try_from(*transfer).ok()?;
        let values: Vec<u32> =
            values.iter().map(|&value| u32::try_from(value).ok()).collect::<Option<_>>()?;
        let letters = addressing.letters();
        let flags_fit = letters.chars().zip(&values).all(|(c, &v)| v < 2 || !"puw".contains(c));
        let shaped = transfer < addressing.transfers() && letters.len() == values.len();
        (shaped && flags_fit).then_some(Fields { addressing, transfer, values })
    }

    pub fn row(&self) -> Vec<u64> {
        let head = [self.addressing as u32, self.transfer];
        head.iter().chain(&self.values).map(|&number| number.into()).collect()
    }

    /// The word of some form that has the fields, or none: refusal 19.
    pub fn word(&self, forms: &[Form]) -> Option<u32> {
        let same =
            |form: &&Form| form.addressing == self.addressing && form.number == self.transfer;
        forms.iter().find(same)?.word(&self.values)
    }
}

#[derive(Debug, Clone, PartialEq, Eq)]
pub struct Form {
    pub name: &'static str,
    pub addressing: Addressing,
    /// The transfer's number in a row of numbers.
    pub number: u32,
    pub transfer: Transfer,
    pub load: bool,
    row: Row,
    fixed: Pattern,
    excluded: Vec<Pattern>,
}

impl Form {
    /// A word's fields.
    pub fn fields(&self, word: u32) -> Fields {
        let letters = self.letters().chars();
        let value = |letter| self.row.field(letter, word).expect("a field of the form");
        Fields {
            addressing: self.addressing,
            transfer: self.number,
            values: letters.map(value).collect(),
        }
    }

    /// The base of a word of this form; a literal's isn't among its fields.
    pub fn base(&self, word: u32) -> Option<u32> {
        self.row.field('n', word)
    }

    /// The letters of its fields, in the order of a row of numbers.
    pub fn letters(&self) -> &'static str {
        self.addressing.letters()
    }

    /// The bits of a field; a literal's base and addressing have none.
    pub fn width(&self, letter: char) -> usize {
        self.row.width(letter)
    }

    /// The word with these fields, whether or not it is taken. Each is cut to its
    /// bits.
    pub fn pattern(&self, values: &[(char, u32)]) -> u32 {
        self.fixed.value | self.row.with(values).value
    }

    /// The word that has these values in its fields, if this form takes it.
    fn word(&self, values: &[u32]) -> Option<u32> {
        let named: Vec<(char, u32)> = self.letters().chars().zip(values.iter().copied()).collect();
        let fits = |&(letter, value): &(char, u32)| u64::from(value) < 1 << self.width(letter);
        let word = self.pattern(&named);
        (named.iter().all(fits) && self.takes(word)).then_some(word)
    }

    fn takes(&self, word: u32) -> bool {
        self.fixed.matches(word) && !self.excluded.iter().any(|p| p.matches(word))
    }

    fn exclude(&mut self, values: &[(char, u32)]) {
        self.excluded.push(self.row.with(values));
    }

    /// The number by which a library tells its forms.
    #[cfg(feature = "compare")]
    pub fn code(&self) -> u64 {
        16 * self.addressing as u64 + u64::from(self.number)
    }

    /// How many words it takes: fifteen conditions alike; the free bits that no
    /// exclusion names count twice each, and the others are enumerated.
    #[cfg(any(feature = "compare", test))]
    pub fn words(&self) -> u64 {
        let always = self.row.with(&[('c', 14)]);
        let fixed = self.fixed.mask | self.row.with(&[('c', 15)]).mask;
        let named = self.excluded.iter().fold(0, |mask, p| mask | p.mask) & !fixed;
        let free = (!fixed & !named).count_ones();
        let mut taken = 0;
        let mut bits = 0u32;
        loop {
            taken += u64::from(self.takes(self.fixed.value | always.value | bits));
            bits = bits.wrapping_sub(named) & named;
            if bits == 0 {
                return (15 * taken) << free;
            }
        }
    }
}

/// Every form stands under a condition, which isn't 1111.
fn form(
    name: &'static str,
    addressing: Addressing,
    number: u32,
    transfer: Transfer,
    load: bool,
    row: &'static str,
) -> Form {
    let row = Row(row);
    let excluded = vec![row.with(&[('c', 15)])];
    Form { name, addressing, number, transfer, load, row, fixed: row.fixed(), excluded }
}

const ALL: std::ops::Range<u32> = 0..16;

/// A base that is written back is neither 15 nor transferred.
fn exclude_write_back(form: &mut Form) {
    for back in [('p', 0), ('w', 1)] {
        form.exclude(&[back, ('n', 15)]);
        for t in ALL {
            form.exclude(&[back, ('n', t), ('t', t)]);
            if form.transfer == Transfer::Dual {
                form.exclude(&[back, ('n', (t + 1) % 16), ('t', t)]);
            }
        }
    }
}

/// What a transfer asks of its register.
fn exclude_target(form: &mut Form) {
    match form.transfer {
        Transfer::Narrow => form.exclude(&[('t', 15)]),
        Transfer::Dual => {
            ALL.filter(|t| t % 2 == 1).for_each(|t| form.exclude(&[('t', t)]));
            form.exclude(&[('t', 14)]);
        }
        Transfer::Word | Transfer::Multiple => (),
    }
}

struct Single {
    names: [&'static str; 3],
    number: u32,
    transfer: Transfer,
    load: bool,
    /// With an immediate, with a register, and the literal of a load.
    rows: [&'static str; 3],
}

impl Single {
    fn form(&self, addressing: Addressing) -> Form {
        let which = addressing as usize;
        let mut form = form(
            self.names[which],
            addressing,
            self.number,
            self.transfer,
            self.load,
            self.rows[which],
        );
        exclude_target(&mut form);
        form
    }

    fn immediate(&self) -> Form {
        let mut form = self.form(Addressing::Immediate);
        form.exclude(&[('p', 0), ('w', 1)]);
        if self.load {
            form.exclude(&[('n', 15)]);
        }
        exclude_write_back(&mut form);
        form
    }

    fn register(&self) -> Form {
        let mut form = self.form(Addressing::Register);
        form.exclude(&[('p', 0), ('w', 1)]);
        form.exclude(&[('m', 15)]);
        if self.load && self.transfer == Transfer::Dual {
            for t in ALL {
                form.exclude(&[('m', t), ('t', t)]);
                form.exclude(&[('m', (t + 1) % 16), ('t', t)]);
            }
        }
        exclude_write_back(&mut form);
        form
    }
}

/// The rows of the manual, in the order of the transfers' numbers.
fn singles() -> Vec<Single> {
    let mut number = 0..;
    let mut single = |names, transfer, load, rows| {
        let number = number.next().expect("a number");
        Single { names, number, transfer, load, rows }
    };
    let word = Transfer::Word;
    let narrow = Transfer::Narrow;
    let dual = Transfer::Dual;
    vec![
        single(
            ["LDR (immediate)", "LDR (register)", "LDR (literal)"],
            word,
            true,
            [
                "cccc010pu0w1nnnnttttiiiiiiiiiiii",
                "cccc011pu0w1nnnntttt00000000mmmm",
                "cccc0101u0011111ttttiiiiiiiiiiii",
            ],
        ),
        single(
            ["STR (immediate)", "STR (register)", ""],
            word,
            false,
            ["cccc010pu0w0nnnnttttiiiiiiiiiiii", "cccc011pu0w0nnnntttt00000000mmmm", ""],
        ),
        single(
            ["LDRB (immediate)", "LDRB (register)", "LDRB (literal)"],
            narrow,
            true,
            [
                "cccc010pu1w1nnnnttttiiiiiiiiiiii",
                "cccc011pu1w1nnnntttt00000000mmmm",
                "cccc0101u1011111ttttiiiiiiiiiiii",
            ],
        ),
        single(
            ["STRB (immediate)", "STRB (register)", ""],
            narrow,
            false,
            ["cccc010pu1w0nnnnttttiiiiiiiiiiii", "cccc011pu1w0nnnntttt00000000mmmm", ""],
        ),
        single(
            ["LDRH (immediate)", "LDRH (register)", "LDRH (literal)"],
            narrow,
            true,
            [
                "cccc000pu1w1nnnnttttiiii1011iiii",
                "cccc000pu0w1nnnntttt00001011mmmm",
                "cccc0001u1011111ttttiiii1011iiii",
            ],
        ),
        single(
            ["STRH (immediate)", "STRH (register)", ""],
            narrow,
            false,
            ["cccc000pu1w0nnnnttttiiii1011iiii", "cccc000pu0w0nnnntttt00001011mmmm", ""],
        ),
        single(
            ["LDRSB (immediate)", "LDRSB (register)", "LDRSB (literal)"],
            narrow,
            true,
            [
                "cccc000pu1w1nnnnttttiiii1101iiii",
                "cccc000pu0w1nnnntttt00001101mmmm",
                "cccc0001u1011111ttttiiii1101iiii",
            ],
        ),
        single(
            ["LDRSH (immediate)", "LDRSH (register)", "LDRSH (literal)"],
            narrow,
            true,
            [
                "cccc000pu1w1nnnnttttiiii1111iiii",
                "cccc000pu0w1nnnntttt00001111mmmm",
                "cccc0001u1011111ttttiiii1111iiii",
            ],
        ),
        single(
            ["LDRD (immediate)", "LDRD (register)", "LDRD (literal)"],
            dual,
            true,
            [
                "cccc000pu1w0nnnnttttiiii1101iiii",
                "cccc000pu0w0nnnntttt00001101mmmm",
                "cccc0001u1001111ttttiiii1101iiii",
            ],
        ),
        single(
            ["STRD (immediate)", "STRD (register)", ""],
            dual,
            false,
            ["cccc000pu1w0nnnnttttiiii1111iiii", "cccc000pu0w0nnnntttt00001111mmmm", ""],
        ),
    ]
}

fn multiple(name: &'static str, load: bool, row: &'static str) -> Form {
    let mut form = form(name, Addressing::List, load.into(), Transfer::Multiple, load, row);
    form.exclude(&[('n', 15)]);
    form.exclude(&[('r', 0)]);
    if load {
        for n in ALL {
            let base = form.row.with(&[('w', 1), ('n', n)]);
            let listed = 1 << n;
            form.excluded.push(Pattern { mask: base.mask | listed, value: base.value | listed });
        }
    }
    form
}

/// Every form, with what it excludes.
pub fn forms() -> Vec<Form> {
    let mut forms = Vec::new();
    for single in singles() {
        forms.push(single.immediate());
        forms.push(single.register());
        if single.load {
            forms.push(single.form(Addressing::Literal));
        }
    }
    forms.push(multiple("LDM", true, "cccc100pu0w1nnnnrrrrrrrrrrrrrrrr"));
    forms.push(multiple("STM", false, "cccc100pu0w0nnnnrrrrrrrrrrrrrrrr"));
    forms
}

/// The form that a word has, or none: refusal 19.
pub fn find(forms: &[Form], word: u32) -> Option<&Form> {
    let mut found = forms.iter().filter(|form| form.takes(word));
    let form = found.next();
    assert!(found.next().is_none(), "two forms take {word:08x}");
    form
}

/// What a word does in a guest's state: its fields and its effect, or the number
/// of the refusal.
pub fn describe(forms: &[Form], state: &State, word: u32) -> Result<(Fields, Effect), u8> {
    let status = Status::unpack(state.status);
    if !status.is_accepted(&state.marks) {
        return Err(9);
    }
    if status.t {
        return Err(19);
    }
    let form = find(forms, word).ok_or(19)?;
    let value = |register| match mapped(status.mode.into(), register) {
        Some(number) => state.registers[number as usize],
        None => state.pc.wrapping_add(8),
    };
    Ok((form.fields(word), form.effect(word, value)))
}

#[derive(Debug, PartialEq, Eq)]
pub struct Effect {
    /// In transfer order.
    pub registers: Vec<u32>,
    pub address: u32,
    pub change: i64,
}

impl Form {
    /// What a word of this form does, by the values of the registers; register
    /// 15's is PC plus 8.
    pub fn effect(&self, word: u32, value: impl Fn(u32) -> u32) -> Effect {
        let field = |letter| self.row.field(letter, word);
        let sign = if field('u') == Some(1) { 1 } else { -1 };
        let registers: Vec<u32> = match (field('r'), field('t')) {
            (Some(list), _) => ALL.filter(|n| list >> n & 1 == 1).collect(),
            (None, Some(t)) if self.transfer == Transfer::Dual => vec![t, t + 1],
            (None, t) => t.into_iter().collect(),
        };
        let size = match (field('r'), field('i'), field('m')) {
            (Some(_), _, _) => 4 * registers.len() as i64,
            (_, Some(immediate), _) => i64::from(immediate),
            (_, _, rm) => i64::from(value(rm.expect("an offset"))),
        };
        let base = match field('n') {
            Some(n) => i64::from(value(n)),
            None => i64::from(value(15)) / 4 * 4,
        };
        let moved = base + sign * size;
        let before = field('p') != Some(0);
        // The lower end of a list's words: from the base up, or up to the base,
        // and 4 higher where the base itself is left out below or taken above.
        let address = match (field('r'), before) {
            (Some(_), _) => base.min(moved) + if before == (sign == 1) { 4 } else { 0 },
            (None, true) => moved,
            (None, false) => base,
        };
        let back = match (field('r'), field('n')) {
            (Some(_), _) => field('w') == Some(1),
            (None, Some(_)) => !before || field('w') == Some(1),
            (None, None) => false,
        };
        let change = if back { sign * size } else { 0 };
        Effect { registers, address: address.rem_euclid(1 << 32) as u32, change }
    }
}

#[cfg(test)]
mod tests {
    use super::*;

    fn name(word: u32) -> Option<&'static str> {
        find(&forms(), word).map(|form| form.name)
    }

    /// Register n holds 0x1000 n, and register 15 reads 0x8008.
    fn effect(word: u32) -> Effect {
        let forms = forms();
        let value = |n| if n == 15 { 0x8008 } else { 0x1000 * n };
        find(&forms, word).expect("a form").effect(word, value)
    }

    /// Words that an assembler gave, and their instructions.
    #[test]
    fn assembled_words() {
        assert_eq!(name(0xe591_0004), Some("LDR (immediate)")); // ldr r0, [r1, #4]
        assert_eq!(name(0xe791_0002), Some("LDR (register)")); // ldr r0, [r1, r2]
        assert_eq!(name(0xe59f_0004), Some("LDR (literal)")); // ldr r0, [pc, #4]
        assert_eq!(name(0xe52d_0004), Some("STR (immediate)")); // push {r0}
        assert_eq!(name(0xe49d_0004), Some("LDR (immediate)")); // pop {r0}
        assert_eq!(name(0xe5d1_0000), Some("LDRB (immediate)")); // ldrb r0, [r1]
        assert_eq!(name(0xe1d1_00b2), Some("LDRH (immediate)")); // ldrh r0, [r1, #2]
        assert_eq!(name(0xe191_00d2), Some("LDRSB (register)")); // ldrsb r0, [r1, r2]
        assert_eq!(name(0xe1df_00f0), Some("LDRSH (literal)")); // ldrsh r0, [pc]
        assert_eq!(name(0xe1c1_20d8), Some("LDRD (immediate)")); // ldrd r2, r3, [r1, #8]
        assert_eq!(name(0xe181_20f4), Some("STRD (register)")); // strd r2, r3, [r1, r4]
        assert_eq!(name(0xe92d_4070), Some("STM")); // push {r4, r5, r6, lr}
        assert_eq!(name(0xe8bd_8070), Some("LDM")); // pop {r4, r5, r6, pc}
    }

    #[test]
    fn other_words() {
        assert_eq!(name(0xf591_0004), None); // condition 1111
        assert_eq!(name(0xe791_0102), None); // ldr r0, [r1, r2, lsl #2]
        assert_eq!(name(0xe791_0022), None); // ldr r0, [r1, r2, lsr #32]
        assert_eq!(name(0xe4b1_0004), None); // ldrt r0, [r1], #4
        assert_eq!(name(0xe0f1_00b2), None); // ldrht r0, [r1], #2
        assert_eq!(name(0xe8d1_0001), None); // ldm r1, {r0}^
        assert_eq!(name(0xe191_01b2), None); // ldrh with bit 8 set
        assert_eq!(name(0xe1a0_0000), None); // mov r0, r0
    }

    #[test]
    fn unpredictable_words() {
        assert_eq!(name(0xe5b1_1004), None); // ldr r1, [r1, #4]!
        assert_eq!(name(0xe5af_1004), None); // str r1, [pc, #4]!
        assert_eq!(name(0xe58f_1004), Some("STR (immediate)")); // str r1, [pc, #4]
        assert_eq!(name(0xe5d1_f000), None); // ldrb pc, [r1]
        assert_eq!(name(0xe591_f000), Some("LDR (immediate)")); // ldr pc, [r1]
        assert_eq!(name(0xe791_000f), None); // ldr r0, [r1, pc]
        assert_eq!(name(0xe1c1_30d8), None); // ldrd r3, ..
        assert_eq!(name(0xe1c1_e0d8), None); // ldrd lr, ..
        assert_eq!(name(0xe181_20d3), None); // ldrd r2, r3, [r1, r3]
        assert_eq!(name(0xe181_20f3), Some("STRD (register)")); // strd r2, r3, [r1, r3]
        assert_eq!(name(0xe0e1_20d8), None); // ldrd with P 0 and W 1
        assert_eq!(name(0xe891_0000), None); // ldm r1, {}
        assert_eq!(name(0xe89f_0001), None); // ldm pc, {r0}
        assert_eq!(name(0xe8b1_0002), None); // ldm r1!, {r1}
        assert_eq!(name(0xe8a1_0002), Some("STM")); // stm r1!, {r1}
        assert_eq!(name(0xe4bf_0004), None); // literal with P 0 and W 1
        assert_eq!(name(0xe5bf_0004), None); // literal with W 1
        assert_eq!(name(0xe41f_0004), None); // literal with P 0
    }

    #[test]
    fn effects() {
        let is = |word, registers: &[u32], address, change| {
            assert_eq!(effect(word), Effect { registers: registers.to_vec(), address, change });
        };
        is(0xe591_0004, &[0], 0x1004, 0); // ldr r0, [r1, #4]
        is(0xe511_0004, &[0], 0xffc, 0); // ldr r0, [r1, #-4]
        is(0xe5b1_0004, &[0], 0x1004, 4); // ldr r0, [r1, #4]!
        is(0xe411_0004, &[0], 0x1000, -4); // ldr r0, [r1], #-4
        is(0xe731_0002, &[0], 0xffff_f000, -0x2000); // ldr r0, [r1, -r2]!
        is(0xe1c1_20d8, &[2, 3], 0x1008, 0); // ldrd r2, r3, [r1, #8]
        is(0xe59f_0004, &[0], 0x800c, 0); // ldr r0, [pc, #4]
        is(0xe8b1_8005, &[0, 2, 15], 0x1000, 12); // ldmia r1!, {r0, r2, pc}
        is(0xe9b1_8005, &[0, 2, 15], 0x1004, 12); // ldmib
        is(0xe831_8005, &[0, 2, 15], 0xff8, -12); // ldmda
        is(0xe931_8005, &[0, 2, 15], 0xff4, -12); // ldmdb
        is(0xe881_0003, &[0, 1], 0x1000, 0); // stm r1, {r0, r1}
    }

    /// Only a literal aligns register 15.
    #[test]
    fn unaligned_pc() {
        let forms = forms();
        let at = |word| find(&forms, word).expect("a form").effect(word, |_| 0x800a).address;
        assert_eq!(at(0xe59f_0001), 0x8009); // ldr r0, [pc, #1]
        assert_eq!(at(0xe58f_0001), 0x800b); // str r0, [pc, #1]
    }

    /// The count of a form is that of all 2^32 words, by a sum that needs no
    /// enumeration.
    #[test]
    fn counts() {
        let forms = forms();
        let count = |name: &str| {
            let form = forms.iter().find(|form| form.name == name).expect("a form");
            form.words()
        };
        // 15 conditions, U, 16 targets, 4096 immediates
        assert_eq!(count("LDR (literal)"), 15 * 2 * 16 * 4096);
        // offset: 15 bases; pre- and post-indexed: 14 other than the target, or 15
        let addressed = 15 * 16 + 2 * (15 * 14 + 15);
        assert_eq!(count("LDR (immediate)"), 15 * 2 * addressed * 4096);
        // even targets below 14, and 15 offset registers less two
        let pairs = 7 * 16 + 2 * 7 * 13;
        assert_eq!(count("LDRD (register)"), 15 * 2 * pairs * 13);
        assert_eq!(count("LDM"), 15 * 4 * 15 * (0xffff + 0x7fff));
        assert_eq!(count("STM"), 15 * 4 * 15 * 2 * 0xffff);
    }
}
