//! A form of syndrome word: its kinds of record, its editions, and every
//! record that each edition has.
//!
//! A kind of record is described once, by the name and the bits of each field.
//! Records are enumerated, printed and parsed by that description. A record is
//! only ever turned into a word; the way back is to enumerate the records and
//! see which one makes the word.

use crate::edition::{Edition, EditionMask};

/// A field at bits high:low of the word.
#[derive(Debug, PartialEq, Eq)]
pub struct Field {
    pub name: &'static str,
    high: u32,
    low: u32,
}

pub const fn field(name: &'static str, high: u32, low: u32) -> Field {
    Field { name, high, low }
}

pub const fn bit(name: &'static str, at: u32) -> Field {
    field(name, at, at)
}

impl Field {
    pub fn width(&self) -> u32 {
        self.high - self.low + 1
    }

    /// The bits as the manual writes them.
    pub fn bits(&self) -> String {
        match self.width() {
            1 => self.high.to_string(),
            _ => format!("{}:{}", self.high, self.low),
        }
    }

    /// The field's bits of a word, where they stand.
    pub fn place(&self) -> u32 {
        (self.values() - 1) << self.low
    }

    /// What stands at the field's bits of a word.
    pub fn value_in(&self, word: u32) -> u32 {
        (word & self.place()) >> self.low
    }

    /// How many values fit.
    pub fn values(&self) -> u32 {
        1 << self.width()
    }
}

/// Classes that share a layout. The fields stand in the order of a record's words,
/// which show the kind's number first, and then the class where there are several.
/// What the layout fixes stands in every syndrome of the kind, and in no record.
#[derive(Debug, PartialEq, Eq)]
pub struct Kind {
    pub number: u64,
    pub classes: &'static [u8],
    pub fixed: u32,
    pub fields: &'static [Field],
}

impl Kind {
    pub fn has(&self, name: &str) -> bool {
        self.fields.iter().any(|field| field.name == name)
    }

    pub fn index(&self, name: &str) -> usize {
        let index = self.fields.iter().position(|field| field.name == name);
        index.expect("a field of this kind")
    }

    /// Whether a record holds its class.
    pub fn holds_class(&self) -> bool {
        self.classes.len() > 1
    }
}

pub struct Form {
    pub kinds: &'static [Kind],
    /// Of the kinds' classes, those that the form has.
    pub classes: &'static [u8],
    /// How many editions there are, numbered from 0.
    pub editions: u32,
    /// Whether IL must be 1 in a class, by its ISV (false where it has none).
    pub needs_il: fn(u8, bool) -> bool,
    /// The records of a class that an edition has. No record is in two of the
    /// families.
    pub families: fn(&'static Kind, u8, Edition) -> Vec<Family>,
    /// How many bits a virtual address has.
    pub address_bits: u32,
}

impl Form {
    pub fn edition(&self, number: u32) -> Option<Edition> {
        (number < self.editions).then_some(Edition(number))
    }

    pub fn every_edition(&self) -> impl Iterator<Item = Edition> {
        (0..self.editions).map(Edition)
    }

    pub fn kind_of_class(&self, class: u8) -> Option<&'static Kind> {
        self.kinds_here().find(|kind| self.classes_of(kind).any(|own| own == class))
    }

    /// The classes of a kind that the form has.
    pub fn classes_of(&self, kind: &'static Kind) -> impl Iterator<Item = u8> + '_ {
        kind.classes.iter().copied().filter(|class| self.classes.contains(class))
    }

    /// The kinds that have a class here.
    pub fn kinds_here(&self) -> impl Iterator<Item = &'static Kind> + '_ {
        self.kinds.iter().filter(|kind| self.classes_of(kind).next().is_some())
    }

    pub fn every_class(&self) -> impl Iterator<Item = u8> + '_ {
        self.kinds.iter().flat_map(|kind| self.classes_of(kind))
    }

    /// Hands `found` the values of every record of the class that some edition
    /// has, its word, and the editions that have it. A record may come more
    /// than once, each time with other editions.
    pub fn records_of_class(&self, class: u8, found: &mut impl FnMut(&[u32], u32, EditionMask)) {
        let Some(kind) = self.kind_of_class(class) else { return };
        let mut families: Vec<(Family, EditionMask)> = Vec::new();
        for edition in self.every_edition() {
            let mask = EditionMask::only(edition);
            for family in (self.families)(kind, class, edition) {
                match families.iter_mut().find(|(known, _)| *known == family) {
                    Some((_, editions)) => *editions = editions.joined(mask),
                    None => families.push((family, mask)),
                }
            }
        }
        for (family, editions) in families {
            family.each(class, &mut |values, word| found(values, word, editions));
        }
    }
}

/// The values that each field of a kind may have, in any combination.
#[derive(Clone, Debug, PartialEq, Eq)]
pub struct Family {
    kind: &'static Kind,
    choices: Vec<Vec<u32>>,
}

impl Family {
    pub fn has(&self, field: &str) -> bool {
        self.kind.has(field)
    }

    /// Every value that fits, of every field.
    pub fn every(kind: &'static Kind) -> Family {
        let choices = kind.fields.iter().map(|field| (0..field.values()).collect()).collect();
        Family { kind, choices }
    }

    /// Whether a record of the family has this value of a field.
    pub fn allows(&self, name: &str, value: u32) -> bool {
        self.choices[self.kind.index(name)].contains(&value)
    }

    /// The same with these values of one field alone.
    pub fn with(mut self, name: &str, values: impl IntoIterator<Item = u32>) -> Family {
        self.choices[self.kind.index(name)] = values.into_iter().collect();
        self
    }

    /// Every record of the family, by its values, with its word.
    pub fn each(&self, class: u8, found: &mut impl FnMut(&[u32], u32)) {
        let mut values = vec![0; self.choices.len()];
        self.each_from(0, (u32::from(class) << 26) + self.kind.fixed, &mut values, found);
    }

    fn each_from(
        &self,
        at: usize,
        word: u32,
        values: &mut [u32],
        found: &mut impl FnMut(&[u32], u32),
    ) {
        let Some(choices) = self.choices.get(at) else { return found(values, word) };
        let low = self.kind.fields[at].low;
        for &value in choices {
            values[at] = value;
            self.each_from(at + 1, word + (value << low), values, found);
        }
    }
}

/// How many words a record is shown by.
const WORDS: usize = 16;

/// The kind of words that are no record's: it has no class, and its values are the words.
static NO_KIND: Kind = Kind { number: u64::MAX, classes: &[], fixed: 0, fields: &[] };

/// A syndrome by its fields. A field may be too large for its place, and the
/// class may be one that the kind lacks: no edition has such a record.
#[derive(Clone, Debug, PartialEq, Eq)]
pub struct Record {
    pub kind: &'static Kind,
    pub class: u32,
    pub values: Vec<u32>,
}

impl Record {
    /// The field's value, where the kind has the field.
    pub fn get(&self, name: &str) -> Option<u32> {
        self.kind.has(name).then(|| self.values[self.kind.index(name)])
    }

    pub fn is_set(&self, name: &str) -> bool {
        self.get(name) == Some(1)
    }

    /// The class, if the kind has it.
    pub fn own_class(&self) -> Option<u8> {
        self.kind.classes.iter().copied().find(|&class| u32::from(class) == self.class)
    }

    /// The word that the fields make at their bits, if class and fields fit.
    pub fn word(&self) -> Option<u32> {
        let class = (u32::from(self.own_class()?) << 26) + self.kind.fixed;
        self.values.iter().zip(self.kind.fields).try_fold(class, |word, (&value, field)| {
            (value < field.values()).then(|| word + (value << field.low))
        })
    }

    /// The record as sixteen words: its kind, its class where the kind has several, its
    /// fields, and zeros. Words that are no record's come back as they were.
    pub fn words(&self) -> Vec<u64> {
        let kind = (*self.kind != NO_KIND).then_some(self.kind.number);
        let class = self.kind.holds_class().then_some(u64::from(self.class));
        let values = self.values.iter().map(|&value| u64::from(value));
        let mut words: Vec<u64> = kind.into_iter().chain(class).chain(values).collect();
        words.resize(WORDS, 0);
        words
    }

    /// The record that sixteen words show. Words that are no record's stand for one that
    /// no edition has.
    pub fn from_words(form: &Form, words: &[u64]) -> Option<Record> {
        let narrow = words.iter().map(|&word| u32::try_from(word).ok());
        let values = narrow.collect::<Option<Vec<u32>>>().filter(|all| all.len() == WORDS)?;
        let none = Record { kind: &NO_KIND, class: 0x40, values };
        Some(Record::of(form, words).unwrap_or(none))
    }

    /// The record whose words begin with these and go on with zeros, if there is one. A
    /// field of one bit is a flag; every other has 32 bits.
    pub fn of(form: &Form, words: &[u64]) -> Option<Record> {
        let (number, rest) = words.split_first()?;
        let kind = form.kinds.iter().find(|kind| kind.number == *number)?;
        let (class, rest) = match kind.holds_class() {
            true => rest.split_first().map(|(&class, rest)| (class, rest))?,
            false => (kind.classes[0].into(), rest),
        };
        let (fields, zeros) = rest.split_at_checked(kind.fields.len())?;
        let value = |(&value, field): (&u64, &Field)| match field.width() {
            1 => (value < 2).then_some(value as u32),
            _ => u32::try_from(value).ok(),
        };
        let values = fields.iter().zip(kind.fields).map(value).collect::<Option<Vec<u32>>>()?;
        let record = Record { kind, class: u32::try_from(class).ok()?, values };
        zeros.iter().all(|&word| word == 0).then_some(record)
    }
}
