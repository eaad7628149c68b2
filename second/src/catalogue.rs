//! The words that are asked about, each with the record that makes it.

use crate::edition::EditionMask;
use crate::form::{Form, Record};
use std::collections::{BTreeMap, HashMap};

/// A record that some edition has, and all the editions that have it.
#[derive(Clone, Debug)]
pub struct Entry {
    pub record: Record,
    pub editions: EditionMask,
}

/// The answer of the enumeration for a set of words of a form. To keep all
/// records of the build would take gigabytes, so that the words are named
/// beforehand.
pub struct Catalogue {
    pub form: &'static Form,
    entries: HashMap<u32, Option<Entry>>,
}

impl Catalogue {
    pub fn of(form: &'static Form, words: impl IntoIterator<Item = u32>) -> Catalogue {
        let entries: HashMap<u32, Option<Entry>> =
            words.into_iter().map(|word| (word, None)).collect();
        let mut by_class: BTreeMap<u8, WordSet> = BTreeMap::new();
        for &word in entries.keys() {
            by_class.entry(class_of(word)).or_default().insert(word);
        }
        let mut catalogue = Catalogue { form, entries };
        for (class, wanted) in by_class {
            form.records_of_class(class, &mut |values, word, editions| {
                if wanted.contains(word) {
                    catalogue.note(class, values, word, editions);
                }
            });
        }
        catalogue
    }

    fn note(&mut self, class: u8, values: &[u32], word: u32, editions: EditionMask) {
        let kind = self.form.kind_of_class(class).expect("a class of the form");
        let record = Record { kind, class: class.into(), values: values.to_vec() };
        let slot = self.entries.get_mut(&word).expect("a wanted word");
        let known = slot.as_ref().map_or(EditionMask::NONE, |entry| {
            assert_eq!(entry.record, record, "two records make one word");
            entry.editions
        });
        *slot = Some(Entry { record, editions: known.joined(editions) });
    }

    /// The record that makes the word, if any edition has one. The word must
    /// be among those the catalogue was made for.
    pub fn find(&self, word: u32) -> Option<&Entry> {
        self.entries[&word].as_ref()
    }

    /// Whether some edition has the very record.
    pub fn has(&self, record: &Record) -> bool {
        let entry = record.word().and_then(|word| self.find(word));
        entry.is_some_and(|entry| entry.record == *record)
    }
}

/// The class of a word: EC, bits 31:26.
pub fn class_of(word: u32) -> u8 {
    (word >> 26) as u8
}

/// A set of words of one class, one bit for each of its 2^26 words.
struct WordSet(Vec<u64>);

impl Default for WordSet {
    fn default() -> WordSet {
        WordSet(vec![0; 1 << 20])
    }
}

impl WordSet {
    fn place(word: u32) -> (usize, u64) {
        let index = word % (1 << 26);
        ((index / 64) as usize, 1 << (index % 64))
    }

    fn insert(&mut self, word: u32) {
        let (at, bit) = WordSet::place(word);
        self.0[at] |= bit;
    }

    fn contains(&self, word: u32) -> bool {
        let (at, bit) = WordSet::place(word);
        self.0[at] & bit != 0
    }
}
