//! Answers to reading a syndrome word and writing a record.

use crate::catalogue::{class_of, Catalogue, Entry};
use crate::edition::{Edition, EditionMask};
use crate::form::{Form, Record};

/// A refusal: its number, and for number 6 the editions that would take it.
#[derive(Clone, Copy, Debug, PartialEq, Eq)]
pub struct Refusal {
    pub number: u8,
    pub editions: EditionMask,
}

impl Refusal {
    pub fn plain(number: u8) -> Refusal {
        let editions = EditionMask::NONE;
        Refusal { number, editions }
    }

    /// This edition doesn't have it, the named ones do.
    pub fn other_editions(editions: EditionMask) -> Refusal {
        Refusal { number: 6, editions }
    }
}

/// Tests 1 to 4 of reading, which need no record.
pub fn word_to_look_up(
    form: &Form,
    edition: u32,
    syndrome: u64,
) -> Result<(Edition, u32), Refusal> {
    let edition = form.edition(edition).ok_or(Refusal::plain(1))?;
    let word = u32::try_from(syndrome).map_err(|_| Refusal::plain(2))?;
    if form.kind_of_class(class_of(word)).is_none() {
        return Err(Refusal::plain(3));
    }
    if lacks_il(form, word) {
        return Err(Refusal::plain(4));
    }
    Ok((edition, word))
}

/// Whether IL, bit 25, is 0 in a word where it must be 1. ISV is bit 24.
pub fn lacks_il(form: &Form, word: u32) -> bool {
    let il = word >> 25 & 1 == 1;
    let isv = word >> 24 & 1 == 1;
    !il && (form.needs_il)(class_of(word), isv)
}

/// Tests 5 and 6.
fn had_in(edition: Edition, entry: Option<&Entry>) -> Result<&Entry, Refusal> {
    let entry = entry.ok_or(Refusal::plain(5))?;
    match entry.editions.contains(edition) {
        true => Ok(entry),
        false => Err(Refusal::other_editions(entry.editions)),
    }
}

pub fn read(catalogue: &Catalogue, edition: u32, syndrome: u64) -> Result<Record, Refusal> {
    let (edition, word) = word_to_look_up(catalogue.form, edition, syndrome)?;
    had_in(edition, catalogue.find(word)).map(|entry| entry.record.clone())
}

pub fn write(catalogue: &Catalogue, edition: u32, record: &Record) -> Result<u32, Refusal> {
    let form = catalogue.form;
    let edition = form.edition(edition).ok_or(Refusal::plain(1))?;
    let own_class = record.own_class().filter(|class| form.classes.contains(class));
    let class = own_class.ok_or(Refusal::plain(5))?;
    if !record.is_set("IL") && (form.needs_il)(class, record.is_set("ISV")) {
        return Err(Refusal::plain(4));
    }
    let word = record.word().ok_or(Refusal::plain(5))?;
    let made = catalogue.find(word).filter(|entry| entry.record == *record);
    had_in(edition, made).map(|_| word)
}
