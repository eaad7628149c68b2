//! The proved readers and writers against the enumeration, on all words of a
//! range of classes in all editions of each form.

use crate::edition::{Edition, EditionMask};
use crate::form::Form;
use crate::proved::{Proved, PROVED, REFUSED};
use crate::syndrome::lacks_il;
use crate::table::{ClassTable, WORDS_OF_CLASS};
use crate::tally::{print_classes, Difference, Tally};
use std::ops::RangeInclusive;
use std::thread;
use std::time::Instant;

pub const THREADS: u32 = 2;

/// Compares every `stride`-th word of each form; true when there was no
/// difference.
pub fn compare(classes: RangeInclusive<u8>, stride: usize) -> bool {
    let forms = PROVED.iter().map(|proved| compare_form(proved, classes.clone(), stride));
    forms.fold(true, |all_same, same| all_same & same)
}

fn compare_form(proved: &Proved, classes: RangeInclusive<u8>, stride: usize) -> bool {
    let start = Instant::now();
    let mut tallies = Vec::new();
    for class in classes {
        let tally = compare_class(proved, class, stride);
        println!(
            "{} form, class {class:02x} of 00..3f compared, {} differences, {:.1} s",
            proved.name,
            tally.differences,
            start.elapsed().as_secs_f64()
        );
        tallies.push((class, tally));
    }
    print_classes(proved.form, &tallies);
    let mut total = Tally::new(proved.form);
    for (_, tally) in tallies {
        total.add(tally);
    }
    total.print();
    total.differences == 0
}

/// One class; its table is dropped before the next is made.
fn compare_class(proved: &Proved, class: u8, stride: usize) -> Tally {
    let form = proved.form;
    let table = form.kind_of_class(class).map(|_| ClassTable::of(form, class));
    let table = table.as_ref();
    let first = u32::from(class) << 26;
    let share = WORDS_OF_CLASS / THREADS;
    let mut tally = Tally::new(form);
    thread::scope(|scope| {
        let compare_share = |number: u32| {
            let start = first + number * share;
            let words = start..=start + (share - 1);
            scope.spawn(move || compare_words(proved, table, words, stride))
        };
        let shares: Vec<_> = (0..THREADS).map(compare_share).collect();
        for share in shares {
            tally.add(share.join().expect("a share compared to its end"));
        }
    });
    tally
}

fn compare_words(
    proved: &Proved,
    table: Option<&ClassTable>,
    words: RangeInclusive<u32>,
    stride: usize,
) -> Tally {
    let mut tally = Tally::new(proved.form);
    for word in words.step_by(stride) {
        let (number, editions) = expected(proved.form, table, word);
        for edition in proved.form.every_edition() {
            compare_read(proved, &mut tally, word, edition, number, editions);
        }
        compare_rewrites(proved, &mut tally, word, editions);
    }
    tally
}

/// The refusal that comes in every edition, or 0 and the editions that have
/// the word.
fn expected(form: &Form, table: Option<&ClassTable>, word: u32) -> (u8, EditionMask) {
    match table {
        None => (3, EditionMask::NONE),
        Some(_) if lacks_il(form, word) => (4, EditionMask::NONE),
        Some(table) => match table.editions(word) {
            EditionMask::NONE => (5, EditionMask::NONE),
            editions => (0, editions),
        },
    }
}

fn compare_read(
    proved: &Proved,
    tally: &mut Tally,
    word: u32,
    edition: Edition,
    number: u8,
    editions: EditionMask,
) {
    let (number, mask) = match number {
        0 if editions.contains(edition) => (0, EditionMask::NONE),
        0 => (6, editions),
        refused => (refused, EditionMask::NONE),
    };
    let expected = u64::from(number) + (u64::from(mask.0) << 8) + (u64::from(mask.count()) << 24);
    tally.answers[edition.0 as usize][usize::from(number)] += 1;
    let answer = (proved.read)(edition.0, word);
    if answer != expected {
        tally.note(Difference { call: "read", editions: vec![edition.0], word, answer, expected });
    }
}

/// Each edition that has the word reads it and writes it back. A word that
/// some editions lack is also written in all the others.
fn compare_rewrites(proved: &Proved, tally: &mut Tally, word: u32, editions: EditionMask) {
    let form = proved.form;
    let all_have_it = editions.count() == form.editions;
    for reader in form.every_edition().filter(|&edition| editions.contains(edition)) {
        if all_have_it {
            compare_rewrite(proved, tally, word, [reader, reader], word.into());
            continue;
        }
        for writer in form.every_edition() {
            let expected = if editions.contains(writer) { word.into() } else { REFUSED };
            compare_rewrite(proved, tally, word, [reader, writer], expected);
        }
    }
}

fn compare_rewrite(
    proved: &Proved,
    tally: &mut Tally,
    word: u32,
    [reader, writer]: [Edition; 2],
    expected: u64,
) {
    let answer = (proved.rewrite)(reader.0, writer.0, word);
    if answer != expected {
        let editions = vec![reader.0, writer.0];
        tally.note(Difference { call: "rewrite", editions, word, answer, expected });
    }
}
