//! Counts of answers and differences, and their summary.

use crate::form::Form;

/// Answers that reading gives to a 32-bit word in an edition that there is.
const ANSWERS: [usize; 5] = [0, 3, 4, 5, 6];
const SHOWN_DIFFERENCES: usize = 10;

/// What the proved code answered otherwise than the enumeration.
pub struct Difference {
    pub call: &'static str,
    pub editions: Vec<u32>,
    pub word: u32,
    pub answer: u64,
    pub expected: u64,
}

/// How often each answer is expected, by edition, and the differences.
pub struct Tally {
    pub answers: Vec<[u64; 7]>,
    pub differences: u64,
    shown: Vec<Difference>,
}

impl Tally {
    pub fn new(form: &Form) -> Tally {
        let answers = vec![[0; 7]; form.editions as usize];
        Tally { answers, differences: 0, shown: Vec::new() }
    }

    pub fn note(&mut self, difference: Difference) {
        self.differences += 1;
        if self.shown.len() < SHOWN_DIFFERENCES {
            self.shown.push(difference);
        }
    }

    pub fn add(&mut self, other: Tally) {
        for (sums, more) in self.answers.iter_mut().zip(other.answers) {
            for (sum, number) in sums.iter_mut().zip(more) {
                *sum += number;
            }
        }
        self.differences += other.differences;
        let room = SHOWN_DIFFERENCES - self.shown.len();
        self.shown.extend(other.shown.into_iter().take(room));
    }

    /// Words by edition and answer, then the differences.
    pub fn print(&self) {
        println!("\nwords by edition and answer:");
        print_heading();
        for (edition, row) in self.answers.iter().enumerate() {
            print_row("all", &edition.to_string(), row);
        }
        println!("\ndifferences: {}", self.differences);
        for Difference { call, editions, word, answer, expected } in &self.shown {
            println!("{call} {word:08x} in {editions:?}: {answer:x}, expected {expected:x}");
        }
    }
}

fn print_row(class: &str, edition: &str, answers: &[u64; 7]) {
    let numbers = ANSWERS.map(|answer| format!("{:>11}", answers[answer]));
    println!("{class:>5} {edition:>7} {}", numbers.join(" "));
}

fn print_heading() {
    let numbers = ANSWERS.map(|answer| format!("{answer:>11}"));
    println!("{:>5} {:>7} {}", "class", "edition", numbers.join(" "));
}

/// One row for a class whose editions are all alike, else one for each.
fn print_editions(class: &str, tally: &Tally) {
    if tally.answers.iter().all(|row| row == &tally.answers[0]) {
        return print_row(class, "all", &tally.answers[0]);
    }
    for (edition, row) in tally.answers.iter().enumerate() {
        print_row(class, &edition.to_string(), row);
    }
}

/// Words by class, edition and answer. The classes outside the build share
/// their rows.
pub fn print_classes(form: &Form, tallies: &[(u8, Tally)]) {
    println!("\nwords by class, edition and answer (0 is taken):");
    print_heading();
    let mut others = Tally::new(form);
    for (class, tally) in tallies {
        if form.kind_of_class(*class).is_some() {
            print_editions(&format!("{class:02x}"), tally);
            continue;
        }
        for (sum, row) in others.answers.iter_mut().zip(&tally.answers) {
            sum[3] += row[3];
        }
    }
    print_editions("other", &others);
}
