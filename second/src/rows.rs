//! The stored questions and answers: the standard input of each program that
//! answers rows, and what it must write.

mod a32;
mod aborts;
mod chip;
mod finish;
mod inject;
mod malformed;
mod nests;
mod onward;
mod pending;
mod read;
mod samples;
mod short;
mod trap;
mod write;

use crate::call::{Call, Checker, Way, CHECKERS};
use crate::cases;
use crate::explain;
use crate::log;
use crate::long::Origin;
use std::fs;
use std::io;
use std::path::Path;

/// One file with its lines.
struct File {
    name: String,
    bytes: Vec<u8>,
}

/// The questions to every call, those of the paper first.
fn questions() -> Vec<String> {
    let calls = cases::cases()
        .into_iter()
        .map(|case| case.call)
        .chain(read::questions(Origin::AArch32))
        .chain(write::questions(Origin::AArch32))
        .chain(trap::questions(Origin::AArch32))
        .chain(inject::questions())
        .chain(finish::questions())
        .chain(pending::questions())
        .chain(nests::questions())
        .chain(short::questions())
        .chain(a32::questions())
        .chain(inject::domain_questions())
        .chain(onward::questions());
    let calls: Vec<Call> = calls.collect();
    let joined = derived(&calls);
    let origins = questions_of_origins();
    let chip = chip::questions();
    calls.iter().chain(&joined).chain(&origins).chain(&chip).map(Call::line).collect()
}

/// Those of request C-23: what it gives AArch32 to refuse, and the questions to the
/// calls on words from AArch64.
fn questions_of_origins() -> Vec<Call> {
    let mut calls: Vec<Call> =
        cases::cases_of_origins().into_iter().map(|case| case.call).collect();
    calls.extend(write::records_of_the_other(Origin::AArch32));
    calls.extend(finish::records_of_aarch64());
    calls.extend(read::questions(Origin::AArch64));
    calls.extend(write::questions(Origin::AArch64));
    calls.extend(write::records_of_the_other(Origin::AArch64));
    calls.extend(trap::questions(Origin::AArch64));
    let again = read_again(&calls);
    calls.extend(again);
    calls
}

/// A tenth of the words that are read.
fn read_again(calls: &[Call]) -> Vec<Call> {
    let reads = calls.iter().step_by(10).filter_map(|call| match *call {
        Call::Read { origin, edition, word } => Some(Call::Again { origin, edition, word }),
        _ => None,
    });
    reads.collect()
}

/// The seed of an origin's random questions.
fn seed(origin: Origin, number: u64) -> u64 {
    number + 100 * u64::from(origin.number())
}

/// What a program is asked: its own of the questions, and then lines that are no row.
fn asked(checker: &Checker, questions: &[String]) -> Vec<u8> {
    let own = questions.iter().filter(|line| checker.is_asked_by(line.as_bytes()));
    let mut bytes = own.map(|line| line.clone() + "\n").collect::<String>().into_bytes();
    bytes.extend(malformed::lines(checker));
    bytes
}

/// Questions to the calls that join two others, from those to the others: a tenth of
/// the words that are read, a fifth of the short records that are written, half of the
/// injections by value; and each register of each number of a mode.
fn derived(calls: &[Call]) -> Vec<Call> {
    let mut derived = Vec::new();
    for (number, call) in calls.iter().enumerate() {
        match call {
            Call::Read { origin, edition, word } if number % 10 == 0 => {
                derived.push(Call::Again { origin: *origin, edition: *edition, word: *word });
            }
            Call::ShortRead { edition, word } if number % 10 == 0 => {
                derived.push(Call::ShortAgain { edition: *edition, word: *word });
            }
            Call::ShortWrite { edition, record } if number % 5 == 0 => {
                for reader in 0..3 {
                    let record = record.clone();
                    derived.push(Call::ShortCarry { writer: *edition, reader, record });
                }
            }
            Call::Inject { way: Way::ByValue, injection, state } if number % 2 == 0 => {
                let (injection, state) = (*injection, state.clone());
                derived.push(Call::Inject { way: Way::AndBack, injection, state });
            }
            _ => {}
        }
    }
    for mode in (0..33).chain([0x30, 0x110, u32::MAX]) {
        for register in (0..17).chain([0x1_000e, u32::MAX]) {
            derived.push(Call::Held { mode, register });
        }
    }
    derived
}

/// The files of every program, or the cases of the paper that this program answers
/// otherwise.
fn files() -> Result<Vec<File>, Vec<String>> {
    let failures = cases::failures();
    if !failures.is_empty() {
        return Err(failures);
    }
    let questions = questions();
    let files = CHECKERS.iter().flat_map(|checker| {
        let stdin = asked(checker, &questions);
        let stdout = checker.answers(&stdin);
        [("stdin", stdin), ("stdout", stdout)]
            .map(|(file, bytes)| File { name: format!("{}/{file}", checker.name), bytes })
    });
    let asked = explain::questions().into_bytes();
    let told = explain::explain(&asked);
    let explained = [("explain/stdin", asked), ("explain/stdout", told)]
        .map(|(name, bytes)| File { name: name.into(), bytes });
    Ok(files.chain(explained).collect())
}

/// Numbers below a bound by turns.
struct Turn {
    bound: u32,
    number: u32,
}

impl Turn {
    fn over(bound: u32) -> Turn {
        Turn { bound, number: 0 }
    }

    fn next(&mut self) -> u32 {
        let number = self.number;
        self.number = (number + 1) % self.bound;
        number
    }
}

fn report_failures(failures: &[String]) -> bool {
    for failure in failures {
        println!("{failure}");
    }
    false
}

/// Writes the files; true when all cases of the paper came out right.
pub fn write(directory: &Path) -> io::Result<bool> {
    let files = match files() {
        Ok(files) => files,
        Err(failures) => return Ok(report_failures(&failures)),
    };
    for File { name, bytes } in files {
        fs::write(directory.join(&name), &bytes)?;
        println!("{name}: {} lines, {} bytes", count_lines(&bytes), bytes.len());
    }
    for (name, bytes) in log::files() {
        fs::write(directory.join(name), &bytes)?;
        println!("{name}: {} bytes", bytes.len());
    }
    Ok(true)
}

/// Makes the files again and compares; true when every byte is the same.
pub fn check(directory: &Path) -> io::Result<bool> {
    let files = match files() {
        Ok(files) => files,
        Err(failures) => return Ok(report_failures(&failures)),
    };
    println!("cases of the paper: same");
    let mut all_same = true;
    for File { name, bytes } in files {
        let same = fs::read(directory.join(&name)).is_ok_and(|stored| stored == bytes);
        let verdict = if same { "same" } else { "DIFFERENT OR MISSING" };
        println!("{name}: {} lines, {verdict}", count_lines(&bytes));
        all_same &= same;
    }
    for (name, bytes) in log::files() {
        let same = fs::read(directory.join(name)).is_ok_and(|stored| stored == bytes);
        let verdict = if same { "same" } else { "DIFFERENT OR MISSING" };
        println!("{name}: {} bytes, {verdict}", bytes.len());
        all_same &= same;
    }
    Ok(all_same)
}

fn count_lines(bytes: &[u8]) -> usize {
    bytes.iter().filter(|&&byte| byte == b'\n').count()
}

#[cfg(test)]
mod tests {
    use super::*;
    use crate::call::lines;
    use std::collections::{BTreeMap, BTreeSet};

    fn first_word(line: &[u8]) -> String {
        let word = line.split(|&byte| byte == b' ').next().unwrap_or_default();
        String::from_utf8_lossy(word).into_owned()
    }

    /// Every call is asked by some thousand rows, or some hundred of those that
    /// change a state, and gives every number that it can give.
    #[test]
    fn each_call_gives_every_answer_that_it_can_give() {
        let expected = [
            ("read", 1000, "0 1 2 3 4 5 6"),
            ("write", 1000, "0 1 4 5 6"),
            ("carry", 1000, "0 1 4 5 6"),
            ("trap", 1000, "0 1 2 3 4 5 6 7 8"),
            ("both", 1000, "0 1 2 3 4 5 6 7 8"),
            ("inject", 1000, "0 14 9 a b c"),
            ("lent", 300, "0 14 9 a b c"),
            ("back", 300, "0 14 9 a b c"),
            ("hread", 1000, "0 1 3 4 5 6"),
            ("hwrite", 1000, "0 1 4 5 6"),
            ("widen", 1000, "0 5 9"),
            ("spsr", 1000, "0 9"),
            ("finish", 500, "0 5 9 12"),
            ("again", 500, "0 1 2 3 4 5 6"),
            ("hagain", 300, "0 1 3 4 5 6"),
            ("hcarry", 1000, "0 1 4 5 6"),
            ("held", 500, "0 1"),
            ("decode", 1000, "0 13"),
            ("encode", 1000, "0 13"),
            ("access", 500, "0 9 13"),
            ("run", 900, "0 9 a"),
            ("passes", 800, "0 1"),
            ("step", 400, "0 5 9 12"),
            ("copro", 700, "0 5 9 12"),
            ("perform", 500, "0 9 13"),
            ("tospsr", 1000, "0 9"),
            ("edition", 1000, "0 1 2 3 4 5 6 7 8 9 a b c d e f"),
            ("short", 500, "0 1"),
            ("marks", 1000, "0 1"),
            ("ran", 1000, "0 1 2"),
            ("cause", 800, "0 5 12"),
        ];
        let files = files().expect("the cases of the paper");
        let mut given: BTreeMap<String, (usize, BTreeSet<String>)> = BTreeMap::new();
        // explain's questions are no rows: they name no call.
        for file in files.chunks(2).filter(|file| !file[0].name.starts_with("explain/")) {
            for (question, answer) in lines(&file[0].bytes).zip(lines(&file[1].bytes)) {
                if answer == b"no row" {
                    continue;
                }
                let (asked, answers) = given.entry(first_word(question)).or_default();
                *asked += 1;
                answers.insert(first_word(answer));
            }
        }
        assert_eq!(given.len(), expected.len());
        for (call, least, numbers) in expected {
            let (asked, answers) = &given[call];
            assert!(*asked >= least, "{call}: {asked} rows");
            assert_eq!(*answers, numbers.split(' ').map(String::from).collect(), "{call}");
        }
    }
}
