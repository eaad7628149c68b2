//! Trap logs (requests C-14 and C-21): read and written by chopping a list of bytes, and
//! the logs that the gate runs the proved code on.
//!
//! A log is never measured beforehand. Reading takes bytes off the front until
//! they run out; writing pushes them and looks at the length afterwards.

mod questions;

use crate::catalogue::Catalogue;
use crate::explain;
use crate::log_runs;
use crate::long::LONG;
use crate::random::Random;
use crate::trap::{read_trap, Intermediate, Registers};
use std::collections::BTreeSet;
use std::fmt::Write;

pub const LONGEST: usize = 65_536;

pub const LARGEST_DOMAIN: u8 = 15;

/// What a log carries.
#[derive(Clone, Debug, Default, PartialEq, Eq)]
pub struct Log {
    pub editions: Vec<u8>,
    pub syndromes: Vec<u64>,
    pub addresses: Vec<(u64, u64)>,
    /// An injection's own byte, and its domain.
    pub injections: Vec<(u8, u8)>,
}

impl Log {
    /// Whether no domain is too large, whatever its injection.
    fn domains_fit(&self) -> bool {
        self.injections.iter().all(|&(_, domain)| domain <= LARGEST_DOMAIN)
    }
}

/// A refusal: its number, and for number 13 the section.
#[derive(Clone, Copy, Debug, PartialEq, Eq)]
pub struct Refusal {
    pub number: u8,
    pub section: u8,
}

fn refused(number: u8) -> Refusal {
    Refusal { number, section: 0 }
}

/// Takes so many bytes off the front, if there are as many.
fn chop<'a>(rest: &mut &'a [u8], size: usize) -> Option<&'a [u8]> {
    let (front, back) = rest.split_at_checked(size)?;
    *rest = back;
    Some(front)
}

fn number(bytes: &[u8]) -> u64 {
    bytes.iter().rev().fold(0, |value, &byte| value << 8 | u64::from(byte))
}

/// How many bytes an entry of each section has.
const SIZES: [usize; 4] = [1, 8, 16, 2];

/// A section whose bytes run out.
struct Cut<'a> {
    /// The entries that come before they do.
    entries: Vec<&'a [u8]>,
    /// How it stands: in words, for a person.
    told: String,
}

/// The entries of a section, each as its bytes.
fn section<'a>(rest: &mut &'a [u8], size: usize) -> Result<Vec<&'a [u8]>, Cut<'a>> {
    let mut entries = Vec::new();
    let Some(count) = chop(rest, 4).map(number) else {
        let told = format!("{} of 4 bytes of its count", rest.len());
        return Err(Cut { entries, told });
    };
    let bytes = rest.len();
    for _ in 0..count {
        let Some(entry) = chop(rest, size) else {
            let told = format!("{} of {count} entries in {bytes} bytes", entries.len());
            return Err(Cut { entries, told });
        };
        entries.push(entry);
    }
    Ok(entries)
}

/// What sections carry, as many as there are.
fn carried(sections: &[Vec<&[u8]>]) -> Log {
    let entries = |at: usize| sections.get(at).into_iter().flatten();
    Log {
        editions: entries(0).map(|entry| entry[0]).collect(),
        syndromes: entries(1).map(|entry| number(entry)).collect(),
        addresses: entries(2).map(|entry| (number(&entry[..8]), number(&entry[8..]))).collect(),
        injections: entries(3).map(|entry| (entry[0], entry[1])).collect(),
    }
}

/// The log, and how many counts and entries were gone through.
pub fn read(bytes: &[u8]) -> Result<(Log, usize), Refusal> {
    if bytes.len() > LONGEST {
        return Err(refused(16));
    }
    let mut rest = bytes;
    let mut gone = 0;
    let mut sections = Vec::new();
    for (at, size) in SIZES.into_iter().enumerate() {
        let cut = Refusal { number: 13, section: at as u8 + 1 };
        let entries = section(&mut rest, size).map_err(|_| cut)?;
        gone += 1 + entries.len();
        sections.push(entries);
    }
    if !rest.is_empty() {
        return Err(refused(14));
    }
    let log = carried(&sections);
    if log.syndromes.len() != log.addresses.len() {
        return Err(refused(15));
    }
    if !log.domains_fit() {
        return Err(refused(20));
    }
    Ok((log, gone))
}

/// The bytes of a log, whatever it carries.
pub fn bytes(log: &Log) -> Vec<u8> {
    let mut bytes = without_injections(log);
    bytes.extend(log.injections.iter().flat_map(|&(injection, domain)| [injection, domain]));
    bytes
}

/// The bytes that a log had before request C-21: an injection was its own byte alone.
pub fn older(log: &Log) -> Vec<u8> {
    let mut bytes = without_injections(log);
    bytes.extend(log.injections.iter().map(|&(injection, _)| injection));
    bytes
}

/// All but the injections themselves.
fn without_injections(log: &Log) -> Vec<u8> {
    let mut bytes = Vec::new();
    let count = |bytes: &mut Vec<u8>, entries: usize| bytes.extend((entries as u32).to_le_bytes());
    count(&mut bytes, log.editions.len());
    bytes.extend(&log.editions);
    count(&mut bytes, log.syndromes.len());
    bytes.extend(log.syndromes.iter().flat_map(|esr| esr.to_le_bytes()));
    count(&mut bytes, log.addresses.len());
    for (far, hpfar) in &log.addresses {
        bytes.extend(far.to_le_bytes());
        bytes.extend(hpfar.to_le_bytes());
    }
    count(&mut bytes, log.injections.len());
    bytes
}

/// The first line: how the log was read.
fn first_line(answer: &Result<(Log, usize), Refusal>) -> String {
    match answer {
        Ok((_, gone)) => format!("taken {gone}\n"),
        Err(refusal) => format!("refused {} {}\n", refusal.number, refusal.section),
    }
}

/// The lines that logread writes for a log, its traps explained or not.
pub fn shown(bytes: &[u8], explained: bool) -> String {
    let answer = read(bytes);
    let first = first_line(&answer);
    match answer {
        Ok((log, _)) => first + &entries(&log, explained),
        Err(Refusal { number: 13, section }) => {
            let (log, told) = before_cut(bytes);
            let entries = entries(&log, explained);
            format!("{first}what precedes the cut, if the counts are right:\n{entries}cut in section {section}: {told}\n")
        }
        Err(_) => first,
    }
}

/// What precedes the cut of a log that is cut short, and how the section stands that is
/// cut. The injections of such a section are left out: in an older log they are other bytes.
fn before_cut(bytes: &[u8]) -> (Log, String) {
    let mut rest = bytes;
    let mut sections = Vec::new();
    for size in SIZES {
        match section(&mut rest, size) {
            Ok(entries) => sections.push(entries),
            Err(Cut { entries, told }) => {
                sections.push(entries);
                sections.truncate(3);
                return (carried(&sections), told);
            }
        }
    }
    unreachable!("a log that is cut short")
}

/// The injections, by number.
const INJECTIONS: [&str; 5] = [
    "Undefined Instruction, PC at the instruction",
    "Undefined Instruction, PC after the instruction",
    "Supervisor Call",
    "Prefetch Abort",
    "Data Abort",
];

/// An edition as a person types it, or that a byte is none.
fn typed(edition: u32) -> String {
    match LONG.edition(edition) {
        Some(_) => format!("{edition:x}"),
        None => format!("{edition} unknown"),
    }
}

/// The lines of what a log carries, or of what precedes its cut.
fn entries(log: &Log, explained: bool) -> String {
    let mut text = String::new();
    let words = log.syndromes.iter().filter_map(|&esr| u32::try_from(esr).ok());
    let catalogue = Catalogue::of(&LONG, words);
    for &edition in &log.editions {
        let _ = writeln!(text, "edition {}", typed(edition.into()));
    }
    let seen: BTreeSet<u32> = log.editions.iter().map(|&edition| edition.into()).collect();
    for (&esr, &(far, hpfar)) in log.syndromes.iter().zip(&log.addresses) {
        let _ = writeln!(text, "trap {esr:x} {far:x} {hpfar:x}");
        for &edition in seen.iter().filter(|&&edition| LONG.edition(edition).is_some()) {
            let registers = Registers { esr, far, hpfar };
            text += &line_in(&catalogue, edition, registers);
            if explained {
                text += &explain::trap(&catalogue, edition, registers);
            }
        }
    }
    for esr in log.syndromes.iter().skip(log.addresses.len()) {
        let _ = writeln!(text, "syndrome {esr:x}");
    }
    for &(injection, domain) in &log.injections {
        let name = INJECTIONS.get(usize::from(injection));
        let name = name.map_or(String::new(), |name| format!(": {name}"));
        let _ = writeln!(text, "injection {injection} domain {domain}{name}");
    }
    text
}

/// What an edition makes of a trap.
fn line_in(catalogue: &Catalogue, edition: u32, registers: Registers) -> String {
    let told = match read_trap(catalogue, edition, registers) {
        Ok(trap) => {
            let virtual_address =
                trap.virtual_address.map(|address| format!(" virtual {address:x}"));
            let intermediate = match trap.intermediate {
                Intermediate::None => String::new(),
                Intermediate::Page(page) => format!(" page {page:x}"),
                Intermediate::Byte(byte) => format!(" byte {byte:x}"),
            };
            format!("taken{}{intermediate}", virtual_address.unwrap_or_default())
        }
        Err(refusal) => {
            let mask = refusal.editions.0;
            format!("refused {} {mask} {}", refusal.number, mask.count_ones())
        }
    };
    format!("in {} {told}\n", typed(edition))
}

/// A log of the cases of the paper and of words that editions differ in.
pub fn example() -> Log {
    let traps = [
        (0x9200_0005, 0x8abc, 0x1_2340),
        (0x9200_0085, 0x8abc, 0x1_2340),
        (0x9200_000d, 0x8000, u64::MAX),
        (0x9200_0018, 0x1000, 0),
        (0x9200_001b, 0x1000, 0),
        (0x9200_0031, 0, 0),
        (0x9383_0045, 0x1_0000_0000, 0x10),
        (0x9383_0045, 0x4000, 0x1),
        (0x8a00_0000, 0x8003, u64::MAX),
        (0x4a00_0001, u64::MAX, u64::MAX),
        (0x1_9200_0005, 0, 0),
        (0x5a00_0000, 0, 0),
        (0, 0, 0),
        (0x4a01_0000, 0, 0),
        (0x9200_0009, 0xfff, 0xff0_0000_0000),
    ];
    Log {
        editions: vec![3, 0, 200, 3, 7, 1, 0, 16],
        syndromes: traps.iter().map(|trap| trap.0).collect(),
        addresses: traps.iter().map(|trap| (trap.1, trap.2)).collect(),
        injections: vec![(0, 0), (4, 15), (255, 7), (1, 1)],
    }
}

/// A log of random entries.
fn random(random: &mut Random, most: u64) -> Log {
    let traps = random.below(most);
    Log {
        editions: (0..random.below(most)).map(|_| random.next() as u8).collect(),
        syndromes: (0..traps).map(|_| random.next()).collect(),
        addresses: (0..traps).map(|_| (random.next(), random.next())).collect(),
        injections: (0..random.below(most))
            .map(|_| (random.next() as u8, random.below(16) as u8))
            .collect(),
    }
}

/// A log whose editions fill it up to so many bytes.
fn filled(size: usize) -> Log {
    let editions = vec![5; size - 16];
    Log { editions, ..Log::default() }
}

/// A log with other injections: every domain up to 16 and the largest bytes, beside
/// first bytes of every kind, at the first place and at the last; with counts that
/// differ and with a byte left over; and the older form of them all.
fn domains(log: &Log) -> Vec<Vec<u8>> {
    let injected = |injections: Vec<(u8, u8)>| Log { injections, ..log.clone() };
    let mut logs = Vec::new();
    for domain in (0..=16).chain([31, 128, 240, 255]) {
        for first in [0, 4, 15, 16, 255] {
            logs.push(injected(vec![(first, domain)]));
        }
        logs.push(injected(vec![(255, 0), (0, 15), (3, domain)]));
        logs.push(injected(vec![(4, domain), (255, 15), (16, 0)]));
    }
    let mut asked = Vec::new();
    for one in logs {
        let mut uneven = one.clone();
        uneven.syndromes.push(0);
        asked.push(bytes(&uneven));
        asked.push([&bytes(&one)[..], &[0]].concat());
        asked.push(bytes(&one));
    }
    let older_ones = (0..6).map(|count| injected(vec![(0, 0); count]));
    let others = [vec![(7, 0)], vec![(7, 0), (3, 0)], vec![(2, 0), (0, 0), (16, 0), (255, 0)]];
    asked.extend(older_ones.chain(others.into_iter().map(injected)).map(|log| older(&log)));
    asked
}

/// Good, cut, overlong and damaged logs.
fn logs() -> Vec<Vec<u8>> {
    let whole = bytes(&example());
    let mut logs = vec![whole.clone(), Vec::new(), bytes(&Log::default())];
    // Every cut of a short log, and a byte left over.
    let short = Log {
        editions: vec![200, 1],
        syndromes: vec![0x9200_0005],
        addresses: vec![(0x8abc, 0x1_2340)],
        injections: vec![(7, 3)],
    };
    logs.extend(domains(&short));
    let short = bytes(&short);
    logs.extend((0..short.len()).map(|size| short[..size].to_vec()));
    logs.push([&short[..], &[0]].concat());
    // The longest log, one byte more, and the longest with traps.
    logs.push(bytes(&filled(LONGEST)));
    logs.push(bytes(&filled(LONGEST + 1)));
    let mut generator = Random::seeded(14);
    let traps = 2730;
    logs.push(bytes(&Log {
        syndromes: (0..traps).map(|_| generator.next()).collect(),
        addresses: (0..traps).map(|_| (generator.next(), generator.next())).collect(),
        ..Log::default()
    }));
    // A count near 2^32 in each section, which 32 bits of its product would let pass.
    for place in [0, 6, 18, 38] {
        for count in [0xffff_ffff_u32, 0x8000_0001, 0x8000_0000, 0x2000_0001, 0x1000_0001] {
            let mut damaged = short.clone();
            damaged[place..place + 4].copy_from_slice(&count.to_le_bytes());
            logs.push(damaged);
        }
    }
    // Counts that differ, with and without a byte left over.
    let mut uneven = example();
    uneven.addresses.pop();
    logs.push(bytes(&uneven));
    logs.push([&bytes(&uneven)[..], &[1]].concat());
    for _ in 0..100 {
        let good = bytes(&random(&mut generator, 12));
        let mut damaged = good.clone();
        let place = generator.below(damaged.len() as u64) as usize;
        damaged[place] = damaged[place].wrapping_add(generator.below(4) as u8 + 1);
        logs.push(good);
        logs.push(damaged);
    }
    logs
}

/// The files of logs with their names: one log that is shown, and the questions on
/// logs with their answers.
pub fn files() -> Vec<(&'static str, Vec<u8>)> {
    let shown_log = bytes(&log_runs::stored());
    let (stdin, stdout) = questions::files();
    vec![
        ("logread/stdout", shown(&shown_log, false).into_bytes()),
        ("logread/stdin", shown_log),
        ("check_log/stdin", stdin),
        ("check_log/stdout", stdout),
    ]
}

#[cfg(test)]
mod tests {
    use super::*;

    fn refusal(bytes: &[u8]) -> Option<(u8, u8)> {
        read(bytes).err().map(|refusal| (refusal.number, refusal.section))
    }

    #[test]
    fn an_empty_log_is_sixteen_bytes() {
        assert_eq!(bytes(&Log::default()), [0; 16]);
        assert_eq!(read(&[0; 16]).map(|read| read.1), Ok(4));
        assert_eq!(refusal(&[0; 15]), Some((13, 4)));
        assert_eq!(refusal(&[]), Some((13, 1)));
        assert_eq!(refusal(&[0; 17]), Some((14, 0)));
    }

    #[test]
    fn the_longest_log_is_taken_and_one_byte_more_is_not() {
        let longest = bytes(&filled(LONGEST));
        assert_eq!(longest.len(), LONGEST);
        assert_eq!(read(&longest).map(|read| read.1), Ok(4 + LONGEST - 16));
        assert_eq!(refusal(&bytes(&filled(LONGEST + 1))), Some((16, 0)));
    }

    #[test]
    fn counts_that_differ_come_last() {
        let uneven = Log { syndromes: vec![1], ..Log::default() };
        let mut log = bytes(&uneven);
        assert_eq!(refusal(&log), Some((15, 0)));
        log.push(0);
        assert_eq!(refusal(&log), Some((14, 0)));
    }

    #[test]
    fn a_domain_is_judged_by_its_size_alone_and_last() {
        for first in 0..=255 {
            for domain in 0..=255 {
                let mut log = Log { injections: vec![(first, domain)], ..Log::default() };
                let expected = (domain > 15).then_some((20, 0));
                assert_eq!(refusal(&bytes(&log)), expected);
                log.syndromes.push(0);
                assert_eq!(refusal(&bytes(&log)), Some((15, 0)));
            }
        }
    }

    #[test]
    fn an_older_log_is_refused_exactly_where_it_has_an_injection() {
        let mut generator = Random::seeded(21);
        for _ in 0..200 {
            let log = random(&mut generator, 9);
            let answer = refusal(&older(&log));
            assert_eq!(answer, (!log.injections.is_empty()).then_some((13, 4)));
        }
    }

    #[test]
    fn the_logs_have_every_answer() {
        let numbers: BTreeSet<u8> =
            logs().iter().map(|log| refusal(log).map_or(0, |r| r.0)).collect();
        assert_eq!(numbers, BTreeSet::from([0, 13, 14, 15, 16, 20]));
        let sections: BTreeSet<u8> =
            logs().iter().filter_map(|log| refusal(log)).map(|r| r.1).collect();
        assert_eq!(sections, BTreeSet::from([0, 1, 2, 3, 4]));
    }

    #[test]
    fn the_sum_of_a_log_is_its_entries() {
        for log in logs() {
            if let Ok((carried, gone)) = read(&log) {
                assert_eq!(bytes(&carried), log);
                assert!(gone + 12 <= log.len());
            }
        }
    }
}
