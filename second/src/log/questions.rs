//! The questions on logs that the gate asks the proved code (`crates/check_log`),
//! and their answers: a log is read, also by the reader that holds it; an entry is
//! looked up; a log is written again; lists are written. The answers are worked out
//! by chopping bytes off a log and pushing them onto one, from requests C-14 and C-21.

use super::{bytes, chop, example, first_line, logs, number, read, section, Log, LONGEST, SIZES};
use crate::random::Random;
use std::fmt::Write;

/// What the writer is given. FAR and HPFAR words are two lists.
#[derive(Clone, Debug, Default)]
struct Lists {
    editions: Vec<u8>,
    syndromes: Vec<u64>,
    fars: Vec<u64>,
    hpfars: Vec<u64>,
    injections: Vec<(u8, u8)>,
}

impl Lists {
    fn of(log: Log) -> Lists {
        let (fars, hpfars) = log.addresses.into_iter().unzip();
        let Log { editions, syndromes, injections, .. } = log;
        Lists { editions, syndromes, fars, hpfars, injections }
    }

    /// The log of the lists. An address that lacks one of its words has 0 there.
    fn log(&self) -> Log {
        let addresses = self.fars.len().max(self.hpfars.len());
        let word = |words: &[u64], at: usize| words.get(at).copied().unwrap_or(0);
        Log {
            editions: self.editions.clone(),
            syndromes: self.syndromes.clone(),
            addresses: (0..addresses)
                .map(|at| (word(&self.fars, at), word(&self.hpfars, at)))
                .collect(),
            injections: self.injections.clone(),
        }
    }
}

/// Writes lists into a buffer: the number, and the length of what was written.
fn write(lists: &Lists, buffer: &mut [u8]) -> (u8, usize) {
    let pushed = bytes(&lists.log());
    if pushed.len() > LONGEST {
        return (16, 0);
    }
    let traps = lists.syndromes.len();
    if [&lists.fars, &lists.hpfars].into_iter().any(|words| words.len() != traps) {
        return (15, 0);
    }
    if !lists.log().domains_fit() {
        return (20, 0);
    }
    match buffer.get_mut(..pushed.len()) {
        None => (17, 0),
        Some(front) => {
            front.copy_from_slice(&pushed);
            (0, pushed.len())
        }
    }
}

/// Reads a log and writes what it carries into a buffer: the number, the section of
/// refusal 13, and the length of what was written.
fn rewrite(log: &[u8], buffer: &mut [u8]) -> (u8, u8, usize) {
    match read(log) {
        Err(refusal) => (refusal.number, refusal.section, 0),
        Ok((carried, _)) => {
            let (number, length) = write(&Lists::of(carried), buffer);
            (number, 0, length)
        }
    }
}

/// The section after so many others, or the first that isn't whole, and an entry of it.
fn look(log: &[u8], passed: u32, entry: u32) -> String {
    let mut rest = log;
    for (at, size) in SIZES.into_iter().enumerate() {
        let before = rest;
        let Ok(entries) = section(&mut rest, size) else { break };
        if at < passed as usize {
            continue;
        }
        let end = before.len() - rest.len();
        let entry = entries.get(entry as usize).map_or("none".into(), |&bytes| told(at, bytes));
        return format!("whole {} {end} {entry}", entries.len());
    }
    "none none".into()
}

/// An entry of a section, by the number of sections before it.
fn told(section: usize, mut entry: &[u8]) -> String {
    let mut word = || chop(&mut entry, 8).map_or(0, number);
    match section {
        0 => format!("edition {}", entry[0]),
        1 => format!("syndrome {:x}", word()),
        2 => format!("address {:x} {:x}", word(), word()),
        _ => format!("injection {} {}", entry[0], entry[1]),
    }
}

/// Bytes in hexadecimal, each after a space, with the number of times that it stands
/// there in a row where that is more than once.
fn runs(bytes: &[u8]) -> String {
    let mut text = String::new();
    for run in bytes.chunk_by(|one, next| one == next) {
        let _ = match run.len() {
            1 => write!(text, " {:x}", run[0]),
            times => write!(text, " {:x}*{times}", run[0]),
        };
    }
    text
}

/// A question to the proved code.
#[derive(Clone, Debug)]
enum Question {
    Read { log: Vec<u8> },
    Look { log: Vec<u8>, passed: u32, entry: u32 },
    Again { log: Vec<u8>, buffer: Vec<u8> },
    Write { lists: Lists, buffer: Vec<u8> },
}

/// What the bytes of a buffer are that don't follow in a question.
const UNWRITTEN: u8 = 0xa5;

/// How many bytes, words and injections a list of a question may have.
const BYTES: usize = 70_000;
const WORDS: usize = 8_200;
const INJECTIONS: usize = 33_000;

/// A list in a question: how many entries it has, how many of them follow, and these,
/// in so many bytes each. Those that don't follow are all the same.
fn list<const N: usize>(entries: impl Iterator<Item = [u8; N]>, others: u8) -> Vec<u8> {
    let entries: Vec<[u8; N]> = entries.collect();
    let given = entries.iter().rposition(|entry| *entry != [others; N]);
    let given = given.map_or(0, |last| last + 1);
    let counts = [entries.len(), given].map(|count| (count as u32).to_le_bytes());
    [counts.as_flattened(), entries[..given].as_flattened()].concat()
}

fn byte_list(bytes: &[u8]) -> Vec<u8> {
    list(bytes.iter().map(|&byte| [byte]), 0)
}

fn injection_list(injections: &[(u8, u8)]) -> Vec<u8> {
    list(injections.iter().map(|&(injection, domain)| [injection, domain]), 0)
}

fn word_list(words: &[u64]) -> Vec<u8> {
    list(words.iter().map(|word| word.to_le_bytes()), 0)
}

fn buffer_list(buffer: &[u8]) -> Vec<u8> {
    list(buffer.iter().map(|&byte| [byte]), UNWRITTEN)
}

impl Question {
    /// The question as it stands in the program's input: a letter, and what is asked about.
    fn input(&self) -> Vec<u8> {
        match self {
            Question::Read { log } => [b"r".to_vec(), byte_list(log)].concat(),
            Question::Look { log, passed, entry } => {
                let place = [passed.to_le_bytes(), entry.to_le_bytes()];
                [b"l".to_vec(), byte_list(log), place.as_flattened().to_vec()].concat()
            }
            Question::Again { log, buffer } => {
                [b"a".to_vec(), byte_list(log), buffer_list(buffer)].concat()
            }
            Question::Write { lists, buffer } => [
                b"w".to_vec(),
                byte_list(&lists.editions),
                word_list(&lists.syndromes),
                word_list(&lists.fars),
                word_list(&lists.hpfars),
                injection_list(&lists.injections),
                buffer_list(buffer),
            ]
            .concat(),
        }
    }

    /// Whether the program has room for each of its lists.
    fn has_room(&self) -> bool {
        match self {
            Question::Read { log } | Question::Look { log, .. } => log.len() <= BYTES,
            Question::Again { log, buffer } => log.len().max(buffer.len()) <= BYTES,
            Question::Write { lists, buffer } => {
                let Lists { editions, syndromes, fars, hpfars, injections } = lists;
                editions.len().max(buffer.len()) <= BYTES
                    && [syndromes, fars, hpfars].iter().all(|words| words.len() <= WORDS)
                    && injections.len() <= INJECTIONS
            }
        }
    }

    /// What the program writes for it. A buffer is shown whole, whatever the answer.
    fn answer(&self) -> String {
        if !self.has_room() {
            return "no row\n".into();
        }
        match self {
            Question::Read { log } => {
                let line = first_line(&read(log));
                format!("read {line}held {line}")
            }
            Question::Look { log, passed, entry } => {
                format!("look {}\n", look(log, *passed, *entry))
            }
            Question::Again { log, buffer } => {
                let mut buffer = buffer.clone();
                let (number, section, length) = rewrite(log, &mut buffer);
                format!("again {number} {section} {length}{}\n", runs(&buffer))
            }
            Question::Write { lists, buffer } => {
                let mut buffer = buffer.clone();
                let (number, length) = write(lists, &mut buffer);
                format!("write {number} {length}{}\n", runs(&buffer))
            }
        }
    }
}

/// A buffer of so many bytes, no two neighbours the same and none of them 0.
fn buffer(size: usize) -> Vec<u8> {
    (0..size).map(|at| (at % 251) as u8 + 5).collect()
}

/// A log whose editions, all 0, fill it up to so many bytes.
fn zeros(size: usize) -> Log {
    Log { editions: vec![0; size - 16], ..Log::default() }
}

/// A log of 44 bytes with an entry of each kind.
fn one_of_each() -> Log {
    Log {
        editions: vec![200, 1],
        syndromes: vec![0x9200_0005],
        addresses: vec![(0x8abc, 0x1_2340)],
        injections: vec![(7, 12)],
    }
}

/// Logs that fail two tests at once, or more.
fn twice_refused() -> Vec<Vec<u8>> {
    let mut logs = Vec::new();
    // 15 with 13 of sections 3 and 4, and with 14: a trap lacks its address, or has two.
    let lacking = Log { addresses: Vec::new(), ..one_of_each() };
    let doubled = Log { addresses: vec![(1, 2), (3, 4)], ..one_of_each() };
    for uneven in [lacking, doubled] {
        let whole = bytes(&uneven);
        logs.extend((18..whole.len()).map(|size| whole[..size].to_vec()));
        logs.push([&whole[..], &[0]].concat());
        logs.push(whole);
    }
    // 16 with 13 of each section, with 14 and with 15.
    for section in 0..4 {
        let mut cut = vec![0; LONGEST + 1];
        cut[4 * section..4 * section + 4].copy_from_slice(&[0xff; 4]);
        logs.push(cut);
    }
    logs.push(vec![0; LONGEST + 1]);
    let many = || vec![(0, 0); LONGEST / 2];
    logs.push(bytes(&Log { syndromes: vec![0x9200_0005], injections: many(), ..Log::default() }));
    // 20 with 16.
    let wide = [vec![(0, 16)], many()].concat();
    logs.push(bytes(&Log { injections: wide, ..Log::default() }));
    logs
}

fn reads() -> Vec<Question> {
    logs().into_iter().chain(twice_refused()).map(|log| Question::Read { log }).collect()
}

/// Each section of whole, cut and damaged logs, and places past the last; of each its
/// first entries, its last one and the one after it.
fn looks() -> Vec<Question> {
    let one_of_each = bytes(&one_of_each());
    let mut places: Vec<(Vec<u8>, u32, u32)> = Vec::new();
    let numbers = [0, 1, 2, 7, 8, 14, 15, u32::MAX];
    for log in [bytes(&example()), Vec::new(), vec![0; 16]] {
        for passed in [0, 1, 2, 3, 4, 5, u32::MAX] {
            places.extend(numbers.map(|entry| (log.clone(), passed, entry)));
        }
    }
    for size in 0..=one_of_each.len() + 1 {
        let cut: Vec<u8> = one_of_each.iter().copied().chain([9]).take(size).collect();
        for passed in 0..5 {
            places.extend([0, 1].map(|entry| (cut.clone(), passed, entry)));
        }
    }
    for start in [0, 6, 18, 38] {
        let mut damaged = one_of_each.clone();
        damaged[start..start + 4].copy_from_slice(&0x1000_0001_u32.to_le_bytes());
        places.extend((0..4).map(|passed| (damaged.clone(), passed, 0)));
    }
    let longest = bytes(&zeros(LONGEST + 1));
    places.extend([0, 65_520, 65_521].map(|entry| (longest.clone(), 0, entry)));
    let look = |(log, passed, entry)| Question::Look { log, passed, entry };
    places.into_iter().map(look).collect()
}

/// Logs written again, in turn into a buffer that lacks a byte, that just has room and
/// that has more; and the longest ones.
fn agains() -> Vec<Question> {
    let most_traps =
        Log { syndromes: vec![0; 2730], addresses: vec![(0, 0); 2730], ..Log::default() };
    let most_injections = Log { injections: vec![(0, 0); 32_760], ..Log::default() };
    let longest = [zeros(LONGEST), most_traps, most_injections].map(|log| bytes(&log));
    let short = logs().into_iter().chain(twice_refused()).filter(|log| log.len() < 1000);
    let mut asked = Vec::new();
    for (turn, log) in short.enumerate() {
        let room = (log.len() + 7 * (turn % 3)).saturating_sub(usize::from(turn % 3 == 0));
        asked.push(Question::Again { buffer: buffer(room), log });
    }
    for log in longest {
        for room in [0, log.len() - 1, log.len(), log.len() + 3] {
            asked.push(Question::Again { log: log.clone(), buffer: vec![UNWRITTEN; room] });
        }
    }
    asked
}

/// Lists of different lengths, and lists that are too long, alone and together, in
/// buffers that are too small, that just have room and that have more.
fn writes() -> Vec<Question> {
    let mut asked = Vec::new();
    let mut ask = |lists: &Lists, room: usize| {
        asked.push(Question::Write { lists: lists.clone(), buffer: buffer(room) });
    };
    let mut random = Random::seeded(19);
    let mut words = |count| (0..count).map(|_| random.next()).collect::<Vec<u64>>();
    for (syndromes, fars, hpfars) in lengths(&[0, 1, 2, 3]) {
        let lists = Lists {
            editions: vec![7, 200, 0],
            syndromes: words(syndromes),
            fars: words(fars),
            hpfars: words(hpfars),
            injections: vec![(4, 15), (255, 0)],
        };
        let length = bytes(&lists.log()).len();
        for room in [0, 5, length - 1, length, length + 9] {
            ask(&lists, room);
        }
    }
    // Domains that are too large, beside counts that differ and in every room.
    for injections in [vec![(0, 16)], vec![(15, 15), (0, 255)], vec![(255, 128), (4, 0)]] {
        for (syndromes, fars, hpfars) in [(1, 1, 1), (0, 0, 0), (1, 0, 1), (0, 0, 1), (2, 1, 1)] {
            let lists = Lists {
                syndromes: words(syndromes),
                fars: words(fars),
                hpfars: words(hpfars),
                injections: injections.clone(),
                ..Lists::default()
            };
            let length = bytes(&lists.log()).len();
            for room in [0, length - 1, length, length + 9] {
                ask(&lists, room);
            }
        }
    }
    // Each domain, beside first bytes of every kind.
    for domain in (0..=16).chain([31, 128, 240, 255]) {
        let injections = vec![(0, domain), (4, domain), (16, domain), (255, domain)];
        ask(&Lists { injections, ..Lists::default() }, 24);
    }
    // Each list so long that the log just fits 65,536 bytes, and by one entry too long; the
    // three lists of words together and each alone, so that their lengths differ.
    for entries in [65_520, 65_521] {
        let bytes = vec![0; entries];
        let injections = vec![(0, 0); entries.div_ceil(2)];
        let wide = [vec![(0, 16)], injections[1..].to_vec()].concat();
        let lists = [
            Lists { editions: bytes.clone(), ..Lists::default() },
            Lists { injections: injections.clone(), ..Lists::default() },
            Lists { injections: wide, ..Lists::default() },
            Lists { editions: bytes, syndromes: vec![1], ..Lists::default() },
            Lists { injections, hpfars: vec![1], ..Lists::default() },
        ];
        lists.iter().for_each(|lists| ask(lists, 40));
    }
    for (one, all) in [(8_190, 2_730), (8_191, 2_731)] {
        let zeros = vec![0; all];
        let traps = Lists {
            syndromes: zeros.clone(),
            fars: zeros.clone(),
            hpfars: zeros,
            ..Lists::default()
        };
        ask(&traps, 40);
        ask(&Lists { syndromes: vec![0; one], ..Lists::default() }, 40);
        let addresses = one.div_ceil(2);
        ask(&Lists { fars: vec![0; addresses], ..Lists::default() }, 40);
        ask(&Lists { hpfars: vec![0; addresses], ..Lists::default() }, 40);
    }
    let mut random = Random::seeded(20);
    for turn in 0..40 {
        let lists = Lists::of(super::random(&mut random, 8));
        let length = bytes(&lists.log()).len();
        ask(&lists, length + 3 * (turn % 4));
    }
    for room in [LONGEST - 1, LONGEST, LONGEST + 2] {
        let buffer = vec![UNWRITTEN; room];
        let lists = Lists::of(zeros(LONGEST));
        asked.push(Question::Write { lists, buffer });
    }
    asked
}

/// Every choice of three lengths.
fn lengths(choices: &[usize]) -> Vec<(usize, usize, usize)> {
    let mut all = Vec::new();
    for &first in choices {
        for &second in choices {
            all.extend(choices.iter().map(|&third| (first, second, third)));
        }
    }
    all
}

/// Lists that just have room and that have one entry too many, none of which follow; and of each
/// size of an entry a list of which they all follow.
fn rooms() -> Vec<Question> {
    let mut asked = Vec::new();
    let lists = Lists::default;
    for over in [0, 1] {
        let log = vec![0; BYTES + over];
        let buffer = vec![UNWRITTEN; BYTES + over];
        let words = vec![0; WORDS + over];
        let small = vec![UNWRITTEN; 16];
        asked.push(Question::Read { log: log.clone() });
        asked.push(Question::Look { log: log.clone(), passed: 3, entry: 0 });
        asked.push(Question::Again { log: log.clone(), buffer: small.clone() });
        asked.push(Question::Again { log: vec![0; 16], buffer: buffer.clone() });
        asked.push(Question::Write { lists: lists(), buffer });
        for lists in [
            Lists { editions: log, ..lists() },
            Lists { syndromes: words.clone(), ..lists() },
            Lists { fars: words.clone(), ..lists() },
            Lists { hpfars: words, ..lists() },
            Lists { injections: vec![(0, 0); INJECTIONS + over], ..lists() },
        ] {
            asked.push(Question::Write { lists, buffer: small.clone() });
        }
    }
    let follow = [
        Lists { editions: vec![b'r'; BYTES + 1], ..lists() },
        Lists { syndromes: vec![u64::MAX; WORDS + 1], ..lists() },
        Lists { injections: vec![(b'w', 0); INJECTIONS + 1], ..lists() },
    ];
    for lists in follow {
        asked.push(Question::Write { lists, buffer: vec![UNWRITTEN; 16] });
        asked.push(Question::Read { log: bytes(&example()) });
    }
    asked
}

fn questions() -> Vec<Question> {
    [reads(), looks(), agains(), writes(), rooms()].concat()
}

/// The program's input, and what it must write.
pub fn files() -> (Vec<u8>, Vec<u8>) {
    let questions = questions();
    let stdin = questions.iter().flat_map(Question::input).collect();
    let stdout = questions.iter().map(Question::answer).collect::<String>();
    (stdin, stdout.into_bytes())
}

#[cfg(test)]
mod tests {
    use super::*;
    use std::collections::BTreeSet;

    /// The answers to some questions, each cut to its first words.
    fn given(questions: Vec<Question>, words: usize) -> BTreeSet<String> {
        let first = |line: &str| line.split(' ').take(words).collect::<Vec<_>>().join(" ");
        questions.iter().map(|question| first(question.answer().trim_end())).collect()
    }

    fn set(expected: &[&str]) -> BTreeSet<String> {
        expected.iter().map(|&text| text.into()).collect()
    }

    #[test]
    fn each_call_gives_every_number_that_it_can_give() {
        let writes = given(writes(), 2);
        assert_eq!(writes, set(&["write 0", "write 15", "write 16", "write 17", "write 20"]));
        let agains = given(agains(), 2);
        let numbers = ["again 0", "again 13", "again 14", "again 15", "again 17", "again 20"];
        assert_eq!(agains, set(&numbers));
    }

    #[test]
    fn a_refusal_leaves_the_buffer_and_a_log_what_lies_past_it() {
        let lists = Lists::of(one_of_each());
        let mut small = buffer(43);
        assert_eq!(write(&lists, &mut small), (17, 0));
        assert_eq!(small, buffer(43));
        let mut large = buffer(50);
        assert_eq!(write(&lists, &mut large), (0, 44));
        assert_eq!(large[..44], bytes(&one_of_each()));
        assert_eq!(large[44..], buffer(50)[44..]);
    }

    #[test]
    fn a_word_that_is_left_over_counts_and_is_refused() {
        let mut lists = Lists::of(one_of_each());
        lists.hpfars.push(9);
        assert_eq!(write(&lists, &mut buffer(100)), (15, 0));
        lists.hpfars = vec![9; 4096];
        assert_eq!(write(&lists, &mut buffer(100)), (16, 0));
    }

    #[test]
    fn a_domain_is_refused_after_the_counts_and_before_the_room() {
        let mut lists = Lists::of(one_of_each());
        lists.injections.push((0, 16));
        assert_eq!(write(&lists, &mut buffer(100)), (20, 0));
        assert_eq!(write(&lists, &mut buffer(3)), (20, 0));
        lists.fars.clear();
        assert_eq!(write(&lists, &mut buffer(100)), (15, 0));
        lists.editions = vec![0; LONGEST];
        assert_eq!(write(&lists, &mut buffer(100)), (16, 0));
    }

    #[test]
    fn the_first_test_that_fails_gives_the_number() {
        for log in twice_refused() {
            let number = read(&log).err().map(|refusal| refusal.number);
            let expected = if log.len() > LONGEST { Some(16) } else { number };
            assert_eq!(number, expected);
            assert!(matches!(number, Some(13..=16)));
        }
    }

    #[test]
    fn a_look_finds_each_kind_of_entry_and_none() {
        let log = bytes(&one_of_each());
        assert_eq!(look(&log, 0, 0), "whole 2 6 edition 200");
        assert_eq!(look(&log, 1, 0), "whole 1 12 syndrome 92000005");
        assert_eq!(look(&log, 2, 0), "whole 1 20 address 8abc 12340");
        assert_eq!(look(&log, 3, 0), "whole 1 6 injection 7 12");
        assert_eq!(look(&log, 3, 1), "whole 1 6 none");
        assert_eq!(look(&log, 4, 0), "none none");
        assert_eq!(look(&log[..43], 3, 0), "none none");
    }

    #[test]
    fn runs_are_told_by_their_length() {
        assert_eq!(runs(&[1, 0, 0, 0, 0xa5]), " 1 0*3 a5");
    }
}
