//! The logs that the proved log reader is run on: every edition, every refusal,
//! the longest log and one byte more, and hundreds of traps.

use crate::log::{bytes, older, Log, LONGEST};
use crate::random::Random;

/// A trap's ESR, FAR and HPFAR.
type Trap = (u64, u64, u64);

/// Traps of the paper's cases, and for each feature some that the editions with
/// it answer otherwise: no two editions have the same answers.
const TRAPS: [Trap; 18] = [
    (0x9200_0005, 0x8abc, 0x1_2340),
    (0x9200_0085, 0x8abc, 0x1_2340),
    (0x9200_000d, 0x8000, u64::MAX),
    // RAS, LPA2, HAFDBS.
    (0x9200_0018, 0x1000, 0),
    (0x9200_1010, 0x1000, 0),
    (0x9200_001b, 0x1000, 0),
    (0x9200_002b, 0xffff_ffff, 0xff_ffff_fff0),
    (0x9200_0031, 0, 0),
    // LPA, with a page and with a byte.
    (0x9200_0085, 0, 0xfff_ffff_fff0),
    (0x9200_0009, 0xfff, 0xff0_0000_0000),
    // Registers that count and hold too much.
    (0x9383_0045, 0x1_0000_0000, 0x10),
    (0x9383_0045, 0x4000, 0x1),
    // Classes without an intermediate address, and without any.
    (0x8a00_0000, 0x8003, u64::MAX),
    (0x4a00_0001, u64::MAX, u64::MAX),
    // Refusals 2 to 5.
    (0x1_9200_0005, 0, 0),
    (0x5a00_0000, 0, 0),
    (0, 0, 0),
    (0x4a01_0000, 0, 0),
];

fn log(editions: Vec<u8>, traps: &[Trap], injections: Vec<(u8, u8)>) -> Log {
    Log {
        editions,
        syndromes: traps.iter().map(|trap| trap.0).collect(),
        addresses: traps.iter().map(|trap| (trap.1, trap.2)).collect(),
        injections,
    }
}

/// The log that is stored beside the program: editions out of order, repeated
/// and unknown, some of them above 7, and more than 16 traps.
pub fn stored() -> Log {
    log(vec![3, 0, 200, 3, 12, 7, 15, 1, 0, 16, 9], &TRAPS, vec![(0, 0), (4, 15), (255, 7), (1, 1)])
}

/// So many traps drawn at random, most of them aborts.
fn many(random: &mut Random, count: usize) -> Vec<Trap> {
    let trap = |random: &mut Random| {
        let esr = match random.below(8) {
            0 => random.next(),
            1 => 0x8200_0000 + random.below(0x2000),
            2 => 0x9300_0000 + random.below(0x100_0000),
            _ => 0x9200_0000 + random.below(0x2000),
        };
        let far = random.next() >> random.pick(&[0, 32]);
        let hpfar = (random.next() >> random.pick(&[0, 20, 24])) & !0xf;
        (esr, far, hpfar)
    };
    (0..count).map(|_| trap(random)).collect()
}

/// A log of exactly so many bytes, with so many traps; the rest are editions.
fn of_length(random: &mut Random, length: usize, traps: usize) -> Vec<u8> {
    let traps = many(random, traps);
    let editions = length - 16 - 24 * traps.len();
    bytes(&log((0..editions).map(|_| random.next() as u8).collect(), &traps, vec![]))
}

/// A log that each refusal stands against, and some that two do: the first
/// count is cut short, then each count in turn passes the end, and so on.
fn refused() -> Vec<(String, Vec<u8>)> {
    let whole = bytes(&log(vec![200, 1], &TRAPS[..2], vec![(7, 3)]));
    // Where the counts of the four sections stand.
    let counts = [0, 6, 26, 62];
    let mut logs = Vec::new();
    for (section, &at) in (1..).zip(&counts) {
        let name = |what: &str| format!("section {section} {what}");
        logs.push((name("without its count"), whole[..at].to_vec()));
        logs.push((name("with a part of its count"), whole[..at + 3].to_vec()));
        let mut passes = whole.clone();
        passes[at + 3] = 0x80;
        logs.push((name("with a count that passes the end"), passes));
        let mut one_more = whole.clone();
        one_more[at] += 1;
        logs.push((name("with one entry more"), one_more));
    }
    logs.push(("an entry cut short".into(), whole[..whole.len() - 1].to_vec()));
    let mut left_over = whole.clone();
    left_over.push(0);
    logs.push(("a byte left over".into(), left_over));
    let mut unequal = log(vec![0, 8], &TRAPS, vec![(3, 0)]);
    unequal.addresses.pop();
    logs.push(("one address fewer than syndromes".into(), bytes(&unequal)));
    let mut both = bytes(&unequal);
    both.push(0);
    logs.push(("unequal counts and a byte left over".into(), both));
    let mut wide = log(vec![0, 8], &TRAPS, vec![(3, 0), (4, 16), (255, 15)]);
    logs.push(("a domain above 15".into(), bytes(&wide)));
    logs.push(("a domain above 15 and a byte left over".into(), [bytes(&wide), vec![0]].concat()));
    wide.addresses.pop();
    logs.push(("a domain above 15 and unequal counts".into(), bytes(&wide)));
    let one = log(vec![0, 8], &TRAPS, vec![(0, 0)]);
    logs.push(("an older log with an injection".into(), older(&one)));
    logs
}

/// Every cut of a log with several entries in each section; and logs that are cut short
/// in other ways too: counts that differ, one that the bytes would fit without, and an
/// older log's injections.
fn cut() -> Vec<(String, Vec<u8>)> {
    let whole = log(vec![12, 200, 1], &TRAPS[2..5], vec![(4, 7), (77, 0), (0, 15)]);
    let all = bytes(&whole);
    let mut logs: Vec<(String, Vec<u8>)> = (0..all.len())
        .map(|size| (format!("the first {size} bytes"), all[..size].to_vec()))
        .collect();
    let name = |what: &str| format!("cut short in section 4, with {what}");
    let fewer = Log { syndromes: whole.syndromes[..1].to_vec(), ..whole.clone() };
    let more = Log { addresses: whole.addresses[..1].to_vec(), ..whole.clone() };
    for (what, log) in [("more addresses", fewer), ("more syndromes", more)] {
        let all = bytes(&log);
        logs.push((name(what), all[..all.len() - 1].to_vec()));
    }
    let older_injections =
        (1..6).map(|count| Log { injections: vec![(2, 0); count], ..whole.clone() });
    logs.extend(older_injections.map(|log| (name("older injections"), older(&log))));
    logs
}

/// Injections with these first bytes, and domains up to 15 that differ from them.
fn domains(injections: Vec<u8>) -> Vec<(u8, u8)> {
    injections.into_iter().map(|injection| (injection, (injection ^ 5) % 16)).collect()
}

/// Every log with a name.
pub fn inputs() -> Vec<(String, Vec<u8>)> {
    let mut random = Random::seeded(19);
    let all = || (0..16).collect::<Vec<u8>>();
    let mut logs = vec![
        ("no byte".into(), Vec::new()),
        ("a log without entries".into(), bytes(&Log::default())),
        ("editions out of order".into(), bytes(&stored())),
        ("no edition".into(), bytes(&log(vec![], &TRAPS, vec![]))),
        ("every edition, and every domain".into(), bytes(&log(all(), &TRAPS, domains(all())))),
        ("an older log without injections".into(), older(&log(all(), &TRAPS, vec![]))),
        ("every edition twice".into(), bytes(&log([all(), all()].concat(), &TRAPS[..3], vec![]))),
        (
            "every edition from the last".into(),
            bytes(&log((0..=255).rev().collect(), &TRAPS[..3], domains((0..=255).collect()))),
        ),
        ("editions above 15".into(), bytes(&log((16..=255).collect(), &TRAPS, vec![]))),
    ];
    for edition in 0..16 {
        let one = log(vec![edition], &TRAPS, domains(vec![edition]));
        logs.push((format!("edition {edition}"), bytes(&one)));
    }
    logs.extend(refused());
    logs.extend(cut());
    let hundreds = many(&mut random, 800);
    let hundreds = bytes(&log(all(), &hundreds, vec![(255, 15); 300]));
    logs.push(("hundreds of traps, cut short".into(), hundreds[..16_000].to_vec()));
    logs.push(("hundreds of traps".into(), hundreds));
    for (traps, name) in [(0, "editions alone"), (1000, "a thousand traps")] {
        for length in [LONGEST, LONGEST + 1] {
            let name = format!("{length} bytes, {name}");
            logs.push((name, of_length(&mut random, length, traps)));
        }
    }
    let most = many(&mut random, 2730);
    logs.push(("as many traps as fit".into(), bytes(&log(vec![], &most, vec![]))));
    logs.push(("far too many bytes".into(), of_length(&mut random, 1 << 20, 0)));
    logs
}

#[cfg(test)]
mod tests {
    use super::*;
    use crate::log::{read, shown};
    use std::collections::BTreeSet;

    #[test]
    fn the_logs_have_every_answer() {
        let answers: BTreeSet<(u8, u8)> = inputs()
            .iter()
            .map(|(_, log)| {
                read(log).err().map_or((0, 0), |refusal| (refusal.number, refusal.section))
            })
            .collect();
        let cut = [(13, 1), (13, 2), (13, 3), (13, 4)];
        let all = [&cut[..], &[(0, 0), (14, 0), (15, 0), (16, 0), (20, 0)]].concat();
        assert_eq!(answers, BTreeSet::from_iter(all));
    }

    #[test]
    fn no_two_editions_have_the_same_answers() {
        let answers = |edition: u8| {
            let text = shown(&bytes(&log(vec![edition], &TRAPS, vec![])), false);
            text.replace(&format!("edition {edition:x}\n"), "")
                .replace(&format!("in {edition:x} "), "in ")
        };
        let answers: BTreeSet<String> = (0..16).map(answers).collect();
        assert_eq!(answers.len(), 16);
    }

    #[test]
    fn the_lengths_are_those_of_their_names() {
        for (name, log) in inputs() {
            if let Some((length, _)) = name.split_once(" bytes, ") {
                assert_eq!(log.len().to_string(), length);
            }
        }
    }
}
