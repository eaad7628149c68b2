//! Lines that are no row, beside the rows that they were made from.

use crate::call::Checker;

/// A row that ends in the words of a record, zeros after those that are given.
fn with_record(row: &str, words: &str) -> String {
    let zeros = " 0".repeat(16 - words.split(' ').count());
    format!("{row} {words}{zeros}")
}

/// Rows of every call.
fn rows() -> Vec<String> {
    let words: String = (1..=45).map(|number| format!(" {number:x}")).collect();
    let state = words + " 1 0 1";
    let mut rows: Vec<String> = [
        "read 0 0 92000005".into(),
        with_record("write 0 0", "0 0 1"),
        with_record("write 0 0", "1 1 1 e 1"),
        with_record("write 0 0", "2 3 1 1 e 0 0 0 0 0 1"),
        with_record("write 0 0", "3 4 1 1 e 1 2 3 4 0"),
        with_record("write 0 0", "4 1 1 e ff 1f 1 3 0"),
        with_record("write 0 0", "5 1 1 e"),
        with_record("write 0 0", "6 11 1 ffff"),
        with_record("write 0 0", "7 1 1 e 1"),
        with_record("write 0 0", "8 1 3 1 1 0 10"),
        with_record("write 0 0", "9 1 1 2 0 3 0 0 0 0 0 0 0 1 5"),
        with_record("write 0 0", "a 30 1"),
        with_record("write 0 0", "b 1 1 1"),
        with_record("write 0 0", "c 1 1 1"),
        with_record("write 0 0", "d 1 6 1 11"),
        with_record("write 1 0", "e 1 3 7 7 f 1f f 1"),
        with_record("carry 0 0 1", "8 1 3 1 1 0 10"),
        "trap 0 0 92000005 8abc 12340".into(),
        "both 0 0 2 92000005 8abc 12340".into(),
        "hread 0 92000005".into(),
        with_record("hwrite 0", "5 1 1 e 1 a"),
        with_record("hwrite 0", "8 1 1 1 0 10"),
        with_record("hwrite 0", "9 1 1 2 0 3 0 0 0 0 0 0 1 5"),
        with_record("widen 10", "2 3 1 1 e 0 0 0 0 0 1"),
        "spsr 1 0 1 1000010".into(),
        "again 0 0 92000005".into(),
        "hagain 0 92000005".into(),
        with_record("hcarry 0 1", "5 1 1 e 1 a"),
        "held 13 d".into(),
        "decode e5910004".into(),
        "encode 0 0 e 1 1 0 1 0 4".into(),
        "encode 1 2 e 1 1 0 1 0 2".into(),
        "encode 2 4 e 1 0 4".into(),
        "encode 3 1 e 0 1 1 d 8000".into(),
        "tospsr 1 0 1 200010".into(),
        "edition 10000000 100006 2".into(),
        "short 10000000".into(),
        "marks 10000 10 1000000".into(),
        "ran 10 80000000".into(),
        with_record("cause 0", "8 1 0 0 0 1 5"),
        with_record("cause 1", "9 1 0 0 0 0 0 0 0 0 0 0 0 1 d"),
    ]
    .into();
    for injection in ["0 0 0 0 0 0", "3 1 1 8000 0 0", "4 0 0 8000 1 0"] {
        for way in ["inject", "lent", "back"] {
            rows.push(format!("{way} {injection}{state}"));
        }
    }
    rows.push(format!("access e5910004{state}"));
    rows.push(with_record(&format!("finish 1{state}"), "9 1 1 2 0 3 0 0 0 0 0 0 0 1 5"));
    rows.push(with_record(&format!("finish 1{state}"), "6 11 1 ffff"));
    rows.push(with_record("passes 10", "1 1 1 e 1"));
    rows.push(with_record(&format!("step{state}"), "1 1 1 e 1"));
    rows.push(with_record(&format!("copro 1 2{state}"), "3 4 1 1 e 1 2 3 4 0"));
    rows.push(format!("perform e5910004{}{state}", " 1".repeat(16)));
    rows.push(format!("run{state} 0 2 1 20 10 2b 40 2d 1 30 1 30"));
    rows.push(format!("run{state} 2 4 0 0 8000 1 3 1 2"));
    rows
}

/// The row with each of its numbers in turn at a value.
fn with_each_number(row: &str, value: &str) -> Vec<String> {
    let words: Vec<&str> = row.split(' ').collect();
    let with = |place| {
        let mut changed = words.clone();
        changed[place] = value;
        changed.join(" ")
    };
    // The words of a state are alike.
    let alike = if words.len() > 46 { 10..46 } else { 0..0 };
    (1..words.len()).filter(|place| !alike.contains(place)).map(with).collect()
}

/// Numbers missing and too many; each number in turn too large for a flag, for
/// a byte, for 32 bits and for 64 bits, empty, and no number; other words for
/// the call; other spaces. Some of them are rows: words that are no record's are
/// answered, and so is a mark that isn't 1. The last has no newline.
pub fn lines(checker: &Checker) -> Vec<u8> {
    let mut lines = Vec::new();
    for row in rows().into_iter().filter(|row| checker.is_asked_by(row.as_bytes())) {
        lines.push(row.clone());
        lines.push(format!("{row} 0"));
        lines.push(row[..row.rfind(' ').unwrap_or(0)].into());
        lines.push(format!("{row} "));
        lines.push(format!(" {row}"));
        lines.push(format!("{row}\r"));
        lines.push(row.to_uppercase());
        lines.push(format!("x{row}"));
        lines.push(row.replacen(' ', "x ", 1));
        lines.push(row.replacen(' ', "  ", 1));
        lines.push(row.replacen(' ', "\t", 1));
        for value in
            ["2", "100", "100000000", "10000000000000000", "", "g", "-1", "0000000000000000000001"]
        {
            lines.extend(with_each_number(&row, value));
        }
    }
    if checker.is_asked_by(b"read") {
        lines.extend(words_and_lengths());
    }
    if checker.is_asked_by(b"run") {
        lines.extend(runs());
    }
    lines.join("\n").into_bytes()
}

/// Words and lines that are too short or too long.
fn words_and_lengths() -> Vec<String> {
    vec![
        String::new(),
        "read".into(),
        "readreadread 0 0 0".into(),
        format!("read 0 0 {}", "0".repeat(2000)),
        format!("read{}", " 0".repeat(2000)),
        "r".repeat(2000),
        "read 0 0 2000000".into(),
    ]
}

/// Runs of as many calls and numbers as there may be and of more; without a call; that
/// end inside a call; and with a change that is no state's, which the next one mends.
fn runs() -> Vec<String> {
    let long = |changes: usize| format!("1{} 30", " 0 1".repeat(changes));
    let raises = |calls: usize| vec!["0 1"; calls].join(" ");
    let mut calls = vec![raises(24), raises(25), long(103), long(104)];
    let short = ["0", "1", "1 0", "1 0 0", "1 30 1", "0 0 30", "1 0 100000000 0 1 30"];
    calls.extend(short.map(String::from));
    calls.extend(["2", "2 2 0 0 0 0", "3", "3 0", "3 0 0 3", "4"].map(String::from));
    let state = vec!["0"; 48].join(" ");
    let mut lines = vec![format!("run {state}")];
    lines.extend(calls.iter().map(|calls| format!("run {state} {calls}")));
    lines
}
