//! The proved programs run on many inputs, and every byte that they write
//! compared with what this program answers. No contract reaches what a program
//! reads and writes.

use crate::call::{self, A32, CHIP, ONWARD, RUNS, STATES, WORDS};
use crate::catalogue::Catalogue;
use crate::explain;
use crate::log;
use crate::log_runs;
use crate::long::LONG;
use crate::random::Random;
use crate::syndrome::{read, word_to_look_up};
use std::env;
use std::fs::{self, File};
use std::io::{self, Read, Write};
use std::path::{Path, PathBuf};
use std::process::{self, Child, ChildStdin, Command, Stdio};
use std::thread;
use std::time::Duration;

/// A program, what it must write for an input, and inputs of its own.
struct Program {
    name: &'static str,
    /// Its first argument.
    option: Option<&'static str>,
    answers: fn(&[u8]) -> Vec<u8>,
    inputs: fn() -> Vec<(String, Vec<u8>)>,
    /// How an input can be handed over to it.
    ways: &'static [Way],
}

/// What a program has that takes no argument.
const READER: Program = Program {
    name: "",
    option: None,
    answers: |_| Vec::new(),
    inputs: Vec::new,
    ways: &[Way::File, Way::AtOnce, Way::Few],
};

/// One that also takes a file's name.
const LOGREAD: Program = Program {
    name: "logread",
    answers: logread,
    inputs: log_runs::inputs,
    ways: &[Way::File, Way::AtOnce, Way::Few, Way::Named],
    ..READER
};

const PROGRAMS: [Program; 10] = [
    Program { name: "trapread", answers: trapread, inputs: trapread_inputs, ..READER },
    Program { name: "explain", answers: explain::explain, inputs: explain_inputs, ..READER },
    LOGREAD,
    Program {
        option: Some("--explain"),
        answers: logread_explained,
        inputs: logread_explained_inputs,
        ..LOGREAD
    },
    Program {
        name: WORDS.name,
        answers: |input| WORDS.answers(input),
        inputs: words_inputs,
        ..READER
    },
    Program {
        name: STATES.name,
        answers: |input| STATES.answers(input),
        inputs: states_inputs,
        ..READER
    },
    Program { name: A32.name, answers: |input| A32.answers(input), inputs: a32_inputs, ..READER },
    Program {
        name: RUNS.name,
        answers: |input| RUNS.answers(input),
        inputs: runs_inputs,
        ..READER
    },
    Program {
        name: ONWARD.name,
        answers: |input| ONWARD.answers(input),
        inputs: onward_inputs,
        ..READER
    },
    Program {
        name: CHIP.name,
        answers: |input| CHIP.answers(input),
        inputs: chip_inputs,
        ..READER
    },
];

impl Program {
    /// As it is called.
    fn call(&self) -> String {
        self.option.map_or(self.name.into(), |option| format!("{} {option}", self.name))
    }
}

/// Where a proved program of a folder of crates lies: `NAME/out/NAME`.
pub fn built(directory: &Path, name: &str) -> PathBuf {
    directory.join(name).join("out").join(name)
}

/// Runs the programs of a folder of crates; true when all wrote what they must.
pub fn run(directory: &Path) -> io::Result<bool> {
    let mut all_same = true;
    for program in &PROGRAMS {
        let path = built(directory, program.name);
        let call = program.call();
        let inputs = (program.inputs)();
        let mut different = 0;
        for (input_name, input) in &inputs {
            let expected = (program.answers)(input);
            for &way in program.ways {
                let written = feed(&path, program.option, input, way)?;
                if written != expected {
                    different += 1;
                    let at = written.iter().zip(&expected).position(|(a, b)| a != b);
                    let at = at.unwrap_or(written.len().min(expected.len()));
                    println!(
                        "{call} on {input_name}, {way:?}: wrote {} bytes for {}, first other at {at}",
                        written.len(),
                        expected.len()
                    );
                }
            }
        }
        let verdict = if different == 0 { "same" } else { "DIFFERENT" };
        println!("{call}: {} inputs, {verdict}", inputs.len());
        all_same &= different == 0;
    }
    Ok(all_same)
}

/// What a program must write for an input.
pub fn answers_of(name: &str, input: &[u8]) -> io::Result<Vec<u8>> {
    let program = PROGRAMS.iter().find(|program| program.call() == name);
    let program = program.ok_or_else(|| io::Error::other(format!("no program {name}")))?;
    Ok((program.answers)(input))
}

/// Writes what a program must write for this program's standard input.
pub fn answer(name: &str) -> io::Result<bool> {
    let mut input = Vec::new();
    io::stdin().read_to_end(&mut input)?;
    io::stdout().write_all(&answers_of(name, &input)?)?;
    Ok(true)
}

/// Whether the stored output of each program, `NAME/stdout`, is this program's
/// answer to its stored input.
pub fn check(directory: &Path) -> io::Result<bool> {
    let mut all_same = true;
    for program in PROGRAMS.iter().filter(|program| program.option.is_none()) {
        let folder = directory.join(program.name);
        let input = fs::read(folder.join("stdin"))?;
        let same = fs::read(folder.join("stdout"))? == (program.answers)(&input);
        let verdict = if same { "same" } else { "DIFFERENT" };
        println!("{}: stored answers {verdict}", program.name);
        all_same &= same;
    }
    Ok(all_same)
}

/// How an input is handed over.
#[derive(Clone, Copy, Debug)]
enum Way {
    /// As a file that is the program's standard input.
    File,
    /// As fast as a pipe takes it.
    AtOnce,
    /// A few bytes at a time through a pipe, each after a pause.
    Few,
    /// As a file that the last argument names; standard input is empty.
    Named,
}

/// What a program writes for an input. One that stops reading early has
/// written what it has written.
fn feed(path: &Path, option: Option<&str>, input: &[u8], way: Way) -> io::Result<Vec<u8>> {
    let mut command = Command::new(path);
    command.args(option).stdout(Stdio::piped());
    let named = file_name();
    let mut child = match way {
        Way::File => command.stdin(file_of(input)?).spawn()?,
        Way::AtOnce | Way::Few => command.stdin(Stdio::piped()).spawn()?,
        Way::Named => {
            fs::write(&named, input)?;
            command.arg(&named).stdin(Stdio::null()).spawn()?
        }
    };
    let written = hand_over(&mut child, input, way)?;
    let status = child.wait()?;
    if matches!(way, Way::Named) {
        fs::remove_file(&named)?;
    }
    match status.success() {
        true => Ok(written),
        false => Err(io::Error::other(format!("{} ended with {status}", path.display()))),
    }
}

/// A name that no other process takes.
fn file_name() -> PathBuf {
    env::temp_dir().join(format!("second-{}", process::id()))
}

/// A file of these bytes that no folder names any more.
pub fn file_of(input: &[u8]) -> io::Result<File> {
    let path = file_name();
    fs::write(&path, input)?;
    let file = File::open(&path)?;
    fs::remove_file(&path)?;
    Ok(file)
}

/// Writes the input into the program's pipe, where it has one, while reading
/// what it writes.
fn hand_over(child: &mut Child, input: &[u8], way: Way) -> io::Result<Vec<u8>> {
    let id = child.id();
    let stdin = child.stdin.take();
    let mut stdout = child.stdout.take().expect("a pipe");
    let mut written = Vec::new();
    let write = move |mut pipe: ChildStdin| match way {
        Way::Few => write_few(&mut pipe, input, id),
        Way::File | Way::AtOnce | Way::Named => pipe.write_all(input),
    };
    thread::scope(|scope| {
        let writer = scope.spawn(move || stdin.map_or(Ok(()), write));
        stdout.read_to_end(&mut written)?;
        match writer.join().expect("a writer that ends") {
            Err(error) if error.kind() != io::ErrorKind::BrokenPipe => Err(error),
            _ => Ok(()),
        }
    })?;
    Ok(written)
}

/// Pieces of one to seven bytes, of a long input of one to seven times as many
/// as make some hundred pieces; each when the program has read the one before
/// and waits for more.
fn write_few(pipe: &mut impl Write, input: &[u8], id: u32) -> io::Result<()> {
    let unit = 1 + input.len() / 1000;
    let mut rest = input;
    for times in (1..=7).cycle() {
        if rest.is_empty() {
            return Ok(());
        }
        let (piece, after) = rest.split_at((times * unit).min(rest.len()));
        wait_until_asleep(id)?;
        pipe.write_all(piece)?;
        rest = after;
    }
    Ok(())
}

/// Waits until a process sleeps, as it does in a read of an empty pipe, or has
/// ended.
pub fn wait_until_asleep(id: u32) -> io::Result<()> {
    for _ in 0..20_000 {
        match state(id) {
            None => break,
            Some('S' | 'Z' | 'X') => return Ok(()),
            Some(_) => thread::sleep(Duration::from_micros(100)),
        }
    }
    Err(io::Error::other("the program doesn't come to read"))
}

/// The letter of a process's state, which stands behind its name in parentheses.
pub fn state(id: u32) -> Option<char> {
    let stat = fs::read_to_string(format!("/proc/{id}/stat")).ok()?;
    stat.rsplit(')').next()?.trim_start().chars().next()
}

/// Document 01 and C-16: one hexadecimal digit for the edition, a space and 16
/// for the word.
fn question(line: &[u8]) -> Option<(u32, u64)> {
    let line = std::str::from_utf8(line).ok()?;
    let (edition, word) = line.split_once(' ')?;
    let are_digits = |text: &str| text.bytes().all(|byte| byte.is_ascii_hexdigit());
    if edition.len() != 1 || word.len() != 16 || !are_digits(edition) || !are_digits(word) {
        return None;
    }
    Some((u32::from_str_radix(edition, 16).ok()?, u64::from_str_radix(word, 16).ok()?))
}

/// What the trap reader writes for an input.
fn trapread(input: &[u8]) -> Vec<u8> {
    let questions: Vec<Option<(u32, u64)>> = call::lines(input).map(question).collect();
    let words = questions.iter().flatten();
    let words = words.filter_map(|&(edition, word)| word_to_look_up(&LONG, edition, word).ok());
    let catalogue = Catalogue::of(&LONG, words.map(|(_, word)| word));
    let answer = |question: &Option<(u32, u64)>| match *question {
        None => "no line\n".into(),
        Some((edition, word)) => match read(&catalogue, edition, word) {
            Ok(_) => "taken\n".into(),
            Err(refusal) => {
                let editions = refusal.editions;
                format!("refused {} {} {}\n", refusal.number, editions.0, editions.count())
            }
        },
    };
    questions.iter().map(answer).collect::<String>().into_bytes()
}

/// What the log reader writes for a log.
fn logread(input: &[u8]) -> Vec<u8> {
    log::shown(input, false).into_bytes()
}

/// What it writes where it is asked to explain.
fn logread_explained(input: &[u8]) -> Vec<u8> {
    log::shown(input, true).into_bytes()
}

/// The shorter of its logs: a trap may be explained in sixteen editions, each in twenty lines.
fn logread_explained_inputs() -> Vec<(String, Vec<u8>)> {
    log_runs::inputs().into_iter().filter(|(_, log)| log.len() < 4096).collect()
}

/// The paper's own lines, inputs that end in every way, and long ones.
fn trapread_inputs() -> Vec<(String, Vec<u8>)> {
    let paper = "0 0000000092000005\n1 0000000092000018\nx\n";
    let texts = [
        ("the paper's three lines", paper),
        ("nothing", ""),
        ("a newline", "\n"),
        ("two newlines", "\n\n"),
        ("a last line without its newline", "0 0000000092000005\n1 0000000092000018"),
        ("a last line that is too short", "1 000000009200001"),
        ("a last line that is too long", "1 00000000920000180"),
        ("a last line of one byte", "0 0000000092000005\n0"),
        ("a last line of a space", "\n "),
        ("digits of either case", "7 000000009200001b\n7 000000009200001B\n7 00000000920000lb\n"),
        (
            "editions of either case",
            "9 0000000092000018\nb 0000000092000018\nF 0000000092000018\ng 0000000092000018\n",
        ),
        ("other spaces", "0\t0000000092000005\n 0 0000000092000005\n0 0000000092000005 \n"),
        ("other ends", "0 0000000092000005\r\n0 0000000092000005\0\n"),
    ];
    let mut inputs = named(&texts);
    inputs.push((
        "some MiB".into(),
        long_input(4 << 20, 18, |random| {
            let word =
                if random.below(2) == 0 { 0x9200_0000 + random.below(64) } else { random.next() };
            format!("{:x} {word:016x}", random.below(16))
        }),
    ));
    inputs.push((
        "more than 16 MB, mostly of long lines".into(),
        long_input(17 << 20, 18, question_or_long_line),
    ));
    inputs.push(("a line of some MiB".into(), "0".repeat(3 << 20).into_bytes()));
    inputs.push(("some million newlines".into(), "\n".repeat(2 << 20).into_bytes()));
    inputs
}

/// A question, or one that some KiB follow in its line.
fn question_or_long_line(random: &mut Random) -> String {
    let word = 0x9200_0000 + random.below(64);
    let rest = "0".repeat((random.below(2) * random.below(4096)) as usize);
    format!("{:x} {word:016x}{rest}", random.below(16))
}

/// Stored questions, a MiB of lines, and the questions of the trap reader, which ends of an
/// input are tried on.
fn explain_inputs() -> Vec<(String, Vec<u8>)> {
    let mut inputs = vec![("the questions".into(), explain::questions().into_bytes())];
    inputs.push((
        "a MiB, mostly of long lines".into(),
        long_input(1 << 20, 18, question_or_long_line),
    ));
    let small = trapread_inputs().into_iter().filter(|(_, input)| input.len() < 1 << 16);
    inputs.extend(small);
    inputs
}

/// Rows that end in every way, those of other programs, which are no rows of this one,
/// and long inputs.
fn row_inputs(
    [first, second]: [&str; 2],
    line: impl Fn(&mut Random) -> String,
) -> Vec<(String, Vec<u8>)> {
    let cut = &second[..second.rfind(' ').unwrap_or(0)];
    let texts = [
        ("nothing", String::new()),
        ("a newline", "\n".into()),
        ("a last line without its newline", format!("{first}\n{second}")),
        ("a last line that is no row", format!("{first}\n{cut}")),
        ("a last line of a space", format!("{first}\n ")),
        (
            "rows of every program",
            format!(
                "read 0 0 92000005\nheld 13 d\ndecode e5910004\nrun{} 0 0\npasses 10 5 1 1 0\nran 10 0\n",
                " 0".repeat(48)
            ),
        ),
    ];
    let mut inputs: Vec<(String, Vec<u8>)> =
        texts.into_iter().map(|(name, text)| (name.into(), text.into_bytes())).collect();
    inputs.push(("some hundred KiB".into(), long_input(300_000, 4, line)));
    inputs.push(("a line of some hundred KiB".into(), "read ".repeat(60_000).into_bytes()));
    inputs.push(("some hundred thousand newlines".into(), "\n".repeat(200_000).into_bytes()));
    inputs
}

fn words_inputs() -> Vec<(String, Vec<u8>)> {
    row_inputs(["read 0 0 92000005", "read 0 1 92000018"], |random| {
        let word = 0x9200_0000 + random.below(0x100);
        format!(
            "trap {:x} {:x} {word:x} {:x} {:x}",
            random.below(2),
            random.below(10),
            random.word(),
            random.below(1 << 40)
        )
    })
}

fn states_inputs() -> Vec<(String, Vec<u8>)> {
    row_inputs(["held 13 d", "spsr 0 0 0 10"], |random| {
        let state = call::text(&random_state(random));
        format!("inject {:x} 0 0 0 0 0 {state}", random.below(3))
    })
}

/// A state of random words with an aligned VBAR, without marks, in some mode's number.
fn random_state(random: &mut Random) -> Vec<u64> {
    let mut state: Vec<u64> = (0..45).map(|_| random.word().into()).collect();
    state[32] = 0x10 + random.below(16);
    state[43] &= 0xffff_ffe0;
    state.extend([0; 3]);
    state
}

fn a32_inputs() -> Vec<(String, Vec<u8>)> {
    row_inputs(["decode e5910004", "decode 0"], |random| {
        format!("decode {:x}", 0xe400_0000 + random.below(0x400_0000))
    })
}

fn onward_inputs() -> Vec<(String, Vec<u8>)> {
    row_inputs(["passes 10 1 1 1 e 1", "passes 40000010 5 1 1 1"], |random| {
        format!("passes {:x} 5 1 {:x} {:x}", random.word(), random.below(2), random.below(16))
    })
}

fn chip_inputs() -> Vec<(String, Vec<u8>)> {
    row_inputs(["ran 10 0", "tospsr 0 0 1 200010"], |random| {
        format!("edition {:x} {:x} {:x}", random.next(), random.next(), random.next())
    })
}

fn runs_inputs() -> Vec<(String, Vec<u8>)> {
    let run = |state: &[u64], calls: &str| format!("run {} {calls}", call::text(state));
    let first = run(&[0; 48], "0 2 1 20 10 30");
    let second = run(&[0; 48], "0 1 0 0 1 20 13 30 1 30");
    row_inputs([&first, &second], |random| {
        let state = random_state(random);
        let calls = (0..8).map(|_| match random.below(4) {
            0 => format!("0 {:x}", random.below(3)),
            1 => format!("1 20 {:x} 30", 0x10 + (random.below(8) << 6)),
            2 => format!("2 {:x} 0 0 0 0", random.below(3)),
            _ => format!("3 {:x} {:x}", random.below(2), random.below(9)),
        });
        run(&state, &calls.collect::<Vec<_>>().join(" "))
    })
}

fn named(texts: &[(&str, &str)]) -> Vec<(String, Vec<u8>)> {
    texts.iter().map(|&(name, text)| (name.into(), text.into())).collect()
}

/// Lines drawn at random, now and then one that is cut short, until there are
/// so many bytes.
fn long_input(length: usize, shortest: u64, line: impl Fn(&mut Random) -> String) -> Vec<u8> {
    let mut random = Random::seeded(6);
    let mut input = String::new();
    while input.len() < length {
        let mut line = line(&mut random);
        if random.below(16) == 0 {
            line.truncate(random.below(shortest) as usize);
        }
        input += &line;
        input.push('\n');
    }
    input.into_bytes()
}

#[cfg(test)]
mod tests {
    use super::*;

    #[test]
    fn the_paper_s_lines_are_answered_as_it_says() {
        let input = b"0 0000000092000005\n1 0000000092000018\nx\n";
        assert_eq!(trapread(input), b"taken\nrefused 6 21845 8\nno line\n");
    }
}
