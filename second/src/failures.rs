//! What the programs that a person runs do with words that they don't take, and with
//! reads and writes that fail or that a signal interrupts.

use crate::log;
use crate::programs::{answers_of, built, file_of, state, wait_until_asleep};
use std::fs::File;
use std::io::{self, Read, Write};
use std::os::fd::OwnedFd;
use std::os::unix::net::UnixStream;
use std::path::Path;
use std::process::{Child, Command, Stdio};
use std::thread;
use std::time::Duration;

/// Where a program's input comes from.
enum Input {
    /// A file of these bytes.
    Bytes(Vec<u8>),
    /// A folder: the first read fails.
    Folder,
    /// A socket that breaks after these bytes.
    Breaks(Vec<u8>),
    Closed,
}

/// Where its output goes.
enum Output {
    Pipe,
    /// A device that never has room.
    Full,
    Closed,
}

/// A run of a program, and what it must write and tell.
struct Run {
    words: &'static [&'static str],
    input: Input,
    output: Output,
    written: Vec<u8>,
    told: &'static str,
}

const TRAPREAD_USAGE: &str =
    "usage: trapread reads lines from standard input, and takes no word but --help\n";
const LOGREAD_USAGE: &str = "usage: logread [--explain] [FILE], or logread --help\n";
const NO_FOLDER: &str = "standard input: Is a directory\n";
const NO_INPUT: &str = "standard input: Bad file descriptor\n";
const BROKEN: &str = "standard input: Connection reset by peer\n";
const NO_ROOM: &str = "standard output: No space left on device\n";
const NO_OUTPUT: &str = "standard output: Bad file descriptor\n";

/// The programs' names and their stored help.
const HELP: [(&str, &str); 3] = [
    ("trapread", include_str!("../help/trapread.txt")),
    ("explain", include_str!("../help/explain.txt")),
    ("logread", include_str!("../help/logread.txt")),
];

/// Two lines that every reader of lines takes, the second without its newline.
const LINES: &[u8] = b"0 0000000092000005\n1 0000000092000018";

/// Runs the programs of a folder of crates; true when all wrote and told what they must.
pub fn run(directory: &Path) -> io::Result<bool> {
    let mut all_same = true;
    for (name, help) in HELP {
        let path = built(directory, name);
        let runs = runs(name, help)?;
        let mut same = true;
        for run in &runs {
            same &= made(&path, run)?;
        }
        same &= interrupted(&path, name)? & cut_off(&path, name)?;
        println!(
            "{name}: {} failures, {}",
            runs.len() + 2,
            if same { "same" } else { "DIFFERENT" }
        );
        all_same &= same;
    }
    Ok(all_same)
}

fn runs(name: &str, help: &str) -> io::Result<Vec<Run>> {
    let question = if name == "logread" { a_log() } else { LINES.to_vec() };
    let answer = answers_of(name, &question)?;
    let run = |words, input, output, written: &[u8], told| Run {
        words,
        input,
        output,
        written: written.to_vec(),
        told,
    };
    let asked = || Input::Bytes(question.clone());
    let mut runs = vec![
        run(&[], asked(), Output::Pipe, &answer, ""),
        run(&[], asked(), Output::Full, b"", NO_ROOM),
        run(&[], asked(), Output::Closed, b"", NO_OUTPUT),
        run(&[], Input::Folder, Output::Pipe, b"", NO_FOLDER),
        run(&[], Input::Closed, Output::Pipe, b"", NO_INPUT),
        run(&["--help"], asked(), Output::Pipe, help.as_bytes(), ""),
        run(&["--help"], asked(), Output::Full, b"", NO_ROOM),
    ];
    // An input that breaks off, lines after each byte: those that have ended are answered.
    for length in (0..=question.len()).step_by(1 + question.len() / 64) {
        let read = &question[..length];
        let whole = read.iter().rposition(|&byte| byte == b'\n').map_or(0, |at| at + 1);
        let written = match name {
            "logread" => Vec::new(),
            _ => answers_of(name, &read[..whole])?,
        };
        runs.push(run(&[], Input::Breaks(read.to_vec()), Output::Pipe, &written, BROKEN));
    }
    let words: &[(&[&str], &[u8], &str)] = match name {
        "trapread" => &[
            (&["x"], b"", TRAPREAD_USAGE),
            (&[""], b"", TRAPREAD_USAGE),
            (&["--help", "x"], b"", TRAPREAD_USAGE),
            (&["0", "0000000092000005"], b"", TRAPREAD_USAGE),
        ],
        "explain" => &[(&["x"], b"no line\n", ""), (&["--help", "x"], b"no line\n", "")],
        _ => &[
            (&["a", "b"], b"", LOGREAD_USAGE),
            (&["a", "--explain"], b"", LOGREAD_USAGE),
            (&["--explain", "a", "b"], b"", LOGREAD_USAGE),
            (&["--help", "a"], b"", LOGREAD_USAGE),
            (&["."], b"", ".: Is a directory\n"),
            (&["--explain", "."], b"", ".: Is a directory\n"),
            (&["/proc/self/mem"], b"", "/proc/self/mem: Input/output error\n"),
            (&["/no file"], b"", "/no file: No such file or directory\n"),
        ],
    };
    for &(words, written, told) in words {
        runs.push(run(words, asked(), Output::Pipe, written, told));
    }
    Ok(runs)
}

/// A log with an entry of each kind.
fn a_log() -> Vec<u8> {
    log::bytes(&log::example())
}

/// Makes a run; true when the program wrote and told what it must.
fn made(path: &Path, run: &Run) -> io::Result<bool> {
    let mut command = match (&run.input, &run.output) {
        (Input::Closed, _) => shell(path, "<&-"),
        (_, Output::Closed) => shell(path, ">&-"),
        _ => Command::new(path),
    };
    command.args(run.words).stdout(Stdio::piped()).stderr(Stdio::piped());
    match &run.input {
        Input::Bytes(bytes) => command.stdin(file_of(bytes)?),
        Input::Folder => command.stdin(File::open(".")?),
        Input::Breaks(bytes) => command.stdin(breaking(bytes)?),
        Input::Closed => command.stdin(Stdio::null()),
    };
    if let Output::Full = run.output {
        command.stdout(File::create("/dev/full")?);
    }
    let ended = command.output()?;
    let call = format!("{} {:?}", path.display(), run.words);
    Ok(compared(&call, &ended.stdout, &run.written, &ended.stderr, run.told)
        & ended.status.success())
}

/// A program that is started with a descriptor closed.
fn shell(path: &Path, closing: &str) -> Command {
    let mut command = Command::new("sh");
    command.arg("-c").arg(format!("exec \"$0\" \"$@\" {closing}")).arg(path);
    command
}

/// A socket with these bytes in it, whose other end was closed before it had read what was
/// sent to it: a read after the bytes fails.
fn breaking(bytes: &[u8]) -> io::Result<OwnedFd> {
    let (mut near, mut far) = UnixStream::pair()?;
    near.write_all(bytes)?;
    far.write_all(b"unread")?;
    drop(near);
    Ok(far.into())
}

fn compared(call: &str, written: &[u8], expected: &[u8], told: &[u8], must_tell: &str) -> bool {
    let same = written == expected && told == must_tell.as_bytes();
    if !same {
        println!(
            "{call}: wrote {} bytes for {}, told {:?} for {must_tell:?}",
            written.len(),
            expected.len(),
            String::from_utf8_lossy(told)
        );
    }
    same
}

/// So many questions that the answers don't fit into a socket.
fn many(name: &str) -> Vec<u8> {
    match name {
        "logread" => {
            let traps = 2000;
            log::bytes(&log::Log {
                editions: (0..16).collect(),
                syndromes: vec![0x9200_0018; traps],
                addresses: vec![(0x8abc, 0x1_2340); traps],
                injections: Vec::new(),
            })
        }
        "explain" => b"0 0000000092000005\n".repeat(2000),
        _ => b"1 0000000092000018\n".repeat(100_000),
    }
}

/// A program that is stopped and continued while it waits in a read, and then in a write. A wait
/// for a socket that has a time limit ends by that with EINTR.
fn interrupted(path: &Path, name: &str) -> io::Result<bool> {
    let input = many(name);
    let limit = Some(Duration::from_secs(600));
    let (mut questions, far) = UnixStream::pair()?;
    far.set_read_timeout(limit)?;
    let (mut answers, out) = UnixStream::pair()?;
    out.set_write_timeout(limit)?;
    let mut command = Command::new(path);
    command.stdin(OwnedFd::from(far)).stdout(OwnedFd::from(out)).stderr(Stdio::piped());
    let mut child = command.spawn()?;
    drop(command);
    let (first, second) = input.split_at(30);
    stop_and_go(&child)?;
    send(&mut questions, first)?;
    stop_and_go(&child)?;
    let mut written = Vec::new();
    thread::scope(|scope| {
        let writer = scope.spawn(move || send(&mut questions, second));
        // Its output is full when it sleeps though there is more input.
        thread::sleep(Duration::from_millis(200));
        let stopped = (0..3).try_for_each(|_| stop_and_go(&child));
        answers.read_to_end(&mut written)?;
        writer.join().expect("a writer that ends").and(stopped)
    })?;
    let told = told(&mut child)?;
    let expected = answers_of(name, &input)?;
    Ok(compared(&format!("{name}, interrupted"), &written, &expected, &told, ""))
}

/// Writes an input. A program that has ended early has written what it has written.
fn send(questions: &mut UnixStream, input: &[u8]) -> io::Result<()> {
    match questions.write_all(input) {
        Err(error) if error.kind() == io::ErrorKind::BrokenPipe => Ok(()),
        sent => sent,
    }
}

/// A program whose output takes some bytes and then no more: what it wrote is the beginning of
/// its answer, and it tells why that ends.
fn cut_off(path: &Path, name: &str) -> io::Result<bool> {
    let input = many(name);
    let (mut answers, out) = UnixStream::pair()?;
    out.set_nonblocking(true)?;
    let mut command = Command::new(path);
    command.stdin(file_of(&input)?).stdout(OwnedFd::from(out)).stderr(Stdio::piped());
    let mut child = command.spawn()?;
    drop(command);
    let told = told(&mut child)?;
    let mut written = Vec::new();
    answers.read_to_end(&mut written)?;
    let answer = answers_of(name, &input)?;
    let begun = !written.is_empty() && written.len() < answer.len();
    let expected = &answer[..written.len().min(answer.len())];
    let must_tell = "standard output: Resource temporarily unavailable\n";
    Ok(compared(&format!("{name}, cut off"), &written, expected, &told, must_tell) & begun)
}

/// What a program that has ended told on standard error.
fn told(child: &mut Child) -> io::Result<Vec<u8>> {
    let mut told = Vec::new();
    child.stderr.take().expect("a pipe").read_to_end(&mut told)?;
    match child.wait()?.success() {
        true => Ok(told),
        false => Err(io::Error::other("a program ended by a signal")),
    }
}

/// Stops a program that sleeps, and lets it go on until it sleeps again.
fn stop_and_go(child: &Child) -> io::Result<()> {
    let id = child.id();
    wait_until_asleep(id)?;
    for (signal, states) in [("-STOP", "T"), ("-CONT", "SZX")] {
        Command::new("kill").args([signal, &id.to_string()]).status()?;
        while !state(id).is_some_and(|state| states.contains(state)) {
            thread::sleep(Duration::from_micros(100));
        }
    }
    Ok(())
}
