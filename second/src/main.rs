//! The second program: the rules of the paper answered by enumerating records.

mod a32;
#[cfg(feature = "compare")]
mod bench;
mod call;
mod cases;
mod catalogue;
mod cause;
mod chip;
#[cfg(feature = "compare")]
mod compare;
#[cfg(feature = "compare")]
mod compare_a32;
mod device;
mod edition;
mod explain;
mod failures;
mod form;
mod guest;
mod log;
mod log_runs;
mod long;
mod onward;
#[cfg(any(feature = "compare", test))]
mod ordinary;
mod pending;
mod programs;
#[cfg(feature = "compare")]
mod proved;
mod random;
mod rows;
mod short;
mod status;
mod syndrome;
#[cfg(feature = "compare")]
mod table;
#[cfg(feature = "compare")]
mod tally;
mod trap;
mod widen;

use std::env;
use std::io;
use std::path::Path;
use std::process::ExitCode;

const USAGE: &str = "\
usage: second rows DIR
       second check DIR
       second programs DIR
       second answer NAME
       second compare [FIRST LAST [STRIDE]]
       second compare-a32 [STRIDE]
       second bench
The last three need the feature `compare`.";

fn main() -> ExitCode {
    let arguments: Vec<String> = env::args().skip(1).collect();
    let words: Vec<&str> = arguments.iter().map(String::as_str).collect();
    match run(&words) {
        Ok(true) => ExitCode::SUCCESS,
        Ok(false) => ExitCode::FAILURE,
        Err(error) => {
            eprintln!("second: {error}");
            ExitCode::from(2)
        }
    }
}

fn usage() -> io::Error {
    io::Error::new(io::ErrorKind::InvalidInput, USAGE)
}

/// True when the command found everything as it should be.
fn run(words: &[&str]) -> io::Result<bool> {
    match words {
        ["rows", directory] => rows::write(Path::new(directory)),
        ["check", directory] => {
            let directory = Path::new(directory);
            Ok(rows::check(directory)? & programs::check(directory)?)
        }
        ["answer", name] => programs::answer(name),
        ["programs", directory] => {
            let directory = Path::new(directory);
            Ok(programs::run(directory)? & failures::run(directory)?)
        }
        #[cfg(feature = "compare")]
        ["compare", range @ ..] => compare_range(range),
        #[cfg(feature = "compare")]
        ["compare-a32"] => Ok(compare_a32::compare(1)),
        #[cfg(feature = "compare")]
        ["compare-a32", stride] => Ok(compare_a32::compare(stride_of(stride)?)),
        #[cfg(feature = "compare")]
        ["bench"] => {
            bench::bench();
            Ok(true)
        }
        _ => Err(usage()),
    }
}

/// The first and last class are hexadecimal, the stride is decimal.
#[cfg(feature = "compare")]
fn compare_range(range: &[&str]) -> io::Result<bool> {
    let class = |word| u8::from_str_radix(word, 16).map_err(|_| usage());
    let (first, last, stride) = match *range {
        [] => (0, 0x3f, 1),
        [first, last] => (class(first)?, class(last)?, 1),
        [first, last, every] => (class(first)?, class(last)?, stride_of(every)?),
        _ => return Err(usage()),
    };
    if first > last || last > 0x3f {
        return Err(usage());
    }
    Ok(compare::compare(first..=last, stride))
}

#[cfg(feature = "compare")]
fn stride_of(word: &str) -> io::Result<usize> {
    word.parse().ok().filter(|&stride| stride > 0).ok_or_else(usage)
}
