//! The rows: the calls of the proved code asked by a line of text, and what
//! each answers.

use crate::a32::{self, Fields};
use crate::catalogue::Catalogue;
use crate::cause::cause;
use crate::chip::{self, Ran};
use crate::device::{finish, Access};
use crate::form::{Form, Record};
use crate::guest::{inject, resume, Fault, Injection, State};
use crate::long::{Origin, AARCH64, LONG};
use crate::onward::{access, coprocess, passes, step_over};
use crate::pending::Run;
use crate::short::SHORT;
use crate::status::{from_spsr, is_mode, to_spsr, Marks, Status};
use crate::syndrome::{read, word_to_look_up, write, Refusal};
use crate::trap::{read_both, read_trap, Intermediate, Registers, Trap};
use crate::widen::{mapped, widen, widened};

/// A question to one of the calls.
#[derive(Clone, Debug)]
pub enum Call {
    Read {
        origin: Origin,
        edition: u32,
        word: u64,
    },
    Write {
        origin: Origin,
        edition: u32,
        record: Record,
    },
    Carry {
        origin: Origin,
        writer: u32,
        reader: u32,
        record: Record,
    },
    /// Read and written again in one edition.
    Again {
        origin: Origin,
        edition: u32,
        word: u64,
    },
    Trap {
        origin: Origin,
        edition: u32,
        registers: Registers,
    },
    Both {
        origin: Origin,
        editions: [u32; 2],
        registers: Registers,
    },
    ShortRead {
        edition: u32,
        word: u32,
    },
    ShortWrite {
        edition: u32,
        record: Record,
    },
    ShortCarry {
        writer: u32,
        reader: u32,
        record: Record,
    },
    ShortAgain {
        edition: u32,
        word: u32,
    },
    Widen {
        mode: u32,
        record: Record,
    },
    Held {
        mode: u32,
        register: u32,
    },
    Inject {
        way: Way,
        injection: Injection,
        state: State,
    },
    Spsr {
        marks: Marks,
        word: u32,
    },
    Finish {
        value: u32,
        state: State,
        record: Record,
    },
    /// Raises, delivery steps, injections and returns.
    Run {
        run: Run,
    },
    Decode {
        word: u32,
    },
    Encode {
        fields: Fields,
    },
    Describe {
        word: u32,
        state: State,
    },
    /// Whether a condition passes in a status word.
    Passes {
        status: u32,
        record: Record,
    },
    Step {
        state: State,
        record: Record,
    },
    Coprocess {
        values: [u32; 2],
        state: State,
        record: Record,
    },
    Access {
        word: u32,
        values: [u32; 16],
        state: State,
    },
    ToSpsr {
        marks: Marks,
        word: u32,
    },
    Edition {
        pfr0: u64,
        mmfr0: u64,
        mmfr1: u64,
    },
    ShortEdition {
        pfr0: u64,
    },
    MarksOf {
        mmfr3: u64,
        pfr2: u64,
        pfr0: u64,
    },
    Ran {
        spsr: u64,
        hcr: u64,
    },
    Cause {
        origin: Origin,
        record: Record,
    },
}

/// How an injection is asked: by value, on a state that is lent, which gives the same
/// answers, or with the return right after it.
#[derive(Clone, Copy, Debug, PartialEq)]
pub enum Way {
    ByValue,
    Lent,
    AndBack,
}

impl Way {
    pub const ALL: [Way; 3] = [Way::ByValue, Way::Lent, Way::AndBack];

    fn name(self) -> &'static str {
        match self {
            Way::ByValue => "inject",
            Way::Lent => "lent",
            Way::AndBack => "back",
        }
    }
}

/// A proved program that answers rows: its name, and the words of its calls.
pub struct Checker {
    pub name: &'static str,
    calls: &'static [&'static str],
}

pub const WORDS: Checker = Checker {
    name: "check_words",
    calls: &[
        "read", "write", "carry", "again", "trap", "both", "hread", "hwrite", "hcarry", "hagain",
        "widen",
    ],
};

pub const STATES: Checker =
    Checker { name: "check_states", calls: &["inject", "lent", "back", "spsr", "finish", "held"] };

pub const A32: Checker = Checker { name: "check_a32", calls: &["decode", "encode", "access"] };

pub const RUNS: Checker = Checker { name: "check_runs", calls: &["run"] };

pub const ONWARD: Checker =
    Checker { name: "check_onward", calls: &["passes", "step", "copro", "perform"] };

pub const CHIP: Checker =
    Checker { name: "check_chip", calls: &["tospsr", "edition", "short", "marks", "ran", "cause"] };

pub const CHECKERS: [Checker; 6] = [WORDS, STATES, A32, RUNS, ONWARD, CHIP];

impl Checker {
    /// Whether a line begins with the word of one of its calls.
    pub fn is_asked_by(&self, line: &[u8]) -> bool {
        let word = line.split(|&byte| byte == b' ').next().unwrap_or_default();
        self.calls.iter().any(|call| call.as_bytes() == word)
    }

    /// The answers to an input's lines. The last line may lack its newline.
    pub fn answers(&self, input: &[u8]) -> Vec<u8> {
        let call = |line| Call::parse(line).filter(|_| self.is_asked_by(line));
        answers(&lines(input).map(call).collect::<Vec<_>>())
    }
}

/// A row of numbers and truth values of any width.
macro_rules! row {
    ($($number:expr),* $(,)?) => { vec![$(u64::from($number)),*] };
}

impl Call {
    /// The call that a line asks, if it is a row.
    pub fn parse(line: &[u8]) -> Option<Call> {
        let mut words = line.split(|&byte| byte == b' ');
        let name = words.next()?;
        let numbers = words.map(number).collect::<Option<Vec<u64>>>()?;
        match (name, numbers.as_slice()) {
            (b"read", &[origin, edition, word]) => {
                let origin = Origin::from_number(narrow(origin)?);
                Some(Call::Read { origin, edition: narrow(edition)?, word })
            }
            (b"write", [origin, edition, record @ ..]) => Some(Call::Write {
                origin: Origin::from_number(narrow(*origin)?),
                edition: narrow(*edition)?,
                record: Record::from_words(&LONG, record)?,
            }),
            (b"carry", [origin, writer, reader, record @ ..]) => Some(Call::Carry {
                origin: Origin::from_number(narrow(*origin)?),
                writer: narrow(*writer)?,
                reader: narrow(*reader)?,
                record: Record::from_words(&LONG, record)?,
            }),
            (b"again", &[origin, edition, word]) => {
                let origin = Origin::from_number(narrow(origin)?);
                Some(Call::Again { origin, edition: narrow(edition)?, word })
            }
            (b"trap", &[origin, edition, esr, far, hpfar]) => {
                let origin = Origin::from_number(narrow(origin)?);
                let registers = Registers { esr, far, hpfar };
                Some(Call::Trap { origin, edition: narrow(edition)?, registers })
            }
            (b"both", &[origin, first, second, esr, far, hpfar]) => {
                let origin = Origin::from_number(narrow(origin)?);
                let editions = [narrow(first)?, narrow(second)?];
                Some(Call::Both { origin, editions, registers: Registers { esr, far, hpfar } })
            }
            (b"hread", &[edition, word]) => {
                Some(Call::ShortRead { edition: narrow(edition)?, word: narrow(word)? })
            }
            (b"hwrite", [edition, record @ ..]) => {
                let record = Record::from_words(&SHORT, record)?;
                Some(Call::ShortWrite { edition: narrow(*edition)?, record })
            }
            (b"hcarry", [writer, reader, record @ ..]) => Some(Call::ShortCarry {
                writer: narrow(*writer)?,
                reader: narrow(*reader)?,
                record: Record::from_words(&SHORT, record)?,
            }),
            (b"hagain", &[edition, word]) => {
                Some(Call::ShortAgain { edition: narrow(edition)?, word: narrow(word)? })
            }
            (b"held", &[mode, register]) => {
                Some(Call::Held { mode: narrow(mode)?, register: narrow(register)? })
            }
            (b"widen", [mode, record @ ..]) => {
                let record = Record::from_words(&SHORT, record)?;
                Some(Call::Widen { mode: narrow(*mode)?, record })
            }
            (b"inject" | b"lent" | b"back", row) => {
                let (injection, state) = row.split_first_chunk::<6>()?;
                let injection = injection_of(*injection)?;
                let state = State::from_numbers(state)?;
                let way = Way::ALL.into_iter().find(|way| way.name().as_bytes() == name)?;
                Some(Call::Inject { way, injection, state })
            }
            (b"spsr" | b"tospsr", &[pan, ssbs, dit, word]) => {
                let mark = |number| Some(narrow(number)? != 0);
                let marks = Marks { pan: mark(pan)?, ssbs: mark(ssbs)?, dit: mark(dit)? };
                let word = narrow(word)?;
                Some(match name {
                    b"spsr" => Call::Spsr { marks, word },
                    _ => Call::ToSpsr { marks, word },
                })
            }
            (b"edition", &[pfr0, mmfr0, mmfr1]) => Some(Call::Edition { pfr0, mmfr0, mmfr1 }),
            (b"short", &[pfr0]) => Some(Call::ShortEdition { pfr0 }),
            (b"marks", &[mmfr3, pfr2, pfr0]) => Some(Call::MarksOf { mmfr3, pfr2, pfr0 }),
            (b"ran", &[spsr, hcr]) => Some(Call::Ran { spsr, hcr }),
            (b"cause", [origin, record @ ..]) => Some(Call::Cause {
                origin: Origin::from_number(narrow(*origin)?),
                record: Record::from_words(&LONG, record)?,
            }),
            (b"finish", [value, rest @ ..]) => {
                let (state, record) = rest.split_at_checked(48)?;
                Some(Call::Finish {
                    value: narrow(*value)?,
                    state: State::from_numbers(state)?,
                    record: Record::from_words(&LONG, record)?,
                })
            }
            (b"run", row) => Some(Call::Run { run: Run::from_row(row)? }),
            (b"decode", &[word]) => Some(Call::Decode { word: narrow(word)? }),
            (b"encode", fields) => Some(Call::Encode { fields: Fields::from_row(fields)? }),
            (b"access", [word, state @ ..]) => {
                let state = State::from_numbers(state)?;
                Some(Call::Describe { word: narrow(*word)?, state })
            }
            (b"passes", [status, record @ ..]) => {
                let record = Record::from_words(&LONG, record)?;
                Some(Call::Passes { status: narrow(*status)?, record })
            }
            (b"step", rest) => {
                let (state, record) = rest.split_at_checked(48)?;
                Some(Call::Step {
                    state: State::from_numbers(state)?,
                    record: Record::from_words(&LONG, record)?,
                })
            }
            (b"copro", &[first, second, ref rest @ ..]) => {
                let (state, record) = rest.split_at_checked(48)?;
                Some(Call::Coprocess {
                    values: [narrow(first)?, narrow(second)?],
                    state: State::from_numbers(state)?,
                    record: Record::from_words(&LONG, record)?,
                })
            }
            (b"perform", [word, rest @ ..]) => {
                let (values, state) = rest.split_at_checked(16)?;
                let values =
                    values.iter().map(|&value| narrow(value)).collect::<Option<Vec<_>>>()?;
                Some(Call::Access {
                    word: narrow(*word)?,
                    values: values.try_into().ok()?,
                    state: State::from_numbers(state)?,
                })
            }
            _ => None,
        }
    }

    /// The line that asks the call, without its end.
    pub fn line(&self) -> String {
        let (name, numbers) = match self {
            Call::Read { origin, edition, word } => {
                ("read", row![origin.number(), *edition, *word])
            }
            Call::Write { origin, edition, record } => {
                ("write", [row![origin.number(), *edition], record.words()].concat())
            }
            Call::Carry { origin, writer, reader, record } => {
                ("carry", [row![origin.number(), *writer, *reader], record.words()].concat())
            }
            Call::Again { origin, edition, word } => {
                ("again", row![origin.number(), *edition, *word])
            }
            Call::Trap { origin, edition, registers } => {
                ("trap", [row![origin.number(), *edition], registers_row(registers)].concat())
            }
            Call::Both { origin, editions: [first, second], registers } => {
                let editions = row![origin.number(), *first, *second];
                ("both", [editions, registers_row(registers)].concat())
            }
            Call::ShortRead { edition, word } => ("hread", row![*edition, *word]),
            Call::ShortWrite { edition, record } => {
                ("hwrite", [row![*edition], record.words()].concat())
            }
            Call::ShortCarry { writer, reader, record } => {
                ("hcarry", [row![*writer, *reader], record.words()].concat())
            }
            Call::ShortAgain { edition, word } => ("hagain", row![*edition, *word]),
            Call::Held { mode, register } => ("held", row![*mode, *register]),
            Call::Widen { mode, record } => ("widen", [row![*mode], record.words()].concat()),
            Call::Inject { way, injection, state } => {
                (way.name(), [injection_row(injection), state.numbers()].concat())
            }
            Call::Spsr { marks: Marks { pan, ssbs, dit }, word } => {
                ("spsr", row![*pan, *ssbs, *dit, *word])
            }
            Call::Finish { value, state, record } => {
                ("finish", [row![*value], state.numbers(), record.words()].concat())
            }
            Call::Run { run } => ("run", run.row()),
            Call::Decode { word } => ("decode", row![*word]),
            Call::Encode { fields } => ("encode", fields.row()),
            Call::Describe { word, state } => ("access", [row![*word], state.numbers()].concat()),
            Call::Passes { status, record } => ("passes", [row![*status], record.words()].concat()),
            Call::Step { state, record } => ("step", [state.numbers(), record.words()].concat()),
            Call::Coprocess { values: [first, second], state, record } => {
                ("copro", [row![*first, *second], state.numbers(), record.words()].concat())
            }
            Call::Access { word, values, state } => {
                let values = values.iter().map(|&value| value.into()).collect();
                ("perform", [row![*word], values, state.numbers()].concat())
            }
            Call::ToSpsr { marks: Marks { pan, ssbs, dit }, word } => {
                ("tospsr", row![*pan, *ssbs, *dit, *word])
            }
            Call::Edition { pfr0, mmfr0, mmfr1 } => ("edition", row![*pfr0, *mmfr0, *mmfr1]),
            Call::ShortEdition { pfr0 } => ("short", row![*pfr0]),
            Call::MarksOf { mmfr3, pfr2, pfr0 } => ("marks", row![*mmfr3, *pfr2, *pfr0]),
            Call::Ran { spsr, hcr } => ("ran", row![*spsr, *hcr]),
            Call::Cause { origin, record } => {
                ("cause", [row![origin.number()], record.words()].concat())
            }
        };
        format!("{name} {}", text(&numbers))
    }

    /// Notes the words that the answer looks up.
    fn look_up(&self, words: &mut Words) {
        match self {
            Call::Read { origin, edition, word } | Call::Again { origin, edition, word } => {
                words.long(*origin).extend(looked_up(origin.form(), *edition, *word));
            }
            Call::Write { origin, record, .. }
            | Call::Carry { origin, record, .. }
            | Call::Cause { origin, record } => {
                words.long(*origin).extend(record.word());
            }
            Call::Finish { record, .. }
            | Call::Step { record, .. }
            | Call::Coprocess { record, .. } => {
                words.aarch32.extend(record.word());
            }
            Call::Trap { origin, edition, registers } => {
                words.long(*origin).extend(looked_up(origin.form(), *edition, registers.esr));
            }
            // A word that is refused before its record is looked up is so in
            // every edition that there is.
            Call::Both { origin, registers, .. } => {
                words.long(*origin).extend(looked_up(origin.form(), 0, registers.esr));
            }
            Call::ShortRead { edition, word } | Call::ShortAgain { edition, word } => {
                words.short.extend(looked_up(&SHORT, *edition, u64::from(*word)));
            }
            Call::ShortWrite { record, .. } | Call::ShortCarry { record, .. } => {
                words.short.extend(record.word());
            }
            Call::Widen { mode, record } => {
                words.short.extend(record.word());
                words.aarch32.extend(widened(*mode, record).and_then(|wide| wide.word()));
            }
            Call::Inject { .. }
            | Call::Spsr { .. }
            | Call::ToSpsr { .. }
            | Call::Edition { .. }
            | Call::ShortEdition { .. }
            | Call::MarksOf { .. }
            | Call::Ran { .. }
            | Call::Held { .. }
            | Call::Run { .. }
            | Call::Decode { .. }
            | Call::Encode { .. }
            | Call::Describe { .. }
            | Call::Passes { .. }
            | Call::Access { .. } => {}
        }
    }

    fn answer(&self, catalogues: &Catalogues) -> Vec<u64> {
        let Catalogues { aarch32, short, a32: forms, .. } = catalogues;
        match self {
            Call::Read { origin, edition, word } => {
                let answer = read(catalogues.long(*origin), *edition, *word);
                answered(answer.map(|record| record.words()))
            }
            Call::Write { origin, edition, record } => {
                let answer = write(catalogues.long(*origin), *edition, record);
                answered(answer.map(|word| row![word]))
            }
            Call::Carry { origin, writer, reader, record } => {
                carried(catalogues.long(*origin), *writer, *reader, record)
            }
            Call::Again { origin, edition, word } => {
                again(catalogues.long(*origin), *edition, *word)
            }
            Call::Trap { origin, edition, registers } => {
                let answer = read_trap(catalogues.long(*origin), *edition, *registers);
                answered(answer.map(|trap| trap_row(&trap)))
            }
            Call::Both { origin, editions, registers } => {
                let both = read_both(catalogues.long(*origin), *editions, *registers);
                answered(both.map(|traps| traps.each_ref().map(trap_row).concat()))
            }
            Call::ShortRead { edition, word } => {
                let answer = read(short, *edition, u64::from(*word));
                answered(answer.map(|record| record.words()))
            }
            Call::ShortWrite { edition, record } => {
                answered(write(short, *edition, record).map(|word| row![word]))
            }
            Call::ShortCarry { writer, reader, record } => carried(short, *writer, *reader, record),
            Call::ShortAgain { edition, word } => again(short, *edition, (*word).into()),
            Call::Held { mode, register } => {
                match mapped(*mode, *register).filter(|_| is_mode(*mode)) {
                    Some(number) => row![1u8, number],
                    None => row![0u8],
                }
            }
            Call::Widen { mode, record } => {
                answered(widen(short, aarch32, *mode, record).map(|record| record.words()))
            }
            Call::Inject { way, injection, state } => {
                let injected = inject(state, injection);
                let left = match way {
                    Way::ByValue | Way::Lent => injected,
                    Way::AndBack => {
                        injected.and_then(|after| resume(&after, injection.correction(state)))
                    }
                };
                match left {
                    Ok(after) => [row![0u8], state.changes_to(&after)].concat(),
                    Err(refusal) => row![refusal],
                }
            }
            Call::Spsr { marks, word } => {
                answered(from_spsr(marks, *word).map(|status| row![status]).map_err(Refusal::plain))
            }
            Call::Finish { value, state, record } => match finish(aarch32, state, record, *value) {
                Ok((Access::Load, after)) => {
                    [row![0u8, 0u8, 0u8], state.changes_to(&after)].concat()
                }
                Ok((Access::Store(value), after)) => {
                    [row![0u8, 1u8, value], state.changes_to(&after)].concat()
                }
                Err(refusal) => row![refusal, 0u8, 0u8],
            },
            Call::Run { run } => run.answer(),
            Call::Decode { word } => {
                let form = a32::find(forms, *word).ok_or(Refusal::plain(19));
                answered(form.map(|form| form.fields(*word).row()))
            }
            Call::Encode { fields } => {
                let word = fields.word(forms).ok_or(Refusal::plain(19));
                answered(word.map(|word| row![word]))
            }
            Call::Describe { word, state } => {
                let described = a32::describe(forms, state, *word).map_err(Refusal::plain);
                answered(described.map(|(fields, effect)| access_row(&fields, &effect)))
            }
            Call::Passes { status, record } => {
                row![passes(&Status::unpack(*status), record)]
            }
            Call::Step { state, record } => match step_over(aarch32, state, record) {
                Ok(after) => [row![0u8], state.changes_to(&after)].concat(),
                Err(refusal) => row![refusal],
            },
            Call::Coprocess { values, state, record } => {
                match coprocess(aarch32, state, record, *values) {
                    Ok((given, after)) => {
                        let padded = [0, 1].map(|i| given.get(i).copied().unwrap_or(0));
                        let given = row![given.len() as u64, padded[0], padded[1]];
                        [row![0u8], given, state.changes_to(&after)].concat()
                    }
                    Err(refusal) => row![refusal, 0u8, 0u8, 0u8],
                }
            }
            Call::Access { word, values, state } => match access(forms, state, *word, values) {
                Ok(done) => {
                    let head = row![0u8, done.stored, done.addresses.len() as u64];
                    let lists = [sixteen(&done.addresses), sixteen(&done.values)].concat();
                    [head, lists, state.changes_to(&done.state)].concat()
                }
                Err(refusal) => [row![refusal, 0u8, 0u8], sixteen(&[]), sixteen(&[])].concat(),
            },
            Call::ToSpsr { marks, word } => {
                answered(to_spsr(marks, *word).map(|spsr| row![spsr]).map_err(Refusal::plain))
            }
            Call::Edition { pfr0, mmfr0, mmfr1 } => row![chip::edition(*pfr0, *mmfr0, *mmfr1)],
            Call::ShortEdition { pfr0 } => row![chip::short_edition(*pfr0)],
            Call::MarksOf { mmfr3, pfr2, pfr0 } => {
                let Marks { pan, ssbs, dit } = chip::marks(*mmfr3, *pfr2, *pfr0);
                row![pan, ssbs, dit]
            }
            Call::Ran { spsr, hcr } => {
                let ran = Ran::of(*spsr, *hcr);
                row![ran.number(), ran.origin().number()]
            }
            Call::Cause { origin, record } => {
                let cause = cause(catalogues.long(*origin), record);
                answered(cause.map(|cause| cause.row()).map_err(Refusal::plain))
            }
        }
    }
}

/// Numbers in sixteen places, 0 after the last.
fn sixteen(numbers: &[u32]) -> Vec<u64> {
    (0..16).map(|place| numbers.get(place).copied().unwrap_or(0).into()).collect()
}

/// The words that answers look up, by form.
#[derive(Default)]
struct Words {
    aarch32: Vec<u32>,
    aarch64: Vec<u32>,
    short: Vec<u32>,
}

impl Words {
    fn long(&mut self, origin: Origin) -> &mut Vec<u32> {
        match origin {
            Origin::AArch32 => &mut self.aarch32,
            Origin::AArch64 => &mut self.aarch64,
        }
    }
}

/// What the enumeration answers for them, and the forms of A32.
struct Catalogues {
    aarch32: Catalogue,
    aarch64: Catalogue,
    short: Catalogue,
    a32: Vec<a32::Form>,
}

impl Catalogues {
    fn of<'a>(calls: impl Iterator<Item = &'a Call>) -> Catalogues {
        let mut words = Words::default();
        for call in calls {
            call.look_up(&mut words);
        }
        Catalogues {
            aarch32: Catalogue::of(&LONG, words.aarch32),
            aarch64: Catalogue::of(&AARCH64, words.aarch64),
            short: Catalogue::of(&SHORT, words.short),
            a32: a32::forms(),
        }
    }

    fn long(&self, origin: Origin) -> &Catalogue {
        match origin {
            Origin::AArch32 => &self.aarch32,
            Origin::AArch64 => &self.aarch64,
        }
    }
}

/// The answers to calls, each with a newline. A line that asks none is no row.
pub fn answers(calls: &[Option<Call>]) -> Vec<u8> {
    let catalogues = Catalogues::of(calls.iter().flatten());
    let answer = |call: &Option<Call>| match call {
        Some(call) => text(&call.answer(&catalogues)) + "\n",
        None => "no row\n".into(),
    };
    calls.iter().map(answer).collect::<String>().into_bytes()
}

/// An input's lines without their newlines: nothing after the last newline is
/// no line.
pub fn lines(input: &[u8]) -> impl Iterator<Item = &[u8]> {
    input
        .split_inclusive(|&byte| byte == b'\n')
        .map(|line| line.strip_suffix(b"\n").unwrap_or(line))
}

/// Numbers in lowercase hexadecimal.
pub fn text(row: &[u64]) -> String {
    let words: Vec<String> = row.iter().map(|number| format!("{number:x}")).collect();
    words.join(" ")
}

/// A number of at most 64 bits in hexadecimal digits of either case.
fn number(digits: &[u8]) -> Option<u64> {
    let digit = |&byte: &u8| char::from(byte).to_digit(16);
    let more = |value: u64, next: &u8| Some(value.checked_mul(16)? + u64::from(digit(next)?));
    (!digits.is_empty()).then(|| digits.iter().try_fold(0, more))?
}

fn narrow(number: u64) -> Option<u32> {
    u32::try_from(number).ok()
}

fn looked_up(form: &Form, edition: u32, word: u64) -> Option<u32> {
    Some(word_to_look_up(form, edition, word).ok()?.1)
}

/// A row with 0 for taken before it, or the refusal.
fn answered(answer: Result<Vec<u64>, Refusal>) -> Vec<u64> {
    match answer {
        Ok(row) => [row![0u8], row].concat(),
        Err(refusal) => row![refusal.number, refusal.editions.0, refusal.editions.count()],
    }
}

/// The writer's refusal, or 0 and what the reader answers.
fn carried(catalogue: &Catalogue, writer: u32, reader: u32, record: &Record) -> Vec<u64> {
    answered(
        write(catalogue, writer, record).map(|word| {
            answered(read(catalogue, reader, word.into()).map(|record| record.words()))
        }),
    )
}

/// A word that is taken comes back as itself.
fn again(catalogue: &Catalogue, edition: u32, word: u64) -> Vec<u64> {
    answered(read(catalogue, edition, word).map(|_| row![word]))
}

/// The fields, the number of registers, the first address, the change of the base
/// modulo 2^64, and sixteen numbers of registers, 0 after the last.
fn access_row(fields: &Fields, effect: &a32::Effect) -> Vec<u64> {
    let count = effect.registers.len();
    let change = effect.change as u64;
    let padding = std::iter::repeat_n(&0, 16 - count);
    let registers = effect.registers.iter().chain(padding).map(|&number| number.into()).collect();
    [fields.row(), row![count as u64, effect.address, change], registers].concat()
}

fn registers_row(registers: &Registers) -> Vec<u64> {
    vec![registers.esr, registers.far, registers.hpfar]
}

/// The record, then 0 or 1 and the virtual address, then 0, 1 and the page,
/// or 2 and the byte.
fn trap_row(trap: &Trap) -> Vec<u64> {
    let virtual_address = match trap.virtual_address {
        None => row![0u8],
        Some(address) => row![1u8, address],
    };
    let intermediate = match trap.intermediate {
        Intermediate::None => row![0u8],
        Intermediate::Page(address) => row![1u8, address],
        Intermediate::Byte(address) => row![2u8, address],
    };
    [trap.record.words(), virtual_address, intermediate].concat()
}

/// Kind, fault, level, address, write and domain. What an injection or fault
/// lacks is shown as 0.
pub fn injection_row(injection: &Injection) -> Vec<u64> {
    match *injection {
        Injection::UndefinedAt => row![0u8, 0u8, 0u8, 0u8, 0u8, 0u8],
        Injection::UndefinedAfter => row![1u8, 0u8, 0u8, 0u8, 0u8, 0u8],
        Injection::SupervisorCall => row![2u8, 0u8, 0u8, 0u8, 0u8, 0u8],
        Injection::PrefetchAbort { fault, address } => {
            let [fault, level] = fault_numbers(fault);
            row![3u8, fault, level, address, 0u8, 0u8]
        }
        Injection::DataAbort { fault, address, write, domain } => {
            let [fault, level] = fault_numbers(fault);
            row![4u8, fault, level, address, write, domain]
        }
    }
}

fn fault_numbers(fault: Fault) -> [u8; 2] {
    match fault {
        Fault::External => [0, 0],
        Fault::Translation(level) => [1, level],
        Fault::AccessFlag(level) => [2, level],
        Fault::Permission(level) => [3, level],
        Fault::Alignment => [4, 0],
    }
}

/// The injection of six numbers, each but the address of 32 bits. A number that is no
/// injection's or no fault's stands for a fault that can't be written.
pub fn injection_of(numbers: [u64; 6]) -> Option<Injection> {
    let [kind, fault, level, address, write, domain] = numbers;
    let [kind, fault, level] = [narrow(kind)?, narrow(fault)?, narrow(level)?];
    let [write, domain] = [narrow(write)?, narrow(domain)?];
    Some(match kind {
        0 => Injection::UndefinedAt,
        1 => Injection::UndefinedAfter,
        2 => Injection::SupervisorCall,
        3 => Injection::PrefetchAbort { fault: fault_of(fault, level), address },
        4 => Injection::DataAbort {
            fault: fault_of(fault, level),
            address,
            write: write != 0,
            domain: byte(domain),
        },
        _ => Injection::PrefetchAbort { fault: UNWRITABLE, address },
    })
}

/// No format has a fault of level 0.
const UNWRITABLE: Fault = Fault::Translation(0);

/// What is above a byte is no level and no domain, as 255 is.
fn byte(number: u32) -> u8 {
    u8::try_from(number).unwrap_or(u8::MAX)
}

fn fault_of(fault: u32, level: u32) -> Fault {
    let level = byte(level);
    match fault {
        0 => Fault::External,
        1 => Fault::Translation(level),
        2 => Fault::AccessFlag(level),
        3 => Fault::Permission(level),
        4 => Fault::Alignment,
        _ => UNWRITABLE,
    }
}

#[cfg(test)]
mod tests {
    use super::*;

    #[test]
    fn a_line_that_is_no_row_says_so() {
        let state = " 0".repeat(48);
        let bad = [
            "".to_string(),
            "read".into(),
            "read 0 0".into(),
            "read 0 0 0 0".into(),
            "read 0 0  0".into(),
            "read 0 0 0 ".into(),
            " read 0 0 0".into(),
            "read 0 0 +1".into(),
            "read 0 0 1g".into(),
            "read 0 100000000 0".into(),
            "read 100000000 0 0".into(),
            "read 0 0 10000000000000000".into(),
            "reads 0 0 0".into(),
            "Read 0 0 0".into(),
            "write 0 0 0 0 1".into(),
            format!("write 0 0{}", " 0".repeat(17)),
            format!("write 0 0 0 100000000 1{}", " 0".repeat(13)),
            format!("inject 0 0 100000000 0 0 0{state}"),
            format!("inject 4 1 1 0 100000000 0{state}"),
            format!("inject 4 1 1 0 0{state}"),
            format!("inject 100000000 0 0 0 0 0{state}"),
            format!("inject 0 0 0 0 0 0{state} 0"),
            format!("inject 0 0 0 0 0 0{} 0 0 100000000", " 0".repeat(45)),
            format!("inject 0 0 0 0 0 0{}", " 0".repeat(45)),
            "spsr 0 100000000 0 10".into(),
            "spsr 0 0 0 100000000".into(),
            "spsr 0 0 10".into(),
            format!("finish 0{state}"),
            format!("finish 0{state} 0 0 1"),
            format!("finish 0{state}{}", " 0".repeat(17)),
            format!("finish 100000000{state}{}", " 0".repeat(16)),
            format!("finish 0{}", " 0".repeat(16)),
            format!("run{state}"),
            format!("run{state} 0 3"),
            format!("run{state} 1 0 0"),
            format!("run{state} 2 5 0 0 0 0 0"),
            format!("runs{state} 0 0"),
        ];
        for line in bad {
            assert!(Call::parse(line.as_bytes()).is_none(), "{line}");
        }
        assert!(Call::parse(b"read 0 0 0000000000000000000000001").is_some());
        assert!(Call::parse(b"read 1 0 FFFFffffFFFFffff").is_some());
    }

    #[test]
    fn a_call_is_parsed_back() {
        for line in [
            "read 0 7 1f",
            &format!("write 1 0 0 22 1{}", " 0".repeat(13)),
            &format!("write 0 0 0 0 2{}", " 0".repeat(13)),
            &format!("write 0 0{} 1", " 0".repeat(15)),
            &format!("hwrite 0 a 1{}", " 0".repeat(14)),
            "both 0 0 8 1 2 3",
            &format!("carry 1 1 2 5 1 0 f{}", " 0".repeat(12)),
            &format!("widen 1f 0 22{}", " 0".repeat(14)),
            "spsr 1 0 1 1000010",
            &format!("inject 4 2 2 8000 1 ff{}", " 0".repeat(48)),
            &format!("run{} 0 2 1 20 90 30", " 0".repeat(48)),
        ] {
            assert_eq!(Call::parse(line.as_bytes()).expect("a row").line(), line);
        }
    }
}
