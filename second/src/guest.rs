//! The guest's state, the five injections and the three interrupts, and the return.

use crate::status::{Marks, Status};

/// What the monitor keeps of a guest: 45 numbers of 32 bits and three marks.
#[derive(Clone, Debug, PartialEq, Eq)]
pub struct State {
    pub registers: [u32; 31],
    pub pc: u32,
    pub status: u32,
    pub spsr_fiq: u32,
    pub spsr_irq: u32,
    pub spsr_svc: u32,
    pub spsr_abt: u32,
    pub spsr_und: u32,
    pub dfsr: u32,
    pub ifsr: u32,
    pub dfar: u32,
    pub ifar: u32,
    pub sctlr: u32,
    pub vbar: u32,
    pub ttbcr: u32,
    pub marks: Marks,
}

impl State {
    /// The state in the order of the paper, and then the marks.
    pub fn numbers(&self) -> Vec<u64> {
        let rest = [
            self.pc,
            self.status,
            self.spsr_fiq,
            self.spsr_irq,
            self.spsr_svc,
            self.spsr_abt,
            self.spsr_und,
            self.dfsr,
            self.ifsr,
            self.dfar,
            self.ifar,
            self.sctlr,
            self.vbar,
            self.ttbcr,
        ];
        let words = self.registers.into_iter().chain(rest).map(u64::from);
        let marks = [self.marks.pan, self.marks.ssbs, self.marks.dit];
        words.chain(marks.map(u64::from)).collect()
    }

    /// The numbers of another state that differ from this one's, each after its
    /// place.
    pub fn changes_to(&self, after: &State) -> Vec<u64> {
        let numbers = self.numbers().into_iter().zip(after.numbers()).enumerate();
        let changed = numbers.filter(|(_, (before, after))| before != after);
        changed.flat_map(|(place, (_, after))| [place as u64, after]).collect()
    }

    /// The state that 48 words show: a mark is any word but 0.
    pub fn from_numbers(numbers: &[u64]) -> Option<State> {
        let words = numbers.iter().map(|&number| u32::try_from(number).ok());
        let words: Vec<u32> = words.collect::<Option<_>>()?;
        let (registers, rest) = words.split_at_checked(31)?;
        let registers = registers.try_into().ok()?;
        let (rest, marks) = rest.split_at_checked(14)?;
        let [pc, status, fiq, irq, svc, abt, und, dfsr, ifsr, dfar, ifar, sctlr, vbar, ttbcr] =
            rest.try_into().ok()?;
        let marks: [u32; 3] = marks.try_into().ok()?;
        let [pan, ssbs, dit] = marks.map(|word| word != 0);
        Some(State {
            registers,
            pc,
            status,
            spsr_fiq: fiq,
            spsr_irq: irq,
            spsr_svc: svc,
            spsr_abt: abt,
            spsr_und: und,
            dfsr,
            ifsr,
            dfar,
            ifar,
            sctlr,
            vbar,
            ttbcr,
            marks: Marks { pan, ssbs, dit },
        })
    }

    fn sctlr(&self) -> Sctlr {
        let bit = |at: u32| self.sctlr >> at & 1 == 1;
        Sctlr { dssbs: bit(31), te: bit(30), ee: bit(25), span: bit(23), v: bit(13) }
    }

    /// TTBCR.EAE, bit 31, chooses the long format.
    fn format(&self) -> Format {
        if self.ttbcr >= 1 << 31 {
            Format::Long
        } else {
            Format::Short
        }
    }
}

/// The bits of SCTLR that exception entry asks about.
struct Sctlr {
    dssbs: bool,
    te: bool,
    ee: bool,
    span: bool,
    v: bool,
}

#[derive(Clone, Copy, Debug, PartialEq, Eq)]
enum Format {
    Short,
    Long,
}

#[derive(Clone, Copy, Debug, PartialEq, Eq)]
pub enum Fault {
    External,
    Translation(u8),
    AccessFlag(u8),
    Permission(u8),
    Alignment,
}

#[derive(Clone, Copy, Debug, PartialEq, Eq)]
pub enum Injection {
    UndefinedAt,
    UndefinedAfter,
    SupervisorCall,
    PrefetchAbort { fault: Fault, address: u64 },
    DataAbort { fault: Fault, address: u64, write: bool, domain: u8 },
}

/// What may wait for a guest.
#[derive(Clone, Copy, Debug, PartialEq, Eq, PartialOrd, Ord)]
pub enum Interrupt {
    Abort,
    Fiq,
    Irq,
}

impl Interrupt {
    pub const ALL: [Interrupt; 3] = [Interrupt::Abort, Interrupt::Fiq, Interrupt::Irq];
}

/// The modes that are entered.
#[derive(Clone, Copy)]
enum Mode {
    Fiq,
    Irq,
    Supervisor,
    Abort,
    Undefined,
}

impl Mode {
    const ALL: [Mode; 5] = [Mode::Fiq, Mode::Irq, Mode::Supervisor, Mode::Abort, Mode::Undefined];

    fn number(self) -> u8 {
        match self {
            Mode::Fiq => 0x11,
            Mode::Irq => 0x12,
            Mode::Supervisor => 0x13,
            Mode::Abort => 0x17,
            Mode::Undefined => 0x1b,
        }
    }

    /// The place of the mode's link register: each has its own.
    fn link(self) -> usize {
        match self {
            Mode::Fiq => 30,
            Mode::Irq => 16,
            Mode::Supervisor => 18,
            Mode::Abort => 20,
            Mode::Undefined => 22,
        }
    }

    fn spsr(self, state: &mut State) -> &mut u32 {
        match self {
            Mode::Fiq => &mut state.spsr_fiq,
            Mode::Irq => &mut state.spsr_irq,
            Mode::Supervisor => &mut state.spsr_svc,
            Mode::Abort => &mut state.spsr_abt,
            Mode::Undefined => &mut state.spsr_und,
        }
    }
}

/// A row of the table of injections and interrupts. Every one sets I.
struct Entry {
    mode: Mode,
    vector: u32,
    link: usize,
    correction_a32: i64,
    correction_t32: i64,
    sets_a: bool,
    sets_f: bool,
}

impl Entry {
    /// What is added to PC for the link, by the old status word's T.
    fn correction(&self, old: &Status) -> i64 {
        if old.t {
            self.correction_t32
        } else {
            self.correction_a32
        }
    }
}

impl Injection {
    /// What the injection adds to the PC of a state for its link.
    pub fn correction(&self, state: &State) -> i64 {
        self.entry().correction(&Status::unpack(state.status))
    }

    fn entry(&self) -> Entry {
        let (mode, vector, link, correction_a32, correction_t32) = match self {
            Injection::UndefinedAt => (Mode::Undefined, 0x04, 22, 4, 2),
            Injection::UndefinedAfter => (Mode::Undefined, 0x04, 22, 0, -2),
            Injection::SupervisorCall => (Mode::Supervisor, 0x08, 18, 0, 0),
            Injection::PrefetchAbort { .. } => (Mode::Abort, 0x0c, 20, 4, 4),
            Injection::DataAbort { .. } => (Mode::Abort, 0x10, 20, 8, 8),
        };
        let sets_a = self.is_abort();
        Entry { mode, vector, link, correction_a32, correction_t32, sets_a, sets_f: false }
    }

    fn is_abort(&self) -> bool {
        matches!(self, Injection::PrefetchAbort { .. } | Injection::DataAbort { .. })
    }
}

impl Interrupt {
    /// What a delivery adds to the PC of a state for its link.
    pub fn correction(self, state: &State) -> i64 {
        self.entry().correction(&Status::unpack(state.status))
    }

    /// A virtual abort enters as a data abort does.
    fn entry(self) -> Entry {
        let (mode, vector, link, correction, sets_f) = match self {
            Interrupt::Abort => (Mode::Abort, 0x10, 20, 8, false),
            Interrupt::Fiq => (Mode::Fiq, 0x1c, 30, 4, true),
            Interrupt::Irq => (Mode::Irq, 0x18, 16, 4, false),
        };
        let (correction_a32, correction_t32) = (correction, correction);
        Entry { mode, vector, link, correction_a32, correction_t32, sets_a: true, sets_f }
    }

    /// Its mask bit in a status word.
    pub fn is_masked(self, status: &Status) -> bool {
        match self {
            Interrupt::Abort => status.a,
            Interrupt::Fiq => status.f,
            Interrupt::Irq => status.i,
        }
    }
}

/// The status and address that an abort leaves in its two registers.
enum FaultReport {
    Instruction { ifsr: u32, ifar: u32 },
    Data { dfsr: u32, dfar: u32 },
}

/// The state after the injection, or the number of the refusal.
pub fn inject(state: &State, injection: &Injection) -> Result<State, u8> {
    let old = status_of(state)?;
    let report = fault_report(state.format(), injection)?;
    let mut after = state.clone();
    enter(&mut after, &old, &injection.entry());
    match report {
        Some(FaultReport::Instruction { ifsr, ifar }) => (after.ifsr, after.ifar) = (ifsr, ifar),
        Some(FaultReport::Data { dfsr, dfar }) => (after.dfsr, after.dfar) = (dfsr, dfar),
        None => {}
    }
    Ok(after)
}

/// The state after an interrupt that is taken. Of the fault registers a virtual abort
/// writes DFSR alone.
pub fn interrupt(state: &State, old: &Status, interrupt: Interrupt) -> State {
    let mut after = state.clone();
    enter(&mut after, old, &interrupt.entry());
    if interrupt == Interrupt::Abort {
        after.dfsr = match state.format() {
            Format::Short => 0x406,
            Format::Long => 0x211,
        };
    }
    after
}

/// The return: the state in the place that the current mode's saved word and link tell,
/// or the number of the refusal. The correction is what was added to PC for the link.
pub fn resume(state: &State, correction: i64) -> Result<State, u8> {
    let accepted = |word: u32| {
        let status = Status::unpack(word);
        status.is_accepted(&state.marks).then_some(status).ok_or(9)
    };
    let current = accepted(state.status)?.mode;
    // User and System mode are none of these.
    let mode = Mode::ALL.into_iter().find(|mode| mode.number() == current).ok_or(9)?;
    let mut after = state.clone();
    after.status = *mode.spsr(&mut after);
    accepted(after.status)?;
    after.pc = modulo_2_32(i64::from(state.registers[mode.link()]) - correction);
    Ok(after)
}

/// Tests 9 and 10: the status word's fields, or the number of the refusal.
pub fn status_of(state: &State) -> Result<Status, u8> {
    let status = Status::unpack(state.status);
    if !status.is_accepted(&state.marks) {
        return Err(9);
    }
    if !state.vbar.is_multiple_of(32) {
        return Err(10);
    }
    Ok(status)
}

/// Exception entry: the link, the saved status, the new status and PC.
fn enter(state: &mut State, old: &Status, entry: &Entry) {
    state.registers[entry.link] = modulo_2_32(i64::from(state.pc) + entry.correction(old));
    *entry.mode.spsr(state) = state.status;
    let sctlr = state.sctlr();
    let new = Status {
        mode: entry.mode.number(),
        i: true,
        a: old.a || entry.sets_a,
        f: old.f || entry.sets_f,
        t: sctlr.te,
        e: sctlr.ee,
        il: false,
        it: 0,
        pan: if state.marks.pan && !sctlr.span { true } else { old.pan },
        ssbs: if state.marks.ssbs { sctlr.dssbs } else { old.ssbs },
        ..*old
    };
    state.status = new.pack();
    let base = if sctlr.v { 0xffff_0000 } else { state.vbar };
    state.pc = base + entry.vector;
}

fn modulo_2_32(number: i64) -> u32 {
    number.rem_euclid(1 << 32) as u32
}

/// Tests 11, 20 and 12, and what an abort writes when they pass.
fn fault_report(format: Format, injection: &Injection) -> Result<Option<FaultReport>, u8> {
    match *injection {
        Injection::PrefetchAbort { fault, address } => {
            if fault == Fault::Alignment {
                return Err(11);
            }
            let ifsr = fault_status(format, fault).ok_or(11)?;
            let ifar = u32::try_from(address).map_err(|_| 12)?;
            Ok(Some(FaultReport::Instruction { ifsr, ifar }))
        }
        Injection::DataAbort { fault, address, write, domain } => {
            let status = fault_status(format, fault).ok_or(11)?;
            if !(0..=15).contains(&domain) {
                return Err(20);
            }
            let dfar = u32::try_from(address).map_err(|_| 12)?;
            let wnr = u32::from(write) << 11;
            let dfsr = status + wnr + 16 * u32::from(reported_domain(format, fault, domain));
            Ok(Some(FaultReport::Data { dfsr, dfar }))
        }
        _ => Ok(None),
    }
}

/// What DFSR's Domain field, bits 7:4 of the short format, holds.
fn reported_domain(format: Format, fault: Fault, domain: u8) -> u8 {
    match (format, fault) {
        (Format::Short, Fault::Translation(2) | Fault::AccessFlag(2)) => domain,
        _ => 0,
    }
}

fn fault_status(format: Format, fault: Fault) -> Option<u32> {
    match format {
        // FS[3:0] in bits 3:0, FS[4] in bit 10.
        Format::Short => short_fs(fault).map(|fs| fs / 16 * 1024 + fs % 16),
        // LPAE, bit 9, says that the long format is used.
        Format::Long => long_status(fault).map(|status| 512 + status),
    }
}

/// FS of the short format, which has no level 3.
fn short_fs(fault: Fault) -> Option<u32> {
    match fault {
        Fault::External => Some(0b01000),
        Fault::Translation(1) => Some(0b00101),
        Fault::Translation(2) => Some(0b00111),
        Fault::AccessFlag(1) => Some(0b00011),
        Fault::AccessFlag(2) => Some(0b00110),
        Fault::Permission(1) => Some(0b01101),
        Fault::Permission(2) => Some(0b01111),
        Fault::Alignment => Some(0b00001),
        _ => None,
    }
}

pub fn long_status(fault: Fault) -> Option<u32> {
    match fault {
        Fault::External => Some(0b010000),
        Fault::Translation(1) => Some(0b000101),
        Fault::Translation(2) => Some(0b000110),
        Fault::Translation(3) => Some(0b000111),
        Fault::AccessFlag(1) => Some(0b001001),
        Fault::AccessFlag(2) => Some(0b001010),
        Fault::AccessFlag(3) => Some(0b001011),
        Fault::Permission(1) => Some(0b001101),
        Fault::Permission(2) => Some(0b001110),
        Fault::Permission(3) => Some(0b001111),
        Fault::Alignment => Some(0b100001),
        _ => None,
    }
}

#[cfg(test)]
mod tests {
    use super::*;
    use crate::cases::state;

    /// DFSR after a data abort by a write, in the short format.
    fn dfsr(fault: Fault, domain: u8) -> Result<u32, u8> {
        let injection = Injection::DataAbort { fault, address: 0x8000, write: true, domain };
        inject(&state(0x10, 0x8000, 0), &injection).map(|after| after.dfsr)
    }

    #[test]
    fn a_domain_is_told_of_two_faults() {
        assert_eq!(dfsr(Fault::Translation(2), 0), Ok(0x807));
        assert_eq!(dfsr(Fault::Translation(2), 15), Ok(0x8f7));
        assert_eq!(dfsr(Fault::AccessFlag(2), 9), Ok(0x896));
        assert_eq!(dfsr(Fault::Translation(1), 9), Ok(0x805));
        assert_eq!(dfsr(Fault::Permission(2), 9), Ok(0x80f));
        assert_eq!(dfsr(Fault::External, 9), Ok(0x808));
    }

    /// 11 before 20, 20 whatever the fault.
    #[test]
    fn a_domain_above_15_is_refused() {
        assert_eq!(dfsr(Fault::Translation(2), 16), Err(20));
        assert_eq!(dfsr(Fault::Alignment, 255), Err(20));
        assert_eq!(dfsr(Fault::Translation(3), 16), Err(11));
    }
}
