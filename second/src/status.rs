//! The status word of an AArch32 guest as named fields.

/// The fields of the status word from its top bit down, but for IT, which the
/// word holds in two pieces.
#[derive(Clone, Copy, Debug, PartialEq, Eq)]
pub struct Status {
    pub nzcvq: u8,
    pub it: u8,
    /// Bit 24, which no guest has.
    pub bit_24: bool,
    pub ssbs: bool,
    pub pan: bool,
    pub dit: bool,
    pub il: bool,
    pub ge: u8,
    pub e: bool,
    pub a: bool,
    pub i: bool,
    pub f: bool,
    pub t: bool,
    pub mode: u8,
}

/// The features that a guest has: which of three bits its word may have.
#[derive(Clone, Copy, Debug, PartialEq, Eq)]
pub struct Marks {
    pub pan: bool,
    pub ssbs: bool,
    pub dit: bool,
}

impl Marks {
    pub const NONE: Marks = Marks { pan: false, ssbs: false, dit: false };
    pub const ALL: Marks = Marks { pan: true, ssbs: true, dit: true };

    /// Every choice of the three.
    pub fn every() -> impl Iterator<Item = Marks> {
        (0..8).map(|choice| {
            let bit = |at: u32| choice >> at & 1 == 1;
            Marks { pan: bit(0), ssbs: bit(1), dit: bit(2) }
        })
    }
}

/// The modes of a Non-secure guest: User, FIQ, IRQ, Supervisor, Abort,
/// Undefined and System.
pub const MODES: [u8; 7] = [0x10, 0x11, 0x12, 0x13, 0x17, 0x1b, 0x1f];

/// Whether a number is a mode of a guest.
pub fn is_mode(number: u32) -> bool {
    MODES.iter().any(|&mode| u32::from(mode) == number)
}

impl Status {
    pub fn unpack(word: u32) -> Status {
        let mut bits = Unpacker { word, left: 32 };
        let nzcvq = bits.field(5);
        let it_1_0 = bits.field(2);
        let [bit_24, ssbs, pan, dit] = std::array::from_fn(|_| bits.bit());
        let il = bits.bit();
        let ge = bits.field(4);
        let it_7_2 = bits.field(6);
        Status {
            nzcvq,
            it: it_7_2 * 4 + it_1_0,
            bit_24,
            ssbs,
            pan,
            dit,
            il,
            ge,
            e: bits.bit(),
            a: bits.bit(),
            i: bits.bit(),
            f: bits.bit(),
            t: bits.bit(),
            mode: bits.field(5),
        }
    }

    pub fn pack(&self) -> u32 {
        let fields = [
            (5, self.nzcvq),
            (2, self.it % 4),
            (1, self.bit_24.into()),
            (1, self.ssbs.into()),
            (1, self.pan.into()),
            (1, self.dit.into()),
            (1, self.il.into()),
            (4, self.ge),
            (6, self.it / 4),
            (1, self.e.into()),
            (1, self.a.into()),
            (1, self.i.into()),
            (1, self.f.into()),
            (1, self.t.into()),
            (5, self.mode),
        ];
        fields.into_iter().fold(0, |word, (width, value)| (word << width) + u32::from(value))
    }

    /// A mode that a guest runs in, and no bit of a feature that it lacks.
    pub fn is_accepted(&self, marks: &Marks) -> bool {
        let features = [(self.ssbs, marks.ssbs), (self.pan, marks.pan), (self.dit, marks.dit)];
        let lacking = features.iter().any(|&(set, marked)| set && !marked);
        MODES.contains(&self.mode) && !self.bit_24 && !lacking
    }
}

/// The status word of the word that the hypervisor saved, or the number of the
/// refusal. The saved word has DIT at 24, and SS, which a status word hasn't,
/// where the status word has DIT.
pub fn from_spsr(marks: &Marks, spsr: u32) -> Result<u32, u8> {
    let saved = Status::unpack(spsr);
    let status = Status { bit_24: false, dit: saved.bit_24, ..saved };
    if !status.is_accepted(marks) {
        return Err(9);
    }
    Ok(status.pack())
}

/// The word that a return to the guest takes, or the number of the refusal: DIT is at
/// 24 there, and SS, which is where the status word has DIT, is not set.
pub fn to_spsr(marks: &Marks, word: u32) -> Result<u32, u8> {
    let status = Status::unpack(word);
    if !status.is_accepted(marks) {
        return Err(9);
    }
    Ok(Status { bit_24: status.dit, dit: false, ..status }.pack())
}

/// Takes fields from a word, the top ones first.
struct Unpacker {
    word: u32,
    left: u32,
}

impl Unpacker {
    fn field(&mut self, width: u32) -> u8 {
        self.left -= width;
        (self.word >> self.left) as u8 % (1 << width)
    }

    fn bit(&mut self) -> bool {
        self.field(1) == 1
    }
}

#[cfg(test)]
mod tests {
    use super::*;

    #[test]
    fn each_bit_comes_back_and_has_its_name() {
        for bit in 0..32 {
            assert_eq!(Status::unpack(1 << bit).pack(), 1 << bit);
        }
        assert!(Status::unpack(1 << 20).il);
        assert!(Status::unpack(1 << 9).e);
        assert!(Status::unpack(1 << 8).a);
        assert!(Status::unpack(1 << 7).i);
        assert!(Status::unpack(1 << 6).f);
        assert!(Status::unpack(1 << 5).t);
        assert_eq!(Status::unpack(0x0600_fc00).it, 0xff);
        assert!(Status::unpack(1 << 24).bit_24);
        assert!(Status::unpack(1 << 23).ssbs);
        assert!(Status::unpack(1 << 22).pan);
        assert!(Status::unpack(1 << 21).dit);
        assert_eq!(Status::unpack(0x000f_0000).ge, 0xf);
    }

    #[test]
    fn a_bit_needs_its_mark() {
        for marks in Marks::every() {
            let accepted = |bit: u32| Status::unpack(0x10 + (1 << bit)).is_accepted(&marks);
            assert_eq!([21, 22, 23].map(accepted), [marks.dit, marks.pan, marks.ssbs]);
            assert!(!accepted(24));
        }
    }

    #[test]
    fn a_saved_word_has_dit_at_24() {
        assert_eq!(from_spsr(&Marks::ALL, 0x0100_0010), Ok(0x0020_0010));
        assert_eq!(from_spsr(&Marks::ALL, 0x0120_0010), Ok(0x0020_0010));
        assert_eq!(from_spsr(&Marks::NONE, 0x0020_0010), Ok(0x0000_0010));
        assert_eq!(from_spsr(&Marks::NONE, 0x0100_0010), Err(9));
        assert_eq!(from_spsr(&Marks::ALL, 0x00c0_0016), Err(9));
    }

    #[test]
    fn dit_goes_back_to_24() {
        assert_eq!(to_spsr(&Marks::ALL, 0x0020_0010), Ok(0x0100_0010));
        assert_eq!(to_spsr(&Marks::ALL, 0x00e0_0013), Ok(0x01c0_0013));
        assert_eq!(to_spsr(&Marks::NONE, 0xf000_001f), Ok(0xf000_001f));
        assert_eq!(to_spsr(&Marks::NONE, 0x0020_0010), Err(9));
        assert_eq!(to_spsr(&Marks::ALL, 0x0100_0010), Err(9));
    }
}
