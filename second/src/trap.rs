//! Whole traps: the syndrome with the two address registers.

use crate::catalogue::Catalogue;
use crate::edition::Edition;
use crate::form::Record;
use crate::syndrome::{read, Refusal};

/// What is known of the intermediate physical address.
#[derive(Clone, Copy, Debug, PartialEq, Eq)]
pub enum Intermediate {
    None,
    Page(u64),
    Byte(u64),
}

#[derive(Clone, Debug, PartialEq, Eq)]
pub struct Trap {
    pub record: Record,
    pub virtual_address: Option<u64>,
    pub intermediate: Intermediate,
}

/// The three registers of a trap.
#[derive(Clone, Copy, Debug)]
pub struct Registers {
    pub esr: u64,
    pub far: u64,
    pub hpfar: u64,
}

pub fn read_trap(
    catalogue: &Catalogue,
    edition: u32,
    registers: Registers,
) -> Result<Trap, Refusal> {
    let record = read(catalogue, edition, registers.esr)?;
    let page = match hpfar_counts(&record) {
        true => Some(page(edition, registers.hpfar)?),
        false => None,
    };
    let virtual_address = match far_counts(&record) {
        true => Some(address(catalogue.form.address_bits, registers.far)?),
        false => None,
    };
    let intermediate = match (page, virtual_address) {
        (Some(page), Some(address)) if !on_a_walk(&record) => {
            Intermediate::Byte(page + address % 4096)
        }
        (Some(page), _) => Intermediate::Page(page),
        (None, _) => Intermediate::None,
    };
    Ok(Trap { record, virtual_address, intermediate })
}

/// The trap in two editions, or the refusal of the first that refuses it.
pub fn read_both(
    catalogue: &Catalogue,
    [first, second]: [u32; 2],
    registers: Registers,
) -> Result<[Trap; 2], Refusal> {
    let trap = read_trap(catalogue, first, registers)?;
    let other = read_trap(catalogue, second, registers)?;
    Ok([trap, other])
}

/// S1PTW: the fault came while walking the first stage, so that FAR isn't the
/// address that the second stage was asked for.
fn on_a_walk(record: &Record) -> bool {
    record.is_set("S1PTW")
}

fn far_counts(record: &Record) -> bool {
    match record.get("code") {
        Some(code) => !(code == 0x10 && record.is_set("FnV")),
        None => matches!(record.class, 0x22 | 0x34),
    }
}

/// A permission fault of the second stage leaves HPFAR UNKNOWN unless it came
/// on a walk.
fn hpfar_counts(record: &Record) -> bool {
    match record.get("code") {
        Some(0x00..=0x0b | 0x29 | 0x2b) => true,
        Some(0x0c..=0x0f) => on_a_walk(record),
        _ => false,
    }
}

/// FAR, if it has no more bits than an address.
fn address(bits: u32, far: u64) -> Result<u64, Refusal> {
    match u64::BITS - far.leading_zeros() <= bits {
        true => Ok(far),
        false => Err(Refusal::plain(8)),
    }
}

/// The page address of HPFAR, whose page number begins at bit 4 and ends at
/// bit 43 with LPA, else at bit 39.
fn page(edition: u32, hpfar: u64) -> Result<u64, Refusal> {
    let width = if Edition(edition).lpa() { 40 } else { 36 };
    let number = hpfar / 16;
    if !hpfar.is_multiple_of(16) || number >= 1 << width {
        return Err(Refusal::plain(7));
    }
    Ok(number * 4096)
}

#[cfg(test)]
mod tests {
    use super::*;
    use crate::long::Origin;

    fn trap(edition: u32, esr: u32, far: u64, hpfar: u64) -> Result<Trap, u8> {
        trap_from(Origin::AArch32, edition, esr, far, hpfar)
    }

    fn trap_from(origin: Origin, edition: u32, esr: u32, far: u64, hpfar: u64) -> Result<Trap, u8> {
        let catalogue = Catalogue::of(origin.form(), [esr]);
        let esr = esr.into();
        read_trap(&catalogue, edition, Registers { esr, far, hpfar })
            .map_err(|refusal| refusal.number)
    }

    #[test]
    fn a_register_that_is_not_known_is_not_looked_at() {
        // A permission fault without S1PTW, then an external abort with FnV.
        let permission = trap(0, 0x9200_000d, 0x8000, u64::MAX).expect("taken");
        assert_eq!(permission.virtual_address, Some(0x8000));
        assert_eq!(permission.intermediate, Intermediate::None);
        let external = trap(0, 0x9200_0410, u64::MAX, u64::MAX).expect("taken");
        assert_eq!(external.virtual_address, None);
    }

    #[test]
    fn hpfar_is_tested_before_far() {
        assert_eq!(trap(0, 0x9200_0005, 1 << 32, 1), Err(7));
        assert_eq!(trap(0, 0x9200_0005, 1 << 32, 0), Err(8));
        assert_eq!(trap(0, 0x8a00_0000, 1 << 32, 1), Err(8));
    }

    #[test]
    fn a_watchpoint_alone_of_the_debug_classes_reads_far() {
        let watchpoint = trap(0, 0xd200_0022, 0x8000, u64::MAX).expect("taken");
        assert_eq!(watchpoint.virtual_address, Some(0x8000));
        assert_eq!(watchpoint.intermediate, Intermediate::None);
        assert_eq!(trap(0, 0xd200_0022, 1 << 32, 0), Err(8));
        for esr in [0xbe00_0000, 0xc200_0022, 0xca00_0022, 0xe200_0000, 0xea00_0022] {
            let trap = trap(0, esr, u64::MAX, u64::MAX).expect("taken");
            assert_eq!(trap.virtual_address, None);
        }
    }

    #[test]
    fn an_address_of_aarch64_has_64_bits() {
        let top = trap_from(Origin::AArch64, 0, 0x9200_0005, u64::MAX, 0x1_2340).expect("taken");
        assert_eq!(top.virtual_address, Some(u64::MAX));
        assert_eq!(top.intermediate, Intermediate::Byte(0x123_4fff));
        assert_eq!(trap_from(Origin::AArch64, 0, 0x9200_0005, u64::MAX, 1), Err(7));
    }

    #[test]
    fn lpa_widens_the_page_number() {
        let top_page = Intermediate::Page(0xf_ffff_ffff_f000);
        assert_eq!(trap(0, 0x9200_0085, 0, 0xfff_ffff_fff0), Err(7));
        assert_eq!(trap(2, 0x9200_0085, 0, 0xfff_ffff_fff0), Err(7));
        let wide = trap(8, 0x9200_0085, 0, 0xfff_ffff_fff0).expect("taken");
        assert_eq!(wide.intermediate, top_page);
    }
}
