/* The chip at EL2: its edition and marks, the registers that report a trap, what it traps, and where the guest lies. */
#include "board.h"
#include "system.h"

SYSTEM_REGISTER(ID_AA64PFR0_EL1);
SYSTEM_REGISTER(ID_AA64MMFR0_EL1);
SYSTEM_REGISTER(ID_AA64MMFR1_EL1);
SYSTEM_REGISTER(ID_MMFR3_EL1);
SYSTEM_REGISTER(ID_PFR0_EL1);
SYSTEM_REGISTER(S3_0_C0_C3_4); /* ID_PFR2_EL1, which older assemblers don't know by its name */
SYSTEM_REGISTER(ESR_EL2);
SYSTEM_REGISTER(FAR_EL2);
SYSTEM_REGISTER(HPFAR_EL2);
SYSTEM_REGISTER(HCR_EL2);
SYSTEM_REGISTER(HSTR_EL2);
SYSTEM_REGISTER(CPTR_EL2);
SYSTEM_REGISTER(CNTHCTL_EL2);
SYSTEM_REGISTER(VTCR_EL2);
SYSTEM_REGISTER(VTTBR_EL2);
SYSTEM_REGISTER(PAR_EL1);

uint32_t chip_edition(void)
{
    const struct knucklepin_id_aa64pfr0 pfr0 = {read_ID_AA64PFR0_EL1()};
    const struct knucklepin_id_aa64mmfr0 mmfr0 = {read_ID_AA64MMFR0_EL1()};
    const struct knucklepin_id_aa64mmfr1 mmfr1 = {read_ID_AA64MMFR1_EL1()};

    return knucklepin_edition(pfr0, mmfr0, mmfr1);
}

/* What a 32-bit guest has of PAN, SSBS and DIT. */
void chip_marks(struct knucklepin_state *state)
{
    const struct knucklepin_id_mmfr3 mmfr3 = {read_ID_MMFR3_EL1()};
    const struct knucklepin_id_pfr2 pfr2 = {read_S3_0_C0_C3_4()};
    const struct knucklepin_id_pfr0 pfr0 = {read_ID_PFR0_EL1()};
    struct knucklepin_marks marks;

    knucklepin_marks(mmfr3, pfr2, pfr0, &marks);
    state->pan = marks.pan;
    state->ssbs = marks.ssbs;
    state->dit = marks.dit;
}

struct knucklepin_esr esr_register(void)
{
    return (struct knucklepin_esr){read_ESR_EL2()};
}

struct knucklepin_far far_register(void)
{
    return (struct knucklepin_far){read_FAR_EL2()};
}

struct knucklepin_hpfar hpfar_register(void)
{
    return (struct knucklepin_hpfar){read_HPFAR_EL2()};
}

/* Stage 2 by pages of 4 KB, from level 1: the guest's memory and nothing else, so that the card's page isn't there. */
static _Alignas(4096) uint64_t level_1[512], level_2[512], level_3[512];

static void map_the_guest(void)
{
    const uint64_t table = 3, page = 0x7FF; /* a page is normal memory, read and written, with its access flag set */
    const uint64_t outside = UINT64_C(0x200000000);

    level_1[0] = (uintptr_t)level_2 | table;
    level_2[GUEST >> 21] = (uintptr_t)level_3 | table;
    for (uint32_t n = 0; n < GUEST_PAGES; n++)
        level_3[(GUEST >> 12) % 512 + n] = ((uintptr_t)guest_memory + n * PAGE) | page;
    level_2[NO_TABLE >> 21] = outside | table;
}

/* What is trapped: WFI and WFE, REVIDR and its like, SMC, IMPLEMENTATION DEFINED registers, ACTLR, floating point, the physical counter.
   RW is 0: the guest is in AArch32. */
void trap_the_guest(void)
{
    const uint64_t vm = 1, swio = 1 << 1, fmo = 1 << 3, imo = 1 << 4, amo = 1 << 5;
    const uint64_t twi = 1 << 13, twe = 1 << 14, tid1 = 1 << 16, tsc = 1 << 19, tidcp = 1 << 20, tacr = 1 << 21;

    map_the_guest();
    write_HCR_EL2(vm | swio | fmo | imo | amo | twi | twe | tid1 | tsc | tidcp | tacr);
    write_HSTR_EL2(0);
    write_CPTR_EL2(0x37FF);     /* TFP, and the bits that are 1 */
    write_CNTHCTL_EL2(0);       /* EL1PCTEN 0 */
    write_VTCR_EL2(0x80010060); /* 32 bits of addresses, from level 1; tables are read as they were written, past the caches */
    write_VTTBR_EL2((uintptr_t)level_1);
    __asm__ volatile("dsb sy; tlbi vmalls12e1; dsb sy; isb" : : : "memory");
}

/* Where the guest's virtual address lies, by the chip's own walk of both stages; or NULL. PAR is the guest's, and is put back. */
const void *guest_pointer(uint32_t address)
{
    uint64_t guests = read_PAR_EL1();
    uint64_t par;

    __asm__ volatile("at s12e1r, %0; isb" : : "r"((uint64_t)address));
    par = read_PAR_EL1();
    write_PAR_EL1(guests);
    if (par & 1)
        return NULL;
    return (const void *)(uintptr_t)((par & UINT64_C(0x000FFFFFFFFFF000)) | address % PAGE);
}
