/* Knucklepin for C11 and C++: traps of an Arm guest read, written and acted on.
 *
 * Any number may be handed in: no call asks anything of a number, and each says below what it makes of one that means nothing. Of a pointer
 * each call asks what C asks: that it points to the type that is declared here, or to as many elements as the length says (a length of 0
 * may come with any pointer), and that no two places of one call overlap.
 *
 * A call that can refuse answers 0, or the number of the first test that fails, by KNUCKLEPIN_TAKEN and the names after it. "Refused 16,
 * 15, 20, 17" names a call's tests in the order in which they are made. On a refusal a state and a log's buffer are as they came, and every
 * other place that the call writes holds zeros but these: 6 carries its mask and its count, 13 its section, and what waits for a guest goes
 * on waiting, so that a refused delivery leaves the queue as it was read.
 *
 * A flag that is handed in as a parameter or as a mark of a state is any number: 0 is no, and every other is yes. A flag that is handed out
 * is 0 or 1.
 *
 * This header needs <stdint.h> and nothing else. The libraries for AArch64 and for 32-bit Arm need nothing at all: no C library, no heap, no
 * floating-point or SIMD register, no memory that is written but what a call is lent and the stack. A call, with all that it calls, takes
 * at most so many bytes of stack on AArch64, and on 32-bit Arm:
 *
 *   knucklepin_a32_describe           896  1024
 *   knucklepin_a32_encode             128   128
 *   knucklepin_a32_finish            2688  2688
 *   knucklepin_a32_form               128   128
 *   knucklepin_a32_rewrite            128   256
 *   knucklepin_aarch64_read           256   384
 *   knucklepin_aarch64_rewrite        384   384
 *   knucklepin_cause                  512   512
 *   knucklepin_coprocessor_finish     896   896
 *   knucklepin_deliver                384   384
 *   knucklepin_delivery_correction    128   128
 *   knucklepin_edition_raw            128   128
 *   knucklepin_esr_read_raw           384   384
 *   knucklepin_esr_write_raw          384   512
 *   knucklepin_explain_short_raw      256   384
 *   knucklepin_explain_trap_raw       384   512
 *   knucklepin_explain_word_raw       384   512
 *   knucklepin_finish                 768   768
 *   knucklepin_from_spsr              128   128
 *   knucklepin_held_in                128   128
 *   knucklepin_hsr_read_raw           384   384
 *   knucklepin_hsr_write_raw          384   512
 *   knucklepin_inject                 256   256
 *   knucklepin_injection_correction   128   128
 *   knucklepin_log_look               128   128
 *   knucklepin_log_read               128   128
 *   knucklepin_log_write_raw          128   128
 *   knucklepin_marks_raw              128   128
 *   knucklepin_passes                 384   384
 *   knucklepin_raise                  128   128
 *   knucklepin_ran_raw                128   128
 *   knucklepin_read                   256   384
 *   knucklepin_resume                 384   384
 *   knucklepin_rewrite                384   384
 *   knucklepin_short_edition_raw      128   128
 *   knucklepin_short_read             256   256
 *   knucklepin_short_rewrite          384   384
 *   knucklepin_step_over              512   512
 *   knucklepin_to_spsr                128   128
 *   knucklepin_trap_read_raw          384   384
 *   knucklepin_widen                  640   640
 */
#ifndef KNUCKLEPIN_H
#define KNUCKLEPIN_H

#include <stdint.h>

/* The version of what is declared here: the first number is counted up where a call goes, or what it takes or means changes, the
 * second where one comes, and the third for all else. */
#define KNUCKLEPIN_VERSION_MAJOR 1
#define KNUCKLEPIN_VERSION_MINOR 0
#define KNUCKLEPIN_VERSION_PATCH 0

#ifdef __cplusplus
#define KNUCKLEPIN_WORDS(type, words) static_assert(sizeof(type) == 4 * (words), #type)
extern "C" {
#else
#define KNUCKLEPIN_WORDS(type, words) _Static_assert(sizeof(type) == 4 * (words), #type)
#endif

/* ---- what a call answers ---- */

#define KNUCKLEPIN_TAKEN UINT32_C(0)
#define KNUCKLEPIN_UNKNOWN_EDITION UINT32_C(1)   /* the edition's number is above 15, or of a short word above 1 */
#define KNUCKLEPIN_UPPER_HALF UINT32_C(2)        /* bits 63:32 of ESR are not zero */
#define KNUCKLEPIN_UNKNOWN_CLASS UINT32_C(3)     /* EC is not in the build, or not among those of the trap's origin */
#define KNUCKLEPIN_SHORT_INSTRUCTION UINT32_C(4) /* IL is 0 where it must be 1 */
#define KNUCKLEPIN_NO_EDITION UINT32_C(5)        /* no edition has it */
#define KNUCKLEPIN_OTHER_EDITIONS UINT32_C(6)    /* this edition doesn't have it, others do: their mask and their number */
#define KNUCKLEPIN_WIDE_HPFAR UINT32_C(7)        /* HPFAR counts, and a bit outside its field is set */
#define KNUCKLEPIN_WIDE_FAR UINT32_C(8)          /* FAR counts, and its bits 63:32 are not zero */
#define KNUCKLEPIN_UNSOUND_STATUS UINT32_C(9)    /* a status word, saved word or mode that no guest has, or a mode without a saved word */
#define KNUCKLEPIN_UNALIGNED_VBAR UINT32_C(10)   /* VBAR bits 4:0 are not zero */
#define KNUCKLEPIN_UNWRITABLE_FAULT UINT32_C(11) /* the fault can't be written in this format or register, or its level isn't 1 to 3 */
#define KNUCKLEPIN_WIDE_ADDRESS UINT32_C(12)     /* the fault's address has bits 63:32 set */
#define KNUCKLEPIN_LOG_CUT_SHORT UINT32_C(13)    /* the count of a section is cut short or passes the end */
#define KNUCKLEPIN_LOG_LEFT_OVER UINT32_C(14)    /* bytes are left over after the last section */
#define KNUCKLEPIN_LOG_UNEQUAL UINT32_C(15)      /* there are not as many addresses as syndromes */
#define KNUCKLEPIN_LOG_TOO_LONG UINT32_C(16)     /* more than 65,536 bytes */
#define KNUCKLEPIN_LOG_NO_ROOM UINT32_C(17)      /* the log is longer than the buffer */
#define KNUCKLEPIN_NOT_DESCRIBED UINT32_C(18)    /* the record is none that the call goes on from */
#define KNUCKLEPIN_NO_FORM UINT32_C(19)          /* T32 state, or no word or fields of the A32 loads and stores that are described */
#define KNUCKLEPIN_WIDE_DOMAIN UINT32_C(20)      /* the domain is above 15 */

/* The mask of the editions that have a word or a record, and its number of ones: zeros but on refusal 6. */
struct knucklepin_editions {
    uint32_t mask, count;
};
KNUCKLEPIN_WORDS(struct knucklepin_editions, 2);

/* ---- editions, origins and registers ---- */

/* An edition of the manual is the sum of a board's features; of the short form RAS alone counts. */
#define KNUCKLEPIN_RAS UINT32_C(1)
#define KNUCKLEPIN_LPA2 UINT32_C(2)
#define KNUCKLEPIN_HAFDBS UINT32_C(4)
#define KNUCKLEPIN_LPA UINT32_C(8)

/* The execution state that the trap came from: SPSR_EL2 bit 4 is 1 for AArch32 (knucklepin_ran). Every number but 0 is AArch64. */
#define KNUCKLEPIN_AARCH32 UINT32_C(0)
#define KNUCKLEPIN_AARCH64 UINT32_C(1)

/* Words of ESR_EL2, FAR_EL2, HPFAR_EL2 and HSR, each of a type of its own, so that they can't be exchanged, as are those of the next
 * section. */
struct knucklepin_esr {
    uint64_t word;
};
struct knucklepin_far {
    uint64_t word;
};
struct knucklepin_hpfar {
    uint64_t word;
};
struct knucklepin_hsr {
    uint32_t word;
};

/* ---- what the chip's registers say ---- */

/* ID_AA64PFR0_EL1, ID_AA64MMFR0_EL1, ID_AA64MMFR1_EL1; and ID_PFR0, ID_PFR2 and ID_MMFR3, which a hypervisor in AArch64 reads as
 * ID_PFR0_EL1 and so on. */
struct knucklepin_id_aa64pfr0 {
    uint64_t word;
};
struct knucklepin_id_aa64mmfr0 {
    uint64_t word;
};
struct knucklepin_id_aa64mmfr1 {
    uint64_t word;
};
struct knucklepin_id_pfr0 {
    uint64_t word;
};
struct knucklepin_id_pfr2 {
    uint64_t word;
};
struct knucklepin_id_mmfr3 {
    uint64_t word;
};

/* SPSR_EL2, and HCR_EL2 as it was while the guest ran. */
struct knucklepin_spsr {
    uint64_t word;
};
struct knucklepin_hcr {
    uint64_t word;
};

/* Which of PAN, SSBS and DIT a 32-bit guest has: the marks of its state. */
struct knucklepin_marks {
    uint32_t pan, ssbs, dit;
};
KNUCKLEPIN_WORDS(struct knucklepin_marks, 3);

/* A call whose name ends in _raw is made by the function without that end, which takes and gives the words by their types. */
uint32_t knucklepin_edition_raw(uint64_t pfr0, uint64_t mmfr0, uint64_t mmfr1);
uint32_t knucklepin_short_edition_raw(uint64_t pfr0);
void knucklepin_marks_raw(uint64_t mmfr3, uint64_t pfr2, uint64_t pfr0, struct knucklepin_marks *marks);
uint32_t knucklepin_ran_raw(uint64_t spsr, uint64_t hcr, uint32_t *origin);

/* The edition that the chip's ID registers say. */
static inline uint32_t knucklepin_edition(struct knucklepin_id_aa64pfr0 pfr0, struct knucklepin_id_aa64mmfr0 mmfr0,
                                          struct knucklepin_id_aa64mmfr1 mmfr1)
{
    return knucklepin_edition_raw(pfr0.word, mmfr0.word, mmfr1.word);
}

/* The edition of the short form, for a hypervisor in AArch32. */
static inline uint32_t knucklepin_short_edition(struct knucklepin_id_pfr0 pfr0)
{
    return knucklepin_short_edition_raw(pfr0.word);
}

/* The marks that the chip's ID registers say. */
static inline void knucklepin_marks(struct knucklepin_id_mmfr3 mmfr3, struct knucklepin_id_pfr2 pfr2, struct knucklepin_id_pfr0 pfr0,
                                    struct knucklepin_marks *marks)
{
    knucklepin_marks_raw(mmfr3.word, pfr2.word, pfr0.word, marks);
}

/* What ran when the chip trapped: a guest whose EL1 is AArch32, 64-bit code, or a 32-bit program below a 64-bit kernel. */
#define KNUCKLEPIN_RAN_GUEST UINT32_C(0)
#define KNUCKLEPIN_RAN_AARCH64 UINT32_C(1)
#define KNUCKLEPIN_RAN_PROGRAM UINT32_C(2)

/* What ran, by SPSR_EL2.M[4] and HCR_EL2.RW. `origin` is the one by which its trap is read: of a guest and of a program alike
 * KNUCKLEPIN_AARCH32. Hand on `origin`, and not what the call gives: 2 would be read as AArch64. */
static inline uint32_t knucklepin_ran(struct knucklepin_spsr spsr, struct knucklepin_hcr hcr, uint32_t *origin)
{
    return knucklepin_ran_raw(spsr.word, hcr.word, origin);
}

/* ---- records ---- */

/* What a syndrome word says, by kind: the kind's number, and then its fields, which are the manual's; the words after them are 0. `ec` is a
 * field of those kinds that have several classes. A flag is 0 or 1, and a field may hold any number: what no edition has is refused 5. A
 * record that is filled in by hand begins as {0}, which clears every word.
 *
 * Words that are no record (a kind's number above the last, a flag above 1, a word after the fields that isn't 0) are answered as the
 * record of kind KNUCKLEPIN_KIND_PLAIN and class 64 is, which no edition has: refused 5, after the tests that come before it. */
#define KNUCKLEPIN_KIND_PLAIN UINT32_C(0)             /* 0x00 unknown, 0x0E illegal execution state, 0x22 PC alignment */
#define KNUCKLEPIN_KIND_WFX UINT32_C(1)               /* 0x01 WFI, WFE */
#define KNUCKLEPIN_KIND_MCR UINT32_C(2)               /* 0x03 and 0x05 MCR, MRC; 0x08 VMRS */
#define KNUCKLEPIN_KIND_MCRR UINT32_C(3)              /* 0x04 and 0x0C MCRR, MRRC */
#define KNUCKLEPIN_KIND_LDC UINT32_C(4)               /* 0x06 LDC, STC */
#define KNUCKLEPIN_KIND_SIMD UINT32_C(5)              /* 0x07 SIMD or floating point */
#define KNUCKLEPIN_KIND_CALL UINT32_C(6)              /* 0x11 SVC, 0x12 HVC, 0x38 BKPT; of AArch64 0x15 SVC, 0x16 HVC, 0x17 SMC */
#define KNUCKLEPIN_KIND_SMC UINT32_C(7)               /* 0x13 SMC of AArch32 */
#define KNUCKLEPIN_KIND_INSTRUCTION_ABORT UINT32_C(8) /* 0x20 */
#define KNUCKLEPIN_KIND_DATA_ABORT UINT32_C(9)        /* 0x24 */
#define KNUCKLEPIN_KIND_DEBUG UINT32_C(10)            /* 0x30 breakpoint, 0x3A vector catch */
#define KNUCKLEPIN_KIND_STEP UINT32_C(11)             /* 0x32 software step */
#define KNUCKLEPIN_KIND_WATCHPOINT UINT32_C(12)       /* 0x34 */
#define KNUCKLEPIN_KIND_SERROR UINT32_C(13)           /* 0x2F */
#define KNUCKLEPIN_KIND_SYSTEM UINT32_C(14)           /* 0x18 MSR, MRS or System instruction of AArch64 */

struct knucklepin_plain {
    uint32_t ec, il;
};
struct knucklepin_wfx {
    uint32_t il, cv, cond, ti;
};
struct knucklepin_mcr {
    uint32_t ec, il, cv, cond, opc2, opc1, crn, rt, crm, direction;
};
struct knucklepin_mcrr {
    uint32_t ec, il, cv, cond, opc1, rt2, rt, crm, direction;
};
struct knucklepin_ldc {
    uint32_t il, cv, cond, imm8, rn, offset, am, direction;
};
struct knucklepin_simd {
    uint32_t il, cv, cond;
};
struct knucklepin_call {
    uint32_t ec, il, imm16;
};
struct knucklepin_smc {
    uint32_t il, cv, cond, ccknownpass;
};
/* `fsc` is IFSC, and of a data abort or an SError DFSC. */
struct knucklepin_instruction_abort {
    uint32_t il, set, fnv, ea, s1ptw, fsc;
};
struct knucklepin_data_abort {
    uint32_t il, isv, sas, sse, srt, sf, ar, set, fnv, ea, cm, s1ptw, wnr, fsc;
};
struct knucklepin_debug {
    uint32_t ec, il;
};
struct knucklepin_step {
    uint32_t il, isv, ex;
};
struct knucklepin_watchpoint {
    uint32_t il, cm, wnr;
};
struct knucklepin_serror {
    uint32_t il, aet, ea, fsc;
};
struct knucklepin_system {
    uint32_t il, op0, op2, op1, crn, rt, crm, direction;
};

/* A record of the long form, ESR. */
struct knucklepin_record {
    uint32_t kind;
    union {
        uint32_t fields[15];
        struct knucklepin_plain plain;
        struct knucklepin_wfx wfx;
        struct knucklepin_mcr mcr;
        struct knucklepin_mcrr mcrr;
        struct knucklepin_ldc ldc;
        struct knucklepin_simd simd;
        struct knucklepin_call call;
        struct knucklepin_smc smc;
        struct knucklepin_instruction_abort instruction_abort;
        struct knucklepin_data_abort data_abort;
        struct knucklepin_debug debug;
        struct knucklepin_step step;
        struct knucklepin_watchpoint watchpoint;
        struct knucklepin_serror serror;
        struct knucklepin_system system;
    };
};
KNUCKLEPIN_WORDS(struct knucklepin_record, 16);

/* Kinds of the short form whose fields are others than the long form's. `aet` is bits 11:10: AET of code 0x11, of every other FnV. */
struct knucklepin_short_simd {
    uint32_t il, cv, cond, ta, coproc;
};
struct knucklepin_short_instruction_abort {
    uint32_t il, fnv, ea, s1ptw, fsc;
};
struct knucklepin_short_data_abort {
    uint32_t il, isv, sas, sse, srt, ar, aet, ea, cm, s1ptw, wnr, fsc;
};

/* A record of the short form, HSR: kinds 0 to 9. A register is one of the guest's mode, R0 to R15. */
struct knucklepin_short_record {
    uint32_t kind;
    union {
        uint32_t fields[15];
        struct knucklepin_plain plain;
        struct knucklepin_wfx wfx;
        struct knucklepin_mcr mcr;
        struct knucklepin_mcrr mcrr;
        struct knucklepin_ldc ldc;
        struct knucklepin_short_simd simd;
        struct knucklepin_call call;
        struct knucklepin_smc smc;
        struct knucklepin_short_instruction_abort instruction_abort;
        struct knucklepin_short_data_abort data_abort;
    };
};
KNUCKLEPIN_WORDS(struct knucklepin_short_record, 16);

/* ---- the guest's state ---- */

/* A guest in AArch32. `regs` are in the AArch64 numbering, `status` is CPSR, and `pan`, `ssbs` and `dit` mark the features that it has: no
 * call changes these three. SPSR_EL2 isn't `status`: its bit 21 is SS, and DIT is bit 24 there (knucklepin_from_spsr and
 * knucklepin_to_spsr). */
struct knucklepin_state {
    uint32_t regs[31];
    uint32_t pc, status;
    uint32_t spsr_fiq, spsr_irq, spsr_svc, spsr_abt, spsr_und;
    uint32_t dfsr, ifsr, dfar, ifar;
    uint32_t sctlr, vbar, ttbcr;
    uint32_t pan, ssbs, dit;
};
KNUCKLEPIN_WORDS(struct knucklepin_state, 48);

/* The modes of a guest. */
#define KNUCKLEPIN_MODE_USR UINT32_C(0x10)
#define KNUCKLEPIN_MODE_FIQ UINT32_C(0x11)
#define KNUCKLEPIN_MODE_IRQ UINT32_C(0x12)
#define KNUCKLEPIN_MODE_SVC UINT32_C(0x13)
#define KNUCKLEPIN_MODE_ABT UINT32_C(0x17)
#define KNUCKLEPIN_MODE_UND UINT32_C(0x1B)
#define KNUCKLEPIN_MODE_SYS UINT32_C(0x1F)

/* The AArch64 number of a register, R0 to R14, of a mode; KNUCKLEPIN_NOWHERE for any other register or mode. */
#define KNUCKLEPIN_NOWHERE UINT32_C(0xFFFFFFFF)
uint32_t knucklepin_held_in(uint32_t mode, uint32_t number);

/* The guest's status word from the word that the hypervisor saved of it, SPSR_EL2. Refused 9. */
uint32_t knucklepin_from_spsr(uint32_t pan, uint32_t ssbs, uint32_t dit, uint32_t spsr, uint32_t *status);

/* The word to write into SPSR_EL2 from the guest's status word: DIT goes to bit 24, and SS, bit 21, is 0. Refused 9. */
uint32_t knucklepin_to_spsr(uint32_t pan, uint32_t ssbs, uint32_t dit, uint32_t status, uint32_t *spsr);

/* ---- syndromes and whole traps ---- */

uint32_t knucklepin_esr_read_raw(uint32_t origin, uint32_t edition, uint64_t esr, struct knucklepin_record *syndrome,
                                 struct knucklepin_editions *editions);
uint32_t knucklepin_esr_write_raw(uint32_t origin, uint32_t edition, const struct knucklepin_record *syndrome, uint64_t *esr,
                                  struct knucklepin_editions *editions);
uint32_t knucklepin_hsr_read_raw(uint32_t edition, uint32_t hsr, struct knucklepin_short_record *syndrome,
                                 struct knucklepin_editions *editions);
uint32_t knucklepin_hsr_write_raw(uint32_t edition, const struct knucklepin_short_record *syndrome, uint32_t *hsr,
                                  struct knucklepin_editions *editions);

/* Reads a syndrome word. Refused 1, 2, 3, 4, 5, 6. */
static inline uint32_t knucklepin_esr_read(uint32_t origin, uint32_t edition, struct knucklepin_esr esr, struct knucklepin_record *syndrome,
                                           struct knucklepin_editions *editions)
{
    return knucklepin_esr_read_raw(origin, edition, esr.word, syndrome, editions);
}

/* Writes a record. Refused 1, 5 for a class that its kind or the origin lacks, 4, 5, 6. */
static inline uint32_t knucklepin_esr_write(uint32_t origin, uint32_t edition, const struct knucklepin_record *syndrome,
                                            struct knucklepin_esr *esr, struct knucklepin_editions *editions)
{
    return knucklepin_esr_write_raw(origin, edition, syndrome, &esr->word, editions);
}

/* Reads a word of the short form, which a hypervisor in AArch32 has. Refused 1, 3, 4, 5, 6. */
static inline uint32_t knucklepin_hsr_read(uint32_t edition, struct knucklepin_hsr hsr, struct knucklepin_short_record *syndrome,
                                           struct knucklepin_editions *editions)
{
    return knucklepin_hsr_read_raw(edition, hsr.word, syndrome, editions);
}

/* Writes a short record. Refused 1, 5 for a class that its kind lacks, 4, 5, 6. */
static inline uint32_t knucklepin_hsr_write(uint32_t edition, const struct knucklepin_short_record *syndrome, struct knucklepin_hsr *hsr,
                                            struct knucklepin_editions *editions)
{
    return knucklepin_hsr_write_raw(edition, syndrome, &hsr->word, editions);
}

/* A short record changed to a long one, in a guest's mode. Refused 9 for a number that is no mode, 5. */
uint32_t knucklepin_widen(uint32_t mode, const struct knucklepin_short_record *from, struct knucklepin_record *to);

/* What sort of trap it is. An instruction or data abort tells its two addresses as far as they are known; a PC alignment fault and a
 * watchpoint have a virtual address that is known; every other tells its record alone. */
#define KNUCKLEPIN_TRAP_ABORT UINT32_C(0)
#define KNUCKLEPIN_TRAP_ADDRESSED UINT32_C(1)
#define KNUCKLEPIN_TRAP_PLAIN UINT32_C(2)

#define KNUCKLEPIN_NO_ADDRESS UINT32_C(0)
#define KNUCKLEPIN_PAGE UINT32_C(1) /* the intermediate address of the page, whose bits 11:0 are zero */
#define KNUCKLEPIN_BYTE UINT32_C(2) /* the intermediate address itself */

/* Which addresses a trap tells. */
struct knucklepin_known {
    uint32_t sort, virtual_known, intermediate_known;
};
KNUCKLEPIN_WORDS(struct knucklepin_known, 3);

/* The addresses; one that isn't known is 0. */
struct knucklepin_addresses {
    uint64_t virtual_address, intermediate_address;
};
KNUCKLEPIN_WORDS(struct knucklepin_addresses, 4);

/* A whole trap. */
struct knucklepin_trap {
    struct knucklepin_record syndrome;
    struct knucklepin_known known;
    struct knucklepin_addresses addresses;
};

uint32_t knucklepin_trap_read_raw(uint32_t origin, uint32_t edition, uint64_t esr, uint64_t far, uint64_t hpfar,
                                  struct knucklepin_record *syndrome, struct knucklepin_known *known,
                                  struct knucklepin_addresses *addresses, struct knucklepin_editions *editions);

/* Reads a whole trap. Refused 1, 2, 3, 4, 5, 6, 7, and from AArch32 8. A register that doesn't count may hold anything. */
static inline uint32_t knucklepin_trap_read(uint32_t origin, uint32_t edition, struct knucklepin_esr esr, struct knucklepin_far far,
                                            struct knucklepin_hpfar hpfar, struct knucklepin_trap *trap,
                                            struct knucklepin_editions *editions)
{
    return knucklepin_trap_read_raw(origin, edition, esr.word, far.word, hpfar.word, &trap->syndrome, &trap->known, &trap->addresses,
                                    editions);
}

/* ---- exceptions of the guest, and the return from them ---- */

/* Injections, deliveries and returns are for a guest whose EL1 is AArch32 (HCR_EL2.RW 0). A 32-bit program below a 64-bit kernel (RW 1) has
 * SPSR_EL2 bit 4 1 too: its traps are AArch32's, and the calls that go on from a trap, further below, serve it; but its exceptions are for
 * the kernel, in AArch64, which no call here enters. After an injection the hypervisor's ERET would fault at EL2. */

#define KNUCKLEPIN_UNDEFINED_AT UINT32_C(0)    /* PC is at the undefined instruction */
#define KNUCKLEPIN_UNDEFINED_AFTER UINT32_C(1) /* PC is after the undefined instruction, which is 32 bits long */
#define KNUCKLEPIN_SUPERVISOR_CALL UINT32_C(2) /* PC is after the SVC */
#define KNUCKLEPIN_PREFETCH_ABORT UINT32_C(3)
#define KNUCKLEPIN_DATA_ABORT UINT32_C(4)

#define KNUCKLEPIN_FAULT_EXTERNAL UINT32_C(0)
#define KNUCKLEPIN_FAULT_TRANSLATION UINT32_C(1) /* with a level of 1 to 3, as are the next two */
#define KNUCKLEPIN_FAULT_ACCESS_FLAG UINT32_C(2)
#define KNUCKLEPIN_FAULT_PERMISSION UINT32_C(3)
#define KNUCKLEPIN_FAULT_ALIGNMENT UINT32_C(4)

/* Kinds that no injection has, which a trap tells of. */
#define KNUCKLEPIN_FAULT_ADDRESS_SIZE UINT32_C(5)
#define KNUCKLEPIN_FAULT_PARITY UINT32_C(6)
#define KNUCKLEPIN_FAULT_TLB_CONFLICT UINT32_C(7)
#define KNUCKLEPIN_FAULT_UPDATE UINT32_C(8)    /* unsupported atomic hardware update */
#define KNUCKLEPIN_FAULT_LOCKDOWN UINT32_C(9)  /* IMPLEMENTATION DEFINED, as is the next */
#define KNUCKLEPIN_FAULT_EXCLUSIVE UINT32_C(10) /* unsupported exclusive or atomic access */

/* Levels beside 0 to 3. */
#define KNUCKLEPIN_NO_LEVEL UINT32_C(4)
#define KNUCKLEPIN_LEVEL_MINUS_1 UINT32_C(0xFFFFFFFF)

/* Why an abort came: the kind of fault and its level; whether it was on a table walk (S1PTW, or a code of the walk); and whether an
 * injection has the same kind at the same level: then `fault` and `level` are what knucklepin_inject takes, for a guest whose EL1 is AArch32;
 * in the short format (TTBCR bit 31 is 0) it still refuses a level of 3, with 11. Else it is not to be passed on. */
struct knucklepin_cause {
    uint32_t fault, level, walk, passes;
};
KNUCKLEPIN_WORDS(struct knucklepin_cause, 4);

/* Why an instruction or data abort came. Refused 5, 18 for any other record. */
uint32_t knucklepin_cause(uint32_t origin, const struct knucklepin_record *syndrome, struct knucklepin_cause *cause);

/* Injects an exception. Refused 9, 10, 11, 20, 12. An abort alone looks at fault, level and address, and a data abort alone at write and
 * domain. The level is looked at where the fault has one. A number that is no injection or no fault is refused 11, as a level that isn't 1
 * to 3 is. */
uint32_t knucklepin_inject(struct knucklepin_state *state, uint32_t injection, uint32_t fault, uint32_t level, uint64_t address,
                           uint32_t write, uint32_t domain);

/* What the injection adds to the state's PC for its link, modulo 2^32 (-2 is 0xFFFFFFFE): the correction of the return right after it. 0
 * for a number that is no injection. */
uint32_t knucklepin_injection_correction(const struct knucklepin_state *state, uint32_t injection);

/* What waits for a guest. */
#define KNUCKLEPIN_ABORT UINT32_C(1) /* a virtual abort */
#define KNUCKLEPIN_FIQ UINT32_C(2)
#define KNUCKLEPIN_IRQ UINT32_C(3)

/* A queue is a number: its two lowest bits are the oldest that waits, the next two the second, the next two the youngest; 0 is empty. Every
 * number is read as the queue in which its pairs of bits were raised, the lowest first: none is lost, and none waits twice; and the
 * number that comes back is that queue's own, as 0x1 for 0x15. */
#define KNUCKLEPIN_EMPTY UINT32_C(0)

/* The queue after a kind was raised: one that waits keeps its place. A number that is no kind raises nothing. */
uint32_t knucklepin_raise(uint32_t queue, uint32_t kind);

/* A delivery step's queue, before and after it, and the kind that it delivered: 0 where it delivered nothing. */
struct knucklepin_pending {
    uint32_t queue, delivered;
};
KNUCKLEPIN_WORDS(struct knucklepin_pending, 2);

/* Delivers the oldest whose mask bit is 0. Refused 9, 10, also where nothing waits: the queue is then as it was read, and `delivered` is 0.
 * What `delivered` holds before the call isn't looked at. */
uint32_t knucklepin_deliver(struct knucklepin_state *state, struct knucklepin_pending *pending);

/* What the delivery of a kind adds to the state's PC for its link. 0 for a number that is no kind. */
uint32_t knucklepin_delivery_correction(const struct knucklepin_state *state, uint32_t kind);

/* Returns the guest from its mode's exception. Refused 9. The correction is what was added to PC for the link, modulo 2^32. */
uint32_t knucklepin_resume(struct knucklepin_state *state, uint32_t correction);

/* ---- going on from a trap ---- */

/* Whether a trapped instruction counts: one whose condition fails does nothing. A record without a condition passes, and so do words that
 * are no record. Of the status word N, Z, C, V, T and IT alone are looked at. */
uint32_t knucklepin_passes(uint32_t status, const struct knucklepin_record *syndrome);

/* Steps over WFI, WFE, SMC, a cache maintenance operation (CM 1 and S1PTW 0), or whatever doesn't count. Refused 5, 9, 18. */
uint32_t knucklepin_step_over(struct knucklepin_state *state, const struct knucklepin_record *syndrome);

/* Finishes a load or store of a data abort with ISV 1. Refused 5, 9, 18. `value` is what the device gave to a load, of which the bits that
 * SAS says are taken: a store, WnR 1, doesn't look at it. `given` is what a store gives the device; of a load it is 0. */
uint32_t knucklepin_finish(struct knucklepin_state *state, const struct knucklepin_record *syndrome, uint32_t value, uint32_t *given);

/* What Rt and Rt2 hold. */
struct knucklepin_pair {
    uint32_t first, second;
};
KNUCKLEPIN_WORDS(struct knucklepin_pair, 2);

/* Finishes a coprocessor read or write (MCR, MRC, VMRS, MCRR, MRRC). Refused 5, 9, 18. A read, direction 1, takes the values, and a write
 * gives them: a value that isn't taken isn't looked at, and one that isn't given is 0. */
uint32_t knucklepin_coprocessor_finish(struct knucklepin_state *state, const struct knucklepin_record *syndrome, uint32_t first,
                                       uint32_t second, struct knucklepin_pair *given);

/* ---- A32 loads and stores that the chip doesn't describe (ISV 0) ---- */

/* Forms: a transfer with an immediate offset, 16 more with a register, 32 more for a literal; and the two lists. */
#define KNUCKLEPIN_LDR UINT32_C(0)
#define KNUCKLEPIN_STR UINT32_C(1)
#define KNUCKLEPIN_LDRB UINT32_C(2)
#define KNUCKLEPIN_STRB UINT32_C(3)
#define KNUCKLEPIN_LDRH UINT32_C(4)
#define KNUCKLEPIN_STRH UINT32_C(5)
#define KNUCKLEPIN_LDRSB UINT32_C(6)
#define KNUCKLEPIN_LDRSH UINT32_C(7)
#define KNUCKLEPIN_LDRD UINT32_C(8)
#define KNUCKLEPIN_STRD UINT32_C(9)
#define KNUCKLEPIN_REGISTER UINT32_C(16)
#define KNUCKLEPIN_LITERAL UINT32_C(32)
#define KNUCKLEPIN_STM UINT32_C(48)
#define KNUCKLEPIN_LDM UINT32_C(49)

/* A load or store: its form and its fields (those that the form lacks are 0: of a literal p, w and rn, though its word has P 1 and Rn 15);
 * whether memory is read, how wide a transfer is (SAS: 0 a byte, 1 a halfword, 2 a word) and whether it is extended by its sign (SSE); how
 * many registers it transfers; the first address, from which the others follow at distances of 4; and what is added to the base, modulo
 * 2^32. */
struct knucklepin_access {
    uint32_t form, cond, p, u, w, rn, rt, imm, rm, list;
    uint32_t load, sas, sse;
    uint32_t count, address, change;
};
KNUCKLEPIN_WORDS(struct knucklepin_access, 16);

/* A word for each register that is transferred, in transfer order, and 0 after the last. */
struct knucklepin_list {
    uint32_t word[16];
};
KNUCKLEPIN_WORDS(struct knucklepin_list, 16);

/* What the instruction word at PC does in the guest's state, and its registers, which are the guest's mode's. Refused 9, 19 in T32 state,
 * 19 for the word. */
uint32_t knucklepin_a32_describe(const struct knucklepin_state *state, uint32_t word, struct knucklepin_access *access,
                                 struct knucklepin_list *registers);

/* The word of a form and its fields: the first ten words of `access`, of which those that the form lacks aren't looked at, as the words
 * after them aren't. A flag is any number: 0 is no, and every other is yes. Refused 19 for a number that is no form's, and for fields that
 * no word has. */
uint32_t knucklepin_a32_encode(const struct knucklepin_access *access, uint32_t *word);

/* Whether a store was made, and how many registers were transferred. */
struct knucklepin_transfer {
    uint32_t store, count;
};
KNUCKLEPIN_WORDS(struct knucklepin_transfer, 2);

/* Finishes the load or store that the word describes. Refused 9, 19 in T32 state, 19 for the word. `values` are what the device gave to a
 * load: a store doesn't look at them. `addresses` are those of the transfers, and `given` what a store gives the device there: of a load
 * zeros. */
uint32_t knucklepin_a32_finish(struct knucklepin_state *state, uint32_t word, const struct knucklepin_list *values,
                               struct knucklepin_transfer *transfer, struct knucklepin_list *addresses, struct knucklepin_list *given);

/* ---- logs ---- */

/* How many counts and entries were gone through, 0 on a refusal; and the section that refusal 13 names, else 0. */
struct knucklepin_log_answer {
    uint64_t gone, section;
};
KNUCKLEPIN_WORDS(struct knucklepin_log_answer, 4);

/* Reads a log. Refused 16, 13 for the first section that isn't whole, 14, 15, 20. */
uint32_t knucklepin_log_read(const uint8_t *log, uint64_t length, struct knucklepin_log_answer *answer);

/* Entries of a log, by section. */
#define KNUCKLEPIN_NO_ENTRY UINT32_C(0)
#define KNUCKLEPIN_ENTRY_EDITION UINT32_C(1)
#define KNUCKLEPIN_ENTRY_SYNDROME UINT32_C(2)
#define KNUCKLEPIN_ENTRY_ADDRESS UINT32_C(3)
#define KNUCKLEPIN_ENTRY_INJECTION UINT32_C(4)

/* Whether the section is whole, and its count of entries; what entry was found; an edition, a syndrome, FAR or an injection; and HPFAR or
 * an injection's domain. What there isn't is 0. */
struct knucklepin_log_entry {
    uint64_t whole, count, entry, first, second;
};
KNUCKLEPIN_WORDS(struct knucklepin_log_entry, 10);

/* Looks at entry i of the section after so many (0 for editions, 3 for injections) of any bytes. Where `passed` is above 3, or that section
 * or one before it isn't whole, all that is found is zeros. */
void knucklepin_log_look(const uint8_t *log, uint64_t length, uint32_t passed, uint64_t i, struct knucklepin_log_entry *found);

uint32_t knucklepin_log_write_raw(const uint8_t *editions, uint64_t edition_count, const uint64_t *syndromes, uint64_t syndrome_count,
                                  const uint64_t *fars, uint64_t far_count, const uint64_t *hpfars, uint64_t hpfar_count,
                                  const uint16_t *injections, uint64_t injection_count, uint8_t *buffer, uint64_t room,
                                  uint64_t *length);

/* Writes a log into a buffer. Refused 16, 15, 20, 17. An injection is its own byte, and 256 times its domain; every other entry may hold
 * anything. */
static inline uint32_t knucklepin_log_write(const uint8_t *editions, uint64_t edition_count, const struct knucklepin_esr *syndromes,
                                            uint64_t syndrome_count, const struct knucklepin_far *fars, uint64_t far_count,
                                            const struct knucklepin_hpfar *hpfars, uint64_t hpfar_count, const uint16_t *injections,
                                            uint64_t injection_count, uint8_t *buffer, uint64_t room, uint64_t *length)
{
    return knucklepin_log_write_raw(editions, edition_count, (const uint64_t *)syndromes, syndrome_count, (const uint64_t *)fars,
                                    far_count, (const uint64_t *)hpfars, hpfar_count, injections, injection_count, buffer, room, length);
}

/* ---- a trap in words ---- */

uint64_t knucklepin_explain_word_raw(uint32_t edition, uint64_t esr, uint8_t *text, uint64_t room);
uint64_t knucklepin_explain_trap_raw(uint32_t edition, uint64_t esr, uint64_t far, uint64_t hpfar, uint8_t *text, uint64_t room);
uint64_t knucklepin_explain_short_raw(uint32_t edition, uint32_t hsr, uint8_t *text, uint64_t room);

/* What the program `explain` says of a word from AArch32, as lines of ASCII text from the buffer's start on, without a zero after them.
 * Gives how many bytes were written: what a buffer has no room for is left out, and none is longer than 4096 bytes. Nothing is refused: a
 * refusal is said. */
static inline uint64_t knucklepin_explain_word(uint32_t edition, struct knucklepin_esr esr, uint8_t *text, uint64_t room)
{
    return knucklepin_explain_word_raw(edition, esr.word, text, room);
}

/* The same of a whole trap from AArch32. */
static inline uint64_t knucklepin_explain_trap(uint32_t edition, struct knucklepin_esr esr, struct knucklepin_far far,
                                               struct knucklepin_hpfar hpfar, uint8_t *text, uint64_t room)
{
    return knucklepin_explain_trap_raw(edition, esr.word, far.word, hpfar.word, text, room);
}

/* The same of a word of the short form. */
static inline uint64_t knucklepin_explain_short(uint32_t edition, struct knucklepin_hsr hsr, uint8_t *text, uint64_t room)
{
    return knucklepin_explain_short_raw(edition, hsr.word, text, room);
}

/* ---- answers as single numbers ---- */

/* A word read: 0 where it is taken, else number + (mask << 8) + (count << 24), as the calls above refuse it. A word read in one edition and
 * written in another: the word, or all ones where either refuses. From AArch32, from AArch64, and of the short form. */
uint64_t knucklepin_read(uint32_t edition, uint64_t word);
uint64_t knucklepin_rewrite(uint32_t reader, uint32_t writer, uint64_t word);
uint64_t knucklepin_aarch64_read(uint32_t edition, uint64_t word);
uint64_t knucklepin_aarch64_rewrite(uint32_t reader, uint32_t writer, uint64_t word);
uint64_t knucklepin_short_read(uint32_t edition, uint32_t word);
uint64_t knucklepin_short_rewrite(uint32_t reader, uint32_t writer, uint32_t word);

/* The form of an A32 load or store, and the word that its fields make again; all ones where it is none. */
uint64_t knucklepin_a32_form(uint32_t word);
uint64_t knucklepin_a32_rewrite(uint32_t word);

#ifdef __cplusplus
}
#endif

#endif
