/* Six calls in plain C, written from the papers and the header, as a monitor without the library would have them: what .ci/bench holds the
   library's cost against, and whose answers it compares first. */
#include "plain.h"

#include <stdbool.h>
#include <string.h>

static uint32_t bits(uint32_t word, unsigned high, unsigned low)
{
    return word >> low & ((UINT32_C(2) << (high - low)) - 1);
}

static bool bit(uint64_t word, unsigned place)
{
    return word >> place & 1;
}

/* ---- syndromes */

enum { ALL = 0xffff, RAS = 0xaaaa, LPA2 = 0xcccc, HAFDBS = 0xf0f0, NO_RAS = ALL & ~RAS };

#define CLASS(n) (UINT64_C(1) << (n))

static const uint64_t FROM_AARCH32 = CLASS(0x00) | CLASS(0x01) | CLASS(0x03) | CLASS(0x04) | CLASS(0x05) | CLASS(0x06) | CLASS(0x07) |
                                     CLASS(0x08) | CLASS(0x0c) | CLASS(0x0e) | CLASS(0x11) | CLASS(0x12) | CLASS(0x13) | CLASS(0x20) |
                                     CLASS(0x22) | CLASS(0x24) | CLASS(0x2f) | CLASS(0x30) | CLASS(0x32) | CLASS(0x34) | CLASS(0x38) |
                                     CLASS(0x3a);
static const uint64_t FROM_AARCH64 = CLASS(0x00) | CLASS(0x01) | CLASS(0x07) | CLASS(0x0e) | CLASS(0x15) | CLASS(0x16) | CLASS(0x17) |
                                     CLASS(0x18) | CLASS(0x20) | CLASS(0x22) | CLASS(0x24) | CLASS(0x2f) | CLASS(0x30) | CLASS(0x32) |
                                     CLASS(0x34);
/* Those in which IL may be 0; of a data abort where ISV is 1. */
static const uint64_t NARROW = CLASS(0x01) | CLASS(0x11) | CLASS(0x24) | CLASS(0x38);

static const uint16_t CODES[64] = {
    [0x00] = ALL,    [0x01] = ALL,           [0x02] = ALL,    [0x03] = ALL,    [0x04] = ALL,    [0x05] = ALL,    [0x06] = ALL,
    [0x07] = ALL,    [0x08] = LPA2,          [0x09] = ALL,    [0x0a] = ALL,    [0x0b] = ALL,    [0x0c] = LPA2,   [0x0d] = ALL,
    [0x0e] = ALL,    [0x0f] = ALL,           [0x10] = ALL,    [0x13] = LPA2,   [0x14] = ALL,    [0x15] = ALL,    [0x16] = ALL,
    [0x17] = ALL,    [0x18] = NO_RAS,        [0x1b] = LPA2 & NO_RAS,           [0x1c] = NO_RAS, [0x1d] = NO_RAS, [0x1e] = NO_RAS,
    [0x1f] = NO_RAS, [0x29] = LPA2,          [0x2b] = LPA2,   [0x30] = ALL,    [0x31] = HAFDBS,
};

/* Address size, translation, access flag and permission faults. */
static bool mmu_fault(uint32_t code)
{
    return code < 0x10 || code == 0x29 || code == 0x2b;
}

static uint32_t abort_editions(uint32_t set, bool fnv, bool ea, bool s1ptw, uint32_t code)
{
    if (fnv && code != 0x10) return 0;
    if (ea && (code & 0x30) != 0x10) return 0;
    if (s1ptw && !mmu_fault(code)) return 0;
    if (set == 0) return CODES[code];
    return code == 0x10 && set >= 2 ? RAS : 0;
}

static uint32_t data_abort_editions(uint32_t origin, uint32_t iss)
{
    const bool isv = bit(iss, 24), sse = bit(iss, 21), wnr = bit(iss, 6), s1ptw = bit(iss, 7), cm = bit(iss, 8);
    const uint32_t sas = bits(iss, 23, 22), srt = bits(iss, 20, 16), code = bits(iss, 5, 0);
    uint32_t editions = code == 0x21 || code == 0x34 || code == 0x35 ? ALL : 0;
    if (bit(iss, 13) || (cm && !wnr)) return 0;
    if (editions != 0) {
        if (bits(iss, 12, 11) != 0 || bit(iss, 10) || bit(iss, 9) || s1ptw) return 0;
    } else {
        editions = abort_editions(bits(iss, 12, 11), bit(iss, 10), bit(iss, 9), s1ptw, code);
    }
    if (!isv) return bits(iss, 23, 14) == 0 ? editions : 0;
    if (cm || s1ptw) return 0;
    if (origin == KNUCKLEPIN_AARCH32) {
        if (bit(iss, 15) || sas == 3 || srt == 15 || srt == 31) return 0;
        if (sse && (sas == 2 || wnr)) return 0;
    } else if (sse && (wnr || sas == 3 || (sas == 2 && !bit(iss, 15)))) {
        return 0;
    }
    if (mmu_fault(code)) return editions;
    return code >= 0x13 && code <= 0x17 ? editions & NO_RAS : 0;
}

static bool condition(uint32_t origin, uint32_t iss)
{
    const uint32_t condition = bits(iss, 24, 20);
    return origin == KNUCKLEPIN_AARCH32 ? condition != 0x1f : condition == 0x1e;
}

/* The editions that have a word of a class that the origin has. */
static uint32_t word_editions(uint32_t origin, uint32_t word)
{
    const uint32_t class = bits(word, 31, 26), iss = bits(word, 24, 0), am = bits(iss, 3, 1);
    const bool il = bit(word, 25);
    switch (class) {
    case 0x00:
    case 0x0e:
    case 0x22:
        return iss == 0 ? ALL : 0;
    case 0x01:
        return (iss & ~UINT32_C(0x1f00001)) == 0 && condition(origin, iss) ? ALL : 0;
    case 0x08:
        if (!bit(iss, 0)) return 0;
        /* fallthrough */
    case 0x03:
    case 0x05:
        return condition(origin, iss) ? ALL : 0;
    case 0x0c:
        if (!bit(iss, 0)) return 0;
        /* fallthrough */
    case 0x04:
        return !bit(iss, 15) && condition(origin, iss) ? ALL : 0;
    case 0x06:
        if (bits(iss, 11, 10) != 0 || am == 5 || am == 7 || (am >= 4 && !bit(iss, 0))) return 0;
        return condition(origin, iss) ? ALL : 0;
    case 0x07:
        return bits(iss, 19, 0) == 0 && condition(origin, iss) ? ALL : 0;
    case 0x11:
    case 0x12:
    case 0x15:
    case 0x16:
    case 0x17:
    case 0x38:
        return iss <= (il ? UINT32_C(0xffff) : UINT32_C(0xff)) ? ALL : 0;
    case 0x13:
        if (bits(iss, 18, 0) != 0 || (!bit(iss, 19) && iss != 0)) return 0;
        return condition(origin, iss) ? ALL : 0;
    case 0x18:
        return bits(iss, 24, 22) == 0 ? ALL : 0;
    case 0x20:
        if ((iss & ~UINT32_C(0x1ebf)) != 0) return 0;
        return abort_editions(bits(iss, 12, 11), bit(iss, 10), bit(iss, 9), bit(iss, 7), bits(iss, 5, 0));
    case 0x24:
        return data_abort_editions(origin, iss);
    case 0x2f:
        if (iss == 0) return ALL;
        if ((iss & ~UINT32_C(0x1e00)) != 0x11 || (bits(iss, 12, 10) > 3 && bits(iss, 12, 10) != 6)) return 0;
        return RAS;
    case 0x30:
    case 0x3a:
        return iss == 0x22 ? ALL : 0;
    case 0x32:
        return iss == 0x22 || (iss & ~UINT32_C(0x40)) == 0x1000022 ? ALL : 0;
    default:
        return iss == 0x22 || iss == 0x62 || iss == 0x162 ? ALL : 0;
    }
}

/* The refusals that look at class and IL alone. */
static uint32_t head_refused(uint32_t origin, uint32_t word)
{
    const uint32_t class = bits(word, 31, 26);
    if (!bit(origin == KNUCKLEPIN_AARCH32 ? FROM_AARCH32 : FROM_AARCH64, class)) return KNUCKLEPIN_UNKNOWN_CLASS;
    if (bit(word, 25)) return KNUCKLEPIN_TAKEN;
    if (origin != KNUCKLEPIN_AARCH32 || !bit(NARROW, class) || (class == 0x24 && !bit(word, 24))) return KNUCKLEPIN_SHORT_INSTRUCTION;
    return KNUCKLEPIN_TAKEN;
}

static void fields_of(uint32_t word, struct knucklepin_record *record)
{
    const uint32_t ec = bits(word, 31, 26), il = bit(word, 25), cv = bit(word, 24), cond = bits(word, 23, 20), code = bits(word, 5, 0);
    memset(record, 0, sizeof *record);
    switch (ec) {
    case 0x00:
    case 0x0e:
    case 0x22:
        record->kind = KNUCKLEPIN_KIND_PLAIN;
        record->plain = (struct knucklepin_plain){ec, il};
        break;
    case 0x01:
        record->kind = KNUCKLEPIN_KIND_WFX;
        record->wfx = (struct knucklepin_wfx){il, cv, cond, bit(word, 0)};
        break;
    case 0x03:
    case 0x05:
    case 0x08:
        record->kind = KNUCKLEPIN_KIND_MCR;
        record->mcr = (struct knucklepin_mcr){ec, il, cv, cond, bits(word, 19, 17), bits(word, 16, 14), bits(word, 13, 10),
                                              bits(word, 9, 5), bits(word, 4, 1), bit(word, 0)};
        break;
    case 0x04:
    case 0x0c:
        record->kind = KNUCKLEPIN_KIND_MCRR;
        record->mcrr = (struct knucklepin_mcrr){ec, il, cv, cond, bits(word, 19, 16), bits(word, 14, 10), bits(word, 9, 5),
                                                bits(word, 4, 1), bit(word, 0)};
        break;
    case 0x06:
        record->kind = KNUCKLEPIN_KIND_LDC;
        record->ldc =
            (struct knucklepin_ldc){il, cv, cond, bits(word, 19, 12), bits(word, 9, 5), bit(word, 4), bits(word, 3, 1), bit(word, 0)};
        break;
    case 0x07:
        record->kind = KNUCKLEPIN_KIND_SIMD;
        record->simd = (struct knucklepin_simd){il, cv, cond};
        break;
    case 0x11:
    case 0x12:
    case 0x15:
    case 0x16:
    case 0x17:
    case 0x38:
        record->kind = KNUCKLEPIN_KIND_CALL;
        record->call = (struct knucklepin_call){ec, il, bits(word, 15, 0)};
        break;
    case 0x13:
        record->kind = KNUCKLEPIN_KIND_SMC;
        record->smc = (struct knucklepin_smc){il, cv, cond, bit(word, 19)};
        break;
    case 0x18:
        record->kind = KNUCKLEPIN_KIND_SYSTEM;
        record->system = (struct knucklepin_system){il, bits(word, 21, 20), bits(word, 19, 17), bits(word, 16, 14), bits(word, 13, 10),
                                                    bits(word, 9, 5), bits(word, 4, 1), bit(word, 0)};
        break;
    case 0x20:
        record->kind = KNUCKLEPIN_KIND_INSTRUCTION_ABORT;
        record->instruction_abort =
            (struct knucklepin_instruction_abort){il, bits(word, 12, 11), bit(word, 10), bit(word, 9), bit(word, 7), code};
        break;
    case 0x24:
        record->kind = KNUCKLEPIN_KIND_DATA_ABORT;
        record->data_abort = (struct knucklepin_data_abort){il, bit(word, 24), bits(word, 23, 22), bit(word, 21), bits(word, 20, 16),
                                                            bit(word, 15), bit(word, 14), bits(word, 12, 11), bit(word, 10), bit(word, 9),
                                                            bit(word, 8), bit(word, 7), bit(word, 6), code};
        break;
    case 0x2f:
        record->kind = KNUCKLEPIN_KIND_SERROR;
        record->serror = (struct knucklepin_serror){il, bits(word, 12, 10), bit(word, 9), code};
        break;
    case 0x30:
    case 0x3a:
        record->kind = KNUCKLEPIN_KIND_DEBUG;
        record->debug = (struct knucklepin_debug){ec, il};
        break;
    case 0x32:
        record->kind = KNUCKLEPIN_KIND_STEP;
        record->step = (struct knucklepin_step){il, bit(word, 24), bit(word, 6)};
        break;
    default:
        record->kind = KNUCKLEPIN_KIND_WATCHPOINT;
        record->watchpoint = (struct knucklepin_watchpoint){il, bit(word, 8), bit(word, 6)};
        break;
    }
}

uint32_t plain_esr_read(uint32_t origin, uint32_t edition, struct knucklepin_esr esr, struct knucklepin_record *syndrome,
                        struct knucklepin_editions *editions)
{
    const uint32_t word = (uint32_t)esr.word;
    uint32_t number, mask;
    memset(syndrome, 0, sizeof *syndrome);
    *editions = (struct knucklepin_editions){0, 0};
    if (edition > 15) return KNUCKLEPIN_UNKNOWN_EDITION;
    if (esr.word >> 32 != 0) return KNUCKLEPIN_UPPER_HALF;
    number = head_refused(origin, word);
    if (number != KNUCKLEPIN_TAKEN) return number;
    mask = word_editions(origin, word);
    if (mask == 0) return KNUCKLEPIN_NO_EDITION;
    if (!bit(mask, edition)) {
        *editions = (struct knucklepin_editions){mask, (uint32_t)__builtin_popcount(mask)};
        return KNUCKLEPIN_OTHER_EDITIONS;
    }
    fields_of(word, syndrome);
    return KNUCKLEPIN_TAKEN;
}

uint32_t plain_trap_read(uint32_t origin, uint32_t edition, struct knucklepin_esr esr, struct knucklepin_far far,
                         struct knucklepin_hpfar hpfar, struct knucklepin_trap *trap, struct knucklepin_editions *editions)
{
    const uint32_t word = (uint32_t)esr.word, class = bits(word, 31, 26), code = bits(word, 5, 0);
    const bool abort = class == 0x20 || class == 0x24, s1ptw = bit(word, 7);
    bool virtual_known, intermediate_known;
    uint32_t number = plain_esr_read(origin, edition, esr, &trap->syndrome, editions);
    memset(&trap->known, 0, sizeof trap->known);
    memset(&trap->addresses, 0, sizeof trap->addresses);
    if (number != KNUCKLEPIN_TAKEN) return number;
    virtual_known = class == 0x22 || class == 0x34 || (abort && !(code == 0x10 && bit(word, 10)));
    intermediate_known = abort && mmu_fault(code) && (code < 0x0c || code > 0x0f || s1ptw);
    if (intermediate_known && (hpfar.word & ~(edition & KNUCKLEPIN_LPA ? UINT64_C(0xffffffffff0) : UINT64_C(0xfffffffff0))) != 0)
        number = KNUCKLEPIN_WIDE_HPFAR;
    else if (virtual_known && origin == KNUCKLEPIN_AARCH32 && far.word >> 32 != 0)
        number = KNUCKLEPIN_WIDE_FAR;
    if (number != KNUCKLEPIN_TAKEN) {
        memset(&trap->syndrome, 0, sizeof trap->syndrome);
        return number;
    }
    trap->known.sort = abort ? KNUCKLEPIN_TRAP_ABORT : virtual_known ? KNUCKLEPIN_TRAP_ADDRESSED : KNUCKLEPIN_TRAP_PLAIN;
    if (virtual_known) {
        trap->known.virtual_known = 1;
        trap->addresses.virtual_address = far.word;
    }
    if (intermediate_known) {
        trap->known.intermediate_known = s1ptw ? KNUCKLEPIN_PAGE : KNUCKLEPIN_BYTE;
        trap->addresses.intermediate_address = hpfar.word << 8 | (s1ptw ? 0 : far.word & 0xfff);
    }
    return KNUCKLEPIN_TAKEN;
}

/* ---- exceptions */

enum { T = 1 << 5, F = 1 << 6, I = 1 << 7, A = 1 << 8, E = 1 << 9, IT = 0x0600fc00 };

static const uint32_t MODES = UINT32_C(1) << 0x10 | UINT32_C(1) << 0x11 | UINT32_C(1) << 0x12 | UINT32_C(1) << 0x13 | UINT32_C(1) << 0x17 |
                              UINT32_C(1) << 0x1b | UINT32_C(1) << 0x1f;

static bool sound(const struct knucklepin_state *state)
{
    uint32_t wrong = UINT32_C(1) << 24;
    if (!state->ssbs) wrong |= UINT32_C(1) << 23;
    if (!state->pan) wrong |= UINT32_C(1) << 22;
    if (!state->dit) wrong |= UINT32_C(1) << 21;
    return bit(MODES, state->status & 31) && (state->status & wrong) == 0;
}

static void enter(struct knucklepin_state *state, uint32_t mode, uint32_t vector, unsigned link, uint32_t correction, uint32_t *saved,
                  uint32_t masked)
{
    const uint32_t sctlr = state->sctlr;
    uint32_t status = state->status;
    *saved = status;
    state->regs[link] = state->pc + correction;
    status &= ~(UINT32_C(0x1f) | T | E | IT | UINT32_C(1) << 20);
    status |= mode | masked;
    if (bit(sctlr, 30)) status |= T;
    if (bit(sctlr, 25)) status |= E;
    if (state->pan && !bit(sctlr, 23)) status |= UINT32_C(1) << 22;
    if (state->ssbs) status = (status & ~(UINT32_C(1) << 23)) | (sctlr >> 31) << 23;
    state->status = status;
    state->pc = vector + (bit(sctlr, 13) ? UINT32_C(0xffff0000) : state->vbar);
}

/* The status of a fault, without WnR and domain; 0 where there is none. */
static uint32_t fault_status(bool lpae, uint32_t fault, uint32_t level, bool data)
{
    static const uint16_t SHORT[3][2] = {{0x05, 0x07}, {0x03, 0x06}, {0x0d, 0x0f}};
    switch (fault) {
    case KNUCKLEPIN_FAULT_EXTERNAL:
        return lpae ? 0x210 : 0x008;
    case KNUCKLEPIN_FAULT_TRANSLATION:
    case KNUCKLEPIN_FAULT_ACCESS_FLAG:
    case KNUCKLEPIN_FAULT_PERMISSION:
        if (level < 1 || level > 3) return 0;
        if (lpae) return 0x200 | fault << 2 | level;
        return level == 3 ? 0 : SHORT[fault - 1][level - 1];
    case KNUCKLEPIN_FAULT_ALIGNMENT:
        if (!data) return 0;
        return lpae ? 0x221 : 0x001;
    default:
        return 0;
    }
}

uint32_t plain_inject(struct knucklepin_state *state, uint32_t injection, uint32_t fault, uint32_t level, uint64_t address, uint32_t write,
                      uint32_t domain)
{
    const bool t32 = state->status & T, lpae = bit(state->ttbcr, 31), data = injection == KNUCKLEPIN_DATA_ABORT;
    uint32_t status;
    if (!sound(state)) return KNUCKLEPIN_UNSOUND_STATUS;
    if (state->vbar & 31) return KNUCKLEPIN_UNALIGNED_VBAR;
    switch (injection) {
    case KNUCKLEPIN_UNDEFINED_AT:
        enter(state, 0x1b, 0x04, 22, t32 ? 2 : 4, &state->spsr_und, I);
        return KNUCKLEPIN_TAKEN;
    case KNUCKLEPIN_UNDEFINED_AFTER:
        enter(state, 0x1b, 0x04, 22, t32 ? (uint32_t)-2 : 0, &state->spsr_und, I);
        return KNUCKLEPIN_TAKEN;
    case KNUCKLEPIN_SUPERVISOR_CALL:
        enter(state, 0x13, 0x08, 18, 0, &state->spsr_svc, I);
        return KNUCKLEPIN_TAKEN;
    case KNUCKLEPIN_PREFETCH_ABORT:
    case KNUCKLEPIN_DATA_ABORT:
        break;
    default:
        return KNUCKLEPIN_UNWRITABLE_FAULT;
    }
    status = fault_status(lpae, fault, level, data);
    if (status == 0) return KNUCKLEPIN_UNWRITABLE_FAULT;
    if (data && domain > 15) return KNUCKLEPIN_WIDE_DOMAIN;
    if (address >> 32 != 0) return KNUCKLEPIN_WIDE_ADDRESS;
    if (data) {
        if (write) status |= 0x800;
        if (!lpae && level == 2 && (fault == KNUCKLEPIN_FAULT_TRANSLATION || fault == KNUCKLEPIN_FAULT_ACCESS_FLAG)) status |= domain << 4;
        state->dfsr = status;
        state->dfar = (uint32_t)address;
        enter(state, 0x17, 0x10, 20, 8, &state->spsr_abt, A | I);
    } else {
        state->ifsr = status;
        state->ifar = (uint32_t)address;
        enter(state, 0x17, 0x0c, 20, 4, &state->spsr_abt, A | I);
    }
    return KNUCKLEPIN_TAKEN;
}

uint32_t plain_deliver(struct knucklepin_state *state, struct knucklepin_pending *pending)
{
    static const uint32_t MASKED[4] = {0, A, F, I};
    uint32_t queue[3], waiting = 0, there = 0, number = 0, delivered = 0;
    bool refused_9 = !sound(state), refused_10 = (state->vbar & 31) != 0;
    for (uint32_t left = pending->queue; left != 0; left >>= 2) {
        const uint32_t kind = left & 3;
        if (kind == 0 || bit(there, kind)) continue;
        there |= UINT32_C(1) << kind;
        queue[waiting++] = kind;
    }
    for (uint32_t i = 0, place = 0; i < waiting; i++) {
        if (!refused_9 && !refused_10 && delivered == 0 && (state->status & MASKED[queue[i]]) == 0) {
            delivered = queue[i];
        } else {
            number |= queue[i] << place;
            place += 2;
        }
    }
    pending->queue = number;
    pending->delivered = delivered;
    if (refused_9) return KNUCKLEPIN_UNSOUND_STATUS;
    if (refused_10) return KNUCKLEPIN_UNALIGNED_VBAR;
    switch (delivered) {
    case KNUCKLEPIN_ABORT:
        state->dfsr = bit(state->ttbcr, 31) ? 0x211 : 0x406;
        enter(state, 0x17, 0x10, 20, 8, &state->spsr_abt, A | I);
        break;
    case KNUCKLEPIN_FIQ:
        enter(state, 0x11, 0x1c, 30, 4, &state->spsr_fiq, A | I | F);
        break;
    case KNUCKLEPIN_IRQ:
        enter(state, 0x12, 0x18, 16, 4, &state->spsr_irq, A | I);
        break;
    default:
        break;
    }
    return KNUCKLEPIN_TAKEN;
}

/* ---- going on */

static uint32_t reversed(uint32_t sas, uint32_t value)
{
    if (sas == 2) return __builtin_bswap32(value);
    return sas == 1 ? __builtin_bswap16((uint16_t)value) : value;
}

static void go_on(struct knucklepin_state *state, uint32_t length)
{
    const uint32_t status = state->status;
    uint32_t it = bits(status, 15, 10) << 2 | bits(status, 26, 25);
    it = (it & 7) == 0 ? 0 : (it & 0xe0) | (it << 1 & 0x1f);
    state->status = (status & ~(uint32_t)IT) | (it & 3) << 25 | (it >> 2) << 10;
    state->pc += length;
}

/* Where each field of a kind stands: its lowest bit and its width. The class of a kind that has one is its first field; of the others it
   and the bits that are fixed are `fixed`. */
struct place {
    uint8_t low, width;
};

static const struct {
    uint32_t fixed;
    uint64_t classes;
    struct place places[14];
} KINDS[15] = {
    {0, CLASS(0x00) | CLASS(0x0e) | CLASS(0x22), {{26, 6}, {25, 1}}},
    {UINT32_C(0x01) << 26, 0, {{25, 1}, {24, 1}, {20, 4}, {0, 1}}},
    {0, CLASS(0x03) | CLASS(0x05) | CLASS(0x08), {{26, 6}, {25, 1}, {24, 1}, {20, 4}, {17, 3}, {14, 3}, {10, 4}, {5, 5}, {1, 4}, {0, 1}}},
    {0, CLASS(0x04) | CLASS(0x0c), {{26, 6}, {25, 1}, {24, 1}, {20, 4}, {16, 4}, {10, 5}, {5, 5}, {1, 4}, {0, 1}}},
    {UINT32_C(0x06) << 26, 0, {{25, 1}, {24, 1}, {20, 4}, {12, 8}, {5, 5}, {4, 1}, {1, 3}, {0, 1}}},
    {UINT32_C(0x07) << 26, 0, {{25, 1}, {24, 1}, {20, 4}}},
    {0, CLASS(0x11) | CLASS(0x12) | CLASS(0x15) | CLASS(0x16) | CLASS(0x17) | CLASS(0x38), {{26, 6}, {25, 1}, {0, 16}}},
    {UINT32_C(0x13) << 26, 0, {{25, 1}, {24, 1}, {20, 4}, {19, 1}}},
    {UINT32_C(0x20) << 26, 0, {{25, 1}, {11, 2}, {10, 1}, {9, 1}, {7, 1}, {0, 6}}},
    {UINT32_C(0x24) << 26,
     0,
     {{25, 1}, {24, 1}, {22, 2}, {21, 1}, {16, 5}, {15, 1}, {14, 1}, {11, 2}, {10, 1}, {9, 1}, {8, 1}, {7, 1}, {6, 1}, {0, 6}}},
    {0x22, CLASS(0x30) | CLASS(0x3a), {{26, 6}, {25, 1}}},
    {UINT32_C(0x32) << 26 | 0x22, 0, {{25, 1}, {24, 1}, {6, 1}}},
    {UINT32_C(0x34) << 26 | 0x22, 0, {{25, 1}, {8, 1}, {6, 1}}},
    {UINT32_C(0x2f) << 26, 0, {{25, 1}, {10, 3}, {9, 1}, {0, 6}}},
    {UINT32_C(0x18) << 26, 0, {{25, 1}, {20, 2}, {17, 3}, {14, 3}, {10, 4}, {5, 5}, {1, 4}, {0, 1}}},
};

/* Whether some edition has a record of AArch32, and its word. */
static bool word_of(const struct knucklepin_record *record, uint32_t *word)
{
    uint32_t made, kind = record->kind;
    if (kind > KNUCKLEPIN_KIND_SYSTEM || record->fields[14] != 0) return false;
    made = KINDS[kind].fixed;
    for (unsigned i = 0; i < 14; i++) {
        const struct place place = KINDS[kind].places[i];
        if (record->fields[i] >> place.width != 0) return false;
        made |= record->fields[i] << place.low;
    }
    if (KINDS[kind].classes != 0 && !bit(KINDS[kind].classes, made >> 26)) return false;
    *word = made;
    return head_refused(KNUCKLEPIN_AARCH32, made) == KNUCKLEPIN_TAKEN && word_editions(KNUCKLEPIN_AARCH32, made) != 0;
}

uint32_t plain_finish(struct knucklepin_state *state, const struct knucklepin_record *syndrome, uint32_t value, uint32_t *given)
{
    const struct knucklepin_data_abort *abort = &syndrome->data_abort;
    uint32_t word;
    *given = 0;
    if (!word_of(syndrome, &word)) return KNUCKLEPIN_NO_EDITION;
    if (!sound(state)) return KNUCKLEPIN_UNSOUND_STATUS;
    if (syndrome->kind != KNUCKLEPIN_KIND_DATA_ABORT || !abort->isv) return KNUCKLEPIN_NOT_DESCRIBED;
    if (abort->wnr) value = state->regs[abort->srt];
    if (abort->sas < 2) value &= (UINT32_C(0x100) << 8 * abort->sas) - 1;
    if (state->status & E) value = reversed(abort->sas, value);
    if (abort->wnr) {
        *given = value;
    } else {
        if (abort->sse) value = abort->sas == 0 ? (uint32_t)(int8_t)value : (uint32_t)(int16_t)value;
        state->regs[abort->srt] = value;
    }
    go_on(state, abort->il ? 4 : 2);
    return KNUCKLEPIN_TAKEN;
}

/* The place of register n of a mode, R0 to R14, among the 31. */
static unsigned held_in(uint32_t mode, unsigned n)
{
    if (mode == KNUCKLEPIN_MODE_FIQ && n >= 8) return n + 16;
    if (n < 13) return n;
    switch (mode) {
    case KNUCKLEPIN_MODE_IRQ:
        return n == 13 ? 17 : 16;
    case KNUCKLEPIN_MODE_SVC:
        return n == 13 ? 19 : 18;
    case KNUCKLEPIN_MODE_ABT:
        return n == 13 ? 21 : 20;
    case KNUCKLEPIN_MODE_UND:
        return n == 13 ? 23 : 22;
    default:
        return n;
    }
}

uint32_t plain_list_finish(struct knucklepin_state *state, uint32_t word, const struct knucklepin_list *values,
                           struct knucklepin_transfer *transfer, struct knucklepin_list *addresses, struct knucklepin_list *given)
{
    const uint32_t mode = state->status & 31, list = bits(word, 15, 0), rn = bits(word, 19, 16);
    const uint32_t bytes = 4 * (uint32_t)__builtin_popcount(list);
    const bool load = bit(word, 20), back = bit(word, 21), up = bit(word, 23), before = bit(word, 24), big = state->status & E;
    uint32_t at, i = 0, next = 0;
    bool branch = false;
    *transfer = (struct knucklepin_transfer){0, 0};
    memset(addresses, 0, sizeof *addresses);
    memset(given, 0, sizeof *given);
    if (!sound(state)) return KNUCKLEPIN_UNSOUND_STATUS;
    if (state->status & T) return KNUCKLEPIN_NO_FORM;
    if (bits(word, 31, 28) == 15 || bits(word, 27, 25) != 4 || bit(word, 22) || rn == 15 || list == 0) return KNUCKLEPIN_NO_FORM;
    if (load && back && bit(list, rn)) return KNUCKLEPIN_NO_FORM;
    uint32_t *const base = &state->regs[held_in(mode, rn)];
    const uint32_t after = up ? *base + bytes : *base - bytes;
    at = up ? *base : after;
    if (before == up) at += 4;
    if (load && back) *base = after;
    for (unsigned n = 0; n < 16; n++) {
        if (!bit(list, n)) continue;
        addresses->word[i] = at + 4 * i;
        if (load) {
            const uint32_t value = big ? __builtin_bswap32(values->word[i]) : values->word[i];
            if (n == 15) {
                branch = true;
                next = value;
            } else {
                state->regs[held_in(mode, n)] = value;
            }
        } else {
            const uint32_t value = n == 15 ? state->pc + 8 : state->regs[held_in(mode, n)];
            given->word[i] = big ? __builtin_bswap32(value) : value;
        }
        i++;
    }
    if (!load && back) *base = after;
    *transfer = (struct knucklepin_transfer){!load, i};
    go_on(state, 4);
    if (branch) {
        state->pc = bit(next, 0) ? next & ~UINT32_C(1) : next & ~UINT32_C(3);
        state->status = (state->status & ~(uint32_t)T) | (bit(next, 0) ? T : 0);
    }
    return KNUCKLEPIN_TAKEN;
}
