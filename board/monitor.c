/* The monitor: at each trap of the guest it reads the trap, and goes on as the library says. */
#include "board.h"

/* Services of the monitor, by HVC's immediate; below SAY_LIMIT it says so many of the guest's registers. */
enum { SAY_LIMIT = 8, END = 0x100, EDITION = 0x101, RETURN = 0x102 };

static uint32_t edition;
static struct knucklepin_pending pending = {KNUCKLEPIN_EMPTY, 0};
static uint32_t actlr;
static const struct knucklepin_pair cntpct = {0x89ABCDEF, 0x01234567}; /* the guest's time stands still, so that each run is the same */

/* ---- what the run prints ---- */

static bool in_line;

/* What the monitor did, one thing after the other, until the guest says something. */
static void did(const char *format, ...)
{
    va_list values;

    print(in_line ? "; " : "monitor: ");
    in_line = true;
    va_start(values, format);
    print_list(format, values);
    va_end(values);
}

static void end_of_line(void)
{
    if (in_line)
        print("\n");
    in_line = false;
}

/* The text that the guest's r0 points to, as far as its page goes, and its registers from r1 on. */
static void guest_says(const struct knucklepin_state *state, uint32_t values)
{
    const char *from = guest_pointer(state->regs[0]);
    uint32_t room = PAGE - state->regs[0] % PAGE;
    char text[64];
    uint32_t n = 0;

    for (; from != NULL && n < room && n < sizeof text - 1 && from[n] != 0; n++)
        text[n] = from[n];
    text[n] = 0;
    end_of_line();
    print("guest: %s", text);
    for (n = 1; n <= values; n++)
        print(" %x", state->regs[n]);
    print("\n");
}

/* ---- the end of the run ---- */

static _Noreturn void end(uint32_t code)
{
    end_of_line();
    log_out("trap.log");
    leave(code);
}

_Noreturn void stop(const char *why, uint64_t number)
{
    did("stops, %s %x", why, (uint32_t)number);
    end(1);
}

/* A refusal where the guest's state and trap are what a chip makes. */
static void need(const char *call, uint32_t number)
{
    if (number != KNUCKLEPIN_TAKEN)
        stop(call, number);
}

/* ---- exceptions of the guest ---- */

static void excepted(struct knucklepin_state *state, uint32_t injection)
{
    need("inject", knucklepin_inject(state, injection, 0, 0, 0, 0, 0));
    log_injection(injection);
    did("injects %s, status %x", injection == KNUCKLEPIN_SUPERVISOR_CALL ? "supervisor call" : "undefined instruction", state->status);
}

/* The guest is told of an external abort: it has no tables that could have caused the fault. */
static void aborted(struct knucklepin_state *state, uint32_t injection, uint64_t address, uint32_t write)
{
    need("inject", knucklepin_inject(state, injection, KNUCKLEPIN_FAULT_EXTERNAL, 0, address, write, 0));
    log_injection(injection);
    did("injects %s abort at %x, status %x", injection == KNUCKLEPIN_DATA_ABORT ? "data" : "prefetch", (uint32_t)address,
        state->status);
}

static void deliver(struct knucklepin_state *state)
{
    static const char *const names[] = {"nothing", "virtual abort", "FIQ", "IRQ"};

    do {
        need("deliver", knucklepin_deliver(state, &pending));
        if (pending.delivered != 0)
            did("delivers %s, status %x", names[pending.delivered], state->status);
    } while (pending.delivered != 0);
}

/* ---- the card ---- */

static void raise_lines(void)
{
    uint32_t lines = card_lines();

    if (lines & 1)
        pending.queue = knucklepin_raise(pending.queue, KNUCKLEPIN_IRQ);
    if (lines & 2)
        pending.queue = knucklepin_raise(pending.queue, KNUCKLEPIN_FIQ);
}

/* The chip described the access. */
static void described_by_chip(struct knucklepin_state *state, const struct knucklepin_record *record, uint32_t offset)
{
    const struct knucklepin_data_abort *abort = &record->data_abort;
    uint32_t bytes = UINT32_C(1) << abort->sas;
    uint32_t value = abort->wnr ? 0 : card_load(offset, bytes);
    uint32_t given;

    need("finish", knucklepin_finish(state, record, value, &given));
    if (abort->wnr) {
        card_store(offset, bytes, given);
        did("store %u at %b, %x", bytes, offset, given);
    } else {
        did("%s %u at %b", abort->sse ? "signed load" : "load", bytes, offset);
    }
}

/* The instruction word describes it, if it is one of A32's loads and stores and stays within the card's page. An A32 word is aligned, and
   in T32 state none is described. */
static bool described_by_word(struct knucklepin_state *state, uint32_t address)
{
    const uint32_t *word = state->pc % 4 == 0 ? guest_pointer(state->pc) : NULL;
    uint32_t page = address & -PAGE;
    uint32_t offset, bytes;
    struct knucklepin_access access;
    struct knucklepin_transfer transfer;
    struct knucklepin_list registers, addresses, given, values = {{0}};

    if (word == NULL || knucklepin_a32_describe(state, *word, &access, &registers) != KNUCKLEPIN_TAKEN)
        return false;
    offset = access.address - page;
    bytes = UINT32_C(1) << access.sas;
    if (offset >= PAGE || offset + 4 * (access.count - 1) + bytes > PAGE)
        return false;
    for (uint32_t n = 0; n < access.count && access.load; n++)
        values.word[n] = card_load(offset + 4 * n, bytes);
    need("a32_finish", knucklepin_a32_finish(state, *word, &values, &transfer, &addresses, &given));
    for (uint32_t n = 0; n < transfer.count && transfer.store; n++)
        card_store(addresses.word[n] - page, bytes, given.word[n]);
    did("%x, %s %u x %u at %b", *word, access.load ? "load" : "store", access.count, bytes, offset);
    return true;
}

/* ---- trapped instructions ---- */

static void stepped_over(struct knucklepin_state *state, const struct knucklepin_record *record, const char *what)
{
    need("step_over", knucklepin_step_over(state, record));
    did("%s", what);
}

/* ACTLR; the guest has no other register among those that are trapped. */
static void one_register(struct knucklepin_state *state, const struct knucklepin_record *record)
{
    const struct knucklepin_mcr *mcr = &record->mcr;
    struct knucklepin_pair given;

    if (mcr->ec != 0x03 || mcr->opc1 != 0 || mcr->crn != 1 || mcr->crm != 0 || mcr->opc2 != 1) {
        excepted(state, KNUCKLEPIN_UNDEFINED_AT);
        return;
    }
    need("coprocessor_finish", knucklepin_coprocessor_finish(state, record, actlr, 0, &given));
    if (!mcr->direction)
        actlr = given.first;
    did("%s ACTLR %x", mcr->direction ? "MRC" : "MCR", actlr);
}

/* CNTPCT, which is read alone. */
static void two_registers(struct knucklepin_state *state, const struct knucklepin_record *record)
{
    const struct knucklepin_mcrr *mcrr = &record->mcrr;
    struct knucklepin_pair given;

    if (mcrr->ec != 0x04 || mcrr->opc1 != 0 || mcrr->crm != 14 || !mcrr->direction) {
        excepted(state, KNUCKLEPIN_UNDEFINED_AT);
        return;
    }
    need("coprocessor_finish", knucklepin_coprocessor_finish(state, record, cntpct.first, cntpct.second, &given));
    did("MRRC CNTPCT %x %x", cntpct.first, cntpct.second);
}

static void serve(struct knucklepin_state *state, uint32_t service)
{
    uint32_t chosen = state->regs[1];

    if (service < SAY_LIMIT) {
        guest_says(state, service);
    } else if (service == END) {
        end(0);
    } else if (service == EDITION) {
        state->regs[1] = edition;
        edition = chosen;
        log_edition(edition);
        did("reads by edition %u", edition);
    } else if (service == RETURN) {
        need("resume", knucklepin_resume(state, chosen));
        did("returns, status %x", state->status);
    } else {
        excepted(state, KNUCKLEPIN_UNDEFINED_AFTER);
    }
}

/* PC is past an HVC, and past an SVC. */
static void called(struct knucklepin_state *state, const struct knucklepin_call *call)
{
    if (call->ec == 0x12)
        serve(state, call->imm16);
    else
        excepted(state, call->ec == 0x11 ? KNUCKLEPIN_SUPERVISOR_CALL : KNUCKLEPIN_UNDEFINED_AT);
}

static void data_abort(struct knucklepin_state *state, const struct knucklepin_trap *trap)
{
    const struct knucklepin_data_abort *abort = &trap->syndrome.data_abort;
    const struct knucklepin_addresses *at = &trap->addresses;
    bool card = trap->known.intermediate_known == KNUCKLEPIN_BYTE && (at->intermediate_address & -(uint64_t)PAGE) == CARD;

    if (card && abort->cm)
        stepped_over(state, &trap->syndrome, "cache maintenance");
    else if (card && abort->isv)
        described_by_chip(state, &trap->syndrome, (uint32_t)at->intermediate_address % PAGE);
    else if (!card || !described_by_word(state, (uint32_t)at->virtual_address))
        aborted(state, KNUCKLEPIN_DATA_ABORT, at->virtual_address, abort->wnr);
    raise_lines();
}

/* ---- a trap ---- */

/* Reads the trap by the chosen edition. One that this edition hasn't, and others have, is shown with them and read by the first of them. */
static void read_trap(struct knucklepin_trap *trap)
{
    struct knucklepin_esr esr = esr_register();
    struct knucklepin_far far = far_register();
    struct knucklepin_hpfar hpfar = hpfar_register();
    struct knucklepin_editions editions;
    uint32_t number = knucklepin_trap_read(KNUCKLEPIN_AARCH32, edition, esr, far, hpfar, trap, &editions);

    if (number == KNUCKLEPIN_OTHER_EDITIONS) {
        uint32_t first = (uint32_t)__builtin_ctz(editions.mask);

        did("%x refused %u in edition %u, %u editions have it:", (uint32_t)esr.word, number, edition, editions.count);
        for (uint32_t n = first; n < 16; n++)
            if (editions.mask >> n & 1)
                print(" %u", n);
        log_edition(first);
        number = knucklepin_trap_read(KNUCKLEPIN_AARCH32, first, esr, far, hpfar, trap, &editions);
    }
    /* An address register that tells nothing is UNKNOWN, and isn't kept. */
    if (number == KNUCKLEPIN_TAKEN && !trap->known.virtual_known)
        far.word = 0;
    if (number == KNUCKLEPIN_TAKEN && trap->known.intermediate_known == KNUCKLEPIN_NO_ADDRESS)
        hpfar.word = 0;
    log_trap(esr, far, hpfar);
    need("trap_read", number);
}

/* Kinds that the monitor has no answer for, SMC and floating point among them, are undefined instructions to the guest. */
static void answer(struct knucklepin_state *state)
{
    struct knucklepin_trap trap;
    const struct knucklepin_record *record = &trap.syndrome;

    read_trap(&trap);
    if (!knucklepin_passes(state->status, record)) {
        stepped_over(state, record, "a condition failed");
        return;
    }
    switch (record->kind) {
    case KNUCKLEPIN_KIND_PLAIN:
        if (record->plain.ec == 0x22)
            aborted(state, KNUCKLEPIN_PREFETCH_ABORT, trap.addresses.virtual_address, 0);
        else
            excepted(state, KNUCKLEPIN_UNDEFINED_AT);
        break;
    case KNUCKLEPIN_KIND_WFX:
        stepped_over(state, record, record->wfx.ti ? "WFE" : "WFI");
        break;
    case KNUCKLEPIN_KIND_MCR:
        one_register(state, record);
        break;
    case KNUCKLEPIN_KIND_MCRR:
        two_registers(state, record);
        break;
    case KNUCKLEPIN_KIND_CALL:
        called(state, &record->call);
        break;
    case KNUCKLEPIN_KIND_INSTRUCTION_ABORT:
        aborted(state, KNUCKLEPIN_PREFETCH_ABORT, trap.addresses.virtual_address, 0);
        break;
    case KNUCKLEPIN_KIND_DATA_ABORT:
        data_abort(state, &trap);
        break;
    default:
        excepted(state, KNUCKLEPIN_UNDEFINED_AT);
    }
}

_Noreturn void unexpected(void)
{
    stop("an exception that isn't the guest's, ESR_EL2", esr_register().word);
}

/* The guest begins in Supervisor mode with everything masked. SCTLR has the bits that are 1 by the manual, stage 1 is off. */
_Noreturn void monitor(void)
{
    struct knucklepin_state state = {.pc = GUEST, .status = 0x1D3, .sctlr = 0x00C50838};
    uint64_t x[31];

    edition = chip_edition();
    log_edition(edition);
    chip_marks(&state);
    print("monitor: edition %u, PAN %u, SSBS %u, DIT %u\n", edition, state.pan, state.ssbs, state.dit);
    card_power_on();
    trap_the_guest();
    for (;;) {
        registers_from_state(&state, x);
        enter(x);
        state_from_registers(&state, x);
        answer(&state);
        deliver(&state);
    }
}
