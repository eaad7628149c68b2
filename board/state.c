/* The one place that moves the guest's registers into the library's state, and back. The AArch64 registers that hold them are those of the
   manual's architectural mapping; x has X0 to X30 as the guest left them. */
#include "board.h"
#include "system.h"

SYSTEM_REGISTER(ELR_EL2);
SYSTEM_REGISTER(SPSR_EL2);
SYSTEM_REGISTER(SPSR_fiq);
SYSTEM_REGISTER(SPSR_irq);
SYSTEM_REGISTER(SPSR_EL1);
SYSTEM_REGISTER(SPSR_abt);
SYSTEM_REGISTER(SPSR_und);
SYSTEM_REGISTER(ESR_EL1);
SYSTEM_REGISTER(IFSR32_EL2);
SYSTEM_REGISTER(FAR_EL1);
SYSTEM_REGISTER(SCTLR_EL1);
SYSTEM_REGISTER(VBAR_EL1);
SYSTEM_REGISTER(TCR_EL1);

void state_from_registers(struct knucklepin_state *state, const uint64_t x[31])
{
    uint64_t far = read_FAR_EL1();

    for (int n = 0; n < 31; n++)
        state->regs[n] = (uint32_t)x[n];
    state->pc = (uint32_t)read_ELR_EL2();
    if (knucklepin_from_spsr(state->pan, state->ssbs, state->dit, (uint32_t)read_SPSR_EL2(), &state->status) != KNUCKLEPIN_TAKEN)
        stop("no status word of a guest: SPSR_EL2", read_SPSR_EL2());
    state->spsr_fiq = (uint32_t)read_SPSR_fiq();
    state->spsr_irq = (uint32_t)read_SPSR_irq();
    state->spsr_svc = (uint32_t)read_SPSR_EL1();
    state->spsr_abt = (uint32_t)read_SPSR_abt();
    state->spsr_und = (uint32_t)read_SPSR_und();
    state->dfsr = (uint32_t)read_ESR_EL1();
    state->ifsr = (uint32_t)read_IFSR32_EL2();
    state->dfar = (uint32_t)far;
    state->ifar = (uint32_t)(far >> 32);
    state->sctlr = (uint32_t)read_SCTLR_EL1();
    state->vbar = (uint32_t)read_VBAR_EL1();
    state->ttbcr = (uint32_t)read_TCR_EL1();
}

void registers_from_state(const struct knucklepin_state *state, uint64_t x[31])
{
    uint32_t spsr;

    for (int n = 0; n < 31; n++)
        x[n] = state->regs[n];
    write_ELR_EL2(state->pc);
    if (knucklepin_to_spsr(state->pan, state->ssbs, state->dit, state->status, &spsr) != KNUCKLEPIN_TAKEN)
        stop("no status word of a guest", state->status);
    write_SPSR_EL2(spsr);
    write_SPSR_fiq(state->spsr_fiq);
    write_SPSR_irq(state->spsr_irq);
    write_SPSR_EL1(state->spsr_svc);
    write_SPSR_abt(state->spsr_abt);
    write_SPSR_und(state->spsr_und);
    write_ESR_EL1(state->dfsr);
    write_IFSR32_EL2(state->ifsr);
    write_FAR_EL1((uint64_t)state->ifar << 32 | state->dfar);
    write_SCTLR_EL1(state->sctlr);
    write_VBAR_EL1(state->vbar);
    write_TCR_EL1((read_TCR_EL1() & ~UINT64_C(0xFFFFFFFF)) | state->ttbcr); /* TTBCR2 is the upper half */
}
