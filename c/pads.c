/* Makes calls of the library by a register, in a program whose pages are guarded: each must land on a pad (BTI), or the program ends by a
   fault. It has no C library, whose own code has no pads. With PADLESS it makes a call of its own without one. */
#include "knucklepin.h"

void _start(void);

static _Noreturn void leave(long status)
{
    register long number __asm__("x8") = 93;
    register long first __asm__("x0") = status;
    for (;;) __asm__ volatile("svc 0" : : "r"(number), "r"(first) : "memory");
}

#ifdef PADLESS
__attribute__((noinline)) static uint32_t padless(uint32_t mode, uint32_t number)
{
    return mode + number;
}
#endif

void _start(void)
{
    uint32_t (*volatile held_in)(uint32_t, uint32_t) = knucklepin_held_in;
    uint32_t (*volatile inject)(struct knucklepin_state *, uint32_t, uint32_t, uint32_t, uint64_t, uint32_t, uint32_t) = knucklepin_inject;
    uint64_t (*volatile read)(uint32_t, uint64_t) = knucklepin_read;
    struct knucklepin_state state = {.pc = 0x8000, .status = 0x10, .vbar = 0x1000};
    long wrong = 0;
#ifdef PADLESS
    held_in = padless;
#endif
    wrong += held_in(KNUCKLEPIN_MODE_SVC, 13) != 19;
    wrong += inject(&state, KNUCKLEPIN_UNDEFINED_AT, 0, 0, 0, 0, 0) != KNUCKLEPIN_TAKEN;
    wrong += state.status != 0x9b || state.regs[22] != 0x8004 || state.pc != 0x1004;
    wrong += read(0, 0x92000005) != 0;
    leave(wrong);
}
