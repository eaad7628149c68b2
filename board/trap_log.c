/* What the monitor saw, kept for the library's log writer. */
#include "board.h"

#define TRAPS 256

static uint8_t editions[16];
static struct knucklepin_esr esrs[TRAPS];
static struct knucklepin_far fars[TRAPS];
static struct knucklepin_hpfar hpfars[TRAPS];
static uint16_t injections[TRAPS];
static uint32_t edition_count, trap_count, injection_count;

/* Each edition once. */
void log_edition(uint32_t edition)
{
    for (uint32_t n = 0; n < edition_count; n++)
        if (editions[n] == edition)
            return;
    if (edition_count < sizeof editions)
        editions[edition_count++] = (uint8_t)edition;
}

void log_trap(struct knucklepin_esr esr, struct knucklepin_far far, struct knucklepin_hpfar hpfar)
{
    if (trap_count == TRAPS)
        stop("the log is full, traps", TRAPS);
    esrs[trap_count] = esr;
    fars[trap_count] = far;
    hpfars[trap_count++] = hpfar;
}

/* Its domain, in the upper byte, is 0: the monitor injects no fault that has one. */
void log_injection(uint32_t injection)
{
    if (injection_count < TRAPS)
        injections[injection_count++] = (uint16_t)injection;
}

void log_out(const char *name)
{
    static uint8_t bytes[65536];
    uint64_t length;
    uint32_t number = knucklepin_log_write(editions, edition_count, esrs, trap_count, fars, trap_count, hpfars, trap_count, injections,
                                           injection_count, bytes, sizeof bytes, &length);

    write_file(name, bytes, length);
    print("monitor: log of %u traps and %u injections, answer %u, %u bytes\n", trap_count, injection_count, number, (uint32_t)length);
}
