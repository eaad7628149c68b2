/* Six calls in plain C (c/plain.c), for .ci/bench: the same answers as the header's calls without plain_ in their names. */
#ifndef PLAIN_H
#define PLAIN_H

#include "knucklepin.h"

uint32_t plain_esr_read(uint32_t origin, uint32_t edition, struct knucklepin_esr esr, struct knucklepin_record *syndrome,
                        struct knucklepin_editions *editions);
uint32_t plain_trap_read(uint32_t origin, uint32_t edition, struct knucklepin_esr esr, struct knucklepin_far far,
                         struct knucklepin_hpfar hpfar, struct knucklepin_trap *trap, struct knucklepin_editions *editions);
uint32_t plain_inject(struct knucklepin_state *state, uint32_t injection, uint32_t fault, uint32_t level, uint64_t address, uint32_t write,
                      uint32_t domain);
uint32_t plain_deliver(struct knucklepin_state *state, struct knucklepin_pending *pending);
uint32_t plain_finish(struct knucklepin_state *state, const struct knucklepin_record *syndrome, uint32_t value, uint32_t *given);

/* Of lists alone: LDM and STM. Every other word is refused 19. */
uint32_t plain_list_finish(struct knucklepin_state *state, uint32_t word, const struct knucklepin_list *values,
                           struct knucklepin_transfer *transfer, struct knucklepin_list *addresses, struct knucklepin_list *given);

#endif
