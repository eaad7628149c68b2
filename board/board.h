/* What the parts of the monitor share. */
#ifndef BOARD_H
#define BOARD_H

#include <stdarg.h>
#include <stdbool.h>
#include <stddef.h>
#include <stdint.h>

#include "knucklepin.h"

/* Intermediate addresses: the guest's memory, the card's page above it, and a place whose table of stage 2 lies outside memory. */
#define PAGE UINT32_C(0x1000)
#define GUEST UINT32_C(0x09FFC000)
#define GUEST_PAGES 4
#define CARD UINT32_C(0x0A000000)
#define NO_TABLE UINT32_C(0x0C000000)

/* start.S */
extern uint8_t guest_memory[GUEST_PAGES * PAGE];
void enter(uint64_t x[31]);

/* state.c */
void state_from_registers(struct knucklepin_state *state, const uint64_t x[31]);
void registers_from_state(const struct knucklepin_state *state, uint64_t x[31]);

/* chip.c */
uint32_t chip_edition(void);
void chip_marks(struct knucklepin_state *state);
struct knucklepin_esr esr_register(void);
struct knucklepin_far far_register(void);
struct knucklepin_hpfar hpfar_register(void);
void trap_the_guest(void);
const void *guest_pointer(uint32_t address);

/* card.c */
void card_power_on(void);
uint32_t card_load(uint32_t offset, uint32_t bytes);
void card_store(uint32_t offset, uint32_t bytes, uint32_t value);
uint32_t card_lines(void);

/* trap_log.c */
void log_edition(uint32_t edition);
void log_trap(struct knucklepin_esr esr, struct knucklepin_far far, struct knucklepin_hpfar hpfar);
void log_injection(uint32_t injection);
void log_out(const char *name);

/* host.c */
void print(const char *format, ...);
void print_list(const char *format, va_list values);
void write_file(const char *name, const void *bytes, uint64_t length);
_Noreturn void leave(uint32_t code);

/* monitor.c */
_Noreturn void stop(const char *why, uint64_t number);

#endif
