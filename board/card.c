/* The emulated card: 64 bytes, and at 0x40 its interrupt lines. */
#include "board.h"

#define BYTES 64
#define LINES 0x40

static uint8_t cells[BYTES];
static uint32_t lines;

void card_power_on(void)
{
    for (uint32_t n = 0; n < BYTES; n++)
        cells[n] = (uint8_t)(0x80 + n);
}

/* The card's bytes stand the lowest first; where it has none it gives 0, and takes what comes. */
uint32_t card_load(uint32_t offset, uint32_t bytes)
{
    uint32_t value = 0;

    for (uint32_t n = 0; n < bytes && offset + n < BYTES; n++)
        value |= (uint32_t)cells[offset + n] << 8 * n;
    return value;
}

void card_store(uint32_t offset, uint32_t bytes, uint32_t value)
{
    for (uint32_t n = 0; n < bytes && offset + n < BYTES; n++)
        cells[offset + n] = (uint8_t)(value >> 8 * n);
    if (offset == LINES)
        lines |= value;
}

/* The lines that were raised since the last call: bit 0 IRQ, bit 1 FIQ. */
uint32_t card_lines(void)
{
    uint32_t raised = lines;

    lines = 0;
    return raised;
}
