/* Pseudo-random questions to the calls, for c/sums.c and c/bench.c. No two numbers are drawn in one expression whose order the language
   leaves free: every machine draws the same. */
#ifndef QUESTIONS_H
#define QUESTIONS_H

#include "knucklepin.h"

#include <stdbool.h>
#include <stddef.h>
#include <string.h>

/* ---- pseudo-random numbers (splitmix64) */

static uint64_t seed;

static inline uint64_t any(void)
{
    uint64_t z = seed += UINT64_C(0x9e3779b97f4a7c15);
    z = (z ^ z >> 30) * UINT64_C(0xbf58476d1ce4e5b9);
    z = (z ^ z >> 27) * UINT64_C(0x94d049bb133111eb);
    return z ^ z >> 31;
}

static inline uint32_t any32(void)
{
    return (uint32_t)any();
}

static inline uint32_t below(uint32_t n)
{
    return (uint32_t)(any() >> 32) % n;
}

/* Once in n times. */
static inline bool seldom(uint32_t n)
{
    return below(n) == 0;
}

/* ---- questions */

/* A word of each class and of either form and origin, of which bits are turned over. */
static inline uint32_t syndrome(void)
{
    static const uint32_t WORDS[] = {0x02000000, 0x07e00001, 0x0fe00001, 0x13e01480, 0x17e00060, 0x1be00001, 0x1fe00000,
                                     0x23ee0001, 0x33e01481, 0x3a000000, 0x46000011, 0x4a000001, 0x4e000000, 0x4fe80000,
                                     0x56000000, 0x5a000001, 0x5e000000, 0x62300421, 0x82000005, 0x8a000000, 0x92000005,
                                     0x93830045, 0x93220005, 0x92001010, 0x92000018, 0xbe000000, 0xbe000011, 0xc2000022,
                                     0xca000022, 0xcb000022, 0xd2000022, 0xe2000001, 0xea000022, 0x93c2c047};
    uint32_t word = WORDS[below(sizeof WORDS / sizeof *WORDS)];
    if (seldom(8)) word = any32();
    if (seldom(2)) word = (word & ~UINT32_C(0x3f)) | below(64);
    for (uint32_t turns = below(3); turns > 0; turns--) word ^= UINT32_C(1) << below(32);
    return word;
}

static inline uint64_t wide_syndrome(void)
{
    uint64_t word = syndrome();
    if (seldom(64)) word |= any() << 32;
    return word;
}

/* A number below n, or any. */
static inline uint32_t mostly_below(uint32_t n)
{
    return seldom(32) ? any32() : below(n);
}

static inline uint32_t edition(void)
{
    return mostly_below(17);
}

static inline uint32_t short_edition(void)
{
    return mostly_below(3);
}

/* Some word of a record is another. */
static inline void changed(uint32_t *kind, uint32_t *fields)
{
    if (seldom(4)) {
        uint32_t place = below(15);
        fields[place] = mostly_below(33);
    }
    if (seldom(32)) *kind = mostly_below(16);
}

static inline struct knucklepin_record record(uint32_t origin)
{
    struct knucklepin_record record;
    struct knucklepin_editions editions;
    uint32_t number;
    do {
        const struct knucklepin_esr esr = {syndrome()};
        number = knucklepin_esr_read(origin, below(16), esr, &record, &editions);
    } while (number != KNUCKLEPIN_TAKEN);
    changed(&record.kind, record.fields);
    return record;
}

static inline struct knucklepin_short_record short_record(void)
{
    struct knucklepin_short_record record;
    struct knucklepin_editions editions;
    uint32_t number;
    do {
        const struct knucklepin_hsr hsr = {syndrome()};
        number = knucklepin_hsr_read(below(2), hsr, &record, &editions);
    } while (number != KNUCKLEPIN_TAKEN);
    changed(&record.kind, record.fields);
    return record;
}

static inline uint32_t mode(void)
{
    static const uint32_t MODES[] = {0x10, 0x11, 0x12, 0x13, 0x17, 0x1b, 0x1f};
    return seldom(16) ? below(32) : MODES[below(7)];
}

static inline uint32_t status(void)
{
    uint32_t word = any32();
    if (!seldom(16)) word &= 0xfe1fffe0;
    return (word & ~UINT32_C(31)) | mode();
}

static inline struct knucklepin_state state(void)
{
    uint32_t words[48];
    for (size_t i = 0; i < 48; i++) words[i] = any32();
    struct knucklepin_state state;
    memcpy(&state, words, sizeof state);
    state.pan = below(2);
    state.ssbs = below(2);
    state.dit = mostly_below(2);
    state.status = status();
    state.spsr_fiq = status();
    state.spsr_irq = status();
    state.spsr_svc = status();
    state.spsr_abt = status();
    state.spsr_und = status();
    if (!seldom(16)) state.vbar &= ~UINT32_C(31);
    return state;
}

/* A word of the A32 encodings among which loads and stores are, or any. */
static inline uint32_t instruction(void)
{
    static const uint32_t WORDS[] = {0xe5912004, 0xe7912003, 0xe59f2008, 0xe8b1000c, 0xe92d4010, 0xe1d120b4, 0xe1c120b4,
                                     0xe19120d3, 0xe1c120d8, 0xe1c120f8, 0xe5c12001, 0xe0112093, 0xe49d2004};
    uint32_t word = WORDS[below(sizeof WORDS / sizeof *WORDS)];
    uint32_t turned = any32();
    word ^= turned & 0x01e0ffff & any32();
    return seldom(8) ? any32() : word;
}

#endif
