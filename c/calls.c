/* Makes every call of include/knucklepin.h, on questions whose answers were worked out by hand from the papers, and on numbers that mean
   nothing, which are answered too. Prints each answer that is another, and ends with status 1 where there is one. */
#include "knucklepin.h"

#include <inttypes.h>
#include <stdbool.h>
#include <stdio.h>
#include <string.h>

static unsigned checks, wrong;

static void check(bool holds, const char *what, int line, uint32_t word)
{
    checks++;
    if (!holds) {
        wrong++;
        printf("calls.c:%d: not so: %s (0x%08" PRIx32 ")\n", line, what, word);
    }
}

#define CHECK(...) check(__VA_ARGS__, #__VA_ARGS__, __LINE__, 0)
/* The same of a table's row, which a word tells. */
#define CHECK_AT(holds, word) check(holds, #holds, __LINE__, word)
#define SAME(a, b) (memcmp(&(a), &(b), sizeof(a)) == 0)

/* What a call writes holds other numbers before it. */
#define UNWRITTEN(place) memset(&(place), 0xa5, sizeof(place))

static bool zeros(const void *place, size_t size)
{
    const unsigned char *byte = place;
    for (size_t i = 0; i < size; i++) {
        if (byte[i] != 0) return false;
    }
    return true;
}

#define ZEROS(place) zeros(&(place), sizeof(place))

static const uint64_t NONE = UINT64_MAX;

/* The masks of document 01's cases over sixteen editions (C-16): RAS is 1, LPA2 2, HAFDBS 4, LPA 8. */
enum { WITHOUT_RAS = 0x5555, WITH_RAS = 0xaaaa, LPA2_WITHOUT_RAS = 0x4444, WITH_HAFDBS = 0xf0f0 };

/* ---- words and records. Those that are written out here have static storage, in which the words after the fields are 0. */

static uint32_t esr_read(uint32_t origin, uint32_t edition, uint64_t word, struct knucklepin_record *record,
                         struct knucklepin_editions *editions)
{
    const struct knucklepin_esr esr = {word};
    UNWRITTEN(*record);
    UNWRITTEN(*editions);
    return knucklepin_esr_read(origin, edition, esr, record, editions);
}

static bool reads(uint32_t edition, uint64_t word, uint32_t number, uint32_t mask, uint32_t count)
{
    struct knucklepin_record record;
    struct knucklepin_editions editions;
    uint32_t answer = esr_read(KNUCKLEPIN_AARCH32, edition, word, &record, &editions);
    uint64_t packed = knucklepin_read(edition, word);
    return answer == number && editions.mask == mask && editions.count == count && (number == 0 || ZEROS(record)) &&
           packed == number + ((uint64_t)mask << 8) + ((uint64_t)count << 24);
}

static uint32_t esr_write(uint32_t origin, uint32_t edition, const struct knucklepin_record *record, struct knucklepin_esr *esr,
                          struct knucklepin_editions *editions)
{
    UNWRITTEN(*esr);
    UNWRITTEN(*editions);
    return knucklepin_esr_write(origin, edition, record, esr, editions);
}

/* Whether a record is refused, with nothing but the number. */
static bool unwritten(uint32_t edition, const struct knucklepin_record *record, uint32_t number)
{
    struct knucklepin_esr esr;
    struct knucklepin_editions editions;
    return esr_write(KNUCKLEPIN_AARCH32, edition, record, &esr, &editions) == number && ZEROS(esr) && ZEROS(editions);
}

/* The record of a word from AArch32 that edition 0 has. */
static struct knucklepin_record record_of(uint64_t word)
{
    struct knucklepin_record record;
    struct knucklepin_editions editions;
    CHECK(esr_read(KNUCKLEPIN_AARCH32, 0, word, &record, &editions) == 0);
    return record;
}

/* Words that are no record: a kind that there is none of, a flag above 1, and a word after the fields. */
static struct knucklepin_record no_record(int which)
{
    static const struct knucklepin_record wfe = {.kind = KNUCKLEPIN_KIND_WFX, .wfx = {.il = 1, .cv = 1, .cond = 0xe, .ti = 1}};
    struct knucklepin_record record = wfe;
    switch (which) {
    case 0: record.kind = 15; break;
    case 1: record.kind = 0xffffffff; break;
    case 2: record.wfx.il = 2; break;
    case 3: record.fields[4] = 1; break;
    default: record.fields[14] = 0x80000000; break;
    }
    return record;
}

enum { NO_RECORDS = 5 };

static void words(void)
{
    struct knucklepin_record record;
    struct knucklepin_editions editions;
    struct knucklepin_esr esr;

    CHECK(reads(0, 0x02000000, KNUCKLEPIN_TAKEN, 0, 0));
    CHECK(reads(0, 0x00000000, KNUCKLEPIN_SHORT_INSTRUCTION, 0, 0));
    CHECK(reads(0, 0x07f00000, KNUCKLEPIN_NO_EDITION, 0, 0));
    CHECK(reads(0, 0x5a000000, KNUCKLEPIN_UNKNOWN_CLASS, 0, 0));
    CHECK(reads(0, 0x192000005, KNUCKLEPIN_UPPER_HALF, 0, 0));
    CHECK(reads(1, 0x92000018, KNUCKLEPIN_OTHER_EDITIONS, WITHOUT_RAS, 8));
    CHECK(reads(7, 0x9200001b, KNUCKLEPIN_OTHER_EDITIONS, LPA2_WITHOUT_RAS, 4));
    CHECK(reads(3, 0x92000031, KNUCKLEPIN_OTHER_EDITIONS, WITH_HAFDBS, 8));
    CHECK(reads(0, 0x92001010, KNUCKLEPIN_OTHER_EDITIONS, WITH_RAS, 8));
    CHECK(reads(0, 0x92000810, KNUCKLEPIN_NO_EDITION, 0, 0));
    CHECK(reads(KNUCKLEPIN_LPA | KNUCKLEPIN_LPA2, 0x92000018, KNUCKLEPIN_TAKEN, 0, 0));
    CHECK(reads(KNUCKLEPIN_LPA2, 0x9200001b, KNUCKLEPIN_TAKEN, 0, 0));
    CHECK(reads(KNUCKLEPIN_HAFDBS, 0x92000031, KNUCKLEPIN_TAKEN, 0, 0));
    CHECK(reads(KNUCKLEPIN_HAFDBS, 0x92000018, KNUCKLEPIN_TAKEN, 0, 0));
    CHECK(reads(KNUCKLEPIN_RAS, 0x92001010, KNUCKLEPIN_TAKEN, 0, 0));
    CHECK(reads(15, 0x02000000, KNUCKLEPIN_TAKEN, 0, 0));
    CHECK(reads(16, 0x02000000, KNUCKLEPIN_UNKNOWN_EDITION, 0, 0));
    CHECK(reads(0xffffffff, UINT64_MAX, KNUCKLEPIN_UNKNOWN_EDITION, 0, 0));

    /* 0x93830045: a word store, register 3, translation fault of level 1. */
    CHECK(esr_read(KNUCKLEPIN_AARCH32, 0, 0x93830045, &record, &editions) == 0);
    static const struct knucklepin_record store = {.kind = KNUCKLEPIN_KIND_DATA_ABORT,
                                                   .data_abort = {.il = 1, .isv = 1, .sas = 2, .srt = 3, .wnr = 1, .fsc = 5}};
    CHECK(SAME(record, store));
    CHECK(ZEROS(editions));
    CHECK(esr_write(KNUCKLEPIN_AARCH32, 0, &store, &esr, &editions) == 0);
    CHECK(esr.word == 0x93830045 && ZEROS(editions));
    CHECK(knucklepin_rewrite(0, 15, 0x93830045) == 0x93830045);
    CHECK(knucklepin_rewrite(0, 1, 0x92000018) == NONE);
    CHECK(knucklepin_rewrite(16, 0, 0x93830045) == NONE);

    /* 0x0FE00001: MRC p15, read into register 0. 0x07E00001: WFE. 0x4A000001: HVC 1. */
    static const struct knucklepin_record mrc = {.kind = KNUCKLEPIN_KIND_MCR,
                                                 .mcr = {.ec = 0x03, .il = 1, .cv = 1, .cond = 0xe, .direction = 1}};
    static const struct knucklepin_record wfe = {.kind = KNUCKLEPIN_KIND_WFX, .wfx = {.il = 1, .cv = 1, .cond = 0xe, .ti = 1}};
    static const struct knucklepin_record hvc = {.kind = KNUCKLEPIN_KIND_CALL, .call = {.ec = 0x12, .il = 1, .imm16 = 1}};
    record = record_of(0x0fe00001);
    CHECK(SAME(record, mrc));
    record = record_of(0x07e00001);
    CHECK(SAME(record, wfe));
    record = record_of(0x4a000001);
    CHECK(SAME(record, hvc));

    /* Class 0x18 from AArch64, by C-23: a read of Op0 3, Op1 0, CRn 1, CRm 0, Op2 0 into register 1. Any origin but 0 is AArch64. */
    static const struct knucklepin_record mrs = {.kind = KNUCKLEPIN_KIND_SYSTEM,
                                                 .system = {.il = 1, .op0 = 3, .crn = 1, .rt = 1, .direction = 1}};
    CHECK(esr_read(KNUCKLEPIN_AARCH64, 0, 0x62300421, &record, &editions) == 0);
    CHECK(SAME(record, mrs));
    CHECK(esr_read(0xffffffff, 0, 0x62300421, &record, &editions) == 0);
    CHECK(SAME(record, mrs));
    CHECK(esr_read(KNUCKLEPIN_AARCH32, 0, 0x62300421, &record, &editions) == KNUCKLEPIN_UNKNOWN_CLASS);
    CHECK(esr_write(77, 0, &mrs, &esr, &editions) == 0 && esr.word == 0x62300421);
    CHECK(knucklepin_aarch64_read(0, 0x62300421) == 0);
    CHECK(knucklepin_aarch64_read(0, 0x0fe00001) == KNUCKLEPIN_UNKNOWN_CLASS);
    CHECK(knucklepin_aarch64_read(16, 0) == KNUCKLEPIN_UNKNOWN_EDITION);
    CHECK(knucklepin_aarch64_rewrite(0, 8, 0x62300421) == 0x62300421);
    CHECK(knucklepin_aarch64_rewrite(0, 16, 0x62300421) == NONE);

    /* Records that are refused. */
    record = store;
    record.data_abort.isv = 0;
    record.data_abort.sas = 0;
    record.data_abort.srt = 0;
    record.data_abort.il = 0;
    CHECK(unwritten(0, &record, KNUCKLEPIN_SHORT_INSTRUCTION));
    record.data_abort.il = 1;
    record.data_abort.wnr = 0;
    record.data_abort.fsc = 0x18;
    CHECK(esr_write(KNUCKLEPIN_AARCH32, 1, &record, &esr, &editions) == KNUCKLEPIN_OTHER_EDITIONS);
    CHECK(editions.mask == WITHOUT_RAS && editions.count == 8 && ZEROS(esr));
    record.data_abort.fsc = 0x40000018;
    CHECK(unwritten(0, &record, KNUCKLEPIN_NO_EDITION));
    for (int which = 0; which < NO_RECORDS; which++) {
        record = no_record(which);
        CHECK(unwritten(0, &record, KNUCKLEPIN_NO_EDITION));
        CHECK(unwritten(16, &record, KNUCKLEPIN_UNKNOWN_EDITION));
    }
}

static void short_words(void)
{
    struct knucklepin_short_record record;
    struct knucklepin_record wide;
    struct knucklepin_editions editions;
    struct knucklepin_hsr hsr = {0x93830045};

    /* The same store in the short form, where SRT is 19:16. */
    static const struct knucklepin_short_record store = {.kind = KNUCKLEPIN_KIND_DATA_ABORT,
                                                         .data_abort = {.il = 1, .isv = 1, .sas = 2, .srt = 3, .wnr = 1, .fsc = 5}};
    UNWRITTEN(record);
    UNWRITTEN(editions);
    CHECK(knucklepin_hsr_read(0, hsr, &record, &editions) == 0);
    CHECK(SAME(record, store) && ZEROS(editions));
    UNWRITTEN(hsr);
    UNWRITTEN(editions);
    CHECK(knucklepin_hsr_write(1, &store, &hsr, &editions) == 0);
    CHECK(hsr.word == 0x93830045 && ZEROS(editions));
    CHECK(knucklepin_short_read(0, 0x93830045) == 0);
    CHECK(knucklepin_short_rewrite(0, 1, 0x93830045) == 0x93830045);

    /* Short editions are 0 and 1; class 0x16 is none of the short form's. */
    UNWRITTEN(record);
    UNWRITTEN(editions);
    CHECK(knucklepin_hsr_read(2, hsr, &record, &editions) == KNUCKLEPIN_UNKNOWN_EDITION);
    CHECK(ZEROS(record) && ZEROS(editions));
    hsr.word = 0x5a000000;
    CHECK(knucklepin_hsr_read(0, hsr, &record, &editions) == KNUCKLEPIN_UNKNOWN_CLASS);
    CHECK(knucklepin_short_read(0, 0x5a000000) == KNUCKLEPIN_UNKNOWN_CLASS);
    CHECK(knucklepin_short_read(0xffffffff, 0) == KNUCKLEPIN_UNKNOWN_EDITION);
    CHECK(knucklepin_short_rewrite(0, 2, 0x93830045) == NONE);
    UNWRITTEN(hsr);
    UNWRITTEN(editions);
    CHECK(knucklepin_hsr_write(2, &store, &hsr, &editions) == KNUCKLEPIN_UNKNOWN_EDITION);
    CHECK(ZEROS(hsr) && ZEROS(editions));

    /* A kind that the short form lacks, a flag above 1. */
    record = store;
    record.kind = KNUCKLEPIN_KIND_DEBUG;
    CHECK(knucklepin_hsr_write(0, &record, &hsr, &editions) == KNUCKLEPIN_NO_EDITION);
    record = store;
    record.data_abort.wnr = 2;
    CHECK(knucklepin_hsr_write(0, &record, &hsr, &editions) == KNUCKLEPIN_NO_EDITION);
    UNWRITTEN(wide);
    CHECK(knucklepin_widen(KNUCKLEPIN_MODE_SVC, &record, &wide) == KNUCKLEPIN_NO_EDITION);
    CHECK(ZEROS(wide));

    /* Register 14 of Supervisor mode is number 18 of AArch64's, register 13 of IRQ mode 17; a known register 15 is refused. */
    static struct knucklepin_record expected = {.kind = KNUCKLEPIN_KIND_DATA_ABORT,
                                                .data_abort = {.il = 1, .isv = 1, .sas = 2, .srt = 18, .wnr = 1, .fsc = 5}};
    record = store;
    record.data_abort.srt = 14;
    UNWRITTEN(wide);
    CHECK(knucklepin_widen(KNUCKLEPIN_MODE_SVC, &record, &wide) == 0);
    CHECK(SAME(wide, expected));
    record.data_abort.srt = 13;
    expected.data_abort.srt = 17;
    CHECK(knucklepin_widen(KNUCKLEPIN_MODE_IRQ, &record, &wide) == 0);
    CHECK(SAME(wide, expected));
    record.data_abort.srt = 15;
    CHECK(knucklepin_widen(KNUCKLEPIN_MODE_IRQ, &record, &wide) == KNUCKLEPIN_NO_EDITION);
    CHECK(knucklepin_widen(0x1a, &record, &wide) == KNUCKLEPIN_UNSOUND_STATUS);
    CHECK(knucklepin_widen(0xffffffff, &store, &wide) == KNUCKLEPIN_UNSOUND_STATUS);
    CHECK(ZEROS(wide));
}

/* Nothing but zeros between what may pad the struct. */
static bool no_trap(const struct knucklepin_trap *trap)
{
    return ZEROS(trap->syndrome) && ZEROS(trap->known) && ZEROS(trap->addresses);
}

/* Each kind's fields by their names: no two of a kind are alike in all of its words here. */
static const struct {
    uint32_t origin, edition, word;
    struct knucklepin_record record;
} LONG[] = {
    /* origin, edition, word, and the record by the layout lines of 01, C-20 and C-23 */
    {0, 0, 0x02000000, {.kind = KNUCKLEPIN_KIND_PLAIN, .plain = {.ec = 0x00, .il = 1}}},
    {0, 0, 0x8a000000, {.kind = KNUCKLEPIN_KIND_PLAIN, .plain = {.ec = 0x22, .il = 1}}},
    {0, 0, 0x05b00001, {.kind = KNUCKLEPIN_KIND_WFX, .wfx = {.il = 0, .cv = 1, .cond = 0xb, .ti = 1}}},
    {0, 0, 0x06500001, {.kind = KNUCKLEPIN_KIND_WFX, .wfx = {.il = 1, .cv = 0, .cond = 0x5, .ti = 1}}},
    {0,
     0,
     0x17b28c8a,
     {.kind = KNUCKLEPIN_KIND_MCR, .mcr = {.ec = 0x05, .il = 1, .cv = 1, .cond = 0xb, .opc2 = 1, .opc1 = 2, .crn = 3, .rt = 4, .crm = 5}}},
    {0,
     0,
     0x0e528c8b,
     {.kind = KNUCKLEPIN_KIND_MCR,
      .mcr = {.ec = 0x03, .il = 1, .cond = 0x5, .opc2 = 1, .opc1 = 2, .crn = 3, .rt = 4, .crm = 5, .direction = 1}}},
    {0,
     0,
     0x13b10868,
     {.kind = KNUCKLEPIN_KIND_MCRR, .mcrr = {.ec = 0x04, .il = 1, .cv = 1, .cond = 0xb, .opc1 = 1, .rt2 = 2, .rt = 3, .crm = 4}}},
    {0,
     0,
     0x32510869,
     {.kind = KNUCKLEPIN_KIND_MCRR, .mcrr = {.ec = 0x0c, .il = 1, .cond = 0x5, .opc1 = 1, .rt2 = 2, .rt = 3, .crm = 4, .direction = 1}}},
    {0, 0, 0x1bb5a064, {.kind = KNUCKLEPIN_KIND_LDC, .ldc = {.il = 1, .cv = 1, .cond = 0xb, .imm8 = 0x5a, .rn = 3, .am = 2}}},
    {0,
     0,
     0x1a55a075,
     {.kind = KNUCKLEPIN_KIND_LDC, .ldc = {.il = 1, .cond = 0x5, .imm8 = 0x5a, .rn = 3, .offset = 1, .am = 2, .direction = 1}}},
    {0, 0, 0x1bb5a074, {.kind = KNUCKLEPIN_KIND_LDC, .ldc = {.il = 1, .cv = 1, .cond = 0xb, .imm8 = 0x5a, .rn = 3, .offset = 1, .am = 2}}},
    {0, 0, 0x1fb00000, {.kind = KNUCKLEPIN_KIND_SIMD, .simd = {.il = 1, .cv = 1, .cond = 0xb}}},
    {0, 0, 0x1e500000, {.kind = KNUCKLEPIN_KIND_SIMD, .simd = {.il = 1, .cv = 0, .cond = 0x5}}},
    {0, 0, 0x44000012, {.kind = KNUCKLEPIN_KIND_CALL, .call = {.ec = 0x11, .il = 0, .imm16 = 0x12}}},
    {0, 0, 0xe2000034, {.kind = KNUCKLEPIN_KIND_CALL, .call = {.ec = 0x38, .il = 1, .imm16 = 0x34}}},
    {1, 0, 0x5e001234, {.kind = KNUCKLEPIN_KIND_CALL, .call = {.ec = 0x17, .il = 1, .imm16 = 0x1234}}},
    {0, 0, 0x4fb80000, {.kind = KNUCKLEPIN_KIND_SMC, .smc = {.il = 1, .cv = 1, .cond = 0xb, .ccknownpass = 1}}},
    {0, 0, 0x4e580000, {.kind = KNUCKLEPIN_KIND_SMC, .smc = {.il = 1, .cv = 0, .cond = 0x5, .ccknownpass = 1}}},
    {0, 0, 0x4e000000, {.kind = KNUCKLEPIN_KIND_SMC, .smc = {.il = 1}}},
    {0, 1, 0x82001010, {.kind = KNUCKLEPIN_KIND_INSTRUCTION_ABORT, .instruction_abort = {.il = 1, .set = 2, .fsc = 0x10}}},
    {0, 0, 0x82000410, {.kind = KNUCKLEPIN_KIND_INSTRUCTION_ABORT, .instruction_abort = {.il = 1, .fnv = 1, .fsc = 0x10}}},
    {0, 0, 0x82000210, {.kind = KNUCKLEPIN_KIND_INSTRUCTION_ABORT, .instruction_abort = {.il = 1, .ea = 1, .fsc = 0x10}}},
    {0, 0, 0x82000085, {.kind = KNUCKLEPIN_KIND_INSTRUCTION_ABORT, .instruction_abort = {.il = 1, .s1ptw = 1, .fsc = 0x05}}},
    {0, 0, 0x91830005, {.kind = KNUCKLEPIN_KIND_DATA_ABORT, .data_abort = {.il = 0, .isv = 1, .sas = 2, .srt = 3, .fsc = 0x05}}},
    {0, 0, 0x93220005, {.kind = KNUCKLEPIN_KIND_DATA_ABORT, .data_abort = {.il = 1, .isv = 1, .sse = 1, .srt = 2, .fsc = 0x05}}},
    {1, 0, 0x93c28005, {.kind = KNUCKLEPIN_KIND_DATA_ABORT, .data_abort = {.il = 1, .isv = 1, .sas = 3, .srt = 2, .sf = 1, .fsc = 0x05}}},
    {0, 0, 0x93824005, {.kind = KNUCKLEPIN_KIND_DATA_ABORT, .data_abort = {.il = 1, .isv = 1, .sas = 2, .srt = 2, .ar = 1, .fsc = 0x05}}},
    {0, 1, 0x92001010, {.kind = KNUCKLEPIN_KIND_DATA_ABORT, .data_abort = {.il = 1, .set = 2, .fsc = 0x10}}},
    {0, 0, 0x92000410, {.kind = KNUCKLEPIN_KIND_DATA_ABORT, .data_abort = {.il = 1, .fnv = 1, .fsc = 0x10}}},
    {0, 0, 0x92000210, {.kind = KNUCKLEPIN_KIND_DATA_ABORT, .data_abort = {.il = 1, .ea = 1, .fsc = 0x10}}},
    {0, 0, 0x92000145, {.kind = KNUCKLEPIN_KIND_DATA_ABORT, .data_abort = {.il = 1, .cm = 1, .wnr = 1, .fsc = 0x05}}},
    {0, 0, 0x92000085, {.kind = KNUCKLEPIN_KIND_DATA_ABORT, .data_abort = {.il = 1, .s1ptw = 1, .fsc = 0x05}}},
    {0, 0, 0x92000045, {.kind = KNUCKLEPIN_KIND_DATA_ABORT, .data_abort = {.il = 1, .wnr = 1, .fsc = 0x05}}},
    {0, 0, 0xc2000022, {.kind = KNUCKLEPIN_KIND_DEBUG, .debug = {.ec = 0x30, .il = 1}}},
    {0, 0, 0xcb000022, {.kind = KNUCKLEPIN_KIND_STEP, .step = {.il = 1, .isv = 1, .ex = 0}}},
    {0, 0, 0xca000022, {.kind = KNUCKLEPIN_KIND_STEP, .step = {.il = 1, .isv = 0, .ex = 0}}},
    {0, 0, 0xd2000062, {.kind = KNUCKLEPIN_KIND_WATCHPOINT, .watchpoint = {.il = 1, .cm = 0, .wnr = 1}}},
    {0, 0, 0xd2000022, {.kind = KNUCKLEPIN_KIND_WATCHPOINT, .watchpoint = {.il = 1}}},
    {0, 1, 0xbe000c11, {.kind = KNUCKLEPIN_KIND_SERROR, .serror = {.il = 1, .aet = 3, .ea = 0, .fsc = 0x11}}},
    {0, 1, 0xbe000211, {.kind = KNUCKLEPIN_KIND_SERROR, .serror = {.il = 1, .aet = 0, .ea = 1, .fsc = 0x11}}},
    {1, 0, 0x6222d0ac, {.kind = KNUCKLEPIN_KIND_SYSTEM, .system = {.il = 1, .op0 = 2, .op2 = 1, .op1 = 3, .crn = 4, .rt = 5, .crm = 6}}},
};

static const struct {
    uint32_t word;
    struct knucklepin_short_record record;
} SHORT[] = {
    /* word, and the record by the layout lines of source 004 */
    {0x02000000, {.kind = KNUCKLEPIN_KIND_PLAIN, .plain = {.ec = 0x00, .il = 1}}},
    {0x05b00001, {.kind = KNUCKLEPIN_KIND_WFX, .wfx = {.il = 0, .cv = 1, .cond = 0xb, .ti = 1}}},
    {0x06500001, {.kind = KNUCKLEPIN_KIND_WFX, .wfx = {.il = 1, .cv = 0, .cond = 0x5, .ti = 1}}},
    {0x17b28c8a,
     {.kind = KNUCKLEPIN_KIND_MCR, .mcr = {.ec = 0x05, .il = 1, .cv = 1, .cond = 0xb, .opc2 = 1, .opc1 = 2, .crn = 3, .rt = 4, .crm = 5}}},
    {0x32510869,
     {.kind = KNUCKLEPIN_KIND_MCRR, .mcrr = {.ec = 0x0c, .il = 1, .cond = 0x5, .opc1 = 1, .rt2 = 2, .rt = 3, .crm = 4, .direction = 1}}},
    {0x1bb5a064, {.kind = KNUCKLEPIN_KIND_LDC, .ldc = {.il = 1, .cv = 1, .cond = 0xb, .imm8 = 0x5a, .rn = 3, .am = 2}}},
    {0x1fb0002a, {.kind = KNUCKLEPIN_KIND_SIMD, .simd = {.il = 1, .cv = 1, .cond = 0xb, .ta = 1, .coproc = 0xa}}},
    {0x1e50002a, {.kind = KNUCKLEPIN_KIND_SIMD, .simd = {.il = 1, .cv = 0, .cond = 0x5, .ta = 1, .coproc = 0xa}}},
    {0x1fb00000, {.kind = KNUCKLEPIN_KIND_SIMD, .simd = {.il = 1, .cv = 1, .cond = 0xb, .ta = 0, .coproc = 0}}},
    {0x44000012, {.kind = KNUCKLEPIN_KIND_CALL, .call = {.ec = 0x11, .il = 0, .imm16 = 0x12}}},
    {0x4fb80000, {.kind = KNUCKLEPIN_KIND_SMC, .smc = {.il = 1, .cv = 1, .cond = 0xb, .ccknownpass = 1}}},
    {0x82000410, {.kind = KNUCKLEPIN_KIND_INSTRUCTION_ABORT, .instruction_abort = {.il = 1, .fnv = 1, .fsc = 0x10}}},
    {0x82000210, {.kind = KNUCKLEPIN_KIND_INSTRUCTION_ABORT, .instruction_abort = {.il = 1, .ea = 1, .fsc = 0x10}}},
    {0x82000085, {.kind = KNUCKLEPIN_KIND_INSTRUCTION_ABORT, .instruction_abort = {.il = 1, .s1ptw = 1, .fsc = 0x05}}},
    {0x91830005, {.kind = KNUCKLEPIN_KIND_DATA_ABORT, .data_abort = {.il = 0, .isv = 1, .sas = 2, .srt = 3, .fsc = 0x05}}},
    {0x93220005, {.kind = KNUCKLEPIN_KIND_DATA_ABORT, .data_abort = {.il = 1, .isv = 1, .sse = 1, .srt = 2, .fsc = 0x05}}},
    {0x93824005, {.kind = KNUCKLEPIN_KIND_DATA_ABORT, .data_abort = {.il = 1, .isv = 1, .sas = 2, .srt = 2, .ar = 1, .fsc = 0x05}}},
    {0x92000410, {.kind = KNUCKLEPIN_KIND_DATA_ABORT, .data_abort = {.il = 1, .aet = 1, .fsc = 0x10}}},
    {0x92000210, {.kind = KNUCKLEPIN_KIND_DATA_ABORT, .data_abort = {.il = 1, .ea = 1, .fsc = 0x10}}},
    {0x92000145, {.kind = KNUCKLEPIN_KIND_DATA_ABORT, .data_abort = {.il = 1, .cm = 1, .wnr = 1, .fsc = 0x05}}},
    {0x92000085, {.kind = KNUCKLEPIN_KIND_DATA_ABORT, .data_abort = {.il = 1, .s1ptw = 1, .fsc = 0x05}}},
    {0x92000045, {.kind = KNUCKLEPIN_KIND_DATA_ABORT, .data_abort = {.il = 1, .wnr = 1, .fsc = 0x05}}},
};

static void fields(void)
{
    struct knucklepin_editions editions;
    for (size_t i = 0; i < sizeof LONG / sizeof *LONG; i++) {
        struct knucklepin_record record;
        struct knucklepin_esr esr;
        CHECK_AT(esr_read(LONG[i].origin, LONG[i].edition, LONG[i].word, &record, &editions) == 0, LONG[i].word);
        CHECK_AT(SAME(record, LONG[i].record), LONG[i].word);
        CHECK_AT(esr_write(LONG[i].origin, LONG[i].edition, &LONG[i].record, &esr, &editions) == 0, LONG[i].word);
        CHECK_AT(esr.word == LONG[i].word, LONG[i].word);
    }
    for (size_t i = 0; i < sizeof SHORT / sizeof *SHORT; i++) {
        struct knucklepin_short_record record;
        struct knucklepin_hsr hsr = {SHORT[i].word};
        CHECK_AT(knucklepin_hsr_read(0, hsr, &record, &editions) == 0, SHORT[i].word);
        CHECK_AT(SAME(record, SHORT[i].record), SHORT[i].word);
        UNWRITTEN(hsr);
        CHECK_AT(knucklepin_hsr_write(0, &SHORT[i].record, &hsr, &editions) == 0, SHORT[i].word);
        CHECK_AT(hsr.word == SHORT[i].word, SHORT[i].word);
    }
}

static void traps(void)
{
    struct knucklepin_trap trap;
    struct knucklepin_editions editions;
    struct knucklepin_esr esr = {0x92000005};
    struct knucklepin_far far = {0x8abc};
    struct knucklepin_hpfar hpfar = {0x12340};

    UNWRITTEN(trap);
    UNWRITTEN(editions);
    CHECK(knucklepin_trap_read(KNUCKLEPIN_AARCH32, 0, esr, far, hpfar, &trap, &editions) == 0);
    static const struct knucklepin_record abort = {.kind = KNUCKLEPIN_KIND_DATA_ABORT, .data_abort = {.il = 1, .fsc = 5}};
    CHECK(SAME(trap.syndrome, abort) && trap.known.sort == KNUCKLEPIN_TRAP_ABORT && ZEROS(editions));
    CHECK(trap.known.virtual_known == 1 && trap.addresses.virtual_address == 0x8abc);
    CHECK(trap.known.intermediate_known == KNUCKLEPIN_BYTE && trap.addresses.intermediate_address == 0x1234abc);

    /* S1PTW: the page alone. */
    esr.word = 0x92000085;
    CHECK(knucklepin_trap_read(KNUCKLEPIN_AARCH32, 0, esr, far, hpfar, &trap, &editions) == 0);
    CHECK(trap.known.intermediate_known == KNUCKLEPIN_PAGE && trap.addresses.intermediate_address == 0x1234000);

    /* A permission fault without S1PTW leaves HPFAR unknown, whatever it holds. */
    esr.word = 0x9200000d;
    hpfar.word = UINT64_MAX;
    CHECK(knucklepin_trap_read(KNUCKLEPIN_AARCH32, 0, esr, far, hpfar, &trap, &editions) == 0);
    CHECK(trap.known.intermediate_known == KNUCKLEPIN_NO_ADDRESS && trap.addresses.intermediate_address == 0 &&
          trap.known.virtual_known == 1);

    /* PC alignment has FAR; HVC has neither. */
    esr.word = 0x8a000000;
    CHECK(knucklepin_trap_read(KNUCKLEPIN_AARCH32, 0, esr, far, hpfar, &trap, &editions) == 0);
    CHECK(trap.known.sort == KNUCKLEPIN_TRAP_ADDRESSED && trap.addresses.virtual_address == 0x8abc &&
          trap.addresses.intermediate_address == 0);
    esr.word = 0x4a000001;
    far.word = UINT64_MAX;
    CHECK(knucklepin_trap_read(KNUCKLEPIN_AARCH32, 0, esr, far, hpfar, &trap, &editions) == 0);
    CHECK(trap.known.sort == KNUCKLEPIN_TRAP_PLAIN && trap.known.virtual_known == 0 && trap.known.intermediate_known == 0 &&
          ZEROS(trap.addresses));

    /* Bit 40 of HPFAR is in the page with LPA alone; FAR's upper half is free from AArch64. */
    esr.word = 0x92000005;
    far.word = UINT64_C(0x100000000);
    hpfar.word = UINT64_C(0x10000000000);
    CHECK(knucklepin_trap_read(KNUCKLEPIN_AARCH32, 0, esr, far, hpfar, &trap, &editions) == KNUCKLEPIN_WIDE_HPFAR);
    CHECK(no_trap(&trap) && ZEROS(editions));
    CHECK(knucklepin_trap_read(KNUCKLEPIN_AARCH32, KNUCKLEPIN_LPA, esr, far, hpfar, &trap, &editions) == KNUCKLEPIN_WIDE_FAR);
    CHECK(knucklepin_trap_read(KNUCKLEPIN_AARCH64, KNUCKLEPIN_LPA, esr, far, hpfar, &trap, &editions) == 0);
    CHECK(trap.addresses.virtual_address == far.word && trap.addresses.intermediate_address == UINT64_C(0x1000000000000));
    CHECK(knucklepin_trap_read(0, 16, esr, far, hpfar, &trap, &editions) == KNUCKLEPIN_UNKNOWN_EDITION);
    CHECK(no_trap(&trap) && ZEROS(editions));
    esr.word = 0x92000018;
    CHECK(knucklepin_trap_read(0, 1, esr, far, hpfar, &trap, &editions) == KNUCKLEPIN_OTHER_EDITIONS);
    CHECK(editions.mask == WITHOUT_RAS && editions.count == 8 && no_trap(&trap));
}

/* ---- the guest's state */

/* User mode, A32, PC 0x8000, VBAR 0x1000; register n holds 0x100 + n. */
static struct knucklepin_state user(void)
{
    struct knucklepin_state state = {.pc = 0x8000, .status = KNUCKLEPIN_MODE_USR, .vbar = 0x1000};
    for (uint32_t n = 0; n < 31; n++) state.regs[n] = 0x100 + n;
    return state;
}

static void modes(void)
{
    CHECK(knucklepin_held_in(KNUCKLEPIN_MODE_USR, 7) == 7);
    CHECK(knucklepin_held_in(KNUCKLEPIN_MODE_SYS, 14) == 14);
    CHECK(knucklepin_held_in(KNUCKLEPIN_MODE_IRQ, 13) == 17);
    CHECK(knucklepin_held_in(KNUCKLEPIN_MODE_IRQ, 14) == 16);
    CHECK(knucklepin_held_in(KNUCKLEPIN_MODE_SVC, 14) == 18);
    CHECK(knucklepin_held_in(KNUCKLEPIN_MODE_ABT, 14) == 20);
    CHECK(knucklepin_held_in(KNUCKLEPIN_MODE_UND, 13) == 23);
    CHECK(knucklepin_held_in(KNUCKLEPIN_MODE_FIQ, 8) == 24);
    CHECK(knucklepin_held_in(KNUCKLEPIN_MODE_USR, 15) == KNUCKLEPIN_NOWHERE);
    CHECK(knucklepin_held_in(0x1a, 0) == KNUCKLEPIN_NOWHERE);
    CHECK(knucklepin_held_in(0xffffffff, 0xffffffff) == KNUCKLEPIN_NOWHERE);

    /* DIT moves from 24 to 21, where it is marked; SS, bit 21, is dropped. Any mark but 0 is one. */
    uint32_t status;
    UNWRITTEN(status);
    CHECK(knucklepin_from_spsr(0, 0, 1, 0x01000010, &status) == 0 && status == 0x00200010);
    CHECK(knucklepin_from_spsr(0, 0, 0x80000000, 0x01000010, &status) == 0 && status == 0x00200010);
    CHECK(knucklepin_from_spsr(0, 0, 0, 0x00200010, &status) == 0 && status == 0x10);
    CHECK(knucklepin_from_spsr(1, 1, 0, 0x01000010, &status) == KNUCKLEPIN_UNSOUND_STATUS && status == 0);
    CHECK(knucklepin_from_spsr(1, 1, 1, 0xffffffff, &status) == 0 && status == 0xfeffffff);
    CHECK(knucklepin_from_spsr(1, 1, 1, 0, &status) == KNUCKLEPIN_UNSOUND_STATUS && status == 0);

    /* And back: DIT goes to 24, and SS is 0. */
    uint32_t spsr;
    UNWRITTEN(spsr);
    CHECK(knucklepin_to_spsr(0, 0, 1, 0x00200010, &spsr) == 0 && spsr == 0x01000010);
    CHECK(knucklepin_to_spsr(0, 0, 0x80000000, 0x00200010, &spsr) == 0 && spsr == 0x01000010);
    CHECK(knucklepin_to_spsr(1, 1, 1, 0xfeffffff, &spsr) == 0 && spsr == 0xffdfffff);
    CHECK(knucklepin_to_spsr(0, 0, 0, 0x600001d3, &spsr) == 0 && spsr == 0x600001d3);
    CHECK(knucklepin_to_spsr(1, 1, 0, 0x00200010, &spsr) == KNUCKLEPIN_UNSOUND_STATUS && spsr == 0);
    CHECK(knucklepin_to_spsr(1, 1, 1, 0x01000010, &spsr) == KNUCKLEPIN_UNSOUND_STATUS && spsr == 0);
    CHECK(knucklepin_to_spsr(1, 1, 1, 0, &spsr) == KNUCKLEPIN_UNSOUND_STATUS && spsr == 0);
}

/* ---- the chip's registers */

static uint32_t edition_of(uint64_t pfr0, uint64_t mmfr0, uint64_t mmfr1)
{
    const struct knucklepin_id_aa64pfr0 first = {pfr0};
    const struct knucklepin_id_aa64mmfr0 second = {mmfr0};
    const struct knucklepin_id_aa64mmfr1 third = {mmfr1};
    return knucklepin_edition(first, second, third);
}

static uint32_t short_edition_of(uint64_t pfr0)
{
    const struct knucklepin_id_pfr0 only = {pfr0};
    return knucklepin_short_edition(only);
}

static bool marks_are(uint64_t mmfr3, uint64_t pfr2, uint64_t pfr0, uint32_t pan, uint32_t ssbs, uint32_t dit)
{
    const struct knucklepin_id_mmfr3 first = {mmfr3};
    const struct knucklepin_id_pfr2 second = {pfr2};
    const struct knucklepin_id_pfr0 third = {pfr0};
    struct knucklepin_marks marks;
    UNWRITTEN(marks);
    knucklepin_marks(first, second, third, &marks);
    return marks.pan == pan && marks.ssbs == ssbs && marks.dit == dit;
}

static bool ran_is(uint64_t spsr, uint64_t hcr, uint32_t ran, uint32_t origin)
{
    const struct knucklepin_spsr saved = {spsr};
    const struct knucklepin_hcr control = {hcr};
    uint32_t found;
    UNWRITTEN(found);
    return knucklepin_ran(saved, control, &found) == ran && found == origin;
}

static void chip(void)
{
    /* The board of docs/FITTER.md: RAS and HAFDBS. */
    CHECK(edition_of(UINT64_C(0x1100000010112222), 0x00101122, 0x10212122) == (KNUCKLEPIN_RAS | KNUCKLEPIN_HAFDBS));
    CHECK(edition_of(0, 0, 0) == 0);
    CHECK(edition_of(0xf0000000, 0, 0) == KNUCKLEPIN_RAS);
    CHECK(edition_of(UINT64_C(0xffffffff0fffffff), 0, 0) == 0);
    CHECK(edition_of(0, 0, 0xf) == KNUCKLEPIN_HAFDBS);
    CHECK(edition_of(0, 0, UINT64_C(0xfffffffffffffff0)) == 0);
    /* TGran4 is signed: 0b1111 is no pages of 4 KB. Of TGran16 2 is 52 bits. */
    CHECK(edition_of(0, 0x10000000, 0) == KNUCKLEPIN_LPA2);
    CHECK(edition_of(0, 0xf0000000, 0) == 0);
    CHECK(edition_of(0, 0xf0200000, 0) == KNUCKLEPIN_LPA2);
    CHECK(edition_of(0, 0x00100000, 0) == 0);
    /* PARange: 5 is 48 bits, 6 is 52. */
    CHECK(edition_of(0, 5, 0) == 0);
    CHECK(edition_of(0, 6, 0) == KNUCKLEPIN_LPA);
    CHECK(edition_of(0, 7, 0) == KNUCKLEPIN_LPA);

    CHECK(short_edition_of(0x10000131) == KNUCKLEPIN_RAS);
    CHECK(short_edition_of(0x01000131) == 0);

    CHECK(marks_are(0x00010000, 0, 0, 1, 0, 0));
    CHECK(marks_are(0, 0x00000010, 0, 0, 1, 0));
    CHECK(marks_are(0, 0, 0x01000000, 0, 0, 1));
    CHECK(marks_are(0xfff0ffff, 0xffffff0f, 0xf0ffffff, 0, 0, 0));
    CHECK(marks_are(0x00030000, 0x00000020, 0x01000000, 1, 1, 1));

    CHECK(ran_is(0x600001d3, 0, KNUCKLEPIN_RAN_GUEST, KNUCKLEPIN_AARCH32));
    CHECK(ran_is(0x10, 0x80000000, KNUCKLEPIN_RAN_PROGRAM, KNUCKLEPIN_AARCH32));
    CHECK(ran_is(0x3c5, 0x80000000, KNUCKLEPIN_RAN_AARCH64, KNUCKLEPIN_AARCH64));
    CHECK(ran_is(0, 0, KNUCKLEPIN_RAN_AARCH64, KNUCKLEPIN_AARCH64));
    CHECK(ran_is(UINT64_MAX, UINT64_MAX, KNUCKLEPIN_RAN_PROGRAM, KNUCKLEPIN_AARCH32));
}

/* ---- A32 words from their fields */

static bool encodes(const struct knucklepin_access *access, uint32_t number, uint32_t expected)
{
    uint32_t word;
    UNWRITTEN(word);
    return knucklepin_a32_encode(access, &word) == number && word == expected;
}

static void a32_words(void)
{
    /* LDR R2, [R1, #4]; STRB R2, [R1, -R3]!; LDR R2, [PC, #8]; LDM R1!, {R2, R3}. */
    struct knucklepin_access immediate = {.form = KNUCKLEPIN_LDR, .cond = 14, .p = 1, .u = 1, .rn = 1, .rt = 2, .imm = 4};
    struct knucklepin_access by_register = {.form = KNUCKLEPIN_REGISTER + KNUCKLEPIN_STRB, .cond = 14, .p = 1, .w = 1, .rn = 1, .rt = 2, .rm = 3};
    struct knucklepin_access literal = {.form = KNUCKLEPIN_LITERAL + KNUCKLEPIN_LDR, .cond = 14, .u = 1, .rt = 2, .imm = 8};
    struct knucklepin_access list = {.form = KNUCKLEPIN_LDM, .cond = 14, .u = 1, .w = 1, .rn = 1, .list = 0xc};
    CHECK(encodes(&immediate, 0, 0xe5912004));
    CHECK(encodes(&by_register, 0, 0xe7612003));
    CHECK(encodes(&literal, 0, 0xe59f2008));
    CHECK(encodes(&list, 0, 0xe8b1000c));
    /* A flag is any number but 0, and what the form lacks isn't looked at. */
    immediate.p = 0x80000000;
    immediate.list = 0xffff;
    immediate.address = 0x1000;
    CHECK(encodes(&immediate, 0, 0xe5912004));
    /* No such register, no such condition, an empty list, and numbers that are no form's. */
    immediate.rt = 16;
    CHECK(encodes(&immediate, KNUCKLEPIN_NO_FORM, 0));
    literal.cond = 15;
    CHECK(encodes(&literal, KNUCKLEPIN_NO_FORM, 0));
    list.list = 0;
    CHECK(encodes(&list, KNUCKLEPIN_NO_FORM, 0));
    list.list = 0xc;
    list.form = 50;
    CHECK(encodes(&list, KNUCKLEPIN_NO_FORM, 0));
    by_register.form = 10;
    CHECK(encodes(&by_register, KNUCKLEPIN_NO_FORM, 0));
    by_register.form = 0xffffffff;
    CHECK(encodes(&by_register, KNUCKLEPIN_NO_FORM, 0));
}

/* ---- what is said of a trap */

/* Whether a text of so many bytes is the one that is expected. */
static bool is_text(const uint8_t *text, uint64_t length, const char *expected)
{
    return length == strlen(expected) && memcmp(text, expected, length) == 0;
}

static void said(void)
{
    static const char SMALL_IL[] = "refused 4: IL 25 is 0 where it must be 1\n";
    static const char ISV[] = "refused 5: no edition has it\nwhy: ISV 24 is 1, and the access is none of an AArch32 guest: SF 15 is 1, "
                              "SAS 23:22 is 3, or SRT 20:16 is 15 or 31\n";
    static const char AET[] = "refused 5: no edition has it\nwhy: AET 11:10 is not 0, which needs RAS, and WnR 6 is 1, which RAS makes 0\n";
    const struct knucklepin_esr small = {0x90000005}, described = {0x938f0045};
    const struct knucklepin_hsr hsr = {0x92000451};
    const struct knucklepin_far far = {0x8abc};
    const struct knucklepin_hpfar hpfar = {0x12340};
    uint8_t text[4096];
    CHECK(is_text(text, knucklepin_explain_word(0, small, text, sizeof text), SMALL_IL));
    CHECK(is_text(text, knucklepin_explain_word(0, described, text, sizeof text), ISV));
    CHECK(is_text(text, knucklepin_explain_trap(0, described, far, hpfar, text, sizeof text), ISV));
    CHECK(is_text(text, knucklepin_explain_short(0, hsr, text, sizeof text), AET));

    /* A buffer without room for all: what fits is written, and nothing after it. */
    UNWRITTEN(text);
    CHECK(knucklepin_explain_word(0, small, text, 9) == 9 && memcmp(text, SMALL_IL, 9) == 0 && text[9] == 0xa5);
    UNWRITTEN(text);
    CHECK(knucklepin_explain_word(0, small, text, 0) == 0 && text[0] == 0xa5);
}

/* ---- why an abort came */

static bool causes(uint32_t esr, uint32_t edition, uint32_t fault, uint32_t level, uint32_t walk, uint32_t passes)
{
    struct knucklepin_record record;
    struct knucklepin_editions editions;
    struct knucklepin_cause cause;
    UNWRITTEN(cause);
    return esr_read(KNUCKLEPIN_AARCH32, edition, esr, &record, &editions) == 0
        && knucklepin_cause(KNUCKLEPIN_AARCH32, &record, &cause) == 0 && cause.fault == fault && cause.level == level
        && cause.walk == walk && cause.passes == passes;
}

static void abort_causes(void)
{
    const uint32_t none = KNUCKLEPIN_NO_LEVEL;
    CHECK(causes(0x93830045, 0, KNUCKLEPIN_FAULT_TRANSLATION, 1, 0, 1));
    CHECK(causes(0x8200000f, 0, KNUCKLEPIN_FAULT_PERMISSION, 3, 0, 1));
    CHECK(causes(0x8200008f, 0, KNUCKLEPIN_FAULT_PERMISSION, 3, 1, 0));
    CHECK(causes(0x9200000a, 0, KNUCKLEPIN_FAULT_ACCESS_FLAG, 2, 0, 1));
    CHECK(causes(0x92000008, KNUCKLEPIN_LPA2, KNUCKLEPIN_FAULT_ACCESS_FLAG, 0, 0, 0));
    CHECK(causes(0x9200002b, KNUCKLEPIN_LPA2, KNUCKLEPIN_FAULT_TRANSLATION, KNUCKLEPIN_LEVEL_MINUS_1, 0, 0));
    CHECK(causes(0x92000003, 0, KNUCKLEPIN_FAULT_ADDRESS_SIZE, 3, 0, 0));
    CHECK(causes(0x92000010, 0, KNUCKLEPIN_FAULT_EXTERNAL, none, 0, 1));
    CHECK(causes(0x92000015, 0, KNUCKLEPIN_FAULT_EXTERNAL, 1, 1, 0));
    CHECK(causes(0x92000018, 0, KNUCKLEPIN_FAULT_PARITY, none, 0, 0));
    CHECK(causes(0x9200001e, 0, KNUCKLEPIN_FAULT_PARITY, 2, 1, 0));
    CHECK(causes(0x92000021, 0, KNUCKLEPIN_FAULT_ALIGNMENT, none, 0, 1));
    CHECK(causes(0x92000030, 0, KNUCKLEPIN_FAULT_TLB_CONFLICT, none, 0, 0));
    CHECK(causes(0x92000031, KNUCKLEPIN_HAFDBS, KNUCKLEPIN_FAULT_UPDATE, none, 0, 0));
    CHECK(causes(0x92000034, 0, KNUCKLEPIN_FAULT_LOCKDOWN, none, 0, 0));
    CHECK(causes(0x92000035, 0, KNUCKLEPIN_FAULT_EXCLUSIVE, none, 0, 0));

    /* 18: a WFI, a watchpoint and an SError are no aborts of a fault code. 5: a code that no edition has, and words that are no record. */
    struct knucklepin_record record;
    struct knucklepin_editions editions;
    struct knucklepin_cause cause;
    CHECK(esr_read(KNUCKLEPIN_AARCH32, 0, 0x07e00000, &record, &editions) == 0);
    UNWRITTEN(cause);
    CHECK(knucklepin_cause(KNUCKLEPIN_AARCH32, &record, &cause) == KNUCKLEPIN_NOT_DESCRIBED && ZEROS(cause));
    CHECK(esr_read(KNUCKLEPIN_AARCH32, 0, 0xd2000022, &record, &editions) == 0);
    CHECK(knucklepin_cause(KNUCKLEPIN_AARCH32, &record, &cause) == KNUCKLEPIN_NOT_DESCRIBED && ZEROS(cause));
    CHECK(esr_read(KNUCKLEPIN_AARCH32, 0, 0xbe000000, &record, &editions) == 0);
    CHECK(knucklepin_cause(KNUCKLEPIN_AARCH32, &record, &cause) == KNUCKLEPIN_NOT_DESCRIBED && ZEROS(cause));
    CHECK(esr_read(KNUCKLEPIN_AARCH32, 0, 0x92000010, &record, &editions) == 0);
    record.data_abort.fsc = 0x11;
    UNWRITTEN(cause);
    CHECK(knucklepin_cause(KNUCKLEPIN_AARCH32, &record, &cause) == KNUCKLEPIN_NO_EDITION && ZEROS(cause));
    record.kind = 15;
    CHECK(knucklepin_cause(KNUCKLEPIN_AARCH32, &record, &cause) == KNUCKLEPIN_NO_EDITION && ZEROS(cause));
}

/* Whether a status word's bit goes with a mark alone. */
static bool marked(uint32_t bit, uint32_t pan, uint32_t ssbs, uint32_t dit)
{
    struct knucklepin_state state = user();
    state.status |= UINT32_C(1) << bit;
    state.pan = pan;
    state.ssbs = ssbs;
    state.dit = dit;
    return knucklepin_inject(&state, KNUCKLEPIN_SUPERVISOR_CALL, 0, 0, 0, 0, 0) == 0;
}

/* DFSR after a data abort in the short format. */
static uint32_t short_dfsr(uint32_t fault, uint32_t level)
{
    struct knucklepin_state state = user();
    CHECK(knucklepin_inject(&state, KNUCKLEPIN_DATA_ABORT, fault, level, 0, 0, 0) == 0);
    return state.dfsr;
}

static bool refused_injection(const struct knucklepin_state *before, uint32_t injection, uint32_t fault, uint32_t level, uint64_t address,
                              uint32_t domain, uint32_t number)
{
    struct knucklepin_state state = *before;
    return knucklepin_inject(&state, injection, fault, level, address, 1, domain) == number && SAME(state, *before);
}

static void injections(void)
{
    struct knucklepin_state state = user(), expected = user();

    /* Undefined, PC at the instruction, and the return. */
    CHECK(knucklepin_injection_correction(&state, KNUCKLEPIN_UNDEFINED_AT) == 4);
    CHECK(knucklepin_inject(&state, KNUCKLEPIN_UNDEFINED_AT, 0, 0, 0, 0, 0) == 0);
    expected.status = 0x9b;
    expected.regs[22] = 0x8004;
    expected.pc = 0x1004;
    expected.spsr_und = 0x10;
    CHECK(SAME(state, expected));
    CHECK(knucklepin_resume(&state, 4) == 0);
    expected.status = 0x10;
    expected.pc = 0x8000;
    CHECK(SAME(state, expected));
    CHECK(knucklepin_resume(&state, 4) == KNUCKLEPIN_UNSOUND_STATUS);
    CHECK(SAME(state, expected));

    /* In T32 state. */
    state = user();
    state.status = 0x30;
    CHECK(knucklepin_inject(&state, KNUCKLEPIN_UNDEFINED_AT, 0, 0, 0, 0, 0) == 0 && state.regs[22] == 0x8002);
    state = user();
    state.status = 0x30;
    state.pc = 0;
    CHECK(knucklepin_injection_correction(&state, KNUCKLEPIN_UNDEFINED_AFTER) == 0xfffffffe);
    CHECK(knucklepin_inject(&state, KNUCKLEPIN_UNDEFINED_AFTER, 0, 0, 0, 0, 0) == 0 && state.regs[22] == 0xfffffffe);
    CHECK(knucklepin_resume(&state, 0xfffffffe) == 0 && state.pc == 0 && state.status == 0x30);

    /* A supervisor call looks at none of the abort's numbers. */
    state = expected = user();
    CHECK(knucklepin_injection_correction(&state, KNUCKLEPIN_SUPERVISOR_CALL) == 0);
    CHECK(knucklepin_inject(&state, KNUCKLEPIN_SUPERVISOR_CALL, 0xffffffff, 0xffffffff, UINT64_MAX, 0xffffffff, 0xffffffff) == 0);
    expected.status = 0x93;
    expected.regs[18] = 0x8000;
    expected.pc = 0x1008;
    expected.spsr_svc = 0x10;
    CHECK(SAME(state, expected));

    /* An external abort on a fetch. */
    state = expected = user();
    CHECK(knucklepin_injection_correction(&state, KNUCKLEPIN_PREFETCH_ABORT) == 4);
    CHECK(knucklepin_inject(&state, KNUCKLEPIN_PREFETCH_ABORT, KNUCKLEPIN_FAULT_EXTERNAL, 0, 0x8000, 0, 0) == 0);
    expected.status = 0x197;
    expected.regs[20] = 0x8004;
    expected.pc = 0x100c;
    expected.spsr_abt = 0x10;
    expected.ifsr = 0x8;
    expected.ifar = 0x8000;
    CHECK(SAME(state, expected));

    /* Data aborts: high vectors, T and E by SCTLR; a link that wraps; DFSR in either format, with a domain. */
    state = user();
    state.sctlr = 0x42002000;
    CHECK(knucklepin_injection_correction(&state, KNUCKLEPIN_DATA_ABORT) == 8);
    CHECK(knucklepin_inject(&state, KNUCKLEPIN_DATA_ABORT, KNUCKLEPIN_FAULT_TRANSLATION, 2, 0x1234, 1, 0) == 0);
    CHECK(state.status == 0x3b7 && state.pc == 0xffff0010 && state.dfsr == 0x807 && state.dfar == 0x1234 && state.ifsr == 0);
    state = user();
    state.pc = 0xfffffffc;
    CHECK(knucklepin_inject(&state, KNUCKLEPIN_DATA_ABORT, KNUCKLEPIN_FAULT_TRANSLATION, 2, 0, 0xffffffff, 7) == 0);
    CHECK(state.regs[20] == 4 && state.dfsr == 0x877);
    state = user();
    state.ttbcr = 0x80000000;
    CHECK(knucklepin_inject(&state, KNUCKLEPIN_DATA_ABORT, KNUCKLEPIN_FAULT_TRANSLATION, 2, 0, 1, 7) == 0 && state.dfsr == 0xa06);

    /* The faults. SSBS is bit 23, PAN 22 and DIT 21; bit 24 goes with none. */
    CHECK(short_dfsr(KNUCKLEPIN_FAULT_EXTERNAL, 0) == 0x8 && short_dfsr(KNUCKLEPIN_FAULT_ALIGNMENT, 0) == 0x1);
    CHECK(short_dfsr(KNUCKLEPIN_FAULT_TRANSLATION, 1) == 0x5 && short_dfsr(KNUCKLEPIN_FAULT_ACCESS_FLAG, 1) == 0x3);
    CHECK(short_dfsr(KNUCKLEPIN_FAULT_PERMISSION, 1) == 0xd && short_dfsr(KNUCKLEPIN_FAULT_PERMISSION, 2) == 0xf);
    CHECK(marked(22, 1, 0, 0) && marked(23, 0, 1, 0) && marked(21, 0, 0, 1));
    CHECK(!marked(22, 0, 1, 1) && !marked(23, 1, 0, 1) && !marked(21, 1, 1, 0) && !marked(24, 1, 1, 1));
    CHECK(marked(22, 0xffffffff, 0, 0) && marked(23, 0, 2, 0) && marked(21, 0, 0, 0x80000000));

    /* Refusals, in their order, with the state as it came: numbers that mean nothing too. */
    state = user();
    state.status = 0;
    state.vbar = 1;
    CHECK(refused_injection(&state, 5, 5, 0, UINT64_MAX, 16, KNUCKLEPIN_UNSOUND_STATUS));
    state.status = 0x10;
    CHECK(refused_injection(&state, 5, 5, 0, UINT64_MAX, 16, KNUCKLEPIN_UNALIGNED_VBAR));
    state.vbar = 0;
    CHECK(refused_injection(&state, 5, 0, 0, 0, 0, KNUCKLEPIN_UNWRITABLE_FAULT));
    CHECK(refused_injection(&state, 0xffffffff, 0, 0, 0, 0, KNUCKLEPIN_UNWRITABLE_FAULT));
    CHECK(refused_injection(&state, KNUCKLEPIN_DATA_ABORT, 5, 1, UINT64_MAX, 16, KNUCKLEPIN_UNWRITABLE_FAULT));
    CHECK(refused_injection(&state, KNUCKLEPIN_DATA_ABORT, 0xffffffff, 1, 0, 0, KNUCKLEPIN_UNWRITABLE_FAULT));
    CHECK(refused_injection(&state, KNUCKLEPIN_DATA_ABORT, KNUCKLEPIN_FAULT_PERMISSION, 0, UINT64_MAX, 16, KNUCKLEPIN_UNWRITABLE_FAULT));
    CHECK(refused_injection(&state, KNUCKLEPIN_DATA_ABORT, KNUCKLEPIN_FAULT_PERMISSION, 0x101, 0, 0, KNUCKLEPIN_UNWRITABLE_FAULT));
    CHECK(refused_injection(&state, KNUCKLEPIN_PREFETCH_ABORT, KNUCKLEPIN_FAULT_ALIGNMENT, 0, 0, 0, KNUCKLEPIN_UNWRITABLE_FAULT));
    CHECK(refused_injection(&state, KNUCKLEPIN_DATA_ABORT, KNUCKLEPIN_FAULT_PERMISSION, 1, UINT64_MAX, 16, KNUCKLEPIN_WIDE_DOMAIN));
    CHECK(refused_injection(&state, KNUCKLEPIN_DATA_ABORT, KNUCKLEPIN_FAULT_PERMISSION, 1, 0, 0x100, KNUCKLEPIN_WIDE_DOMAIN));
    CHECK(refused_injection(&state, KNUCKLEPIN_DATA_ABORT, KNUCKLEPIN_FAULT_PERMISSION, 1, UINT64_C(0x100000000), 15,
                            KNUCKLEPIN_WIDE_ADDRESS));
    CHECK(knucklepin_injection_correction(&state, 5) == 0);
    CHECK(knucklepin_injection_correction(&state, 0xffffffff) == 0);
}

static void interrupts(void)
{
    struct knucklepin_state state = user(), expected = user();

    /* IRQ and then FIQ; raised again it keeps its place; the abort comes third. */
    uint32_t queue = knucklepin_raise(KNUCKLEPIN_EMPTY, KNUCKLEPIN_IRQ);
    CHECK(queue == 0x3);
    queue = knucklepin_raise(queue, KNUCKLEPIN_FIQ);
    CHECK(queue == 0xb);
    CHECK(knucklepin_raise(queue, KNUCKLEPIN_IRQ) == 0xb);
    CHECK(knucklepin_raise(queue, KNUCKLEPIN_ABORT) == 0x1b);
    CHECK(knucklepin_raise(queue, 0) == 0xb);
    CHECK(knucklepin_raise(queue, 4) == 0xb);
    CHECK(knucklepin_raise(queue, 0xffffffff) == 0xb);
    /* Numbers that no call gave: pairs of bits, the lowest first. */
    CHECK(knucklepin_raise(0xffffffff, 0) == 0x3);
    CHECK(knucklepin_raise(0xc0000000, 0) == 0x3);
    CHECK(knucklepin_raise(0xe4000000, 0) == 0x39);

    struct knucklepin_pending pending = {queue, 0xa5a5a5a5};
    CHECK(knucklepin_deliver(&state, &pending) == 0);
    CHECK(pending.delivered == KNUCKLEPIN_IRQ && pending.queue == 0x2);
    expected.status = 0x192;
    expected.regs[16] = 0x8004;
    expected.pc = 0x1018;
    expected.spsr_irq = 0x10;
    CHECK(SAME(state, expected));
    CHECK(knucklepin_deliver(&state, &pending) == 0);
    CHECK(pending.delivered == KNUCKLEPIN_FIQ && pending.queue == KNUCKLEPIN_EMPTY);
    expected.status = 0x1d1;
    expected.regs[30] = 0x101c;
    expected.pc = 0x101c;
    expected.spsr_fiq = 0x192;
    CHECK(SAME(state, expected));
    CHECK(knucklepin_deliver(&state, &pending) == 0 && pending.delivered == 0 && pending.queue == KNUCKLEPIN_EMPTY);
    CHECK(SAME(state, expected));

    /* A virtual abort that is masked waits; then it comes, and DFAR stays. */
    state = user();
    state.status = 0x110;
    state.dfar = 0x77;
    pending.queue = KNUCKLEPIN_ABORT;
    CHECK(knucklepin_deliver(&state, &pending) == 0 && pending.delivered == 0 && pending.queue == KNUCKLEPIN_ABORT);
    state.status = 0x10;
    CHECK(knucklepin_delivery_correction(&state, KNUCKLEPIN_ABORT) == 8);
    CHECK(knucklepin_deliver(&state, &pending) == 0 && pending.delivered == KNUCKLEPIN_ABORT && pending.queue == KNUCKLEPIN_EMPTY);
    CHECK(state.status == 0x197 && state.regs[20] == 0x8008 && state.pc == 0x1010 && state.dfsr == 0x406 && state.dfar == 0x77);
    CHECK(knucklepin_delivery_correction(&state, KNUCKLEPIN_FIQ) == 4);
    CHECK(knucklepin_delivery_correction(&state, KNUCKLEPIN_IRQ) == 4);
    CHECK(knucklepin_delivery_correction(&state, 0) == 0);
    CHECK(knucklepin_delivery_correction(&state, 0xffffffff) == 0);

    /* Refusals, with nothing moved. */
    state = user();
    state.status = 0;
    state.vbar = 1;
    expected = state;
    pending.queue = 0x1b;
    pending.delivered = 0xa5a5a5a5;
    CHECK(knucklepin_deliver(&state, &pending) == KNUCKLEPIN_UNSOUND_STATUS);
    CHECK(SAME(state, expected) && pending.queue == 0x1b && pending.delivered == 0);
    state.status = expected.status = 0x10;
    CHECK(knucklepin_deliver(&state, &pending) == KNUCKLEPIN_UNALIGNED_VBAR);
    CHECK(SAME(state, expected) && pending.queue == 0x1b && pending.delivered == 0);
}

/* ---- going on from a trap */

static void going_on(void)
{
    struct knucklepin_state state = user(), expected = user();
    struct knucklepin_record record = record_of(0x07e00001);
    struct knucklepin_pair pair;
    uint32_t given;

    /* WFE with condition EQ: it counts with Z 1. */
    record.wfx.cond = 0x0;
    CHECK(knucklepin_passes(0x10, &record) == 0);
    CHECK(knucklepin_passes(0x40000010, &record) == 1);
    record.wfx.cond = 0xe;
    CHECK(knucklepin_passes(0x10, &record) == 1);
    CHECK(knucklepin_step_over(&state, &record) == 0);
    expected.pc = 0x8004;
    CHECK(SAME(state, expected));

    /* Cache maintenance, CM 1; on a walk, S1PTW 1, it has still to be executed. */
    record = record_of(0x92000145);
    state = user();
    CHECK(knucklepin_step_over(&state, &record) == 0 && SAME(state, expected));
    record = record_of(0x920001c5);
    state = expected = user();
    CHECK(knucklepin_step_over(&state, &record) == KNUCKLEPIN_NOT_DESCRIBED && SAME(state, expected));

    /* 0x93830045, the store of register 3; with E set its bytes are reversed. */
    record = record_of(0x93830045);
    state = expected = user();
    state.regs[3] = expected.regs[3] = 0x11223344;
    UNWRITTEN(given);
    CHECK(knucklepin_finish(&state, &record, 0xffffffff, &given) == 0 && given == 0x11223344);
    expected.pc = 0x8004;
    CHECK(SAME(state, expected));
    state.status = 0x210;
    CHECK(knucklepin_finish(&state, &record, 0, &given) == 0 && given == 0x44332211);

    /* A signed byte loaded into register 2: ISV 1, SAS 0, SSE 1, SRT 2, code 5. */
    record = record_of(0x93220005);
    state = expected = user();
    UNWRITTEN(given);
    CHECK(knucklepin_finish(&state, &record, 0x1280, &given) == 0 && given == 0);
    expected.regs[2] = 0xffffff80;
    expected.pc = 0x8004;
    CHECK(SAME(state, expected));

    /* MRC into register 0; MCR of register 3; MCRR of registers 4 and 5. */
    record = record_of(0x0fe00001);
    state = expected = user();
    UNWRITTEN(pair);
    CHECK(knucklepin_coprocessor_finish(&state, &record, 0x12345678, 0x9abcdef0, &pair) == 0);
    expected.regs[0] = 0x12345678;
    expected.pc = 0x8004;
    CHECK(SAME(state, expected) && ZEROS(pair));
    record = record_of(0x0fe00060);
    state = user();
    CHECK(knucklepin_coprocessor_finish(&state, &record, 1, 2, &pair) == 0 && pair.first == 0x103 && pair.second == 0);
    record = record_of(0x13e01480);
    state = user();
    CHECK(knucklepin_coprocessor_finish(&state, &record, 1, 2, &pair) == 0 && pair.first == 0x104 && pair.second == 0x105);
    CHECK(state.pc == 0x8004 && state.regs[4] == 0x104);

    /* Refusals: an HVC is neither stepped over nor finished; words that are no record are refused 5, before an unsound state. */
    record = record_of(0x4a000001);
    state = expected = user();
    CHECK(knucklepin_step_over(&state, &record) == KNUCKLEPIN_NOT_DESCRIBED);
    UNWRITTEN(given);
    CHECK(knucklepin_finish(&state, &record, 0, &given) == KNUCKLEPIN_NOT_DESCRIBED && given == 0);
    UNWRITTEN(pair);
    CHECK(knucklepin_coprocessor_finish(&state, &record, 1, 2, &pair) == KNUCKLEPIN_NOT_DESCRIBED && ZEROS(pair));
    CHECK(SAME(state, expected));
    state.status = expected.status = 0;
    CHECK(knucklepin_step_over(&state, &record) == KNUCKLEPIN_UNSOUND_STATUS);
    CHECK(knucklepin_finish(&state, &record, 0, &given) == KNUCKLEPIN_UNSOUND_STATUS);
    CHECK(knucklepin_coprocessor_finish(&state, &record, 1, 2, &pair) == KNUCKLEPIN_UNSOUND_STATUS);
    for (int which = 0; which < NO_RECORDS; which++) {
        record = no_record(which);
        CHECK(knucklepin_passes(0x10, &record) <= 1);
        CHECK(knucklepin_passes(0xffffffff, &record) <= 1);
        CHECK(knucklepin_step_over(&state, &record) == KNUCKLEPIN_NO_EDITION);
        CHECK(knucklepin_finish(&state, &record, 0, &given) == KNUCKLEPIN_NO_EDITION && given == 0);
        CHECK(knucklepin_coprocessor_finish(&state, &record, 1, 2, &pair) == KNUCKLEPIN_NO_EDITION && ZEROS(pair));
    }
    CHECK(SAME(state, expected));
}

/* ---- a monitor */

/* What the monitor does next. */
enum next {
    RESUME,  /* the guest goes on, in its state */
    GIVE,    /* so it does, and the card gets `given` */
    PERFORM, /* the card is asked for what `access` loads, in transfer order, and then knucklepin_a32_finish goes on */
    REFUSED  /* nothing was done: the refusal's number */
};

struct answered {
    enum next next;
    uint32_t given, number;
    struct knucklepin_access access;
};

/* What comes next, by the number that a call gave: `next`, where it did its work. */
static struct answered after(uint32_t number, enum next next)
{
    const struct answered done = {.next = number == KNUCKLEPIN_TAKEN ? next : REFUSED, .number = number};
    return done;
}

/* The guest gets an exception; an abort is an external one. */
static struct answered injected(struct knucklepin_state *guest, uint32_t injection, uint64_t address, uint32_t write)
{
    return after(knucklepin_inject(guest, injection, KNUCKLEPIN_FAULT_EXTERNAL, 0, address, write, 0), RESUME);
}

/* Nothing is left of the instruction to do: the guest goes on past it. */
static struct answered stepped(struct knucklepin_state *guest, const struct knucklepin_record *record)
{
    return after(knucklepin_step_over(guest, record), RESUME);
}

/* A data abort. At the card's page cache maintenance is stepped over, a load or store that the chip described (ISV 1) is finished, and one
   that its word describes has to be performed. Of everything else the guest gets the abort. */
static struct answered aborted(struct knucklepin_state *guest, const struct knucklepin_trap *trap, uint32_t word, uint32_t value)
{
    const uint64_t card = 0x1234;
    const struct knucklepin_data_abort *abort = &trap->syndrome.data_abort;
    if (trap->known.intermediate_known == KNUCKLEPIN_BYTE && trap->addresses.intermediate_address >> 12 == card) {
        struct answered done = {.next = PERFORM};
        struct knucklepin_list registers;
        if (abort->cm) return stepped(guest, &trap->syndrome);
        if (abort->isv) {
            uint32_t given;
            done = after(knucklepin_finish(guest, &trap->syndrome, value, &given), abort->wnr ? GIVE : RESUME);
            done.given = given;
            return done;
        }
        if (knucklepin_a32_describe(guest, word, &done.access, &registers) == KNUCKLEPIN_TAKEN) return done;
    }
    return injected(guest, KNUCKLEPIN_DATA_ABORT, trap->addresses.virtual_address, abort->wnr);
}

/* Answers a trap of a guest with one emulated card, by its class. `word` is the instruction at the guest's PC, and `value` what the card
   gives to a load. */
static struct answered answer(struct knucklepin_state *guest, struct knucklepin_esr esr, struct knucklepin_far far,
                              struct knucklepin_hpfar hpfar, uint32_t word, uint32_t value)
{
    const uint32_t board = KNUCKLEPIN_RAS | KNUCKLEPIN_LPA;
    struct knucklepin_trap trap;
    struct knucklepin_editions editions;
    uint32_t number = knucklepin_trap_read(KNUCKLEPIN_AARCH32, board, esr, far, hpfar, &trap, &editions);
    if (number != KNUCKLEPIN_TAKEN) return after(number, REFUSED);
    if (!knucklepin_passes(guest->status, &trap.syndrome)) return stepped(guest, &trap.syndrome);
    switch (esr.word >> 26) {
    case 0x01: /* WFI, WFE */
        return stepped(guest, &trap.syndrome);
    case 0x11: /* SVC: PC is past it, and past an HVC */
        return injected(guest, KNUCKLEPIN_SUPERVISOR_CALL, 0, 0);
    case 0x12:
        return injected(guest, KNUCKLEPIN_UNDEFINED_AFTER, 0, 0);
    case 0x20: /* an instruction abort, and a PC alignment fault */
    case 0x22:
        return injected(guest, KNUCKLEPIN_PREFETCH_ABORT, trap.addresses.virtual_address, 0);
    case 0x24:
        return aborted(guest, &trap, word, value);
    case 0x2f: /* an SError interrupt, which belongs to no instruction; debug events and BKPT, which are the debugger's */
    case 0x30:
    case 0x32:
    case 0x34:
    case 0x38:
    case 0x3a:
        return after(KNUCKLEPIN_TAKEN, RESUME);
    default: /* everything else is undefined to the guest, with PC at it */
        return injected(guest, KNUCKLEPIN_UNDEFINED_AT, 0, 0);
    }
}

/* Traps of an instruction at 0x8000: the guest's status word and PC, what comes next, and its PC and status word then, with the link of an
   exception, and DFSR or IFSR of an abort. They come at the card's page and with the word LDR r2, [r1, #4], but where another is given. */
struct trapped {
    uint32_t esr, status, pc;
    enum next next;
    struct {
        uint32_t pc, status, link, code;
    } to;
    uint64_t hpfar;
    uint32_t word;
};

static const struct trapped TRAPS[] = {
    /* Unknown; illegal execution state. The link of an undefined instruction is 4 above it, in T32 state 2. */
    {0x02000000, 0x10, 0x8000, RESUME, .to = {0x1004, 0x9b, 0x8004, 0}},
    {0x02000000, 0x30, 0x8000, RESUME, .to = {0x1004, 0x9b, 0x8002, 0}},
    {0x3a000000, 0x10, 0x8000, RESUME, .to = {0x1004, 0x9b, 0x8004, 0}},
    /* WFI, with EQ where Z is 0 and where it is 1, and of 2 bytes; WFE. */
    {0x07e00000, 0x10, 0x8000, RESUME, .to = {0x8004, 0x10, 0, 0}},
    {0x07000000, 0x10, 0x8000, RESUME, .to = {0x8004, 0x10, 0, 0}},
    {0x07000000, 0x40000010, 0x8000, RESUME, .to = {0x8004, 0x40000010, 0, 0}},
    {0x05e00000, 0x30, 0x8000, RESUME, .to = {0x8002, 0x30, 0, 0}},
    {0x07e00001, 0x10, 0x8000, RESUME, .to = {0x8004, 0x10, 0, 0}},
    /* With EQ, where Z is 0 and where it is 1: MCR of p15, MCRR of p15, MCR of p14, STC, SIMD, VMRS, MRRC of p14, and SMC. */
    {0x0f000000, 0x10, 0x8000, RESUME, .to = {0x8004, 0x10, 0, 0}},
    {0x0f000000, 0x40000010, 0x8000, RESUME, .to = {0x1004, 0x4000009b, 0x8004, 0}},
    {0x13000000, 0x10, 0x8000, RESUME, .to = {0x8004, 0x10, 0, 0}},
    {0x13000000, 0x40000010, 0x8000, RESUME, .to = {0x1004, 0x4000009b, 0x8004, 0}},
    {0x17000000, 0x10, 0x8000, RESUME, .to = {0x8004, 0x10, 0, 0}},
    {0x17000000, 0x40000010, 0x8000, RESUME, .to = {0x1004, 0x4000009b, 0x8004, 0}},
    {0x1b000000, 0x10, 0x8000, RESUME, .to = {0x8004, 0x10, 0, 0}},
    {0x1b000000, 0x40000010, 0x8000, RESUME, .to = {0x1004, 0x4000009b, 0x8004, 0}},
    {0x1f000000, 0x10, 0x8000, RESUME, .to = {0x8004, 0x10, 0, 0}},
    {0x1f000000, 0x40000010, 0x8000, RESUME, .to = {0x1004, 0x4000009b, 0x8004, 0}},
    {0x23000001, 0x10, 0x8000, RESUME, .to = {0x8004, 0x10, 0, 0}},
    {0x23000001, 0x40000010, 0x8000, RESUME, .to = {0x1004, 0x4000009b, 0x8004, 0}},
    {0x33000001, 0x10, 0x8000, RESUME, .to = {0x8004, 0x10, 0, 0}},
    {0x33000001, 0x40000010, 0x8000, RESUME, .to = {0x1004, 0x4000009b, 0x8004, 0}},
    {0x4f080000, 0x10, 0x8000, RESUME, .to = {0x8004, 0x10, 0, 0}},
    {0x4f080000, 0x40000010, 0x8000, RESUME, .to = {0x1004, 0x4000009b, 0x8004, 0}},
    /* An SMC with CCKNOWNPASS 0 has passed its condition. */
    {0x4e000000, 0x10, 0x8000, RESUME, .to = {0x1004, 0x9b, 0x8004, 0}},
    /* SVC of 4 and of 2 bytes, and HVC in either state: PC is past them. */
    {0x46000001, 0x10, 0x8004, RESUME, .to = {0x1008, 0x93, 0x8004, 0}},
    {0x44000001, 0x30, 0x8002, RESUME, .to = {0x1008, 0x93, 0x8002, 0}},
    {0x4a000001, 0x10, 0x8004, RESUME, .to = {0x1004, 0x9b, 0x8004, 0}},
    {0x4a000001, 0x30, 0x8004, RESUME, .to = {0x1004, 0x9b, 0x8002, 0}},
    /* An instruction abort, at the card's page too, on a walk and elsewhere; PC alignment. */
    {0x82000005, 0x10, 0x8000, RESUME, .to = {0x100c, 0x197, 0x8004, 0x8}},
    {0x82000085, 0x10, 0x8000, RESUME, .to = {0x100c, 0x197, 0x8004, 0x8}},
    {0x82000005, 0x30, 0x8000, RESUME, .to = {0x100c, 0x197, 0x8004, 0x8}, .hpfar = 0x12350},
    {0x8a000000, 0x10, 0x8000, RESUME, .to = {0x100c, 0x197, 0x8004, 0x8}},
    /* A store of register 3 that the chip describes, of 4 and of 2 bytes; elsewhere; a permission fault, which leaves HPFAR UNKNOWN. */
    {0x93830045, 0x10, 0x8000, GIVE, .to = {0x8004, 0x10, 0, 0}},
    {0x91830045, 0x30, 0x8000, GIVE, .to = {0x8002, 0x30, 0, 0}},
    {0x93830045, 0x10, 0x8000, RESUME, .to = {0x1010, 0x197, 0x8008, 0x808}, .hpfar = 0x12350},
    {0x9383004d, 0x10, 0x8000, RESUME, .to = {0x1010, 0x197, 0x8008, 0x808}},
    {0x93830005, 0x10, 0x8000, RESUME, .to = {0x1010, 0x197, 0x8008, 0x8}, .hpfar = 0x12350},
    /* A load that it doesn't describe: by its word; MOV r0, r0 is no load or store; T32 state; elsewhere, by LPA's bits too; on a walk. */
    {0x92000005, 0x10, 0x8000, PERFORM, .to = {0x8000, 0x10, 0, 0}},
    {0x92000005, 0x10, 0x8000, RESUME, .to = {0x1010, 0x197, 0x8008, 0x8}, .word = 0xe1a00000},
    {0x92000005, 0x30, 0x8000, RESUME, .to = {0x1010, 0x197, 0x8008, 0x8}},
    {0x92000005, 0x10, 0x8000, RESUME, .to = {0x1010, 0x197, 0x8008, 0x8}, .hpfar = 0x12350},
    {0x92000005, 0x10, 0x8000, RESUME, .to = {0x1010, 0x197, 0x8008, 0x8}, .hpfar = 0x10000012340},
    {0x92000085, 0x10, 0x8000, RESUME, .to = {0x1010, 0x197, 0x8008, 0x8}},
    /* Cache maintenance: at the card's page, on a walk there, and elsewhere. */
    {0x92000145, 0x10, 0x8000, RESUME, .to = {0x8004, 0x10, 0, 0}},
    {0x920001c5, 0x10, 0x8000, RESUME, .to = {0x1010, 0x197, 0x8008, 0x808}},
    {0x92000145, 0x10, 0x8000, RESUME, .to = {0x1010, 0x197, 0x8008, 0x808}, .hpfar = 0x12350},
    /* An SError interrupt, a breakpoint, a software step, a watchpoint, BKPT, a vector catch. */
    {0xbe000000, 0x10, 0x8000, RESUME, .to = {0x8000, 0x10, 0, 0}},
    {0xc2000022, 0x10, 0x8000, RESUME, .to = {0x8000, 0x10, 0, 0}},
    {0xca000022, 0x10, 0x8004, RESUME, .to = {0x8004, 0x10, 0, 0}},
    {0xd2000022, 0x10, 0x8000, RESUME, .to = {0x8000, 0x10, 0, 0}},
    {0xe2000001, 0x10, 0x8000, RESUME, .to = {0x8000, 0x10, 0, 0}},
    {0xea000022, 0x10, 0x8000, RESUME, .to = {0x8000, 0x10, 0, 0}},
};

static const uint32_t LDR = 0xe5912004;

static struct answered answered_at(struct knucklepin_state *guest, uint64_t word, uint64_t at, uint64_t page, uint32_t instruction)
{
    const struct knucklepin_esr esr = {word};
    const struct knucklepin_far far = {at};
    const struct knucklepin_hpfar hpfar = {page};
    return answer(guest, esr, far, hpfar, instruction, 0xcafe);
}

/* The guest as a row has it, when it traps and after it. */
static struct knucklepin_state before(const struct trapped *row)
{
    struct knucklepin_state guest = user();
    guest.status = row->status;
    guest.pc = row->pc;
    return guest;
}

static struct knucklepin_state expected_of(const struct trapped *row)
{
    struct knucklepin_state guest = before(row);
    guest.pc = row->to.pc;
    guest.status = row->to.status;
    switch (row->to.status & 0x1f) {
    case KNUCKLEPIN_MODE_SVC:
        guest.regs[18] = row->to.link;
        guest.spsr_svc = row->status;
        break;
    case KNUCKLEPIN_MODE_UND:
        guest.regs[22] = row->to.link;
        guest.spsr_und = row->status;
        break;
    case KNUCKLEPIN_MODE_ABT:
        guest.regs[20] = row->to.link;
        guest.spsr_abt = row->status;
        *(row->to.pc == 0x100c ? &guest.ifsr : &guest.dfsr) = row->to.code;
        *(row->to.pc == 0x100c ? &guest.ifar : &guest.dfar) = 0x8abc;
        break;
    }
    return guest;
}

static void monitor(void)
{
    struct knucklepin_state guest, expected;
    struct answered done;
    for (size_t i = 0; i < sizeof TRAPS / sizeof *TRAPS; i++) {
        const struct trapped *row = &TRAPS[i];
        guest = before(row);
        expected = expected_of(row);
        done = answered_at(&guest, row->esr, 0x8abc, row->hpfar ? row->hpfar : 0x12340, row->word ? row->word : LDR);
        CHECK_AT(done.next == row->next && done.number == 0, row->esr);
        CHECK_AT(done.given == (row->next == GIVE ? 0x103 : 0), row->esr);
        CHECK_AT(SAME(guest, expected), row->esr);
    }

    /* A word is loaded into register 2 with what the card gave; an external abort with FnV 1 has no address. */
    guest = expected = user();
    expected.regs[2] = 0xcafe;
    expected.pc = 0x8004;
    done = answered_at(&guest, 0x93820005, 0x8abc, 0x12340, 0);
    CHECK(done.next == RESUME && SAME(guest, expected));
    guest = user();
    done = answered_at(&guest, 0x92000410, 0x8abc, 0x12340, LDR);
    CHECK(done.next == RESUME && guest.pc == 0x1010 && guest.dfsr == 0x8 && guest.dfar == 0);

    /* LDR r2, [r1, #4] is performed: the card is asked for one word at 0x105, and the guest goes on with it. */
    const struct knucklepin_access ldr = {
        .form = KNUCKLEPIN_LDR, .cond = 0xe, .p = 1, .u = 1, .rn = 1, .rt = 2, .imm = 4, .load = 1, .sas = 2, .count = 1, .address = 0x105};
    const struct knucklepin_list values = {{0xcafe}};
    struct knucklepin_transfer transfer;
    struct knucklepin_list addresses, given;
    guest = user();
    done = answered_at(&guest, 0x92000005, 0x8abc, 0x12340, LDR);
    CHECK(done.next == PERFORM && SAME(done.access, ldr));
    CHECK(knucklepin_a32_finish(&guest, LDR, &values, &transfer, &addresses, &given) == 0 && SAME(guest, expected));

    /* Refusals, with the guest as it was: of the trap; of a state that is unsound, by each way; of VBAR. */
    static const struct {
        uint32_t esr, status, vbar, number;
    } NOT_DONE[] = {
        {0x92000018, 0x10, 0x1000, KNUCKLEPIN_OTHER_EDITIONS}, {0x00000000, 0x10, 0x1000, KNUCKLEPIN_SHORT_INSTRUCTION},
        {0x07e00000, 0x00, 0x1000, KNUCKLEPIN_UNSOUND_STATUS}, {0x07000000, 0x00, 0x1000, KNUCKLEPIN_UNSOUND_STATUS},
        {0x4a000001, 0x00, 0x1000, KNUCKLEPIN_UNSOUND_STATUS}, {0x93830045, 0x00, 0x1000, KNUCKLEPIN_UNSOUND_STATUS},
        {0x92000005, 0x00, 0x1000, KNUCKLEPIN_UNSOUND_STATUS}, {0x92000145, 0x00, 0x1000, KNUCKLEPIN_UNSOUND_STATUS},
        {0x4a000001, 0x10, 0x1001, KNUCKLEPIN_UNALIGNED_VBAR}};
    for (size_t i = 0; i < sizeof NOT_DONE / sizeof *NOT_DONE; i++) {
        guest = user();
        guest.status = NOT_DONE[i].status;
        guest.vbar = NOT_DONE[i].vbar;
        expected = guest;
        done = answered_at(&guest, NOT_DONE[i].esr, 0x8abc, 0x12340, LDR);
        CHECK_AT(done.next == REFUSED && done.number == NOT_DONE[i].number && done.given == 0, NOT_DONE[i].esr);
        CHECK_AT(SAME(guest, expected), NOT_DONE[i].esr);
    }
}

/* ---- A32 loads and stores */

static void a32(void)
{
    struct knucklepin_state state = user(), expected = user();
    struct knucklepin_access access;
    struct knucklepin_list registers, values, addresses, given;
    struct knucklepin_transfer transfer;
    for (uint32_t i = 0; i < 16; i++) values.word[i] = 0xcafe0000 + i;

    /* LDR r2, [r1, #4] */
    UNWRITTEN(access);
    UNWRITTEN(registers);
    CHECK(knucklepin_a32_describe(&state, 0xe5912004, &access, &registers) == 0);
    const struct knucklepin_access ldr = {
        .form = KNUCKLEPIN_LDR, .cond = 0xe, .p = 1, .u = 1, .rn = 1, .rt = 2, .imm = 4, .load = 1, .sas = 2, .count = 1, .address = 0x105};
    const struct knucklepin_list register_2 = {{2}};
    CHECK(SAME(access, ldr) && SAME(registers, register_2));
    UNWRITTEN(transfer);
    UNWRITTEN(addresses);
    UNWRITTEN(given);
    CHECK(knucklepin_a32_finish(&state, 0xe5912004, &values, &transfer, &addresses, &given) == 0);
    expected.regs[2] = 0xcafe0000;
    expected.pc = 0x8004;
    CHECK(SAME(state, expected));
    const struct knucklepin_list at_105 = {{0x105}};
    CHECK(transfer.store == 0 && transfer.count == 1 && SAME(addresses, at_105) && ZEROS(given));

    /* LDMIA r1!, {r2, r3} */
    state = expected = user();
    UNWRITTEN(access);
    UNWRITTEN(registers);
    CHECK(knucklepin_a32_describe(&state, 0xe8b1000c, &access, &registers) == 0);
    const struct knucklepin_access ldm = {.form = KNUCKLEPIN_LDM,
                                          .cond = 0xe,
                                          .u = 1,
                                          .w = 1,
                                          .rn = 1,
                                          .list = 0xc,
                                          .load = 1,
                                          .sas = 2,
                                          .count = 2,
                                          .address = 0x101,
                                          .change = 8};
    const struct knucklepin_list registers_2_3 = {{2, 3}};
    CHECK(SAME(access, ldm) && SAME(registers, registers_2_3));
    UNWRITTEN(transfer);
    UNWRITTEN(addresses);
    UNWRITTEN(given);
    CHECK(knucklepin_a32_finish(&state, 0xe8b1000c, &values, &transfer, &addresses, &given) == 0);
    expected.regs[1] = 0x109;
    expected.regs[2] = 0xcafe0000;
    expected.regs[3] = 0xcafe0001;
    expected.pc = 0x8004;
    CHECK(SAME(state, expected));
    const struct knucklepin_list at_101_105 = {{0x101, 0x105}};
    CHECK(transfer.store == 0 && transfer.count == 2 && SAME(addresses, at_101_105) && ZEROS(given));

    /* STMDB sp!, {r4, lr} */
    state = expected = user();
    UNWRITTEN(access);
    UNWRITTEN(registers);
    CHECK(knucklepin_a32_describe(&state, 0xe92d4010, &access, &registers) == 0);
    const struct knucklepin_access stm = {.form = KNUCKLEPIN_STM,
                                          .cond = 0xe,
                                          .p = 1,
                                          .w = 1,
                                          .rn = 13,
                                          .list = 0x4010,
                                          .sas = 2,
                                          .count = 2,
                                          .address = 0x105,
                                          .change = 0xfffffff8};
    const struct knucklepin_list registers_4_14 = {{4, 14}};
    CHECK(SAME(access, stm) && SAME(registers, registers_4_14));
    UNWRITTEN(transfer);
    UNWRITTEN(addresses);
    UNWRITTEN(given);
    CHECK(knucklepin_a32_finish(&state, 0xe92d4010, &values, &transfer, &addresses, &given) == 0);
    expected.regs[13] = 0x105;
    expected.pc = 0x8004;
    CHECK(SAME(state, expected));
    const struct knucklepin_list at_105_109 = {{0x105, 0x109}}, stored = {{0x104, 0x10e}};
    CHECK(transfer.store == 1 && transfer.count == 2 && SAME(addresses, at_105_109) && SAME(given, stored));

    /* LDRSB r2, [r1, -r3] */
    state = user();
    CHECK(knucklepin_a32_describe(&state, 0xe11120d3, &access, &registers) == 0);
    const struct knucklepin_access ldrsb = {.form = KNUCKLEPIN_LDRSB + KNUCKLEPIN_REGISTER,
                                            .cond = 0xe,
                                            .p = 1,
                                            .rn = 1,
                                            .rt = 2,
                                            .rm = 3,
                                            .load = 1,
                                            .sse = 1,
                                            .count = 1,
                                            .address = 0xfffffffe};
    CHECK(SAME(access, ldrsb));

    /* Each transfer with [r1, #4]; LDR r2, [r1, r3] and LDR r2, [pc, #8]; the words come back, and 0 (ANDEQ) is no load or store. */
    CHECK(knucklepin_a32_form(0xe5912004) == KNUCKLEPIN_LDR && knucklepin_a32_form(0xe5812004) == KNUCKLEPIN_STR);
    CHECK(knucklepin_a32_form(0xe5d12004) == KNUCKLEPIN_LDRB && knucklepin_a32_form(0xe5c12004) == KNUCKLEPIN_STRB);
    CHECK(knucklepin_a32_form(0xe1d120b4) == KNUCKLEPIN_LDRH && knucklepin_a32_form(0xe1c120b4) == KNUCKLEPIN_STRH);
    CHECK(knucklepin_a32_form(0xe1d120d4) == KNUCKLEPIN_LDRSB && knucklepin_a32_form(0xe1d120f4) == KNUCKLEPIN_LDRSH);
    CHECK(knucklepin_a32_form(0xe1c120d4) == KNUCKLEPIN_LDRD && knucklepin_a32_form(0xe1c120f4) == KNUCKLEPIN_STRD);
    CHECK(knucklepin_a32_form(0xe891000c) == KNUCKLEPIN_LDM && knucklepin_a32_form(0xe881000c) == KNUCKLEPIN_STM);
    CHECK(knucklepin_a32_form(0xe7912003) == KNUCKLEPIN_LDR + KNUCKLEPIN_REGISTER);
    CHECK(knucklepin_a32_form(0xe59f2008) == KNUCKLEPIN_LDR + KNUCKLEPIN_LITERAL);
    CHECK(knucklepin_a32_form(0xe92d4010) == KNUCKLEPIN_STM);
    CHECK(knucklepin_a32_form(0) == NONE);
    CHECK(knucklepin_a32_rewrite(0xe7912003) == 0xe7912003);
    CHECK(knucklepin_a32_rewrite(0xffffffff) == NONE);

    /* Refusals: an unsound state first, then T32 state, then the word. */
    static const struct {
        uint32_t status, word, number;
    } REFUSED[] = {{0x10, 0, KNUCKLEPIN_NO_FORM}, {0x30, 0xe5912004, KNUCKLEPIN_NO_FORM}, {0xffffffff, 0, KNUCKLEPIN_UNSOUND_STATUS}};
    for (size_t i = 0; i < 3; i++) {
        state = user();
        state.status = REFUSED[i].status;
        expected = state;
        UNWRITTEN(access);
        UNWRITTEN(registers);
        UNWRITTEN(transfer);
        UNWRITTEN(addresses);
        UNWRITTEN(given);
        CHECK(knucklepin_a32_describe(&state, REFUSED[i].word, &access, &registers) == REFUSED[i].number);
        CHECK(ZEROS(access) && ZEROS(registers));
        CHECK(knucklepin_a32_finish(&state, REFUSED[i].word, &values, &transfer, &addresses, &given) == REFUSED[i].number);
        CHECK(ZEROS(transfer) && ZEROS(addresses) && ZEROS(given) && SAME(state, expected));
    }
}

/* ---- logs */

static void logs(void)
{
    /* The log of docs/FITTER.md: editions 0 and 1, one trap, one injection with domain 7. */
    const uint8_t bytes[45] = "\2\0\0\0\0\1\1\0\0\0\30\0\0\222\0\0\0\0\1\0\0\0\274\212\0\0\0\0\0\0\100\43\1\0\0\0\0\0\1\0\0\0\4\7";
    const uint8_t editions[] = {0, 1};
    const struct knucklepin_esr syndromes[] = {{0x92000018}};
    const struct knucklepin_far fars[] = {{0x8abc}};
    const struct knucklepin_hpfar hpfars[] = {{0x12340}};
    const uint16_t injected[] = {0x0704}, wide[] = {0x1004};
    struct knucklepin_log_answer answer;
    struct knucklepin_log_entry entry;
    uint8_t buffer[46], untouched[46];
    uint64_t length;

    UNWRITTEN(answer);
    CHECK(knucklepin_log_read(bytes, 44, &answer) == 0 && answer.gone == 9 && answer.section == 0);
    CHECK(knucklepin_log_read(bytes, 45, &answer) == KNUCKLEPIN_LOG_LEFT_OVER && ZEROS(answer));
    CHECK(knucklepin_log_read(bytes, 43, &answer) == KNUCKLEPIN_LOG_CUT_SHORT && answer.gone == 0 && answer.section == 4);
    CHECK(knucklepin_log_read(bytes, 3, &answer) == KNUCKLEPIN_LOG_CUT_SHORT && answer.gone == 0 && answer.section == 1);
    CHECK(knucklepin_log_read(bytes, 0, &answer) == KNUCKLEPIN_LOG_CUT_SHORT && answer.gone == 0 && answer.section == 1);
    static const uint8_t large[65537];
    CHECK(knucklepin_log_read(large, 65537, &answer) == KNUCKLEPIN_LOG_TOO_LONG && ZEROS(answer));

    UNWRITTEN(entry);
    knucklepin_log_look(bytes, 44, 0, 1, &entry);
    CHECK(entry.whole == 1 && entry.count == 2 && entry.entry == KNUCKLEPIN_ENTRY_EDITION && entry.first == 1 && entry.second == 0);
    knucklepin_log_look(bytes, 44, 1, 0, &entry);
    CHECK(entry.whole == 1 && entry.count == 1 && entry.entry == KNUCKLEPIN_ENTRY_SYNDROME && entry.first == 0x92000018 &&
          entry.second == 0);
    knucklepin_log_look(bytes, 44, 2, 0, &entry);
    CHECK(entry.entry == KNUCKLEPIN_ENTRY_ADDRESS && entry.first == 0x8abc && entry.second == 0x12340);
    knucklepin_log_look(bytes, 44, 3, 0, &entry);
    CHECK(entry.entry == KNUCKLEPIN_ENTRY_INJECTION && entry.first == 4 && entry.second == 7);
    knucklepin_log_look(bytes, 44, 3, UINT64_MAX, &entry);
    CHECK(entry.whole == 1 && entry.count == 1 && entry.entry == KNUCKLEPIN_NO_ENTRY && entry.first == 0 && entry.second == 0);
    knucklepin_log_look(bytes, 44, 0xffffffff, 0, &entry);
    CHECK(entry.entry == KNUCKLEPIN_NO_ENTRY);
    knucklepin_log_look(bytes, 0, 0, 0, &entry);
    CHECK(ZEROS(entry));

    UNWRITTEN(buffer);
    UNWRITTEN(untouched);
    UNWRITTEN(length);
    CHECK(knucklepin_log_write(editions, 2, syndromes, 1, fars, 1, hpfars, 1, injected, 1, buffer, 46, &length) == 0 && length == 44);
    CHECK(memcmp(buffer, bytes, 44) == 0 && buffer[44] == 0xa5 && buffer[45] == 0xa5);
    UNWRITTEN(buffer);
    CHECK(knucklepin_log_write(editions, 2, syndromes, 1, fars, 1, hpfars, 1, injected, 1, buffer, 43, &length) == KNUCKLEPIN_LOG_NO_ROOM);
    CHECK(length == 0 && SAME(buffer, untouched));
    CHECK(knucklepin_log_write(editions, 2, syndromes, 1, fars, 0, hpfars, 1, injected, 1, buffer, 46, &length) == KNUCKLEPIN_LOG_UNEQUAL);
    CHECK(knucklepin_log_write(editions, 2, syndromes, 1, fars, 1, hpfars, 1, wide, 1, buffer, 0, &length) == KNUCKLEPIN_WIDE_DOMAIN);
    CHECK(knucklepin_log_write(large, 65521, syndromes, 0, fars, 0, hpfars, 0, injected, 0, buffer, 0, &length) == KNUCKLEPIN_LOG_TOO_LONG);
    CHECK(length == 0 && SAME(buffer, untouched));
    CHECK(knucklepin_log_write(editions, 0, syndromes, 0, fars, 0, hpfars, 0, injected, 0, buffer, 16, &length) == 0 && length == 16);
}

/* ---- what the header says of every call */

/* Each refusal in its place among the call's tests, where the questions above leave it open. */
static void orders(void)
{
    struct knucklepin_record record = {.kind = KNUCKLEPIN_KIND_CALL, .call = {.ec = 0x18, .imm16 = 0x10000}};
    struct knucklepin_short_record short_record, short_read;
    struct knucklepin_esr esr;
    struct knucklepin_hsr hsr = {UINT32_MAX};
    struct knucklepin_editions editions;
    struct knucklepin_log_answer answer;
    uint64_t length;

    /* Class 0x16 with IL 0; an HVC with bit 16 set, and with IL 0 too. */
    CHECK(reads(0, 0x158000000, KNUCKLEPIN_UPPER_HALF, 0, 0));
    CHECK(reads(0, 0x58000000, KNUCKLEPIN_UNKNOWN_CLASS, 0, 0));
    CHECK(reads(0, 0x48010000, KNUCKLEPIN_SHORT_INSTRUCTION, 0, 0));
    CHECK(reads(0, 0x4a010000, KNUCKLEPIN_NO_EDITION, 0, 0));
    CHECK(knucklepin_hsr_read(2, hsr, &short_read, &editions) == KNUCKLEPIN_UNKNOWN_EDITION);
    CHECK(knucklepin_short_read(0, 0x58000000) == KNUCKLEPIN_UNKNOWN_CLASS);
    CHECK(knucklepin_short_read(0, 0x48010000) == KNUCKLEPIN_SHORT_INSTRUCTION);
    CHECK(knucklepin_short_read(0, 0x4a010000) == KNUCKLEPIN_NO_EDITION);

    /* A call of a class that its kind lacks, then an HVC, with IL 0 and an immediate that doesn't fit; then with IL 1. Of an SMC of AArch64
       with IL 0 the class comes first, from AArch32. */
    CHECK(unwritten(16, &record, KNUCKLEPIN_UNKNOWN_EDITION));
    CHECK(unwritten(0, &record, KNUCKLEPIN_NO_EDITION));
    record.call.ec = 0x12;
    CHECK(unwritten(0, &record, KNUCKLEPIN_SHORT_INSTRUCTION));
    memcpy(&short_record, &record, sizeof record);
    record.call.il = 1;
    CHECK(unwritten(0, &record, KNUCKLEPIN_NO_EDITION));
    record.call.il = 0;
    record.call.ec = 0x17;
    CHECK(unwritten(0, &record, KNUCKLEPIN_NO_EDITION));
    CHECK(esr_write(KNUCKLEPIN_AARCH64, 0, &record, &esr, &editions) == KNUCKLEPIN_SHORT_INSTRUCTION);
    CHECK(knucklepin_hsr_write(0, &short_record, &hsr, &editions) == KNUCKLEPIN_SHORT_INSTRUCTION);
    short_record.call.ec = 0x16;
    CHECK(knucklepin_hsr_write(0, &short_record, &hsr, &editions) == KNUCKLEPIN_NO_EDITION);
    CHECK(knucklepin_hsr_write(2, &short_record, &hsr, &editions) == KNUCKLEPIN_UNKNOWN_EDITION);

    /* One syndrome, no address, an injection with domain 16, and a byte more; and the injection alone. */
    static const uint8_t unequal[27] = {[4] = 1, [20] = 1, [24] = 4, [25] = 16}, wide[18] = {[12] = 1, [16] = 4, [17] = 16};
    static uint8_t ones[65537];
    memset(ones, 0xff, sizeof ones);
    CHECK(knucklepin_log_read(ones, 65537, &answer) == KNUCKLEPIN_LOG_TOO_LONG && ZEROS(answer));
    CHECK(knucklepin_log_read(ones, 65536, &answer) == KNUCKLEPIN_LOG_CUT_SHORT && answer.gone == 0 && answer.section == 1);
    CHECK(knucklepin_log_read(unequal, 25, &answer) == KNUCKLEPIN_LOG_CUT_SHORT && answer.gone == 0 && answer.section == 4);
    CHECK(knucklepin_log_read(unequal, 27, &answer) == KNUCKLEPIN_LOG_LEFT_OVER && ZEROS(answer));
    CHECK(knucklepin_log_read(unequal, 26, &answer) == KNUCKLEPIN_LOG_UNEQUAL && ZEROS(answer));
    CHECK(knucklepin_log_read(wide, 18, &answer) == KNUCKLEPIN_WIDE_DOMAIN && ZEROS(answer));

    const struct knucklepin_esr syndrome = {0};
    const uint16_t injection = 0x1004;
    uint8_t buffer[1];
    CHECK(knucklepin_log_write(ones, 65521, &syndrome, 1, NULL, 0, NULL, 0, &injection, 1, buffer, 0, &length) == KNUCKLEPIN_LOG_TOO_LONG);
    CHECK(knucklepin_log_write(ones, 0, &syndrome, 1, NULL, 0, NULL, 0, &injection, 1, buffer, 0, &length) == KNUCKLEPIN_LOG_UNEQUAL);
    CHECK(knucklepin_log_write(ones, 0, NULL, 0, NULL, 0, NULL, 0, &injection, 1, buffer, 0, &length) == KNUCKLEPIN_WIDE_DOMAIN);
    CHECK(knucklepin_log_write(ones, 0, NULL, 0, NULL, 0, NULL, 0, NULL, 0, buffer, 0, &length) == KNUCKLEPIN_LOG_NO_ROOM);
}

/* What a refusal leaves that isn't zero, and what is made of numbers that mean nothing. */
static void odd_numbers(void)
{
    struct knucklepin_state state = user(), expected;
    struct knucklepin_pending pending;
    struct knucklepin_record record;
    struct knucklepin_access access;
    struct knucklepin_list registers;
    struct knucklepin_log_entry entry;

    /* 0x15 is the abort raised three times; a refused delivery leaves the queue as it was read, and so does one that is masked. */
    CHECK(knucklepin_raise(0x15, 0) == KNUCKLEPIN_ABORT);
    state.status = 0x110;
    state.vbar = 1;
    expected = state;
    pending.queue = 0x15;
    CHECK(knucklepin_deliver(&state, &pending) == KNUCKLEPIN_UNALIGNED_VBAR && pending.queue == KNUCKLEPIN_ABORT && pending.delivered == 0);
    pending.queue = KNUCKLEPIN_EMPTY;
    CHECK(knucklepin_deliver(&state, &pending) == KNUCKLEPIN_UNALIGNED_VBAR && ZEROS(pending));
    CHECK(SAME(state, expected));
    state.vbar = 0;
    pending.queue = 0x15;
    CHECK(knucklepin_deliver(&state, &pending) == 0 && pending.queue == KNUCKLEPIN_ABORT && pending.delivered == 0);

    /* An HVC and a data abort have no condition, and words that are no record neither: whatever the flags are, they pass. */
    record = record_of(0x4a000001);
    CHECK(knucklepin_passes(0, &record) == 1 && knucklepin_passes(UINT32_MAX, &record) == 1);
    record = record_of(0x93830045);
    CHECK(knucklepin_passes(0, &record) == 1 && knucklepin_passes(UINT32_MAX, &record) == 1);
    for (int which = 0; which < NO_RECORDS; which++) {
        record = no_record(which);
        CHECK(knucklepin_passes(0, &record) == 1 && knucklepin_passes(UINT32_MAX, &record) == 1);
    }

    /* LDR r2, [pc, #8]: P, W and Rn aren't fields of a literal. */
    const struct knucklepin_access literal = {.form = KNUCKLEPIN_LDR + KNUCKLEPIN_LITERAL,
                                              .cond = 0xe,
                                              .u = 1,
                                              .rt = 2,
                                              .imm = 8,
                                              .load = 1,
                                              .sas = 2,
                                              .count = 1,
                                              .address = 0x8010};
    state = user();
    UNWRITTEN(access);
    CHECK(knucklepin_a32_describe(&state, 0xe59f2008, &access, &registers) == 0 && SAME(access, literal));

    /* A log without entries has no fifth section; cut within its second count it has a first section alone. */
    static const uint8_t empty[16];
    static const uint32_t passed[] = {4, 5, UINT32_MAX};
    for (size_t i = 0; i < sizeof passed / sizeof *passed; i++) {
        UNWRITTEN(entry);
        knucklepin_log_look(empty, 16, passed[i], 0, &entry);
        CHECK(ZEROS(entry));
        UNWRITTEN(entry);
        knucklepin_log_look(empty, 7, passed[i], 0, &entry);
        CHECK(ZEROS(entry));
    }
    knucklepin_log_look(empty, 7, 0, 0, &entry);
    CHECK(entry.whole == 1 && entry.count == 0 && entry.entry == KNUCKLEPIN_NO_ENTRY);
    for (uint32_t n = 1; n < 4; n++) {
        UNWRITTEN(entry);
        knucklepin_log_look(empty, 7, n, 0, &entry);
        CHECK(ZEROS(entry));
    }
}

int main(void)
{
    words();
    short_words();
    fields();
    traps();
    modes();
    chip();
    abort_causes();
    a32_words();
    said();
    injections();
    interrupts();
    going_on();
    monitor();
    a32();
    logs();
    orders();
    odd_numbers();
    printf("calls: %u answers as worked out by hand, %u others\n", checks - wrong, wrong);
    return wrong != 0;
}
