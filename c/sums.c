/* Makes many calls on pseudo-random numbers and prints, for each call, how many were made, how many answered 0 and a sum over all that they
   gave. Two machines on which the calls answer alike print the same lines, so no two numbers are drawn in one expression whose order the
   language leaves free. The argument is how many times each call is made. */
#include "questions.h"

#include <inttypes.h>
#include <stdio.h>
#include <stdlib.h>

/* ---- the sum */

struct sum {
    uint64_t taken, sum;
};

static void add(struct sum *sum, const void *place, size_t size)
{
    const unsigned char *byte = place;
    for (size_t i = 0; i < size; i++) sum->sum = (sum->sum ^ byte[i]) * UINT64_C(0x100000001b3);
}

#define ADD(sum, place) add(sum, &(place), sizeof(place))

static void answered(struct sum *sum, uint32_t number)
{
    sum->taken += number == KNUCKLEPIN_TAKEN;
    ADD(sum, number);
}

/* ---- the calls */

static void esr_read(struct sum *sum)
{
    struct knucklepin_record record;
    struct knucklepin_editions editions;
    const struct knucklepin_esr esr = {wide_syndrome()};
    uint32_t origin = below(3);
    answered(sum, knucklepin_esr_read(origin, edition(), esr, &record, &editions));
    ADD(sum, record);
    ADD(sum, editions);
}

static void esr_write(struct sum *sum)
{
    uint32_t origin = below(2);
    const struct knucklepin_record asked = record(origin);
    struct knucklepin_esr esr;
    struct knucklepin_editions editions;
    answered(sum, knucklepin_esr_write(origin, edition(), &asked, &esr, &editions));
    ADD(sum, esr);
    ADD(sum, editions);
}

static void hsr_read(struct sum *sum)
{
    struct knucklepin_short_record record;
    struct knucklepin_editions editions;
    const struct knucklepin_hsr hsr = {syndrome()};
    answered(sum, knucklepin_hsr_read(short_edition(), hsr, &record, &editions));
    ADD(sum, record);
    ADD(sum, editions);
}

static void hsr_write(struct sum *sum)
{
    const struct knucklepin_short_record asked = short_record();
    struct knucklepin_hsr hsr;
    struct knucklepin_editions editions;
    answered(sum, knucklepin_hsr_write(short_edition(), &asked, &hsr, &editions));
    ADD(sum, hsr);
    ADD(sum, editions);
}

static void widen(struct sum *sum)
{
    const struct knucklepin_short_record asked = short_record();
    struct knucklepin_record wide;
    answered(sum, knucklepin_widen(mode(), &asked, &wide));
    ADD(sum, wide);
}

static void trap_read(struct sum *sum)
{
    struct knucklepin_trap trap;
    struct knucklepin_editions editions;
    const struct knucklepin_esr esr = {wide_syndrome()};
    const struct knucklepin_far far = {seldom(8) ? any() : any32()};
    const struct knucklepin_hpfar hpfar = {seldom(8) ? any() : any() & UINT64_C(0xffffffffff0)};
    uint32_t origin = below(2);
    answered(sum, knucklepin_trap_read(origin, edition(), esr, far, hpfar, &trap, &editions));
    ADD(sum, trap.syndrome);
    ADD(sum, trap.known);
    ADD(sum, trap.addresses);
    ADD(sum, editions);
}

static void held_in(struct sum *sum)
{
    uint32_t asked = mode();
    uint32_t number = knucklepin_held_in(asked, below(17));
    sum->taken += number != KNUCKLEPIN_NOWHERE;
    ADD(sum, number);
}

static void from_spsr(struct sum *sum)
{
    uint32_t pan = below(2), ssbs = below(2), dit = below(3), spsr = status(), word;
    spsr |= below(2) << 24;
    answered(sum, knucklepin_from_spsr(pan, ssbs, dit, spsr, &word));
    ADD(sum, word);
}

static void to_spsr(struct sum *sum)
{
    uint32_t pan = below(2), ssbs = below(2), dit = below(3), asked = status(), word;
    asked |= below(2) << 21;
    answered(sum, knucklepin_to_spsr(pan, ssbs, dit, asked, &word));
    ADD(sum, word);
}

static void chip(struct sum *sum)
{
    const struct knucklepin_id_aa64pfr0 pfr0 = {any() & any()};
    const struct knucklepin_id_aa64mmfr0 mmfr0 = {any() & any()};
    const struct knucklepin_id_aa64mmfr1 mmfr1 = {any() & any()};
    const struct knucklepin_id_pfr0 short_pfr0 = {any() & any()};
    const struct knucklepin_id_pfr2 pfr2 = {any() & any()};
    const struct knucklepin_id_mmfr3 mmfr3 = {any() & any()};
    const struct knucklepin_spsr spsr = {any()};
    const struct knucklepin_hcr hcr = {any()};
    struct knucklepin_marks marks;
    uint32_t origin;
    uint32_t board = knucklepin_edition(pfr0, mmfr0, mmfr1);
    uint32_t short_board = knucklepin_short_edition(short_pfr0);
    knucklepin_marks(mmfr3, pfr2, short_pfr0, &marks);
    uint32_t ran = knucklepin_ran(spsr, hcr, &origin);
    sum->taken += ran == KNUCKLEPIN_RAN_GUEST;
    ADD(sum, board);
    ADD(sum, short_board);
    ADD(sum, marks);
    ADD(sum, ran);
    ADD(sum, origin);
}

static void cause(struct sum *sum)
{
    uint32_t origin = below(2);
    const struct knucklepin_record asked = record(origin);
    struct knucklepin_cause found;
    answered(sum, knucklepin_cause(origin, &asked, &found));
    ADD(sum, found);
}

static void explain(struct sum *sum)
{
    uint8_t text[4096];
    const struct knucklepin_esr esr = {wide_syndrome()};
    const struct knucklepin_far far = {seldom(8) ? any() : any32()};
    const struct knucklepin_hpfar hpfar = {seldom(8) ? any() : any() & UINT64_C(0xffffffffff0)};
    const struct knucklepin_hsr hsr = {syndrome()};
    uint32_t board = edition(), short_board = short_edition();
    uint64_t room = seldom(4) ? below(sizeof text) : sizeof text;
    memset(text, 0, sizeof text);
    uint64_t length = knucklepin_explain_word(board, esr, text, room);
    ADD(sum, length);
    ADD(sum, text);
    length = knucklepin_explain_trap(board, esr, far, hpfar, text, room);
    sum->taken += text[0] == 't';
    ADD(sum, length);
    ADD(sum, text);
    length = knucklepin_explain_short(short_board, hsr, text, room);
    ADD(sum, length);
    ADD(sum, text);
}

static void inject(struct sum *sum)
{
    struct knucklepin_state guest = state();
    uint32_t injection = mostly_below(5), fault = mostly_below(5), level = mostly_below(5), write = below(3), domain = mostly_below(17);
    uint64_t address = seldom(16) ? any() : any32();
    uint32_t correction = knucklepin_injection_correction(&guest, injection);
    answered(sum, knucklepin_inject(&guest, injection, fault, level, address, write, domain));
    ADD(sum, correction);
    ADD(sum, guest);
}

static void raise_and_deliver(struct sum *sum)
{
    struct knucklepin_state guest = state();
    uint32_t correction = knucklepin_delivery_correction(&guest, mostly_below(5));
    struct knucklepin_pending pending = {seldom(4) ? any32() : 0, 0xa5a5a5a5};
    for (uint32_t i = below(4); i > 0; i--) pending.queue = knucklepin_raise(pending.queue, mostly_below(5));
    answered(sum, knucklepin_deliver(&guest, &pending));
    ADD(sum, correction);
    ADD(sum, pending);
    ADD(sum, guest);
}

static void resume(struct sum *sum)
{
    struct knucklepin_state guest = state();
    answered(sum, knucklepin_resume(&guest, seldom(4) ? any32() : 4 * below(3)));
    ADD(sum, guest);
}

static void step_over(struct sum *sum)
{
    const struct knucklepin_record asked = record(KNUCKLEPIN_AARCH32);
    struct knucklepin_state guest = state();
    uint32_t passes = knucklepin_passes(guest.status, &asked);
    answered(sum, knucklepin_step_over(&guest, &asked));
    ADD(sum, passes);
    ADD(sum, guest);
}

static void finish(struct sum *sum)
{
    const struct knucklepin_record asked = record(KNUCKLEPIN_AARCH32);
    struct knucklepin_state guest = state();
    uint32_t given;
    answered(sum, knucklepin_finish(&guest, &asked, any32(), &given));
    ADD(sum, given);
    ADD(sum, guest);
}

static void coprocessor_finish(struct sum *sum)
{
    const struct knucklepin_record asked = record(KNUCKLEPIN_AARCH32);
    struct knucklepin_state guest = state();
    struct knucklepin_pair given;
    uint32_t first = any32(), second = any32();
    answered(sum, knucklepin_coprocessor_finish(&guest, &asked, first, second, &given));
    ADD(sum, given);
    ADD(sum, guest);
}

static void a32_describe(struct sum *sum)
{
    const struct knucklepin_state guest = state();
    struct knucklepin_access access;
    struct knucklepin_list registers;
    answered(sum, knucklepin_a32_describe(&guest, instruction(), &access, &registers));
    ADD(sum, access);
    ADD(sum, registers);
}

static void a32_encode(struct sum *sum)
{
    const struct knucklepin_state guest = state();
    struct knucklepin_access access;
    struct knucklepin_list registers;
    uint32_t number;
    do {
        number = knucklepin_a32_describe(&guest, instruction(), &access, &registers);
    } while (number == KNUCKLEPIN_NO_FORM && (guest.status & 0x20) == 0);
    if (seldom(8)) access.form = mostly_below(50);
    if (seldom(4)) access.rn = mostly_below(17);
    if (seldom(4)) access.imm = mostly_below(257);
    uint32_t word;
    answered(sum, knucklepin_a32_encode(&access, &word));
    ADD(sum, word);
}

static void a32_finish(struct sum *sum)
{
    struct knucklepin_state guest = state();
    struct knucklepin_list values, addresses, given;
    struct knucklepin_transfer transfer;
    for (size_t i = 0; i < 16; i++) values.word[i] = any32();
    answered(sum, knucklepin_a32_finish(&guest, instruction(), &values, &transfer, &addresses, &given));
    ADD(sum, transfer);
    ADD(sum, addresses);
    ADD(sum, given);
    ADD(sum, guest);
}

/* A log is written, changed in places, looked into and read. */
static void logs(struct sum *sum)
{
    uint8_t editions[4], buffer[128] = {0};
    struct knucklepin_esr syndromes[3];
    struct knucklepin_far fars[3];
    struct knucklepin_hpfar hpfars[3];
    uint16_t injections[3];
    for (size_t i = 0; i < 4; i++) editions[i] = (uint8_t)any32();
    for (size_t i = 0; i < 3; i++) {
        syndromes[i].word = any();
        fars[i].word = any();
        hpfars[i].word = any();
        injections[i] = (uint16_t)(any32() & 0x0fff);
        if (seldom(16)) injections[i] |= 0x1000;
    }
    uint64_t edition_count = below(5), syndrome_count = below(4), injection_count = below(4), length;
    uint64_t far_count = seldom(8) ? below(4) : syndrome_count, hpfar_count = seldom(8) ? below(4) : syndrome_count;
    uint64_t room = seldom(4) ? below(129) : 128;
    answered(sum, knucklepin_log_write(editions, edition_count, syndromes, syndrome_count, fars, far_count, hpfars, hpfar_count, injections,
                                       injection_count, buffer, room, &length));
    ADD(sum, length);
    ADD(sum, buffer);
    if (seldom(2)) {
        uint32_t place = below(128);
        buffer[place] = (uint8_t)below(8);
    }
    if (seldom(4)) length = below(129);
    struct knucklepin_log_answer answer;
    uint32_t number = knucklepin_log_read(buffer, length, &answer);
    struct knucklepin_log_entry found;
    uint32_t passed = mostly_below(6);
    knucklepin_log_look(buffer, length, passed, seldom(16) ? any() : below(4), &found);
    ADD(sum, number);
    ADD(sum, answer);
    ADD(sum, found);
}

static void single_numbers(struct sum *sum)
{
    uint32_t reader = edition(), writer = edition(), word = syndrome(), a32 = instruction();
    uint64_t wide = wide_syndrome();
    const uint64_t answers[] = {
        knucklepin_read(reader, wide),
        knucklepin_rewrite(reader, writer, wide),
        knucklepin_aarch64_read(reader, wide),
        knucklepin_aarch64_rewrite(reader, writer, wide),
        knucklepin_short_read(reader % 3, word),
        knucklepin_short_rewrite(reader % 3, writer % 3, word),
        knucklepin_a32_form(a32),
        knucklepin_a32_rewrite(a32),
    };
    sum->taken += answers[0] == 0;
    ADD(sum, answers);
}

static const struct {
    const char *name;
    void (*call)(struct sum *);
} CALLS[] = {
    {"esr_read", esr_read},
    {"esr_write", esr_write},
    {"hsr_read", hsr_read},
    {"hsr_write", hsr_write},
    {"widen", widen},
    {"trap_read", trap_read},
    {"held_in", held_in},
    {"from_spsr", from_spsr},
    {"to_spsr", to_spsr},
    {"edition, short_edition, marks, ran", chip},
    {"cause", cause},
    {"explain_word, explain_trap, explain_short", explain},
    {"injection_correction, inject", inject},
    {"raise, delivery_correction, deliver", raise_and_deliver},
    {"resume", resume},
    {"passes, step_over", step_over},
    {"finish", finish},
    {"coprocessor_finish", coprocessor_finish},
    {"a32_describe", a32_describe},
    {"a32_encode", a32_encode},
    {"a32_finish", a32_finish},
    {"log_write, log_read, log_look", logs},
    {"the eight that answer one number", single_numbers},
};

int main(int count, char **words)
{
    uint64_t times = count > 1 ? strtoull(words[1], NULL, 10) : 100000;
    for (size_t i = 0; i < sizeof CALLS / sizeof *CALLS; i++) {
        struct sum sum = {0, UINT64_C(0xcbf29ce484222325)};
        seed = i;
        for (uint64_t n = 0; n < times; n++) CALLS[i].call(&sum);
        printf("%s: %" PRIu64 " times, %" PRIu64 " taken, sum %016" PRIx64 "\n", CALLS[i].name, times, sum.taken, sum.sum);
    }
    return 0;
}
