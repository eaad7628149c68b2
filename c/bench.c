/* Six calls beside the plain C of c/plain.c, for .ci/bench. With a number it makes each call so many times on pseudo-random questions, and
   compares the answers; it ends with status 1 where two differ. Without one it makes each call on questions that are taken, each of them
   by nothing, by the library and by the plain C in turn, with a mark before and after it for c/count.c. */
#include "plain.h"
#include "questions.h"

#include <inttypes.h>
#include <stdio.h>
#include <stdlib.h>
#include <unistd.h>

/* How many questions are measured of each call. */
enum { MEASURED = 200 };

/* As in c/count.c. */
enum { MARK = 9999 };

long syscall(long number, ...);

/* All that a call is handed, and all that it gives. */
struct room {
    uint32_t number, origin, edition, injection, fault, level, write, domain, value, given, word;
    uint64_t address;
    struct knucklepin_esr esr;
    struct knucklepin_far far;
    struct knucklepin_hpfar hpfar;
    struct knucklepin_record record;
    struct knucklepin_editions editions;
    struct knucklepin_trap trap;
    struct knucklepin_state state;
    struct knucklepin_pending pending;
    struct knucklepin_list values, addresses, given_list;
    struct knucklepin_transfer transfer;
};

/* ---- questions */

static void asks_syndrome(struct room *r)
{
    r->origin = below(2);
    r->edition = edition();
    r->esr.word = wide_syndrome();
    r->far.word = seldom(8) ? any() : any32();
    r->hpfar.word = seldom(8) ? any() : any() & UINT64_C(0xfffffffff0);
}

static void asks_injection(struct room *r)
{
    r->state = state();
    r->injection = mostly_below(5);
    r->fault = mostly_below(5);
    r->level = mostly_below(5);
    r->write = below(2);
    r->domain = mostly_below(17);
    r->address = seldom(16) ? any() : any32();
}

static void asks_delivery(struct room *r)
{
    r->state = state();
    r->pending.queue = seldom(4) ? any32() : below(64);
}

static void asks_access(struct room *r)
{
    r->state = state();
    r->record = record(KNUCKLEPIN_AARCH32);
    r->value = any32();
}

static void asks_list(struct room *r)
{
    r->state = state();
    r->word = 0xe8900000 | (any32() & 0x013fffff);
    if (seldom(4)) r->word ^= any32() & 0xf1f00000;
    for (size_t i = 0; i < 16; i++) r->values.word[i] = any32();
}

/* What is taken and counts: an interrupt is delivered; of a list four registers are loaded. */
static bool counts(const struct room *r)
{
    (void)r;
    return true;
}

static bool delivered(const struct room *r)
{
    return r->pending.delivered != 0;
}

static bool four_loaded(const struct room *r)
{
    return r->transfer.store == 0 && r->transfer.count == 4;
}

/* ---- the calls */

static uint32_t esr_read(struct room *r)
{
    return knucklepin_esr_read(r->origin, r->edition, r->esr, &r->record, &r->editions);
}

static uint32_t esr_read_plain(struct room *r)
{
    return plain_esr_read(r->origin, r->edition, r->esr, &r->record, &r->editions);
}

static uint32_t trap_read(struct room *r)
{
    return knucklepin_trap_read(r->origin, r->edition, r->esr, r->far, r->hpfar, &r->trap, &r->editions);
}

static uint32_t trap_read_plain(struct room *r)
{
    return plain_trap_read(r->origin, r->edition, r->esr, r->far, r->hpfar, &r->trap, &r->editions);
}

static uint32_t inject(struct room *r)
{
    return knucklepin_inject(&r->state, r->injection, r->fault, r->level, r->address, r->write, r->domain);
}

static uint32_t inject_plain(struct room *r)
{
    return plain_inject(&r->state, r->injection, r->fault, r->level, r->address, r->write, r->domain);
}

static uint32_t deliver(struct room *r)
{
    return knucklepin_deliver(&r->state, &r->pending);
}

static uint32_t deliver_plain(struct room *r)
{
    return plain_deliver(&r->state, &r->pending);
}

static uint32_t finish(struct room *r)
{
    return knucklepin_finish(&r->state, &r->record, r->value, &r->given);
}

static uint32_t finish_plain(struct room *r)
{
    return plain_finish(&r->state, &r->record, r->value, &r->given);
}

static uint32_t list_finish(struct room *r)
{
    return knucklepin_a32_finish(&r->state, r->word, &r->values, &r->transfer, &r->addresses, &r->given_list);
}

static uint32_t list_finish_plain(struct room *r)
{
    return plain_list_finish(&r->state, r->word, &r->values, &r->transfer, &r->addresses, &r->given_list);
}

static uint32_t nothing(struct room *r)
{
    return r->number;
}

typedef uint32_t call(struct room *r);

static const struct {
    const char *name;
    void (*asks)(struct room *r);
    bool (*measured)(const struct room *r);
    call *library, *plain;
} CALLS[] = {
    {"esr_read", asks_syndrome, counts, esr_read, esr_read_plain},
    {"trap_read", asks_syndrome, counts, trap_read, trap_read_plain},
    {"inject", asks_injection, counts, inject, inject_plain},
    {"finish", asks_access, counts, finish, finish_plain},
    {"deliver", asks_delivery, delivered, deliver, deliver_plain},
    {"a32_finish, LDM of four", asks_list, four_loaded, list_finish, list_finish_plain},
};

enum { COUNT = sizeof CALLS / sizeof *CALLS };

static struct room ask(size_t i)
{
    struct room r;
    memset(&r, 0, sizeof r);
    CALLS[i].asks(&r);
    return r;
}

static uint64_t compared(size_t i, uint64_t times)
{
    uint64_t others = 0, taken = 0;
    for (uint64_t n = 0; n < times; n++) {
        struct room one = ask(i), other;
        memcpy(&other, &one, sizeof other);
        one.number = CALLS[i].library(&one);
        other.number = CALLS[i].plain(&other);
        others += memcmp(&one, &other, sizeof one) != 0;
        taken += one.number == KNUCKLEPIN_TAKEN;
    }
    printf("%s: %" PRIu64 " questions, %" PRIu64 " taken, %" PRIu64 " differences\n", CALLS[i].name, times, taken, others);
    return others;
}

static void measure(size_t i)
{
    call *const turns[] = {nothing, CALLS[i].library, CALLS[i].plain};
    for (unsigned n = 0; n < MEASURED;) {
        const struct room asked = ask(i);
        struct room r = asked;
        if (CALLS[i].library(&r) != KNUCKLEPIN_TAKEN || !CALLS[i].measured(&r)) continue;
        for (size_t turn = 0; turn < 3; turn++) {
            r = asked;
            syscall(MARK);
            turns[turn](&r);
            syscall(MARK);
        }
        n++;
    }
    printf("%s\n", CALLS[i].name);
}

int main(int count, char **words)
{
    uint64_t others = 0;
    for (size_t i = 0; i < COUNT; i++) {
        seed = i;
        if (count > 1) {
            others += compared(i, strtoull(words[1], NULL, 10));
        } else {
            measure(i);
        }
    }
    return others != 0;
}
