/* Answers the second program's stored rows by the exported calls, and compares each answer with the stored one. Each argument is a folder
   that is named as its program and holds `stdin`, a row a line, and `stdout`, its answer a line: second/README.md tells both. Ends with
   status 1 where an answer differs. */
#include "knucklepin.h"

#include <inttypes.h>
#include <stdbool.h>
#include <stdio.h>
#include <stdlib.h>
#include <string.h>

/* ---- rows and replies */

enum { NUMBERS = 256, ANSWERS = 2048, RECORD = 16, STATE = 48, END = 48 };

struct row {
    size_t count;
    uint64_t number[NUMBERS];
};

struct reply {
    size_t count;
    uint64_t number[ANSWERS];
};

static int digit(char c)
{
    if (c >= '0' && c <= '9') return c - '0';
    if (c >= 'a' && c <= 'f') return c - 'a' + 10;
    if (c >= 'A' && c <= 'F') return c - 'A' + 10;
    return -1;
}

/* The numbers of a line after its word, each after one space. */
static bool numbers(struct row *row, const char *line, size_t length)
{
    size_t at = 0;
    row->count = 0;
    while (at < length) {
        if (line[at] != ' ' || row->count == NUMBERS) return false;
        at++;
        size_t first = at;
        uint64_t n = 0;
        for (; at < length && line[at] != ' '; at++) {
            int d = digit(line[at]);
            if (d < 0 || n >> 60 != 0) return false;
            n = n * 16 + (uint64_t)d;
        }
        if (at == first) return false;
        row->number[row->count++] = n;
    }
    return true;
}

/* Whether a row has every place before `to`, and from `from` on numbers of 32 bits there. */
static bool are_words(const struct row *row, size_t from, size_t to)
{
    if (to > row->count) return false;
    for (size_t i = from; i < to; i++) {
        if (row->number[i] >> 32 != 0) return false;
    }
    return true;
}

/* Whether a row is so many words. */
static bool is_words(const struct row *row, size_t count)
{
    return row->count == count && are_words(row, 0, count);
}

static uint32_t word(const struct row *row, size_t at)
{
    return (uint32_t)row->number[at];
}

static void with(struct reply *reply, uint64_t number)
{
    if (reply->count == ANSWERS) abort();
    reply->number[reply->count++] = number;
}

/* A place that must hold zeros: a number that no answer has stands in the reply where it doesn't. */
static void with_zeros(struct reply *reply, const void *place, size_t size)
{
    const unsigned char *byte = place;
    for (size_t i = 0; i < size; i++) {
        if (byte[i] != 0) {
            with(reply, UINT64_MAX);
            return;
        }
    }
}

/* What a call writes holds other numbers before it. */
#define UNWRITTEN(place) memset(&(place), 0xa5, sizeof(place))

/* A refusal, and after it what the call wrote, which must be zeros. */
static void with_refusal(struct reply *reply, uint32_t number, const struct knucklepin_editions *editions, const void *place, size_t size)
{
    with(reply, number);
    with(reply, editions->mask);
    with(reply, editions->count);
    with_zeros(reply, place, size);
}

static void with_number(struct reply *reply, uint32_t number, const void *place, size_t size)
{
    const struct knucklepin_editions none = {0, 0};
    with_refusal(reply, number, &none, place, size);
}

/* ---- records and states in rows */

/* Some words of a row as they lie in a struct of as many. */
static void words_of(const struct row *row, size_t from, void *place, size_t size)
{
    for (size_t i = 0; i < size / sizeof(uint32_t); i++) {
        uint32_t each = word(row, from + i);
        memcpy((char *)place + i * sizeof each, &each, sizeof each);
    }
}

static struct knucklepin_record record_of(const struct row *row, size_t from)
{
    struct knucklepin_record record;
    words_of(row, from, &record, sizeof record);
    return record;
}

static struct knucklepin_short_record short_record_of(const struct row *row, size_t from)
{
    struct knucklepin_short_record record;
    words_of(row, from, &record, sizeof record);
    return record;
}

static void with_sixteen(struct reply *reply, const void *place)
{
    uint32_t words[16];
    memcpy(words, place, sizeof words);
    for (size_t i = 0; i < 16; i++) with(reply, words[i]);
}

static struct knucklepin_state state_of(const struct row *row, size_t from)
{
    struct knucklepin_state state;
    words_of(row, from, &state, sizeof state);
    return state;
}

/* What a call changed in the state that stands in a row, which then holds the state after it. */
static void with_changes(struct reply *reply, struct row *row, size_t from, const struct knucklepin_state *after)
{
    uint32_t words[STATE];
    memcpy(words, after, sizeof words);
    for (size_t i = 0; i < STATE; i++) {
        if (words[i] != word(row, from + i)) {
            with(reply, i);
            with(reply, words[i]);
            row->number[from + i] = words[i];
        }
    }
}

/* ---- words and whole traps */

static bool read_row(struct row *row, struct reply *reply)
{
    if (row->count != 3 || !are_words(row, 0, 2)) return false;
    struct knucklepin_record record;
    struct knucklepin_editions editions;
    UNWRITTEN(record);
    UNWRITTEN(editions);
    const struct knucklepin_esr esr = {row->number[2]};
    uint32_t number = knucklepin_esr_read(word(row, 0), word(row, 1), esr, &record, &editions);
    if (number != KNUCKLEPIN_TAKEN) {
        with_refusal(reply, number, &editions, &record, sizeof record);
        return true;
    }
    with(reply, 0);
    with_sixteen(reply, &record);
    with_zeros(reply, &editions, sizeof editions);
    return true;
}

/* The answer to writing, and the word. */
static uint32_t written(struct reply *reply, uint32_t origin, uint32_t edition, const struct knucklepin_record *record,
                        struct knucklepin_esr *esr)
{
    struct knucklepin_editions editions;
    UNWRITTEN(*esr);
    UNWRITTEN(editions);
    uint32_t number = knucklepin_esr_write(origin, edition, record, esr, &editions);
    if (number != KNUCKLEPIN_TAKEN) {
        with_refusal(reply, number, &editions, esr, sizeof *esr);
    } else {
        with(reply, 0);
        with_zeros(reply, &editions, sizeof editions);
    }
    return number;
}

static bool write_row(struct row *row, struct reply *reply)
{
    if (!is_words(row, 2 + RECORD)) return false;
    const struct knucklepin_record record = record_of(row, 2);
    struct knucklepin_esr esr;
    if (written(reply, word(row, 0), word(row, 1), &record, &esr) == KNUCKLEPIN_TAKEN) with(reply, esr.word);
    return true;
}

static bool carry_row(struct row *row, struct reply *reply)
{
    if (!is_words(row, 3 + RECORD)) return false;
    const struct knucklepin_record record = record_of(row, 3);
    struct knucklepin_esr esr;
    if (written(reply, word(row, 0), word(row, 1), &record, &esr) != KNUCKLEPIN_TAKEN) return true;
    struct row next = {3, {row->number[0], row->number[2], esr.word}};
    return read_row(&next, reply);
}

static bool again_row(struct row *row, struct reply *reply)
{
    if (row->count != 3 || !are_words(row, 0, 2)) return false;
    struct knucklepin_record record;
    struct knucklepin_editions editions;
    UNWRITTEN(record);
    UNWRITTEN(editions);
    struct knucklepin_esr esr = {row->number[2]};
    uint32_t number = knucklepin_esr_read(word(row, 0), word(row, 1), esr, &record, &editions);
    if (number != KNUCKLEPIN_TAKEN) {
        with_refusal(reply, number, &editions, &record, sizeof record);
    } else if (written(reply, word(row, 0), word(row, 1), &record, &esr) == KNUCKLEPIN_TAKEN) {
        with(reply, esr.word);
    }
    return true;
}

/* The answer to reading a whole trap: whether it is shown. */
static bool trapped(struct reply *reply, uint32_t origin, uint32_t edition, const uint64_t *registers)
{
    struct knucklepin_trap trap;
    struct knucklepin_editions editions;
    UNWRITTEN(trap);
    UNWRITTEN(editions);
    const struct knucklepin_esr esr = {registers[0]};
    const struct knucklepin_far far = {registers[1]};
    const struct knucklepin_hpfar hpfar = {registers[2]};
    uint32_t number = knucklepin_trap_read(origin, edition, esr, far, hpfar, &trap, &editions);
    if (number != KNUCKLEPIN_TAKEN) {
        reply->count = 0;
        with_refusal(reply, number, &editions, &trap.syndrome, sizeof trap.syndrome);
        with_zeros(reply, &trap.known, sizeof trap.known);
        with_zeros(reply, &trap.addresses, sizeof trap.addresses);
        return false;
    }
    const struct knucklepin_known known = trap.known;
    const struct knucklepin_addresses addresses = trap.addresses;
    with_sixteen(reply, &trap.syndrome);
    with(reply, known.virtual_known);
    if (known.virtual_known != 0)
        with(reply, addresses.virtual_address);
    else
        with_zeros(reply, &addresses.virtual_address, sizeof addresses.virtual_address);
    with(reply, known.intermediate_known);
    if (known.intermediate_known != KNUCKLEPIN_NO_ADDRESS)
        with(reply, addresses.intermediate_address);
    else
        with_zeros(reply, &addresses.intermediate_address, sizeof addresses.intermediate_address);
    with_zeros(reply, &editions, sizeof editions);
    /* The sort goes by the record's kind and class. */
    uint32_t kind = trap.syndrome.kind;
    bool aborted = kind == KNUCKLEPIN_KIND_INSTRUCTION_ABORT || kind == KNUCKLEPIN_KIND_DATA_ABORT;
    bool addressed = kind == KNUCKLEPIN_KIND_WATCHPOINT || (kind == KNUCKLEPIN_KIND_PLAIN && trap.syndrome.plain.ec == 0x22);
    uint32_t sort = aborted ? KNUCKLEPIN_TRAP_ABORT : addressed ? KNUCKLEPIN_TRAP_ADDRESSED : KNUCKLEPIN_TRAP_PLAIN;
    if (known.sort != sort) with(reply, UINT64_MAX);
    return true;
}

static bool trap_row(struct row *row, struct reply *reply)
{
    if (row->count != 5 || !are_words(row, 0, 2)) return false;
    with(reply, 0);
    trapped(reply, word(row, 0), word(row, 1), row->number + 2);
    return true;
}

static bool both_row(struct row *row, struct reply *reply)
{
    if (row->count != 6 || !are_words(row, 0, 3)) return false;
    with(reply, 0);
    if (trapped(reply, word(row, 0), word(row, 1), row->number + 3)) trapped(reply, word(row, 0), word(row, 2), row->number + 3);
    return true;
}

static bool hread_row(struct row *row, struct reply *reply)
{
    if (!is_words(row, 2)) return false;
    struct knucklepin_short_record record;
    struct knucklepin_editions editions;
    UNWRITTEN(record);
    UNWRITTEN(editions);
    const struct knucklepin_hsr hsr = {word(row, 1)};
    uint32_t number = knucklepin_hsr_read(word(row, 0), hsr, &record, &editions);
    if (number != KNUCKLEPIN_TAKEN) {
        with_refusal(reply, number, &editions, &record, sizeof record);
        return true;
    }
    with(reply, 0);
    with_sixteen(reply, &record);
    with_zeros(reply, &editions, sizeof editions);
    return true;
}

static uint32_t short_written(struct reply *reply, uint32_t edition, const struct knucklepin_short_record *record,
                              struct knucklepin_hsr *hsr)
{
    struct knucklepin_editions editions;
    UNWRITTEN(*hsr);
    UNWRITTEN(editions);
    uint32_t number = knucklepin_hsr_write(edition, record, hsr, &editions);
    if (number != KNUCKLEPIN_TAKEN) {
        with_refusal(reply, number, &editions, hsr, sizeof *hsr);
    } else {
        with(reply, 0);
        with_zeros(reply, &editions, sizeof editions);
    }
    return number;
}

static bool hwrite_row(struct row *row, struct reply *reply)
{
    if (!is_words(row, 1 + RECORD)) return false;
    const struct knucklepin_short_record record = short_record_of(row, 1);
    struct knucklepin_hsr hsr;
    if (short_written(reply, word(row, 0), &record, &hsr) == KNUCKLEPIN_TAKEN) with(reply, hsr.word);
    return true;
}

static bool hcarry_row(struct row *row, struct reply *reply)
{
    if (!is_words(row, 2 + RECORD)) return false;
    const struct knucklepin_short_record record = short_record_of(row, 2);
    struct knucklepin_hsr hsr;
    if (short_written(reply, word(row, 0), &record, &hsr) != KNUCKLEPIN_TAKEN) return true;
    struct row next = {2, {row->number[1], hsr.word}};
    return hread_row(&next, reply);
}

static bool hagain_row(struct row *row, struct reply *reply)
{
    if (!is_words(row, 2)) return false;
    struct knucklepin_short_record record;
    struct knucklepin_editions editions;
    UNWRITTEN(record);
    UNWRITTEN(editions);
    struct knucklepin_hsr hsr = {word(row, 1)};
    uint32_t number = knucklepin_hsr_read(word(row, 0), hsr, &record, &editions);
    if (number != KNUCKLEPIN_TAKEN) {
        with_refusal(reply, number, &editions, &record, sizeof record);
    } else if (short_written(reply, word(row, 0), &record, &hsr) == KNUCKLEPIN_TAKEN) {
        with(reply, hsr.word);
    }
    return true;
}

static bool widen_row(struct row *row, struct reply *reply)
{
    if (!is_words(row, 1 + RECORD)) return false;
    const struct knucklepin_short_record from = short_record_of(row, 1);
    struct knucklepin_record to;
    UNWRITTEN(to);
    uint32_t number = knucklepin_widen(word(row, 0), &from, &to);
    if (number != KNUCKLEPIN_TAKEN) {
        with_number(reply, number, &to, sizeof to);
    } else {
        with(reply, 0);
        with_sixteen(reply, &to);
    }
    return true;
}

/* ---- guest states */

/* Whether an injection stands in six numbers: its address has 64 bits. */
static bool is_injection(const struct row *row, size_t from)
{
    return are_words(row, from, from + 3) && are_words(row, from + 4, from + 6);
}

static uint32_t inject(const struct row *row, size_t from, struct knucklepin_state *state)
{
    return knucklepin_inject(state, word(row, from), word(row, from + 1), word(row, from + 2), row->number[from + 3], word(row, from + 4),
                             word(row, from + 5));
}

static bool inject_row(struct row *row, struct reply *reply)
{
    if (row->count != 6 + STATE || !is_injection(row, 0) || !are_words(row, 6, 6 + STATE)) return false;
    struct knucklepin_state state = state_of(row, 6);
    with(reply, inject(row, 0, &state));
    with_changes(reply, row, 6, &state);
    return true;
}

/* An injection, and the return right after it where it is taken. */
static bool back_row(struct row *row, struct reply *reply)
{
    if (row->count != 6 + STATE || !is_injection(row, 0) || !are_words(row, 6, 6 + STATE)) return false;
    struct knucklepin_state state = state_of(row, 6);
    uint32_t correction = knucklepin_injection_correction(&state, word(row, 0));
    uint32_t number = inject(row, 0, &state);
    with(reply, number == KNUCKLEPIN_TAKEN ? knucklepin_resume(&state, correction) : number);
    with_changes(reply, row, 6, &state);
    return true;
}

static bool held_row(struct row *row, struct reply *reply)
{
    if (!is_words(row, 2)) return false;
    uint32_t number = knucklepin_held_in(word(row, 0), word(row, 1));
    with(reply, number != KNUCKLEPIN_NOWHERE);
    if (number != KNUCKLEPIN_NOWHERE) with(reply, number);
    return true;
}

/* A saved word and a status word, by the call that makes the one of the other. */
static bool marked_row(struct row *row, struct reply *reply, uint32_t (*call)(uint32_t, uint32_t, uint32_t, uint32_t, uint32_t *))
{
    if (!is_words(row, 4)) return false;
    uint32_t made;
    UNWRITTEN(made);
    uint32_t number = call(word(row, 0), word(row, 1), word(row, 2), word(row, 3), &made);
    if (number != KNUCKLEPIN_TAKEN) {
        with_number(reply, number, &made, sizeof made);
    } else {
        with(reply, 0);
        with(reply, made);
    }
    return true;
}

static bool spsr_row(struct row *row, struct reply *reply)
{
    return marked_row(row, reply, knucklepin_from_spsr);
}

static bool tospsr_row(struct row *row, struct reply *reply)
{
    return marked_row(row, reply, knucklepin_to_spsr);
}

static bool finish_row(struct row *row, struct reply *reply)
{
    if (!is_words(row, 1 + STATE + RECORD)) return false;
    struct knucklepin_state state = state_of(row, 1);
    const struct knucklepin_record record = record_of(row, 1 + STATE);
    uint32_t given;
    UNWRITTEN(given);
    uint32_t number = knucklepin_finish(&state, &record, word(row, 0), &given);
    if (number != KNUCKLEPIN_TAKEN) {
        with_number(reply, number, &given, sizeof given);
    } else {
        with(reply, 0);
        with(reply, record.data_abort.wnr);
        with(reply, given);
    }
    with_changes(reply, row, 1, &state);
    return true;
}

/* ---- runs */

/* A correction modulo 2^32 as a sign and a size. */
static void with_correction(struct reply *reply, uint32_t correction)
{
    bool minus = correction > 0x7fffffff;
    with(reply, minus);
    with(reply, minus ? 0 - correction : correction);
}

/* The calls of a run are made on the state in the row's first 48 numbers. */
static bool run_row(struct row *row, struct reply *reply)
{
    if (!are_words(row, 0, STATE) || row->count == STATE) return false;
    uint32_t queue = KNUCKLEPIN_EMPTY;
    size_t at = STATE;
    for (int calls = 0; at < row->count; calls++) {
        if (calls == 24) return false;
        uint64_t call = row->number[at++];
        if (call == 0) {
            if (!are_words(row, at, at + 1) || word(row, at) > 2) return false;
            queue = knucklepin_raise(queue, word(row, at) + KNUCKLEPIN_ABORT);
            at += 1;
            with(reply, 0);
            continue;
        }
        struct knucklepin_state state;
        if (call == 1) {
            for (;;) {
                if (at >= row->count) return false;
                uint64_t place = row->number[at++];
                if (place == END) break;
                if (place > END || !are_words(row, at, at + 1)) return false;
                row->number[place] = row->number[at++];
            }
            struct knucklepin_pending pending = {queue, 0xa5a5a5a5};
            state = state_of(row, 0);
            with(reply, knucklepin_deliver(&state, &pending));
            with(reply, pending.delivered);
            queue = pending.queue;
        } else if (call == 2) {
            if (!is_injection(row, at) || word(row, at) > KNUCKLEPIN_DATA_ABORT) return false;
            state = state_of(row, 0);
            uint32_t correction = knucklepin_injection_correction(&state, word(row, at));
            with(reply, inject(row, at, &state));
            with_correction(reply, correction);
            at += 6;
        } else if (call == 3) {
            if (!are_words(row, at, at + 2) || word(row, at) > 1) return false;
            state = state_of(row, 0);
            uint32_t size = word(row, at + 1);
            with(reply, knucklepin_resume(&state, row->number[at] != 0 ? 0 - size : size));
            at += 2;
        } else {
            return false;
        }
        with_changes(reply, row, 0, &state);
        with(reply, END);
    }
    return true;
}

/* ---- A32 loads and stores */

/* The fields of a load or store, and that those which its form lacks are 0. */
static void with_fields(struct reply *reply, const struct knucklepin_access *a)
{
    uint32_t address = a->form / 16, transfer = a->form % 16;
    with(reply, address);
    with(reply, transfer);
    with(reply, a->cond);
    if (address == 2) {
        const uint32_t absent[] = {a->p, a->w, a->rn, a->rm, a->list};
        with(reply, a->u);
        with(reply, a->rt);
        with(reply, a->imm);
        with_zeros(reply, absent, sizeof absent);
        return;
    }
    with(reply, a->p);
    with(reply, a->u);
    with(reply, a->w);
    with(reply, a->rn);
    if (address == 3) {
        const uint32_t absent[] = {a->rt, a->imm, a->rm};
        with(reply, a->list);
        with_zeros(reply, absent, sizeof absent);
        return;
    }
    const uint32_t absent[] = {address == 0 ? a->rm : a->imm, a->list};
    with(reply, a->rt);
    with(reply, address == 0 ? a->imm : a->rm);
    with_zeros(reply, absent, sizeof absent);
}

/* How wide the transfer is, its direction and its sign, by the form. */
static void with_transfer(struct reply *reply, const struct knucklepin_access *a)
{
    static const uint32_t LOADS[] = {1, 0, 1, 0, 1, 0, 1, 1, 1, 0}, SAS[] = {2, 2, 0, 0, 1, 1, 0, 1, 2, 2},
                          SSE[] = {0, 0, 0, 0, 0, 0, 1, 1, 0, 0};
    uint32_t transfer = a->form % 16;
    bool list = a->form / 16 == 3;
    uint32_t load = list ? transfer : LOADS[transfer], sas = list ? 2 : SAS[transfer], sse = list ? 0 : SSE[transfer];
    if (a->load != load || a->sas != sas || a->sse != sse) with(reply, UINT64_MAX);
}

static bool decode_row(struct row *row, struct reply *reply)
{
    if (!is_words(row, 1)) return false;
    struct knucklepin_state state = {.status = KNUCKLEPIN_MODE_USR};
    struct knucklepin_access access;
    struct knucklepin_list registers;
    UNWRITTEN(access);
    UNWRITTEN(registers);
    uint32_t number = knucklepin_a32_describe(&state, word(row, 0), &access, &registers);
    uint64_t form = knucklepin_a32_form(word(row, 0)), again = knucklepin_a32_rewrite(word(row, 0));
    if (number != KNUCKLEPIN_TAKEN) {
        with_number(reply, number, &access, sizeof access);
        with_zeros(reply, &registers, sizeof registers);
        if (form != UINT64_MAX || again != UINT64_MAX) with(reply, UINT64_MAX);
    } else {
        with(reply, 0);
        with_fields(reply, &access);
        with_transfer(reply, &access);
        if (form != access.form || again != row->number[0]) with(reply, UINT64_MAX);
    }
    return true;
}

static bool access_row(struct row *row, struct reply *reply)
{
    if (!is_words(row, 1 + STATE)) return false;
    struct knucklepin_state state = state_of(row, 1);
    struct knucklepin_access access;
    struct knucklepin_list registers;
    UNWRITTEN(access);
    UNWRITTEN(registers);
    uint32_t number = knucklepin_a32_describe(&state, word(row, 0), &access, &registers);
    if (number != KNUCKLEPIN_TAKEN) {
        with_number(reply, number, &access, sizeof access);
        with_zeros(reply, &registers, sizeof registers);
        return true;
    }
    with(reply, 0);
    with_fields(reply, &access);
    with(reply, access.count);
    with(reply, access.address);
    /* A row has the change modulo 2^64: it is taken away where U is 0. */
    uint32_t less = 0 - access.change;
    with(reply, access.u != 0 ? access.change : 0 - (uint64_t)less);
    with_sixteen(reply, &registers);
    with_transfer(reply, &access);
    return true;
}

/* ---- going on from a trap */

static bool passes_row(struct row *row, struct reply *reply)
{
    if (!is_words(row, 1 + RECORD)) return false;
    const struct knucklepin_record record = record_of(row, 1);
    with(reply, knucklepin_passes(word(row, 0), &record));
    return true;
}

static bool step_row(struct row *row, struct reply *reply)
{
    if (!is_words(row, STATE + RECORD)) return false;
    struct knucklepin_state state = state_of(row, 0);
    const struct knucklepin_record record = record_of(row, STATE);
    with(reply, knucklepin_step_over(&state, &record));
    with_changes(reply, row, 0, &state);
    return true;
}

/* A row tells how many registers a write hands out: one of MCR, two of MCRR. */
static bool copro_row(struct row *row, struct reply *reply)
{
    if (!is_words(row, 2 + STATE + RECORD)) return false;
    struct knucklepin_state state = state_of(row, 2);
    const struct knucklepin_record record = record_of(row, 2 + STATE);
    struct knucklepin_pair given;
    UNWRITTEN(given);
    uint32_t number = knucklepin_coprocessor_finish(&state, &record, word(row, 0), word(row, 1), &given);
    bool two = record.kind == KNUCKLEPIN_KIND_MCRR;
    bool write = number == KNUCKLEPIN_TAKEN && (two ? record.mcrr.direction : record.mcr.direction) == 0;
    with(reply, number);
    with(reply, write ? two ? 2 : 1 : 0);
    with(reply, given.first);
    with(reply, given.second);
    with_changes(reply, row, 2, &state);
    return true;
}

static bool perform_row(struct row *row, struct reply *reply)
{
    if (!is_words(row, 17 + STATE)) return false;
    struct knucklepin_state state = state_of(row, 17);
    struct knucklepin_list values, addresses, given;
    struct knucklepin_transfer transfer;
    words_of(row, 1, &values, sizeof values);
    UNWRITTEN(transfer);
    UNWRITTEN(addresses);
    UNWRITTEN(given);
    with(reply, knucklepin_a32_finish(&state, word(row, 0), &values, &transfer, &addresses, &given));
    with(reply, transfer.store);
    with(reply, transfer.count);
    with_sixteen(reply, &addresses);
    with_sixteen(reply, &given);
    with_changes(reply, row, 17, &state);
    return true;
}

/* The fields of a row by way of addressing, each by its place among an access's words: with an immediate, with a register, a literal, and a
   list, whose transfer tells a load. */
static bool encode_row(struct row *row, struct reply *reply)
{
    static const struct {
        size_t count;
        unsigned char place[7];
        uint32_t first, transfers;
    } WAYS[] = {
        {7, {1, 2, 3, 4, 5, 6, 7}, KNUCKLEPIN_LDR, 10},
        {7, {1, 2, 3, 4, 5, 6, 8}, KNUCKLEPIN_REGISTER, 10},
        {4, {1, 3, 6, 7}, KNUCKLEPIN_LITERAL, 10},
        {6, {1, 2, 3, 4, 5, 9}, KNUCKLEPIN_STM, 2},
    };
    if (row->count < 2 || !are_words(row, 0, row->count) || row->number[0] >= 4) return false;
    size_t way = (size_t)row->number[0];
    if (row->count != 2 + WAYS[way].count || row->number[1] >= WAYS[way].transfers) return false;
    uint32_t words[16] = {WAYS[way].first + word(row, 1)};
    for (size_t i = 0; i < WAYS[way].count; i++) {
        size_t place = WAYS[way].place[i];
        bool flag = place >= 2 && place <= 4;
        if (flag && row->number[2 + i] > 1) return false;
        words[place] = word(row, 2 + i);
    }
    struct knucklepin_access access;
    memcpy(&access, words, sizeof access);
    uint32_t made;
    UNWRITTEN(made);
    uint32_t number = knucklepin_a32_encode(&access, &made);
    if (number != KNUCKLEPIN_TAKEN) {
        with_number(reply, number, &made, sizeof made);
    } else {
        with(reply, 0);
        with(reply, made);
    }
    return true;
}

/* ---- the chip's registers, and why an abort came */

static bool edition_row(struct row *row, struct reply *reply)
{
    if (row->count != 3) return false;
    const struct knucklepin_id_aa64pfr0 pfr0 = {row->number[0]};
    const struct knucklepin_id_aa64mmfr0 mmfr0 = {row->number[1]};
    const struct knucklepin_id_aa64mmfr1 mmfr1 = {row->number[2]};
    with(reply, knucklepin_edition(pfr0, mmfr0, mmfr1));
    return true;
}

static bool short_row(struct row *row, struct reply *reply)
{
    if (row->count != 1) return false;
    const struct knucklepin_id_pfr0 pfr0 = {row->number[0]};
    with(reply, knucklepin_short_edition(pfr0));
    return true;
}

static bool marks_row(struct row *row, struct reply *reply)
{
    if (row->count != 3) return false;
    const struct knucklepin_id_mmfr3 mmfr3 = {row->number[0]};
    const struct knucklepin_id_pfr2 pfr2 = {row->number[1]};
    const struct knucklepin_id_pfr0 pfr0 = {row->number[2]};
    struct knucklepin_marks marks;
    UNWRITTEN(marks);
    knucklepin_marks(mmfr3, pfr2, pfr0, &marks);
    with(reply, marks.pan);
    with(reply, marks.ssbs);
    with(reply, marks.dit);
    return true;
}

static bool ran_row(struct row *row, struct reply *reply)
{
    if (row->count != 2) return false;
    const struct knucklepin_spsr spsr = {row->number[0]};
    const struct knucklepin_hcr hcr = {row->number[1]};
    uint32_t origin;
    UNWRITTEN(origin);
    with(reply, knucklepin_ran(spsr, hcr, &origin));
    with(reply, origin);
    return true;
}

static bool cause_row(struct row *row, struct reply *reply)
{
    if (!is_words(row, 1 + RECORD)) return false;
    const struct knucklepin_record record = record_of(row, 1);
    struct knucklepin_cause cause;
    UNWRITTEN(cause);
    uint32_t number = knucklepin_cause(word(row, 0), &record, &cause);
    if (number != KNUCKLEPIN_TAKEN) {
        with_number(reply, number, &cause, sizeof cause);
        return true;
    }
    with(reply, 0);
    with(reply, cause.fault);
    with(reply, cause.level);
    with(reply, cause.walk);
    with(reply, cause.passes);
    return true;
}

/* ---- the programs and their calls */

/* A call without an answer here is none that is exported: the row is counted and not asked. */
static const struct call {
    const char *program, *word;
    bool (*answer)(struct row *, struct reply *);
} CALLS[] = {
    {"check_words", "read", read_row},        {"check_words", "write", write_row},     {"check_words", "carry", carry_row},
    {"check_words", "again", again_row},      {"check_words", "trap", trap_row},       {"check_words", "both", both_row},
    {"check_words", "hread", hread_row},      {"check_words", "hwrite", hwrite_row},   {"check_words", "hcarry", hcarry_row},
    {"check_words", "hagain", hagain_row},    {"check_words", "widen", widen_row},     {"check_states", "inject", inject_row},
    {"check_states", "lent", inject_row},     {"check_states", "back", back_row},      {"check_states", "spsr", spsr_row},
    {"check_states", "finish", finish_row},   {"check_states", "held", held_row},      {"check_runs", "run", run_row},
    {"check_a32", "decode", decode_row},      {"check_a32", "encode", encode_row},     {"check_a32", "access", access_row},
    {"check_onward", "passes", passes_row},   {"check_onward", "step", step_row},      {"check_onward", "copro", copro_row},
    {"check_onward", "perform", perform_row}, {"check_chip", "tospsr", tospsr_row},    {"check_chip", "edition", edition_row},
    {"check_chip", "short", short_row},       {"check_chip", "marks", marks_row},      {"check_chip", "ran", ran_row},
    {"check_chip", "cause", cause_row},
};

static const struct call *call_of(const char *program, const char *line, size_t letters)
{
    for (size_t i = 0; i < sizeof CALLS / sizeof *CALLS; i++) {
        const struct call *call = &CALLS[i];
        if (strcmp(call->program, program) == 0 && strlen(call->word) == letters && memcmp(call->word, line, letters) == 0) return call;
    }
    return NULL;
}

/* The text of a reply. */
static size_t text_of(const struct reply *reply, bool is_row, char *text, size_t size)
{
    if (!is_row) return (size_t)snprintf(text, size, "no row");
    size_t length = 0;
    for (size_t i = 0; i < reply->count; i++) {
        length += (size_t)snprintf(text + length, size - length, "%s%" PRIx64, i == 0 ? "" : " ", reply->number[i]);
    }
    return length;
}

struct text {
    char *bytes;
    size_t length, at;
};

static struct text contents(const char *folder, const char *name)
{
    char path[4096];
    struct text text = {NULL, 0, 0};
    if ((size_t)snprintf(path, sizeof path, "%s/%s", folder, name) >= sizeof path) exit(2);
    FILE *file = fopen(path, "rb");
    if (file == NULL) {
        perror(path);
        exit(2);
    }
    size_t room = 0;
    for (;;) {
        if (text.length == room && (text.bytes = realloc(text.bytes, room = 2 * room + 65536)) == NULL) exit(2);
        size_t more = fread(text.bytes + text.length, 1, room - text.length, file);
        if (more == 0) break;
        text.length += more;
    }
    fclose(file);
    return text;
}

/* The next line, and its length without the newline. */
static char *next_line(struct text *text, size_t *length)
{
    char *line = text->bytes + text->at;
    char *end = memchr(line, '\n', text->length - text->at);
    *length = end != NULL ? (size_t)(end - line) : text->length - text->at;
    text->at += *length + (end != NULL);
    return line;
}

static unsigned long compare(const char *folder)
{
    const char *slash = strrchr(folder, '/');
    const char *program = slash != NULL ? slash + 1 : folder;
    struct text questions = contents(folder, "stdin"), answers = contents(folder, "stdout");
    unsigned long asked = 0, passed_over = 0, differences = 0;
    while (questions.at < questions.length) {
        size_t length, stored, letters = 0;
        const char *line = next_line(&questions, &length), *answer = next_line(&answers, &stored);
        while (letters < length && line[letters] != ' ') letters++;
        const struct call *call = call_of(program, line, letters);
        if (call != NULL && call->answer == NULL) {
            passed_over++;
            continue;
        }
        static struct row row;
        static struct reply reply;
        static char text[18 * ANSWERS];
        reply.count = 0;
        bool is_row = call != NULL && numbers(&row, line + letters, length - letters) && call->answer(&row, &reply);
        size_t said = text_of(&reply, is_row, text, sizeof text);
        asked++;
        if (said != stored || memcmp(text, answer, said) != 0) {
            if (++differences <= 10) {
                printf("%s: %.*s\n  stored %.*s\n  called %.*s\n", program, (int)length, line, (int)stored, answer, (int)said, text);
            }
        }
    }
    if (answers.at != answers.length) differences++;
    printf("%s: %lu rows asked, %lu of calls that aren't exported, differences %lu\n", program, asked, passed_over, differences);
    free(questions.bytes);
    free(answers.bytes);
    return differences;
}

int main(int count, char **folders)
{
    unsigned long differences = 0;
    for (int i = 1; i < count; i++) differences += compare(folders[i]);
    return differences != 0;
}
