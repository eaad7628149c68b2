/* Answers the second program's questions on logs, from standard input, by the exported calls: what it writes must be
   crates/check_log/stdout. second/README.md tells the questions. A log is written again from its entries, each looked up. */
#include "knucklepin.h"

#include <inttypes.h>
#include <stdio.h>
#include <stdlib.h>
#include <string.h>

/* More than a log may have. */
enum { BYTES = 70000, HALVES = 33000, WORDS = 8200 };

struct bytes {
    uint64_t length;
    uint8_t at[BYTES];
};

struct words {
    uint64_t length;
    uint64_t at[WORDS];
};

struct halves {
    uint64_t length;
    uint16_t at[HALVES];
};

/* A number of so many bytes, the lowest first. */
static uint64_t number(int count)
{
    uint64_t n = 0;
    for (int i = 0; i < count; i++) {
        int byte = getchar();
        if (byte == EOF) exit(2);
        n |= (uint64_t)byte << 8 * i;
    }
    return n;
}

/* Whether a list of the question has no room. */
static int no_room;

/* A list is its length, how many of its entries follow, and these; the others are as the list has them. Entries that have no room are passed
   over. */
static uint64_t given(uint64_t *length, uint64_t room, int size)
{
    *length = number(4);
    uint64_t count = number(4);
    if (*length <= room && count <= room) return count;
    no_room = 1;
    while (count-- > 0) number(size);
    return 0;
}

/* Answers a question that can't be asked. */
static int no_row(void)
{
    if (no_room) puts("no row");
    return no_room;
}

static void bytes(struct bytes *list, int unwritten)
{
    memset(list->at, unwritten, sizeof list->at);
    uint64_t count = given(&list->length, BYTES, 1);
    for (uint64_t i = 0; i < count; i++) list->at[i] = (uint8_t)number(1);
}

static void words(struct words *list)
{
    memset(list->at, 0, sizeof list->at);
    uint64_t count = given(&list->length, WORDS, 8);
    for (uint64_t i = 0; i < count; i++) list->at[i] = number(8);
}

static void halves(struct halves *list)
{
    memset(list->at, 0, sizeof list->at);
    uint64_t count = given(&list->length, HALVES, 2);
    for (uint64_t i = 0; i < count; i++) list->at[i] = (uint16_t)number(2);
}

/* A buffer whole, with `*` and how often a byte stands there in a row. */
static void show(const struct bytes *buffer)
{
    for (uint64_t i = 0, times; i < buffer->length; i += times) {
        for (times = 1; i + times < buffer->length && buffer->at[i + times] == buffer->at[i];) times++;
        printf(times == 1 ? " %x" : " %x*%" PRIu64, buffer->at[i], times);
    }
    putchar('\n');
}

/* ---- the questions */

static struct bytes log_bytes, editions, buffer;
static struct words syndromes, fars, hpfars;
static struct halves injections;

static void read_question(void)
{
    struct knucklepin_log_answer answer;
    bytes(&log_bytes, 0);
    if (no_row()) return;
    uint32_t refusal = knucklepin_log_read(log_bytes.at, log_bytes.length, &answer);
    /* The reader that holds the log answers the same. */
    static const char *const READERS[] = {"read", "held"};
    for (int i = 0; i < 2; i++) {
        if (refusal == KNUCKLEPIN_TAKEN)
            printf("%s taken %" PRIu64 "\n", READERS[i], answer.gone);
        else
            printf("%s refused %" PRIu32 " %" PRIu64 "\n", READERS[i], refusal, answer.section);
    }
}

static void look_question(void)
{
    static const uint64_t SIZES[] = {1, 8, 16, 2};
    struct knucklepin_log_entry found;
    bytes(&log_bytes, 0);
    uint32_t passed = (uint32_t)number(4);
    uint64_t i = number(4);
    if (no_row()) return;
    knucklepin_log_look(log_bytes.at, log_bytes.length, passed, i, &found);
    if (found.whole != 0)
        printf("look whole %" PRIu64 " %" PRIu64, found.count, 4 + found.count * (passed < 4 ? SIZES[passed] : 0));
    else
        printf("look none");
    switch (found.entry) {
    case KNUCKLEPIN_ENTRY_EDITION: printf(" edition %" PRIu64 "\n", found.first); break;
    case KNUCKLEPIN_ENTRY_SYNDROME: printf(" syndrome %" PRIx64 "\n", found.first); break;
    case KNUCKLEPIN_ENTRY_ADDRESS: printf(" address %" PRIx64 " %" PRIx64 "\n", found.first, found.second); break;
    case KNUCKLEPIN_ENTRY_INJECTION: printf(" injection %" PRIu64 " %" PRIu64 "\n", found.first, found.second); break;
    default: printf(" none\n");
    }
}

/* Writes the lists into the buffer, by the call that takes each kind of word by its type. */
static uint32_t write_lists(uint64_t *length)
{
    static struct knucklepin_esr esr_list[WORDS];
    static struct knucklepin_far far_list[WORDS];
    static struct knucklepin_hpfar hpfar_list[WORDS];
    for (size_t i = 0; i < WORDS; i++) {
        esr_list[i].word = syndromes.at[i];
        far_list[i].word = fars.at[i];
        hpfar_list[i].word = hpfars.at[i];
    }
    return knucklepin_log_write(editions.at, editions.length, esr_list, syndromes.length, far_list, fars.length, hpfar_list, hpfars.length,
                                injections.at, injections.length, buffer.at, buffer.length, length);
}

static uint64_t count_of(uint32_t section)
{
    struct knucklepin_log_entry found;
    knucklepin_log_look(log_bytes.at, log_bytes.length, section, UINT64_MAX, &found);
    return found.count;
}

static struct knucklepin_log_entry entry(uint32_t section, uint64_t i)
{
    struct knucklepin_log_entry found;
    knucklepin_log_look(log_bytes.at, log_bytes.length, section, i, &found);
    return found;
}

static void again_question(void)
{
    struct knucklepin_log_answer answer;
    uint64_t length = 0;
    bytes(&log_bytes, 0);
    bytes(&buffer, 0xa5);
    if (no_row()) return;
    uint32_t refusal = knucklepin_log_read(log_bytes.at, log_bytes.length, &answer);
    if (refusal == KNUCKLEPIN_TAKEN) {
        editions.length = count_of(0);
        syndromes.length = count_of(1);
        fars.length = hpfars.length = count_of(2);
        injections.length = count_of(3);
        for (uint64_t i = 0; i < editions.length; i++) editions.at[i] = (uint8_t)entry(0, i).first;
        for (uint64_t i = 0; i < syndromes.length; i++) syndromes.at[i] = entry(1, i).first;
        for (uint64_t i = 0; i < fars.length; i++) {
            const struct knucklepin_log_entry address = entry(2, i);
            fars.at[i] = address.first;
            hpfars.at[i] = address.second;
        }
        for (uint64_t i = 0; i < injections.length; i++) {
            const struct knucklepin_log_entry injection = entry(3, i);
            injections.at[i] = (uint16_t)(injection.first + 256 * injection.second);
        }
        refusal = write_lists(&length);
    }
    printf("again %" PRIu32 " %" PRIu64 " %" PRIu64, refusal, answer.section, length);
    show(&buffer);
}

static void write_question(void)
{
    uint64_t length;
    bytes(&editions, 0);
    words(&syndromes);
    words(&fars);
    words(&hpfars);
    halves(&injections);
    bytes(&buffer, 0xa5);
    if (no_row()) return;
    uint32_t refusal = write_lists(&length);
    printf("write %" PRIu32 " %" PRIu64, refusal, length);
    show(&buffer);
}

int main(void)
{
    for (int letter = getchar(); letter != EOF; letter = getchar()) {
        no_room = 0;
        switch (letter) {
        case 'r': read_question(); break;
        case 'l': look_question(); break;
        case 'a': again_question(); break;
        case 'w': write_question(); break;
        default: return 2;
        }
    }
    return 0;
}
