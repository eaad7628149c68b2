/* Reads every STRIDE-th of all 2^32 words (the argument) as a syndrome from AArch32 and from AArch64, as a word of the short form and as an
   A32 load or store, and prints for each class of words how many there were, how many of the four readings were taken, and a sum over all
   that they gave. The edition goes with the word: refusal 6 tells of every other one. */
#include "knucklepin.h"

#include <inttypes.h>
#include <stdio.h>
#include <stdlib.h>

struct sum {
    uint64_t words, taken, sum;
};

static void add(struct sum *sum, const uint32_t *words, size_t count)
{
    for (size_t i = 0; i < count; i++) sum->sum = (sum->sum ^ words[i]) * UINT64_C(0x100000001b3);
}

static void answered(struct sum *sum, uint32_t number, uint32_t kind, const uint32_t *fields, struct knucklepin_editions editions)
{
    const uint32_t words[] = {number, kind, editions.mask, editions.count};
    sum->taken += number == KNUCKLEPIN_TAKEN;
    add(sum, words, 4);
    add(sum, fields, 15);
}

static void swept(struct sum *sum, uint32_t word)
{
    const uint32_t edition = (word ^ word >> 7 ^ word >> 16) % 16;
    struct knucklepin_record record;
    struct knucklepin_short_record narrow;
    struct knucklepin_editions editions;
    uint32_t number;
    for (uint32_t origin = KNUCKLEPIN_AARCH32; origin <= KNUCKLEPIN_AARCH64; origin++) {
        number = knucklepin_esr_read(origin, edition, (struct knucklepin_esr){word}, &record, &editions);
        answered(sum, number, record.kind, record.fields, editions);
    }
    number = knucklepin_hsr_read(edition % 2, (struct knucklepin_hsr){word}, &narrow, &editions);
    answered(sum, number, narrow.kind, narrow.fields, editions);
    const uint64_t form = knucklepin_a32_form(word);
    const uint32_t halves[] = {(uint32_t)form, (uint32_t)(form >> 32)};
    sum->taken += form != UINT64_MAX;
    add(sum, halves, 2);
    sum->words++;
}

int main(int count, char **words)
{
    static struct sum sums[64];
    const uint64_t stride = count > 1 ? strtoull(words[1], NULL, 10) : 0;
    if (stride == 0) return 1;
    for (uint64_t word = 0; word >> 32 == 0; word += stride) swept(&sums[word >> 26], (uint32_t)word);
    for (unsigned i = 0; i < 64; i++)
        printf("class %02x: %" PRIu64 " words, %" PRIu64 " taken, sum %016" PRIx64 "\n", i, sums[i].words, sums[i].taken, sums[i].sum);
    return 0;
}
