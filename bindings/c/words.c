/* Every call on words that hold anything, to be run by valgrind: the words of a machine and of a list stand by themselves on the
 * heap, and those that are no field are never written. Replies are of kinds that calls give, and a refused call leaves all words
 * as they were. */
#include <stdio.h>
#include <stdlib.h>
#include <string.h>

#include "../pmu_calls.h"

#define ROUNDS 400

static uint64_t state = 0x9E3779B97F4A7C15;

/* A random number (xorshift). */
static uint64_t any(void)
{
    state ^= state << 13;
    state ^= state >> 7;
    state ^= state << 17;
    return state;
}

/* The number is that of a field or of the level (section F of docs/MODEL.md). */
static int is_field(size_t k)
{
    return k <= 0x0C || (k >= 0x10 && k <= 0x12) || (k >= 0x20 && k <= 0x3E) || (k >= 0x40 && k <= 0x5E) || k >= 0x60;
}

/* Puts random numbers into the fields and the list: mostly bits, so that some machines are consistent, or anything. */
static void fill(uint64_t *m, uint64_t *list, int bits)
{
    size_t k;

    for (k = 0; k < PMU_WORDS; k++)
        if (is_field(k))
            m[k] = bits ? any() >> 32 & 1 : any();
    for (k = 0; k < PMU_LIST; k++)
        list[k] = any();
    if (bits)
        list[0] &= 0x7F;
}

/* The call with this number, with random operands. */
static pmu_reply call(unsigned n, uint64_t *m, uint64_t *list)
{
    static const uint32_t words[8] = {0xD53BE800, 0xD51BE801, 0xD53BE822, 0xD51B9C83,
                                      0xD53B9404, 0xD51B9405, 0xD5389946, 0xD5189947};
    uint8_t byte = (uint8_t)(any() >> 32), small = byte & 3;
    uint16_t offset = (uint16_t)(0xC00 + 0x40 * small);
    uint32_t word = byte > 250 ? (uint32_t)any() : words[any() >> 32 & 7];

    switch (n) {
    case 0: return pmu_set(m, byte, any() >> (any() & 63));
    case 1: return pmu_level(m, small);
    case 2: return pmu_access(m, word, any());
    case 3: return pmu_external_read(m, offset);
    case 4: return pmu_external_write(m, offset, any());
    case 5: return pmu_tick(m, small);
    case 6: return pmu_sample(m, byte);
    case 7: return pmu_set_listed(m, list, byte, any() >> (any() & 63));
    case 8: return pmu_level_listed(m, list, small);
    case 9: return pmu_access_listed(m, list, word, any());
    case 10: return pmu_external_write_listed(m, list, offset, any());
    case 11: return pmu_tick_listed(m, list, small);
    case 12: return pmu_sample_listed(m, list, byte);
    default: return pmu_back(m, list);
    }
}

/* The fields are as they were, and so is the list. */
static int same(const uint64_t *m, const uint64_t *before, const uint64_t *list, const uint64_t *list_before)
{
    size_t k;

    for (k = 0; k < PMU_WORDS; k++)
        if (is_field(k) && m[k] != before[k])
            return 0;
    return memcmp(list, list_before, PMU_LIST * sizeof *list) == 0;
}

/* Makes all calls on random words; 0 where a reply is none, or a refused call changed something. */
static int calls(uint64_t *m, uint64_t *list, int bits)
{
    uint64_t before[PMU_WORDS], list_before[PMU_LIST];
    unsigned n;

    fill(m, list, bits);
    for (n = 0; n <= 13; n++) {
        pmu_reply r;

        memcpy(before, m, sizeof before);
        memcpy(list_before, list, sizeof list_before);
        r = call(n, m, list);
        if (r.kind < PMU_OK || r.kind > PMU_REFUSED || r.kind == PMU_END)
            return 0;
        if (r.kind == PMU_REFUSED && !same(m, before, list, list_before))
            return 0;
    }
    return 1;
}

int main(void)
{
    int round;

    for (round = 0; round < ROUNDS; round++) {
        uint64_t *m = malloc(PMU_WORDS * sizeof *m), *list = malloc(PMU_LIST * sizeof *list);
        int good = m != NULL && list != NULL && calls(m, list, round % 4 != 0);

        free(m);
        free(list);
        if (!good) {
            fprintf(stderr, "words of random bits: round %d\n", round);
            return 1;
        }
    }
    return 0;
}
