/* The proved model call by call, for C (MODEL X13 to X16): link target/staticlib/libpmu_access.a, which has pmu_access and
 * pmu_access_listed, and libpmu_calls.a, which has all other calls. `tools/build pmu_access pmu_calls` writes
 * them. Whole sessions are in pmu.h, for libpmu.a. Neither header includes the other, and a program may use both, and link all
 * three.
 *
 * A machine is PMU_WORDS words that the caller owns, and an undo list PMU_LIST words. No words are out of place: whatever they
 * hold, every call answers. crates/pmu_access/src and crates/pmu_calls/src have the functions and what is proved of them. What C
 * cannot promise and the proofs rest on is that a pointer to a machine is to PMU_WORDS words and one to a list is to PMU_LIST
 * words, that the two do not overlap, and that neither is null. No call keeps a pointer; there is no state but these words. */
#ifndef PMU_CALLS_H
#define PMU_CALLS_H

#include <stddef.h>
#include <stdint.h>

#ifdef __cplusplus
extern "C" {
#endif

/* The words of a machine (MODEL X13). Word f is the field with number f, from 00 to 8D (section F of docs/MODEL.md), and word
 * PMU_LEVEL is the exception level. A number between that is no field's has a word too, at which no call looks, and which none
 * but pmu_fresh changes. All zeros is the fresh record. */
#define PMU_WORDS 143
#define PMU_LEVEL 0x8E

/* The words of an undo list (MODEL H9). All zeros is the empty list. */
#define PMU_LIST 194

/* The kinds of replies. */
enum pmu_kind {
    PMU_OK = 1,
    PMU_SAMPLED = 2,
    PMU_END = 3, /* the end of a session: no call answers it */
    PMU_UNDEF = 4,
    PMU_OTHER = 5,
    PMU_ERROR = 6,
    PMU_TRAP = 7,    /* `detail` is the level that takes it, 1 to 3, `cause` the number of its cause, `value` the syndrome */
    PMU_VALUE = 8,   /* an external read: `value` */
    PMU_MRS = 9,     /* MRS: `value`, and in `detail` the number of its register Xt */
    PMU_REFUSED = 10 /* `detail` is the number of the refusal: nothing was done */
};

/* What a call answers, in numbers (MODEL X15). What a kind has no use for is 0. */
typedef struct {
    uint32_t kind;
    uint16_t detail;
    uint16_t cause;
    uint64_t value;
} pmu_reply;

/* Makes the words those of the fresh record. They need not hold anything before. */
void pmu_fresh(uint64_t m[PMU_WORDS]);

/* The commands of a session (MODEL S1 and X14), each on the record that the words hold; a sample is a member of the sample
 * population. A set is refused with 3 or 4, a level with 5, a tick with 4 where `prohibited` exceeds 1. Accesses, external reads
 * and writes, ticks and samples are then refused with the lowest of 10 to 17 that applies, with 10 where a word exceeds its
 * field's largest value; sets and levels test no word. A refused call leaves every word. */
pmu_reply pmu_set(uint64_t m[PMU_WORDS], uint8_t field, uint64_t value);
pmu_reply pmu_level(uint64_t m[PMU_WORDS], uint8_t level);
pmu_reply pmu_access(uint64_t m[PMU_WORDS], uint32_t word, uint64_t operand);
pmu_reply pmu_external_read(uint64_t m[PMU_WORDS], uint16_t offset);
pmu_reply pmu_external_write(uint64_t m[PMU_WORDS], uint16_t offset, uint64_t value);
pmu_reply pmu_tick(uint64_t m[PMU_WORDS], uint8_t prohibited);
pmu_reply pmu_sample(uint64_t m[PMU_WORDS], uint8_t draw);

/* The same, and what they did is listed as in a session (MODEL X16). A set is not listed: unless refused, it clears the list. An
 * external read is not listed either, and leaves the list alone: pmu_external_read serves here too. */
pmu_reply pmu_set_listed(uint64_t m[PMU_WORDS], uint64_t list[PMU_LIST], uint8_t field, uint64_t value);
pmu_reply pmu_level_listed(uint64_t m[PMU_WORDS], uint64_t list[PMU_LIST], uint8_t level);
pmu_reply pmu_access_listed(uint64_t m[PMU_WORDS], uint64_t list[PMU_LIST], uint32_t word, uint64_t operand);
pmu_reply pmu_external_write_listed(uint64_t m[PMU_WORDS], uint64_t list[PMU_LIST], uint16_t offset, uint64_t value);
pmu_reply pmu_tick_listed(uint64_t m[PMU_WORDS], uint64_t list[PMU_LIST], uint8_t prohibited);
pmu_reply pmu_sample_listed(uint64_t m[PMU_WORDS], uint64_t list[PMU_LIST], uint8_t draw);

/* The step back: takes the latest listed call back, or is refused with 18 where none is listed. It tests no word. The words are
 * then those before that call, where nothing but listed calls wrote them and the list since. Of the level's word an entry has 8
 * bits (MODEL X16): a step back over pmu_level_listed puts back the lowest 8, which is all of it unless it was above 255. */
pmu_reply pmu_back(uint64_t m[PMU_WORDS], uint64_t list[PMU_LIST]);

/* The bytes that a buffer must have for any line, with the byte 0 behind it. */
#define PMU_LINE 64

/* These write a text, a number in decimal, or as many of a number's lowest hexadecimal digits, and return the place behind. */
static inline char *pmu_put_text(char *at, const char *text)
{
    while (*text != 0)
        *at++ = *text++;
    return at;
}

static inline char *pmu_put_decimal(char *at, uint64_t number)
{
    char digits[20];
    size_t n = 0;

    do {
        digits[n++] = (char)('0' + number % 10);
        number /= 10;
    } while (number != 0);
    while (n != 0)
        *at++ = digits[--n];
    return at;
}

static inline char *pmu_put_digits(char *at, uint64_t number, unsigned count)
{
    while (count != 0)
        *at++ = "0123456789ABCDEF"[number >> 4 * --count & 0xF];
    return at;
}

/* Writes what stands behind the kind of a reply in its line, and returns the place behind it. */
static inline char *pmu_put_operands(char *at, pmu_reply r)
{
    switch (r.kind) {
    case PMU_TRAP:
        at = pmu_put_text(pmu_put_decimal(at, r.detail), " ");
        at = pmu_put_text(pmu_put_digits(at, r.value, 8), " ");
        return pmu_put_decimal(at, r.cause);
    case PMU_VALUE:
        return pmu_put_digits(at, r.value, 16);
    case PMU_MRS:
        at = pmu_put_text(pmu_put_digits(at, r.value, 16), " ");
        return pmu_put_decimal(at, r.detail);
    case PMU_REFUSED:
        return pmu_put_decimal(at, r.detail);
    default:
        return at;
    }
}

/* Writes the line that a session has for this reply to the command at this position (section L), with its line feed and a byte 0
 * behind it, to the front of `out`, which has PMU_LINE bytes. Returns how many bytes the line has, without the 0. Where the kind
 * is none of those above it writes the 0 alone, and returns 0. */
static inline size_t pmu_line(uint64_t position, pmu_reply r, char *out)
{
    static const char *const kinds[] = {"",        " ok",     " sampled", " end",    " undef",   " other",
                                        " error",  " trap ",  " value ",  " value ", " refused "};
    char *at = out;

    if (r.kind >= PMU_OK && r.kind <= PMU_REFUSED) {
        at = pmu_put_text(pmu_put_decimal(at, position), kinds[r.kind]);
        at = pmu_put_text(pmu_put_operands(at, r), "\n");
    }
    *at = 0;
    return (size_t)(at - out);
}

#ifdef __cplusplus
}
#endif

#endif
