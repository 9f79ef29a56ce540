/* The session function and the conversion of the proved model, for C: link target/staticlib/libpmu.a, which `tools/build pmu`
 * writes. The model call by call is in pmu_calls.h, for libpmu_access.a and libpmu_calls.a. Neither header includes the other,
 * and a program may use both, and link all three.
 *
 * crates/pmu/src has the functions and what is proved of them. No session is out of place here: whatever its bytes, the output is
 * what docs/MODEL.md says of them. What C cannot promise and the proofs rest on is that each pointer is to as many bytes as the
 * length behind it says, and that the two do not overlap. pmu_run and pmu_run_convert test for null, for lengths that no object
 * can have, and for overlap. */
#ifndef PMU_H
#define PMU_H

#include <stddef.h>
#include <stdint.h>

#ifdef __cplusplus
extern "C" {
#endif

/* The bytes that a buffer must have for any session's output: what pmu_room() returns. */
#define PMU_ROOM 65600

/* The longest session that is run, in bytes, without the byte 10 that one in the short form begins with. A longer one is refused
 * with 6. */
#define PMU_LONGEST 4096

/* So many bytes of a session are enough to run it, to convert it, or to see that it is too long: a caller need not hold more. */
#define PMU_INPUT (1 + PMU_LONGEST + 1)

/* The bytes that a buffer must have for any session, in either form: what pmu_convert_room() returns. */
#define PMU_CONVERT_ROOM (1 + PMU_LONGEST)

size_t pmu_room(void);

/* Runs the session in `input` from the fresh record, and writes its lines to the front of `out`, as section L of docs/MODEL.md
 * has them (a trap with its level, syndrome and cause, for instance); there is no byte 0 behind them. Returns how
 * many bytes they have, at least 1, or 0 where `out` has fewer than PMU_ROOM bytes: it is then left alone. Neither pointer is
 * null, even where its length is 0; the two do not overlap. */
size_t pmu_session(const uint8_t *input, size_t input_len, uint8_t *out, size_t out_len);

/* What pmu_convert says: how many bytes the other form has, and the number of the refusal. One of them is 0; both are where the
 * buffer was too short. */
typedef struct {
    size_t bytes;
    size_t refusal;
} pmu_conversion;

size_t pmu_convert_room(void);

/* Writes the other form of the session in `input` to the front of `out`, through its end command (section Z of
 * docs/MODEL.md): the short form of a long one, the long form of a short one. Where it is refused, by 6, 1, 2, 19 or 20, or `out`
 * has fewer than PMU_CONVERT_ROOM bytes, `out` is left alone. Neither pointer is null, even where its length is 0; the two do not
 * overlap. */
pmu_conversion pmu_convert(const uint8_t *input, size_t input_len, uint8_t *out, size_t out_len);

/* 1 where both pointers are to something, no length exceeds what an object can have there, and the two do not overlap; a null
 * `input` of length 0 is let pass. Else 0. */
static inline int pmu_apart(const uint8_t *input, size_t input_len, const uint8_t *out, size_t out_len)
{
    uintptr_t from = (uintptr_t)input, to = (uintptr_t)out;

    if (out == NULL || (input == NULL && input_len != 0) || input_len > PTRDIFF_MAX || out_len > PTRDIFF_MAX)
        return 0;
    if (input_len > UINTPTR_MAX - from || out_len > UINTPTR_MAX - to)
        return 0;
    return !(from < to ? to - from < input_len : from - to < out_len && input_len != 0);
}

/* The input, or one byte that nobody reads where it is null. */
static inline const uint8_t *pmu_not_null(const uint8_t *input)
{
    static const uint8_t none[1] = {0};

    return input == NULL ? none : input;
}

/* pmu_session behind the tests of pmu_apart: where they fail, it returns 0 and writes nothing. */
static inline size_t pmu_run(const uint8_t *input, size_t input_len, uint8_t *out, size_t out_len)
{
    return pmu_apart(input, input_len, out, out_len) ? pmu_session(pmu_not_null(input), input_len, out, out_len) : 0;
}

/* pmu_convert behind the tests of pmu_apart: where they fail, both numbers are 0 and nothing is written. */
static inline pmu_conversion pmu_run_convert(const uint8_t *input, size_t input_len, uint8_t *out, size_t out_len)
{
    const pmu_conversion none = {0, 0};

    return pmu_apart(input, input_len, out, out_len) ? pmu_convert(pmu_not_null(input), input_len, out, out_len) : none;
}

#ifdef __cplusplus
}
#endif

#endif
