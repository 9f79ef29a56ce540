/* A session of the long form from standard input, made call by call, its lines to standard output. They must be those of
 * pmu_session; before that, the layout of a reply, the line of every kind, and a session in which every kind occurs. */
#include <stdio.h>
#include <stdlib.h>
#include <string.h>

#include "../pmu.h"
#include "../pmu_calls.h"

/* A value below 256 as 8 bytes. */
#define V(value) value, 0, 0, 0, 0, 0, 0, 0

/* Every kind of reply: a member that is selected; counter enables from outside, with an error first; with six counters, of which
 * HPMN leaves four to level 1, a trap and then a value of counter 5, an increment, and steps back until nothing is listed. */
static const uint8_t kinds[] = {
    0x01, 0x80, V(1), 0x01, 0x8B, V(2), 0x01, 0x83, V(1), 0x08, 0x00, 0x08, 0x07, 0x01, 0x00, V(1), 0x01, 0x01, V(1),
    0x01, 0x08, V(1), 0x01, 0x09, V(1), 0x01, 0x0C, V(6), 0x01, 0x10, V(1), 0x01, 0x27, V(4), 0x01, 0x3E, V(1),
    0x04, 0x00, 0x0C, 0x01, 0x38, V(1), 0x01, 0x3B, V(1), 0x01, 0x65, 255, 255, 255, 255, 255, 255, 255, 255,
    0x05, 0x00, 0x0C, V(255), 0x04, 0x00, 0x0C, 0x04, 0x04, 0x0C, 0x02, 0x01, 0x03, 0xA2, 0xE8, 0x3B, 0xD5, V(0),
    0x02, 0x02, 0x03, 0xA2, 0xE8, 0x3B, 0xD5, V(0), 0x03, 0xC2, 0xE8, 0x3B, 0xD5, V(0), 0x03, 0x81, 0x9C, 0x1B, 0xD5, V(32),
    0x04, 0xC0, 0x0C, 0x03, 0xBF, 0xE8, 0x3B, 0xD5, V(0), 0x07, 0x07, 0x04, 0xC0, 0x0C, 0x03, 0xA2, 0xE8, 0x3B, 0xD5, V(0),
    0x06, 0x00, 0x06, 0x02, 0x07, 0x07, 0x07, 0x07, 0x07, 0x07, 0x07, 0x07, 0x04, 0x00, 0x0C, 0x01, 0x27, V(7), 0x06, 0x00, 0x00};

static const pmu_reply end = {PMU_END, 0, 0, 0};
static uint8_t input[PMU_INPUT], out[PMU_ROOM];
static char text[PMU_ROOM];

/* The kinds of replies that came: bit k for kind k. */
static unsigned seen;

/* A reply that the reader of a session gives. */
static pmu_reply refused(uint16_t number)
{
    const pmu_reply r = {PMU_REFUSED, number, 0, 0};

    return r;
}

/* A number of so many bytes, the lowest first. */
static uint64_t number(const uint8_t *at, size_t bytes)
{
    return bytes == 0 ? 0 : at[0] + (number(at + 1, bytes - 1) << 8);
}

/* The call for a command with these operands, with a list, or without one where it is null: then there is no step back. */
static pmu_reply call(uint64_t *m, uint64_t *list, uint8_t byte, const uint8_t *o)
{
    switch (byte) {
    case 0x01:
        return list ? pmu_set_listed(m, list, o[0], number(o + 1, 8)) : pmu_set(m, o[0], number(o + 1, 8));
    case 0x02:
        return list ? pmu_level_listed(m, list, o[0]) : pmu_level(m, o[0]);
    case 0x03:
        return list ? pmu_access_listed(m, list, (uint32_t)number(o, 4), number(o + 4, 8))
                    : pmu_access(m, (uint32_t)number(o, 4), number(o + 4, 8));
    case 0x04:
        return pmu_external_read(m, (uint16_t)number(o, 2));
    case 0x05:
        return list ? pmu_external_write_listed(m, list, (uint16_t)number(o, 2), number(o + 2, 8))
                    : pmu_external_write(m, (uint16_t)number(o, 2), number(o + 2, 8));
    case 0x06:
        return list ? pmu_tick_listed(m, list, o[0]) : pmu_tick(m, o[0]);
    case 0x07:
        return pmu_back(m, list);
    default:
        return list ? pmu_sample_listed(m, list, o[0]) : pmu_sample(m, o[0]);
    }
}

/* The call on a machine with a list and on one without: the reply of both, with the same words after it, else one of no kind.
 * After a step back the second has the words of the first. */
static pmu_reply both(uint64_t *m, uint64_t *list, uint64_t *plain, uint8_t byte, const uint8_t *o)
{
    const pmu_reply none = {0, 0, 0, 0};
    pmu_reply r = call(m, list, byte, o), other = r;

    if (byte == 0x07)
        memcpy(plain, m, PMU_WORDS * sizeof *m);
    else
        other = call(plain, NULL, byte, o);
    if (r.kind != other.kind || r.detail != other.detail || r.cause != other.cause || r.value != other.value)
        return none;
    return memcmp(plain, m, PMU_WORDS * sizeof *m) == 0 ? r : none;
}

/* The lines of a session made by calls on these words: they stand in `text`, and their length is returned. */
static size_t run(const uint8_t *at, size_t length, uint64_t *m, uint64_t *list, uint64_t *plain)
{
    static const size_t operands[9] = {0, 9, 1, 12, 2, 10, 1, 0, 1};
    uint64_t position;
    size_t n = 0;

    for (position = 1;; position++) {
        pmu_reply r;

        if (length != 0 && at[0] > 0x08)
            return n + pmu_line(position, refused(1), text + n);
        if (length == 0 || length <= operands[at[0]])
            return n + pmu_line(position, refused(2), text + n);
        if (at[0] == 0x00)
            return n + pmu_line(position, end, text + n);
        r = both(m, list, plain, at[0], at + 1);
        seen |= 1u << r.kind;
        n += pmu_line(position, r, text + n);
        length -= 1 + operands[at[0]];
        at += 1 + operands[at[0]];
    }
}

/* The same from the fresh record and the empty list. The words stand by themselves on the heap, where valgrind sees what goes
 * beyond them. */
static size_t by_calls(const uint8_t *session, size_t length)
{
    uint64_t *m = malloc(PMU_WORDS * sizeof *m), *plain = malloc(PMU_WORDS * sizeof *plain);
    uint64_t *list = calloc(PMU_LIST, sizeof *list);
    size_t n = 0;

    if (m != NULL && plain != NULL && list != NULL) {
        pmu_fresh(m);
        pmu_fresh(plain);
        n = length > PMU_LONGEST ? pmu_line(0, refused(6), text) : run(session, length, m, list, plain);
    }
    free(m);
    free(plain);
    free(list);
    return n;
}

/* The lines by calls are those of the session. */
static int agree(const uint8_t *session, size_t length)
{
    size_t n = by_calls(session, length);

    return pmu_session(session, length, out, sizeof out) == n && memcmp(out, text, n) == 0;
}

/* The reply has this line, and no byte behind its 0 is written. */
static int has_line(uint64_t position, uint32_t kind, uint16_t detail, uint16_t cause, uint64_t value, const char *line)
{
    const pmu_reply r = {kind, detail, cause, value};
    char there[PMU_LINE + 1];
    size_t n;

    memset(there, 0x55, sizeof there);
    n = pmu_line(position, r, there);
    return n == strlen(line) && n < PMU_LINE && memcmp(there, line, n + 1) == 0 && there[n + 1] == 0x55;
}

/* The lines of replies, those that no call gives among them: the number of the first that is another, or 0. */
static int wrong_line(void)
{
    if (!has_line(1, PMU_OK, 0, 0, 0, "1 ok\n") || !has_line(2, PMU_SAMPLED, 0, 0, 0, "2 sampled\n"))
        return 1;
    if (!has_line(7, PMU_END, 0, 0, 0, "7 end\n") || !has_line(10, PMU_UNDEF, 0, 0, 0, "10 undef\n"))
        return 2;
    if (!has_line(4096, PMU_OTHER, 0, 0, 0, "4096 other\n") || !has_line(0, PMU_ERROR, 0, 0, 0, "0 error\n"))
        return 3;
    if (!has_line(5, PMU_TRAP, 2, 4, 0x6238F851, "5 trap 2 6238F851 4\n"))
        return 4;
    if (!has_line(5, PMU_VALUE, 0, 0, 0x18000003F, "5 value 000000018000003F\n"))
        return 5;
    if (!has_line(5, PMU_MRS, 31, 0, 42, "5 value 000000000000002A 31\n"))
        return 6;
    if (!has_line(9, PMU_REFUSED, 18, 0, 0, "9 refused 18\n"))
        return 10;
    if (!has_line(1, 0, 1, 2, 3, "") || !has_line(1, 11, 1, 2, 3, "") || !has_line(1, UINT32_MAX, 1, 2, 3, ""))
        return 7;
    if (!has_line(UINT64_MAX, PMU_TRAP, 65535, 65535, UINT64_MAX, "18446744073709551615 trap 65535 FFFFFFFF 65535\n"))
        return 8;
    if (!has_line(UINT64_MAX, PMU_MRS, 65535, 0, UINT64_MAX, "18446744073709551615 value FFFFFFFFFFFFFFFF 65535\n"))
        return 9;
    return 0;
}

/* A reply is laid out as the library has it. */
static int laid_out(void)
{
    return sizeof(pmu_reply) == 16 && offsetof(pmu_reply, kind) == 0 && offsetof(pmu_reply, detail) == 4
        && offsetof(pmu_reply, cause) == 6 && offsetof(pmu_reply, value) == 8;
}

int main(void)
{
    const unsigned all = (1u << (PMU_REFUSED + 1)) - 2 - (1u << PMU_END);
    int line = wrong_line();
    size_t n;

    if (!laid_out() || line != 0 || !agree(kinds, sizeof kinds) || seen != all) {
        fprintf(stderr, "%swrong line %d, kinds seen %X\n%s", laid_out() ? "" : "layout, ", line, seen, text);
        return 1;
    }
    n = fread(input, 1, sizeof input, stdin);
    if (ferror(stdin)) {
        perror("standard input");
        return 1;
    }
    if (!agree(input, n)) {
        fprintf(stderr, "the calls give other lines than the session:\n%s", text);
        return 1;
    }
    if (fputs(text, stdout) == EOF || fflush(stdout) != 0) {
        perror("standard output");
        return 1;
    }
    return 0;
}
