/* A session from standard input, its lines to standard output, through the static library; before that, the tests of pmu_run
 * and pmu_run_convert. */
#include <stdio.h>
#include <string.h>

#include "../pmu.h"

static uint8_t input[PMU_INPUT];

/* Room for an output, with one byte on either side of it. */
static uint8_t bytes[1 + PMU_ROOM + 1];
static uint8_t *const out = bytes + 1;

/* A short session with a set that is as narrow as it can be and one that is not, and no bytes. */
static const uint8_t wide[11] = {0x10, 0x11, 0x00, 0x01, 0x12, 0x0C, 0xFF, 0x00, 0x00, 0x00, 0x00};
static const uint8_t nothing[1] = {0};

/* What pmu_run must not run, and writes nothing for: the number of the first that it does run, or 0. */
static int wrongly_run(void)
{
    const uint8_t end[1] = {0};

    if (pmu_run(NULL, 1, out, PMU_ROOM) != 0 || pmu_run(end, 1, NULL, 0) != 0)
        return 1;
    if (pmu_run(end, 1, out, PMU_ROOM - 1) != 0)
        return 2;
    if (pmu_run(end, SIZE_MAX, out, PMU_ROOM) != 0 || pmu_run(end, 1, out, SIZE_MAX) != 0)
        return 3;
    if (pmu_run((const uint8_t *)(UINTPTR_MAX - 1), 100, out, PMU_ROOM) != 0)
        return 4;
    if (pmu_run(out, 1, out, PMU_ROOM) != 0 || pmu_run(out + PMU_ROOM - 1, 1, out, PMU_ROOM) != 0)
        return 5;
    if (pmu_run(bytes, 2, out, PMU_ROOM) != 0 || pmu_run(bytes, sizeof bytes, out, PMU_ROOM) != 0)
        return 6;
    return out[0] != 0 ? 7 : 0;
}

/* The session gives this output. */
static int gives(const uint8_t *session, size_t length, const char *lines)
{
    size_t n = strlen(lines);

    return pmu_run(session, length, out, PMU_ROOM) == n && memcmp(out, lines, n) == 0;
}

/* What pmu_run must run, and the constants of the header: the number of the first that is not so, or 0. */
static int wrongly_refused(void)
{
    const uint8_t back[5] = {0x02, 0x01, 0x07, 0x07, 0x00};

    if (pmu_room() != PMU_ROOM)
        return 1;
    if (!gives(NULL, 0, "1 refused 2\n") || !gives(out + 1, 0, "1 refused 2\n"))
        return 2;
    if (!gives(bytes, 1, "1 end\n") || !gives(out + PMU_ROOM, 1, "1 end\n"))
        return 3;
    if (!gives(input, PMU_LONGEST, "1 end\n") || !gives(input, PMU_LONGEST + 1, "0 refused 6\n"))
        return 4;
    if (!gives(back, sizeof back, "1 ok\n2 ok\n3 refused 18\n4 end\n"))
        return 5;
    if (!gives(wide, sizeof wide, "1 ok\n2 refused 19\n3 end\n"))
        return 6;
    return 0;
}

/* The conversion says these numbers, and leaves these bytes at the front of the buffer, one byte more as it was. */
static int turns(const uint8_t *session, size_t length, size_t n, size_t refusal, const uint8_t *other)
{
    pmu_conversion said;

    memset(out, 0xAA, PMU_CONVERT_ROOM);
    said = pmu_run_convert(session, length, out, PMU_CONVERT_ROOM);
    return said.bytes == n && said.refusal == refusal && memcmp(out, other, n) == 0 && (n == PMU_CONVERT_ROOM || out[n] == 0xAA);
}

/* What pmu_run_convert must convert and must refuse: the number of the first that is not so, or 0. */
static int wrongly_converted(void)
{
    const uint8_t set[11] = {0x01, 0x00, 0x01, 0, 0, 0, 0, 0, 0, 0, 0x00}, short_set[5] = {0x10, 0x11, 0x00, 0x01, 0x00};
    pmu_conversion said = pmu_run_convert(set, sizeof set, out, PMU_CONVERT_ROOM - 1);

    if (pmu_convert_room() != PMU_CONVERT_ROOM || said.bytes != 0 || said.refusal != 0)
        return 1;
    said = pmu_run_convert(out, 1, out, PMU_CONVERT_ROOM);
    if (said.bytes != 0 || said.refusal != 0)
        return 2;
    if (!turns(set, sizeof set, sizeof short_set, 0, short_set) || !turns(short_set, sizeof short_set, sizeof set, 0, set))
        return 3;
    if (!turns(NULL, 0, 0, 2, nothing) || !turns(wide, sizeof wide, 0, 19, nothing))
        return 4;
    memset(input, 0x00, sizeof input);
    if (!turns(input, PMU_LONGEST + 1, 0, 6, nothing))
        return 5;
    input[0] = 0x10;
    if (!turns(input, PMU_INPUT, 0, 6, nothing) || !turns(input, PMU_LONGEST + 1, 1, 0, short_set + 4))
        return 6;
    input[0] = 0x00;
    return 0;
}

int main(void)
{
    int run = wrongly_run(), refused = wrongly_refused(), converted = wrongly_converted();
    size_t n;

    if (run != 0 || refused != 0 || converted != 0) {
        fprintf(stderr, "wrongly run %d, wrongly refused %d, wrongly converted %d\n", run, refused, converted);
        return 1;
    }
    n = fread(input, 1, sizeof input, stdin);
    if (ferror(stdin)) {
        perror("standard input");
        return 1;
    }
    n = pmu_run(input, n, out, PMU_ROOM);
    if (n == 0 || fwrite(out, 1, n, stdout) != n || fflush(stdout) != 0) {
        perror("standard output");
        return 1;
    }
    return 0;
}
