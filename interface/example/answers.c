/* Every refusal that the calls on tables and on the arbiter give, made to happen from C, and one answer of each call; one line each. A refusal
 * that is not the one expected, or that changes what it was lent, ends the program. The journal's calls are in journal.c. */
#include <stdio.h>
#include <stdlib.h>
#include <string.h>

#include "../pafluzeno.h"

_Static_assert(sizeof(struct pafluzeno_arbiter) == 37, "the arbiter's record is 37 bytes, without gaps");
_Static_assert(sizeof(struct pafluzeno_checked) == 48, "the check's answer as the library lays it out");
_Static_assert(sizeof(struct pafluzeno_counted) == 48, "and that of the outages");

enum { ROOM = 70 };

static uint8_t scratch[5000];
static uint16_t out[ROOM];

static void expect(const char *call, unsigned refusal, unsigned wanted)
{
    printf("%s: refused=%u", call, refusal);
    if (refusal != wanted) {
        fprintf(stderr, "answers: %u was expected\n", wanted);
        exit(1);
    }
}

/* What a lent scratch of 7s is to be like afterwards; and then all is 7 again. */
static void expect_scratch(size_t room)
{
    for (size_t i = 0; i < sizeof scratch; i++)
        if (scratch[i] != (room >= PAFLUZENO_SCRATCH_BYTES && i < PAFLUZENO_SCRATCH_BYTES ? 0 : 7))
            exit(1);
    memset(scratch, 7, sizeof scratch);
}

/* The check, and the outages, which are refused as it is. */
static void check(const char *call, size_t n, size_t k, const uint16_t *quorums, size_t len, size_t room, unsigned wanted)
{
    struct pafluzeno_checked c = pafluzeno_check(n, k, quorums, len, scratch, room);
    expect_scratch(room);
    struct pafluzeno_counted o = pafluzeno_outages(n, k, quorums, len, scratch, room);
    expect_scratch(room);
    if (o.refusal != c.refusal || o.size != (c.refusal == PAFLUZENO_NO_REFUSAL ? n + 1 : 0))
        exit(1);
    expect(call, c.refusal, wanted);
    printf(" width=%zu even=%u", c.width, c.even);
    for (size_t i = 0; i < c.size; i++)
        printf(i == 0 ? " family=%u" : " %u", c.family[i]);
    for (size_t u = 0; u < o.size; u++)
        printf(u == 0 ? " counts=%u" : " %u", o.counts[u]);
    printf("\n");
}

static void made(const char *call, struct pafluzeno_made m, unsigned wanted)
{
    expect(call, m.refusal, wanted);
    printf(" quorums=%zu first=%u beyond=%u\n", m.quorums, out[0], out[m.quorums]);
    memset(out, 255, sizeof out);
}

static void tell(const char *call, struct pafluzeno_arbiter a, struct pafluzeno_arrival m, unsigned wanted)
{
    struct pafluzeno_arbiter before = a;
    struct pafluzeno_reply r = pafluzeno_tell(&a, m);
    if (r.refusal != 0 && (r.granted != 0 || memcmp(&a, &before, sizeof a) != 0))
        exit(1);
    expect(call, r.refusal, wanted);
    printf(" granted=%u waiting=%u\n", r.granted, a.len);
}

int main(void)
{
    const uint16_t p2[] = {3, 5, 6}, p4[] = {1, 2}, p8[] = {1, 3}, eight[] = {8}, many[65] = {1};
    const uint16_t two_sizes[] = {7, 28, 49, 42, 54, 45, 27};
    memset(scratch, 7, sizeof scratch);
    check("P2", 3, 1, p2, 3, 5000, PAFLUZENO_NO_REFUSAL);
    check("two sizes", 6, 1, two_sizes, 7, 5000, PAFLUZENO_NO_REFUSAL);
    check("n = 13", 13, 1, p2, 3, 5000, PAFLUZENO_BAD_STATIONS);
    check("k = 0", 3, 0, p2, 3, 5000, PAFLUZENO_BAD_STOCK);
    check("an empty table", 3, 1, p2, 0, 5000, PAFLUZENO_BAD_LENGTH);
    check("65 quorums", 3, 1, many, 65, 5000, PAFLUZENO_BAD_LENGTH);
    check("a station that is not there", 3, 1, eight, 1, 5000, PAFLUZENO_BAD_QUORUM);
    check("little scratch", 3, 1, p2, 3, 4095, PAFLUZENO_SHORT_SCRATCH);
    check("P3", 3, 2, p2, 3, 4096, PAFLUZENO_NO_COMMON_MEMBER);
    check("P4", 2, 5, p4, 2, 4096, PAFLUZENO_NO_COMMON_MEMBER);
    check("P8", 2, 1, p8, 2, 4096, PAFLUZENO_NESTED);

    memset(out, 255, sizeof out);
    made("station 2 of 3", pafluzeno_singleton(3, 2, out, ROOM), PAFLUZENO_NO_REFUSAL);
    made("P10", pafluzeno_cube(3, 1, out, ROOM), PAFLUZENO_NO_REFUSAL);
    made("uniform, n = 4, k = 2", pafluzeno_uniform(4, 2, out, ROOM), PAFLUZENO_NO_REFUSAL);
    made("station 3 of 3", pafluzeno_singleton(3, 3, out, ROOM), PAFLUZENO_NO_SUCH_STATION);
    made("no room", pafluzeno_singleton(3, 2, out, 0), PAFLUZENO_SHORT_BUFFER);
    made("cube, a = 2, k = 3", pafluzeno_cube(2, 3, out, ROOM), PAFLUZENO_NO_CUBE);
    made("uniform, n = 9, k = 1", pafluzeno_uniform(9, 1, out, ROOM), PAFLUZENO_TOO_MANY_QUORUMS);

    struct pafluzeno_arbiter fresh = {0}, busy = {.granted = {1}, .len = 1, .line = {{2, 1}}}, full = {.len = 12}, long_line = {.len = 13};
    for (int i = 0; i < PAFLUZENO_MOST_STATIONS; i++)
        full.line[i] = (struct pafluzeno_entry){.station = 1, .units = 1};
    tell("request", fresh, (struct pafluzeno_arrival){2, 0, PAFLUZENO_REQUEST, 2}, PAFLUZENO_NO_REFUSAL);
    tell("request behind another", busy, (struct pafluzeno_arrival){1, 1, PAFLUZENO_REQUEST, 1}, PAFLUZENO_NO_REFUSAL);
    tell("release", busy, (struct pafluzeno_arrival){1, 0, PAFLUZENO_RELEASE, 0}, PAFLUZENO_NO_REFUSAL);
    tell("withdraw of the one who has", busy, (struct pafluzeno_arrival){1, 0, PAFLUZENO_WITHDRAW, 0}, PAFLUZENO_NO_REFUSAL);
    tell("withdraw of the one who waits", busy, (struct pafluzeno_arrival){1, 2, PAFLUZENO_WITHDRAW, 0}, PAFLUZENO_NO_REFUSAL);
    tell("no message, of stock 201", fresh, (struct pafluzeno_arrival){201, 12, 3, 0}, PAFLUZENO_BAD_FORM);
    tell("stock 201", fresh, (struct pafluzeno_arrival){201, 0, PAFLUZENO_REQUEST, 1}, PAFLUZENO_BAD_STOCK);
    tell("a line of 13", long_line, (struct pafluzeno_arrival){1, 0, PAFLUZENO_REQUEST, 1}, PAFLUZENO_OUT_OF_RANGE);
    tell("station 12", fresh, (struct pafluzeno_arrival){1, 12, PAFLUZENO_REQUEST, 1}, PAFLUZENO_NO_SUCH_STATION);
    tell("2 units of 1", fresh, (struct pafluzeno_arrival){1, 0, PAFLUZENO_REQUEST, 2}, PAFLUZENO_BAD_UNITS);
    tell("a full line", full, (struct pafluzeno_arrival){1, 0, PAFLUZENO_REQUEST, 1}, PAFLUZENO_NO_PLACE);
    return 0;
}
