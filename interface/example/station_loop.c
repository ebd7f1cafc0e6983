/* A station's loop, for five stations in one process. Each has its own arbiter record, which it lends to the library for each message that
 * reaches it, and collects its quorum in ascending order; now and then a batch is spoilt while its station collects, and it withdraws. The radio
 * is an array of lanes, first in first out, of which any that is not empty may deliver next; here a fixed sequence of random numbers chooses.
 * Written against pafluzeno.h alone. */
#include <stdbool.h>
#include <stdio.h>
#include <stdlib.h>

#include "../pafluzeno.h"

enum { STATIONS = 5, STOCK = 2, JOBS = 200, SPOILT_IN = 16, LANE_PLACES = 5 };

enum kind { REQUEST, RELEASE, WITHDRAW, GRANT, GONE };

struct message {
    enum kind kind;
    uint8_t units;
};

struct lane {
    struct message places[LANE_PLACES];
    int len;
};

enum phase { IDLE, COLLECTING, HOLDING, WITHDRAWING };

struct station {
    struct pafluzeno_arbiter arbiter; /* what this station grants to others */
    enum phase phase;                 /* what it does itself */
    uint16_t quorum;
    uint8_t units;
    size_t members;              /* how many members its quorum has */
    struct pafluzeno_next asked; /* whom it asks now, and how many are still to come */
    int jobs;                    /* how many batches it has finished */
};

static struct station stations[STATIONS];
static struct lane radio[STATIONS][STATIONS]; /* from, to */
static uint16_t table[PAFLUZENO_MOST_QUORUMS];
static size_t quorums;
static unsigned in_use, most_in_use, waited, withdrawn;

static void stop(const char *why, unsigned refusal)
{
    fprintf(stderr, "station_loop: %s (refusal %u)\n", why, refusal);
    exit(1);
}

/* A fixed sequence, the same on every machine. */
static unsigned chance(unsigned below)
{
    static uint64_t seed = 2523;
    seed = seed * 6364136223846793005u + 1442695040888963407u;
    return (unsigned)(seed >> 33) % below;
}

static void say(int from, int to, enum kind kind, uint8_t units)
{
    struct lane *lane = &radio[from][to];
    if (lane->len == LANE_PLACES)
        stop("a lane is full", PAFLUZENO_NO_PLACE);
    lane->places[lane->len++] = (struct message){kind, units};
}

/* The station's screen: how far it is with its quorum. Shown of station 0, for its first batch. */
static void show(int me, const char *does)
{
    const struct station *s = &stations[me];
    if (me == 0 && s->jobs == 0)
        printf("station 0 %s station %zu: %zu of %zu\n", does, s->asked.member, s->members - s->asked.above, s->members);
}

/* REQUEST to the next member. */
static void ask(int me, struct pafluzeno_next next)
{
    stations[me].asked = next;
    show(me, "asks");
    say(me, (int)next.member, REQUEST, stations[me].units);
}

static void begin(int me)
{
    struct station *s = &stations[me];
    s->phase = COLLECTING;
    s->quorum = table[chance((unsigned)quorums)];
    s->units = (uint8_t)(1 + chance(STOCK));
    struct pafluzeno_next lowest = pafluzeno_next_member(s->quorum, 0);
    s->members = lowest.above + 1;
    ask(me, lowest);
}

/* RELEASE to the members below that station. */
static void release_below(int me, size_t end)
{
    uint16_t quorum = stations[me].quorum;
    for (size_t j = pafluzeno_next_member(quorum, 0).member; j < end; j = pafluzeno_next_member(quorum, j + 1).member)
        say(me, (int)j, RELEASE, 0);
}

static void finish(int me)
{
    struct station *s = &stations[me];
    in_use -= s->units;
    s->phase = IDLE;
    s->jobs++;
    release_below(me, PAFLUZENO_NO_MEMBER);
}

/* The batch is spoilt: RELEASE to the members that have granted, WITHDRAW to the one asked now. */
static void withdraw(int me)
{
    struct station *s = &stations[me];
    s->phase = WITHDRAWING;
    withdrawn++;
    show(me, "withdraws at");
    release_below(me, s->asked.member);
    say(me, (int)s->asked.member, WITHDRAW, 0);
}

/* GRANT from the member asked: on to the next, or all have granted. Any other GRANT is dropped. */
static void granted(int me, int from)
{
    struct station *s = &stations[me];
    if (s->phase != COLLECTING || s->asked.member != (size_t)from)
        return;
    struct pafluzeno_next next = pafluzeno_next_member(s->quorum, s->asked.member + 1);
    if (next.member != PAFLUZENO_NO_MEMBER) {
        ask(me, next);
        return;
    }
    show(me, "holds after");
    s->phase = HOLDING;
    in_use += s->units;
    if (in_use > most_in_use)
        most_in_use = in_use;
    if (in_use > STOCK)
        stop("more units in use than there are", 0);
}

/* GONE: the member asked last has nothing of the request any more, and the station may begin again. */
static void gone(int me)
{
    if (stations[me].phase == WITHDRAWING)
        stations[me].phase = IDLE;
}

static uint8_t message_of(enum kind kind)
{
    return kind == REQUEST ? PAFLUZENO_REQUEST : kind == RELEASE ? PAFLUZENO_RELEASE : PAFLUZENO_WITHDRAW;
}

/* The arbiter's part: the record is lent for one message; GONE is sent to one that withdraws, and GRANT to the stations of the answer. */
static void arbitrate(int me, int from, struct message m)
{
    struct pafluzeno_arrival arrival = {
        .stock = STOCK, .station = (size_t)from, .message = message_of(m.kind), .units = m.units};
    struct pafluzeno_reply reply = pafluzeno_tell(&stations[me].arbiter, arrival);
    if (reply.refusal != PAFLUZENO_NO_REFUSAL)
        stop("the arbiter refuses", reply.refusal);
    if (m.kind == REQUEST && !(reply.granted >> from & 1))
        waited++;
    if (m.kind == WITHDRAW)
        say(me, from, GONE, 0);
    for (int s = 0; s < STATIONS; s++)
        if (reply.granted >> s & 1)
            say(me, s, GRANT, 0);
}

static void receive(int me, int from)
{
    struct lane *lane = &radio[from][me];
    struct message m = lane->places[0];
    lane->len--;
    for (int i = 0; i < lane->len; i++)
        lane->places[i] = lane->places[i + 1];
    if (m.kind == GRANT)
        granted(me, from);
    else if (m.kind == GONE)
        gone(me);
    else
        arbitrate(me, from, m);
}

/* One thing that can happen next, chosen by chance: a message is delivered, a station begins, finishes or withdraws. Whether there was any. */
static bool something_happens(void)
{
    unsigned possible = 0;
    int kind = 0, a = 0, b = 0;
    for (int i = 0; i < STATIONS; i++) {
        for (int j = 0; j < STATIONS; j++)
            if (radio[i][j].len > 0 && chance(++possible) == 0)
                kind = 0, a = j, b = i;
        if (stations[i].phase == IDLE && stations[i].jobs < JOBS && chance(++possible) == 0)
            kind = 1, a = i;
        if (stations[i].phase == HOLDING && chance(++possible) == 0)
            kind = 2, a = i;
        if (stations[i].phase == COLLECTING && chance(SPOILT_IN) == 0 && chance(++possible) == 0)
            kind = 3, a = i;
    }
    if (possible == 0)
        return false;
    if (kind == 0)
        receive(a, b);
    else if (kind == 1)
        begin(a);
    else if (kind == 2)
        finish(a);
    else
        withdraw(a);
    return true;
}

static void choose_table(void)
{
    static uint8_t scratch[PAFLUZENO_SCRATCH_BYTES];
    struct pafluzeno_made made = pafluzeno_uniform(STATIONS, STOCK, table, PAFLUZENO_MOST_QUORUMS);
    if (made.refusal != PAFLUZENO_NO_REFUSAL)
        stop("no table", made.refusal);
    quorums = made.quorums;
    struct pafluzeno_checked checked = pafluzeno_check(STATIONS, STOCK, table, quorums, scratch, sizeof scratch);
    if (checked.refusal != PAFLUZENO_NO_REFUSAL)
        stop("the table is refused", checked.refusal);
    printf("stations=%d units=%d quorums=%zu width=%zu even=%u\n", STATIONS, STOCK, quorums, checked.width, checked.even);
}

int main(void)
{
    choose_table();
    unsigned long steps = 0;
    while (something_happens())
        steps++;
    int jobs = 0;
    for (int i = 0; i < STATIONS; i++) {
        if (stations[i].phase != IDLE || stations[i].arbiter.len != 0)
            stop("a station is left waiting", 0);
        jobs += stations[i].jobs;
    }
    printf("batches=%d withdrawn=%u waited=%u most in use=%u in use=%u steps=%lu\n", jobs, withdrawn, waited, most_in_use, in_use, steps);
    return 0;
}
