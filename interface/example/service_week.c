/* The planner of the service week asks how many stations of a table may be out at once: the sets of working stations that contain a whole quorum,
 * counted by their size, and what that says of outages, in words. Its arguments are n, k and the quorums of a table; without any it speaks of
 * some tables that it knows. Written against pafluzeno.h alone. */
#include <stdio.h>
#include <stdlib.h>

#include "../pafluzeno.h"

static uint8_t scratch[PAFLUZENO_SCRATCH_BYTES];

/* The number of all sets of u of n stations. */
static unsigned long sets_of(size_t n, size_t u)
{
    unsigned long sets = 1;
    for (size_t i = 0; i < u; i++)
        sets = sets * (n - i) / (i + 1);
    return sets;
}

static const char *outages(size_t d)
{
    static char words[2][32];
    static int turn;
    turn = !turn;
    if (d == 0)
        snprintf(words[turn], sizeof words[turn], "no outage");
    else
        snprintf(words[turn], sizeof words[turn], d == 1 ? "%zu outage" : "%zu outages", d);
    return words[turn];
}

static void plan(const char *name, size_t n, size_t k, const uint16_t *quorums, size_t len)
{
    struct pafluzeno_counted c = pafluzeno_outages(n, k, quorums, len, scratch, sizeof scratch);
    if (c.refusal != PAFLUZENO_NO_REFUSAL) {
        printf("%s: the table is refused by %u, so that nothing is counted\n", name, c.refusal);
        return;
    }
    printf("%s:", name);
    for (size_t u = 0; u < c.size; u++)
        printf(" %u", c.counts[u]);
    size_t every = 0, best = 0;
    while (every < n && c.counts[n - every - 1] == sets_of(n, every + 1))
        every++;
    while (best < n && c.counts[n - best - 1] > 0)
        best++;
    printf("\n  survives %s in every case, %s in the best case\n", outages(every), outages(best));
    for (size_t d = every + 1; d <= best; d++)
        printf("  with %zu of %zu stations out it survives in %u of %lu cases\n", d, n, c.counts[n - d], sets_of(n, d));
}

static size_t made(struct pafluzeno_made m)
{
    if (m.refusal != PAFLUZENO_NO_REFUSAL)
        exit(1);
    return m.quorums;
}

/* An argument that is a number up to `most`. */
static size_t number(const char *word, unsigned long most)
{
    char *end;
    unsigned long value = strtoul(word, &end, 10);
    if (word[0] < '0' || word[0] > '9' || *end != '\0' || value > most) {
        fprintf(stderr, "service_week: %s is no number up to %lu\n", word, most);
        exit(2);
    }
    return value;
}

/* The table of the arguments. Of too many quorums one more than a table may have is enough to be refused. */
static void plan_given(int argc, char **argv)
{
    uint16_t table[PAFLUZENO_MOST_QUORUMS + 1];
    size_t len = 0;
    for (int i = 3; i < argc && len <= PAFLUZENO_MOST_QUORUMS; i++)
        table[len++] = (uint16_t)number(argv[i], UINT16_MAX);
    plan("the table given", number(argv[1], UINT16_MAX), number(argv[2], UINT16_MAX), table, len);
}

int main(int argc, char **argv)
{
    if (argc > 2) {
        plan_given(argc, argv);
        return 0;
    }
    const uint16_t p2[] = {3, 5, 6}, pair[] = {3, 13, 14}, plane[] = {7, 25, 97, 42, 82, 76, 52};
    uint16_t table[PAFLUZENO_MOST_QUORUMS];
    plan("P2, the pairs of 3 stations", 3, 1, p2, 3);
    plan("P3, the same for 2 units", 3, 2, p2, 3);
    plan("one station of 5", 5, 200, table, made(pafluzeno_singleton(5, 0, table, PAFLUZENO_MOST_QUORUMS)));
    plan("two stations, or one of them with both others", 4, 1, pair, 3);
    plan("all sets of 4 of 7 stations", 7, 1, table, made(pafluzeno_uniform(7, 1, table, PAFLUZENO_MOST_QUORUMS)));
    plan("all sets of 5 of 7 stations, for 2 units", 7, 2, table, made(pafluzeno_uniform(7, 2, table, PAFLUZENO_MOST_QUORUMS)));
    plan("the plane of 7 stations", 7, 1, plane, 7);
    plan("P10, the square of 9 stations", 9, 1, table, made(pafluzeno_cube(3, 1, table, PAFLUZENO_MOST_QUORUMS)));
    return 0;
}
