/* The stack that each call needs beyond its return address, one line a call: what is no longer painted after the call was made on inputs that
 * lead it to its deepest places. More than the header says ends the program, and so does an answer that is not the one expected. */
#define _POSIX_C_SOURCE 200809L /* pthread_attr_setstack */
#include <pthread.h>
#include <stdbool.h>
#include <stdio.h>
#include <stdlib.h>
#include <string.h>

#include "pafluzeno.h"

enum { STACK = 1 << 20, PAINT = 165, MOST_TEXT = 65536, STATIONS = PAFLUZENO_MOST_STATIONS, QUORUMS = PAFLUZENO_MOST_QUORUMS };

/* In an order in which each finds what it reads: records, then their readers; the page, then its sums. */
enum call {
    NOTHING, CHECK, OUTAGES, SINGLETON, UNIFORM, CUBE, NEXT_MEMBER, TELL, WRITE_RECORD, READ_LINE, READ_RECORD, AFTER_RECORD, PAGE, TALLY, CALLS
};
static const char *const names[CALLS] = {"nothing", "check",        "outages",   "singleton",   "uniform",      "cube", "next_member",
                                         "tell",    "write_record", "read_line", "read_record", "after_record", "page", "tally"};

/* All stations but the last wait; with a length of 12, all do. */
static const struct pafluzeno_arbiter waiting = {
    .len = 11, .line = {{0, 1}, {1, 1}, {2, 1}, {3, 1}, {4, 1}, {5, 1}, {6, 1}, {7, 1}, {8, 1}, {9, 1}, {10, 1}, {11, 1}}};

static _Alignas(4096) uint8_t stack[STACK];
static uint16_t table[QUORUMS + 1], out[QUORUMS];
static uint8_t scratch[PAFLUZENO_SCRATCH_BYTES], records[500], text[MOST_TEXT + 50], page[PAFLUZENO_PAGE_ROOM];
static size_t records_len, text_len, page_len, records_at;

static void expect(bool condition, enum call call, const char *what)
{
    if (condition)
        return;
    fprintf(stderr, "stack: %s %s\n", names[call], what);
    exit(1);
}

static void empty(void) {}
static void (*volatile nothing)(void) = empty; /* volatile, so that the empty call is made */

/* Whether all answers are as expected. */
static bool made(enum call call)
{
    bool good;
    struct pafluzeno_tally t;
    struct pafluzeno_arbiter arbiter = waiting;
    switch (call) {
    case CHECK: /* accepted, no common member, nested */
        good = pafluzeno_check(STATIONS, 1, table, QUORUMS, scratch, sizeof scratch).refusal == PAFLUZENO_NO_REFUSAL;
        good = good && pafluzeno_check(STATIONS, 200, table, QUORUMS, scratch, sizeof scratch).refusal == PAFLUZENO_NO_COMMON_MEMBER;
        return good && pafluzeno_check(STATIONS, 1, table + 1, QUORUMS, scratch, sizeof scratch).refusal == PAFLUZENO_NESTED;
    case OUTAGES: /* counted, no common member, nested */
        good = pafluzeno_outages(STATIONS, 1, table, QUORUMS, scratch, sizeof scratch).counts[STATIONS] == 1;
        good = good && pafluzeno_outages(STATIONS, 200, table, QUORUMS, scratch, sizeof scratch).refusal == PAFLUZENO_NO_COMMON_MEMBER;
        return good && pafluzeno_outages(STATIONS, 1, table + 1, QUORUMS, scratch, sizeof scratch).refusal == PAFLUZENO_NESTED;
    case SINGLETON:
        return pafluzeno_singleton(STATIONS, 11, out, QUORUMS).quorums == 1;
    case UNIFORM: /* the first goes deepest, the second writes the most */
        return pafluzeno_uniform(STATIONS, 11, out, QUORUMS).quorums == 1 && pafluzeno_uniform(8, 1, out, QUORUMS).quorums == 56;
    case CUBE:
        return pafluzeno_cube(3, 1, out, QUORUMS).quorums == 9 && pafluzeno_cube(2, 2, out, QUORUMS).quorums == 8;
    case NEXT_MEMBER:
        good = pafluzeno_next_member(4095, 0).above == 11;
        return good && pafluzeno_next_member(4095, STATIONS).member == PAFLUZENO_NO_MEMBER;
    case TELL: /* a request that fills the line, a release to a full one, a withdrawal from it: all are granted that are left */
        good = pafluzeno_tell(&arbiter, (struct pafluzeno_arrival){200, 11, PAFLUZENO_REQUEST, 1}).granted == 4095;
        arbiter = waiting, arbiter.len = STATIONS;
        good = good && pafluzeno_tell(&arbiter, (struct pafluzeno_arrival){200, 11, PAFLUZENO_RELEASE, 0}).granted == 4095;
        arbiter = waiting, arbiter.len = STATIONS;
        return good && pafluzeno_tell(&arbiter, (struct pafluzeno_arrival){200, 11, PAFLUZENO_WITHDRAW, 0}).granted == 2047;
    case WRITE_RECORD: /* the longest of each word */
        records_len = 0;
        for (uint16_t what = 0; what < 5; what++) {
            struct pafluzeno_record r = {what, 65535, what < 3 ? 65535 : 0, what < 1 ? 65535 : 0, 65535, 65535, 65535};
            records_len = pafluzeno_write_record(records, sizeof records, records_len, r).place;
        }
        return records_len == 87 + 78 + 80 + 79 + 80;
    case READ_LINE:
        good = pafluzeno_read_line((const uint8_t *)"do", 2, records, records_len).len == 7;
        return good && pafluzeno_read_line((const uint8_t *)"station", 7, records + 11, records_len - 11).len == 5;
    case READ_RECORD:
        return pafluzeno_read_record(records, records_len).taken == 87 && pafluzeno_read_record(records, 86).refusal == PAFLUZENO_BAD_FORM;
    case AFTER_RECORD:
        return pafluzeno_after_record(records, records_len).place == 87 && pafluzeno_after_record(records, 86).len == 0;
    case PAGE: /* a text too long, a refused table, and the longest text */
        good = pafluzeno_page(text, MOST_TEXT + 1, page, sizeof page).len == strlen("input=15\n");
        text[strlen("stations=12\nunits=")] = '9';
        good = good && pafluzeno_page(text, MOST_TEXT, page, sizeof page).len < MOST_TEXT;
        text[strlen("stations=12\nunits=")] = '1';
        page_len = pafluzeno_page(text, MOST_TEXT, page, sizeof page).len;
        return good && page_len > MOST_TEXT;
    case TALLY:
        t = pafluzeno_tally(page + records_at, page_len - records_at);
        return t.refusal == PAFLUZENO_NO_REFUSAL && t.entered.low > 20 && t.entered.low == t.left.low;
    default:
        nothing();
        return true;
    }
}

/* Counts before the thread ends: what its end needs is not the call's. */
static void *count(void *call)
{
    static size_t used;
    made(*(enum call *)call);
    for (used = STACK; stack[STACK - used] == PAINT;)
        used--;
    return &used;
}

static size_t bytes_of(enum call call)
{
    pthread_t thread;
    pthread_attr_t attr;
    void *used = NULL;
    memset(stack, PAINT, STACK);
    bool ready = pthread_attr_init(&attr) == 0 && pthread_attr_setstack(&attr, stack, STACK) == 0;
    expect(ready && pthread_create(&thread, &attr, count, &call) == 0 && pthread_join(thread, &used) == 0, call, "finds no thread");
    return *(size_t *)used;
}

static void step(const char *word, int station, int with, int units)
{
    text_len += (size_t)sprintf((char *)text + text_len, "do=%s\nstation=%d\nwith=%d\nunits=%d\n", word, station, with, units);
}

/* The table is sets of seven stations, by ascending number, the last twice; any two of them meet. The steps: two stations ask by one quorum,
 * the second waits until the first has given back, and gives back too; then two others; at the end some that are refused. */
static void make_text(void)
{
    text_len = (size_t)sprintf((char *)text, "stations=12\nunits=1\nquorums=64\n");
    for (unsigned i = 0, set = 127; i < QUORUMS; i++) {
        unsigned low = set & -set, next = set + low;
        table[i] = table[i + 1] = (uint16_t)set;
        text_len += (size_t)sprintf((char *)text + text_len, "members=%u\n", set);
        set = next | (set ^ next) / low >> 2; /* the next number with as many ones */
    }
    records_at = text_len + strlen("table=0\nwidth=3\neven=0\n");
    for (int a = 0, b = 1; text_len < MOST_TEXT - 7000; a = b, b = (b + 1) % STATIONS) {
        step("request", a, a, 1), step("request", b, a, 1);
        for (int j = 0; j < 3 * STATIONS; j++) {
            if (j % STATIONS == 0)
                step("release", a, 0, 0), step("release", b, 0, 0);
            step("up", a, j % STATIONS, 0), step("down", a, j % STATIONS, 0), step("up", b, j % STATIONS, 0), step("down", b, j % STATIONS, 0);
        }
    }
    while (text_len < MOST_TEXT) /* of 36 and of 31 bytes */
        step((MOST_TEXT - text_len) % 31 == 0 ? "up" : "request", 0, 0, 0);
}

int main(void)
{
    make_text();
    for (enum call call = CHECK; call < CALLS; call++) {
        expect(made(call), call, "has another answer"); /* and memcpy and memset are found, which may need stack once */
        size_t bytes = bytes_of(call), least = bytes_of(NOTHING);
        bytes = bytes > least ? (bytes - least + 15) / 16 * 16 : 0;
        printf("%s %zu\n", names[call], bytes);
        expect(bytes <= PAFLUZENO_STACK_BYTES, call, "needs more stack than the header says");
    }
    return 0;
}
