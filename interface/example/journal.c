/* A station's journal. Records are written into a buffer, each at the place that the one before answered, read again through the text after
 * each, and added up. Then the page of the same four steps is printed, and what stands behind its line `even` is added up too. An answer that
 * is not the one expected ends the program. */
#include <stdio.h>
#include <stdlib.h>
#include <string.h>

#include "../pafluzeno.h"

_Static_assert(sizeof(struct pafluzeno_record) == 14, "a record is 14 bytes, without gaps");
_Static_assert(sizeof(struct pafluzeno_read) == 24, "the reader's answer as the library lays it out");
_Static_assert(sizeof(struct pafluzeno_tally) == 48, "the sums as the library lays them out");

enum { ROOM = 300, STEPS = 4 };

static const char *const words[] = {"request", "up", "down", "release", "withdraw"};

/* One station, one unit: it asks, its own arbiter grants, and it gives back. */
static const struct pafluzeno_record done[STEPS] = {
    {.what = PAFLUZENO_DO_REQUEST, .units = 1},
    {.what = PAFLUZENO_DO_UP},
    {.what = PAFLUZENO_DO_DOWN, .entered = 1},
    {.what = PAFLUZENO_DO_RELEASE, .left = 1},
};

static const char asked[] = "stations=1\nunits=1\nquorums=1\nmembers=1\n"
                            "do=request\nstation=0\nwith=0\nunits=1\n"
                            "do=up\nstation=0\nwith=0\nunits=0\n"
                            "do=down\nstation=0\nwith=0\nunits=0\n"
                            "do=release\nstation=0\nwith=0\nunits=0\n";

static uint8_t journal[ROOM];
static uint8_t page[PAFLUZENO_PAGE_ROOM];

static void stop(const char *why)
{
    fprintf(stderr, "journal: %s\n", why);
    exit(1);
}

/* The records, one behind the other. Answers where they end. */
static size_t write_all(void)
{
    size_t at = 0;
    for (int i = 0; i < STEPS; i++) {
        struct pafluzeno_written w = pafluzeno_write_record(journal, ROOM, at, done[i]);
        if (w.refusal != PAFLUZENO_NO_REFUSAL)
            stop("a record is refused");
        printf("%s written at %zu to %zu\n", words[done[i].what], at, w.place);
        at = w.place;
    }
    return at;
}

/* A refusal answers the place that was given and writes nothing. */
static void refused(const char *name, size_t room, size_t at, struct pafluzeno_record record, unsigned wanted)
{
    static uint8_t before[ROOM];
    memcpy(before, journal, ROOM);
    struct pafluzeno_written w = pafluzeno_write_record(journal, room, at, record);
    if (w.refusal != wanted || w.place != at || memcmp(before, journal, ROOM) != 0)
        stop(name);
    printf("%s: refused=%u place=%zu\n", name, w.refusal, w.place);
}

/* Record by record: what is read next is the part after the one before. */
static void read_all(const uint8_t *text, size_t len)
{
    for (int i = 0; len > 0; i++) {
        struct pafluzeno_read r = pafluzeno_read_record(text, len);
        if (r.refusal != PAFLUZENO_NO_REFUSAL || i >= STEPS || memcmp(&r.record, &done[i], sizeof r.record) != 0)
            stop("what was written is not what is read");
        struct pafluzeno_part after = pafluzeno_after_record(text, len);
        printf("%s read: %zu bytes, %zu behind\n", words[r.record.what], r.taken, after.len);
        text += after.place;
        len = after.len;
    }
}

/* Where the text after the line of that key begins. The value is a part of the text. */
static size_t line(const char *key, const uint8_t *text, size_t len)
{
    struct pafluzeno_part value = pafluzeno_read_line((const uint8_t *)key, strlen(key), text, len);
    if (value.len == 0)
        stop(key);
    printf("%s is %.*s, at %zu\n", key, (int)value.len, (const char *)text + value.place, value.place);
    return value.place + value.len + 1;
}

static void add_up(const uint8_t *text, size_t len)
{
    struct pafluzeno_tally t = pafluzeno_tally(text, len);
    if (t.refusal != PAFLUZENO_NO_REFUSAL || t.entered.high != 0 || t.left.high != 0)
        stop("the records do not add up");
    printf("records=%zu entered=%llu left=%llu\n", t.records, (unsigned long long)t.entered.low, (unsigned long long)t.left.low);
}

/* The page of the same steps. Its records are the journal, byte for byte. */
static void print_page(size_t journal_len)
{
    static const char *const head[] = {"stations", "units", "quorums", "members", "table", "width", "even"};
    const uint8_t *text = (const uint8_t *)asked;
    struct pafluzeno_printed p = pafluzeno_page(text, strlen(asked), page, PAFLUZENO_PAGE_ROOM - 1);
    if (p.refusal != PAFLUZENO_SHORT_BUFFER || p.len != 0 || page[0] != 0)
        stop("a page in too little room");
    p = pafluzeno_page(text, strlen(asked), page, PAFLUZENO_PAGE_ROOM);
    if (p.refusal != PAFLUZENO_NO_REFUSAL)
        stop("no page");
    printf("\nthe page, %zu bytes:\n%.*s\n", p.len, (int)p.len, (const char *)page);
    size_t at = 0;
    for (size_t i = 0; i < sizeof head / sizeof head[0]; i++)
        at += line(head[i], page + at, p.len - at);
    add_up(page + at, p.len - at);
    if (p.len - at != journal_len || memcmp(page + at, journal, journal_len) != 0)
        stop("the page has other records");
}

int main(void)
{
    size_t len = write_all();
    struct pafluzeno_record bad = {.what = PAFLUZENO_DO_RELEASE, .with = 1};
    refused("a release with 1", ROOM, len, bad, PAFLUZENO_BAD_FORM);
    refused("a buffer too short", len + 57, len, done[1], PAFLUZENO_SHORT_BUFFER);
    refused("a place past the end", ROOM, ROOM + 1, done[1], PAFLUZENO_SHORT_BUFFER);

    printf("\nthe journal, %zu bytes:\n%.*s\n", len, (int)len, (const char *)journal);
    read_all(journal, len);
    line("do", journal, len);
    add_up(journal, len);
    if (pafluzeno_tally(journal, len - 1).refusal != PAFLUZENO_BAD_FORM)
        stop("a journal without its last byte adds up");

    print_page(len);
    return 0;
}
