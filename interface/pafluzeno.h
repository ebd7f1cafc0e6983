/* The calls of a station: the check of a quorum table, ready-made tables, the outages that a table survives, the arbiter of the station's own
 * record, and the journal.
 * They stand in crates/pafluzeno/out/libpafluzeno.a, which `rt lib` in crates/pafluzeno proves and writes (x86-64). It needs two functions of C,
 * memcpy and memset, and nothing else; it takes no memory but what it is lent and the stack, and remembers nothing from one call to the next.
 *
 * A table, a key and a text are lent to be read; scratch, a buffer and an arbiter's record are lent to be written; no call keeps any of them.
 * Every call ends and answers for all numbers and all contents of what it is lent, good or bad. What the caller owes is C's own: a pointer
 * is not null, also where its length is 0; it leads to as many elements as its length says; what a call may write overlaps nothing else that
 * the same call is lent; and one record is lent to one call at a time. */
#ifndef PAFLUZENO_H
#define PAFLUZENO_H

#include <stddef.h>
#include <stdint.h>

#ifdef __cplusplus
extern "C" {
#endif

/* The limits. */
#define PAFLUZENO_MOST_STATIONS 12
#define PAFLUZENO_MOST_UNITS 200
#define PAFLUZENO_MOST_QUORUMS 64
#define PAFLUZENO_SCRATCH_BYTES 4096
#define PAFLUZENO_NO_MEMBER 16 /* what stands for a member where there is none */
#define PAFLUZENO_PAGE_ROOM 196617 /* the bytes of a buffer that is long enough for every page of the journal */

/* So many bytes of stack are enough for every call. Measured (stack.c), not proved: pafluzeno_page takes 54,784 bytes, every other call 560 or less.
 * The rest is for memcpy and memset, for the loader, which may run on the caller's stack when they are first used, and for a compiler that lays the
 * calls out otherwise. The program `journal`, which has its buffers on the stack, takes 340 KiB. */
#define PAFLUZENO_STACK_BYTES 81920

/* The refusals, by name and number. The calls below give 1 to 8, 10 and 14 to 19; the others, 9, 11 to 13 and 20, are the machine's, which a
 * journal's record names by number. */
enum pafluzeno_refusal {
    PAFLUZENO_NO_REFUSAL = 0,
    PAFLUZENO_BAD_STATIONS = 1,      /* n outside 1..12 */
    PAFLUZENO_BAD_STOCK = 2,         /* k outside 1..200 */
    PAFLUZENO_BAD_LENGTH = 3,        /* quorums outside 1..64 */
    PAFLUZENO_BAD_QUORUM = 4,        /* a quorum empty or naming a station from n on */
    PAFLUZENO_SHORT_SCRATCH = 5,     /* scratch below 4,096 bytes */
    PAFLUZENO_NO_COMMON_MEMBER = 6,  /* some k + 1 quorums, repeats allowed, have no common member */
    PAFLUZENO_NESTED = 7,            /* one quorum contains or equals another */
    PAFLUZENO_NO_SUCH_STATION = 8,   /* a station or arbiter from n on */
    PAFLUZENO_NO_SUCH_QUORUM = 9,    /* request: no such quorum */
    PAFLUZENO_BAD_UNITS = 10,        /* request: units outside 1..k */
    PAFLUZENO_NOT_IDLE = 11,         /* request: the station is not idle */
    PAFLUZENO_NOT_HOLDING = 12,      /* release: the station does not hold */
    PAFLUZENO_EMPTY_LANE = 13,       /* up, down: the lane is empty */
    PAFLUZENO_NO_PLACE = 14,         /* a lane or line would pass its limit */
    PAFLUZENO_BAD_FORM = 15,         /* journal text or record not of the form, or a number that is no message */
    PAFLUZENO_SHORT_BUFFER = 16,     /* output buffer too short */
    PAFLUZENO_NO_CUBE = 17,          /* cube with a = 0 or more than 12 stations */
    PAFLUZENO_TOO_MANY_QUORUMS = 18, /* ready-made table above 64 quorums */
    PAFLUZENO_OUT_OF_RANGE = 19,     /* record out of range */
    PAFLUZENO_NOT_COLLECTING = 20    /* withdraw: the station does not collect */
};

/* What the check answers. On an accepted table and on refusals 6 and 7 width is the size of the smallest family of quorums without a common
 * station, 0 if there is none; on refusals 1 to 5 it is 0 and says nothing. On an accepted table and on refusal 6 even is 1 where every station is in
 * the same number of quorums and every quorum has the same number of members, so that every request costs the same number of messages, and 0 where
 * not; on all other refusals it is 0 and says nothing. On refusal 6 the first `size` numbers of `family` name the first smallest family without a
 * common station; otherwise size is 0. What lies in `family` beyond `size` is not part of the answer. */
struct pafluzeno_checked {
    uint8_t refusal;
    size_t width;
    uint8_t even;
    size_t size;
    uint8_t family[PAFLUZENO_MOST_STATIONS];
};

/* The check of a table of n stations and a stock of k: refusals 1 to 7, in that order. A quorum is the sum of 2^i over its members i. Where the
 * scratch has 4,096 bytes, its first 4,096 are zeros afterwards, on every answer; all its other bytes, and all of a shorter one, stay as they
 * are. */
struct pafluzeno_checked pafluzeno_check(size_t n, size_t k, const uint16_t *quorums, size_t quorums_len, uint8_t *scratch, size_t scratch_len);

/* What the maker of a table answers: the refusal, and how many quorums it wrote, none on a refusal. */
struct pafluzeno_made {
    uint8_t refusal;
    size_t quorums;
};

/* Ready-made tables. Each that is written passes the check for its k, a singleton for every k. Room is counted in entries; entries beyond the
 * table stay as they are, on a refusal all do. */

/* One quorum, that station alone: refusals 1, 8, 16. */
struct pafluzeno_made pafluzeno_singleton(size_t n, size_t station, uint16_t *out, size_t out_len);

/* All sets of floor(k * n / (k + 1)) + 1 of n stations, by ascending number: refusals 1, 2, 18, 16. */
struct pafluzeno_made pafluzeno_uniform(size_t n, size_t k, uint16_t *out, size_t out_len);

/* a^(k + 1) stations; for each the quorum of those that agree with it in at least one coordinate: refusals 2, 17, 16. */
struct pafluzeno_made pafluzeno_cube(size_t a, size_t k, uint16_t *out, size_t out_len);

/* How many sets of working stations contain a whole quorum: counts[u] of the sets of exactly u stations, for each u from 0 to n. On an accepted
 * table `size` is n + 1; on a refusal it is 0, and there are no counts. All places from `size` on are 0. */
struct pafluzeno_counted {
    uint8_t refusal;
    size_t size;
    uint16_t counts[PAFLUZENO_MOST_STATIONS + 1];
};

/* The outages that a table survives: refusals 1 to 7, as the check has them, in its order; the scratch is lent and left as there. With d of n
 * stations out, the table survives in the best case where counts[n - d] is above 0, and in every case where it is the number of all sets of n - d
 * of n stations. Where it does so with d stations out, it does with fewer. It takes at most 2^n times quorums_len steps besides the check. */
struct pafluzeno_counted pafluzeno_outages(size_t n, size_t k, const uint16_t *quorums, size_t quorums_len, uint8_t *scratch, size_t scratch_len);

/* A member of a quorum, and how many of its members lie above that one. */
struct pafluzeno_next {
    size_t member;
    size_t above;
};

/* The next member of a quorum from station `from` on; where there is none, PAFLUZENO_NO_MEMBER, with 0 above it. A station asks the members from
 * the lowest up: the next from 0 on, and after the GRANT of j the next from j + 1 on, until there is none and it holds. Of a quorum's m members
 * m - 1 lie above the lowest, and one less above each that follows: the member that is asked is number m - above of m. */
struct pafluzeno_next pafluzeno_next_member(uint16_t quorum, size_t from);

/* A place in an arbiter's line. */
struct pafluzeno_entry {
    uint8_t station;
    uint8_t units;
};

/* A station's own arbiter: the units granted to each station, and the line of those that wait, oldest first, in the first `len` places. At
 * the start all is 0. */
struct pafluzeno_arbiter {
    uint8_t granted[PAFLUZENO_MOST_STATIONS];
    uint8_t len;
    struct pafluzeno_entry line[PAFLUZENO_MOST_STATIONS];
};

/* The messages that go up to it, by number. */
enum pafluzeno_message {
    PAFLUZENO_RELEASE = 0,
    PAFLUZENO_REQUEST = 1,
    PAFLUZENO_WITHDRAW = 2
};

/* A message that reaches it: the stock, the station that sent it, which message it is, and the units of a REQUEST. */
struct pafluzeno_arrival {
    size_t stock;
    size_t station;
    uint8_t message; /* one of enum pafluzeno_message */
    size_t units;
};

/* The refusal, and the set of stations granted: the sum of 2^i over the stations i to which GRANT is to be sent. To a station whose WITHDRAW is
 * not refused GONE is to be sent, before them; the set does not say so. */
struct pafluzeno_reply {
    uint8_t refusal;
    uint16_t granted;
};

/* The arbiter's part of one message on its lent record: refusals 15 (no message has that number), 2, 19, 8, 10 (REQUEST only), 14 (REQUEST
 * only), in that order. A refusal grants nobody and leaves the record as it was. What the arbiter does, and when a station is granted, is in
 * docs/RULES.md, 4.6, 4.7 and 6. */
struct pafluzeno_reply pafluzeno_tell(struct pafluzeno_arbiter *arbiter, struct pafluzeno_arrival message);

/* The journal. Its text is lines key=value, each with a line feed; a number is 0 to 65535 without leading zeros. The only refusals of its
 * calls are 15 and 16. */

/* A part of a lent text: where it begins, and its bytes. It is never outside the text, and the caller's own bytes are its content. */
struct pafluzeno_part {
    size_t place;
    size_t len;
};

/* The value of the line of that key that the text begins with. For the key `do` it is request, up, down, release or withdraw, for every other
 * key a number. Refusal 15 is the empty part at place 0, and no value is empty: no whole line of that key, its value allowed, stands at the
 * front of the text, or the key has `=` or a line feed in it. Otherwise the next line begins at place + len + 1. */
struct pafluzeno_part pafluzeno_read_line(const uint8_t *key, size_t key_len, const uint8_t *text, size_t text_len);

/* The words of `do`, by number. */
enum pafluzeno_do {
    PAFLUZENO_DO_REQUEST = 0,
    PAFLUZENO_DO_UP = 1,
    PAFLUZENO_DO_DOWN = 2,
    PAFLUZENO_DO_RELEASE = 3,
    PAFLUZENO_DO_WITHDRAW = 4
};

/* A record: what was done, and what was answered. In a text it is the lines do, station, with, units, refused, entered and left, 58 to 87
 * bytes. In a request `with` is the quorum's number, in up and down the arbiter's, and in a release and a withdraw it is 0; `units` is 0 in all
 * but a request. A record that says otherwise is not of the form. */
struct pafluzeno_record {
    uint16_t what; /* one of enum pafluzeno_do */
    uint16_t station;
    uint16_t with;
    uint16_t units;
    uint16_t refused;
    uint16_t entered;
    uint16_t left;
};

/* What the reader of a record answers: the refusal, the record, and the bytes that it takes up at the beginning of the text. */
struct pafluzeno_read {
    uint8_t refusal;
    struct pafluzeno_record record;
    size_t taken;
};

/* The record that the text begins with, whatever stands behind it: refusal 15. Then the record is a request of zeros, and all of the text
 * counts as taken, so that a loop that reads on behind what was taken comes to an end. */
struct pafluzeno_read pafluzeno_read_record(const uint8_t *text, size_t text_len);

/* The text after that record, as the part to be read next: it begins where the record ends and goes on to the end of the text. Where the
 * reader of a record answers 15, it is the empty part at the end of the text; but it is empty too behind the last record of a good text, and
 * only the reader tells which. It reads the record to find its end: a loop that wants the records as well goes by `taken`, and reads each once. */
struct pafluzeno_part pafluzeno_after_record(const uint8_t *text, size_t text_len);

/* What the writer of a record answers: the refusal and the place after the record, on a refusal the place that it was given. */
struct pafluzeno_written {
    uint8_t refusal;
    size_t place;
};

/* Writes the record into the buffer from place `at` on: refusals 15 (the record is not of the form), 16 (no room for all of it from there
 * on, also where the place is at the buffer's end or past it), in that order. All other bytes stay as they are, on a refusal all do. */
struct pafluzeno_written pafluzeno_write_record(uint8_t *out, size_t out_len, size_t at, struct pafluzeno_record record);

/* A sum, low + high * 2^64: wide enough for every text. Below 2^53 bytes of text high is 0, since each record has more than 32 bytes and
 * adds less than 2^16. */
struct pafluzeno_sum {
    uint64_t low;
    uint64_t high;
};

/* What adding up answers: the refusal, the number of records, and the sums of their `entered` and of their `left`. */
struct pafluzeno_tally {
    uint8_t refusal;
    size_t records;
    struct pafluzeno_sum entered;
    struct pafluzeno_sum left;
};

/* Adds up a text that is records and nothing else, to its last byte; the empty text is no records. Otherwise it is refusal 15, with no
 * records and both sums 0. */
struct pafluzeno_tally pafluzeno_tally(const uint8_t *text, size_t text_len);

/* What the page answers: the refusal, and the bytes of the page, 0 on a refusal. */
struct pafluzeno_printed {
    uint8_t refusal;
    size_t len;
};

/* The page that the program `journal` prints for that text as its input, written into the front of the buffer: refusal 16 where the buffer
 * is shorter than PAFLUZENO_PAGE_ROOM, however short the page. Bytes beyond the page stay as they are, on a refusal all do. A text that is
 * not of the form, or longer than 65,536 bytes, is no refusal here: its page is `input=15` and a line feed. */
struct pafluzeno_printed pafluzeno_page(const uint8_t *text, size_t text_len, uint8_t *out, size_t out_len);

#ifdef __cplusplus
}
#endif

#endif
