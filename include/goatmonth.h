/*
 * Goatmonth: which controllers of a group stopped last, told from the records that the returned ones stored.
 *
 * The functions are proved code in six static libraries (`rt lib` in crates/NAME writes out/libNAME.a there): capi opens a recovery and
 * takes records, capi_answers says how its places stand, capi_histories shows, checks and writes, capi_records has stored records by
 * themselves, capi_days a day, capi_fetches what a crew has to fetch. Link those whose functions you call.
 *
 * They use no heap and no threads, and keep nothing between calls: a recovery, and a day, is a plain struct in the caller's memory,
 * made by opening it and handed to every call. Copy it, store it or compare it as you like; calls on different structs may run at the same
 * time.
 *
 * What the caller promises of each call:
 *   - a pointer is never null. It is aligned for its type, and good for the length passed behind it, or for the size of the array
 *     in the declaration. Where a length is 0, pass any pointer of that kind;
 *   - what a call may write (every pointer without const) overlaps nothing else that is passed in the same call.
 * Nothing else is asked. Every number and every byte has an answer, stated below: places and positions up to SIZE_MAX, damaged
 * records, and whatever values the words of a struct hold.
 *
 * A refusal is a number from 1 to 17. A refused call writes nothing; of a list of events, those before the refused one stand.
 *
 * The functions named gm_recovery_.., gm_day_start and so on are thin: they pass the parts of one struct to the library.
 */
#ifndef GOATMONTH_H
#define GOATMONTH_H

#include <stddef.h>
#include <stdint.h>

#ifdef __cplusplus
extern "C" {
#endif

/* ---- numbers ---- */

/* At most this many members, bytes of a record, and bytes of a history. */
enum { GM_MEMBERS = 128, GM_RECORD_BYTES = 1031, GM_HISTORY_BYTES = 2048 };

/* Kinds of record, and of a day. A full record mourns everyone before its writer: whom it heard, whom these had heard, and so on. A
 * short one mourns those whom its writer heard itself. On a full day all who run note a stop together, on a short one each notes what it
 * hears, and the records of a day have its kind. A recovery has no kind: it takes records of both. */
enum { GM_FULL = 1, GM_SHORT = 2 };

/* The bytes of gm_list. */
enum { GM_BYTE_NOT_LAST = 0, GM_BYTE_LAST = 1, GM_BYTE_OPEN = 2 };

/* Events of a day. */
enum { GM_STOP = 1, GM_HEAR = 2 };

/* Answers that are no refusals. */
enum {
    GM_DONE = 0,        /* opened, taken, given, shown, listed, read or written */
    GM_REPEATED = 32,   /* the record of one that is back, the same as before */
    GM_LAST = 33,       /* in every history that fits, nobody heard it stop */
    GM_NOT_LAST = 34,   /* in every history that fits, somebody heard it stop */
    GM_OPEN = 35,       /* two histories that fit disagree */
    GM_DECIDED = 36,    /* nothing to show: the place is last or not last */
    GM_FITS = 37,       /* the history agrees with the records */
    GM_FITS_NOT = 38,   /* it does not */
    GM_FIRST = 39,      /* the serial stands on the roster */
    GM_SECOND = 40,     /* it is the second serial of a place */
    GM_NOT_FOUND = 41   /* it is neither */
};

/* Refusals. 1 to 8 are faults of a record, and the first one from its front decides. */
enum {
    GM_ENDS_EARLY = 1,       /* the bytes stop within the record */
    GM_UNKNOWN_KIND = 2,     /* neither GM_FULL nor GM_SHORT */
    GM_BAD_COUNT = 3,        /* no member or more than 128, or more mourned than members */
    GM_ZERO_SERIAL = 4,      /* a serial is 0 */
    GM_TWICE = 5,            /* a serial stands on the roster twice */
    GM_NOT_ON_ROSTER = 6,    /* the own serial, or a mourned one, is neither on the record's roster nor second to one there */
    GM_OUT_OF_ORDER = 7,     /* the mourned places do not follow the roster's order, or one comes again */
    GM_BYTES_AFTER = 8,      /* something follows a record that has to stand alone */
    GM_OTHER_GROUP = 9,      /* the record's roster, order included, is not the recovery's */
    GM_OTHER_RECORD = 10,    /* this member is back already, with another kind or mourned set */
    GM_NO_HISTORY = 11,      /* no history agrees with this record and those taken */
    GM_OFF_ROSTER = 12,      /* a place that the roster does not have */
    GM_TOO_SHORT = 13,       /* a buffer ends too early */
    GM_NOT_ALLOWED = 14,     /* an event that cannot happen now, or the record of one that runs or is not back */
    GM_BIT_OFF_ROSTER = 15,  /* a history names a place that the roster does not have */
    GM_KNOWN_SERIAL = 16,    /* a second serial that the group has already, or for a place that has one */
    GM_TOO_MANY = 17         /* a roster of more than four members, for a game played out */
};

/* ---- structs ---- */

/*
 * A recovery.
 *   head     head[0] is the number of members (above 128 counts as 128). Four sets of places follow, two words each: place k is bit k of
 *            the first word, or bit k - 64 of the second. head[1] and head[2] are the places that are back, head[3] and head[4] those of
 *            them whose record is full, head[5] and head[6] all that a record taken so far mourns, head[7] and head[8] the earlier ones:
 *            all that are before a place that is back with a full record;
 *   serials  the first head[0] are the roster;
 *   seconds  the second serial of each place, which a new board brought: 0 where the place has none;
 *   rows     16 bytes for each place, laid out as a history: in the row of a place that is back stand the places that its record
 *            mourns, place k as bit k % 8 of byte k / 8. The row of a place that is not back is empty.
 * gm_open, gm_offer and gm_give keep it so, and then every answer is the one that the records give. A plain value: copies are
 * recoveries of their own.
 *
 * A caller that writes into the struct itself gets answers by what it wrote. The full, the mourned and the earlier places are what the
 * words say, and no call holds them against the rows. By the mourned ones go gm_ask, gm_list, gm_settled, gm_to_fetch, gm_show and the
 * three gm_unmourned.., by the earlier ones gm_ask, gm_list, gm_settled, gm_to_fetch and gm_show; gm_offer only adds to these two. The
 * record of a place that is back is its row, without bits off the roster, and full if the words say so: gm_offer, gm_check and gm_write go
 * by these records, and so do gm_ask, gm_list, gm_settled, gm_to_fetch and gm_show where they follow records: they look there for mourned
 * places only, so that a place that is neither back nor among the mourned or the earlier ones keeps every other unmourned place open,
 * whatever the rows say. A full place that is not back counts for nothing until it is back; then its record is full, whatever kind was
 * offered. gm_show lays the rows of the roster down as they stand, whoever is back and with all their bits, but for the one row that makes
 * the second history differ. gm_find, gm_give and gm_offer go by `serials` and `seconds`: a second serial counts as the first one of its
 * place, and is found at the lowest place where that stands. gm_play plays on by gm_settled's and gm_offer's rules: it is over where
 * gm_settled gives 1, and what gm_offer takes is handed over. With a zero or a repeat on the roster gm_offer takes nothing, and a game that
 * is not over lasts one fetch. Other bits off the roster, other rows, and what stands behind the roster in `serials` and `seconds` are
 * never looked at.
 */
typedef struct gm_recovery {
    uint64_t head[9];
    uint32_t serials[128];
    uint32_t seconds[128];
    uint8_t rows[2048];
} gm_recovery;

/* A day of stops: head[0] is the kind (GM_SHORT is short, any other word counts as full), head[1] the number of members (above 128 counts
 * as 128), head[2] and head[3] the places that have stopped, as two words. Serials and rows are as in a recovery, but every row of the
 * roster counts: whom each has heard. Bits for places off the roster are not looked at. */
typedef struct gm_day {
    uint64_t head[4];
    uint32_t serials[128];
    uint8_t rows[2048];
} gm_day;

/* An event of a day: GM_STOP, where `place` stops and `other` is not looked at, or GM_HEAR, where `place` hears that `other` stopped. */
typedef struct gm_event {
    uint64_t kind;
    uint64_t place;
    uint64_t other;
} gm_event;

/* What a list of events gives: how many were played, the refusal that ended the play or GM_DONE, and the day after those played. */
typedef struct gm_played {
    uint64_t count;
    uint64_t refusal;
    gm_day day;
} gm_played;

/* What a writer gives: GM_DONE and the position behind the record, or a refusal and 0. */
typedef struct gm_end {
    uint64_t refusal;
    uint64_t next;
} gm_end;

/* Where a serial was found: GM_FIRST or GM_SECOND and its place, or GM_NOT_FOUND and 128, which is no place. */
typedef struct gm_found {
    uint64_t answer;
    uint64_t place;
} gm_found;

/* What a crew has to fetch: the number of fetches that surely suffices and the place to fetch next, or 0 and 128, which is no place, where
 * no place is open. */
typedef struct gm_fetching {
    uint64_t number;
    uint64_t place;
} gm_fetching;

/* What a game played out gives: GM_DONE and how many fetches it lasts, or a refusal and 0. */
typedef struct gm_game {
    uint64_t refusal;
    uint64_t fetches;
} gm_game;

/* A record that was read: its kind, the place of its own serial, the position where its roster's serials start and how many they
 * are, the mourned places as two words, and the position behind the record. */
typedef struct gm_record {
    uint64_t kind;
    uint64_t own;
    uint64_t roster;
    uint64_t count;
    uint64_t mourned[2];
    uint64_t next;
} gm_record;

/* What the ticket desk may see of a record: its kind, its own serial as it stands there (which may be a second one), and the roster's
 * serials where they lie in the record's own bytes: `length` bytes from `roster` on, four for each serial, highest first. It is good as
 * long as those bytes are. */
typedef struct gm_sight {
    uint64_t kind;
    uint32_t own;
    const uint8_t *roster;
    size_t length;
} gm_sight;

/* ---- the library: a recovery by its parts ---- */

/* Opens a recovery with nobody back and no second serials: GM_DONE, or 3, then 4 for a zero anywhere, then 5 for a repeat anywhere. */
uint8_t gm_open(const uint32_t *list, size_t length, uint64_t head[9], uint32_t serials[128], uint32_t seconds[128], uint8_t rows[2048]);

/* Offers a lone record: GM_DONE for taken, GM_REPEATED, or 1 to 11 in this order. Only a record that is taken changes anything. Its own
 * and mourned serials may be second ones, as gm_read has it for this group; all answers go by the places so found. Its roster has to be
 * the group's first serials, else 9. Records of both kinds may be offered, in any order. */
uint8_t gm_offer(uint64_t head[9], const uint32_t serials[128], const uint32_t seconds[128], uint8_t rows[2048], const uint8_t *bytes,
                 size_t length);

/* The answer for a place: GM_LAST, GM_NOT_LAST, GM_OPEN, or 12. */
uint8_t gm_ask(const uint64_t head[9], const uint8_t rows[2048], size_t place);

/* The answers of all places at once, into the front of `out`: one byte a place in roster order, GM_BYTE_NOT_LAST, GM_BYTE_LAST or
 * GM_BYTE_OPEN, each as gm_ask answers for that place. GM_DONE, or 13 where `length` is less than the number of members. Bytes behind the
 * members' stay as they are. */
uint8_t gm_list(const uint64_t head[9], const uint8_t rows[2048], uint8_t *out, size_t length);

/* The place of a serial, and which of the place's two it is. One that stands on the roster is a first serial, and only another is
 * looked for among the second ones, where 0 is none. So 0 is never found in a recovery that was opened. */
gm_found gm_find(const uint64_t head[9], const uint32_t serials[128], const uint32_t seconds[128], uint32_t serial);

/* Gives a place a second serial: GM_DONE and it stands in `seconds`, or 12, 4, then 16 where the serial is a first or a second one of
 * the group already, or the place has a second one. Records that were taken stay as they are; those offered later may use it. */
uint8_t gm_give(const uint64_t head[9], const uint32_t serials[128], uint32_t seconds[128], size_t place, uint32_t serial);

/* The places that are not mourned, and those of them that are not back, as two words. No bit is off the roster. */
void gm_unmourned(const uint64_t head[9], uint64_t out[2]);
void gm_unmourned_absent(const uint64_t head[9], uint64_t out[2]);

/* How many places are not mourned. */
size_t gm_unmourned_count(const uint64_t head[9]);

/* 1 if no place is open, else 0. */
uint8_t gm_settled(const uint64_t head[9], const uint8_t rows[2048]);

/*
 * Two histories that fit, the place last in the first and not in the second: GM_DONE and both are laid down, 12, GM_DECIDED, or 13
 * where a buffer is shorter than 16 bytes a member (GM_DECIDED comes before 13). A history is the rows in roster order, 16 bytes
 * each: place k is bit k % 8 of byte k / 8. Bytes behind the rows stay as they are.
 */
uint8_t gm_show(const uint64_t head[9], const uint8_t rows[2048], size_t place, uint8_t *first, size_t first_length, uint8_t *second,
                size_t second_length);

/* Whether a history agrees with the records: GM_FITS, GM_FITS_NOT, 13, then 15. Bytes behind the rows are not looked at. */
uint8_t gm_check(const uint64_t head[9], const uint8_t rows[2048], const uint8_t *history, size_t length);

/* Writes the record of a returned place into `out` from position `at` on: its end, or 12, 14, 13. Other bytes stay as they are. It is
 * written in its kind and in first serials, whichever its bytes had when it was offered. */
gm_end gm_write(const uint64_t head[9], const uint32_t serials[128], const uint8_t rows[2048], size_t place, uint8_t *out, size_t length,
                size_t at);

/* ---- the library: what to fetch ---- */

/*
 * How many fetches surely suffice until no place is open, and the place to fetch next. A crew that fetches the place told here each time,
 * and is handed any record of it that gm_offer does not refuse, is done within that number; and no crew can be sure of fewer. It is the
 * number of places that are not back and keep some unmourned place open, and the lowest of them is next.
 */
gm_fetching gm_to_fetch(const uint64_t head[9], const uint8_t rows[2048]);

/*
 * The same number by the game itself, for rosters of up to four members: GM_DONE and how many fetches it lasts, or 17. The crew fetches
 * the place that makes it shortest, the hill hands over the record, of either kind, that makes it longest, and so on until no place is
 * open. It tries every record of every place that is not back: with four members and nobody back that takes about a tenth of a second.
 */
gm_game gm_play(const uint64_t head[9], const uint32_t serials[128], const uint32_t seconds[128], const uint8_t rows[2048]);

/* ---- the library: records ---- */

/*
 * Reads the record that starts at a position, whatever follows it: GM_DONE and the seven words of gm_record in `out`, or 1 to 7.
 *
 * Its own and mourned serials may be second ones of a group: `firsts` has the group's first serials and `seconds` the second ones, place
 * by place, 0 for none. A serial that stands in the record's own roster is that one. Only another is looked for in `seconds`: there it
 * counts as the serial at the same position of `firsts`, which then has to stand in the record's roster, else 6; and 7 goes by the places
 * so found. If `seconds` has it twice, the first position counts; if `firsts` ends before that position, it is 6. The record's roster
 * is read as it stands, and need not be the group's. Each list may have any length; without second serials pass 0.
 */
uint8_t gm_read(const uint8_t *bytes, size_t length, size_t at, const uint32_t *firsts, size_t firsts_length, const uint32_t *seconds,
                size_t seconds_length, uint64_t out[7]);

/* The same for bytes that are one record and no more: also 8. */
uint8_t gm_read_lone(const uint8_t *bytes, size_t length, const uint32_t *firsts, size_t firsts_length, const uint32_t *seconds,
                     size_t seconds_length, uint64_t out[7]);

/*
 * What the ticket desk may see of a lone record: GM_DONE and four words in `out`, or 1 to 6. The words are its kind, its own serial as
 * stored, the position where its roster's serials start, and how many they are: `4 * out[3]` bytes from `bytes + out[2]` on. It is judged
 * as far as the roster's end, as gm_read has it: 3 is for the roster's count and 6 for the own serial. Nothing behind the roster is looked
 * at, and nothing need be there: whatever follows, answer and words are the same.
 */
uint8_t gm_read_desk(const uint8_t *bytes, size_t length, const uint32_t *firsts, size_t firsts_length, const uint32_t *seconds,
                     size_t seconds_length, uint64_t out[4]);

/* 1 if the `count` serials that start at a position are all there and are this list, else 0. */
uint8_t gm_roster_is(const uint8_t *bytes, size_t length, size_t at, size_t count, const uint32_t *list, size_t list_length);

/* Copies the `count` serials that start at a position to the front of `list`: 1, or 0 where they are not all there or above 128. */
uint8_t gm_copy_roster(const uint8_t *bytes, size_t length, size_t at, size_t count, uint32_t list[128]);

/* Writes a record from its parts: its end, or 2, 12 (own place), 3 (above 128), 13. Zeros and repeats on the roster are not looked
 * for, and bits of `mourned` off the roster not looked at. */
gm_end gm_write_record(uint8_t kind, size_t own, const uint32_t *roster, size_t roster_length, const uint64_t mourned[2], uint8_t *out,
                       size_t length, size_t at);

/* ---- the library: a day by its parts ---- */

/* Opens a day of a kind on which all run: GM_DONE, or 2 for an unknown kind, then 3, 4, 5 as gm_open. */
uint8_t gm_day_open(uint8_t kind, const uint32_t *list, size_t length, uint64_t head[4], uint32_t serials[128], uint8_t rows[2048]);

/* One event: GM_DONE, 12, or 14. GM_STOP needs `place` running and does not look at `other`; GM_HEAR needs `place` running and
 * `other` stopped. Any other kind is 14, whatever the places. */
uint8_t gm_day_event(uint64_t head[4], const uint32_t serials[128], uint8_t rows[2048], uint8_t kind, size_t place, size_t other);

/* Events in order, up to the first that is refused with 12 or 14, as gm_day_event has it. The day goes in by value and comes back by
 * value; the caller's own is not written. */
gm_played gm_day_play(gm_day day, const gm_event *events, size_t length);

/* Writes the record of a place that has stopped: its end, or 12, 14 (it runs), 13, as gm_write. */
gm_end gm_day_write(const uint64_t head[4], const uint32_t serials[128], const uint8_t rows[2048], size_t place, uint8_t *out,
                    size_t length, size_t at);

/* ---- a recovery behind one pointer ---- */

static inline uint8_t gm_recovery_open(gm_recovery *r, const uint32_t *list, size_t length)
{
    return gm_open(list, length, r->head, r->serials, r->seconds, r->rows);
}

static inline uint8_t gm_recovery_offer(gm_recovery *r, const uint8_t *bytes, size_t length)
{
    return gm_offer(r->head, r->serials, r->seconds, r->rows, bytes, length);
}

static inline uint8_t gm_recovery_ask(const gm_recovery *r, size_t place)
{
    return gm_ask(r->head, r->rows, place);
}

static inline uint8_t gm_recovery_list(const gm_recovery *r, uint8_t *out, size_t length)
{
    return gm_list(r->head, r->rows, out, length);
}

static inline gm_found gm_recovery_find(const gm_recovery *r, uint32_t serial)
{
    return gm_find(r->head, r->serials, r->seconds, serial);
}

static inline uint8_t gm_recovery_give(gm_recovery *r, size_t place, uint32_t serial)
{
    return gm_give(r->head, r->serials, r->seconds, place, serial);
}

static inline void gm_recovery_unmourned(const gm_recovery *r, uint64_t out[2])
{
    gm_unmourned(r->head, out);
}

static inline void gm_recovery_unmourned_absent(const gm_recovery *r, uint64_t out[2])
{
    gm_unmourned_absent(r->head, out);
}

static inline size_t gm_recovery_unmourned_count(const gm_recovery *r)
{
    return gm_unmourned_count(r->head);
}

static inline uint8_t gm_recovery_settled(const gm_recovery *r)
{
    return gm_settled(r->head, r->rows);
}

static inline gm_fetching gm_recovery_to_fetch(const gm_recovery *r)
{
    return gm_to_fetch(r->head, r->rows);
}

static inline gm_game gm_recovery_play(const gm_recovery *r)
{
    return gm_play(r->head, r->serials, r->seconds, r->rows);
}

static inline uint8_t gm_recovery_show(const gm_recovery *r, size_t place, uint8_t *first, size_t first_length, uint8_t *second,
                                       size_t second_length)
{
    return gm_show(r->head, r->rows, place, first, first_length, second, second_length);
}

static inline uint8_t gm_recovery_check(const gm_recovery *r, const uint8_t *history, size_t length)
{
    return gm_check(r->head, r->rows, history, length);
}

static inline gm_end gm_recovery_write(const gm_recovery *r, size_t place, uint8_t *out, size_t length, size_t at)
{
    return gm_write(r->head, r->serials, r->rows, place, out, length, at);
}

/* ---- records as structs: where a call is refused, `out` stays as it is ---- */

static inline uint8_t gm_record_take(uint8_t answer, const uint64_t words[7], gm_record *out)
{
    if (answer == GM_DONE) {
        out->kind = words[0];
        out->own = words[1];
        out->roster = words[2];
        out->count = words[3];
        out->mourned[0] = words[4];
        out->mourned[1] = words[5];
        out->next = words[6];
    }
    return answer;
}

/* A record of a group without second serials. */
static inline uint8_t gm_record_read(const uint8_t *bytes, size_t length, size_t at, gm_record *out)
{
    const uint32_t none = 0;
    uint64_t words[7] = { 0 };
    uint8_t answer = gm_read(bytes, length, at, &none, 0, &none, 0, words);
    return gm_record_take(answer, words, out);
}

static inline uint8_t gm_record_read_lone(const uint8_t *bytes, size_t length, gm_record *out)
{
    const uint32_t none = 0;
    uint64_t words[7] = { 0 };
    uint8_t answer = gm_read_lone(bytes, length, &none, 0, &none, 0, words);
    return gm_record_take(answer, words, out);
}

/* How many members a recovery has. */
static inline size_t gm_recovery_count(const gm_recovery *r)
{
    return r->head[0] < 128 ? (size_t)r->head[0] : 128;
}

/* A record that may use the second serials of a recovery's group, as gm_offer reads it: its roster may be another all the same. */
static inline uint8_t gm_recovery_read(const gm_recovery *r, const uint8_t *bytes, size_t length, size_t at, gm_record *out)
{
    size_t count = gm_recovery_count(r);
    uint64_t words[7] = { 0 };
    uint8_t answer = gm_read(bytes, length, at, r->serials, count, r->seconds, count, words);
    return gm_record_take(answer, words, out);
}

static inline uint8_t gm_recovery_read_lone(const gm_recovery *r, const uint8_t *bytes, size_t length, gm_record *out)
{
    size_t count = gm_recovery_count(r);
    uint64_t words[7] = { 0 };
    uint8_t answer = gm_read_lone(bytes, length, r->serials, count, r->seconds, count, words);
    return gm_record_take(answer, words, out);
}

static inline uint8_t gm_sight_take(uint8_t answer, const uint64_t words[4], const uint8_t *bytes, gm_sight *out)
{
    if (answer == GM_DONE) {
        out->kind = words[0];
        out->own = (uint32_t)words[1];
        out->roster = bytes + words[2];
        out->length = (size_t)(4 * words[3]);
    }
    return answer;
}

/* What the ticket desk may see of a lone record, of a group without second serials. */
static inline uint8_t gm_record_read_desk(const uint8_t *bytes, size_t length, gm_sight *out)
{
    const uint32_t none = 0;
    uint64_t words[4] = { 0 };
    uint8_t answer = gm_read_desk(bytes, length, &none, 0, &none, 0, words);
    return gm_sight_take(answer, words, bytes, out);
}

/* The same where the record may use the second serials of a recovery's group. */
static inline uint8_t gm_recovery_read_desk(const gm_recovery *r, const uint8_t *bytes, size_t length, gm_sight *out)
{
    size_t count = gm_recovery_count(r);
    uint64_t words[4] = { 0 };
    uint8_t answer = gm_read_desk(bytes, length, r->serials, count, r->seconds, count, words);
    return gm_sight_take(answer, words, bytes, out);
}

/* Whether the roster of a record that was read from these bytes is this list: 1 or 0. */
static inline uint8_t gm_record_roster_is(const gm_record *x, const uint8_t *bytes, size_t length, const uint32_t *list, size_t list_length)
{
    return gm_roster_is(bytes, length, (size_t)x->roster, (size_t)x->count, list, list_length);
}

/* Copies that roster to the front of a list of 128: 1 or 0. */
static inline uint8_t gm_record_copy_roster(const gm_record *x, const uint8_t *bytes, size_t length, uint32_t list[128])
{
    return gm_copy_roster(bytes, length, (size_t)x->roster, (size_t)x->count, list);
}

/* ---- a day behind one pointer ---- */

static inline uint8_t gm_day_start(gm_day *d, uint8_t kind, const uint32_t *list, size_t length)
{
    return gm_day_open(kind, list, length, d->head, d->serials, d->rows);
}

static inline uint8_t gm_day_happen(gm_day *d, uint8_t kind, size_t place, size_t other)
{
    return gm_day_event(d->head, d->serials, d->rows, kind, place, other);
}

static inline uint8_t gm_day_stop(gm_day *d, size_t place)
{
    return gm_day_happen(d, GM_STOP, place, place);
}

static inline uint8_t gm_day_hear(gm_day *d, size_t place, size_t other)
{
    return gm_day_happen(d, GM_HEAR, place, other);
}

/* Plays a list of events: GM_DONE, or the refusal that ended the play. `d` is the day after those played, which are `*played`. */
static inline uint8_t gm_day_happen_all(gm_day *d, const gm_event *events, size_t length, size_t *played)
{
    gm_played p = gm_day_play(*d, events, length);
    *d = p.day;
    *played = (size_t)p.count;
    return (uint8_t)p.refusal;
}

static inline gm_end gm_day_record(const gm_day *d, size_t place, uint8_t *out, size_t length, size_t at)
{
    return gm_day_write(d->head, d->serials, d->rows, place, out, length, at);
}

#ifdef __cplusplus
}
#endif

#endif
