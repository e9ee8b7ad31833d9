/*
 * Reading and checking a recording, for the C replays of this folder (document 01, "Recordings" and "Refusal numbers").
 * A row is 24 bytes: it is taken in three loads of 8, each of which is tested for bits that may not be there. For x86-64, and
 * other machines whose numbers have the low byte first.
 */
#ifndef RECORDING_H
#define RECORDING_H

#include <stddef.h>
#include <stdint.h>
#include <string.h>

enum { TRIP_IF_BAD = 1, PERMIT_NOT_REQUIRED = 2, SEVERAL_FORCED = 4 }; /* options */
enum { TRIPPED, WAIT_RESET, READY, WAIT_START, NORMAL, DELAYED };
enum { ROW_BYTES = 24, RECORD_BYTES = 12, TOTALS_BYTES = 56, ANSWER_BYTES = 24 };
enum { EFFECT_NUMBERS = 7, TRIPS = 6, EXERCISED = 112, REPORT_NUMBERS = 113, REPORT_BYTES = 904 }; /* season totals */
enum { MOST_EFFECTS = 16, MOST_HOLD = 1000000, MOST_SCANS = 1000000000, MOST_DELAY = 3600000 };

/* Numbers in bytes, big-endian. They are turned round by name: of shifts clang makes one load only where no mask comes between. */
static inline uint32_t get16(const uint8_t *p) { return (uint32_t)p[0] << 8 | p[1]; }
static inline uint32_t get32(const uint8_t *p) {
    uint32_t n;
    memcpy(&n, p, 4);
    return __builtin_bswap32(n);
}
static inline uint64_t get64(const uint8_t *p) {
    uint64_t n;
    memcpy(&n, p, 8);
    return __builtin_bswap64(n);
}
static inline void put32(uint8_t *p, uint32_t n) { n = __builtin_bswap32(n), memcpy(p, &n, 4); }
static inline void put64(uint8_t *p, uint64_t n) { n = __builtin_bswap64(n), memcpy(p, &n, 8); }

struct recording {
    const uint8_t *rows; /* the first row */
    uint32_t row_count, effect_count, options, period;
    uint32_t causes, effects; /* words of those that exist */
    uint32_t association[MOST_EFFECTS], delay[MOST_EFFECTS];
    uint64_t scans; /* of all rows */
    uint64_t place; /* of a refusal */
};

struct row {
    uint32_t hold, values, bad, mask, require_reset, reset_permit, start_permit, reset, force_permit, force_trip, force_normal;
};

static inline struct row row_at(const uint8_t *p) {
    uint64_t a = get64(p), b = get64(p + 8), c = get64(p + 16);
    struct row row = {
        .hold = (uint32_t)(a >> 32),
        .values = a >> 16 & 0xffff,
        .bad = a & 0xffff,
        .mask = (uint32_t)(b >> 48),
        .require_reset = b >> 32 & 0xffff,
        .reset_permit = b >> 16 & 0xffff,
        .start_permit = b & 0xffff,
        .reset = (uint32_t)(c >> 48),
        .force_permit = c >> 32 & 0xffff,
        .force_trip = c >> 16 & 0xffff,
        .force_normal = c & 0xffff,
    };
    return row;
}

/* Checks `count` rows from `p` and adds their holds; the first refusal number, its row in `*refused`. */
static inline unsigned read_rows(struct recording *r, const uint8_t *p, uint32_t count, uint32_t *refused) {
    uint64_t no_cause = ~r->causes & 0xffff, no_effect = ~r->effects & 0xffff, scans = 0;
    uint64_t never_a = no_cause << 16 | no_cause;
    uint64_t never_b = no_cause << 48 | no_effect << 32 | no_effect << 16 | no_effect;
    uint64_t never_c = no_effect << 48 | (uint64_t)0xfffe << 32 | no_effect << 16 | no_effect;
    uint32_t one_only = r->options & SEVERAL_FORCED ? 0 : 0xffff;
    for (uint32_t i = 0; i < count; i++, p += ROW_BYTES) {
        uint64_t a = get64(p), b = get64(p + 8), c = get64(p + 16);
        uint32_t hold = (uint32_t)(a >> 32), trip = c >> 16 & 0xffff, normal = c & 0xffff, forced = (trip | normal) & one_only;
        *refused = i;
        if (hold - 1 >= MOST_HOLD || ((a & never_a) | (b & never_b) | (c & never_c))) return 4;
        if (trip & normal) return 5;
        if (forced & (forced - 1)) return 6;
        scans += hold;
    }
    r->scans = scans;
    return 0;
}

static inline unsigned refuse(struct recording *r, unsigned number, size_t place) {
    r->place = place;
    return number;
}

/* Reads a whole recording: 0, or the refusal number with its place in `r`. */
static inline unsigned read_recording(struct recording *r, const uint8_t *p, size_t length) {
    if (length < 2) return refuse(r, 1, length);
    if (get16(p) != 1) return refuse(r, 2, 0);
    if (length < 6) return refuse(r, 1, length);
    uint32_t cause_count = p[2];
    r->options = p[3];
    r->period = get16(p + 4);
    if (cause_count - 1 >= 16 || r->options > 7 || r->period - 1 >= 1000) return refuse(r, 2, 2);
    r->causes = (1u << cause_count) - 1;

    if (length < 8) return refuse(r, 1, length);
    r->effect_count = get16(p + 6);
    if (r->effect_count - 1 >= MOST_EFFECTS) return refuse(r, 3, 6);
    r->effects = (1u << r->effect_count) - 1;
    size_t at = 8;
    for (uint32_t i = 0; i < r->effect_count; i++, at += 6) {
        if (length - at < 6) return refuse(r, 1, length);
        r->association[i] = get16(p + at);
        r->delay[i] = get32(p + at + 2);
        if (!r->association[i] || (r->association[i] & ~r->causes) || r->delay[i] > MOST_DELAY) return refuse(r, 3, at);
    }

    if (length - at < 2) return refuse(r, 1, length);
    r->row_count = get16(p + at);
    if (r->row_count - 1 >= 2048) return refuse(r, 4, at);
    at += 2;
    r->rows = p + at;
    size_t there = (length - at) / ROW_BYTES;
    uint32_t refused, count = there < r->row_count ? (uint32_t)there : r->row_count;
    unsigned number = read_rows(r, r->rows, count, &refused);
    if (number) return refuse(r, number, at + (size_t)ROW_BYTES * refused);
    if (count < r->row_count) return refuse(r, 1, length);
    at += (size_t)ROW_BYTES * count;
    if (length > at) return refuse(r, 7, at);
    return 0;
}

/* Refusal 9, with the place of the row whose scans can't be counted any more; else 0. */
static inline unsigned too_many_scans(struct recording *r, const uint8_t *recording) {
    if (r->scans <= MOST_SCANS) return 0;
    const uint8_t *p = r->rows;
    for (uint64_t scans = get32(p); scans <= MOST_SCANS; scans += get32(p)) p += ROW_BYTES;
    return refuse(r, 9, (size_t)(p - recording));
}

struct totals {
    uint64_t records, scans, live, exercised;
};

static inline unsigned put_totals(uint8_t *totals, size_t room, const struct recording *r, const struct totals *t,
                                  unsigned number) {
    if (room < TOTALS_BYTES) return number;
    put64(totals, number ? 0 : t->records);
    put64(totals + 8, number ? 0 : r->row_count);
    put64(totals + 16, number ? 0 : t->scans);
    put64(totals + 24, number ? 0 : t->live);
    put64(totals + 32, number ? 0 : t->exercised);
    put64(totals + 40, number);
    put64(totals + 48, number && number != 10 ? r->place : 0);
    return number;
}

/* Runs all rows; writes the records only if `records` is not null. */
typedef struct totals run_rows(const struct recording *r, uint8_t *records);

/* A replay, as include/pohandira.h says it, by functions that run the rows with and without writing. */
static inline uint8_t replay_by(run_rows *writing, run_rows *counting, const uint8_t *recording, size_t length,
                                uint8_t *records, size_t records_room, uint8_t *totals, size_t totals_room) {
    struct recording r;
    struct totals t = {0, 0, 0, 0};
    unsigned number = read_recording(&r, recording, length);
    if (!number) number = too_many_scans(&r, recording);
    if (!number && totals_room < TOTALS_BYTES) number = 10;
    if (!number && records_room < (size_t)2 * RECORD_BYTES * r.effect_count * r.row_count &&
        records_room / RECORD_BYTES < counting(&r, records).records)
        number = 10;
    if (!number) t = writing(&r, records);
    return (uint8_t)put_totals(totals, totals_room, &r, &t, number);
}

static inline uint8_t check_by(const uint8_t *recording, size_t length, uint8_t *answer, size_t answer_room) {
    struct recording r;
    unsigned number = read_recording(&r, recording, length);
    if (answer_room < ANSWER_BYTES) return (uint8_t)(number ? number : 10);
    put64(answer, number);
    put64(answer + 8, number ? r.place : 0);
    put64(answer + 16, number ? 0 : r.row_count);
    return (uint8_t)number;
}

/* The sums of a recording, in the order of a report's numbers. */
typedef void sum_rows(const struct recording *r, uint64_t *sums);

/* Whether a sum fits on top of its number in a report, and adding it. */
static inline int fits(const uint8_t *report, const uint64_t *sums, uint32_t k) { return sums[k] <= UINT64_MAX - get64(report + 8 * k); }
static inline void grow(uint8_t *report, const uint64_t *sums, uint32_t k) { put64(report + 8 * k, get64(report + 8 * k) + sums[k]); }

/* Season totals, as include/pohandira.h says it, by a function that runs the rows. Effects that are not there add nothing. */
static inline uint8_t season_by(sum_rows *summing, const uint8_t *recording, size_t length, uint8_t *report, size_t report_room) {
    struct recording r;
    uint64_t sums[REPORT_NUMBERS] = {0};
    unsigned number = read_recording(&r, recording, length);
    if (!number) number = too_many_scans(&r, recording);
    if (!number && report_room < REPORT_BYTES) number = 10;
    if (number) return (uint8_t)number;
    summing(&r, sums);
    uint32_t count = EFFECT_NUMBERS * r.effect_count, all_fit = 1;
    for (uint32_t k = 0; k < count; k++) all_fit &= fits(report, sums, k);
    if (!all_fit || !fits(report, sums, EXERCISED)) return 11;
    for (uint32_t k = 0; k < count; k++) grow(report, sums, k);
    grow(report, sums, EXERCISED);
    return 0;
}

/* Writes a record. */
static inline void put_record(uint8_t *p, uint64_t sequence, uint32_t scan, uint32_t effect, uint32_t before, uint32_t after,
                              uint32_t first_out) {
    put64(p, sequence << 48 | (uint64_t)scan << 16 | effect << 8 | before);
    put32(p + 8, after << 24 | first_out);
}

#endif
