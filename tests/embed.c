/*
 * The static library called from outside, through include/pohandira.h alone. tests/embed builds and runs it.
 *
 *     embed version           the version of the header, and that of the library
 *     embed checks            cases whose answers were worked out by hand from document 01
 *     embed list < CASES      the listing of each recording in a stream of cases, as `second answer replay` prints it
 *     embed season < CASES    the report of each case with its recording added, as `second answer season` prints it
 *     embed reasons < CASES   the reasons of each recording in a stream of cases in bytes, as `second reasons` prints them
 *
 * In the last four, every byte of every lent buffer is compared, and so are the bytes before and after it: what a call doesn't say
 * that it writes has to stay as it was. Exit status 1 if anything is wrong; it then says what.
 */
#include "pohandira.h"
#include <stdint.h>
#include <stdio.h>
#include <stdlib.h>
#include <string.h>

static int failures;
static const char *at_hand = ""; /* the case that is tried */

static void fail(const char *what) {
    fprintf(stderr, "embed: FAILED: %s: %s\n", at_hand, what);
    failures++;
}

static uint8_t *allocated(size_t size) {
    uint8_t *bytes = malloc(size);
    if (bytes) return bytes;
    fprintf(stderr, "embed: no memory\n");
    exit(2);
}

/* ---- Lent buffers ---- */

enum { MARGIN = 101 }; /* odd, so that no buffer is aligned */

static uint8_t untouched(size_t i) { return (uint8_t)(7 * i + 3); }

/* A buffer of `room` bytes with a margin on either side, filled with a pattern. */
static uint8_t *lend(size_t room) {
    uint8_t *all = allocated(room + 2 * MARGIN);
    for (size_t i = 0; i < room + 2 * MARGIN; i++) all[i] = untouched(i);
    return all + MARGIN;
}

/* Whether a lent buffer begins with these bytes and is otherwise as it was lent; it is given back. */
static int holds(uint8_t *buffer, size_t room, const uint8_t *bytes, size_t size) {
    const uint8_t *all = buffer - MARGIN;
    int right = size <= room;
    for (size_t i = 0; i < room + 2 * MARGIN; i++) {
        int inside = i >= MARGIN && i - MARGIN < size;
        if (all[i] != (inside ? bytes[i - MARGIN] : untouched(i))) right = 0;
    }
    free(buffer - MARGIN);
    return right;
}

static void put_number(uint8_t *bytes, size_t size, uint64_t number) {
    while (size--) bytes[size] = (uint8_t)number, number >>= 8;
}

/* ---- Calls, compared to the byte ---- */

struct file {
    const uint8_t *bytes;
    size_t length;
};

/* A lent buffer that holds a file. */
static uint8_t *lend_file(struct file file) {
    uint8_t *given = lend(file.length);
    memcpy(given, file.bytes, file.length);
    return given;
}

/* What a replay has to answer. On a refusal, which has a refusal number and a place alone, all else is 0. */
struct answer {
    uint64_t totals[7];
    const uint8_t *records;
};

static struct answer refused(uint64_t number, uint64_t place) {
    struct answer answer = {{0, 0, 0, 0, 0, number, place}, NULL};
    return answer;
}

static void check_as(const char *name, struct file file, size_t room, uint64_t number, uint64_t place, uint64_t rows) {
    uint8_t *given = lend_file(file), *answer = lend(room), expected[POHANDIRA_CHECK_BYTES];
    at_hand = name;
    put_number(expected, 8, number), put_number(expected + 8, 8, place), put_number(expected + 16, 8, rows);
    unsigned result = pohandira_check(given, file.length, answer, room);
    if (result != number) fail("the result of the check");
    if (!holds(answer, room, expected, room < POHANDIRA_CHECK_BYTES ? 0 : POHANDIRA_CHECK_BYTES)) fail("the check's answer");
    if (!holds(given, file.length, file.bytes, file.length)) fail("the check changed the recording");
}

/* Whether lent totals hold these numbers, if they fit; they are given back. */
static int hold_numbers(uint8_t *totals, size_t room, const uint64_t numbers[7]) {
    uint8_t expected[POHANDIRA_TOTALS_BYTES];
    for (size_t i = 0; i < 7; i++) put_number(expected + 8 * i, 8, numbers[i]);
    return holds(totals, room, expected, room < POHANDIRA_TOTALS_BYTES ? 0 : POHANDIRA_TOTALS_BYTES);
}

static void count_as(const char *name, struct file file, size_t room, struct answer answer) {
    uint8_t *given = lend_file(file), *totals = lend(room);
    at_hand = name;
    unsigned result = pohandira_count(given, file.length, totals, room);
    if (result != answer.totals[POHANDIRA_NUMBER]) fail("the result of the count");
    if (!hold_numbers(totals, room, answer.totals)) fail("the totals of the count");
    if (!holds(given, file.length, file.bytes, file.length)) fail("the count changed the recording");
}

static void replay_as(const char *name, struct file file, size_t records_room, size_t totals_room, struct answer answer) {
    uint8_t *given = lend_file(file), *records = lend(records_room), *totals = lend(totals_room);
    at_hand = name;
    unsigned result = pohandira_replay(given, file.length, records, records_room, totals, totals_room);
    if (result != answer.totals[POHANDIRA_NUMBER]) fail("the result of the replay");
    if (!holds(records, records_room, answer.records, POHANDIRA_RECORD_BYTES * answer.totals[POHANDIRA_RECORDS]))
        fail("the records");
    if (!hold_numbers(totals, totals_room, answer.totals)) fail("the totals");
    if (!holds(given, file.length, file.bytes, file.length)) fail("the replay changed the recording");
}

/* The numbers of a report: those that it has, or those that a recording adds to it. */
struct report {
    uint64_t numbers[POHANDIRA_REPORT_NUMBERS];
};

static void put_report(uint8_t bytes[POHANDIRA_REPORT_BYTES], const struct report *report) {
    for (size_t k = 0; k < POHANDIRA_REPORT_NUMBERS; k++) put_number(bytes + 8 * k, 8, report->numbers[k]);
}

/* Adds a file to as much of a report as the room takes; on 0 what the file adds has to be added, and else nothing. */
static void season_as(const char *name, struct file file, const struct report *before, size_t room, unsigned number,
                      const struct report *added) {
    uint8_t *given = lend_file(file), *lent = lend(room), expected[POHANDIRA_REPORT_BYTES];
    size_t size = room < POHANDIRA_REPORT_BYTES ? room : POHANDIRA_REPORT_BYTES;
    struct report after = *before;
    at_hand = name;
    put_report(expected, before), memcpy(lent, expected, size);
    for (size_t k = 0; number == 0 && k < POHANDIRA_REPORT_NUMBERS; k++) after.numbers[k] += added->numbers[k];
    put_report(expected, &after);
    unsigned result = pohandira_season(given, file.length, lent, room);
    if (result != number) fail("the result of the season totals");
    if (!holds(lent, room, expected, size)) fail("the report");
    if (!holds(given, file.length, file.bytes, file.length)) fail("the season totals changed the recording");
}

/* pohandira_reasons or pohandira_now. */
typedef uint8_t telling(const uint8_t *recording, size_t length, uint8_t *reasons, size_t room);

/* What a telling has to write: the reasons' bytes. A refusal has none. */
struct reasons {
    const uint8_t *bytes;
    size_t size;
};

static const struct reasons none = {NULL, 0};

static void tell_as(const char *name, telling *tell, struct file file, size_t room, unsigned number, struct reasons reasons) {
    uint8_t *given = lend_file(file), *lent = lend(room);
    at_hand = name;
    if (tell(given, file.length, lent, room) != number) fail("the result of the reasons");
    if (!holds(lent, room, reasons.bytes, reasons.size)) fail("the reasons");
    if (!holds(given, file.length, file.bytes, file.length)) fail("the reasons changed the recording");
}

/* Reasons of a file that is accepted: in just enough room, in more and in some other, and not in a byte less or in none. */
static void tell_in_rooms(const char *name, telling *tell, struct file file, size_t other, struct reasons reasons) {
    size_t enough[] = {reasons.size, reasons.size + 1, reasons.size + POHANDIRA_REASON_BYTES, reasons.size + other};
    for (size_t i = 0; i < sizeof enough / sizeof enough[0]; i++) tell_as(name, tell, file, enough[i], 0, reasons);
    if (!reasons.size) return;
    tell_as(name, tell, file, reasons.size - 1, POHANDIRA_NO_ROOM, none);
    tell_as(name, tell, file, 0, POHANDIRA_NO_ROOM, none);
}

/* A refusal of the recording itself comes before 10, and touches no byte, in room for nothing, for one reason and for those of a row. */
static void tell_refused(const char *name, struct file file, unsigned number) {
    static const size_t rooms[] = {0, POHANDIRA_REASON_BYTES, POHANDIRA_ROW_REASONS_BYTES};
    for (size_t i = 0; i < sizeof rooms / sizeof rooms[0]; i++) {
        tell_as(name, pohandira_reasons, file, rooms[i], number, none);
        tell_as(name, pohandira_now, file, rooms[i], number, none);
    }
}

/* ---- Cases by hand ---- */

static const uint8_t session_bytes[] = { /* document 01, "One session, whole" */
    0x00, 0x01, 0x02, 0x00, 0x00, 0x64,                                     /* 0: the block */
    0x00, 0x02,                                                             /* 6: two effects */
    0x00, 0x01, 0x00, 0x00, 0x00, 0x00, 0x00, 0x03, 0x00, 0x00, 0x00, 0xfa, /* 8 and 14 */
    0x00, 0x02,                                                             /* 20: two rows, at 22 and 46 */
    0x00, 0x00, 0x00, 0x03, 0x00, 0x03, 0x00, 0x00, 0x00, 0x00, 0x00, 0x00, 0x00, 0x03, 0x00, 0x03, 0x00, 0x00, 0x00, 0x00,
    0x00, 0x00, 0x00, 0x00, 0x00, 0x00, 0x00, 0x05, 0x00, 0x02, 0x00, 0x00, 0x00, 0x00, 0x00, 0x00, 0x00, 0x03, 0x00, 0x03,
    0x00, 0x00, 0x00, 0x00, 0x00, 0x00, 0x00, 0x00,
};
static const uint8_t session_records[] = { /* sequence 2, scan 4, effect, before, after, zero, first-out 2 */
    0, 0, 0, 0, 0, 1, 1, POHANDIRA_TRIPPED, POHANDIRA_NORMAL,  0, 0, 0, /* 0 1 1 tripped normal 0 */
    0, 1, 0, 0, 0, 1, 2, POHANDIRA_TRIPPED, POHANDIRA_NORMAL,  0, 0, 0, /* 1 1 2 tripped normal 0 */
    0, 2, 0, 0, 0, 4, 1, POHANDIRA_NORMAL,  POHANDIRA_TRIPPED, 0, 0, 1, /* 2 4 1 normal tripped 1 */
    0, 3, 0, 0, 0, 4, 2, POHANDIRA_NORMAL,  POHANDIRA_DELAYED, 0, 0, 1, /* 3 4 2 normal delayed 1 */
    0, 4, 0, 0, 0, 7, 2, POHANDIRA_DELAYED, POHANDIRA_TRIPPED, 0, 0, 1, /* 4 7 2 delayed tripped 1 */
};
static const struct file session = {session_bytes, sizeof session_bytes};
static const struct answer session_answer = {{5, 2, 8, 3, 5, 0, 0}, session_records};

/* Room for the session's records: just enough, about the 24 bytes for each effect and row, and ample. */
static void try_session(void) {
    static const size_t rooms[] = {60, 61, 72, 95, 96, 97, 2 * POHANDIRA_ROW_RECORDS_BYTES};
    static const size_t little[] = {0, 1, 11, 48, 59};
    for (size_t i = 0; i < sizeof rooms / sizeof rooms[0]; i++)
        replay_as("session", session, rooms[i], POHANDIRA_TOTALS_BYTES, session_answer);
    replay_as("session, more room for totals", session, 96, 90, session_answer);
    for (size_t i = 0; i < sizeof little / sizeof little[0]; i++)
        replay_as("session, too little room for records", session, little[i], POHANDIRA_TOTALS_BYTES, refused(10, 0));
    replay_as("session, one byte too little for totals", session, 96, 55, refused(10, 0));
    replay_as("session, no room at all", session, 0, 0, refused(10, 0));
    count_as("session, counted", session, POHANDIRA_TOTALS_BYTES, session_answer);
    count_as("session, counted, more room", session, 90, session_answer);
    count_as("session, counted, one byte too little", session, 55, refused(10, 0));
    count_as("session, counted, no room", session, 0, refused(10, 0));
    check_as("session", session, 24, 0, 0, 2);
    check_as("session, more room", session, 40, 0, 0, 2);
    check_as("session, room 23", session, 23, 10, 0, 0);
    check_as("session, no room", session, 0, 10, 0, 0);
}

/* ---- Season totals by hand ---- */

static const struct report empty = {{0}};

/* A report whose numbers are all the same. */
static struct report filled(uint64_t number) {
    struct report report;
    for (size_t k = 0; k < POHANDIRA_REPORT_NUMBERS; k++) report.numbers[k] = number;
    return report;
}

/* What a recording adds for an effect that is in three states alone, and trips. */
static void add_effect(struct report *report, unsigned effect, uint64_t tripped, uint64_t normal, uint64_t delayed, uint64_t trips) {
    uint64_t *numbers = report->numbers + 7 * (effect - 1);
    numbers[0] = tripped, numbers[4] = normal, numbers[5] = delayed, numbers[6] = trips;
}

/* Document 01's session: both effects are Normal after scans 1 to 3; effect 1 trips in scan 4, effect 2 is Delayed then and trips in 7. */
static struct report session_report(void) {
    struct report report = empty;
    add_effect(&report, 1, 5, 3, 0, 1);
    add_effect(&report, 2, 2, 3, 3, 1);
    report.numbers[112] = 5;
    return report;
}

/* Rooms about that of a report, and reports that are empty, full but for what is added, and random. */
static void try_season(void) {
    static const size_t rooms[] = {904, 905, 1000}, little[] = {0, 1, 8, 895, 896, 903};
    struct report added = session_report(), least = filled(UINT64_MAX), full = least, other;
    for (size_t k = 0; k < POHANDIRA_REPORT_NUMBERS; k++) {
        least.numbers[k] -= added.numbers[k];
        other.numbers[k] = 0x0123456789abcdef * (k + 1) >> 1;
    }
    for (size_t i = 0; i < sizeof rooms / sizeof rooms[0]; i++) {
        season_as("session, added to nothing", session, &empty, rooms[i], 0, &added);
        season_as("session, added to itself", session, &added, rooms[i], 0, &added);
        season_as("session, added to some numbers", session, &other, rooms[i], 0, &added);
        season_as("session, added to numbers that just take it", session, &least, rooms[i], 0, &added);
        season_as("session, added to a full report", session, &full, rooms[i], 11, NULL);
    }
    for (size_t i = 0; i < sizeof little / sizeof little[0]; i++) {
        season_as("session, too little room for a report", session, &empty, little[i], 10, NULL);
        season_as("session, too little room for a full report", session, &full, little[i], 10, NULL);
    }
}

/* Each number of a report alone: it takes what the session adds up to 2^64 - 1, and by one more the session is refused. */
static void try_season_limits(void) {
    struct report added = session_report();
    for (size_t k = 0; k < POHANDIRA_REPORT_NUMBERS; k++) {
        struct report report = added;
        report.numbers[k] = UINT64_MAX - added.numbers[k];
        season_as("session, one number just takes it", session, &report, POHANDIRA_REPORT_BYTES, 0, &added);
        if (!added.numbers[k]) continue;
        report.numbers[k]++;
        season_as("session, one number would pass 64 bits", session, &report, POHANDIRA_REPORT_BYTES, 11, NULL);
    }
}

/* ---- Reasons by hand ---- */

/* One reason more in bytes. */
static void put_reason(uint8_t **end, unsigned kind, unsigned missing, unsigned causes, uint32_t milliseconds) {
    put_number(*end, 1, kind), put_number(*end + 1, 1, missing);
    put_number(*end + 2, 2, causes), put_number(*end + 4, 4, milliseconds);
    *end += POHANDIRA_REASON_BYTES;
}

static void put_plain(uint8_t **end, unsigned kind) { put_reason(end, kind, POHANDIRA_NOTHING_MISSING, 0, 0); }
static void put_causes(uint8_t **end, unsigned kind, unsigned causes) { put_reason(end, kind, POHANDIRA_NOTHING_MISSING, causes, 0); }
static void put_waiting(uint8_t **end, unsigned missing) { put_reason(end, POHANDIRA_WAITING, missing, 0, 0); }
static void put_running(uint8_t **end, uint32_t left) { put_reason(end, POHANDIRA_DELAY_RUNNING, POHANDIRA_NOTHING_MISSING, 0, left); }

static struct reasons reasons_from(const uint8_t *start, const uint8_t *end) { return (struct reasons){start, (size_t)(end - start)}; }

/*
 * Document 01's session: both effects start, cause 1 takes both out of Normal, and the delay of effect 2 runs out before the last scan.
 * Rooms about the 16 bytes for each effect and row, with which the records are not counted before, are tried too.
 */
static void try_session_reasons(void) {
    uint8_t bytes[7 * POHANDIRA_REASON_BYTES], *end = bytes, *last; /* of five records and two effects */
    put_plain(&end, POHANDIRA_CLEARED), put_plain(&end, POHANDIRA_CLEARED);
    put_causes(&end, POHANDIRA_ACTIVE, 1), put_causes(&end, POHANDIRA_ACTIVE, 1), put_plain(&end, POHANDIRA_DELAY_ENDED);
    last = end;
    put_causes(&end, POHANDIRA_ACTIVE, 1), put_causes(&end, POHANDIRA_ACTIVE, 1);
    struct reasons records = reasons_from(bytes, last), now = reasons_from(last, end);
    for (size_t room = 63; room <= 65; room++) tell_as("session, reasons", pohandira_reasons, session, room, 0, records);
    tell_in_rooms("session, reasons", pohandira_reasons, session, 2 * POHANDIRA_ROW_REASONS_BYTES, records);
    tell_in_rooms("session, reasons after the last scan", pohandira_now, session, POHANDIRA_ROW_REASONS_BYTES, now);
}

/* The bit of a cause or an effect. */
#define BIT(number) (1u << ((number) - 1))

static uint8_t *put_row(uint8_t *p, uint64_t hold, const unsigned words[10]) {
    put_number(p, 4, hold), p += 4;
    for (size_t i = 0; i < 10; i++, p += 2) put_number(p, 2, words[i]);
    return p;
}

/*
 * Eleven effects, of which the last scan leaves each with a reason of its own. The options permit every force, so that row 1 brings effects
 * to Normal or keeps them Tripped. In row 2, of two scans, cause 2 is tripped. In row 3 cause 3 is Bad too, and effect 9 may start.
 */
static const struct { unsigned causes, delay; } reasoned[] = {
    {BIT(1), 0}, {BIT(1), 0}, {BIT(2), 0}, {BIT(2), 350}, {BIT(1), 0}, {BIT(1), 0},
    {BIT(1), 0}, {BIT(1), 0}, {BIT(1), 0}, {BIT(2), 200}, {BIT(3), 0},
};
enum { REASONED = sizeof reasoned / sizeof reasoned[0], REASONED_ROWS = 3, REASONED_RECORDS = 18 };
enum { REASONED_BYTES = 10 + 6 * REASONED + 24 * REASONED_ROWS };

static struct file reasoned_file(uint8_t bytes[REASONED_BYTES]) {
    enum { CLEAR = BIT(1) | BIT(2) | BIT(3), TRIPPED = BIT(1) | BIT(3) };
    enum { ALL = BIT(REASONED + 1) - 1, OFF = BIT(6) | BIT(7) | BIT(8) | BIT(9) };
    /* docs/FORMAT.md, "Row": values, Bad, mask, require reset, reset permit, start permit, reset, force permit, force trip and normal. */
    static const unsigned rows[REASONED_ROWS][10] = {
        {CLEAR, 0, 0, 0, 0, 0, 0, 0, OFF, ALL - OFF},
        {TRIPPED, 0, 0, BIT(6) | BIT(7), BIT(7), 0, 0, 0, BIT(1), BIT(2)},
        {TRIPPED, BIT(3), 0, BIT(6) | BIT(7), BIT(7), BIT(9), 0, 0, BIT(1), BIT(2)},
    };
    uint8_t *p = bytes;
    put_number(p, 2, 1), p[2] = 3, p[3] = 7, put_number(p + 4, 2, 100), put_number(p + 6, 2, REASONED), p += 8;
    for (size_t i = 0; i < REASONED; i++, p += 6) put_number(p, 2, reasoned[i].causes), put_number(p + 2, 4, reasoned[i].delay);
    put_number(p, 2, REASONED_ROWS), p += 2;
    p = put_row(p, 1, rows[0]), p = put_row(p, 2, rows[1]), put_row(p, 1, rows[2]);
    return (struct file){bytes, REASONED_BYTES};
}

static void try_every_reason(void) {
    uint8_t bytes[REASONED_BYTES], told[(REASONED_RECORDS + REASONED) * POHANDIRA_REASON_BYTES], *end = told, *last;
    struct file file = reasoned_file(bytes);
    for (int i = 0; i < 7; i++) put_plain(&end, POHANDIRA_FORCED_NORMAL); /* scan 1: effects 1 to 5, 10 and 11 */
    put_plain(&end, POHANDIRA_FORCED_TRIPPED);                            /* scan 2: effects 1, 3, 4, 6 to 10 */
    put_causes(&end, POHANDIRA_ACTIVE, BIT(2)), put_causes(&end, POHANDIRA_ACTIVE, BIT(2));
    put_waiting(&end, POHANDIRA_RESET_PERMIT_MISSING), put_waiting(&end, POHANDIRA_RESET_MISSING);
    put_waiting(&end, POHANDIRA_START_PERMIT_MISSING), put_waiting(&end, POHANDIRA_START_PERMIT_MISSING);
    put_causes(&end, POHANDIRA_ACTIVE, BIT(2));
    put_plain(&end, POHANDIRA_CLEARED), put_plain(&end, POHANDIRA_DELAY_ENDED); /* scan 4: effects 9, 10 and 11 */
    put_causes(&end, POHANDIRA_BAD, BIT(3));
    last = end;
    put_plain(&end, POHANDIRA_FORCED_TRIPPED), put_plain(&end, POHANDIRA_FORCED_NORMAL); /* after scan 4: effects 1 to 11 */
    put_causes(&end, POHANDIRA_ACTIVE, BIT(2)), put_running(&end, 150), put_plain(&end, POHANDIRA_AT_REST);
    put_waiting(&end, POHANDIRA_RESET_PERMIT_MISSING), put_waiting(&end, POHANDIRA_RESET_MISSING);
    put_waiting(&end, POHANDIRA_START_PERMIT_MISSING), put_plain(&end, POHANDIRA_CLEARED);
    put_plain(&end, POHANDIRA_DELAY_ENDED), put_causes(&end, POHANDIRA_BAD, BIT(3));
    tell_in_rooms("every reason", pohandira_reasons, file, POHANDIRA_ROW_REASONS_BYTES * REASONED_ROWS, reasons_from(told, last));
    tell_in_rooms("every reason after the last scan", pohandira_now, file, POHANDIRA_ROW_REASONS_BYTES, reasons_from(last, end));
}

/* ---- Refusals by hand ---- */

/* A refusal of the recording itself comes before 10 and 11, and touches no byte of a report. */
static void season_refused(const char *name, struct file file, unsigned number) {
    static const size_t rooms[] = {0, 903, 904, 905};
    struct report full = filled(UINT64_MAX);
    for (size_t i = 0; i < sizeof rooms / sizeof rooms[0]; i++) {
        season_as(name, file, &empty, rooms[i], number, NULL);
        season_as(name, file, &full, rooms[i], number, NULL);
    }
}

/* A file that the reader refuses, with rooms from none to ample: the reader's refusal number comes first, and 10 never. */
static void try_refused(const char *name, struct file file, uint64_t number, uint64_t place) {
    static const size_t rooms[] = {0, 23, 24, 55, 56, 800};
    season_refused(name, file, (unsigned)number);
    tell_refused(name, file, (unsigned)number);
    for (size_t i = 0; i < 6; i++) {
        check_as(name, file, rooms[i], number, place, 0);
        count_as(name, file, rooms[i], refused(number, place));
        for (size_t k = 0; k < 6; k++) replay_as(name, file, rooms[i], rooms[k], refused(number, place));
    }
}

/* The session with one byte changed. */
static void try_changed(const char *name, size_t at, uint8_t byte, uint64_t number, uint64_t place) {
    uint8_t bytes[sizeof session_bytes];
    struct file file = {bytes, sizeof bytes};
    memcpy(bytes, session_bytes, sizeof bytes);
    bytes[at] = byte;
    try_refused(name, file, number, place);
}

static void try_refusals(void) {
    uint8_t longer[sizeof session_bytes + 2] = {0};
    memcpy(longer, session_bytes, sizeof session_bytes);
    try_refused("empty file", (struct file){longer, 0}, 1, 0);
    try_refused("one byte", (struct file){longer, 1}, 1, 1);
    try_refused("69 bytes", (struct file){longer, 69}, 1, 69);
    try_refused("46 bytes", (struct file){longer, 46}, 1, 46);
    try_refused("71 bytes", (struct file){longer, 71}, 7, 70);
    try_refused("72 bytes", (struct file){longer, 72}, 7, 70);
    try_changed("block count 2", 1, 2, 2, 0);
    try_changed("no cause", 2, 0, 2, 2);
    try_changed("option bit 3", 3, 8, 2, 2);
    try_changed("17 effects", 7, 17, 3, 6);
    try_changed("association with a cause that is not there", 15, 4, 3, 14);
    try_changed("no row", 21, 0, 4, 20);
    try_changed("hold 0", 25, 0, 4, 22);
    try_changed("a value of a cause that is not there", 51, 4, 4, 46);
    try_changed("force permit 2", 65, 2, 4, 46);
    try_changed("two forced to trip", 67, 3, 6, 46);
    longer[43] = longer[45] = 1; /* row 1, force trip and force normal */
    try_refused("one effect in both force words", (struct file){longer, 70}, 5, 22);
    longer[43] = 3;
    try_refused("one effect in both force words, and several forced", (struct file){longer, 70}, 5, 22);
}

/*
 * The session with option bit 0, and in row 2 no cause tripped but cause 2 Bad. Masked, it trips nothing. Else it trips effect 2, which
 * alone is associated with it, at once, and is its first-out.
 */
static void try_bad(void) {
    uint8_t bytes[sizeof session_bytes], records[36];
    memcpy(bytes, session_bytes, sizeof bytes);
    bytes[3] = 1, bytes[51] = 3, bytes[53] = bytes[55] = 2;
    struct file file = {bytes, sizeof bytes};
    replay_as("a masked cause is Bad", file, 96, 56, (struct answer){{2, 2, 8, 1, 0, 0, 0}, session_records});
    struct report added = empty;
    add_effect(&added, 1, 0, 8, 0, 0);
    add_effect(&added, 2, 0, 8, 0, 0);
    season_as("a masked cause is Bad", file, &empty, POHANDIRA_REPORT_BYTES, 0, &added);

    bytes[55] = 0;
    memcpy(records, session_records, sizeof records);
    records[30] = 2, records[35] = 2; /* effect, first-out */
    replay_as("a cause is Bad", file, 96, 56, (struct answer){{3, 2, 8, 2, 5, 0, 0}, records});
    added = empty;
    add_effect(&added, 1, 0, 8, 0, 0);
    add_effect(&added, 2, 5, 3, 0, 1);
    added.numbers[112] = 5;
    season_as("a cause is Bad", file, &empty, POHANDIRA_REPORT_BYTES, 0, &added);
}

/* One cause, `effects` effects with one delay, period 100, both permits; rows by turns with the cause normal and `other`. */
static struct file turns(uint8_t *bytes, unsigned effects, unsigned delay, unsigned rows, unsigned hold, unsigned other) {
    unsigned every = (1u << effects) - 1;
    uint8_t *p = bytes;
    put_number(p, 8, (uint64_t)1 << 48 | (uint64_t)1 << 40 | 100u << 16 | effects), p += 8;
    for (unsigned i = 0; i < effects; i++, p += 6) put_number(p, 6, (uint64_t)1 << 32 | delay);
    put_number(p, 2, rows), p += 2;
    for (unsigned i = 0; i < rows; i++, p += 24) {
        memset(p, 0, 24);
        put_number(p, 4, hold), put_number(p + 4, 2, i % 2 ? other : 1);
        put_number(p + 12, 2, every), put_number(p + 14, 2, every);
    }
    return (struct file){bytes, (size_t)(p - bytes)};
}

/* 1,000 rows of 1,000,000 scans are just accepted; one more is refused at its first byte, whatever the room. */
static void try_scans(uint8_t *bytes) {
    static const uint8_t record[] = {0, 0, 0, 0, 0, 1, 1, POHANDIRA_TRIPPED, POHANDIRA_NORMAL, 0, 0, 0};
    struct file file = turns(bytes, 1, 0, 1000, 1000000, 1);
    struct answer answer = {{1, 1000, 1000000000, 1, 0, 0, 0}, record};
    replay_as("all scans", file, 24000, 56, answer);
    count_as("all scans, counted", file, 56, answer);
    struct report added = empty;
    add_effect(&added, 1, 0, 1000000000, 0, 0);
    season_as("all scans, season totals", file, &added, POHANDIRA_REPORT_BYTES, 0, &added);
    uint8_t told[2 * POHANDIRA_REASON_BYTES], *end = told;
    put_plain(&end, POHANDIRA_CLEARED), put_plain(&end, POHANDIRA_AT_REST);
    tell_in_rooms("all scans, reasons", pohandira_reasons, file, 16000, reasons_from(told, told + POHANDIRA_REASON_BYTES));
    tell_in_rooms("all scans, reasons after the last", pohandira_now, file, 16000, reasons_from(told + POHANDIRA_REASON_BYTES, end));
    file = turns(bytes, 1, 0, 1001, 1000000, 1);
    season_refused("too many scans, season totals", file, 9);
    tell_refused("too many scans, reasons", file, 9);
    replay_as("too many scans", file, 1001 * 384, 56, refused(9, 24016));
    replay_as("too many scans, no room for records", file, 0, 56, refused(9, 24016));
    replay_as("too many scans, no room for totals", file, 24024, 55, refused(9, 24016));
    count_as("too many scans, counted", file, 56, refused(9, 24016));
    count_as("too many scans, counted, no room for totals", file, 55, refused(9, 24016));
    check_as("too many scans, which the reader accepts", file, 24, 0, 0, 1001);
    file = turns(bytes, 1, 0, 2048, 1000000, 1);
    replay_as("too many scans long before the end", file, 2048 * 384, 56, refused(9, 24016));
}

static uint8_t *put_event(uint8_t *p, uint64_t sequence, uint64_t scan, uint8_t effect, uint8_t before, uint8_t after,
                          uint8_t first_out) {
    put_number(p, 2, sequence), put_number(p + 2, 4, scan);
    p[6] = effect, p[7] = before, p[8] = after, p[9] = 0, p[10] = 0, p[11] = first_out;
    return p + POHANDIRA_RECORD_BYTES;
}

/* The reasons of the largest recording: after its last scan they are those of the last 16 records. */
static void try_largest_reasons(struct file file) {
    uint8_t *told = allocated((size_t)1024 * 48 * POHANDIRA_REASON_BYTES), *end = told;
    for (int turn = 0; turn < 1024; turn++) {
        for (int e = 1; e <= 16; e++) put_plain(&end, POHANDIRA_CLEARED);
        for (int e = 1; e <= 16; e++) put_causes(&end, POHANDIRA_ACTIVE, 1);
        for (int e = 1; e <= 16; e++) put_plain(&end, POHANDIRA_DELAY_ENDED);
    }
    tell_in_rooms("largest recording, reasons", pohandira_reasons, file, (size_t)POHANDIRA_MOST_ROWS * POHANDIRA_ROW_REASONS_BYTES,
                  reasons_from(told, end));
    tell_in_rooms("largest recording, reasons after the last scan", pohandira_now, file, POHANDIRA_ROW_REASONS_BYTES,
                  reasons_from(end - 16 * POHANDIRA_REASON_BYTES, end));
    free(told);
}

/*
 * The largest recording: 2,048 rows of 3 scans by turns, 16 effects with a delay of 150. In a quiet row all start in scan 1; in the
 * other all leave in scan 1 and trip in scan 3. So two rows have 48 records, and 6 scans of which 3 are live and 3 exercised.
 */
static void try_largest(uint8_t *bytes) {
    struct file file = turns(bytes, 16, 150, 2048, 3, 0);
    size_t size = (size_t)1024 * 48 * POHANDIRA_RECORD_BYTES;
    uint8_t *records = allocated(size), *p = records;
    uint64_t sequence = 0;
    for (uint64_t turn = 0; turn < 1024; turn++) {
        for (uint8_t e = 1; e <= 16; e++)
            p = put_event(p, sequence++, 6 * turn + 1, e, POHANDIRA_TRIPPED, POHANDIRA_NORMAL, 0);
        for (uint8_t e = 1; e <= 16; e++)
            p = put_event(p, sequence++, 6 * turn + 4, e, POHANDIRA_NORMAL, POHANDIRA_DELAYED, 1);
        for (uint8_t e = 1; e <= 16; e++)
            p = put_event(p, sequence++, 6 * turn + 6, e, POHANDIRA_DELAYED, POHANDIRA_TRIPPED, 1);
    }
    struct answer answer = {{49152, 2048, 6144, 3072, 3072, 0, 0}, records};
    at_hand = "largest recording";
    if (file.length != POHANDIRA_MOST_BYTES) fail("its length");
    check_as("largest recording", file, 24, 0, 0, 2048);
    count_as("largest recording, counted", file, 56, answer);
    replay_as("largest recording, ample room", file, (size_t)2048 * POHANDIRA_ROW_RECORDS_BYTES, 56, answer);
    replay_as("largest recording, just enough room", file, size, 56, answer);
    replay_as("largest recording, one byte too little", file, size - 1, 56, refused(10, 0));
    free(records);
    struct report added = empty;
    for (unsigned e = 1; e <= 16; e++) add_effect(&added, e, 1024, 3072, 2048, 1024);
    added.numbers[112] = 3072;
    season_as("largest recording, season totals", file, &empty, POHANDIRA_REPORT_BYTES, 0, &added);
    try_largest_reasons(file);
}

static void same_text(const char *text, const char *expected) {
    if (strcmp(text, expected)) fail(text);
}

/* Every refusal number and every code of a state in words, and those that are none. */
static void try_texts(void) {
    static const char *const refusals[] = {
        "accepted", "bytes end before a count or an entry does", "block section wrong", "effects section wrong",
        "row count, hold or a row word wrong", "one effect in both force words", "several forced without option bit 2",
        "bytes left over", "unknown", "more than 1,000,000,000 scans", "an output is too small",
        "a number of a report would pass 64 bits", "unknown",
    };
    static const char *const states[] = {"tripped", "wait-reset", "ready", "wait-start", "normal", "delayed", "unknown"};
    at_hand = "texts";
    for (size_t i = 0; i < sizeof refusals / sizeof refusals[0]; i++) same_text(pohandira_refusal_text(i), refusals[i]);
    for (unsigned i = 0; i < sizeof states / sizeof states[0]; i++) same_text(pohandira_state_name(i), states[i]);
    same_text(pohandira_refusal_text((uint64_t)1 << 32), "unknown");
    same_text(pohandira_state_name(256), "unknown");
}

/* Every kind of reason and every missing thing in words, and those that are none. */
static void try_reason_texts(void) {
    static const char *const kinds[] = {
        "forced tripped", "forced normal", "Bad", "active", "delay running", "delay ended", "unknown", "cleared", "at rest", "unknown",
    };
    static const char *const waiting[] = {"unknown", "waiting reset permit", "waiting reset", "waiting start permit", "unknown"};
    struct pohandira_reason reason = {0, POHANDIRA_NOTHING_MISSING, 0, 0};
    at_hand = "texts of reasons";
    for (; reason.kind < sizeof kinds / sizeof kinds[0]; reason.kind++) same_text(pohandira_reason_text(reason), kinds[reason.kind]);
    reason.kind = POHANDIRA_WAITING;
    for (; reason.missing < sizeof waiting / sizeof waiting[0]; reason.missing++)
        same_text(pohandira_reason_text(reason), waiting[reason.missing]);
    same_text(pohandira_waiting_text(256 + POHANDIRA_RESET_MISSING), "unknown");
}

/* The reader of a reason, the second of two, on bytes of which no two are alike. */
static void try_reason(void) {
    static const uint8_t bytes[2 * POHANDIRA_REASON_BYTES] = {1, 2, 3, 4, 5, 6, 7, 8, 0x91, 0xa2, 0xb3, 0xc4, 0xd5, 0xe6, 0xf7, 0x08};
    struct pohandira_reason reason = pohandira_reason_at(bytes, 1);
    at_hand = "the reader of a reason";
    if (reason.kind != 0x91) fail("kind");
    if (reason.missing != 0xa2) fail("missing");
    if (reason.causes != 0xb3c4) fail("causes");
    if (reason.milliseconds != 0xd5e6f708) fail("milliseconds");
}

/* The reader of all totals, on seven numbers of which no two are alike. */
static void try_totals(void) {
    uint8_t bytes[POHANDIRA_TOTALS_BYTES];
    for (size_t i = 0; i < sizeof bytes; i++) bytes[i] = (uint8_t)(i + 1);
    struct pohandira_totals totals = pohandira_totals_at(bytes);
    at_hand = "the reader of all totals";
    if (totals.records != 0x0102030405060708) fail("records");
    if (totals.rows != 0x090a0b0c0d0e0f10) fail("rows");
    if (totals.scans != 0x1112131415161718) fail("scans");
    if (totals.live != 0x191a1b1c1d1e1f20) fail("live");
    if (totals.exercised != 0x2122232425262728) fail("exercised");
    if (totals.number != 0x292a2b2c2d2e2f30) fail("number");
    if (totals.place != 0x3132333435363738) fail("place");
}

/* The reader of a report, on numbers of which no two are alike: number k is k + 1, in its upper half too. */
static void try_report(void) {
    uint8_t bytes[POHANDIRA_REPORT_BYTES];
    struct report report;
    uint64_t twice = ((uint64_t)1 << 32) + 1;
    for (size_t k = 0; k < POHANDIRA_REPORT_NUMBERS; k++) report.numbers[k] = (k + 1) * twice;
    put_report(bytes, &report);
    struct pohandira_report totals = pohandira_report_at(bytes);
    at_hand = "the reader of a report";
    if (totals.scans[0][POHANDIRA_TRIPPED] != 1 * twice) fail("effect 1, tripped");
    if (totals.scans[0][POHANDIRA_DELAYED] != 6 * twice) fail("effect 1, delayed");
    if (totals.trips[0] != 7 * twice) fail("effect 1, trips");
    if (totals.scans[1][POHANDIRA_WAIT_RESET] != 9 * twice) fail("effect 2, wait-reset");
    if (totals.scans[2][POHANDIRA_READY] != 17 * twice) fail("effect 3, ready");
    if (totals.scans[3][POHANDIRA_WAIT_START] != 25 * twice) fail("effect 4, wait-start");
    if (totals.scans[15][POHANDIRA_NORMAL] != 110 * twice) fail("effect 16, normal");
    if (totals.trips[15] != 112 * twice) fail("effect 16, trips");
    if (totals.exercised != 113 * twice) fail("exercised");
}

static int checks(void) {
    uint8_t *bytes = allocated(POHANDIRA_MOST_BYTES);
    try_texts();
    try_reason_texts();
    try_totals();
    try_report();
    try_reason();
    try_session();
    try_season();
    try_season_limits();
    try_session_reasons();
    try_every_reason();
    try_refusals();
    try_bad();
    try_scans(bytes);
    try_largest(bytes);
    free(bytes);
    if (failures) fprintf(stderr, "embed: %d of the checks failed\n", failures);
    else printf("embed: every check passed\n");
    return failures ? 1 : 0;
}

/* ---- Listings ---- */

static void print_events(const uint8_t *records, size_t count) {
    for (size_t i = 0; i < count; i++) {
        struct pohandira_event event = pohandira_event_at(records, i);
        printf("%u %u %u %s %s %u\n", event.sequence, event.scan, event.effect, pohandira_state_name(event.before),
               pohandira_state_name(event.after), event.first_out);
    }
}

/*
 * Replays with ample room and, where that is accepted, with just enough and with one byte less; prints the lines of records. A count
 * has the same totals, whatever they are.
 */
static void replay_and_print(struct file file, uint64_t totals[7]) {
    size_t room = (size_t)POHANDIRA_MOST_ROWS * POHANDIRA_ROW_RECORDS_BYTES;
    uint8_t *records = lend(room), numbers[POHANDIRA_TOTALS_BYTES];
    unsigned result = pohandira_replay(file.bytes, file.length, records, room, numbers, sizeof numbers);
    for (size_t i = 0; i < 7; i++) totals[i] = pohandira_field(numbers, i);
    struct answer answer = {{0}, records};
    memcpy(answer.totals, totals, sizeof answer.totals);
    if (result != totals[POHANDIRA_NUMBER]) fail("the result is not the number in the totals");
    count_as(at_hand, file, POHANDIRA_TOTALS_BYTES, answer);
    if (totals[POHANDIRA_RECORDS] > room / POHANDIRA_RECORD_BYTES) fail("more records than there is room for");
    else if (!result) {
        size_t count = (size_t)totals[POHANDIRA_RECORDS], due = POHANDIRA_RECORD_BYTES * count;
        replay_as(at_hand, file, due, 56, answer);
        if (due) replay_as(at_hand, file, due - 1, 56, refused(10, 0));
        printf("seq scan effect from to first\n");
        print_events(records, count);
        if (!holds(records, room, records, due)) fail("bytes past the records");
        return;
    }
    if (!holds(records, room, NULL, 0)) fail("records on a refusal");
}

/*
 * Document 01's listing of one recording. On refusal 9 the lines of the rows before the place stand first: they are those of the
 * recording that ends there.
 */
static void list(uint8_t *bytes, size_t length) {
    uint64_t totals[7], before[7];
    struct file file = {bytes, length};
    replay_and_print(file, totals);
    uint64_t number = totals[POHANDIRA_NUMBER], place = totals[POHANDIRA_PLACE];
    if (number == 0) {
        printf("rows %lu scans %lu live %lu exercised %lu\n", totals[POHANDIRA_ROWS], totals[POHANDIRA_SCANS],
               totals[POHANDIRA_LIVE], totals[POHANDIRA_EXERCISED]);
        check_as(at_hand, file, 24, 0, 0, totals[POHANDIRA_ROWS]);
        return;
    }
    if (number == 9) {
        size_t count_at = 8 + 6 * pohandira_effect_count(bytes), first_row = count_at + 2;
        check_as(at_hand, file, 24, 0, 0, pohandira_number(bytes + count_at, 2));
        put_number(bytes + count_at, 2, (place - first_row) / 24);
        replay_and_print((struct file){bytes, (size_t)place}, before);
        if (before[POHANDIRA_NUMBER]) fail("the rows before a refusal by 9 are refused");
    } else {
        check_as(at_hand, file, 24, number, place, 0);
    }
    printf("refused %lu at %lu\n", number, place);
}

/* A listing in a stream of them has an empty line after it. */
static void list_case(uint8_t *bytes, size_t length) {
    list(bytes, length);
    printf("\n");
}

/* ---- Season totals ---- */

static void print_hex(const uint8_t *bytes, size_t size) {
    for (size_t i = 0; i < size; i++) printf("%02x", bytes[i]);
}

/*
 * Adds a recording to a report and prints the refusal number, the place, which a check tells, the effect count of one that was added, which
 * the library does not tell, and the report after it.
 */
static void add_and_print(const uint8_t start[POHANDIRA_REPORT_BYTES], struct file file) {
    uint8_t *lent = lend(POHANDIRA_REPORT_BYTES), answer[POHANDIRA_CHECK_BYTES], report[POHANDIRA_REPORT_BYTES], number, effects;
    memcpy(lent, start, POHANDIRA_REPORT_BYTES);
    pohandira_check(file.bytes, file.length, answer, sizeof answer);
    number = pohandira_season(file.bytes, file.length, lent, POHANDIRA_REPORT_BYTES);
    memcpy(report, lent, sizeof report);
    effects = number ? 0 : (uint8_t)pohandira_effect_count(file.bytes);
    print_hex(&number, 1), print_hex(answer + 8 * POHANDIRA_CHECK_PLACE, 8), print_hex(&effects, 1), print_hex(report, sizeof report);
    printf("\n");
    if (!holds(lent, POHANDIRA_REPORT_BYTES, report, sizeof report)) fail("bytes about the report");
}

/* A case is a report and a recording. */
static void add_case(uint8_t *bytes, size_t length) {
    if (length < POHANDIRA_REPORT_BYTES) {
        fail("it has no report");
        return;
    }
    add_and_print(bytes, (struct file){bytes + POHANDIRA_REPORT_BYTES, length - POHANDIRA_REPORT_BYTES});
}

/* ---- Reasons ---- */

/* Tells reasons of a file that is accepted, in just enough room, prints them as a line, and tries them in other rooms. */
static void tell_and_print(telling *tell, struct file file, size_t size) {
    uint8_t *lent = lend(size);
    if (tell(file.bytes, file.length, lent, size)) fail("reasons are refused, and the count is not");
    print_hex(lent, size);
    printf("\n");
    tell_in_rooms(at_hand, tell, file, POHANDIRA_ROW_REASONS_BYTES, (struct reasons){lent, size});
    if (!holds(lent, size, lent, size)) fail("bytes about the reasons");
}

/* A case is a recording. Those of its records are told first, and then those after the last scan; the place of a refusal is a count's. */
static void tell_case(uint8_t *bytes, size_t length) {
    struct file file = {bytes, length};
    uint8_t numbers[POHANDIRA_TOTALS_BYTES];
    uint8_t number = pohandira_count(bytes, length, numbers, sizeof numbers);
    if (number) {
        tell_refused(at_hand, file, number);
        printf("refused %u at %lu\n", number, pohandira_field(numbers, POHANDIRA_PLACE));
        return;
    }
    tell_and_print(pohandira_reasons, file, POHANDIRA_REASON_BYTES * (size_t)pohandira_field(numbers, POHANDIRA_RECORDS));
    tell_and_print(pohandira_now, file, POHANDIRA_REASON_BYTES * pohandira_effect_count(bytes));
}

/* ---- Streams of cases ---- */

/* Answers all cases: each has a length of 4 bytes and then so many bytes. */
static int answer_stream(void (*answer)(uint8_t *bytes, size_t length)) {
    enum { MOST = POHANDIRA_REPORT_BYTES + 50000 };
    uint8_t *bytes = allocated(MOST), size[4];
    static char name[40];
    unsigned number = 0;
    while (fread(size, 1, 4, stdin) == 4) {
        size_t length = (size_t)pohandira_number(size, 4);
        if (length > MOST || fread(bytes, 1, length, stdin) != length) {
            fprintf(stderr, "embed: the stream breaks off\n");
            return 2;
        }
        snprintf(name, sizeof name, "case %u", ++number);
        at_hand = name;
        answer(bytes, length);
    }
    free(bytes);
    if (ferror(stdin) || fflush(stdout)) return 2;
    return failures ? 1 : 0;
}

static int version(void) {
    printf("header %lu library %lu\n", (unsigned long)POHANDIRA_VERSION, (unsigned long)pohandira_version());
    return 0;
}

int main(int count, char **words) {
    if (count == 2 && !strcmp(words[1], "version")) return version();
    if (count == 2 && !strcmp(words[1], "checks")) return checks();
    if (count == 2 && !strcmp(words[1], "list")) return answer_stream(list_case);
    if (count == 2 && !strcmp(words[1], "season")) return answer_stream(add_case);
    if (count == 2 && !strcmp(words[1], "reasons")) return answer_stream(tell_case);
    fprintf(stderr, "usage: embed version | embed checks | embed list|season|reasons < CASES\n");
    return 2;
}
