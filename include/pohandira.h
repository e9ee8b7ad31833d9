/*
 * Replays recordings of shutdown logic, tells why each effect is in its state, and adds up season totals over many recordings, for C99 and
 * C++. The functions of the library are proved.
 * "Document 01" is the owner's requirement; docs/FORMAT.md says all of it: the recording byte by byte, the rules, the event records and the
 * refusals. Season totals are "document 02", L1, Bad causes L3, and reasons L4, which it says too.
 * The static library is libpohandira.a, for x86-64 Linux: tests/library builds it into target/staticlib/, and bin/install installs it.
 *
 * What is asked of the caller, and nothing else: no pointer is null, even where its length is 0; the bytes that a pointer and
 * its length name can be read, or written for an output; and no two of the buffers overlap. Any bytes at all get an answer.
 * Nothing is kept between calls and nothing is allocated, so several threads may call at once, each with outputs of its own.
 *
 * Every number that crosses is 8 bytes, big-endian; an event record is 12 bytes and a reason 8, big-endian. The readers below take them
 * apart.
 * Bytes of an output past what a function says that it writes stay as they were.
 */
#ifndef POHANDIRA_H
#define POHANDIRA_H

#include <stddef.h>
#include <stdint.h>

#ifdef __cplusplus
extern "C" {
#endif

/* ---- The version ---- */

/*
 * The version that this header is of: 1,000,000 for each major version, 1,000 for each minor one and 1 for each patch, so that a
 * later version is a greater number. It is compared with pohandira_version(), the library's own: records, totals and reports may grow,
 * and then a program that was compiled with another header must not read them.
 */
#define POHANDIRA_VERSION 4000 /* 0.4.0 */

uint32_t pohandira_version(void);

/* ---- Sizes, in bytes ---- */

#define POHANDIRA_CHECK_BYTES 24        /* the answer of pohandira_check: 3 numbers */
#define POHANDIRA_TOTALS_BYTES 56       /* the totals of pohandira_count and pohandira_replay: 7 numbers */
#define POHANDIRA_RECORD_BYTES 12       /* one event record */
#define POHANDIRA_ROW_RECORDS_BYTES 384 /* room for the records of one row, always enough: two for each of 16 effects */
#define POHANDIRA_REASON_BYTES 8        /* the reason of an effect's state */
#define POHANDIRA_ROW_REASONS_BYTES 256 /* room for the reasons of one row's records, always enough */
#define POHANDIRA_REPORT_BYTES 904      /* the report of pohandira_season: 113 numbers */
#define POHANDIRA_MOST_BYTES 49258      /* the largest recording */

/* ---- Counts ---- */

#define POHANDIRA_MOST_ROWS 2048     /* rows of the largest recording */
#define POHANDIRA_MOST_EFFECTS 16    /* effects of a recording, and of every report */
#define POHANDIRA_STATES 6           /* states of an effect */
#define POHANDIRA_REPORT_NUMBERS 113 /* numbers of a report: 7 for each effect, and one */

/* ---- Refusals (document 01, "Refusal numbers") ---- */

/*
 * The first that applies is given, in this order: 1 to 6 as the file is read, section by section and entry by entry (the bytes
 * of a count, the count, then for each entry its bytes, its fields, 5, 6); then 7, then 9, then 10, then 11. The place is counted in
 * bytes from the start of the recording.
 */
enum {
    POHANDIRA_ACCEPTED = 0,
    POHANDIRA_TOO_SHORT = 1,      /* bytes end before a count or an entry does; the place is the length */
    POHANDIRA_BLOCK_WRONG = 2,    /* block section wrong; the place of 2 to 6 is the first byte of the count or entry */
    POHANDIRA_EFFECTS_WRONG = 3,  /* effects section wrong */
    POHANDIRA_ROW_WRONG = 4,      /* row count, hold or a row word wrong */
    POHANDIRA_BOTH_FORCES = 5,    /* one effect in both force words */
    POHANDIRA_SEVERAL_FORCED = 6, /* several forced without option bit 2 */
    POHANDIRA_SPARE_BYTES = 7,    /* bytes left over; the place is the first of them */
    /* 8, a state that breaks the rules, can't be met here: every replay starts from a fresh state. */
    POHANDIRA_TOO_MANY_SCANS = 9, /* more than 1,000,000,000 scans; the place is the first byte of the row that passes them */
    POHANDIRA_NO_ROOM = 10,       /* an output is too small; the place is 0 */
    POHANDIRA_REPORT_FULL = 11    /* a number of a report would pass 64 bits; the place is 0 */
};

/* A refusal number in words; "unknown" for a number that no function here answers. */
static inline const char *pohandira_refusal_text(uint64_t number) {
    switch (number) {
    case POHANDIRA_ACCEPTED: return "accepted";
    case POHANDIRA_TOO_SHORT: return "bytes end before a count or an entry does";
    case POHANDIRA_BLOCK_WRONG: return "block section wrong";
    case POHANDIRA_EFFECTS_WRONG: return "effects section wrong";
    case POHANDIRA_ROW_WRONG: return "row count, hold or a row word wrong";
    case POHANDIRA_BOTH_FORCES: return "one effect in both force words";
    case POHANDIRA_SEVERAL_FORCED: return "several forced without option bit 2";
    case POHANDIRA_SPARE_BYTES: return "bytes left over";
    case POHANDIRA_TOO_MANY_SCANS: return "more than 1,000,000,000 scans";
    case POHANDIRA_NO_ROOM: return "an output is too small";
    case POHANDIRA_REPORT_FULL: return "a number of a report would pass 64 bits";
    default: return "unknown";
    }
}

/* ---- The functions ---- */

/* The numbers of a check's answer. */
enum { POHANDIRA_CHECK_NUMBER, POHANDIRA_CHECK_PLACE, POHANDIRA_CHECK_ROWS };

/*
 * Reads a recording and replays nothing. The result is 0 or the refusal number: 1 to 7, else 10 if answer_room is below
 * POHANDIRA_CHECK_BYTES. With less room nothing is written. Otherwise POHANDIRA_CHECK_BYTES bytes are: the refusal number, the place and
 * how many rows there are; the place is 0 where the refusal number is 0, and the rows are 0 where it is not.
 */
uint8_t pohandira_check(const uint8_t *recording, size_t length, uint8_t *answer, size_t answer_room);

/* The numbers of a count's and a replay's totals. */
enum {
    POHANDIRA_RECORDS,   /* event records: for a replay those written, for a count those that it would write */
    POHANDIRA_ROWS,      /* rows of the recording */
    POHANDIRA_SCANS,     /* scans of all rows */
    POHANDIRA_LIVE,      /* scans in which some effect changed its state */
    POHANDIRA_EXERCISED, /* scans of rows in which some effect had a tripped cause or, with option bit 0, a Bad one, not masked */
    POHANDIRA_NUMBER,    /* 0, or the refusal number */
    POHANDIRA_PLACE      /* the refusal's place, else 0 */
};

/*
 * Replays a whole recording from a fresh state, and only counts: it answers what pohandira_replay does where the room for records is
 * ample, and no record goes anywhere. The result is 0 or the refusal number: 1 to 7, else 9, else 10 if totals_room is below
 * POHANDIRA_TOTALS_BYTES.
 *
 * With too little room for the totals no byte of `totals` is touched. Otherwise POHANDIRA_TOTALS_BYTES bytes of them are written;
 * on a refusal the first five numbers are 0. On 0 a replay of the same recording needs POHANDIRA_RECORD_BYTES bytes for each of the
 * field POHANDIRA_RECORDS, and with that room it answers 0; with less it answers 10.
 */
uint8_t pohandira_count(const uint8_t *recording, size_t length, uint8_t *totals, size_t totals_room);

/*
 * Replays a whole recording from a fresh state. The result is 0 or the refusal number: 1 to 7, else 9, else 10 if records_room
 * is below POHANDIRA_RECORD_BYTES times the records due or totals_room below POHANDIRA_TOTALS_BYTES.
 *
 * On 0 the records stand at the start of `records`, by scan and then by effect. On a refusal no byte of `records` is touched.
 * With too little room for the totals no byte of `totals` is touched. Otherwise POHANDIRA_TOTALS_BYTES bytes of them are written;
 * on a refusal the first five numbers are 0.
 *
 * A room of POHANDIRA_ROW_RECORDS_BYTES for each row is always enough, and so is one of 24 bytes for each row and effect. With
 * that much the rows are run once; with less, even if it is enough, they are run once more before, to count the records.
 */
uint8_t pohandira_replay(const uint8_t *recording, size_t length, uint8_t *records, size_t records_room, uint8_t *totals,
                         size_t totals_room);

/*
 * Adds one recording, replayed from a fresh state, to a report of season totals, in place. The result is 0 or the refusal number: 1 to 7,
 * else 9, else 10 if report_room is below POHANDIRA_REPORT_BYTES, else 11 if a number of the report after it would pass 2^64 - 1.
 *
 * On 0 the first POHANDIRA_REPORT_BYTES bytes are the report with the recording; on a refusal no byte of it is touched. (Its place is
 * told by pohandira_check, and by pohandira_count for 9.) An empty report is POHANDIRA_REPORT_BYTES zeros, and any report is accepted.
 *
 * A report is POHANDIRA_REPORT_NUMBERS numbers of 8 bytes, big-endian. The first is number 0:
 *     7 (e - 1) + c   the scans after which effect e (1 to 16) stood in the state c (POHANDIRA_TRIPPED to POHANDIRA_DELAYED)
 *     7 (e - 1) + 6   the changes of effect e into Tripped
 *     112             the exercised scans
 * Effects that a recording does not have add nothing. So the six numbers of an effect's states, of a report that has grown from an empty
 * one, add up to the scans of the recordings that have it.
 */
uint8_t pohandira_season(const uint8_t *recording, size_t length, uint8_t *report, size_t report_room);

/*
 * Tells why the effect of each event record is in its new state, after the record's own scan (document 02, L4). The result is 0 or the
 * refusal number: 1 to 7, else 9, else 10 if reasons_room is below POHANDIRA_REASON_BYTES times the records due, which pohandira_count tells.
 *
 * On 0 the reasons stand at the start of `reasons`, in the order of the records that pohandira_replay writes. On a refusal no byte of
 * `reasons` is touched. (Its place is told by pohandira_count.) No record has the kind POHANDIRA_DELAY_RUNNING or POHANDIRA_AT_REST: these
 * are of effects that stay.
 *
 * A room of POHANDIRA_ROW_REASONS_BYTES for each row is always enough, and so is one of 16 bytes for each row and effect. With
 * that much the rows are run once; with less, even if it is enough, they are run once more before, to count the records.
 */
uint8_t pohandira_reasons(const uint8_t *recording, size_t length, uint8_t *reasons, size_t reasons_room);

/*
 * Tells why each effect is in its state after the last scan of a recording, whether it changed there or stays. The result is 0 or the
 * refusal number: 1 to 7, else 9, else 10 if reasons_room is below POHANDIRA_REASON_BYTES times the effects of the recording.
 *
 * On 0 the reasons stand at the start of `reasons`, from effect 1 to the effect count, which pohandira_effect_count reads. On a refusal no
 * byte of `reasons` is touched. (Its place is told by pohandira_count.) A room for POHANDIRA_MOST_EFFECTS reasons is always enough.
 *
 * The state that a reason explains, and its first-out, are those of the effect's last record; an effect without one is Tripped, with 0.
 */
uint8_t pohandira_now(const uint8_t *recording, size_t length, uint8_t *reasons, size_t reasons_room);

/* ---- Readers ---- */

/* An effect's state, in a record and in a report. */
enum {
    POHANDIRA_TRIPPED = 0,
    POHANDIRA_WAIT_RESET = 1,
    POHANDIRA_READY = 2,
    POHANDIRA_WAIT_START = 3,
    POHANDIRA_NORMAL = 4,
    POHANDIRA_DELAYED = 5
};

/* A state's name, as a listing has it; "unknown" for a code that is none. */
static inline const char *pohandira_state_name(unsigned code) {
    switch (code) {
    case POHANDIRA_TRIPPED: return "tripped";
    case POHANDIRA_WAIT_RESET: return "wait-reset";
    case POHANDIRA_READY: return "ready";
    case POHANDIRA_WAIT_START: return "wait-start";
    case POHANDIRA_NORMAL: return "normal";
    case POHANDIRA_DELAYED: return "delayed";
    default: return "unknown";
    }
}

/* The kind of a reason (docs/FORMAT.md, "Reasons"). */
enum {
    POHANDIRA_FORCED_TRIPPED = 0,
    POHANDIRA_FORCED_NORMAL = 1,
    POHANDIRA_BAD = 2,           /* with the Bad causes */
    POHANDIRA_ACTIVE = 3,        /* with the active causes */
    POHANDIRA_DELAY_RUNNING = 4, /* with the milliseconds left */
    POHANDIRA_DELAY_ENDED = 5,
    POHANDIRA_WAITING = 6, /* with the thing that is missing */
    POHANDIRA_CLEARED = 7, /* an unforced change to Normal */
    POHANDIRA_AT_REST = 8  /* an unforced Normal that stays */
};

/* What is missing where an effect waits. */
enum {
    POHANDIRA_NOTHING_MISSING = 0, /* it does not wait */
    POHANDIRA_RESET_PERMIT_MISSING = 1,
    POHANDIRA_RESET_MISSING = 2,
    POHANDIRA_START_PERMIT_MISSING = 3
};

/* Why an effect is in its state after a scan. What a reason does not have is 0, and what it has is not. */
struct pohandira_reason {
    uint8_t kind;
    uint8_t missing;
    uint16_t causes; /* bit 0 is cause 1 */
    uint32_t milliseconds;
};

/* The words of a waiting effect's reason, by what is missing; "unknown" for a thing that is none. */
static inline const char *pohandira_waiting_text(unsigned missing) {
    switch (missing) {
    case POHANDIRA_RESET_PERMIT_MISSING: return "waiting reset permit";
    case POHANDIRA_RESET_MISSING: return "waiting reset";
    case POHANDIRA_START_PERMIT_MISSING: return "waiting start permit";
    default: return "unknown";
    }
}

/*
 * A reason in words, as a listing has it, but for its causes or milliseconds, which stand behind the words in decimal; "unknown" for one
 * that no function here answers.
 */
static inline const char *pohandira_reason_text(struct pohandira_reason reason) {
    switch (reason.kind) {
    case POHANDIRA_FORCED_TRIPPED: return "forced tripped";
    case POHANDIRA_FORCED_NORMAL: return "forced normal";
    case POHANDIRA_BAD: return "Bad";
    case POHANDIRA_ACTIVE: return "active";
    case POHANDIRA_DELAY_RUNNING: return "delay running";
    case POHANDIRA_DELAY_ENDED: return "delay ended";
    case POHANDIRA_WAITING: return pohandira_waiting_text(reason.missing);
    case POHANDIRA_CLEARED: return "cleared";
    case POHANDIRA_AT_REST: return "at rest";
    default: return "unknown";
    }
}

/* The totals of a count or a replay, as the fields POHANDIRA_RECORDS to POHANDIRA_PLACE. */
struct pohandira_totals {
    uint64_t records;
    uint64_t rows;
    uint64_t scans;
    uint64_t live;
    uint64_t exercised;
    uint64_t number;
    uint64_t place;
};

/* Season totals, as the numbers of a report. Those of effect e stand at e - 1. */
struct pohandira_report {
    uint64_t scans[POHANDIRA_MOST_EFFECTS][POHANDIRA_STATES]; /* after which it stood in each state, as scans[0][POHANDIRA_NORMAL] */
    uint64_t trips[POHANDIRA_MOST_EFFECTS];                   /* its changes into Tripped */
    uint64_t exercised;
};

/* One change of one effect's state (document 01, "The rules of one scan"). */
struct pohandira_event {
    uint16_t sequence;  /* from 0; after 65,535 comes 0 */
    uint32_t scan;      /* the first is 1 */
    uint8_t effect;     /* the first is 1 */
    uint8_t before;     /* the states */
    uint8_t after;
    uint16_t first_out; /* the causes that took it out of Normal; bit 0 is cause 1 */
};

/* The number of `size` bytes at `bytes`, big-endian. */
static inline uint64_t pohandira_number(const uint8_t *bytes, size_t size) {
    uint64_t number = 0;
    for (size_t i = 0; i < size; i++) number = number << 8 | bytes[i];
    return number;
}

/* Number `field` of an answer, of totals or of a report, as POHANDIRA_CHECK_ROWS or POHANDIRA_LIVE. */
static inline uint64_t pohandira_field(const uint8_t *numbers, size_t field) {
    return pohandira_number(numbers + 8 * field, 8);
}

/* All totals, of the POHANDIRA_TOTALS_BYTES bytes that a count or a replay has written. */
static inline struct pohandira_totals pohandira_totals_at(const uint8_t *bytes) {
    struct pohandira_totals totals;
    totals.records = pohandira_field(bytes, POHANDIRA_RECORDS);
    totals.rows = pohandira_field(bytes, POHANDIRA_ROWS);
    totals.scans = pohandira_field(bytes, POHANDIRA_SCANS);
    totals.live = pohandira_field(bytes, POHANDIRA_LIVE);
    totals.exercised = pohandira_field(bytes, POHANDIRA_EXERCISED);
    totals.number = pohandira_field(bytes, POHANDIRA_NUMBER);
    totals.place = pohandira_field(bytes, POHANDIRA_PLACE);
    return totals;
}

/* All season totals, of the POHANDIRA_REPORT_BYTES bytes of a report. */
static inline struct pohandira_report pohandira_report_at(const uint8_t *bytes) {
    struct pohandira_report report;
    size_t field = 0;
    for (size_t e = 0; e < POHANDIRA_MOST_EFFECTS; e++) {
        for (size_t state = 0; state < POHANDIRA_STATES; state++) report.scans[e][state] = pohandira_field(bytes, field++);
        report.trips[e] = pohandira_field(bytes, field++);
    }
    report.exercised = pohandira_field(bytes, field);
    return report;
}

/* Record `index` of a replay, from 0; it must be below the field POHANDIRA_RECORDS. */
static inline struct pohandira_event pohandira_event_at(const uint8_t *records, size_t index) {
    const uint8_t *record = records + POHANDIRA_RECORD_BYTES * index;
    struct pohandira_event event;
    event.sequence = (uint16_t)pohandira_number(record, 2);
    event.scan = (uint32_t)pohandira_number(record + 2, 4);
    event.effect = record[6];
    event.before = record[7];
    event.after = record[8];
    event.first_out = (uint16_t)pohandira_number(record + 10, 2);
    return event;
}

/* Reason `index` of those that pohandira_reasons or pohandira_now has written, from 0. */
static inline struct pohandira_reason pohandira_reason_at(const uint8_t *reasons, size_t index) {
    const uint8_t *bytes = reasons + POHANDIRA_REASON_BYTES * index;
    struct pohandira_reason reason;
    reason.kind = bytes[0];
    reason.missing = bytes[1];
    reason.causes = (uint16_t)pohandira_number(bytes + 2, 2);
    reason.milliseconds = (uint32_t)pohandira_number(bytes + 4, 4);
    return reason;
}

/* How many effects a recording has. It must be one that no function refuses: other bytes may end before that. */
static inline size_t pohandira_effect_count(const uint8_t *recording) {
    return (size_t)pohandira_number(recording + 6, 2);
}

#ifdef __cplusplus
}
#endif

#endif
