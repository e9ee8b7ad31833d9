/*
 * The second form of the replay and season totals in plain C: one bit an effect, so that the rules of a scan are some forty operations on
 * words, however many effects there are. It answers as bench/plain.c does; bench/against_c shows both.
 */
#include "recording.h"

#define NEVER UINT32_MAX

/* The effects in each state, one bit an effect. */
struct states {
    uint32_t tripped, wait_reset, ready, wait_start, normal, delayed;
};

/* What a row says to all effects; all but `blamed` are words of effects. */
struct words {
    uint32_t blamed; /* causes that are tripped or Bad, less the masked ones */
    uint32_t active, bad_trip, force_trip, force_normal, require_reset, reset_permit, start_permit, reset;
};

struct block {
    struct states now;
    uint32_t with_delay;          /* effects */
    uint32_t by_cause[16];        /* the effects that a cause is associated with */
    uint32_t delay[MOST_EFFECTS]; /* in scans */
    uint32_t due[MOST_EFFECTS];   /* the scan in which Delayed ends */
    uint32_t next_due;            /* the first of them */
    uint32_t first_out[MOST_EFFECTS];
};

static inline uint32_t lowest(uint32_t word) { return (uint32_t)__builtin_ctz(word); }

static inline struct block fresh(const struct recording *r) {
    struct block b = {.now = {.tripped = r->effects}, .next_due = NEVER};
    for (uint32_t i = 0; i < r->effect_count; i++) {
        b.delay[i] = (r->delay[i] + r->period - 1) / r->period;
        b.with_delay |= (uint32_t)(r->delay[i] != 0) << i;
        for (uint32_t causes = r->association[i]; causes; causes &= causes - 1) b.by_cause[lowest(causes)] |= 1u << i;
    }
    return b;
}

/* The effects that one of the causes is associated with. */
static inline uint32_t watching(const struct block *b, uint32_t causes) {
    uint32_t effects = 0;
    for (; causes; causes &= causes - 1) effects |= b->by_cause[lowest(causes)];
    return effects;
}

static inline struct words words_of(const struct recording *r, const struct block *b, const struct row *row) {
    int permitted = row->force_permit || (r->options & PERMIT_NOT_REQUIRED);
    uint32_t force_normal = permitted ? row->force_normal : 0, force_trip = permitted ? row->force_trip : 0;
    uint32_t unmasked = r->causes & ~row->mask, tripped = unmasked & ~row->values;
    uint32_t bad = r->options & TRIP_IF_BAD ? unmasked & row->bad : 0, bad_trip = watching(b, bad);
    return (struct words){
        .blamed = tripped | bad,
        .active = watching(b, tripped),
        .bad_trip = bad_trip,
        .force_trip = force_trip | (bad_trip & ~force_normal), /* Bad trip comes after both forces */
        .force_normal = force_normal,
        .require_reset = row->require_reset,
        .reset_permit = row->reset_permit,
        .start_permit = row->start_permit,
        .reset = row->reset,
    };
}

/* The effects whose delay runs out by this scan. */
static inline uint32_t run_out(const struct block *b, uint32_t scan) {
    uint32_t out = 0;
    if (scan >= b->next_due)
        for (uint32_t left = b->now.delayed; left; left &= left - 1)
            out |= (uint32_t)(scan >= b->due[lowest(left)]) << lowest(left);
    return out;
}

/* The nine rules for all effects. */
static inline struct states states_after(const struct states *s, const struct words *w, uint32_t with_delay, uint32_t out,
                                         uint32_t effects) {
    uint32_t free = effects & ~(w->force_trip | w->force_normal), quiet = free & ~w->active, active = free & w->active;
    uint32_t permit = w->reset_permit, start = w->start_permit;
    uint32_t to_ready = quiet & ((s->tripped & w->require_reset) | s->wait_reset | s->ready); /* if there is a reset permit */
    uint32_t reset = to_ready & s->ready & permit & w->reset;
    uint32_t to_start = (quiet & ((s->tripped & ~w->require_reset) | s->wait_start)) | reset; /* if there is a start permit */
    struct states after = {
        .tripped = w->force_trip | (active & ((s->normal & ~with_delay) | ~(s->normal | s->delayed))) | (free & out),
        .wait_reset = to_ready & ~permit,
        .ready = to_ready & permit & ~reset,
        .wait_start = to_start & ~start,
        .normal = w->force_normal | (to_start & start) | (quiet & s->normal),
        .delayed = (active & s->normal & with_delay) | (free & s->delayed & ~out),
    };
    return after;
}

static inline uint32_t unchanged(const struct states *s, const struct states *t) {
    return (s->tripped & t->tripped) | (s->wait_reset & t->wait_reset) | (s->ready & t->ready) |
           (s->wait_start & t->wait_start) | (s->normal & t->normal) | (s->delayed & t->delayed);
}

/* The state of one effect, 0 to 5. */
static inline uint32_t code_of(const struct states *s, uint32_t i) {
    uint32_t odd = s->wait_reset | s->wait_start | s->delayed, middle = s->ready | s->wait_start, high = s->normal | s->delayed;
    return (odd >> i & 1) | (middle >> i & 1) << 1 | (high >> i & 1) << 2;
}

static inline uint32_t soonest(const struct block *b) {
    uint32_t next = NEVER;
    for (uint32_t left = b->now.delayed; left; left &= left - 1)
        if (b->due[lowest(left)] < next) next = b->due[lowest(left)];
    return next;
}

/* Runs all rows, as bench/plain.c does: with `writing` and `sums` known where it is called. */
__attribute__((always_inline)) static inline struct totals run(const struct recording *r, uint8_t *records, int writing,
                                                               uint64_t *sums) {
    struct block b = fresh(r);
    uint32_t since[MOST_EFFECTS] = {0};
    struct totals t = {0, 0, 0, 0};
    uint32_t done = 0;
    for (const uint8_t *p = r->rows, *end = p + (size_t)ROW_BYTES * r->row_count; p != end; p += ROW_BYTES) {
        struct row row = row_at(p);
        struct words w = words_of(r, &b, &row);
        uint32_t scan = done + 1;
        done += row.hold;
        if (w.active | w.bad_trip) t.exercised += row.hold;
        do {
            struct states after = states_after(&b.now, &w, b.with_delay, run_out(&b, scan), r->effects);
            uint32_t changed = r->effects & ~unchanged(&b.now, &after), delays = b.now.delayed ^ after.delayed;
            for (uint32_t left = changed; left; left &= left - 1) {
                uint32_t i = lowest(left);
                if (b.now.normal >> i & 1) b.first_out[i] = r->association[i] & w.blamed;
                if (after.normal >> i & 1) b.first_out[i] = 0;
                b.due[i] = scan + b.delay[i]; /* read in Delayed alone */
                if (sums) {
                    sums[EFFECT_NUMBERS * i + code_of(&b.now, i)] += scan - 1 - since[i];
                    sums[EFFECT_NUMBERS * i + TRIPS] += after.tripped >> i & 1;
                    since[i] = scan - 1;
                }
                if (writing)
                    put_record(records + RECORD_BYTES * t.records, t.records, scan, i + 1, code_of(&b.now, i), code_of(&after, i),
                               b.first_out[i]);
                t.records++;
            }
            b.now = after;
            if (delays) b.next_due = soonest(&b);
            t.live += changed != 0;
            w.reset = 0;
            scan = changed ? scan + 1 : b.next_due;
        } while (scan <= done);
    }
    t.scans = done;
    if (sums) {
        for (uint32_t i = 0; i < r->effect_count; i++) sums[EFFECT_NUMBERS * i + code_of(&b.now, i)] += done - since[i];
        sums[EXERCISED] = t.exercised;
    }
    return t;
}

static struct totals run_writing(const struct recording *r, uint8_t *records) { return run(r, records, 1, NULL); }
static struct totals run_counting(const struct recording *r, uint8_t *records) { return run(r, records, 0, NULL); }
static void run_summing(const struct recording *r, uint64_t *sums) { run(r, NULL, 0, sums); }

uint8_t plain_words_check(const uint8_t *recording, size_t length, uint8_t *answer, size_t answer_room) {
    return check_by(recording, length, answer, answer_room);
}

uint8_t plain_words_replay(const uint8_t *recording, size_t length, uint8_t *records, size_t records_room, uint8_t *totals,
                           size_t totals_room) {
    return replay_by(run_writing, run_counting, recording, length, records, records_room, totals, totals_room);
}

uint8_t plain_words_season(const uint8_t *recording, size_t length, uint8_t *report, size_t report_room) {
    return season_by(run_summing, recording, length, report, report_room);
}
