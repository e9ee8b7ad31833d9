/*
 * A replay and season totals in plain C, written for speed: the yardstick of bench/against_c. They answer as include/pohandira.h says,
 * with no proof. One struct for each effect, one pass over them for each round; a delay is kept as the number of the scan in which it
 * runs out, so that a jump over scans moves nothing.
 */
#include "recording.h"

#define NEVER UINT32_MAX

struct effect {
    uint32_t association, first_out, state;
    uint32_t delay; /* in scans */
    uint32_t due;   /* the scan in which Delayed ends */
};

/* What a row says to all effects. */
struct words {
    uint32_t tripped, bad; /* causes, less the masked ones; none is Bad without the option */
    uint32_t force_trip, force_normal, require_reset, reset_permit, start_permit, reset;
};

static inline struct words words_of(const struct recording *r, const struct row *row) {
    int permitted = row->force_permit || (r->options & PERMIT_NOT_REQUIRED);
    uint32_t unmasked = r->causes & ~row->mask;
    return (struct words){
        .tripped = unmasked & ~row->values,
        .bad = r->options & TRIP_IF_BAD ? unmasked & row->bad : 0,
        .force_trip = permitted ? row->force_trip : 0,
        .force_normal = permitted ? row->force_normal : 0,
        .require_reset = row->require_reset,
        .reset_permit = row->reset_permit,
        .start_permit = row->start_permit,
        .reset = row->reset,
    };
}

/* The nine rules for the effect of one bit; the state after the scan. */
static inline uint32_t state_after(const struct effect *e, const struct words *w, uint32_t bit, uint32_t scan) {
    uint32_t active = e->association & w->tripped;
    if (w->force_trip & bit) return TRIPPED;
    if (w->force_normal & bit) return NORMAL;
    if (e->association & w->bad) return TRIPPED;
    switch (e->state) {
    case TRIPPED:
        if (active) return TRIPPED;
        if (w->require_reset & bit) return w->reset_permit & bit ? READY : WAIT_RESET;
        return w->start_permit & bit ? NORMAL : WAIT_START;
    case WAIT_RESET:
        if (active) return TRIPPED;
        return w->reset_permit & bit ? READY : WAIT_RESET;
    case READY:
        if (active) return TRIPPED;
        if (!(w->reset_permit & bit)) return WAIT_RESET;
        if (!(w->reset & bit)) return READY;
        return w->start_permit & bit ? NORMAL : WAIT_START;
    case WAIT_START:
        if (active) return TRIPPED;
        return w->start_permit & bit ? NORMAL : WAIT_START;
    case NORMAL:
        if (!active) return NORMAL;
        return e->delay ? DELAYED : TRIPPED;
    default:
        return scan >= e->due ? TRIPPED : DELAYED;
    }
}

/*
 * Runs all rows. `writing` and whether there are `sums` are known where it is called, and it is compiled for each. A stretch is the
 * scans from one change of an effect to the next, and `since` the scans before it.
 */
__attribute__((always_inline)) static inline struct totals run(const struct recording *r, uint8_t *records, int writing,
                                                               uint64_t *sums) {
    struct effect effects[MOST_EFFECTS];
    uint32_t since[MOST_EFFECTS] = {0};
    struct totals t = {0, 0, 0, 0};
    uint32_t count = r->effect_count, done = 0;
    for (uint32_t i = 0; i < count; i++) {
        uint32_t scans = (r->delay[i] + r->period - 1) / r->period;
        effects[i] = (struct effect){.association = r->association[i], .state = TRIPPED, .delay = scans};
    }
    for (const uint8_t *p = r->rows, *end = p + (size_t)ROW_BYTES * r->row_count; p != end; p += ROW_BYTES) {
        struct row row = row_at(p);
        struct words w = words_of(r, &row);
        uint32_t scan = done + 1, any_seen = 0;
        done += row.hold;
        do {
            uint32_t next = NEVER, changed = 0;
            for (uint32_t i = 0; i < count; i++) {
                struct effect *e = &effects[i];
                uint32_t before = e->state, after = state_after(e, &w, 1u << i, scan);
                any_seen |= e->association & (w.tripped | w.bad);
                if (after != before) {
                    if (before == NORMAL) e->first_out = e->association & (w.tripped | w.bad);
                    if (after == NORMAL) e->first_out = 0;
                    if (after == DELAYED) e->due = scan + e->delay;
                    if (sums) {
                        sums[EFFECT_NUMBERS * i + before] += scan - 1 - since[i];
                        sums[EFFECT_NUMBERS * i + TRIPS] += after == TRIPPED;
                        since[i] = scan - 1;
                    }
                    e->state = after;
                    changed = 1;
                    if (writing) put_record(records + RECORD_BYTES * t.records, t.records, scan, i + 1, before, after, e->first_out);
                    t.records++;
                }
                if (after == DELAYED && e->due < next) next = e->due;
            }
            t.live += changed;
            w.reset = 0;
            scan = changed ? scan + 1 : next;
        } while (scan <= done);
        if (any_seen) t.exercised += row.hold;
    }
    t.scans = done;
    if (sums) {
        for (uint32_t i = 0; i < count; i++) sums[EFFECT_NUMBERS * i + effects[i].state] += done - since[i];
        sums[EXERCISED] = t.exercised;
    }
    return t;
}

static struct totals run_writing(const struct recording *r, uint8_t *records) { return run(r, records, 1, NULL); }
static struct totals run_counting(const struct recording *r, uint8_t *records) { return run(r, records, 0, NULL); }
static void run_summing(const struct recording *r, uint64_t *sums) { run(r, NULL, 0, sums); }

uint8_t plain_check(const uint8_t *recording, size_t length, uint8_t *answer, size_t answer_room) {
    return check_by(recording, length, answer, answer_room);
}

uint8_t plain_replay(const uint8_t *recording, size_t length, uint8_t *records, size_t records_room, uint8_t *totals,
                     size_t totals_room) {
    return replay_by(run_writing, run_counting, recording, length, records, records_room, totals, totals_room);
}

uint8_t plain_season(const uint8_t *recording, size_t length, uint8_t *report, size_t report_room) {
    return season_by(run_summing, recording, length, report, report_room);
}
