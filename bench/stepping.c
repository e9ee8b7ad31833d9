/*
 * The simplest replay: every scan by the rules of document 01, with no skipping and no thought of speed. It answers as
 * include/pohandira.h says. bench/against_c compares with it, and shows what a long hold would cost.
 */
#include "recording.h"

struct effect {
    uint32_t state, timer, first_out;
};

/* The causes of an effect that are Bad and not masked, if that is to trip it (document 02, L3). */
static uint32_t bad_causes(const struct recording *r, const struct row *row, uint32_t i) {
    return r->options & TRIP_IF_BAD ? r->association[i] & ~row->mask & row->bad : 0;
}

static uint32_t active_causes(const struct recording *r, const struct row *row, uint32_t i) {
    return r->association[i] & ~row->mask & ~row->values;
}

/* One effect in one scan (document 01, "The rules of one scan"). */
static struct effect effect_after(struct effect e, const struct recording *r, const struct row *row, uint32_t i) {
    uint32_t active = active_causes(r, row, i), bad = bad_causes(r, row, i);
    int require = row->require_reset >> i & 1, permit = row->reset_permit >> i & 1, start = row->start_permit >> i & 1;
    int reset = row->reset >> i & 1, forces = row->force_permit == 1 || (r->options & PERMIT_NOT_REQUIRED);
    struct effect after = e;
    if (forces && (row->force_trip >> i & 1)) {
        after.state = TRIPPED;
    } else if (forces && (row->force_normal >> i & 1)) {
        after.state = NORMAL;
    } else if (bad) {
        after.state = TRIPPED;
    } else if (e.state == DELAYED) {
        after.state = e.timer <= r->period ? TRIPPED : DELAYED;
        after.timer = e.timer - r->period;
    } else if (e.state == NORMAL) {
        if (active) after.state = r->delay[i] ? DELAYED : TRIPPED;
        after.timer = r->delay[i];
    } else if (active) {
        after.state = TRIPPED;
    } else if (e.state == WAIT_START || (e.state == TRIPPED && !require) || (e.state == READY && permit && reset)) {
        after.state = start ? NORMAL : WAIT_START;
    } else {
        after.state = permit ? READY : WAIT_RESET;
    }
    if (after.state != DELAYED) after.timer = 0;
    if (e.state == NORMAL) after.first_out = active | bad;
    if (after.state == NORMAL) after.first_out = 0;
    return after;
}

/* Every scan. With `sums` each effect adds 1 to the number of its state after each scan, and 1 for a change into Tripped. */
__attribute__((always_inline)) static inline struct totals step_all(const struct recording *r, uint8_t *records, int writing,
                                                                    uint64_t *sums) {
    struct effect effects[MOST_EFFECTS] = {{TRIPPED, 0, 0}};
    struct totals t = {0, 0, 0, 0};
    for (uint32_t n = 0; n < r->row_count; n++) {
        struct row row = row_at(r->rows + (size_t)ROW_BYTES * n);
        uint32_t any_seen = 0;
        for (uint32_t i = 0; i < r->effect_count; i++) any_seen |= active_causes(r, &row, i) | bad_causes(r, &row, i);
        if (any_seen) t.exercised += row.hold;
        for (uint32_t left = row.hold; left > 0; left--) {
            uint64_t records_before = t.records;
            t.scans++;
            for (uint32_t i = 0; i < r->effect_count; i++) {
                struct effect e = effects[i];
                effects[i] = effect_after(e, r, &row, i);
                if (sums) sums[EFFECT_NUMBERS * i + effects[i].state]++;
                if (sums && effects[i].state == TRIPPED && e.state != TRIPPED) sums[EFFECT_NUMBERS * i + TRIPS]++;
                if (effects[i].state == e.state) continue;
                if (writing)
                    put_record(records + RECORD_BYTES * t.records, t.records, (uint32_t)t.scans, i + 1, e.state,
                               effects[i].state, effects[i].first_out);
                t.records++;
            }
            if (t.records > records_before) t.live++;
            row.reset = 0;
        }
    }
    if (sums) sums[EXERCISED] = t.exercised;
    return t;
}

static struct totals run_writing(const struct recording *r, uint8_t *records) { return step_all(r, records, 1, NULL); }
static struct totals run_counting(const struct recording *r, uint8_t *records) { return step_all(r, records, 0, NULL); }
static void run_summing(const struct recording *r, uint64_t *sums) { step_all(r, NULL, 0, sums); }

uint8_t stepping_replay(const uint8_t *recording, size_t length, uint8_t *records, size_t records_room, uint8_t *totals,
                        size_t totals_room) {
    return replay_by(run_writing, run_counting, recording, length, records, records_room, totals, totals_room);
}

uint8_t stepping_season(const uint8_t *recording, size_t length, uint8_t *report, size_t report_room) {
    return season_by(run_summing, recording, length, report, report_room);
}
