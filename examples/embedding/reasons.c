/* Prints why each effect of the recording on standard input is in its state (docs/FORMAT.md, "Reasons"), from C: the listing with reasons,
   an empty line, and all effects after the last scan. README.md says how to link.
   The exit status is 0; 1 if the recording is refused, and standard error then says why; 2 if it could not be read, the text could
   not be written, or the library is not that of the header. */
#include "program.h"
#include <stdlib.h>

/* How an effect stands. */
struct standing {
    unsigned state, first_out;
};

static void print_reason(struct pohandira_reason reason) {
    printf(" %s", pohandira_reason_text(reason));
    if (reason.causes) {
        printf(" %u", reason.causes);
    }
    if (reason.milliseconds) {
        printf(" %u", reason.milliseconds);
    }
    printf("\n");
}

static void print_listing(const uint8_t *records, const uint8_t *reasons, struct pohandira_totals totals) {
    printf("seq scan effect from to first reason\n");
    for (size_t i = 0; i < totals.records; i++) {
        print_event(pohandira_event_at(records, i));
        print_reason(pohandira_reason_at(reasons, i));
    }
    print_totals(totals);
}

/* An effect stands as its last record says, and one without a record as at first: tripped, without a first-out. */
static void print_effects(const uint8_t *records, size_t count, const uint8_t *now, size_t effects) {
    struct standing standing[POHANDIRA_MOST_EFFECTS] = {{0, 0}}; /* zeros: POHANDIRA_TRIPPED, and no causes */
    for (size_t i = 0; i < count; i++) {
        struct pohandira_event event = pohandira_event_at(records, i);
        standing[event.effect - 1] = (struct standing){event.after, event.first_out};
    }
    printf("effect state first reason\n");
    for (size_t e = 0; e < effects; e++) {
        printf("%u %s %u", (unsigned)e + 1, pohandira_state_name(standing[e].state), standing[e].first_out);
        print_reason(pohandira_reason_at(now, e));
    }
}

/* Replays, and asks for the reasons, in room for just as many records as were counted; prints both texts. */
static int tell_counted(size_t length, struct pohandira_totals counted) {
    uint8_t totals[POHANDIRA_TOTALS_BYTES], now[POHANDIRA_REASON_BYTES * POHANDIRA_MOST_EFFECTS];
    size_t count = (size_t)counted.records, records_room = POHANDIRA_RECORD_BYTES * count, reasons_room = POHANDIRA_REASON_BYTES * count;
    uint8_t *records = malloc(records_room + reasons_room + 1); /* no pointer may be null, and that of no bytes could be */
    if (!records) {
        return failed("memory", strerror(errno));
    }
    uint8_t *reasons = records + records_room;
    uint8_t refused = pohandira_replay(recording, length, records, records_room, totals, sizeof totals);
    if (!refused) {
        refused = pohandira_reasons(recording, length, reasons, reasons_room);
    }
    if (!refused) {
        refused = pohandira_now(recording, length, now, sizeof now);
    }
    if (!refused) {
        print_listing(records, reasons, counted);
        printf("\n");
        print_effects(records, count, now, pohandira_effect_count(recording));
    }
    free(records);
    return refused ? failed("the reasons", pohandira_refusal_text(refused)) : DONE;
}

int main(void) {
    program = "reasons";
    return print_input(tell_counted);
}
