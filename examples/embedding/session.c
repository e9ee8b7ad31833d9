/* Prints the listing of the recording on standard input (document 01, "One session, whole"), from C. README.md says how to link.
   The exit status is 0; 1 if the recording is refused, and standard error then says why; 2 if it could not be read, the listing could
   not be written, or the library is not that of the header. */
#include "program.h"
#include <stdlib.h>

static void print_listing(const uint8_t *records, struct pohandira_totals totals) {
    printf("seq scan effect from to first\n");
    for (size_t i = 0; i < totals.records; i++) {
        print_event(pohandira_event_at(records, i));
        printf("\n");
    }
    print_totals(totals);
}

/* Replays with room for just the records that were counted, which is enough, and prints the listing. */
static int replay_counted(size_t length, struct pohandira_totals counted) {
    uint8_t totals[POHANDIRA_TOTALS_BYTES];
    size_t room = POHANDIRA_RECORD_BYTES * (size_t)counted.records;
    uint8_t *records = malloc(room + 1); /* no pointer may be null, and that of no bytes could be */
    if (!records) {
        return failed("memory", strerror(errno));
    }
    uint8_t refused = pohandira_replay(recording, length, records, room, totals, sizeof totals);
    if (!refused) {
        print_listing(records, pohandira_totals_at(totals));
    }
    free(records);
    return refused ? failed("the replay", pohandira_refusal_text(refused)) : DONE;
}

int main(void) {
    program = "session";
    return print_input(replay_counted);
}
