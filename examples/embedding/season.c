/* Prints the season totals of the recordings in files (docs/FORMAT.md, "Season totals"), from C. README.md says how to link.

       season_c FILE...

   A recording that is refused adds nothing. The exit status is 0; 1 if one is refused, and standard error then says which and why; 2 if
   one could not be read, the totals could not be written, or the library is not that of the header. */
#include "program.h"

static uint8_t report[POHANDIRA_REPORT_BYTES]; /* zeros: an empty report */

/* Adds the recording in a file to the report: 0, or the status of what went wrong. */
static int add_file(const char *name) {
    FILE *file = fopen(name, "rb");
    if (!file) {
        return failed(name, strerror(errno));
    }
    size_t length;
    int unread = read_recording(file, name, &length);
    fclose(file);
    if (unread) {
        return unread;
    }
    uint8_t refused = pohandira_season(recording, length, report, sizeof report);
    if (refused) {
        fprintf(stderr, "%s: %s: refused: %s\n", program, name, pohandira_refusal_text(refused));
    }
    return refused ? REFUSED : DONE;
}

/* The last effect that some recording has: after each of its scans the effect stood in a state. */
static size_t last_effect(const struct pohandira_report *totals) {
    for (size_t e = POHANDIRA_MOST_EFFECTS; e > 0; e--) {
        for (size_t state = 0; state < POHANDIRA_STATES; state++) {
            if (totals->scans[e - 1][state]) {
                return e;
            }
        }
    }
    return 0;
}

static void print_table(struct pohandira_report totals, int added, int refused) {
    printf("effect");
    for (unsigned state = 0; state < POHANDIRA_STATES; state++) {
        printf(" %s", pohandira_state_name(state));
    }
    printf(" trips\n");
    for (size_t e = 1; e <= last_effect(&totals); e++) {
        printf("%llu", (number)e);
        for (size_t state = 0; state < POHANDIRA_STATES; state++) {
            printf(" %llu", (number)totals.scans[e - 1][state]);
        }
        printf(" %llu\n", (number)totals.trips[e - 1]);
    }
    printf("recordings %d refused %d exercised %llu\n", added, refused, (number)totals.exercised);
}

int main(int count, char **names) {
    int ended[] = {[DONE] = 0, [REFUSED] = 0, [FAILED] = 0}; /* how many files ended with each status */
    program = "season";
    if (compare_versions() != DONE) {
        return FAILED;
    }
    for (int i = 1; i < count; i++) {
        ended[add_file(names[i])]++;
    }
    print_table(pohandira_report_at(report), ended[DONE], ended[REFUSED]);
    if (end_output() != DONE) {
        return FAILED;
    }
    return ended[FAILED] ? FAILED : ended[REFUSED] ? REFUSED : DONE;
}
