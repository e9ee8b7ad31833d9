/* What the programs in C share: the recording, messages and exit statuses, and the lines of a listing. */
#ifndef PROGRAM_H
#define PROGRAM_H

#include "pohandira.h"
#include <errno.h>
#include <stdio.h>
#include <string.h>

/* Exit statuses. */
enum { DONE = 0, REFUSED = 1, FAILED = 2 };

typedef unsigned long long number; /* what printf takes for 64 bits */

static const char *program = ""; /* the name that messages begin with */

/* One byte more than the largest recording, so that a longer file is refused too. */
static uint8_t recording[POHANDIRA_MOST_BYTES + 1];

static inline int failed(const char *what, const char *why) {
    fprintf(stderr, "%s: %s: %s\n", program, what, why);
    return FAILED;
}

/* What a program does first, since records, totals and reports may grow. */
static inline int compare_versions(void) {
    return pohandira_version() == POHANDIRA_VERSION ? DONE : failed("the library", "not the version that this program was compiled for");
}

/* Reads the recording, whose length is then known. */
static inline int read_recording(FILE *file, const char *name, size_t *length) {
    *length = fread(recording, 1, sizeof recording, file);
    return ferror(file) ? failed(name, strerror(errno)) : DONE; /* unreadable is not empty */
}

/* printf only fills a buffer: whether all was written shows here. */
static inline int end_output(void) {
    return fflush(stdout) != 0 || ferror(stdout) || fclose(stdout) != 0 ? failed("standard output", strerror(errno)) : DONE;
}

/* The line of a record, without its end. */
static inline void print_event(struct pohandira_event event) {
    printf("%u %u %u %s %s %u", event.sequence, event.scan, event.effect, pohandira_state_name(event.before),
           pohandira_state_name(event.after), event.first_out);
}

/* The last line of a listing. */
static inline void print_totals(struct pohandira_totals totals) {
    printf("rows %llu scans %llu live %llu exercised %llu\n", (number)totals.rows, (number)totals.scans, (number)totals.live,
           (number)totals.exercised);
}

/*
 * Prints a text of the recording on standard input, by `print`, which is given the recording's length and what was counted, and answers DONE
 * or, after a message, FAILED. A refused recording has the line of its refusal instead. The result is the exit status.
 */
static inline int print_input(int (*print)(size_t length, struct pohandira_totals counted)) {
    uint8_t numbers[POHANDIRA_TOTALS_BYTES];
    size_t length;
    if (compare_versions() != DONE || read_recording(stdin, "standard input", &length) != DONE) {
        return FAILED;
    }
    uint8_t refused = pohandira_count(recording, length, numbers, sizeof numbers);
    struct pohandira_totals counted = pohandira_totals_at(numbers);
    if (refused) {
        printf("refused %llu at %llu\n", (number)counted.number, (number)counted.place);
    } else if (print(length, counted) != DONE) {
        return FAILED;
    }
    if (end_output() != DONE) {
        return FAILED;
    }
    if (refused) {
        fprintf(stderr, "%s: refused: %s\n", program, pohandira_refusal_text(refused));
    }
    return refused ? REFUSED : DONE;
}

#endif
