/*
 * Opens, reads and replays each file that is named, by the static library and in one process, and prints the totals of all (bench/files).
 * The exit status is 1 if a file cannot be read or is refused.
 */
#include "pohandira.h"
#include <stdio.h>

typedef unsigned long long number; /* what printf takes for 64 bits */

/* One byte more than the largest recording, so that a longer file is refused too. */
static uint8_t recording[POHANDIRA_MOST_BYTES + 1];
static uint8_t records[POHANDIRA_MOST_ROWS * POHANDIRA_ROW_RECORDS_BYTES];

/* Whether the file could be read; `length` is then that of the recording. */
static int read_file(const char *name, size_t *length)
{
    FILE *file = fopen(name, "rb");

    if (!file)
        return 0;
    *length = fread(recording, 1, sizeof recording, file);
    int good = !ferror(file);
    fclose(file);
    return good;
}

static void add(struct pohandira_totals *sum, struct pohandira_totals more)
{
    sum->rows += more.rows;
    sum->scans += more.scans;
    sum->live += more.live;
    sum->exercised += more.exercised;
    sum->records += more.records;
}

/* Whether the file could be read and replayed. */
static int replay_file(const char *name, struct pohandira_totals *sum)
{
    uint8_t totals[POHANDIRA_TOTALS_BYTES];
    size_t length;

    if (!read_file(name, &length) || pohandira_replay(recording, length, records, sizeof records, totals, sizeof totals))
        return 0;
    add(sum, pohandira_totals_at(totals));
    return 1;
}

int main(int count, char **names)
{
    struct pohandira_totals sum = {0, 0, 0, 0, 0, 0, 0};

    for (int i = 1; i < count; i++)
        if (!replay_file(names[i], &sum)) {
            fprintf(stderr, "files: %s: unreadable, or refused\n", names[i]);
            return 1;
        }
    printf("%llu %llu %llu %llu %llu\n", (number)sum.rows, (number)sum.scans, (number)sum.live, (number)sum.exercised, (number)sum.records);
    return 0;
}
