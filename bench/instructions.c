/*
 * Replays and checks recordings like those of bench/table.c, adds them to a report, and passes a marker after each call, so that the
 * instructions between two markers can be counted (bench/instructions). It prints the marker's address.
 */
#define main table_main
#include "table.c"
#undef main

#define REPLAYS 2 /* the second is counted, from the first marker to the second */

__attribute__((noinline)) static void marker(void)
{
    __asm__ volatile("nop");
}

static void count(uint32_t effects, uint32_t rows, uint32_t most)
{
    static struct file files[FILES];

    for (int i = 0; i < FILES && !files[i].bytes; i++)
        files[i].bytes = allocated(POHANDIRA_MOST_BYTES + 64);
    make_files(files, 1, effects, rows, 1, most);
    for (int i = 0; i < FILES; i++) {
        for (int k = 0; k < REPLAYS; k++) {
            pohandira_replay(files[i].bytes, files[i].length, records, MOST_ROOM, numbers, POHANDIRA_TOTALS_BYTES);
            marker();
        }
        pohandira_check(files[i].bytes, files[i].length, numbers, POHANDIRA_CHECK_BYTES);
        marker();
        pohandira_season(files[i].bytes, files[i].length, report, POHANDIRA_REPORT_BYTES);
        marker();
    }
}

int main(void)
{
    static const uint32_t effects[] = {1, 4, 16}, rows[] = {2, 128}, most[] = {1, 50};

    records = allocated(MOST_ROOM);
    printf("%p\n", (void *)marker);
    for (int r = 0; r < 2; r++)
        for (int m = 0; m < 2; m++)
            for (int e = 0; e < 3; e++)
                count(effects[e], rows[r], most[m]);
    return 0;
}
