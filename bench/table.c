/*
 * The proved replay and season totals beside those of plain C: that they agree to the byte, and what they take. bench/against_c builds
 * and runs it.
 *
 *     table agree SEED COUNT      compares on COUNT random recordings, valid and damaged, and as many reports
 *     table measure SEED          prints the figures
 */
#define _POSIX_C_SOURCE 199309L /* the monotonic clock */
#include "pohandira.h"
#include <stdint.h>
#include <stdio.h>
#include <stdlib.h>
#include <string.h>
#include <time.h>

typedef uint8_t check_function(const uint8_t *, size_t, uint8_t *, size_t);
typedef uint8_t season_function(const uint8_t *, size_t, uint8_t *, size_t);
typedef uint8_t replay_function(const uint8_t *, size_t, uint8_t *, size_t, uint8_t *, size_t);
check_function plain_check;
season_function plain_season, plain_words_season, stepping_season;
replay_function plain_replay, plain_words_replay, stepping_replay;

enum { MOST_ROOM = POHANDIRA_MOST_ROWS * POHANDIRA_ROW_RECORDS_BYTES };

static uint8_t *allocated(size_t size) {
    uint8_t *bytes = malloc(size);
    if (!bytes) {
        fprintf(stderr, "table: no memory\n");
        exit(2);
    }
    memset(bytes, 0xa5, size);
    return bytes;
}

/* ---- Random recordings ---- */

static uint64_t seed;

static uint64_t random64(void) { /* splitmix64 */
    uint64_t z = seed += 0x9e3779b97f4a7c15;
    z = (z ^ z >> 30) * 0xbf58476d1ce4e5b9;
    z = (z ^ z >> 27) * 0x94d049bb133111eb;
    return z ^ z >> 31;
}

static uint32_t below(uint32_t limit) { return (uint32_t)(random64() % limit); }
static uint32_t between(uint32_t least, uint32_t most) { return least + below(most - least + 1); }
static int one_in(uint32_t n) { return below(n) == 0; }
static uint32_t random_word(uint32_t existing) { return (uint32_t)random64() & existing; }
static uint32_t one_bit(uint32_t count) { return 1u << below(count); }

struct file {
    uint8_t *bytes;
    size_t length;
};

static void add(struct file *f, unsigned size, uint32_t number) {
    while (size--) f->bytes[f->length++] = (uint8_t)(number >> 8 * size);
}

struct plan {
    uint32_t causes, effects, options, period, rows;
    uint32_t least_hold, most_hold;
    int wild; /* words at random, and not as a station gives them */
};

/* An eighth of the rows differ from `usual`. */
static uint32_t mostly(uint32_t usual, uint32_t existing) { return one_in(8) ? random_word(existing) : usual; }

static void add_row(struct file *f, const struct plan *p, uint32_t held) {
    uint32_t causes = (1u << p->causes) - 1, effects = (1u << p->effects) - 1, tripped = 0, trip = 0, normal = 0;
    if (p->wild ? one_in(2) : one_in(4)) tripped = one_bit(p->causes) | (one_in(2) ? one_bit(p->causes) : 0);
    if (one_in(8)) trip = one_bit(p->effects);
    if (!trip && one_in(8)) normal = one_bit(p->effects);
    if ((p->options & 4) && (trip | normal)) trip |= random_word(effects & ~normal);
    add(f, 4, between(p->least_hold, p->most_hold));
    add(f, 2, p->wild && one_in(4) ? random_word(causes) : causes & ~tripped);
    add(f, 2, one_in(16) ? one_bit(p->causes) : 0);
    add(f, 2, one_in(8) ? one_bit(p->causes) : 0);
    add(f, 2, p->wild ? random_word(effects) : mostly(held, effects));
    add(f, 2, p->wild ? random_word(effects) : mostly(effects, effects));
    add(f, 2, p->wild ? random_word(effects) : mostly(effects, effects));
    add(f, 2, p->wild ? random_word(effects) : one_in(4) ? effects : 0);
    add(f, 2, below(2));
    add(f, 2, trip);
    add(f, 2, normal);
}

static uint32_t random_delay(uint32_t period) {
    switch (below(8)) {
    case 0: return between(0, 3600000);
    case 1: return period * below(8);
    case 2: return period * between(1, 8) + 1;
    case 3: return between(1, 5000);
    default: return 0;
    }
}

static void make(struct file *f, const struct plan *p) {
    uint32_t held = random_word((1u << p->effects) - 1);
    f->length = 0;
    add(f, 2, 1), add(f, 1, p->causes), add(f, 1, p->options), add(f, 2, p->period);
    add(f, 2, p->effects);
    for (uint32_t i = 0; i < p->effects; i++) {
        add(f, 2, one_bit(p->causes) | (one_in(2) ? one_bit(p->causes) : 0) | (one_in(4) ? one_bit(p->causes) : 0));
        add(f, 4, random_delay(p->period));
    }
    add(f, 2, p->rows);
    for (uint32_t i = 0; i < p->rows; i++) add_row(f, p, held);
}

/* Changes a byte or the force words of a row, cuts the end off or adds to it. */
static void damage(struct file *f, const struct plan *p) {
    uint32_t opening = f->length < 120 ? (uint32_t)f->length : 120, effects = (1u << p->effects) - 1;
    struct file forces = {f->bytes, f->length - 24 * between(1, p->rows) + 20};
    switch (below(5)) {
    case 0: f->length = below((uint32_t)f->length + 1); break;
    case 1: add(f, between(1, 4), 0); break;
    case 2: f->bytes[below(opening)] = (uint8_t)random64(); break;
    case 3: add(&forces, 2, random_word(effects)), add(&forces, 2, one_in(2) ? 0 : one_bit(p->effects)); break;
    default: f->bytes[below((uint32_t)f->length)] ^= (uint8_t)(1u << below(8));
    }
}

/* ---- Agreement ---- */

enum { OUTPUT = POHANDIRA_MOST_ROWS * POHANDIRA_ROW_RECORDS_BYTES + 64, SMALL = 128, MOST_NUMBER = 11 };

struct output {
    unsigned number;
    uint8_t *records, small[SMALL];
};

static void fill(struct output *o, size_t used) {
    memset(o->records, 0xa5, used);
    memset(o->small, 0x5a, SMALL);
}

static void differ(const struct file *f, const char *what, const char *who) {
    printf("table: the proved library and %s differ in %s on this recording of %lu bytes:\n", who, what, (unsigned long)f->length);
    for (size_t i = 0; i < f->length && i < 4000; i++) printf("%02x%s", f->bytes[i], i % 24 == 23 ? "\n" : "");
    printf("\n");
    exit(1);
}

static void agree_on_check(const struct file *f, struct output *proved, struct output *plain, size_t room) {
    fill(proved, 0), fill(plain, 0);
    proved->number = pohandira_check(f->bytes, f->length, proved->small, room);
    plain->number = plain_check(f->bytes, f->length, plain->small, room);
    if (proved->number != plain->number) differ(f, "the number of a check", "plain C");
    if (memcmp(proved->small, plain->small, SMALL)) differ(f, "the answer of a check", "plain C");
}

static void agree_on_replay(const struct file *f, struct output *proved, struct output *plain, size_t used, size_t room,
                            size_t totals_room, int stepping) {
    replay_function *others[] = {plain_replay, plain_words_replay, stepping_replay};
    const char *names[] = {"plain C", "plain C by words", "stepping C"};
    fill(proved, used);
    proved->number = pohandira_replay(f->bytes, f->length, proved->records, room, proved->small, totals_room);
    for (int i = 0; i < (stepping ? 3 : 2); i++) {
        fill(plain, used);
        plain->number = others[i](f->bytes, f->length, plain->records, room, plain->small, totals_room);
        if (proved->number != plain->number) differ(f, "the number", names[i]);
        if (memcmp(proved->small, plain->small, SMALL)) differ(f, "the totals", names[i]);
        if (memcmp(proved->records, plain->records, used)) differ(f, "the records", names[i]);
    }
}

enum { REPORT = POHANDIRA_REPORT_BYTES + 64, KINDS = 4 };

/*
 * Numbers to start from: an empty report, one far from the limit, one in which each number may pass it, and one in which one number
 * may. A recording adds less than 2 to the 30 to a number.
 */
static void start_report(uint8_t *report) {
    uint32_t kind = below(KINDS), full = below(POHANDIRA_REPORT_NUMBERS);
    for (uint32_t k = 0; k < POHANDIRA_REPORT_NUMBERS; k++) {
        uint64_t number = kind == 0 ? 0 : random64() >> 1;
        if (kind == 2 || (kind == 3 && k == full)) number = UINT64_MAX - (random64() >> (33 + below(31)));
        for (uint32_t i = 0; i < 8; i++) report[8 * k + i] = (uint8_t)(number >> (56 - 8 * i));
    }
    memset(report + POHANDIRA_REPORT_BYTES, 0x5a, REPORT - POHANDIRA_REPORT_BYTES);
}

/* The refusal number of the library. */
static unsigned agree_on_season(const struct file *f, size_t room, int stepping) {
    season_function *others[] = {plain_season, plain_words_season, stepping_season};
    const char *names[] = {"plain C", "plain C by words", "stepping C"};
    uint8_t start[REPORT], proved[REPORT], plain[REPORT];
    start_report(start);
    memcpy(proved, start, REPORT);
    unsigned number = pohandira_season(f->bytes, f->length, proved, room);
    for (int i = 0; i < (stepping ? 3 : 2); i++) {
        memcpy(plain, start, REPORT);
        if (number != others[i](f->bytes, f->length, plain, room)) differ(f, "the number of the season totals", names[i]);
        if (memcmp(proved, plain, REPORT)) differ(f, "the season totals", names[i]);
    }
    return number;
}

static void print_numbers(const uint32_t numbers[MOST_NUMBER + 1]) {
    for (int n = 1; n <= MOST_NUMBER; n++)
        if (numbers[n]) printf(" %d: %u", n, numbers[n]);
    printf("\n");
}

static struct plan random_plan(int *stepping) {
    struct plan p = {between(1, 16), between(1, 16), below(8), between(1, 1000), between(1, 60), 1, 1, one_in(2)};
    *stepping = 1;
    switch (below(8)) {
    case 0: p.least_hold = 1, p.most_hold = 1000000, *stepping = 0; break;
    case 1: p.rows = between(990, 1010), p.least_hold = 995000, p.most_hold = 1000000, *stepping = 0; break;
    case 2: p.rows = between(1, 2048); break;
    default: p.most_hold = between(1, 50);
    }
    return p;
}

static int agree(uint32_t count) {
    struct file f = {allocated(POHANDIRA_MOST_BYTES + 64), 0};
    struct output proved = {0, allocated(OUTPUT), {0}}, plain = {0, allocated(OUTPUT), {0}};
    uint32_t numbers[MOST_NUMBER + 1] = {0}, seasons[MOST_NUMBER + 1] = {0};
    for (uint32_t i = 0; i < count; i++) {
        int stepping;
        struct plan p = random_plan(&stepping);
        size_t ample = (size_t)24 * p.effects * p.rows, used = ample + 64;
        make(&f, &p);
        if (one_in(3)) damage(&f, &p), stepping = 0;
        agree_on_check(&f, &proved, &plain, one_in(4) ? below(24) : between(24, SMALL));
        agree_on_replay(&f, &proved, &plain, used, ample, between(56, SMALL), stepping);
        numbers[proved.number]++;
        size_t records = 12 * (size_t)pohandira_field(proved.small, POHANDIRA_RECORDS);
        agree_on_replay(&f, &proved, &plain, used, records, 56, 0); /* just enough */
        if (records) agree_on_replay(&f, &proved, &plain, used, records - 1, 56, 0);
        agree_on_replay(&f, &proved, &plain, used, below((uint32_t)used), below(SMALL), 0);
        size_t room = one_in(8) ? below(POHANDIRA_REPORT_BYTES) : between(POHANDIRA_REPORT_BYTES, REPORT);
        seasons[agree_on_season(&f, room, stepping)]++;
    }
    printf("table: %u random recordings, all equal: %u replayed, refused by", count, numbers[0]);
    print_numbers(numbers);
    printf("table: season totals, all equal: %u added, refused by", seasons[0]);
    print_numbers(seasons);
    return 0;
}

/* ---- Figures ---- */

enum { FILES = 8, ROUNDS = 101, STEPPED_ROWS = 2, STEPPED_ROUNDS = 3 };

static uint8_t *records, numbers[SMALL], report[POHANDIRA_REPORT_BYTES];

static double now(void) {
    struct timespec time;
    clock_gettime(CLOCK_MONOTONIC, &time);
    return (double)time.tv_sec * 1e9 + (double)time.tv_nsec;
}

/* One thing that is timed over a set of recordings: a check, season totals or a replay. */
struct side {
    check_function *check;
    season_function *season;
    replay_function *replay;
    uint32_t repeats;             /* in each round */
    double rounds[ROUNDS], least; /* nanoseconds a row */
};

static double pass(const struct side *s, const struct file *files, uint32_t repeats) {
    double start = now();
    for (uint32_t n = 0; n < repeats; n++)
        for (int i = 0; i < FILES; i++) {
            if (s->check) s->check(files[i].bytes, files[i].length, numbers, POHANDIRA_CHECK_BYTES);
            else if (s->season) s->season(files[i].bytes, files[i].length, report, POHANDIRA_REPORT_BYTES);
            else s->replay(files[i].bytes, files[i].length, records, MOST_ROOM, numbers, POHANDIRA_TOTALS_BYTES);
        }
    return now() - start;
}

static int order(const void *left, const void *right) {
    double a = *(const double *)left, b = *(const double *)right;
    return (a > b) - (a < b);
}

/* Times all sides in turn, in a turned order each round; a pass is long enough for the clock, and short, to pass undisturbed. */
static void measure(struct side *sides, int count, const struct file *files, uint32_t rows) {
    const double enough = 4e5;
    for (int i = 0; i < count; i++) {
        pass(&sides[i], files, 1); /* warms up */
        sides[i].repeats = (uint32_t)(enough / pass(&sides[i], files, 1)) + 1;
        sides[i].least = 1e300;
    }
    for (int round = 0; round < ROUNDS; round++)
        for (int k = 0; k < count; k++) {
            struct side *s = &sides[(k + round) % count];
            double took = pass(s, files, s->repeats) / s->repeats / FILES / rows;
            s->rounds[round] = took;
            if (took < s->least) s->least = took;
        }
}

/* The ratio of the least times, and the least, median and greatest ratio of a round. */
static void print_ratio(const struct side *proved, const struct side *plain) {
    double ratios[ROUNDS];
    for (int i = 0; i < ROUNDS; i++) ratios[i] = proved->rounds[i] / plain->rounds[i];
    qsort(ratios, ROUNDS, sizeof ratios[0], order);
    printf(" **%.2f** | %.2f, %.2f, %.2f |", proved->least / plain->least, ratios[0], ratios[ROUNDS / 2], ratios[ROUNDS - 1]);
}

/* Recordings of one line: the same words for the same seed, whatever the holds. All options occur. */
static void make_files(struct file *files, uint64_t with_seed, uint32_t effects, uint32_t rows, uint32_t least, uint32_t most) {
    for (uint32_t i = 0; i < FILES; i++) {
        struct plan p = {effects == 1 ? 4 : effects == 4 ? 8 : 16, effects, i, 100, rows, least, most, 0};
        seed = with_seed + 1000 * i + effects;
        make(&files[i], &p);
    }
}

static double records_a_row(const struct file *files, uint32_t rows) {
    uint64_t sum = 0;
    for (int i = 0; i < FILES; i++) {
        if (pohandira_replay(files[i].bytes, files[i].length, records, MOST_ROOM, numbers, POHANDIRA_TOTALS_BYTES)) exit(1);
        sum += pohandira_field(numbers, POHANDIRA_RECORDS);
    }
    return (double)sum / FILES / rows;
}

static void check_line(const struct file *files, uint32_t effects, uint32_t rows) {
    struct side sides[] = {{.check = pohandira_check}, {.check = plain_check}};
    measure(sides, 2, files, rows);
    printf("| %u | %.1f | %.1f |", effects, sides[0].least, sides[1].least);
    print_ratio(&sides[0], &sides[1]);
    printf("\n");
}

static void replay_line(const char *name, const struct file *files, uint32_t effects, uint32_t rows) {
    struct side sides[] = {{.replay = pohandira_replay}, {.replay = plain_replay}, {.replay = plain_words_replay},
                           {.check = pohandira_check}, {.check = plain_check}};
    measure(sides, 5, files, rows);
    printf("| %s | %u | %.2f | %.1f | %.1f | %.1f |", name, effects, records_a_row(files, rows), sides[0].least, sides[1].least,
           sides[2].least);
    print_ratio(&sides[0], sides[1].least < sides[2].least ? &sides[1] : &sides[2]);
    printf(" %.1f, %.1f |\n", sides[3].least, sides[4].least);
}

/* Season totals beside a replay of the same recordings. The report starts empty and takes what all rounds add. */
static void season_line(const char *name, const struct file *files, uint32_t effects, uint32_t rows) {
    struct side sides[] = {{.season = pohandira_season}, {.replay = pohandira_replay}, {.season = plain_season},
                           {.season = plain_words_season}};
    memset(report, 0, sizeof report);
    measure(sides, 4, files, rows);
    printf("| %s | %u | %.1f | %.1f |", name, effects, sides[0].least, sides[1].least);
    print_ratio(&sides[0], &sides[1]);
    printf(" %.1f | %.1f |", sides[2].least, sides[3].least);
    print_ratio(&sides[0], sides[2].least < sides[3].least ? &sides[2] : &sides[3]);
    printf("\n");
}

/* A hold of 1,000,000 by single scans, over few rows and in few rounds. */
static void stepping_line(struct file *files, uint64_t with_seed, uint32_t effects) {
    struct side proved = {.replay = pohandira_replay}, stepping = {.replay = stepping_replay};
    make_files(files, with_seed, effects, STEPPED_ROWS, 1000000, 1000000);
    measure(&proved, 1, files, STEPPED_ROWS);
    double least = 1e300;
    for (int round = 0; round < STEPPED_ROUNDS; round++) {
        double took = pass(&stepping, files, 1) / FILES / STEPPED_ROWS;
        if (took < least) least = took;
    }
    printf("| %u | %.1f | %.0f | %.0f |\n", effects, proved.least, least, least / proved.least);
}

static int measure_all(uint64_t with_seed) {
    static const struct {
        const char *name;
        uint32_t least, most;
    } holds[] = {{"1", 1, 1}, {"1 to 50", 1, 50}, {"1,000,000", 1000000, 1000000}};
    static const uint32_t effects[] = {1, 4, 16}, grown[] = {128, 512, 2048}, held[] = {1, 1000, 1000000};
    struct file files[FILES];
    char name[32];
    for (int i = 0; i < FILES; i++) files[i].bytes = allocated(POHANDIRA_MOST_BYTES + 64);
    records = allocated(MOST_ROOM);

    printf("Reading and checking, 512 rows, ns a row:\n\n");
    printf("| effects | proved | plain C | ratio | of rounds: least, median, most |\n|---|---|---|---|---|\n");
    for (int e = 0; e < 3; e++) {
        make_files(files, with_seed, effects[e], 512, 1, 50);
        check_line(files, effects[e], 512);
    }
    const char *head = "| effects | records a row | proved | plain C | by words | ratio | of rounds: least, median, most | "
                       "of it reading: proved, C |\n|---|---|---|---|---|---|---|---|---|\n";
    printf("\nReplaying, 512 rows, ns a row, reading included:\n\n| hold %s", head);
    for (int h = 0; h < 3; h++)
        for (int e = 0; e < 3; e++) {
            make_files(files, with_seed, effects[e], 512, holds[h].least, holds[h].most);
            replay_line(holds[h].name, files, effects[e], 512);
        }
    printf("\nGrowth with the rows, holds of 1 to 50, ns a row:\n\n| rows %s", head);
    for (int i = 0; i < 3; i++) {
        make_files(files, with_seed, 16, grown[i], 1, 50);
        snprintf(name, sizeof name, "%u", grown[i]);
        replay_line(name, files, 16, grown[i]);
    }
    printf("\nGrowth with the hold, the same words, 512 rows, ns a row:\n\n| hold %s", head);
    for (int i = 0; i < 3; i++) {
        make_files(files, with_seed, 16, 512, held[i], held[i]);
        snprintf(name, sizeof name, "%u", held[i]);
        replay_line(name, files, 16, 512);
    }
    printf("\nSeason totals, the same words whatever the hold, 512 rows, ns a row, reading included:\n\n");
    printf("| hold | effects | proved | proved replay | ratio to it | of rounds: least, median, most | plain C | by words | ratio to C | "
           "of rounds: least, median, most |\n|---|---|---|---|---|---|---|---|---|---|\n");
    for (int e = 0; e < 3; e++)
        for (int i = 0; i < 3; i++) {
            make_files(files, with_seed, effects[e], 512, held[i], held[i]);
            snprintf(name, sizeof name, "%u", held[i]);
            season_line(name, files, effects[e], 512);
        }
    printf("\nA hold of 1,000,000 beside stepping through it in C, 2 rows, ns a row:\n\n");
    printf("| effects | proved | stepping | times faster |\n|---|---|---|---|\n");
    for (int e = 0; e < 3; e++) stepping_line(files, with_seed, effects[e]);
    return 0;
}

int main(int count, char **words) {
    if (count == 4 && !strcmp(words[1], "agree")) {
        seed = strtoul(words[2], NULL, 10);
        return agree((uint32_t)strtoul(words[3], NULL, 10));
    }
    if (count == 3 && !strcmp(words[1], "measure")) return measure_all(strtoul(words[2], NULL, 10));
    fprintf(stderr, "usage: table agree SEED COUNT | table measure SEED\n");
    return 2;
}
