/* Times a day of 24 demands, in one call, beside 24 single calls and beside the same call in plain C: days LINES RUNS, on the first lines
   of a file, in memory. The demands are shares of the line's own.

   First every number that the day writes is compared with plain C's and with the single calls'. Then the three go through all days in
   turn, RUNS times; printed is the processor time a day of the best. */
#include "lines.h"
#include "marehour.h"
#include "section.h"
#include <stdio.h>
#include <stdlib.h>
#include <string.h>

enum { MOST_DAYS = 20000, NUMBERS = DAY_DEMANDS * DAY_FIGURES, DEMAND_FIELD = 9, LONGEST_LINE = 80, WAYS = 3 };

/* A made-up day: hundredths of the line's own demand. */
static const uint64_t shares[DAY_DEMANDS] = {15, 10, 8,  8,  12, 30,  60, 95, 100, 80, 70, 68,
                                             70, 72, 75, 80, 95, 100, 85, 60, 45,  35, 28, 20};

/* A road with its demands, and the lines of the single calls. */
struct day {
    struct line road;
    uint64_t demands[DAY_DEMANDS];
    struct line singles[DAY_DEMANDS];
};

static struct day *days;
static size_t count;

/* One way to get the answers of a day. */
typedef void way(const struct day *day);

static uint64_t answers[NUMBERS];
static uint8_t texts[DAY_DEMANDS][LONGEST_ANSWER];
static int32_t results[DAY_DEMANDS];

static void one_call(const struct day *day)
{
    results[0] = marehour_day(day->road.bytes, day->road.length, day->demands, DAY_DEMANDS, answers, NUMBERS);
}

static void plain_call(const struct day *day)
{
    results[0] = plain_day(day->road.bytes, day->road.length, day->demands, DAY_DEMANDS, answers, NUMBERS);
}

static void single_calls(const struct day *day)
{
    for (int i = 0; i < DAY_DEMANDS; i++) {
        results[i] = marehour_answer(day->singles[i].bytes, day->singles[i].length, texts[i], LONGEST_ANSWER);
    }
}

/* Days */

/* Where the demand's field begins; NULL where the line has too few fields. */
static const uint8_t *demand_field(const struct line *line)
{
    const uint8_t *at = line->bytes, *end = line->bytes + line->length;
    for (int i = 0; at != NULL && i < DEMAND_FIELD; i++) {
        at = memchr(at, '\t', (size_t)(end - at));
        at = at == NULL ? NULL : at + 1;
    }
    return at;
}

static struct line with_demand(const struct line *line, const uint8_t *field, const char *rest, uint64_t demand)
{
    uint8_t *bytes = room_for(LONGEST_LINE + 1, 1);
    int before = (int)(field - line->bytes), behind = (int)(line->bytes + line->length - (const uint8_t *)rest);
    int length = snprintf((char *)bytes, LONGEST_LINE + 1, "%.*s%llu%.*s", before, (const char *)line->bytes, (unsigned long long)demand,
                          behind, rest);
    return (struct line){bytes, (size_t)length};
}

static void make_day(const struct line *line)
{
    const uint8_t *field = demand_field(line);
    if (field == NULL || line->length > LONGEST_LINE - 5) {
        return;
    }
    struct day *day = &days[count++];
    char *rest;
    uint64_t demand = strtoull((const char *)field, &rest, 10);
    day->road = *line;
    for (int i = 0; i < DAY_DEMANDS; i++) {
        day->demands[i] = demand * shares[i] / 100;
        day->singles[i] = with_demand(line, field, rest, day->demands[i]);
    }
}

/* Comparing */

/* The numbers of a position from a single call's result and text. */
static void figures_of(int32_t result, const uint8_t *text, uint64_t *figures)
{
    memset(figures, 0, DAY_FIGURES * sizeof *figures);
    if (result < 0) {
        figures[0] = (uint64_t)-result;
        return;
    }
    char *at = (char *)text + 1;
    figures[1] = (uint64_t)(text[0] - 'A') + 1;
    for (int i = 2; i < DAY_FIGURES; i++) {
        figures[i] = strtoull(at, &at, 10);
    }
}

static void compare(const struct day *day)
{
    uint64_t written[NUMBERS], figures[DAY_FIGURES];
    one_call(day);
    int32_t result = results[0];
    memcpy(written, answers, sizeof written);
    plain_call(day);
    if (result != results[0] || memcmp(written, answers, sizeof written) != 0) {
        give_up("the library's day and plain C's differ");
    }
    if (result < 0) {
        return;
    }
    single_calls(day);
    for (int i = 0; i < DAY_DEMANDS; i++) {
        figures_of(results[i], texts[i], figures);
        if (memcmp(written + DAY_FIGURES * i, figures, sizeof figures) != 0) {
            give_up("a day and a single call differ");
        }
    }
}

/* Nanoseconds a day, over all days once. */
static double timed(way *asked)
{
    double start = now();
    for (size_t i = 0; i < count; i++) {
        asked(&days[i]);
    }
    return (now() - start) / (double)count;
}

static void race(long runs)
{
    way *ways[WAYS] = {one_call, single_calls, plain_call};
    double best[WAYS] = {0};
    for (long i = 0; i < runs; i++) {
        for (int w = 0; w < WAYS; w++) {
            double taken = timed(ways[w]);
            best[w] = i == 0 || taken < best[w] ? taken : best[w];
        }
    }
    printf("%-24s %10s %14s %8s\n", "24 demands on one road", "ns", "others, ns", "ratio");
    printf("%-24s %10.0f\n", "marehour_day", best[0]);
    printf("%-24s %25.0f %8.2f\n", "24 x marehour_answer", best[1], best[1] / best[0]);
    printf("%-24s %25.0f %8.2f\n", "plain C, one call", best[2], best[2] / best[0]);
}

int main(int argc, char **argv)
{
    if (argc != 3) {
        give_up("usage: days LINES RUNS");
    }
    struct lines lines = read_lines(argv[1]);
    days = room_for(MOST_DAYS, sizeof *days);
    for (size_t i = 0; i < lines.count && count < MOST_DAYS; i++) {
        make_day(&lines.all[i]);
    }
    for (size_t i = 0; i < count; i++) {
        compare(&days[i]);
    }
    race(strtol(argv[2], NULL, 10));
    return 0;
}
