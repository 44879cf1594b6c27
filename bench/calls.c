/* Times the calls of include/marehour.h against the same calls in plain C: calls LINES RUNS, on the lines of a file, in memory.

   First every result and every answer of the two is compared. Then both go through all lines in turn, RUNS times; printed is the processor
   time a call of the best. */
#include "lines.h"
#include "marehour.h"
#include "section.h"
#include <stdio.h>
#include <stdlib.h>
#include <string.h>

/* Room for what any call timed here writes. */
union answer {
    uint8_t text[LONGEST_ANSWER];
    uint64_t figures[DAILY_FIGURES];
};

/* The same question to the library or to plain C about a line, whose place chooses the letter, the daily traffic or the forecast. */
typedef int32_t call(const struct line *line, size_t place, union answer *answer);

/* marehour_forecast, or the same in plain C. */
typedef int32_t forecast(const uint8_t *line, size_t line_length, uint64_t demand_low, uint64_t demand_high, uint64_t share_low,
                         uint64_t share_high, uint64_t factor_low, uint64_t factor_high, uint64_t *figures, size_t figures_length);

static struct lines lines;

static int32_t marehour_answers(const struct line *line, size_t place, union answer *answer)
{
    (void)place;
    return marehour_answer(line->bytes, line->length, answer->text, LONGEST_ANSWER);
}

static int32_t plain_answers(const struct line *line, size_t place, union answer *answer)
{
    (void)place;
    return plain_answer(line->bytes, line->length, answer->text, LONGEST_ANSWER);
}

/* The letters take turns. */
static uint32_t letter_at(size_t place)
{
    return 1 + (uint32_t)(place % 5);
}

static int32_t marehour_counts(const struct line *line, size_t place, union answer *answer)
{
    return marehour_lanes(line->bytes, line->length, letter_at(place), answer->text, LONGEST_ANSWER);
}

static int32_t plain_counts(const struct line *line, size_t place, union answer *answer)
{
    return plain_lanes(line->bytes, line->length, letter_at(place), answer->text, LONGEST_ANSWER);
}

/* Daily traffics from 0 to 149,999; urban and rural roads take turns. */
static uint64_t traffic_at(size_t place)
{
    return place * 7919 % 150000;
}

static uint32_t peak_share_at(size_t place)
{
    return place % 2 == 0 ? 90 : 110;
}

static int32_t marehour_dailies(const struct line *line, size_t place, union answer *answer)
{
    return marehour_daily(line->bytes, line->length, traffic_at(place), peak_share_at(place), 550, answer->figures, DAILY_FIGURES);
}

static int32_t plain_dailies(const struct line *line, size_t place, union answer *answer)
{
    return plain_daily(line->bytes, line->length, traffic_at(place), peak_share_at(place), 550, answer->figures, DAILY_FIGURES);
}

/* Demands from 0 to 9,999 on, up to 700 wide, heavy shares from 0 to 99 on, factors up to 895 or more. Some are refused by 22 or 7 to 9. */
static int32_t ask_forecast(forecast *asked, const struct line *line, size_t place, union answer *answer)
{
    uint64_t demand = place * 7919 % 10000, width = place % 1000 == 999 ? 1000000 : place % 701;
    return asked(line->bytes, line->length, demand, demand + width, place % 100, 95 + place % 911, 245 + place % 653, 895 + place % 109,
                 answer->figures, FORECAST_FIGURES);
}

static int32_t marehour_forecasts(const struct line *line, size_t place, union answer *answer)
{
    return ask_forecast(marehour_forecast, line, place, answer);
}

static int32_t plain_forecasts(const struct line *line, size_t place, union answer *answer)
{
    return ask_forecast(plain_forecast, line, place, answer);
}

static void compare(call *one, call *other)
{
    union answer answer, expected;
    memset(&answer, 0, sizeof answer);
    memset(&expected, 0, sizeof expected);
    for (size_t i = 0; i < lines.count; i++) {
        int32_t result = one(&lines.all[i], i, &answer);
        if (result != other(&lines.all[i], i, &expected) || memcmp(&answer, &expected, sizeof answer) != 0) {
            give_up("the library and plain C differ");
        }
    }
}

/* Nanoseconds a call, over all lines once. */
static double timed(call *asked)
{
    union answer answer;
    double start = now();
    for (size_t i = 0; i < lines.count; i++) {
        asked(&lines.all[i], i, &answer);
    }
    return (now() - start) / (double)lines.count;
}

static void race(const char *name, call *marehour, call *plain, long runs)
{
    double best[2] = {0, 0};
    compare(marehour, plain);
    for (long i = 0; i < runs; i++) {
        double taken[2] = {timed(marehour), timed(plain)};
        for (int p = 0; p < 2; p++) {
            best[p] = i == 0 || taken[p] < best[p] ? taken[p] : best[p];
        }
    }
    printf("%-24s %10.0f %14.0f %8.2f\n", name, best[0], best[1], best[1] / best[0]);
}

int main(int argc, char **argv)
{
    if (argc != 3) {
        give_up("usage: calls LINES RUNS");
    }
    lines = read_lines(argv[1]);
    long runs = strtol(argv[2], NULL, 10);
    printf("%-24s %10s %14s %8s\n", "call", "ns", "plain C, ns", "ratio");
    race("marehour_answer", marehour_answers, plain_answers, runs);
    race("marehour_lanes", marehour_counts, plain_counts, runs);
    race("marehour_daily", marehour_dailies, plain_dailies, runs);
    race("marehour_forecast", marehour_forecasts, plain_forecasts, runs);
    return 0;
}
