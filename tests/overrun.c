/* SAFE-1, CALL-3, CALL-5: calls that are wrong on purpose: the library's, with a fault before or after. tests/calls.c must notice each. */
#include "calls.h"
#include "marehour.h"
#include <string.h>

static const struct fault *active;
static uint8_t content[MAREHOUR_DAY_DEMANDS * MAREHOUR_DAY_FIGURES * sizeof(uint64_t)]; /* of the buffer, before the call */

static void read_byte(const uint8_t *byte)
{
    (void)*(const volatile uint8_t *)byte;
}

static void change_byte(uint8_t *byte)
{
    *(volatile uint8_t *)byte ^= 1;
}

static size_t kept(const struct lent *lent)
{
    return lent->answer_length < sizeof content ? lent->answer_length : sizeof content;
}

static void nothing_before(const struct lent *lent)
{
    (void)lent;
}

static int32_t nothing_after(int32_t result, size_t written, const struct lent *lent)
{
    (void)written, (void)lent;
    return result;
}

static void read_before_line(const struct lent *lent)
{
    read_byte(lent->line - 1);
}

static void read_past_line(const struct lent *lent)
{
    read_byte(lent->line + lent->line_length);
}

static void write_line(const struct lent *lent)
{
    if (lent->line_length > 0) {
        change_byte((uint8_t *)lent->line);
    }
}

static void read_before_demands(const struct lent *lent)
{
    read_byte(lent->demands - 1);
}

static void read_past_demands(const struct lent *lent)
{
    read_byte(lent->demands + lent->demands_length);
}

static void write_demands(const struct lent *lent)
{
    if (lent->demands_length > 0) {
        change_byte((uint8_t *)lent->demands);
    }
}

static void write_before_buffer(const struct lent *lent)
{
    change_byte(lent->answer - 1);
}

static void write_past_buffer(const struct lent *lent)
{
    change_byte(lent->answer + lent->answer_length);
}

static int32_t write_and_refuse(int32_t result, size_t written, const struct lent *lent)
{
    (void)written;
    if (result < 0 && lent->answer_length > 0) {
        change_byte(lent->answer);
    }
    return result;
}

static int32_t write_past_count(int32_t result, size_t written, const struct lent *lent)
{
    if (result > 0 && written < lent->answer_length) {
        change_byte(lent->answer + written);
    }
    return result;
}

static int32_t count_one_more(int32_t result, size_t written, const struct lent *lent)
{
    (void)written, (void)lent;
    return result > 0 ? result + 1 : result;
}

static void keep_content(const struct lent *lent)
{
    memcpy(content, lent->answer, kept(lent));
}

static int32_t write_nothing(int32_t result, size_t written, const struct lent *lent)
{
    (void)written;
    if (result > 0) {
        memcpy(lent->answer, content, kept(lent));
    }
    return result;
}

const struct fault line_faults[] = {
    {"reads a byte past the line", read_past_line, nothing_after, DIED_PAST_THE_LINE},
    {"reads a byte before the line", read_before_line, nothing_after, DIED_BEFORE_THE_LINE},
    {"writes into the line", write_line, nothing_after, DIED_IN_THE_LINE},
};
const size_t line_fault_count = sizeof line_faults / sizeof line_faults[0];

const struct fault buffer_faults[] = {
    {"writes a byte past the buffer", write_past_buffer, nothing_after, DIED_PAST_THE_BUFFER},
    {"writes a byte before the buffer", write_before_buffer, nothing_after, DIED_BEFORE_THE_BUFFER},
    {"writes a byte and refuses", nothing_before, write_and_refuse, DIFFERED},
    {"changes a byte past its count", nothing_before, write_past_count, DIFFERED},
    {"counts one that it did not write", nothing_before, count_one_more, DIFFERED},
    {"counts what it wrote and writes nothing", keep_content, write_nothing, DIFFERED},
};
const size_t buffer_fault_count = sizeof buffer_faults / sizeof buffer_faults[0];

const struct fault demand_faults[] = {
    {"reads a byte past the demands", read_past_demands, nothing_after, DIED_PAST_THE_DEMANDS},
    {"reads a byte before the demands", read_before_demands, nothing_after, DIED_BEFORE_THE_DEMANDS},
    {"writes into the demands", write_demands, nothing_after, DIED_IN_THE_DEMANDS},
};
const size_t demand_fault_count = sizeof demand_faults / sizeof demand_faults[0];

const struct fault one_too_much = {"answers one too much", nothing_before, count_one_more, DIFFERED};

/* How many bytes a call wrote, each of what it counts having so many. */
static size_t bytes_written(int32_t result, size_t each)
{
    return result > 0 ? (size_t)result * each : 0;
}

static int32_t faulty_answer(const uint8_t *line, size_t line_length, uint8_t *answer, size_t answer_length)
{
    struct lent lent = {line, line_length, NULL, 0, answer, answer_length};
    active->before(&lent);
    int32_t result = marehour_answer(line, line_length, answer, answer_length);
    return active->after(result, bytes_written(result, 1), &lent);
}

static int32_t faulty_lanes(const uint8_t *line, size_t line_length, uint32_t letter, uint8_t *answer, size_t answer_length)
{
    struct lent lent = {line, line_length, NULL, 0, answer, answer_length};
    active->before(&lent);
    int32_t result = marehour_lanes(line, line_length, letter, answer, answer_length);
    return active->after(result, bytes_written(result, 1), &lent);
}

static int32_t faulty_day(const uint8_t *line, size_t line_length, const uint64_t *demands, size_t demand_count, uint64_t *answers,
                          size_t answers_length)
{
    struct lent lent = {
        line, line_length, (const uint8_t *)demands, demand_count * sizeof *demands, (uint8_t *)answers, answers_length * sizeof *answers};
    active->before(&lent);
    int32_t result = marehour_day(line, line_length, demands, demand_count, answers, answers_length);
    return active->after(result, bytes_written(result, MAREHOUR_DAY_FIGURES * sizeof *answers), &lent);
}

static int32_t faulty_daily(const uint8_t *line, size_t line_length, uint64_t daily_traffic, uint32_t peak_share, uint32_t direction_share,
                            uint64_t *figures, size_t figures_length)
{
    struct lent lent = {line, line_length, NULL, 0, (uint8_t *)figures, figures_length * sizeof *figures};
    active->before(&lent);
    int32_t result = marehour_daily(line, line_length, daily_traffic, peak_share, direction_share, figures, figures_length);
    return active->after(result, bytes_written(result, sizeof *figures), &lent);
}

static int32_t faulty_forecast(const uint8_t *line, size_t line_length, uint64_t demand_low, uint64_t demand_high, uint64_t share_low,
                               uint64_t share_high, uint64_t factor_low, uint64_t factor_high, uint64_t *figures, size_t figures_length)
{
    struct lent lent = {line, line_length, NULL, 0, (uint8_t *)figures, figures_length * sizeof *figures};
    active->before(&lent);
    int32_t result = marehour_forecast(line, line_length, demand_low, demand_high, share_low, share_high, factor_low, factor_high, figures,
                                       figures_length);
    return active->after(result, bytes_written(result, sizeof *figures), &lent);
}

static int32_t faulty_tries(const uint8_t *line, size_t line_length)
{
    struct lent lent = {line, line_length, NULL, 0, NULL, 0};
    active->before(&lent);
    return active->after(marehour_tries(line, line_length), 0, &lent);
}

static int32_t faulty_survey_mph(float speed, uint32_t cars, uint32_t flow)
{
    struct lent none = {NULL, 0, NULL, 0, NULL, 0};
    return active->after(marehour_survey_mph(speed, cars, flow), 0, &none);
}

static int32_t faulty_survey_kmh(float speed, uint32_t cars, uint32_t flow)
{
    struct lent none = {NULL, 0, NULL, 0, NULL, 0};
    return active->after(marehour_survey_kmh(speed, cars, flow), 0, &none);
}

struct calls faulty_calls(const struct fault *fault)
{
    active = fault;
    return (struct calls){faulty_answer,   faulty_lanes, faulty_day,        faulty_daily,
                          faulty_forecast, faulty_tries, faulty_survey_mph, faulty_survey_kmh};
}
