/* The engine in plain C, for comparison: the same answers by the same searches as the proved one. Results as in include/marehour.h. */
#ifndef SECTION_H
#define SECTION_H

#include <stddef.h>
#include <stdint.h>

enum { LONGEST_ANSWER = 64, DAY_DEMANDS = 24, DAY_FIGURES = 12, DAILY_FIGURES = 16, FORECAST_FIGURES = 8 };

int32_t plain_answer(const uint8_t *line, size_t line_length, uint8_t *answer, size_t answer_length);
int32_t plain_day(const uint8_t *line, size_t line_length, const uint64_t *demands, size_t demand_count, uint64_t *answers,
                  size_t answers_length);
int32_t plain_daily(const uint8_t *line, size_t line_length, uint64_t daily_traffic, uint32_t peak_share, uint32_t direction_share,
                    uint64_t *figures, size_t figures_length);
int32_t plain_forecast(const uint8_t *line, size_t line_length, uint64_t demand_low, uint64_t demand_high, uint64_t share_low,
                       uint64_t share_high, uint64_t factor_low, uint64_t factor_high, uint64_t *figures, size_t figures_length);
int32_t plain_lanes(const uint8_t *line, size_t line_length, uint32_t letter, uint8_t *answer, size_t answer_length);

#endif
