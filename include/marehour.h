/* marehour.h: level of service of freeways and multilane highways, for programs in C.

   Link with libmarehour.a (`make target/staticlib/libmarehour.a`).

   Each call once, over one line, with what it hands back and writes; CALL-1, VOLUME-2 and the like
   are the ids of the rules in docs/METHOD.md.

     static const char text[] = "F\tE\t75400\t110\t20\t0\tD\t24\t2\t2000\t920\t50\tR";
     const uint8_t *line = (const uint8_t *)text;
     const size_t length = sizeof text - 1;

     // letter, free-flow speed, capacity, flow rate, speed, density and service volumes A to E: 55,
     // the count of bytes written, of C 60782 230782 1196 60782 197 1117 1829 2642 3360 3858 and a
     // newline, tabs for the blanks
     uint8_t answer[MAREHOUR_ANSWER_SIZE];
     int32_t bytes = marehour_answer(line, length, answer, sizeof answer);

     // the least lane count that meets C: 2, the count of bytes written; "2" and a newline
     bytes = marehour_lanes(line, length, MAREHOUR_LETTER_C, answer, sizeof answer);

     // answers for up to 24 demands: 3, the count of answers; hours[0] is 0 for no refusal and
     // hours[1] 3 for C, hours[12] is 7 for a refusal, hours[24] is 0 and hours[25] 4 for D
     static const uint64_t demands[3] = {2000, 1000000, 2643};
     uint64_t hours[3 * MAREHOUR_DAY_FIGURES];
     int32_t answers = marehour_day(line, length, demands, 3, hours, 3 * MAREHOUR_DAY_FIGURES);

     // 53,373 vehicles a day, K 0.09 and D 0.55: 16; figures[0] is 3 for C, and from figures[11] on
     // are the daily service volumes A to E, 22565, 36949, 53373, 67878 and 77939
     uint64_t figures[MAREHOUR_DAILY_FIGURES];
     int32_t count = marehour_daily(line, length, 53373, 90, 550, figures,
                                    MAREHOUR_DAILY_FIGURES);

     // demand 1,000 to 4,000, heavy share 0 to 100, peak-hour factor 850 to 950: 8; A at best, with
     // 1000, 0 and 950, and F at worst, with 4000, 100 and 850: 1 1000 0 950 6 4000 100 850
     uint64_t letters[MAREHOUR_FORECAST_FIGURES];
     count = marehour_forecast(line, length, 1000, 4000, 0, 100, 850, 950, letters,
                               MAREHOUR_FORECAST_FIGURES);

     // how many demands halving tries for the service volumes: 67
     int32_t tries = marehour_tries(line, length);

     // a surveyed speed in thousandths of mi/h, of 100 cars at a flow rate of 999: 62137 and 60000
     int32_t speed = marehour_survey_kmh(100.0f, 100, 999);
     speed = marehour_survey_mph(60.0f, 100, 999);

     // what is refused: -15, for the line is malformed; answer stays as it is
     bytes = marehour_answer(line, 1, answer, sizeof answer);

   Results (CALL-3). Each call hands back one number: how much it wrote or what it found, which is
   above 0, or minus the number of a refusal. 0 is never handed back.

   Units (UNIT-1). Speeds are in thousandths of mi/h, capacities in hundredths of passenger cars per
   hour per lane, flow rates in passenger cars per hour per lane, densities in tenths of a passenger
   car per mile per lane, lengths in tenths of a foot, the peak-hour factor, the heavy share, the
   weather's factors and the shares of a daily traffic in thousandths, demands and service volumes
   in vehicles per hour, daily traffic and daily service volumes in vehicles per day.

   A line (LINE-1) describes one section: 13 or 15 fields parted by single tabs, without a newline
   at its end.

     1  kind: F freeway, M multilane highway
     2  E: the speed is the base speed, from which the free-flow speed is estimated; G: it is the
        free-flow speed itself, and fields 4 to 8 are checked and not used
     3  speed
     4  lane width
     5  right clearance; more than 60 counts as 60
     6  left clearance, likewise; used on kind M with median D only
     7  median: U undivided, D divided, T two-way left-turn lane
     8  ramps in six miles (kind F), access points per mile (kind M)
     9  lanes in one direction
    10  demand
    11  peak-hour factor
    12  heavy share
    13  terrain: L level, R rolling
    14  speed factor: what is left of the free-flow speed in snow or rain
    15  capacity factor: what is left of the capacity

   A line of 13 fields means 1,000 for both factors, clear weather; 14 fields are malformed
   (LINE-4). A number has one to five digits, the demand one to six; 0 begins one only as its one
   digit (LINE-2). What clearances take off a base speed is linear, tenth by tenth, between the
   entries of the manual's tables (FFS-9); what ramps take off is rounded to the nearest thousandth
   of mi/h (FFS-8).

   Older readers (LINE-7). A library whose greatest demand is 99,999 refuses a line with a demand of
   six digits with 15. Every other line it reads as this one does, if it takes fields 14 and 15. A
   demand above 99,999 that is handed over as a number, in a day, by a daily traffic or as an end of
   a forecast, meets 7 there.

   Memory (CALL-5, SAFE-1). Any bytes, numbers and floats may be passed, and memory of any length
   lent: no call overruns, wraps or fails to end. A call reads line[0] to line[line_length - 1] and
   demands[0] to demands[demand_count - 1], and nothing else, and keeps no pointer. It writes into
   answer[0] to answer[answer_length - 1] only, or into answers[0] to answers[answers_length - 1],
   or into figures[0] to figures[figures_length - 1]. A pointer may be NULL when its length is 0.
   What is lent for one call must not overlap; numbers must be aligned as uint64_t is. Text is not
   ended by a zero byte, neither the line nor the answer.

   Threads. The calls keep no state and share nothing: any number of threads may make them at once,
   each with its own buffer.
*/
#ifndef MAREHOUR_H
#define MAREHOUR_H

#include <stddef.h>
#include <stdint.h>

#ifdef __cplusplus
extern "C" {
#endif

/* The least length of an answer buffer. Every answer fits in it (TEXT-4). */
#define MAREHOUR_ANSWER_SIZE 64

/* The greatest demand, in vehicles per hour (REFUSAL-7). */
#define MAREHOUR_GREATEST_DEMAND 999999

/* The most demands of a day (DAY-1), and how many numbers each of its answers has (DAY-2). */
#define MAREHOUR_DAY_DEMANDS 24
#define MAREHOUR_DAY_FIGURES 12

/* How many numbers the answer for a daily traffic has (DAILY-3), and the greatest daily traffic
   (REFUSAL-21). */
#define MAREHOUR_DAILY_FIGURES 16
#define MAREHOUR_GREATEST_DAILY_TRAFFIC 4000000000

/* How many numbers the answer for a forecast has (FORECAST-3). */
#define MAREHOUR_FORECAST_FIGURES 8

/* The most that marehour_tries counts for any section (TRIES-3). */
#define MAREHOUR_MOST_TRIES 80

/* Numbers of the letters (LETTER-3): marehour_lanes takes A to E; marehour_day, marehour_daily and
   marehour_forecast answer A to F. */
enum {
    MAREHOUR_LETTER_A = 1,
    MAREHOUR_LETTER_B = 2,
    MAREHOUR_LETTER_C = 3,
    MAREHOUR_LETTER_D = 4,
    MAREHOUR_LETTER_E = 5,
    MAREHOUR_LETTER_F = 6
};

/* Refusals, REFUSAL-1 to REFUSAL-22. A call hands back minus the number. A number is never reused
   (ORDER-1). */
/* clang-format off */
enum {
    MAREHOUR_SPEED_OUT_OF_RANGE = 1,     /* speed not 30,000 to 90,000 */
    MAREHOUR_WIDTH_OUT_OF_RANGE = 2,     /* lane width not 100 to 200 */
    MAREHOUR_CLEARANCE_TOO_LARGE = 3,    /* right or left clearance above 400 */
    MAREHOUR_MEDIAN_UNFIT = 4,           /* median other than D on kind F */
    MAREHOUR_ACCESS_TOO_LARGE = 5,       /* ramps above 48 (F), access points above 200 (M) */
    MAREHOUR_LANES_NOT_OF_THE_KIND = 6,  /* lanes not 2 to 8 (F), not 2 to 3 (M) */
    MAREHOUR_DEMAND_TOO_LARGE = 7,       /* demand above MAREHOUR_GREATEST_DEMAND, which no line can
                                            hold: one of a day, the hourly demand of a daily
                                            traffic, or an end of a forecast demand */
    MAREHOUR_FACTOR_OUT_OF_RANGE = 8,    /* peak-hour factor, or an end of it, not 250 to 1,000 */
    MAREHOUR_SHARE_TOO_LARGE = 9,        /* heavy share, or an end of it, above 1,000 */
    MAREHOUR_SPEED_BELOW_LOWER_END = 10, /* free-flow speed F below 55,000 (F), 45,000 (M), or
                                            below 50,000 (F) after the speed factor */
    MAREHOUR_CARS_TOO_FEW = 11,          /* fewer than 100 cars counted */
    MAREHOUR_FLOW_TOO_LARGE = 12,        /* flow of 1,000 or more */
    MAREHOUR_SURVEYED_SPEED_OUT_OF_RANGE = 13, /* not a finite number, or rounded down not 30,000
                                                  to 90,000 */
    MAREHOUR_NO_LANE_COUNT = 14,         /* no lane count of the kind meets the letter */
    MAREHOUR_LINE_MALFORMED = 15,        /* not a line as above, or longer than 80 bytes */
    MAREHOUR_LETTER_UNKNOWN = 16,        /* letter number not 1 to 5 */
    MAREHOUR_BUFFER_TOO_SHORT = 17,      /* answer buffer under MAREHOUR_ANSWER_SIZE bytes; with a
                                            daily traffic, room for fewer than
                                            MAREHOUR_DAILY_FIGURES numbers, with a forecast for
                                            fewer than MAREHOUR_FORECAST_FIGURES */
    MAREHOUR_DAY_UNFIT = 18,             /* no demand, more than MAREHOUR_DAY_DEMANDS, or room for
                                            fewer answers than demands */
    MAREHOUR_WEATHER_UNFIT = 19,         /* speed or capacity factor not 500 to 1,000 (F), not 1,000
                                            (M) */
    MAREHOUR_SHARES_UNFIT = 20,          /* peak share or direction share not 1 to 1,000 */
    MAREHOUR_DAILY_TRAFFIC_TOO_LARGE = 21, /* daily traffic above MAREHOUR_GREATEST_DAILY_TRAFFIC */
    MAREHOUR_ENDS_REVERSED = 22          /* a low end of a forecast above its high end */
};
/* clang-format on */

int32_t marehour_answer(const uint8_t *line, size_t line_length, uint8_t *answer,
                        size_t answer_length);
/* CALL-1. Answers a section (ANSWER-1): 11 fields parted by tabs, and a newline (TEXT-2).

     letter A to F; free-flow speed; capacity; flow rate; speed; density; service volumes A to E

   A free-flow speed above 75,000 (kind F) or 70,000 (kind M) is taken as that end (FFS-10).
   Free-flow speed and capacity are those after the weather's factors: the speed times the speed
   factor, rounded down (WEATHER-2); the capacity worked from that speed, times the capacity factor,
   rounded down (WEATHER-3). Flow rate and density are rounded up (FLOW-2, CURVE-7), speed down
   (CURVE-6); the letter rests on the speed before it is rounded (LETTER-1). Up to capacity the
   speed on kind M is never above the manual's curve and less than 26 below it (ACCURACY-2). Above
   capacity the letter is F, and speed and density are 0 (LETTER-2). A service volume is the
   greatest demand from 0 to MAREHOUR_GREATEST_DEMAND that gets its letter or a better one
   (VOLUME-2).

   The result is the count of bytes written, newline included, at most MAREHOUR_ANSWER_SIZE; or
   minus the first of these refusals that holds, in this order (CALL-4, ORDER-2):

     17  answer_length under MAREHOUR_ANSWER_SIZE; the line is not read
     15  malformed line
     1 to 6, 8, 9, 19, 10  in this order

   Afterwards the first bytes of the buffer, as many as the result says, are the answer.
   What lies behind it is untouched; after a refusal all that was lent is.
*/

int32_t marehour_lanes(const uint8_t *line, size_t line_length, uint32_t letter, uint8_t *answer,
                       size_t answer_length);
/* CALL-2. Answers the least lane count, 2 to 8 on kind F and 2 to 3 on kind M, with which the
   section gets the letter or a better one, all other fields kept (LANES-1): one digit and a
   newline. The letter is given by its number, MAREHOUR_LETTER_A to MAREHOUR_LETTER_E; any number
   may be passed. With E the free-flow speed is estimated anew for each count. A count with which F
   is below its lower end (10), before the weather's factor or after it, is passed over, the
   section's own too (LANES-2): 10 is never the result.

   The result is 2, the count of bytes written; or minus the first of these refusals that holds, in
   this order (CALL-4, LANES-3):

     17  answer_length under MAREHOUR_ANSWER_SIZE; the line is not read
     15  malformed line
     16  letter number not 1 to 5
     1 to 6, 8, 9, 19  in this order; 6 looks at the section's own lanes
     14  no lane count meets the letter

   Afterwards the first two bytes of the buffer are the answer.
   What lies behind it is untouched; after a refusal all that was lent is.
*/

int32_t marehour_day(const uint8_t *line, size_t line_length, const uint64_t *demands,
                     size_t demand_count, uint64_t *answers, size_t answers_length);
/* CALL-7. Answers a section once for each demand, 1 to MAREHOUR_DAY_DEMANDS of them: position i,
   from 0 on, holds what marehour_answer answers for the same section with demands[i] (DAY-1). The
   line's own demand has to be well formed and is not used. Any numbers may be passed as demands.

   answers_length counts numbers. A position is MAREHOUR_DAY_FIGURES of them (DAY-2), from
   answers[MAREHOUR_DAY_FIGURES * i] on:

     the refusal's number, 0 for none; letter by its number, A to F; free-flow speed; capacity; flow
     rate; speed; density; service volumes A to E

   Where one of 1 to 9, 19 and 10 refuses the section with that demand, the number is the first that
   does, in this order, and the other eleven are 0. A demand above MAREHOUR_GREATEST_DEMAND gets 7,
   or one of 1 to 6 where that refuses the section; the other positions go on (DAY-3).

   The result is the count of answers written, which is demand_count; or minus the first of these
   refusals that holds, in this order (CALL-4):

     18  no demand, more than MAREHOUR_DAY_DEMANDS, or answers_length under MAREHOUR_DAY_FIGURES
         times demand_count; the line is not read
     15  malformed line

   Afterwards the first MAREHOUR_DAY_FIGURES times demand_count numbers are the answers.
   What lies behind it is untouched; after a refusal all that was lent is.
*/

int32_t marehour_daily(const uint8_t *line, size_t line_length, uint64_t daily_traffic,
                       uint32_t peak_share, uint32_t direction_share, uint64_t *figures,
                       size_t figures_length);
/* CALL-8. Answers a section for a daily traffic of both directions, by the hourly demand of the
   busier one, and gives the daily traffic up to which it meets each letter. peak_share is K, the
   peak hour's share of the daily traffic, and direction_share D, the busier direction's share of
   the peak hour, in thousandths: 90 and 550 are 0.09 and 0.55. The hourly demand is

     daily_traffic * K * D / 1,000,000

   rounded up, once (DAILY-1). The line's own demand has to be well formed and is not used. Any
   numbers may be passed.

   figures_length counts numbers. MAREHOUR_DAILY_FIGURES are written (DAILY-3):

     letter by its number, A to F; free-flow speed; capacity; flow rate; speed; density; service
     volumes A to E: what marehour_answer answers for the same section with the hourly demand; then,
     from figures[11] on, the daily service volumes A to E

   A daily service volume is the greatest daily traffic from 0 to MAREHOUR_GREATEST_DAILY_TRAFFIC
   whose hourly demand gets its letter or a better one (DAILY-2): a daily traffic meets a letter
   exactly when it is at most that volume (DAILY-4). The volumes are the same whatever daily_traffic
   is, as long as the call is not refused.

   The result is MAREHOUR_DAILY_FIGURES; or minus the first of these refusals that holds, in this
   order (CALL-4, DAILY-6):

     17  figures_length under MAREHOUR_DAILY_FIGURES; the line is not read
     15  malformed line
     20  peak_share or direction_share not 1 to 1,000
     21  daily_traffic above MAREHOUR_GREATEST_DAILY_TRAFFIC
     1 to 9, 19, 10  in this order; 7 looks at the hourly demand

   Afterwards the first MAREHOUR_DAILY_FIGURES numbers are the answer.
   What lies behind it is untouched; after a refusal all that was lent is.
*/

int32_t marehour_forecast(const uint8_t *line, size_t line_length, uint64_t demand_low,
                          uint64_t demand_high, uint64_t share_low, uint64_t share_high,
                          uint64_t factor_low, uint64_t factor_high, uint64_t *figures,
                          size_t figures_length);
/* CALL-9. Answers a section whose demand, heavy share and peak-hour factor are forecast, each
   between a low and a high end (FORECAST-1): the best and the worst letter over all whole
   combinations within the ends, the ends included (FORECAST-2), and for each of the two a
   combination that gets it. The line's own demand, factor and share have to be well formed and are
   not used: 7, 8 and 9 look at the ends. Any numbers may be passed. The order is demand, share,
   factor here, and demand, factor, share on a line.

   figures_length counts numbers. MAREHOUR_FORECAST_FIGURES are written (FORECAST-3):

     from figures[0] on  best letter by its number, A to F; demand_low; share_low; factor_high
     from figures[4] on  worst letter by its number; demand_high; share_high; factor_low

   A high peak-hour factor is the good end. The best letter is the one that marehour_answer answers
   for the same section with demand_low, share_low and factor_high, the worst the one with the
   opposite ends; every combination within the ends is answered with a letter from the best to the
   worst (FORECAST-5). So a target is kept whatever comes exactly when the worst letter meets it,
   and missed whatever comes exactly when the best does not. Equal ends give one letter twice.

   The result is MAREHOUR_FORECAST_FIGURES; or minus the first of these refusals that holds, in this
   order (CALL-4, FORECAST-4):

     17  figures_length under MAREHOUR_FORECAST_FIGURES; the line is not read
     15  malformed line
     1 to 6  in this order
     22  a low end above its high end
     7 to 9  in this order; each looks at both ends before the next is asked
     19, 10  in this order

   Afterwards the first MAREHOUR_FORECAST_FIGURES numbers are the answer.
   What lies behind it is untouched; after a refusal all that was lent is.
*/

int32_t marehour_tries(const uint8_t *line, size_t line_length);
/* CALL-10. Counts the demands that halving tries (TRIES-1) for the five service volumes of a
   section, for E from 0 to the greatest demand and then for each better letter from 0 to the volume
   found before (TRIES-2). This is the order in which marehour_answer searches for them. The count
   is proved to be the length of that list of demands; that the search tries these and no others is
   not part of any promise. It is for tests and for whoever plans the time of many calls; no answer
   depends on it.

   The result is the count, 1 to MAREHOUR_MOST_TRIES (TRIES-3); or minus the first of these refusals
   that holds, in this order (CALL-4):

     15  malformed line
     1 to 6, 8, 9, 19, 10  in this order

   No buffer is lent.
*/

int32_t marehour_survey_mph(float speed, uint32_t cars, uint32_t flow);
int32_t marehour_survey_kmh(float speed, uint32_t cars, uint32_t flow);
/* CALL-6. Answer a surveyed speed (SURVEY-1): the exact value of the float, in miles per hour or in
   kilometres per hour (1 mi = 1.609344 km), rounded down to thousandths of mi/h (SURVEY-2). cars is
   the count of cars, flow the flow rate in passenger cars per hour per lane. Any bits may be passed
   as the float, and any numbers as the two others. The rounding mode of the processor has no part
   in it. A signalling NaN is refused as every NaN is, and raises the processor's invalid-operation
   flag, as a comparison with it does in C: a host that traps on that flag tests the float before.

   The result is the speed, 30000 to 90000; or minus the first of these refusals that holds, in this
   order (SURVEY-3):

     11  cars under 100
     12  flow of 1,000 or more
     13  speed not a finite number, or not 30,000 to 90,000 once rounded down

   No buffer is lent.
*/

#ifdef __cplusplus
}
#endif

#endif
