/* The engine in plain C: a line read, its case worked out, the answer written. */
#include "section.h"
#include <stdbool.h>

enum { LONGEST_LINE = 80, GREATEST_DEMAND = 999999, MILLION = 1000000 };

#define GREATEST_DAILY_TRAFFIC 4000000000

enum refusal {
    DEMAND_TOO_LARGE = 7,
    SPEED_BELOW_LOWER_END = 10,
    NO_LANE_COUNT = 14,
    LINE_MALFORMED = 15,
    LETTER_UNKNOWN = 16,
    BUFFER_TOO_SHORT = 17,
    DAY_UNFIT = 18,
    WEATHER_UNFIT = 19,
    SHARES_UNFIT = 20,
    DAILY_TRAFFIC_TOO_LARGE = 21,
    ENDS_REVERSED = 22
};

enum number { SPEED, WIDTH, RIGHT, LEFT, ACCESS, LANES, DEMAND, FACTOR, SHARE, SPEED_FACTOR, CAPACITY_FACTOR, NUMBERS };

struct section {
    bool freeway, estimated, rolling;
    uint8_t median;
    uint64_t numbers[NUMBERS];
};

struct curve {
    bool freeway;
    uint64_t speed, capacity, breakpoint;
    uint64_t most_flow;         /* the greatest flow rate up to capacity */
    uint64_t span;              /* c - b */
    uint64_t whole, free, fall; /* the denominator of w, 9F times that, 9F - 2c */
};

struct load {
    uint64_t heavy_factor, divisor;
};

struct speed {
    uint64_t numerator, denominator;
};

/* What a flow rate gets; A is 1 (LETTER-3). */
struct performance {
    uint64_t letter, speed, density;
};

static const uint32_t powers[1001] = {
#include "powers.inc"
};

static const uint32_t ramp_terms[49] = {
#include "ramps.inc"
};

static const uint64_t limits[5] = {110, 180, 260, 350, 450};

/* Reading */

/* Where a field is read, and where its line ends. */
struct cursor {
    const uint8_t *at, *end;
};

/* Passes the tab after a field. */
static bool pass_tab(struct cursor *line)
{
    if (line->at == line->end || *line->at != '\t') {
        return false;
    }
    line->at++;
    return true;
}

static bool read_letter(struct cursor *line, uint8_t *letter)
{
    if (line->at == line->end) {
        return false;
    }
    *letter = *line->at++;
    return true;
}

/* LINE-2: up to five digits, of a demand six; 0 begins a number only as its one digit. */
static bool read_number(struct cursor *line, uint64_t *numbers, enum number place)
{
    const uint8_t *start = line->at;
    ptrdiff_t most_digits = place == DEMAND ? 6 : 5;
    uint64_t n = 0;
    while (line->at < line->end && line->at - start <= most_digits && (uint8_t)(*line->at - '0') < 10) {
        n = 10 * n + (uint8_t)(*line->at++ - '0');
    }
    ptrdiff_t digits = line->at - start;
    numbers[place] = n;
    return digits >= 1 && digits <= most_digits && (digits == 1 || *start != '0');
}

/* The numbers from one place on, up to another. */
static bool read_numbers(struct cursor *line, uint64_t *numbers, enum number first, enum number end)
{
    for (enum number place = first; place < end; place++) {
        if (!read_number(line, numbers, place) || !pass_tab(line)) {
            return false;
        }
    }
    return true;
}

/* LINE-4: the two factors at a line's end, 1,000 for both where it ends before them. */
static bool read_weather(struct cursor *line, uint64_t *numbers)
{
    numbers[SPEED_FACTOR] = numbers[CAPACITY_FACTOR] = 1000;
    return line->at == line->end
        || (pass_tab(line) && read_numbers(line, numbers, SPEED_FACTOR, CAPACITY_FACTOR) && read_number(line, numbers, CAPACITY_FACTOR)
            && line->at == line->end);
}

static bool read_section(const uint8_t *bytes, size_t length, struct section *section)
{
    struct cursor line = {bytes, bytes + length};
    uint8_t kind, way, terrain;
    if (length > LONGEST_LINE) {
        return false;
    }
    if (!read_letter(&line, &kind) || !pass_tab(&line) || !read_letter(&line, &way) || !pass_tab(&line)
        || !read_numbers(&line, section->numbers, SPEED, ACCESS) || !read_letter(&line, &section->median) || !pass_tab(&line)
        || !read_numbers(&line, section->numbers, ACCESS, SPEED_FACTOR) || !read_letter(&line, &terrain)
        || !read_weather(&line, section->numbers)) {
        return false;
    }
    section->freeway = kind == 'F';
    section->estimated = way == 'E';
    section->rolling = terrain == 'R';
    return (kind == 'F' || kind == 'M') && (way == 'E' || way == 'G') && (terrain == 'L' || terrain == 'R')
        && (section->median == 'U' || section->median == 'D' || section->median == 'T');
}

/* ORDER-2: refusals 1 to 6, 8, 9 and 19, 0 where none holds */

/* 1 to 6. */
static int32_t road_refusal(const struct section *s)
{
    const uint64_t *n = s->numbers;
    if (n[SPEED] < 30000 || n[SPEED] > 90000) {
        return 1;
    }
    if (n[WIDTH] < 100 || n[WIDTH] > 200) {
        return 2;
    }
    if (n[RIGHT] > 400 || n[LEFT] > 400) {
        return 3;
    }
    if (s->freeway && s->median != 'D') {
        return 4;
    }
    if (n[ACCESS] > (s->freeway ? 48u : 200u)) {
        return 5;
    }
    return n[LANES] < 2 || n[LANES] > (s->freeway ? 8u : 3u) ? 6 : 0;
}

/* 8 and 9, of the least factor, the greatest factor and the greatest share. */
static int32_t load_refusal(uint64_t least_factor, uint64_t greatest_factor, uint64_t greatest_share)
{
    if (least_factor < 250 || greatest_factor > 1000) {
        return 8;
    }
    return greatest_share > 1000 ? 9 : 0;
}

static bool weather_unfit(const struct section *s, uint64_t factor)
{
    return factor < (s->freeway ? 500u : 1000u) || factor > 1000;
}

static int32_t weather_refusal(const struct section *s)
{
    return weather_unfit(s, s->numbers[SPEED_FACTOR]) || weather_unfit(s, s->numbers[CAPACITY_FACTOR]) ? WEATHER_UNFIT : 0;
}

static int32_t field_refusal(const struct section *s)
{
    int32_t refusal = road_refusal(s);
    if (refusal == 0) {
        refusal = load_refusal(s->numbers[FACTOR], s->numbers[FACTOR], s->numbers[SHARE]);
    }
    return refusal == 0 ? weather_refusal(s) : refusal;
}

/* Free-flow speed */

static uint64_t lesser(uint64_t a, uint64_t b)
{
    return a < b ? a : b;
}

static uint64_t width_term(uint64_t width)
{
    return width >= 120 ? 0 : width >= 110 ? 1900 : 6600;
}

static uint64_t freeway_estimate(const uint64_t *n, uint64_t lanes)
{
    static const uint64_t per_tenth[4] = {60, 40, 20, 10};
    uint64_t missing = 60 - lesser(60, n[RIGHT]);
    return n[SPEED] - width_term(n[WIDTH]) - missing * per_tenth[lesser(lanes, 5) - 2] - ramp_terms[n[ACCESS]];
}

/* FFS-5, FFS-9: for 12, 10, 8, 6, 4, 2 and 0 feet, and straight between them; the last entry once more, for 0 feet. */
static uint64_t clearance_term(uint64_t total, uint64_t lanes)
{
    static const uint64_t clearance[2][8] = {{0, 400, 900, 1300, 1800, 3600, 5400, 5400}, {0, 400, 900, 1300, 1700, 2800, 3900, 3900}};
    const uint64_t *row = clearance[lanes - 2] + (120 - total) / 20;
    return row[0] + (row[1] - row[0]) * ((120 - total) % 20) / 20;
}

static uint64_t multilane_estimate(const uint64_t *n, uint8_t median, uint64_t lanes)
{
    uint64_t left = median == 'D' ? lesser(60, n[LEFT]) : 60;
    uint64_t total = lesser(60, n[RIGHT]) + left;
    return n[SPEED] - width_term(n[WIDTH]) - clearance_term(total, lanes) - (median == 'U' ? 1600 : 0) - lesser(10000, 250 * n[ACCESS]);
}

static uint64_t free_flow_speed(const struct section *s, uint64_t lanes)
{
    uint64_t speed = s->numbers[SPEED];
    if (s->estimated) {
        speed = s->freeway ? freeway_estimate(s->numbers, lanes) : multilane_estimate(s->numbers, s->median, lanes);
    }
    return lesser(s->freeway ? 75000 : 70000, speed);
}

/* CURVE-1, CURVE-2, WEATHER-2, WEATHER-3: the curve, with what its speeds have in common; false where F is below its lower end, before its
   factor or after it. */
static bool make_curve(const struct section *s, uint64_t lanes, struct curve *curve)
{
    uint64_t before = free_flow_speed(s, lanes), factor = s->numbers[CAPACITY_FACTOR];
    uint64_t speed = before * s->numbers[SPEED_FACTOR] / 1000;
    if (before < (s->freeway ? 55000u : 45000u) || speed < (s->freeway ? 50000u : 45000u)) {
        return false;
    }
    curve->freeway = s->freeway;
    curve->speed = speed;
    curve->capacity = (s->freeway ? lesser(240000, 170000 + speed) : lesser(230000, 100000 + 2 * speed)) * factor / 1000;
    curve->breakpoint = (s->freeway ? 400000 - 4 * speed : 140000) * (factor * factor) / 1000000;
    curve->most_flow = curve->capacity / 100;
    curve->span = curve->capacity - curve->breakpoint;
    curve->whole = s->freeway ? curve->span * curve->span : 1000000;
    curve->free = 9 * speed * curve->whole;
    curve->fall = 9 * speed - 2 * curve->capacity;
    return true;
}

/* Flow, speed, density, letter */

static uint64_t div_up(uint64_t a, uint64_t b)
{
    return (a + b - 1) / b;
}

static struct load load_of(const struct section *s, uint64_t lanes)
{
    uint64_t share = s->numbers[SHARE];
    return (struct load){1000 + (s->rolling ? 2 * share : share), s->numbers[FACTOR] * lanes};
}

static uint64_t flow_rate(const struct load *load, uint64_t demand)
{
    return div_up(demand * load->heavy_factor, load->divisor);
}

/* CURVE-3: F - (F - 2c/9) x w at a flow rate up to capacity. */
static struct speed speed_at(const struct curve *curve, uint64_t v)
{
    uint64_t flow = 100 * v, fallen;
    uint64_t beyond = flow > curve->breakpoint ? flow - curve->breakpoint : 0;
    if (curve->freeway) {
        fallen = beyond * beyond;
    } else {
        fallen = powers[div_up(1000 * beyond, curve->span)];
    }
    return (struct speed){curve->free - curve->fall * fallen, 9 * curve->whole};
}

static bool meets_limit(const struct curve *curve, uint64_t v, uint64_t limit)
{
    if (v > curve->most_flow) {
        return false;
    }
    struct speed speed = speed_at(curve, v);
    return 10000 * v * speed.denominator <= limit * speed.numerator;
}

static uint64_t density_letter(uint64_t density)
{
    uint64_t i = 0;
    while (i < 5 && density > limits[i]) {
        i++;
    }
    return i + 1;
}

static struct performance performance_at(const struct curve *curve, uint64_t v)
{
    if (v > curve->most_flow) {
        return (struct performance){6, 0, 0};
    }
    struct speed speed = speed_at(curve, v);
    uint64_t density = div_up(10000 * v * speed.denominator, speed.numerator);
    return (struct performance){density_letter(density), speed.numerator / speed.denominator, density};
}

/* TRIES-1: the greatest demand up to the end that keeps to a density, by halving. */
static uint64_t greatest_meeting(const struct curve *curve, const struct load *load, uint64_t limit, uint64_t end)
{
    uint64_t low = 0, high = end + 1;
    while (high - low > 1) {
        uint64_t middle = low + (high - low) / 2;
        if (meets_limit(curve, flow_rate(load, middle), limit)) {
            low = middle;
        } else {
            high = middle;
        }
    }
    return low;
}

/* TRIES-2: A to E; from E down, each up to the one found before. */
static void service_volumes(const struct curve *curve, const struct load *load, uint64_t *volumes)
{
    uint64_t end = GREATEST_DEMAND;
    for (int i = 4; i >= 0; i--) {
        end = volumes[i] = greatest_meeting(curve, load, limits[i], end);
    }
}

/* Writing */

static uint8_t *put_number(uint8_t *at, uint64_t n)
{
    uint8_t digits[20];
    int count = 0;
    do {
        digits[count++] = (uint8_t)('0' + n % 10);
        n /= 10;
    } while (n > 0);
    while (count > 0) {
        *at++ = digits[--count];
    }
    return at;
}

static uint8_t *put_figure(uint8_t *at, uint64_t n)
{
    *at++ = '\t';
    return put_number(at, n);
}

/* Letter, F, c, v, speed, density. */
static uint8_t *put_measures(uint8_t *at, const struct curve *curve, uint64_t v)
{
    struct performance performance = performance_at(curve, v);
    *at++ = (uint8_t)('A' - 1 + performance.letter);
    at = put_figure(at, curve->speed);
    at = put_figure(at, curve->capacity);
    at = put_figure(at, v);
    at = put_figure(at, performance.speed);
    return put_figure(at, performance.density);
}

/* The calls */

int32_t plain_answer(const uint8_t *line, size_t line_length, uint8_t *answer, size_t answer_length)
{
    struct section section;
    struct curve curve;
    if (answer_length < LONGEST_ANSWER) {
        return -BUFFER_TOO_SHORT;
    }
    if (!read_section(line, line_length, &section)) {
        return -LINE_MALFORMED;
    }
    int32_t refusal = field_refusal(&section);
    if (refusal != 0) {
        return -refusal;
    }
    if (!make_curve(&section, section.numbers[LANES], &curve)) {
        return -SPEED_BELOW_LOWER_END;
    }
    struct load load = load_of(&section, section.numbers[LANES]);
    uint64_t volumes[5];
    service_volumes(&curve, &load, volumes);
    uint8_t *at = put_measures(answer, &curve, flow_rate(&load, section.numbers[DEMAND]));
    for (int i = 0; i < 5; i++) {
        at = put_figure(at, volumes[i]);
    }
    *at++ = '\n';
    return (int32_t)(at - answer);
}

static void put_refused(uint64_t *answer, uint64_t number)
{
    answer[0] = number;
    for (int i = 1; i < DAY_FIGURES; i++) {
        answer[i] = 0;
    }
}

/* The eleven figures of an answer. */
static void put_figures(uint64_t *answer, const struct curve *curve, uint64_t v, const uint64_t *volumes)
{
    struct performance performance = performance_at(curve, v);
    uint64_t figures[6] = {performance.letter, curve->speed, curve->capacity, v, performance.speed, performance.density};
    for (int i = 0; i < DAY_FIGURES - 1; i++) {
        answer[i] = i < 6 ? figures[i] : volumes[i - 6];
    }
}

/* DAY-3: a road that is refused: a demand that is too large has 7, unless one of 1 to 6 comes before it. */
static void put_refused_day(uint64_t number, const uint64_t *demands, size_t demand_count, uint64_t *answers)
{
    for (size_t i = 0; i < demand_count; i++) {
        put_refused(answers + DAY_FIGURES * i, demands[i] > GREATEST_DEMAND ? lesser(number, DEMAND_TOO_LARGE) : number);
    }
}

int32_t plain_day(const uint8_t *line, size_t line_length, const uint64_t *demands, size_t demand_count, uint64_t *answers,
                  size_t answers_length)
{
    struct section section;
    struct curve curve;
    uint64_t volumes[5];
    if (demand_count < 1 || demand_count > DAY_DEMANDS || answers_length / DAY_FIGURES < demand_count) {
        return -DAY_UNFIT;
    }
    if (!read_section(line, line_length, &section)) {
        return -LINE_MALFORMED;
    }
    int32_t refusal = field_refusal(&section);
    if (refusal == 0 && !make_curve(&section, section.numbers[LANES], &curve)) {
        refusal = SPEED_BELOW_LOWER_END;
    }
    if (refusal != 0) {
        put_refused_day((uint64_t)refusal, demands, demand_count, answers);
        return (int32_t)demand_count;
    }
    struct load load = load_of(&section, section.numbers[LANES]);
    service_volumes(&curve, &load, volumes);
    for (size_t i = 0; i < demand_count; i++) {
        if (demands[i] > GREATEST_DEMAND) {
            put_refused(answers + DAY_FIGURES * i, DEMAND_TOO_LARGE);
        } else {
            answers[DAY_FIGURES * i] = 0;
            put_figures(answers + DAY_FIGURES * i + 1, &curve, flow_rate(&load, demands[i]), volumes);
        }
    }
    return (int32_t)demand_count;
}

static bool share_unfit(uint32_t share)
{
    return share < 1 || share > 1000;
}

int32_t plain_daily(const uint8_t *line, size_t line_length, uint64_t daily_traffic, uint32_t peak_share, uint32_t direction_share,
                    uint64_t *figures, size_t figures_length)
{
    struct section section;
    struct curve curve;
    uint64_t volumes[5];
    if (figures_length < DAILY_FIGURES) {
        return -BUFFER_TOO_SHORT;
    }
    if (!read_section(line, line_length, &section)) {
        return -LINE_MALFORMED;
    }
    if (share_unfit(peak_share) || share_unfit(direction_share)) {
        return -SHARES_UNFIT;
    }
    if (daily_traffic > GREATEST_DAILY_TRAFFIC) {
        return -DAILY_TRAFFIC_TOO_LARGE;
    }
    uint64_t share = (uint64_t)peak_share * direction_share, demand = div_up(daily_traffic * share, MILLION);
    int32_t refusal = field_refusal(&section);
    if (demand > GREATEST_DEMAND && (refusal == 0 || refusal > DEMAND_TOO_LARGE)) {
        refusal = DEMAND_TOO_LARGE;
    }
    if (refusal != 0) {
        return -refusal;
    }
    if (!make_curve(&section, section.numbers[LANES], &curve)) {
        return -SPEED_BELOW_LOWER_END;
    }
    struct load load = load_of(&section, section.numbers[LANES]);
    service_volumes(&curve, &load, volumes);
    put_figures(figures, &curve, flow_rate(&load, demand), volumes);
    for (int i = 0; i < 5; i++) {
        figures[DAILY_FIGURES - 5 + i] = lesser(volumes[i] * MILLION / share, GREATEST_DAILY_TRAFFIC);
    }
    return DAILY_FIGURES;
}

/* FORECAST-4: 22, then 7 to 9 at both ends: the low ends of demand and share pass where the high ones do. */
static int32_t range_refusal(uint64_t demand_low, uint64_t demand_high, uint64_t share_low, uint64_t share_high, uint64_t factor_low,
                             uint64_t factor_high)
{
    if (demand_low > demand_high || share_low > share_high || factor_low > factor_high) {
        return ENDS_REVERSED;
    }
    return demand_high > GREATEST_DEMAND ? DEMAND_TOO_LARGE : load_refusal(factor_low, factor_high, share_high);
}

/* A letter with its combination, which takes the place of the section's own load. */
static void put_outcome(uint64_t *figures, struct section *section, const struct curve *curve, uint64_t demand, uint64_t share,
                        uint64_t factor)
{
    section->numbers[SHARE] = share;
    section->numbers[FACTOR] = factor;
    struct load load = load_of(section, section->numbers[LANES]);
    figures[0] = performance_at(curve, flow_rate(&load, demand)).letter;
    figures[1] = demand;
    figures[2] = share;
    figures[3] = factor;
}

int32_t plain_forecast(const uint8_t *line, size_t line_length, uint64_t demand_low, uint64_t demand_high, uint64_t share_low,
                       uint64_t share_high, uint64_t factor_low, uint64_t factor_high, uint64_t *figures, size_t figures_length)
{
    struct section section;
    struct curve curve;
    if (figures_length < FORECAST_FIGURES) {
        return -BUFFER_TOO_SHORT;
    }
    if (!read_section(line, line_length, &section)) {
        return -LINE_MALFORMED;
    }
    int32_t refusal = road_refusal(&section);
    if (refusal == 0) {
        refusal = range_refusal(demand_low, demand_high, share_low, share_high, factor_low, factor_high);
    }
    if (refusal == 0) {
        refusal = weather_refusal(&section);
    }
    if (refusal != 0) {
        return -refusal;
    }
    if (!make_curve(&section, section.numbers[LANES], &curve)) {
        return -SPEED_BELOW_LOWER_END;
    }
    put_outcome(figures, &section, &curve, demand_low, share_low, factor_high);
    put_outcome(figures + FORECAST_FIGURES / 2, &section, &curve, demand_high, share_high, factor_low);
    return FORECAST_FIGURES;
}

static bool meets_with(const struct section *section, uint64_t lanes, uint64_t limit)
{
    struct curve curve;
    if (!make_curve(section, lanes, &curve)) {
        return false;
    }
    struct load load = load_of(section, lanes);
    return meets_limit(&curve, flow_rate(&load, section->numbers[DEMAND]), limit);
}

int32_t plain_lanes(const uint8_t *line, size_t line_length, uint32_t letter, uint8_t *answer, size_t answer_length)
{
    struct section section;
    if (answer_length < LONGEST_ANSWER) {
        return -BUFFER_TOO_SHORT;
    }
    if (!read_section(line, line_length, &section)) {
        return -LINE_MALFORMED;
    }
    if (letter < 1 || letter > 5) {
        return -LETTER_UNKNOWN;
    }
    int32_t refusal = field_refusal(&section);
    if (refusal != 0) {
        return -refusal;
    }
    for (uint64_t lanes = 2, most = section.freeway ? 8 : 3; lanes <= most; lanes++) {
        if (meets_with(&section, lanes, limits[letter - 1])) {
            answer[0] = (uint8_t)('0' + lanes);
            answer[1] = '\n';
            return 2;
        }
    }
    return -NO_LANE_COUNT;
}
