/* SAFE-1, CALL-1 to CALL-10: checks the calls of include/marehour.h from C, at the project's root.

   Vectors: crates/los/stdin with crates/los/stdout, tests/lanes.tsv, tests/surveys.tsv. In the latter two a row that begins with # is a
   comment.

   SAFE-1: line, demands and buffer each lie between two pages that cannot be accessed: once they begin right behind the first, once they end right
   before the second. Line and demands are read-only while they are lent. CALL-5: the buffer and what is around it is filled with a pattern before a
   call and compared byte by byte after it. A day asks a line with its own demand, with one that 7 refuses, and with its own again. It is
   asked with a daily traffic whose hourly demand is its own, too, with forecasts that are its own load, end at it or begin there, and with
   traffics and forecasts that are refused. What these must answer is had from the line's own answer. Each set of checks runs in a child.
   Where the library passes, the checks run over calls that are wrong on purpose (tests/overrun.c), and each of these must end as its fault
   says. */
#define _DEFAULT_SOURCE
#include "calls.h"
#include "marehour.h"
#include <signal.h>
#include <stdarg.h>
#include <stdbool.h>
#include <stdio.h>
#include <stdlib.h>
#include <string.h>
#include <sys/mman.h>
#include <sys/wait.h>
#include <unistd.h>

enum { LONGEST_BUFFER = 4096, MOST_VECTORS = 2000, SECONDS = 120 };

/* A day: how many demands each line is asked with, more than a day may have, and the greatest that 7 passes. */
enum { ASKED = 3, MORE_DEMANDS = 30, GREATEST_DEMAND = 999999 };
_Static_assert(MAREHOUR_GREATEST_DEMAND == GREATEST_DEMAND, "the header names another greatest demand");

/* Where a line's own load stands, from 0 on. */
enum { DEMAND_FIELD = 9, FACTOR_FIELD, SHARE_FIELD };

/* SAFE-1: pages that can be accessed between two that cannot. */
struct fence {
    uint8_t *start;
    size_t size;
};

enum side { AT_START, AT_END };

/* A line with what a call must answer. */
struct vector {
    const uint8_t *line;
    size_t length;
    bool asks_lanes;
    uint32_t letter;
    int32_t result; /* CALL-3: count of bytes, or minus the refusal */
    const uint8_t *text;
};

struct survey {
    int32_t result;
    bool metric;
    float speed;
    uint32_t cars, flow;
};

/* What a child tells, in memory that it shares with its parent. */
struct report {
    long checks, differences;
    uintptr_t fault_address;
    char first[200];
};

struct text {
    uint8_t *bytes;
    size_t length;
};

static struct vector answers[MOST_VECTORS], lanes[MOST_VECTORS];
static struct survey surveys[MOST_VECTORS];
static size_t answer_count, lanes_count, survey_count;
static struct fence line_fence, demands_fence, buffer_fence;
static uint8_t *pattern; /* as long as the buffer's pages */
static size_t page_size;
static struct report *report;

static void give_up(const char *why, const char *what)
{
    printf("calls: %s%s\n", why, what);
    exit(1);
}

/* Files */

/* A whole file, with a zero byte past its end. */
static struct text read_file(const char *path)
{
    FILE *file = fopen(path, "rb");
    struct text text = {NULL, 0};
    size_t room = 0, got = 0;
    if (file == NULL) {
        give_up("cannot read ", path);
    }
    do {
        text.length += got;
        if (text.length == room) {
            room = 2 * room + 65536;
            text.bytes = realloc(text.bytes, room);
            if (text.bytes == NULL) {
                give_up("no memory", "");
            }
        }
        got = fread(text.bytes + text.length, 1, room - text.length, file);
    } while (got > 0);
    fclose(file);
    text.bytes[text.length] = 0;
    return text;
}

/* Takes the next line off a text, without its newline; false at the end. Bytes behind the last newline are a line. */
static bool next_line(struct text *text, struct text *line)
{
    if (text->length == 0) {
        return false;
    }
    uint8_t *newline = memchr(text->bytes, '\n', text->length);
    size_t length = newline == NULL ? text->length : (size_t)(newline - text->bytes);
    size_t taken = newline == NULL ? length : length + 1;
    *line = (struct text){text->bytes, length};
    *text = (struct text){text->bytes + taken, text->length - taken};
    return true;
}

/* The next line that is no comment. */
static bool next_row(struct text *text, struct text *row)
{
    while (next_line(text, row)) {
        if (row->length > 0 && row->bytes[0] != '#') {
            return true;
        }
    }
    return false;
}

static void count_vector(size_t *count)
{
    if (++*count == MOST_VECTORS) {
        give_up("too many vectors", "");
    }
}

static void read_answers(void)
{
    struct text lines = read_file("crates/los/stdin"), texts = read_file("crates/los/stdout"), line, text;
    while (next_line(&lines, &line)) {
        struct vector *vector = &answers[answer_count];
        if (!next_line(&texts, &text) || text.length < 2) {
            give_up("crates/los/stdout", " has too few lines");
        }
        *vector = (struct vector){line.bytes, line.length, false, 0, (int32_t)text.length + 1, text.bytes};
        if (text.bytes[0] == 'X') {
            vector->result = -(int32_t)strtol((char *)text.bytes + 2, NULL, 10);
        }
        count_vector(&answer_count);
    }
    if (texts.length > 0) {
        give_up("crates/los/stdout", " has too many lines");
    }
}

static void read_lanes(void)
{
    static const uint8_t digits[] = "0\n1\n2\n3\n4\n5\n6\n7\n8\n9\n";
    struct text rows = read_file("tests/lanes.tsv"), row;
    while (next_row(&rows, &row)) {
        char *letter, *line;
        long expected = strtol((char *)row.bytes, &letter, 10);
        uint32_t number = (uint32_t)strtoul(letter, &line, 10);
        size_t before = (size_t)((uint8_t *)line + 1 - row.bytes);
        if (*letter != '\t' || *line != '\t' || expected > 9 || before > row.length) {
            give_up("tests/lanes.tsv", " has a row that is none");
        }
        lanes[lanes_count] = (struct vector){row.bytes + before, row.length - before, true, number, (int32_t)expected, NULL};
        if (expected > 0) {
            lanes[lanes_count].result = 2;
            lanes[lanes_count].text = digits + 2 * expected;
        }
        count_vector(&lanes_count);
    }
}

static void read_surveys(void)
{
    struct text rows = read_file("tests/surveys.tsv"), row;
    while (next_row(&rows, &row)) {
        struct survey *survey = &surveys[survey_count];
        char copy[80] = "", unit[4];
        unsigned bits;
        memcpy(copy, row.bytes, row.length < sizeof copy ? row.length : sizeof copy - 1);
        if (sscanf(copy, "%d %3s %x %u %u", &survey->result, unit, &bits, &survey->cars, &survey->flow) != 5) {
            give_up("tests/surveys.tsv", " has a row that is none");
        }
        survey->metric = strcmp(unit, "kmh") == 0;
        memcpy(&survey->speed, &bits, sizeof survey->speed);
        count_vector(&survey_count);
    }
}

/* Memory */

static struct fence make_fence(size_t size)
{
    size_t room = (size + page_size - 1) / page_size * page_size;
    uint8_t *pages = mmap(NULL, room + 2 * page_size, PROT_NONE, MAP_PRIVATE | MAP_ANONYMOUS, -1, 0);
    if (pages == MAP_FAILED || mprotect(pages + page_size, room, PROT_READ | PROT_WRITE) != 0) {
        give_up("no pages", "");
    }
    return (struct fence){pages + page_size, room};
}

static uint8_t *placed(const struct fence *fence, size_t length, enum side side)
{
    return side == AT_START ? fence->start : fence->start + fence->size - length;
}

static size_t longest_line(void)
{
    size_t longest = 0;
    for (size_t i = 0; i < answer_count; i++) {
        longest = answers[i].length > longest ? answers[i].length : longest;
    }
    for (size_t i = 0; i < lanes_count; i++) {
        longest = lanes[i].length > longest ? lanes[i].length : longest;
    }
    return longest;
}

/* The pattern has no byte that an answer has. */
static void make_memory(void)
{
    page_size = (size_t)sysconf(_SC_PAGESIZE);
    line_fence = make_fence(longest_line() + 1);
    demands_fence = make_fence(MORE_DEMANDS * sizeof(uint64_t));
    buffer_fence = make_fence(LONGEST_BUFFER + 1);
    pattern = malloc(buffer_fence.size);
    report = mmap(NULL, sizeof *report, PROT_READ | PROT_WRITE, MAP_SHARED | MAP_ANONYMOUS, -1, 0);
    if (pattern == NULL || report == MAP_FAILED) {
        give_up("no memory", "");
    }
    for (size_t i = 0; i < buffer_fence.size; i++) {
        pattern[i] = (uint8_t)(0x80 | (i * 37 + i / 128));
    }
}

/* Bytes among digits, read-only. */
static const uint8_t *lend(const struct fence *fence, const void *bytes, size_t length, enum side side)
{
    mprotect(fence->start, fence->size, PROT_READ | PROT_WRITE);
    memset(fence->start, '5', fence->size);
    memcpy(placed(fence, length, side), bytes, length);
    mprotect(fence->start, fence->size, PROT_READ);
    return placed(fence, length, side);
}

/* Checks, made in a child */

static void check(bool holds, const char *format, ...)
{
    report->checks++;
    if (!holds && report->differences++ == 0) {
        va_list values;
        va_start(values, format);
        vsnprintf(report->first, sizeof report->first, format, values);
        va_end(values);
    }
}

/* CALL-5, TEXT-5: whether the buffer's pages hold the text at its start and the pattern everywhere else. */
static bool holds_only(const uint8_t *buffer, const uint8_t *text, size_t count)
{
    size_t before = (size_t)(buffer - buffer_fence.start), after = before + count;
    return memcmp(buffer_fence.start, pattern, before) == 0 && (count == 0 || memcmp(buffer, text, count) == 0)
        && memcmp(buffer_fence.start + after, pattern + after, buffer_fence.size - after) == 0;
}

/* A buffer with the pattern in it and around it. */
static uint8_t *fresh_buffer(size_t length, enum side side)
{
    memcpy(buffer_fence.start, pattern, buffer_fence.size);
    return placed(&buffer_fence, length, side);
}

/* What a call handed back that counts the numbers it writes, and what it left in a buffer with room for some. */
static void check_figures(const struct vector *vector, const char *asked, size_t room, const uint8_t *buffer, int32_t result,
                          int32_t expected, const uint64_t *figures)
{
    const char *shown = (const char *)vector->line;
    int width = vector->length < 80 ? (int)vector->length : 80;
    check(result == expected, "result %d, not %d, of a %s in %zu numbers, for %.*s", result, expected, asked, room, width, shown);
    check(holds_only(buffer, (const uint8_t *)figures, expected > 0 ? (size_t)expected * sizeof *figures : 0),
          "other numbers of a %s in %zu numbers for %.*s", asked, room, width, shown);
}

/* CALL-1, CALL-2, FORM-1; REFUSAL-17 is first of all (CALL-4). */
static void check_buffer(const struct calls *calls, const struct vector *vector, const uint8_t *line, size_t length, enum side side)
{
    uint8_t *buffer = fresh_buffer(length, side);
    int32_t expected = length < MAREHOUR_ANSWER_SIZE ? -MAREHOUR_BUFFER_TOO_SHORT : vector->result;
    int32_t result = vector->asks_lanes ? calls->lanes(line, vector->length, vector->letter, buffer, length)
                                        : calls->answer(line, vector->length, buffer, length);
    const char *shown = (const char *)vector->line;
    int width = vector->length < 80 ? (int)vector->length : 80;
    check(result == expected, "result %d, not %d, in %zu bytes, for %.*s", result, expected, length, width, shown);
    check(holds_only(buffer, vector->text, expected > 0 ? (size_t)expected : 0), "other bytes in a buffer of %zu for %.*s", length, width,
          shown);
}

/* TEXT-4: every length below 64, and 64 and more. */
static void check_vector(const struct calls *calls, const struct vector *vector)
{
    static const size_t enough[] = {MAREHOUR_ANSWER_SIZE, MAREHOUR_ANSWER_SIZE + 1, 100, LONGEST_BUFFER};
    for (int sides = 0; sides < 4; sides++) {
        enum side side = sides % 2 == 0 ? AT_START : AT_END;
        const uint8_t *line = lend(&line_fence, vector->line, vector->length, sides / 2 == 0 ? AT_START : AT_END);
        for (size_t length = 0; length < MAREHOUR_ANSWER_SIZE; length++) {
            check_buffer(calls, vector, line, length, side);
        }
        for (size_t i = 0; i < sizeof enough / sizeof enough[0]; i++) {
            check_buffer(calls, vector, line, enough[i], side);
        }
    }
}

/* CALL-1 */
static void check_answers(const struct calls *calls)
{
    for (size_t i = 0; i < answer_count; i++) {
        check_vector(calls, &answers[i]);
    }
}

/* CALL-2 */
static void check_lanes(const struct calls *calls)
{
    for (size_t i = 0; i < lanes_count; i++) {
        check_vector(calls, &lanes[i]);
    }
}

/* A line's own letter and numbers */

/* LETTER-3: the letter of a line that is accepted. */
static uint64_t own_letter(const struct vector *vector)
{
    return (uint64_t)(vector->text[0] - 'A') + MAREHOUR_LETTER_A;
}

/* The number in a field of a line; 0 of a malformed line. */
static uint64_t own_number(const struct vector *vector, int field)
{
    const uint8_t *at = vector->line;
    if (vector->result == -MAREHOUR_LINE_MALFORMED) {
        return 0;
    }
    for (int i = 0; i < field; i++) {
        at = (const uint8_t *)memchr(at, '\t', (size_t)(vector->line + vector->length - at)) + 1;
    }
    return strtoull((const char *)at, NULL, 10);
}

/* Days */

/* DAY-2, DAY-3: the numbers of a position: of a line that one of 1 to 6 refuses its number; of a demand that is too large 7; else what the line's
   answer says. */
static void expect_position(const struct vector *vector, uint64_t demand, uint64_t *figures)
{
    uint64_t number = vector->result < 0 ? (uint64_t)-vector->result : 0;
    memset(figures, 0, MAREHOUR_DAY_FIGURES * sizeof *figures);
    if (demand > GREATEST_DEMAND && (number == 0 || number > MAREHOUR_DEMAND_TOO_LARGE)) {
        number = MAREHOUR_DEMAND_TOO_LARGE;
    }
    figures[0] = number;
    if (number != 0) {
        return;
    }
    char *at = (char *)vector->text + 1;
    figures[1] = own_letter(vector);
    for (int i = 2; i < MAREHOUR_DAY_FIGURES; i++) {
        figures[i] = strtoull(at, &at, 10);
    }
}

/* CALL-7, REFUSAL-18: a call with some demands and room for some numbers. */
static void check_room(const struct calls *calls, const struct vector *vector, const uint8_t *line, const uint64_t *demands, size_t count,
                       size_t room, enum side side)
{
    static uint64_t figures[MAREHOUR_DAY_DEMANDS * MAREHOUR_DAY_FIGURES];
    uint8_t *buffer = fresh_buffer(room * sizeof *figures, side);
    int32_t expected = (int32_t)count;
    if (count == 0 || count > MAREHOUR_DAY_DEMANDS || room < MAREHOUR_DAY_FIGURES * count) {
        expected = -MAREHOUR_DAY_UNFIT;
    } else if (vector->result == -MAREHOUR_LINE_MALFORMED) {
        expected = -MAREHOUR_LINE_MALFORMED;
    }
    for (int32_t i = 0; i < expected; i++) {
        expect_position(vector, demands[i], figures + MAREHOUR_DAY_FIGURES * i);
    }
    int32_t result = calls->day(line, vector->length, demands, count, (uint64_t *)(void *)buffer, room);
    const char *shown = (const char *)vector->line;
    int width = vector->length < 80 ? (int)vector->length : 80;
    check(result == expected, "result %d, not %d, of %zu demands in %zu numbers, for %.*s", result, expected, count, room, width, shown);
    check(holds_only(buffer, (const uint8_t *)figures, expected > 0 ? (size_t)expected * MAREHOUR_DAY_FIGURES * sizeof *figures : 0),
          "other numbers of %zu demands in %zu numbers for %.*s", count, room, width, shown);
}

static void check_day(const struct calls *calls, const struct vector *vector)
{
    enum { FIGURES = ASKED * MAREHOUR_DAY_FIGURES };
    static const size_t rooms[] = {0, 1, MAREHOUR_DAY_FIGURES, FIGURES - 1, FIGURES, FIGURES + 1, FIGURES + 17, LONGEST_BUFFER / 8};
    uint64_t own = own_number(vector, DEMAND_FIELD);
    uint64_t demands[ASKED] = {own, UINT64_MAX, own};
    for (int sides = 0; sides < 8; sides++) {
        const uint8_t *line = lend(&line_fence, vector->line, vector->length, sides / 4 == 0 ? AT_START : AT_END);
        const uint8_t *lent = lend(&demands_fence, demands, sizeof demands, sides / 2 % 2 == 0 ? AT_START : AT_END);
        for (size_t i = 0; i < sizeof rooms / sizeof rooms[0]; i++) {
            check_room(calls, vector, line, (const uint64_t *)(const void *)lent, ASKED, rooms[i], sides % 2 == 0 ? AT_START : AT_END);
        }
    }
}

/* REFUSAL-18, CALL-4: every count of demands, with every room from none to what they need and one number more. */
static void check_counts(const struct calls *calls, const struct vector *vector)
{
    uint64_t demands[MORE_DEMANDS];
    for (size_t i = 0; i < MORE_DEMANDS; i++) {
        demands[i] = i % 3 == 1 ? GREATEST_DEMAND + i : own_number(vector, DEMAND_FIELD);
    }
    const uint8_t *line = lend(&line_fence, vector->line, vector->length, AT_END);
    for (size_t count = 0; count <= MORE_DEMANDS; count++) {
        const uint8_t *lent = lend(&demands_fence, demands, count * sizeof *demands, AT_END);
        for (size_t room = 0; room <= MAREHOUR_DAY_FIGURES * count + 1; room++) {
            check_room(calls, vector, line, (const uint64_t *)(const void *)lent, count, room, AT_END);
        }
    }
}

/* REFUSAL-7: where the sixth digit begins and ends, and the seventh begins, on the first line, the printed one: the refusal, the letter and the flow
   rate. */
static void check_long_demands(const struct calls *calls)
{
    enum { COUNT = 4, LETTER = 1, FLOW_RATE = 4, FIGURES = COUNT * MAREHOUR_DAY_FIGURES };
    static const uint64_t demands[COUNT] = {99999, 100000, GREATEST_DEMAND, GREATEST_DEMAND + 1};
    static const uint64_t expected[COUNT][3] = {
        {0, MAREHOUR_LETTER_F, 59783},
        {0, MAREHOUR_LETTER_F, 59783},
        {0, MAREHOUR_LETTER_F, 597826},
        {MAREHOUR_DEMAND_TOO_LARGE, 0, 0},
    };
    const uint8_t *line = lend(&line_fence, answers[0].line, answers[0].length, AT_END);
    const uint8_t *lent = lend(&demands_fence, demands, sizeof demands, AT_END);
    uint64_t *figures = (uint64_t *)(void *)fresh_buffer(FIGURES * sizeof *figures, AT_END);
    int32_t result = calls->day(line, answers[0].length, (const uint64_t *)(const void *)lent, COUNT, figures, FIGURES);
    check(result == COUNT, "result %d of %d long demands", result, COUNT);
    for (size_t i = 0; i < COUNT; i++) {
        const uint64_t *position = figures + MAREHOUR_DAY_FIGURES * i;
        bool same = position[0] == expected[i][0] && position[LETTER] == expected[i][1] && position[FLOW_RATE] == expected[i][2];
        check(same, "other numbers of demand %zu", (size_t)demands[i]);
    }
}

static void check_days(const struct calls *calls)
{
    check_counts(calls, &answers[0]);
    check_long_demands(calls);
    for (size_t i = 0; i < answer_count; i++) {
        check_day(calls, &answers[i]);
    }
}

/* Daily traffics */

/* DAILY-1, DAILY-2: with shares of a half and a whole the hourly demand is half of the daily traffic, and a daily service volume twice the service
   volume. */
enum { HALF = 500, WHOLE = 1000 };

/* DAILY-6: a daily traffic and its shares, and which of 20 and 21 refuses them; 0 for none. */
struct traffic {
    uint64_t daily;
    uint32_t peak_share, direction_share;
    int32_t refusal;
};

/* DAILY-3, DAILY-6: what a call hands back that is lent enough for a line that is not malformed; with the figures where it is no refusal. */
static int32_t expect_daily(const struct vector *vector, const struct traffic *traffic, uint64_t *figures)
{
    uint64_t position[MAREHOUR_DAY_FIGURES];
    if (traffic->refusal != 0) {
        return -traffic->refusal;
    }
    expect_position(vector, traffic->daily / 2, position);
    if (position[0] != 0) {
        return -(int32_t)position[0];
    }
    memcpy(figures, position + 1, sizeof position - sizeof *position);
    for (int i = 0; i < 5; i++) {
        figures[MAREHOUR_DAY_FIGURES - 1 + i] = 2 * position[MAREHOUR_DAY_FIGURES - 5 + i];
    }
    return MAREHOUR_DAILY_FIGURES;
}

/* CALL-8, REFUSAL-17 */
static void check_traffic(const struct calls *calls, const struct vector *vector, const uint8_t *line, const struct traffic *traffic,
                          size_t room, enum side side)
{
    uint64_t figures[MAREHOUR_DAILY_FIGURES];
    uint8_t *buffer = fresh_buffer(room * sizeof *figures, side);
    int32_t expected = -MAREHOUR_BUFFER_TOO_SHORT;
    if (room >= MAREHOUR_DAILY_FIGURES) {
        expected = vector->result == -MAREHOUR_LINE_MALFORMED ? vector->result : expect_daily(vector, traffic, figures);
    }
    int32_t result = calls->daily(line, vector->length, traffic->daily, traffic->peak_share, traffic->direction_share,
                                  (uint64_t *)(void *)buffer, room);
    check_figures(vector, "daily traffic", room, buffer, result, expected, figures);
}

static void check_daily(const struct calls *calls, const struct vector *vector)
{
    enum { FIGURES = MAREHOUR_DAILY_FIGURES };
    static const size_t rooms[] = {0, 1, FIGURES - 1, FIGURES, FIGURES + 1, LONGEST_BUFFER / 8};
    uint64_t twice = 2 * own_number(vector, DEMAND_FIELD);
    const struct traffic traffics[] = {
        {twice, HALF, WHOLE, 0},
        {MAREHOUR_GREATEST_DAILY_TRAFFIC, HALF, WHOLE, 0},
        {UINT64_MAX, HALF, WHOLE, MAREHOUR_DAILY_TRAFFIC_TOO_LARGE},
        {UINT64_MAX, 0, WHOLE, MAREHOUR_SHARES_UNFIT},
        {twice, HALF, WHOLE + 1, MAREHOUR_SHARES_UNFIT},
    };
    for (int sides = 0; sides < 4; sides++) {
        const uint8_t *line = lend(&line_fence, vector->line, vector->length, sides / 2 == 0 ? AT_START : AT_END);
        for (size_t i = 0; i < sizeof rooms / sizeof rooms[0]; i++) {
            for (size_t j = 0; j < sizeof traffics / sizeof traffics[0]; j++) {
                check_traffic(calls, vector, line, &traffics[j], rooms[i], sides % 2 == 0 ? AT_START : AT_END);
            }
        }
    }
}

static void check_dailies(const struct calls *calls)
{
    for (size_t i = 0; i < answer_count; i++) {
        check_daily(calls, &answers[i]);
    }
}

/* Forecasts */

enum { FORECASTS = 13, LEAST_FACTOR = 250, GREATEST_FACTOR = 1000, GREATEST_SHARE = 1000 };

struct range {
    uint64_t low, high;
};

/* The ends of a load, its letters on a line that is accepted, and which of 22 and 7 to 9 refuses it; 0 where that is the line's own. */
struct forecast {
    struct range demand, share, factor;
    uint64_t best, worst;
    int32_t refusal;
};

static uint64_t lesser(uint64_t a, uint64_t b)
{
    return a < b ? a : b;
}

static uint64_t greater(uint64_t a, uint64_t b)
{
    return a > b ? a : b;
}

/* FORECAST-2, FORECAST-4: the line's own load, two that end at it and one that begins there: demand 0 gets A, and the greatest demand F, on eight
   lanes too. A factor or share that 8 or 9 refuses stays an end. Then loads that are refused, most of them by several numbers, with the first. */
static void make_forecasts(const struct vector *vector, struct forecast *forecasts)
{
    uint64_t v = own_number(vector, DEMAND_FIELD), p = own_number(vector, SHARE_FIELD), h = own_number(vector, FACTOR_FIELD);
    uint64_t letter = vector->result > 0 ? own_letter(vector) : 0;
    const struct range demand = {v, v}, share = {p, p}, factor = {h, h}, largest = {UINT64_MAX, UINT64_MAX};
    const struct range unfit_share = {0, GREATEST_SHARE + 1}, unfit_factor = {LEAST_FACTOR, GREATEST_FACTOR + 1};
    const struct forecast made[FORECASTS] = {
        {demand, share, factor, letter, letter, 0},
        {{0, v}, share, factor, MAREHOUR_LETTER_A, letter, 0},
        {{0, v}, {0, p}, {h, greater(h, GREATEST_FACTOR)}, MAREHOUR_LETTER_A, letter, 0},
        {{v, GREATEST_DEMAND}, {p, greater(p, GREATEST_SHARE)}, {lesser(h, LEAST_FACTOR), h}, letter, MAREHOUR_LETTER_F, 0},
        {{v + 1, v}, share, factor, 0, 0, MAREHOUR_ENDS_REVERSED},
        {largest, {p + 1, p}, factor, 0, 0, MAREHOUR_ENDS_REVERSED},
        {largest, largest, {h + 1, h}, 0, 0, MAREHOUR_ENDS_REVERSED},
        {{0, UINT64_MAX}, share, factor, 0, 0, MAREHOUR_DEMAND_TOO_LARGE},
        {{v, GREATEST_DEMAND + 1}, unfit_share, unfit_factor, 0, 0, MAREHOUR_DEMAND_TOO_LARGE},
        {largest, largest, largest, 0, 0, MAREHOUR_DEMAND_TOO_LARGE},
        {demand, unfit_share, unfit_factor, 0, 0, MAREHOUR_FACTOR_OUT_OF_RANGE},
        {demand, largest, {LEAST_FACTOR - 1, GREATEST_FACTOR}, 0, 0, MAREHOUR_FACTOR_OUT_OF_RANGE},
        {demand, unfit_share, {LEAST_FACTOR, GREATEST_FACTOR}, 0, 0, MAREHOUR_SHARE_TOO_LARGE},
    };
    memcpy(forecasts, made, sizeof made);
}

/* FORECAST-3, FORECAST-4: what a call hands back that is lent enough; with the figures where it is no refusal. */
static int32_t expect_forecast(const struct vector *vector, const struct forecast *forecast, uint64_t *figures)
{
    int32_t own = vector->result;
    bool road_refused = own == -MAREHOUR_LINE_MALFORMED || (own < 0 && own > -MAREHOUR_DEMAND_TOO_LARGE);
    if (forecast->refusal != 0 && !road_refused) {
        return -forecast->refusal;
    }
    if (own < 0) {
        return own;
    }
    const uint64_t expected[MAREHOUR_FORECAST_FIGURES] = {
        forecast->best,  forecast->demand.low,  forecast->share.low,  forecast->factor.high,
        forecast->worst, forecast->demand.high, forecast->share.high, forecast->factor.low,
    };
    memcpy(figures, expected, sizeof expected);
    return MAREHOUR_FORECAST_FIGURES;
}

/* CALL-9, REFUSAL-17 */
static void check_ends(const struct calls *calls, const struct vector *vector, const uint8_t *line, const struct forecast *forecast,
                       size_t room, enum side side)
{
    uint64_t figures[MAREHOUR_FORECAST_FIGURES];
    const struct range *demand = &forecast->demand, *share = &forecast->share, *factor = &forecast->factor;
    uint8_t *buffer = fresh_buffer(room * sizeof *figures, side);
    int32_t expected = room < MAREHOUR_FORECAST_FIGURES ? -MAREHOUR_BUFFER_TOO_SHORT : expect_forecast(vector, forecast, figures);
    int32_t result = calls->forecast(line, vector->length, demand->low, demand->high, share->low, share->high, factor->low, factor->high,
                                     (uint64_t *)(void *)buffer, room);
    check_figures(vector, "forecast", room, buffer, result, expected, figures);
}

static void check_forecast(const struct calls *calls, const struct vector *vector)
{
    enum { FIGURES = MAREHOUR_FORECAST_FIGURES };
    static const size_t rooms[] = {0, 1, FIGURES - 1, FIGURES, FIGURES + 1, FIGURES + 17, LONGEST_BUFFER / 8};
    struct forecast forecasts[FORECASTS];
    make_forecasts(vector, forecasts);
    for (int sides = 0; sides < 4; sides++) {
        const uint8_t *line = lend(&line_fence, vector->line, vector->length, sides / 2 == 0 ? AT_START : AT_END);
        for (size_t i = 0; i < sizeof rooms / sizeof rooms[0]; i++) {
            for (size_t j = 0; j < FORECASTS; j++) {
                check_ends(calls, vector, line, &forecasts[j], rooms[i], sides % 2 == 0 ? AT_START : AT_END);
            }
        }
    }
}

/* The first line, the printed one, with a load that 8 and 9 refuse in the place of its own, asked with its own. */
static void check_other_load(const struct calls *calls)
{
    static const uint8_t line[] = "F\tE\t75400\t110\t20\t0\tD\t24\t2\t999999\t0\t99999\tR";
    struct vector other = answers[0];
    struct forecast forecasts[FORECASTS];
    make_forecasts(&answers[0], forecasts);
    other.line = line;
    other.length = sizeof line - 1;
    check_ends(calls, &other, lend(&line_fence, line, other.length, AT_END), &forecasts[0], MAREHOUR_FORECAST_FIGURES, AT_END);
}

static void check_forecasts(const struct calls *calls)
{
    check_other_load(calls);
    for (size_t i = 0; i < answer_count; i++) {
        check_forecast(calls, &answers[i]);
    }
}

/* CALL-10, TRIES-3: counts of tried demands: 67 for the first line, the printed one; the others within their ends. tests/compare/tries.rs works each
   out. */
static void check_tries(const struct calls *calls)
{
    check(calls->tries(answers[0].line, answers[0].length) == 67, "not 67 tries for the first line");
    for (size_t i = 0; i < answer_count; i++) {
        const struct vector *vector = &answers[i];
        int width = vector->length < 80 ? (int)vector->length : 80;
        for (enum side side = AT_START; side <= AT_END; side++) {
            int32_t result = calls->tries(lend(&line_fence, vector->line, vector->length, side), vector->length);
            bool fits = vector->result < 0 ? result == vector->result : result >= 1 && result <= MAREHOUR_MOST_TRIES;
            check(fits, "result %d for the tries of %.*s", result, width, (const char *)vector->line);
        }
    }
}

/* CALL-6 */
static void check_surveys(const struct calls *calls)
{
    for (size_t i = 0; i < survey_count; i++) {
        const struct survey *survey = &surveys[i];
        int32_t result = (survey->metric ? calls->survey_kmh : calls->survey_mph)(survey->speed, survey->cars, survey->flow);
        check(result == survey->result, "result %d, not %d, for survey %zu", result, survey->result, i + 1);
    }
}

/* SAFE-1, CALL-4: NULL with length 0, and a line with its newline, which is a byte that no field has. */
static void check_edges(const struct calls *calls)
{
    const struct vector *first = &answers[0];
    uint8_t buffer[MAREHOUR_ANSWER_SIZE], line[128];
    uint64_t demand = 1, numbers[MAREHOUR_DAILY_FIGURES] = {0, 1, 2, 3, 4, 5, 6, 7, 8, 9, 10, 11, 12, 13, 14, 15};
    size_t length = first->length < sizeof line ? first->length : 0;
    memcpy(line, first->line, length);
    line[length] = '\n';
    memset(buffer, 0xA5, sizeof buffer);
    check(calls->answer(NULL, 0, buffer, sizeof buffer) == -15, "answer: no line is not malformed");
    check(calls->lanes(NULL, 0, 3, buffer, sizeof buffer) == -15, "lanes: no line is not malformed");
    check(calls->lanes(NULL, 0, 9, buffer, sizeof buffer) == -15, "lanes: no line does not come before letter 9");
    check(calls->answer(line, length, NULL, 0) == -17, "answer: no buffer is not too short");
    check(calls->lanes(line, length, 3, NULL, 0) == -17, "lanes: no buffer is not too short");
    check(calls->answer(NULL, 0, NULL, 0) == -17, "answer: no buffer does not come before no line");
    check(calls->lanes(NULL, 0, 9, NULL, 0) == -17, "lanes: no buffer does not come before no line");
    check(calls->day(NULL, 0, &demand, 1, numbers, MAREHOUR_DAY_FIGURES) == -15, "day: no line is not malformed");
    check(calls->day(line, length, NULL, 0, numbers, MAREHOUR_DAY_FIGURES) == -18, "day: no demand is not unfit");
    check(calls->day(line, length, &demand, 1, NULL, 0) == -18, "day: no answers are not unfit");
    check(calls->day(NULL, 0, NULL, 0, NULL, 0) == -18, "day: no demand does not come before no line");
    check(calls->day(line, length + 1, &demand, 1, numbers, MAREHOUR_DAY_FIGURES) == -15, "day: a newline is not malformed");
    check(calls->daily(NULL, 0, 5, 0, 0, numbers, MAREHOUR_DAILY_FIGURES) == -15, "daily: no line does not come before a share of 0");
    check(calls->daily(line, length, 5, 0, 0, NULL, 0) == -17, "daily: no figures are not too short");
    check(calls->daily(NULL, 0, 5, HALF, WHOLE, NULL, 0) == -17, "daily: no figures do not come before no line");
    check(calls->daily(line, length + 1, 5, HALF, WHOLE, numbers, MAREHOUR_DAILY_FIGURES) == -15, "daily: a newline is not malformed");
    check(calls->forecast(NULL, 0, 1, 0, 1, 0, 1, 0, numbers, MAREHOUR_FORECAST_FIGURES) == -15,
          "forecast: no line does not come before reversed ends");
    check(calls->forecast(line, length, 5, 5, 5, 5, 900, 900, NULL, 0) == -17, "forecast: no figures are not too short");
    check(calls->forecast(NULL, 0, 1, 0, 1, 0, 1, 0, NULL, 0) == -17, "forecast: no figures do not come before no line");
    check(calls->forecast(line, length + 1, 5, 5, 5, 5, 900, 900, numbers, MAREHOUR_FORECAST_FIGURES) == -15,
          "forecast: a newline is not malformed");
    check(calls->tries(NULL, 0) == -15, "tries: no line is not malformed");
    check(calls->tries(line, length + 1) == -15, "tries: a newline is not malformed");
    check(calls->answer(line, length + 1, buffer, sizeof buffer) == -15, "answer: a newline is not malformed");
    check(calls->lanes(line, length + 1, 3, buffer, sizeof buffer) == -15, "lanes: a newline is not malformed");
    for (size_t i = 0; i < sizeof buffer; i++) {
        check(buffer[i] == 0xA5, "a refusal changed byte %zu", i);
    }
    for (size_t i = 0; i < MAREHOUR_DAILY_FIGURES; i++) {
        check(numbers[i] == i, "a refusal changed number %zu", i);
    }
}

/* Children */

/* Notes where an access failed; the access is then tried again and ends the child. */
static void note_address(int signal_number, siginfo_t *info, void *context)
{
    (void)signal_number, (void)context;
    report->fault_address = (uintptr_t)info->si_addr;
}

static void run_child(void (*checks)(const struct calls *), const struct calls *calls)
{
    struct sigaction action = {.sa_sigaction = note_address, .sa_flags = SA_SIGINFO | (int)SA_RESETHAND};
    sigaction(SIGSEGV, &action, NULL);
    alarm(SECONDS);
    checks(calls);
    _exit(report->differences > 0 || report->checks == 0);
}

static bool within(uintptr_t address, const uint8_t *start, size_t size)
{
    return address >= (uintptr_t)start && address < (uintptr_t)start + size;
}

static enum outcome outcome_at(uintptr_t address)
{
    if (within(address, line_fence.start - page_size, page_size)) {
        return DIED_BEFORE_THE_LINE;
    }
    if (within(address, line_fence.start, line_fence.size)) {
        return DIED_IN_THE_LINE;
    }
    if (within(address, line_fence.start + line_fence.size, page_size)) {
        return DIED_PAST_THE_LINE;
    }
    if (within(address, demands_fence.start - page_size, page_size)) {
        return DIED_BEFORE_THE_DEMANDS;
    }
    if (within(address, demands_fence.start, demands_fence.size)) {
        return DIED_IN_THE_DEMANDS;
    }
    if (within(address, demands_fence.start + demands_fence.size, page_size)) {
        return DIED_PAST_THE_DEMANDS;
    }
    if (within(address, buffer_fence.start - page_size, page_size)) {
        return DIED_BEFORE_THE_BUFFER;
    }
    if (within(address, buffer_fence.start + buffer_fence.size, page_size)) {
        return DIED_PAST_THE_BUFFER;
    }
    return DIED_OTHERWISE;
}

static enum outcome outcome_of(int status)
{
    if (WIFEXITED(status)) {
        return WEXITSTATUS(status) == 0 ? PASSED : DIFFERED;
    }
    return WTERMSIG(status) == SIGSEGV ? outcome_at(report->fault_address) : DIED_OTHERWISE;
}

/* Runs a set of checks in a child and says how it ended. */
static enum outcome outcome_in_child(void (*checks)(const struct calls *), const struct calls *calls)
{
    int status = 0;
    memset(report, 0, sizeof *report);
    fflush(stdout);
    pid_t child = fork();
    if (child == 0) {
        run_child(checks, calls);
    }
    if (child < 0 || waitpid(child, &status, 0) != child) {
        give_up("no child", "");
    }
    return outcome_of(status);
}

static const char *name_of(enum outcome outcome)
{
    static const char *names[] = {
        "passed",
        "differed",
        "died at the page before the line",
        "died at the page past the line",
        "died at a write into the line",
        "died at the page before the demands",
        "died at the page past the demands",
        "died at a write into the demands",
        "died at the page before the buffer",
        "died at the page past the buffer",
        "died otherwise",
    };
    return names[outcome];
}

/* 1 when the child did not end as it must, else 0. */
static int failed(const char *what, const char *set, enum outcome outcome, enum outcome wanted)
{
    if (outcome == wanted) {
        return 0;
    }
    printf("calls: %s, %s: %s, not %s (%ld checks, %ld differences) %s\n", what, set, name_of(outcome), name_of(wanted), report->checks,
           report->differences, report->first);
    return 1;
}

static int run_fault(const struct fault *fault, const char *set, void (*checks)(const struct calls *))
{
    struct calls calls = faulty_calls(fault);
    return failed(fault->name, set, outcome_in_child(checks, &calls), fault->outcome);
}

/* The library; adds the checks made. */
static int run_library(long *made)
{
    static const struct calls library = {marehour_answer,   marehour_lanes, marehour_day,        marehour_daily,
                                         marehour_forecast, marehour_tries, marehour_survey_mph, marehour_survey_kmh};
    static const struct {
        const char *name;
        void (*checks)(const struct calls *);
    } sets[] = {
        {"lines", check_answers},       {"lanes questions", check_lanes}, {"days", check_days},       {"daily traffics", check_dailies},
        {"forecasts", check_forecasts}, {"tries", check_tries},           {"surveys", check_surveys}, {"edges", check_edges},
    };
    int failures = 0;
    for (size_t i = 0; i < sizeof sets / sizeof sets[0]; i++) {
        failures += failed("the library", sets[i].name, outcome_in_child(sets[i].checks, &library), PASSED);
        *made += report->checks;
    }
    return failures;
}

/* Each fault of a list over a set of checks; adds how many were run. */
static int run_each(const struct fault *faults, size_t count, const char *set, void (*checks)(const struct calls *), int *run)
{
    int failures = 0;
    for (size_t i = 0; i < count; i++) {
        failures += run_fault(&faults[i], set, checks);
    }
    *run += (int)count;
    return failures;
}

/* The calls that are wrong on purpose; adds how many were run. */
static int run_faults(int *run)
{
    static const struct {
        const char *name;
        void (*checks)(const struct calls *);
    } lending[] = {
        {"lines", check_answers},          {"lanes questions", check_lanes}, {"days", check_days},
        {"daily traffics", check_dailies}, {"forecasts", check_forecasts},
    };
    int failures = run_each(&one_too_much, 1, "surveys", check_surveys, run) + run_each(&one_too_much, 1, "tries", check_tries, run);
    failures += run_each(line_faults, line_fault_count, "tries", check_tries, run);
    for (size_t i = 0; i < sizeof lending / sizeof lending[0]; i++) {
        failures += run_each(line_faults, line_fault_count, lending[i].name, lending[i].checks, run);
        failures += run_each(buffer_faults, buffer_fault_count, lending[i].name, lending[i].checks, run);
    }
    return failures + run_each(demand_faults, demand_fault_count, "days", check_days, run);
}

int main(void)
{
    long made = 0;
    int run = 0;
    read_answers();
    read_lanes();
    read_surveys();
    make_memory();
    int failures = run_library(&made);
    if (failures == 0) {
        failures = run_faults(&run);
    }
    printf("calls: %zu lines, each with its day, its daily traffics, its forecasts and its tries, %zu lanes questions, %zu surveys: %ld "
           "checks; %d wrong calls tried; %d failures\n",
           answer_count, lanes_count, survey_count, made, run, failures);
    return failures > 0;
}
