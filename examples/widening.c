/* widening: the first year in which a section must be wider, and the first in which no widening suffices.

     widening LINE GROWTH LETTER YEARS

   LINE is a section's line (13 or 15 fields parted by tabs), GROWTH the yearly growth of its demand in thousandths, LETTER the target, A to
   E, YEARS how many years to look ahead. For each year, from 0 for the section as given, a row: year, demand, letter, and the lanes that
   the target needs, or 'none' where no lane count meets it. The rows end before a demand above 999,999, which no line can hold (LINE-2).

   The last lines, each where it holds:

     demand passes 999999 in year N       the first year without a row
     must be wider in year N              the first year in which some lane count meets the target, and the section's own does not (in snow,
                                          on an estimated speed, see the row's lanes)
     need not be wider in years 0 to N    the section meets the target in these years
     no widening suffices from year N     no lane count meets the target in that year or in a later one

   The demand never falls, so once no lane count meets the target, none does later (SHAPE-1). None does with a demand above 999,999 either:
   no service volume is above 19,200.

   widening.out is what it prints for the first line of sections.tsv, 30, C and 12.

   Exit status:

     0  everything is printed
     1  a call refuses the section: the refusal's number is on standard error
     2  bad arguments
     3  standard output can't be written */
#include "host.h"
#include "marehour.h"
#include <stdio.h>
#include <stdlib.h>
#include <string.h>

enum {
    DEMAND_FIELD = 10,
    LINE_SIZE = 81 /* 80 bytes and the zero byte */
};

enum { DONE = 0, REFUSED = 1, BAD_ARGUMENTS = 2, NOT_WRITTEN = 3 };

struct plan {
    const char *line;
    unsigned long growth;
    uint32_t target;
    unsigned long years;
};

struct year {
    char letter;
    unsigned long lanes_needed; /* 0: no lane count meets the target */
};

/* The first year of each sort, or the year after the last one looked at. */
struct first_years {
    unsigned long passed; /* the demand is above MAREHOUR_GREATEST_DEMAND */
    unsigned long narrow; /* some lane count meets the target, and the section's own does not */
    unsigned long unmet;  /* no lane count meets the target */
};

static int usage(void)
{
    fprintf(stderr, "usage: widening LINE GROWTH LETTER YEARS\n"
                    "LINE: 13 or 15 fields parted by tabs; GROWTH: thousandths a year, 0 to 99999; LETTER: A to E; YEARS: 0 to 99999\n");
    return BAD_ARGUMENTS;
}

/* One to five digits. */
static bool read_number(const char *text, unsigned long *number)
{
    size_t digits = strspn(text, "0123456789");
    if (digits < 1 || digits > 5 || text[digits] != '\0') {
        return false;
    }
    *number = strtoul(text, NULL, 10);
    return true;
}

static uint32_t letter_number(char letter)
{
    return (uint32_t)(letter - 'A') + MAREHOUR_LETTER_A;
}

static bool read_plan(int count, char **arguments, struct plan *plan)
{
    if (count != 5) {
        return false;
    }
    plan->line = arguments[1];
    return read_number(arguments[2], &plan->growth) && read_letter(arguments[3], &plan->target) && read_number(arguments[4], &plan->years);
}

/* Where the n-th field of a well-formed line begins, the first being 1. */
static const char *field(const char *line, int n)
{
    for (; n > 1; n--) {
        line = strchr(line, '\t') + 1;
    }
    return line;
}

/* A well-formed line with another demand. */
static void with_demand(const char *line, unsigned long demand, char *changed)
{
    const char *start = field(line, DEMAND_FIELD);
    const char *end = strchr(start, '\t');
    snprintf(changed, LINE_SIZE, "%.*s%lu%s", (int)(start - line), line, demand, end);
}

/* 0 and the year, or minus a refusal's number. */
static int32_t ask(const char *line, uint32_t target, struct year *year)
{
    uint8_t answer[MAREHOUR_ANSWER_SIZE];
    const uint8_t *bytes = (const uint8_t *)line;
    int32_t result = marehour_answer(bytes, strlen(line), answer, sizeof answer);
    if (result < 0) {
        return result;
    }
    year->letter = (char)answer[0];
    result = marehour_lanes(bytes, strlen(line), target, answer, sizeof answer);
    if (result < 0 && result != -MAREHOUR_NO_LANE_COUNT) {
        return result;
    }
    year->lanes_needed = result < 0 ? 0 : (unsigned long)(answer[0] - '0');
    return 0;
}

static void print_year(unsigned long number, unsigned long demand, const struct year *year)
{
    printf("%lu\t%lu\t%c\t", number, demand, year->letter);
    if (year->lanes_needed == 0) {
        printf("none\n");
    } else {
        printf("%lu\n", year->lanes_needed);
    }
}

static void keep_earlier(unsigned long *first, unsigned long number)
{
    if (number < *first) {
        *first = number;
    }
}

/* The demand of the next year, rounded up. */
static unsigned long grown(unsigned long demand, unsigned long growth)
{
    return (unsigned long)(((uint64_t)demand * (1000 + growth) + 999) / 1000);
}

static int refused(int32_t result)
{
    fprintf(stderr, "widening: the section is refused with %d\n", (int)-result);
    return REFUSED;
}

static void print_verdict(const struct plan *plan, const struct first_years *first)
{
    if (first->passed <= plan->years) {
        printf("demand passes %d in year %lu\n", MAREHOUR_GREATEST_DEMAND, first->passed);
    }
    if (first->narrow <= plan->years) {
        printf("must be wider in year %lu\n", first->narrow);
    } else if (first->unmet > 0) {
        printf("need not be wider in years 0 to %lu\n", first->unmet - 1);
    }
    if (first->unmet <= plan->years) {
        printf("no widening suffices from year %lu\n", first->unmet);
    }
}

/* Prints the rows of a section that is accepted; 0, or minus a refusal's number. */
static int32_t print_rows(const struct plan *plan, struct first_years *first)
{
    unsigned long demand = strtoul(field(plan->line, DEMAND_FIELD), NULL, 10);
    unsigned long number;
    printf("year\tdemand\tletter\tlanes\n");
    for (number = 0; number <= plan->years && demand <= MAREHOUR_GREATEST_DEMAND; number++) {
        char line[LINE_SIZE];
        struct year year;
        with_demand(plan->line, demand, line);
        int32_t result = ask(line, plan->target, &year);
        if (result < 0) {
            return result;
        }
        print_year(number, demand, &year);
        if (year.lanes_needed == 0) {
            keep_earlier(&first->unmet, number);
        } else if (letter_number(year.letter) > plan->target) {
            keep_earlier(&first->narrow, number);
        }
        demand = grown(demand, plan->growth);
    }
    first->passed = number; /* the year after the last, where all have a row */
    keep_earlier(&first->unmet, number);
    return 0;
}

static int print_years(const struct plan *plan)
{
    unsigned long after = plan->years + 1;
    struct first_years first = {after, after, after};
    int32_t result = print_rows(plan, &first);
    if (result < 0) {
        return refused(result);
    }
    print_verdict(plan, &first);
    if (!all_written()) {
        fprintf(stderr, "widening: standard output can't be written\n");
        return NOT_WRITTEN;
    }
    return DONE;
}

int main(int count, char **arguments)
{
    struct plan plan;
    struct year now;
    if (!read_plan(count, arguments, &plan)) {
        return usage();
    }
    int32_t result = ask(plan.line, plan.target, &now);
    return result < 0 ? refused(result) : print_years(&plan);
}
