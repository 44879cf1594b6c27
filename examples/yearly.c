/* yearly: the yearly service table of a list of sections, by average daily traffic.

     yearly LETTER < LIST

   LETTER is the target, A to E. LIST has a row for each section, its fields parted by tabs: a name; U for an urban road, R for a rural one;
   the daily traffic of both directions together, one to ten digits; and the section's line (13 or 15 fields), whose own demand is not used.
   A row has at most 254 bytes. After a header there is a row for each section: name, daily traffic, hourly demand, letter, and the daily
   service volume of the target, which is the greatest daily traffic that meets it (DAILY-2). Of a section that is refused there are X and
   the refusal's number in the place of the last three.

   K, the peak hour's share of the daily traffic, is 0.09 on urban and 0.11 on rural roads, and D, the share of the busier direction in that
   hour, 0.55, as in Flávio André Carrola Soares, 'Desenvolvimento de aplicação para avaliação do nível de serviço em secções correntes de
   autoestradas com recurso ao HCM 7', Universidade da Beira Interior, 2024.

   yearly.out is what it prints for C and yearly.tsv: the printed line twice, five sections of that study by their numbers, a multilane
   highway, a freeway without snow and with it, and one that is refused. The study's lengths, in centimetres, are divided by 3, as the manual's
   metric edition has them; README.md tells of the other conversion, by the ruler.

   Exit status:

     0  everything is printed
     1  a row of the list is not as above, and its number is on standard error, or the list can't be read; the rows before are printed
     2  bad arguments
     3  standard output can't be written */
#include "host.h"
#include "marehour.h"
#include <inttypes.h>
#include <stdio.h>
#include <stdlib.h>
#include <string.h>

enum { URBAN_PEAK_SHARE = 90, RURAL_PEAK_SHARE = 110, DIRECTION_SHARE = 550 };

enum {
    ROW_SIZE = 256,
    LETTER = 0,        /* where the figures have the letter */
    DAILY_VOLUMES = 11 /* where the daily service volumes begin */
};

enum { DONE = 0, BAD_LIST = 1, BAD_ARGUMENTS = 2, NOT_WRITTEN = 3 };

struct section {
    const char *name;
    uint32_t peak_share;
    uint64_t daily_traffic;
    const char *line;
};

/* The field at the start of what is left of a row, which then begins behind the field's tab; NULL where no tab ends it. */
static char *next_field(char **rest)
{
    char *field = *rest;
    char *end = strchr(field, '\t');
    if (end == NULL) {
        return NULL;
    }
    *end = '\0';
    *rest = end + 1;
    return field;
}

static bool read_road(const char *text, uint32_t *peak_share)
{
    *peak_share = text[0] == 'U' ? URBAN_PEAK_SHARE : RURAL_PEAK_SHARE;
    return strcmp(text, "U") == 0 || strcmp(text, "R") == 0;
}

static bool read_traffic(const char *text, uint64_t *daily_traffic)
{
    size_t digits = strspn(text, "0123456789");
    *daily_traffic = strtoull(text, NULL, 10);
    return digits >= 1 && digits <= 10 && text[digits] == '\0';
}

/* Parts a row, which ends with a newline or with the list. */
static bool read_section(char *row, struct section *section)
{
    size_t length = strcspn(row, "\n");
    if (row[length] == '\0' && !feof(stdin)) {
        return false;
    }
    row[length] = '\0';
    char *rest = row;
    const char *name = next_field(&rest);
    const char *road = name == NULL ? NULL : next_field(&rest);
    const char *traffic = road == NULL ? NULL : next_field(&rest);
    section->name = name;
    section->line = rest;
    return traffic != NULL && read_road(road, &section->peak_share) && read_traffic(traffic, &section->daily_traffic);
}

/* DAILY-1, as the call has it; a daily traffic that is not refused is at most 4,000,000,000. */
static uint64_t hourly_demand(const struct section *section)
{
    return (section->daily_traffic * section->peak_share * DIRECTION_SHARE + 999999) / 1000000;
}

static void print_section(const struct section *section, uint32_t target)
{
    uint64_t figures[MAREHOUR_DAILY_FIGURES];
    int32_t result = marehour_daily((const uint8_t *)section->line, strlen(section->line), section->daily_traffic, section->peak_share,
                                    DIRECTION_SHARE, figures, MAREHOUR_DAILY_FIGURES);
    printf("%s\t%" PRIu64 "\t", section->name, section->daily_traffic);
    if (result < 0) {
        printf("X\t%d\n", (int)-result);
        return;
    }
    printf("%" PRIu64 "\t%c\t%" PRIu64 "\n", hourly_demand(section), (char)('A' + figures[LETTER] - MAREHOUR_LETTER_A),
           figures[DAILY_VOLUMES + target - MAREHOUR_LETTER_A]);
}

/* 0, or the number of the first row that is not as it must be. */
static unsigned long print_table(uint32_t target)
{
    char row[ROW_SIZE];
    unsigned long number = 1;
    printf("section\tdaily\thourly\tletter\tvolume of %c\n", (char)('A' + target - MAREHOUR_LETTER_A));
    for (; fgets(row, ROW_SIZE, stdin) != NULL; number++) {
        struct section section;
        if (!read_section(row, &section)) {
            return number;
        }
        print_section(&section, target);
    }
    return 0;
}

int main(int count, char **arguments)
{
    uint32_t target;
    if (count != 2 || !read_letter(arguments[1], &target)) {
        fprintf(stderr, "usage: yearly LETTER < LIST\nLETTER: A to E; LIST: rows of name, U or R, daily traffic and a section's line\n");
        return BAD_ARGUMENTS;
    }
    unsigned long bad = print_table(target);
    if (!all_written()) {
        fprintf(stderr, "yearly: standard output can't be written\n");
        return NOT_WRITTEN;
    }
    if (bad > 0) {
        fprintf(stderr, "yearly: row %lu is not a name, U or R, a daily traffic and a section's line\n", bad);
        return BAD_LIST;
    }
    if (ferror(stdin)) {
        fprintf(stderr, "yearly: the list can't be read\n");
        return BAD_LIST;
    }
    return DONE;
}
