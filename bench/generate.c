/* Writes lines for the benchmark to standard output: generate [COUNT], 1,000,000 unless told otherwise.

   Both kinds, both ways, clear weather in 13 fields, speeds 70,000 to 75,000, demands 0 to 20,000, of one line in sixteen 0 to 999,999,
   every other field anywhere within refusals 1 to 9. A freeway whose estimated speed falls below the lower end is refused with 10, as in
   real files; no other line is refused. The draws come from a linear congruential generator with a fixed seed in 32 bits: the bytes are the
   same on every machine. */
#include <inttypes.h>
#include <stdint.h>
#include <stdio.h>
#include <stdlib.h>

static uint32_t state = 1;

/* A number from low to high, by the upper bits of the state. */
static uint32_t draw(uint32_t low, uint32_t high)
{
    state = state * UINT32_C(1664525) + UINT32_C(1013904223);
    return low + (uint32_t)((uint64_t)state * (high - low + 1) >> 32);
}

static char draw_letter(const char *letters, uint32_t count)
{
    return letters[draw(0, count - 1)];
}

static void put_letter(char letter, char after)
{
    putchar(letter);
    putchar(after);
}

static void put_number(uint32_t low, uint32_t high)
{
    printf("%" PRIu32 "\t", draw(low, high));
}

static void put_line(void)
{
    char kind = draw_letter("FM", 2);
    int freeway = kind == 'F';
    put_letter(kind, '\t');
    put_letter(draw_letter("EG", 2), '\t');
    put_number(70000, 75000); /* speed */
    put_number(100, 200);     /* lane width */
    put_number(0, 400);       /* right clearance */
    put_number(0, 400);       /* left clearance */
    put_letter(freeway ? 'D' : draw_letter("UDT", 3), '\t');
    put_number(0, freeway ? 48 : 200);                /* ramps in six miles, or access points per mile */
    put_number(2, freeway ? 8 : 3);                   /* lanes */
    put_number(0, draw(0, 15) == 0 ? 999999 : 20000); /* demand */
    put_number(250, 1000);                            /* peak-hour factor */
    put_number(0, 1000);                              /* heavy share */
    put_letter(draw_letter("LR", 2), '\n');
}

int main(int argc, char **argv)
{
    long count = argc > 1 ? strtol(argv[1], NULL, 10) : 1000000;
    for (long i = 0; i < count; i++) {
        put_line();
    }
    return fflush(stdout) != 0 || ferror(stdout) != 0;
}
