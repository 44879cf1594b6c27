/* The lines of a file in memory, and the clock, for the programs that time calls. */
#ifndef LINES_H
#define LINES_H

#include <stddef.h>
#include <stdint.h>

struct line {
    const uint8_t *bytes;
    size_t length;
};

struct lines {
    struct line *all;
    size_t count;
};

/* Ends the program. */
void give_up(const char *why);

/* Room for count things of a size. */
void *room_for(size_t count, size_t size);

struct lines read_lines(const char *path);

/* Processor time of this program, nanoseconds. */
double now(void);

#endif
