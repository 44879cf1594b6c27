/* The lines of a file in memory, and the clock. */
#define _POSIX_C_SOURCE 200809L
#include "lines.h"
#include <stdio.h>
#include <stdlib.h>
#include <string.h>
#include <time.h>

void give_up(const char *why)
{
    fprintf(stderr, "bench: %s\n", why);
    exit(1);
}

void *room_for(size_t count, size_t size)
{
    void *room = calloc(count, size);
    if (room == NULL) {
        give_up("no memory");
    }
    return room;
}

static uint8_t *read_file(const char *path, size_t *size)
{
    FILE *file = fopen(path, "rb");
    if (file == NULL || fseek(file, 0, SEEK_END) != 0) {
        give_up("cannot read the lines");
    }
    long end = ftell(file);
    uint8_t *bytes = room_for((size_t)end + 1, 1);
    rewind(file);
    if (fread(bytes, 1, (size_t)end, file) != (size_t)end) {
        give_up("cannot read the lines");
    }
    fclose(file);
    *size = (size_t)end;
    return bytes;
}

struct lines read_lines(const char *path)
{
    size_t size;
    const uint8_t *bytes = read_file(path, &size);
    struct lines lines = {room_for(size / 2 + 1, sizeof *lines.all), 0};
    for (const uint8_t *at = bytes, *end; (end = memchr(at, '\n', (size_t)(bytes + size - at))) != NULL; at = end + 1) {
        lines.all[lines.count++] = (struct line){at, (size_t)(end - at)};
    }
    return lines;
}

double now(void)
{
    struct timespec t;
    clock_gettime(CLOCK_PROCESS_CPUTIME_ID, &t);
    return (double)t.tv_sec * 1e9 + (double)t.tv_nsec;
}
