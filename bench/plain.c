/* The program los in plain C, for comparison: lines from standard input, one answer a line to standard output. */
#define _POSIX_C_SOURCE 200809L
#include "section.h"
#include <stdbool.h>
#include <string.h>
#include <unistd.h>

enum { IN_SIZE = 65536, OUT_SIZE = 131072, TOO_LONG = 81 };

static uint8_t in[IN_SIZE], out[OUT_SIZE];
static size_t held, written;

static bool flush(void)
{
    size_t done = 0;
    while (done < written) {
        ssize_t put = write(STDOUT_FILENO, out + done, written - done);
        if (put <= 0) {
            return false;
        }
        done += (size_t)put;
    }
    written = 0;
    return true;
}

static void put_refusal(int32_t number)
{
    out[written++] = 'X';
    out[written++] = '\t';
    if (number > 9) {
        out[written++] = (uint8_t)('0' + number / 10);
    }
    out[written++] = (uint8_t)('0' + number % 10);
    out[written++] = '\n';
}

static bool answer_line(const uint8_t *line, size_t length)
{
    if (written + LONGEST_ANSWER > OUT_SIZE && !flush()) {
        return false;
    }
    int32_t result = plain_answer(line, length, out + written, OUT_SIZE - written);
    if (result < 0) {
        put_refusal(-result);
    } else {
        written += (size_t)result;
    }
    return true;
}

/* The index of the first newline from a place on, or the count of bytes held. */
static size_t find_newline(size_t from)
{
    while (from < held && in[from] != '\n') {
        from++;
    }
    return from;
}

/* Answers the whole lines that are held and moves the rest to the start; of a line that is too long, no more than shows that it is. */
static bool answer_held(void)
{
    size_t at = 0, end;
    while ((end = find_newline(at)) < held) {
        if (!answer_line(in + at, end - at)) {
            return false;
        }
        at = end + 1;
    }
    held -= at;
    if (held > TOO_LONG) {
        held = TOO_LONG;
    }
    memmove(in, in + at, held);
    return true;
}

int main(void)
{
    ssize_t got;
    while ((got = read(STDIN_FILENO, in + held, IN_SIZE - held)) > 0) {
        held += (size_t)got;
        if (!answer_held()) {
            return 0;
        }
    }
    if (held > 0 && !answer_line(in, held)) {
        return 0;
    }
    flush();
    return 0;
}
