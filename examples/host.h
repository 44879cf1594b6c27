/* What the example hosts share. */
#ifndef HOST_H
#define HOST_H

#include <stdbool.h>
#include <stdint.h>

/* Reads a target letter, A to E, as the number that a call takes; false where the text is none. */
bool read_letter(const char *text, uint32_t *number);

/* Closes standard output: whether all that was printed is written. */
bool all_written(void);

#endif
