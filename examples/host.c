#include "host.h"
#include "marehour.h"
#include <stdio.h>

bool read_letter(const char *text, uint32_t *number)
{
    if (text[0] < 'A' || text[0] > 'E' || text[1] != '\0') {
        return false;
    }
    *number = (uint32_t)(text[0] - 'A') + MAREHOUR_LETTER_A;
    return true;
}

/* What is still held is written here, so a full disk may show only now. */
bool all_written(void)
{
    bool sound = !ferror(stdout);
    return fclose(stdout) == 0 && sound;
}
