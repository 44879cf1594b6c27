/* The calls of include/marehour.h as pointers, so that the same checks run over the library and over calls that are wrong on purpose. */
#ifndef CALLS_H
#define CALLS_H

#include <stddef.h>
#include <stdint.h>

struct calls {
    int32_t (*answer)(const uint8_t *line, size_t line_length, uint8_t *answer, size_t answer_length);
    int32_t (*lanes)(const uint8_t *line, size_t line_length, uint32_t letter, uint8_t *answer, size_t answer_length);
    int32_t (*day)(const uint8_t *line, size_t line_length, const uint64_t *demands, size_t demand_count, uint64_t *answers,
                   size_t answers_length);
    int32_t (*daily)(const uint8_t *line, size_t line_length, uint64_t daily_traffic, uint32_t peak_share, uint32_t direction_share,
                     uint64_t *figures, size_t figures_length);
    int32_t (*forecast)(const uint8_t *line, size_t line_length, uint64_t demand_low, uint64_t demand_high, uint64_t share_low,
                        uint64_t share_high, uint64_t factor_low, uint64_t factor_high, uint64_t *figures, size_t figures_length);
    int32_t (*tries)(const uint8_t *line, size_t line_length);
    int32_t (*survey_mph)(float speed, uint32_t cars, uint32_t flow);
    int32_t (*survey_kmh)(float speed, uint32_t cars, uint32_t flow);
};

/* How a child ends that runs a set of checks. */
enum outcome {
    PASSED,
    DIFFERED,             /* a result or a byte was not the expected one */
    DIED_BEFORE_THE_LINE, /* SIGSEGV, in the page right before it */
    DIED_PAST_THE_LINE,
    DIED_IN_THE_LINE, /* SIGSEGV at a write, since the line is read-only while it is lent */
    DIED_BEFORE_THE_DEMANDS,
    DIED_PAST_THE_DEMANDS,
    DIED_IN_THE_DEMANDS, /* as the line */
    DIED_BEFORE_THE_BUFFER,
    DIED_PAST_THE_BUFFER,
    DIED_OTHERWISE
};

/* What a call was lent, lengths in bytes. */
struct lent {
    const uint8_t *line;
    size_t line_length;
    const uint8_t *demands; /* of a day only */
    size_t demands_length;
    uint8_t *answer;
    size_t answer_length;
};

/* Something that the library does not do and the checks must notice. What is done after a call is told its result and how many bytes it
   wrote. */
struct fault {
    const char *name;
    void (*before)(const struct lent *lent);
    int32_t (*after)(int32_t result, size_t written, const struct lent *lent);
    enum outcome outcome;
};

extern const struct fault line_faults[];
extern const size_t line_fault_count;
extern const struct fault buffer_faults[]; /* for calls that lend a buffer only */
extern const size_t buffer_fault_count;
extern const struct fault demand_faults[]; /* for days only */
extern const size_t demand_fault_count;
extern const struct fault one_too_much; /* for calls that lend no buffer */

/* The library's calls with a fault, one at a time. */
struct calls faulty_calls(const struct fault *fault);

#endif
