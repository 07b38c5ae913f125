/* Short dumps with what becomes of each, worked out by hand from the papers. */
#ifndef DUMP_CASES_H
#define DUMP_CASES_H

#include <stddef.h>
#include <stdint.h>

struct dump_case {
    const char *text;
    size_t length;
    unsigned number; /* 0: accepted, with no disagreement */
    uint64_t line;
};

extern const struct dump_case dump_cases[];
extern const size_t dump_case_count;

#endif
