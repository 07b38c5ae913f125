/* The four parts: what a part's number decides. Sizes stand here and in the table of kinds.c alone. */
#ifndef KINDS_H
#define KINDS_H

#include <stdbool.h>
#include <stddef.h>
#include <stdint.h>

enum { KINDS = 4 };
enum { SMALLER = 4096, LARGER = 16384 };            /* bytes of an array; both are powers of two */
enum { SMALLER_TEXT = 11276, LARGER_TEXT = 45068 }; /* of the longest image of one: what its writer asks for */

struct kind {
    uint16_t part;
    bool reset_high; /* the RESET pin's level while reset is active */
    uint32_t bytes, text;
    uint32_t upper[3]; /* the first place that BP codes 0, 1 and 2 lock, and with it all after it; `bytes`: none */
};

extern const struct kind kinds[KINDS];

/* NULL where no part has that number. */
const struct kind *kind_of(uint16_t part);

#endif
