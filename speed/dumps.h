/* The value change dumps that the dump readers are timed and compared on. */
#ifndef DUMPS_H
#define DUMPS_H

#include "kinds.h"
#include "master.h"

/* How a dump is written; 0: four wires, a time to a line and a value to a line, as most analysers do it. */
enum {
    TWO_SKIPPED = 1,   /* two wires more, which no reader wants */
    ON_ONE_LINE = 2,   /* a time and its values on one line, and a last time with none, as sigrok does it */
    SDA_OF_MASTER = 4, /* SDA as the master alone gives it, so that whatever the part pulls low disagrees */
    ANY_BLANKS = 8,    /* blanks of every kind, longer codes, comments, aliases, z on SDA, x and z on skipped wires */
    ONE_TIME = 16,     /* the first sample alone */
};

/* A dump of at most `room` bytes, which are 500 or more, and unless it is ONE_TIME at least room - 60: the mix on a part of this
 * kind, select 0, from power-up on with this array, as the C twin answers it. SDA is the line's, master and part together; but as
 * if worn the part leaves it high in one of 32 samples in which it should pull it low. Answers the length. */
size_t make_dump(uint8_t *text, size_t room, const struct kind *kind, uint8_t stored, const uint8_t *array, unsigned form,
                 uint32_t seed);

/* The samples of a capture as a dump, those that change something, in a form; answers its length. Each but the first is at least a
 * microsecond after the one before. `m` gives the random numbers. */
size_t dump_capture(uint8_t *text, size_t room, const uint32_t *elapsed, const uint8_t *levels, size_t count, unsigned form,
                    struct master *m);

/* For comparison only: up to DAMAGES times some bytes, tokens or lines of a dump are changed, put in, doubled or lost. The text
 * has room for DAMAGE_ROOM bytes more than the dump. Answers the length. */
enum { DAMAGES = 4, DAMAGE_ROOM = DAMAGES * 100 };
size_t damaged_dump(uint8_t *text, const uint8_t *from, size_t length, struct master *m);

#endif
