/* What the checks of the C twin share: one capture with its answers and array, and what can be seen of
 * them from outside. */
#ifndef CHECKING_H
#define CHECKING_H

#include "kinds.h"
#include "master.h"

enum { ROOM = 65536, OWN_SDA = 1, PIN = 2, WRITING = 4 };

extern uint32_t elapsed[ROOM];
extern uint8_t levels[ROOM], answers[ROOM], array[LARGER];
extern int failures;

void expect(bool holds, const char *what);

/* An empty capture, and an array of FFh. */
void begin(struct master *m);

void replay(const struct master *m, uint16_t part, uint8_t stored);

/* The byte that a read of one byte gave, when `end` is the length after its stop. */
uint8_t byte_read(size_t end);

/* Whether the byte sent last was acknowledged, when `end` is the length after it. */
bool acknowledged(size_t end);

/* cut_check.c: stops inside a byte. */
void check_cuts(uint16_t part);

#endif
