/* The captures that replay is timed on. */
#ifndef CAPTURES_H
#define CAPTURES_H

#include "master.h"

/* Each fills the master's whole room, from power-up on. Where the watchdog is to run is the stored control byte's choice. */
void capture_mix(struct master *m);    /* page writes, polling, random and sequential reads, register writes and reads */
void capture_reads(struct master *m);  /* long sequential reads */
void capture_pages(struct master *m);  /* whole pages, each followed by polling through its write time */
void capture_idle(struct master *m);   /* both lines high */
void capture_reset(struct master *m);  /* the mix with VCC low throughout */
void capture_edges(struct master *m);  /* a start or a stop at every sample */

/* For comparison only. */
void capture_places(struct master *m); /* a byte written and two read at each place where a block may begin or end, and before it */
void capture_cut_pages(struct master *m);     /* a stop after each number of bits of the byte after whole ones */
void capture_cut_registers(struct master *m); /* the same of each step's register byte, and of one after it */
void capture_rough(struct master *m, uint8_t select); /* mostly to this select; wrong turns, VCC drops, WP, long waits, noise */

#endif
