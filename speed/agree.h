/* That the proved code and the C give the same reply, answers, array and text. */
#ifndef AGREE_H
#define AGREE_H

#include "jobs.h"

/* Each prints what differs, and answers whether nothing does. */
bool agree_on_job(const struct input *input);
bool agree_on_refusals(void); /* one or more inputs on each part for each refusal that the door can give */
bool agree_on_blocks(void);   /* on each part: every block code, where a block may begin or end */
bool agree_on_cuts(void);     /* on each part: stops inside a byte, at every number of its bits */
bool agree_on_random(void);   /* on each part: rough captures, texts with a few bytes changed, records at odd places, arrays */

#endif
