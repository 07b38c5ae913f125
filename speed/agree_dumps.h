/* That the proved code and the C give the same reply, array and places for dumps. */
#ifndef AGREE_DUMPS_H
#define AGREE_DUMPS_H

#include "jobs.h"

/* Each prints what differs, and answers whether nothing does. */
bool agree_on_dump_job(const struct input *input);
bool agree_on_dumps(void); /* on each part: refused calls, short dumps with their lines, long ones, sound and damaged random ones */

#endif
