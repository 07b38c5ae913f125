/* A C reader of value change dumps on the C twin, written from the rules alone, to hold the proved one against. */
#ifndef DUMP_H
#define DUMP_H

#include <stddef.h>
#include <stdint.h>

/* Powers a part up, replays a whole dump on it and reports where they disagree. Parameters, reply and answer are those of the
 * door's qillampu_replay_dump. The answer is 1, and
 *   reply[0] = 0              accepted; reply[1] is the number of disagreements. The array is as the replay leaves it, and `places`
 *                             holds the samples that disagree, ascending; where there are more than it has room for, the first ones
 *   reply[0] = 1, 2, 3 or 5   refused as by qillampu_replay; reply[1] is 0
 *   reply[0] = 20 to 23       the dump is refused; reply[1] is the line
 * On a refusal nothing but the reply has changed. If reply_len is not 2 the answer is 0, and nothing was done. */
uint8_t cdump_replay(uint16_t part, uint8_t select, uint8_t stored,
                     const uint8_t *dump, size_t dump_len,
                     uint8_t *array, size_t array_len,
                     uint64_t *places, size_t places_len,
                     uint64_t *reply, size_t reply_len);

#endif
