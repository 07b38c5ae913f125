/* A C twin of the X4323 and X4325 and of their larger sisters X4283 and X4285, written from the rules alone: the measure that
 * the proved code is held against. */
#ifndef TWIN_H
#define TWIN_H

#include <stddef.h>
#include <stdint.h>

/* Powers a part up and replays a capture on it. Parameters, reply and answer are those of the door's qillampu_replay:
 * reply[0] is 0 or the refusal number, reply[1] the sample count or the refusal's place. */
uint8_t ctwin_replay(uint16_t part, uint8_t select, uint8_t stored,
                     const uint32_t *elapsed, size_t elapsed_len,
                     const uint8_t *levels, size_t levels_len,
                     uint8_t *array, size_t array_len,
                     uint8_t *answers, size_t answers_len,
                     uint64_t *reply, size_t reply_len);

#endif
