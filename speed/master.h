/* A bus master that writes a capture: each of its moves is one sample or a few. It does not see the part's answers;
 * where a real master would wait for one, it goes by time. */
#ifndef MASTER_H
#define MASTER_H

#include <stdbool.h>
#include <stddef.h>
#include <stdint.h>

enum { SCL_HIGH = 1, SDA_HIGH = 2, WP_HIGH = 4, VCC_GOOD = 8 };

struct master {
    uint32_t *elapsed;
    uint8_t *levels;
    size_t room, length; /* samples beyond the room are lost: a capture is cut where it is full */
    uint32_t places;     /* of the array that it talks to */
    uint8_t pins;        /* WP and VCC, as they stand in every sample */
    uint8_t scl, sda;
    uint32_t random;
    uint64_t clock; /* microseconds since the first sample */
};

void master_begin(struct master *m, uint32_t *elapsed, uint8_t *levels, size_t room, uint32_t places, uint32_t seed);
bool master_full(const struct master *m);
uint32_t master_random(struct master *m, uint32_t below);

/* One sample with these lines, so many microseconds after the one before. */
void master_lines(struct master *m, uint8_t scl, uint8_t sda, uint32_t elapsed);

void master_idle(struct master *m, size_t samples, uint32_t elapsed);
void master_end_reset(struct master *m); /* three idle samples, the last of which ends reset after power-up */
void master_start(struct master *m);     /* also a repeated one, while SCL is low */
void master_stop(struct master *m);
void master_bit(struct master *m, uint8_t sda);
void master_bits(struct master *m, uint8_t byte, unsigned count); /* the first of a byte's bits, eight at most */
void master_send(struct master *m, uint8_t byte);  /* eight bits, and a clock with SDA released for the acknowledge */
void master_take(struct master *m, bool go_on);    /* eight clocks with SDA released, then low to go on */
void master_address(struct master *m, uint8_t select, uint16_t address); /* start, slave byte for writing, address */
void master_register(struct master *m, uint8_t select, uint8_t value);   /* a whole write of the control register */
void master_read(struct master *m, uint8_t select, size_t count);        /* (repeated) start, slave byte, bytes, stop */
void master_poll(struct master *m, uint8_t select); /* slave bytes until the write time of the last stop is over */

#endif
