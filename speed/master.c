/* Three samples a bit at 100,000 bits a second: SDA is set while SCL is low, SCL rises, SCL falls. */
#include "master.h"

enum { SET = 3, RISE = 3, FALL = 4, WRITE_TIME = 5000 };

void master_begin(struct master *m, uint32_t *elapsed, uint8_t *levels, size_t room, uint32_t places, uint32_t seed)
{
    *m = (struct master){.elapsed = elapsed, .levels = levels, .room = room, .places = places, .pins = VCC_GOOD,
                         .scl = 1, .sda = 1, .random = seed * 2654435761u | 1};
}

bool master_full(const struct master *m)
{
    return m->length == m->room;
}

/* xorshift: the same captures everywhere */
uint32_t master_random(struct master *m, uint32_t below)
{
    m->random ^= m->random << 13;
    m->random ^= m->random >> 17;
    m->random ^= m->random << 5;
    return m->random % below;
}

void master_lines(struct master *m, uint8_t scl, uint8_t sda, uint32_t elapsed)
{
    m->scl = scl;
    m->sda = sda;
    if (master_full(m))
        return;
    m->elapsed[m->length] = elapsed;
    m->levels[m->length] = (uint8_t)(m->pins | (scl ? SCL_HIGH : 0) | (sda ? SDA_HIGH : 0));
    m->length++;
    m->clock += elapsed;
}

void master_idle(struct master *m, size_t samples, uint32_t elapsed)
{
    for (size_t i = 0; i < samples; i++)
        master_lines(m, 1, 1, elapsed);
}

void master_end_reset(struct master *m)
{
    master_idle(m, 1, 0);
    master_idle(m, 2, 100000);
}

void master_start(struct master *m)
{
    if (!m->scl) {
        master_lines(m, 0, 1, SET);
        master_lines(m, 1, 1, RISE);
    }
    master_lines(m, 1, 0, SET);
    master_lines(m, 0, 0, FALL);
}

void master_stop(struct master *m)
{
    master_lines(m, 0, 0, SET);
    master_lines(m, 1, 0, RISE);
    master_lines(m, 1, 1, FALL);
}

void master_bit(struct master *m, uint8_t sda)
{
    master_lines(m, 0, sda, SET);
    master_lines(m, 1, sda, RISE);
    master_lines(m, 0, sda, FALL);
}

void master_bits(struct master *m, uint8_t byte, unsigned count)
{
    for (unsigned i = 0; i < count; i++)
        master_bit(m, byte >> (7 - i) & 1);
}

void master_send(struct master *m, uint8_t byte)
{
    master_bits(m, byte, 8);
    master_bit(m, 1);
}

void master_take(struct master *m, bool go_on)
{
    for (int i = 0; i < 8; i++)
        master_bit(m, 1);
    master_bit(m, !go_on);
}

void master_address(struct master *m, uint8_t select, uint16_t address)
{
    master_start(m);
    master_send(m, (uint8_t)(0xA0 | select << 1));
    master_send(m, (uint8_t)(address >> 8));
    master_send(m, (uint8_t)address);
}

void master_register(struct master *m, uint8_t select, uint8_t value)
{
    master_address(m, select, 0xFFFF);
    master_send(m, value);
    master_stop(m);
}

void master_read(struct master *m, uint8_t select, size_t count)
{
    master_start(m);
    master_send(m, (uint8_t)(0xA1 | select << 1));
    for (size_t i = 1; i <= count; i++)
        master_take(m, i < count);
    master_stop(m);
}

void master_poll(struct master *m, uint8_t select)
{
    uint64_t stopped = m->clock;
    bool writing = true;

    while (writing && !master_full(m)) {
        writing = m->clock - stopped < WRITE_TIME;
        master_start(m);
        master_send(m, (uint8_t)(0xA0 | select << 1));
        master_stop(m);
    }
}
