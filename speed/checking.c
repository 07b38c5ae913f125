#include "checking.h"

#include "twin.h"

#include <stdio.h>
#include <string.h>

uint32_t elapsed[ROOM];
uint8_t levels[ROOM], answers[ROOM], array[LARGER];
int failures;

void expect(bool holds, const char *what)
{
    if (holds)
        return;
    printf("FAIL %s\n", what);
    failures++;
}

void begin(struct master *m)
{
    master_begin(m, elapsed, levels, ROOM, LARGER, 1);
    memset(array, 0xFF, sizeof array);
}

void replay(const struct master *m, uint16_t part, uint8_t stored)
{
    uint64_t reply[2];
    size_t array_len = part == 4323 || part == 4325 ? 4096 : 16384;
    ctwin_replay(part, 0, stored, elapsed, m->length, levels, m->length, array, array_len, answers, m->length, reply, 2);
    expect(reply[0] == 0 && reply[1] == m->length, "a capture is accepted with its length");
}

/* 3 samples stop, 3 the ninth clock, before them the falls that put bits 7 to 0 on SDA, the first of them
 * the slave byte's ninth. */
uint8_t byte_read(size_t end)
{
    uint8_t byte = 0;
    for (size_t bit = 0; bit < 8; bit++)
        byte = (uint8_t)(byte << 1 | (answers[end - 3 - 27 - 1 + 3 * bit] & OWN_SDA));
    return byte;
}

bool acknowledged(size_t end)
{
    return !(answers[end - 2] & OWN_SDA);
}
