/* Refusals 1 to 10. All of them are found before the first sample is stepped, so that a refusal changes nothing. */
#include "twin_state.h"

static struct refusal refused(uint64_t number, uint64_t place)
{
    return (struct refusal){number, place};
}

static bool latches_stored(uint8_t stored)
{
    return stored & (RWEL | WEL);
}

struct refusal power_up_refusal(uint16_t part, uint8_t select, uint8_t stored)
{
    if (kind_of(part) == NULL)
        return refused(1, 0);
    if (select > 3)
        return refused(2, 0);
    if (latches_stored(stored))
        return refused(3, 0);
    return refused(0, 0);
}

static bool in_range(const struct twin *s)
{
    const struct kind *kind = kind_of(s->kind.part);

    return kind != NULL && s->counter < kind->bytes && s->committed <= 8 && s->write_left <= WRITE_TIME &&
           s->hold <= RESET_HOLD && s->watchdog_left <= LONGEST_WATCHDOG && s->select <= 3 && !latches_stored(s->stored);
}

struct refusal replay_refusal(const struct twin *s, const uint32_t *elapsed, size_t elapsed_len,
                              const uint8_t *levels, size_t levels_len, size_t array_len, size_t answers_len)
{
    if (!in_range(s))
        return refused(4, 0);
    if (array_len != s->kind.bytes)
        return refused(5, 0);
    if (elapsed_len != levels_len)
        return refused(6, 0);
    if (levels_len > MOST_SAMPLES)
        return refused(7, 0);
    if (answers_len != levels_len)
        return refused(8, 0);
    for (size_t i = 0; i < levels_len; i++) {
        if (elapsed[i] > MOST_ELAPSED)
            return refused(9, i);
        if (levels[i] > MOST_LEVEL)
            return refused(10, i);
    }
    return refused(0, 0);
}
