/* The C twin's state and figures: for twin.c, which steps it, refusals.c, which looks at its ranges, and whoever replays more than
 * one row on it. */
#ifndef TWIN_STATE_H
#define TWIN_STATE_H

#include "kinds.h"

enum { PAGE_BYTES = 64, MOST_SAMPLES = 65536, MOST_ELAPSED = 100000, MOST_LEVEL = 15 };
enum { WRITE_TIME = 5000, RESET_HOLD = 200000, LONGEST_WATCHDOG = 1400000 };
enum { SCL = 1, SDA = 2, WP = 4, VCC = 8 };
enum { WPEN = 0x80, RWEL = 0x04, WEL = 0x02, NONVOLATILE = 0xF9 };

/* What the next bits on the wire are. QUIET covers idle, silent and deaf: in all three only a start is heard. */
enum phase { QUIET, SLAVE, ADDRESS_HIGH, ADDRESS_LOW, ARRAY_DATA, REGISTER_DATA, READ_TURN, READ_ARRAY, READ_REGISTER };

struct twin {
    struct kind kind; /* a copy, so that a step finds it beside the rest */
    uint8_t select;
    uint8_t stored; /* the control byte without its two latches */
    bool wel, rwel;

    uint32_t write_left, hold, watchdog_left;
    bool watchdog_runs, reset, low_vcc;

    bool scl, sda; /* the lines as the sample before left them; sda is the line, not the outside level */
    bool own;      /* the level that the part itself gives on SDA */
    bool taken, bit;
    uint8_t committed, shift;

    enum phase phase;
    uint16_t counter;
    uint8_t address_high, sent, pending_byte;
    bool register_chosen, pending;

    bool any_loaded; /* some mark is set: spares a search of the marks at each start and stop */
    uint8_t load[PAGE_BYTES];
    bool loaded[PAGE_BYTES];
};

void power_up(struct twin *s, const struct kind *kind, uint8_t select, uint8_t stored);

/* Steps sample by sample, and leaves the state for the row after this one. No refusal is looked for here. */
void run_samples(struct twin *state, uint8_t *array, const uint32_t *elapsed, const uint8_t *levels, uint8_t *answers,
                 size_t count);

/* A refusal number, 0 for none, and its place. */
struct refusal {
    uint64_t number, place;
};

/* 1 to 3. */
struct refusal power_up_refusal(uint16_t part, uint8_t select, uint8_t stored);

/* 4 to 10, in the paper's order. */
struct refusal replay_refusal(const struct twin *s, const uint32_t *elapsed, size_t elapsed_len,
                              const uint8_t *levels, size_t levels_len, size_t array_len, size_t answers_len);

#endif
