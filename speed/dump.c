/* One pass over the bytes judges the dump and keeps its samples, which are replayed if no fault was found. After a fault of 21 to
 * 23 it reads on, since the same line may hold one of a lower number; after a 20 it cannot. */
#include "dump.h"

#include "dump_text.h"

#include <stdlib.h>

struct samples {
    uint32_t *elapsed;
    uint8_t *levels;
    size_t count, room;
};

/* Where the reader is among the changes. Whatever takes a pointer to it is inlined, so that it stays in registers. */
struct now {
    const uint8_t *at;
    uint64_t line;
    uint32_t time, elapsed; /* of the latest time line; its sample is added when the next one shows that it is complete */
    uint8_t levels, known;  /* of the wanted wires: their values, and which of them have one */
    bool timed;             /* there was a time line */
    bool listing;           /* inside $dumpvars */
};

static inline void add_sample(struct samples *s, uint32_t elapsed, uint8_t levels)
{
    if (s->count == s->room) {
        s->room = 2 * s->room + 1024;
        s->elapsed = resized(s->elapsed, s->room * sizeof s->elapsed[0]);
        s->levels = resized(s->levels, s->room);
    }
    s->elapsed[s->count] = elapsed;
    s->levels[s->count++] = levels;
}

static inline void note_at(struct dump *d, const struct now *n, unsigned number)
{
    d->at = n->at;
    d->line = n->line;
    note_fault(d, number);
}

static inline bool malformed_at(struct dump *d, const struct now *n)
{
    note_at(d, n, MALFORMED);
    return false;
}

/* The time before is now complete: its sample, and repeats of it as long as the next is too far off. */
static inline void add_samples(struct samples *s, struct now *n, uint32_t time)
{
    add_sample(s, n->elapsed, n->levels);
    n->elapsed = time - n->time;
    for (; n->elapsed > MOST_ELAPSED; n->elapsed -= MOST_ELAPSED)
        add_sample(s, MOST_ELAPSED, n->levels);
}

/* The number between `first` and a blank; answers the place after it, or NULL where there is none or it is too large. A byte that
 * is neither blank nor printable is left to be refused where it stands: that is in the same line. */
static inline const uint8_t *read_number(const uint8_t *first, const uint8_t *end, uint64_t *number)
{
    const uint8_t *at = first;
    uint8_t digit;

    for (*number = 0; at < end && (digit = (uint8_t)(*at - '0')) <= 9; at++) {
        *number = 10 * *number + digit;
        if (*number > UINT32_MAX)
            return NULL;
    }
    return at == first || (at < end && *at > ' ') ? NULL : at;
}

/* At '#'. */
static inline bool read_time(struct dump *d, struct now *n, struct samples *s)
{
    uint64_t time;
    const uint8_t *after = read_number(n->at + 1, d->end, &time);

    if (after == NULL || n->listing)
        return malformed_at(d, n);
    if (n->timed && time <= n->time)
        note_at(d, n, WRONG_TIME);
    if (n->timed && n->known != WANTED)
        note_at(d, n, WRONG_VALUE);
    if (n->timed && d->fault.number == 0)
        add_samples(s, n, (uint32_t)time);
    n->timed = true;
    n->time = (uint32_t)time;
    n->at = after;
    return true;
}

/* At one of 0, 1, x, X, z and Z. */
static inline bool read_value(struct dump *d, struct now *n)
{
    uint8_t value = n->at[0], wires = 0;
    const uint8_t *code = n->at + 1, *at = code < d->end ? code + 1 : code;

    if (at < d->end && *at > ' ') {
        while (at < d->end && *at > ' ')
            at++;
        wires = wires_of_longer(d, code, (size_t)(at - code));
    } else if (at > code) {
        wires = d->codes[*code];
    }
    if (wires == 0 || !n->timed)
        return malformed_at(d, n);
    wires &= WANTED;
    if (value <= '1')
        n->levels = (uint8_t)((n->levels & ~wires) | (value == '1' ? wires : 0));
    else if ((value == 'z' || value == 'Z') && (wires & ~SDA) == 0)
        n->levels |= wires;
    else if (wires != 0)
        note_at(d, n, WRONG_VALUE);
    n->known |= wires;
    n->at = at;
    return true;
}

/* At '$'. */
static inline bool read_section(struct dump *d, struct now *n)
{
    bool sound;

    d->at = n->at;
    d->line = n->line;
    struct token t = next_token(d);
    if (!n->listing && is(t, "$comment")) {
        sound = skip_section(d);
    } else {
        sound = is(t, n->listing ? "$end" : "$dumpvars") || malformed(d);
        n->listing = !n->listing;
    }
    n->at = d->at;
    n->line = d->line;
    return sound;
}

static bool read_token(struct dump *d, struct now *n, struct samples *s)
{
    uint8_t c = *n->at;

    if (c == '#')
        return read_time(d, n, s);
    if (c == '0' || c == '1' || c == 'x' || c == 'X' || c == 'z' || c == 'Z')
        return read_value(d, n);
    return c == '$' ? read_section(d, n) : malformed_at(d, n);
}

/* Everything after the definitions. */
static void read_changes(struct dump *d, struct samples *s)
{
    struct now n = {.at = d->at, .line = d->line};

    while (n.at < d->end) {
        uint8_t c = *n.at;
        if (c == '\n') {
            n.line++;
            n.at++;
        } else if (c > ' ' || (c != ' ' && c != '\t' && c != '\r')) {
            if (!read_token(d, &n, s))
                return;
        } else {
            n.at++;
        }
    }
    if (n.listing)
        note_at(d, &n, MALFORMED);
    if (n.known != WANTED)
        note_at(d, &n, WRONG_VALUE);
    add_sample(s, n.elapsed, n.levels);
}

/* Answers the number of disagreements. */
static uint64_t replay(const struct samples *s, struct twin *twin, uint8_t *array, uint64_t *places, size_t places_len)
{
    uint8_t answers[MOST_SAMPLES];
    uint64_t found = 0;

    for (size_t from = 0; from < s->count; from += MOST_SAMPLES) {
        const uint8_t *levels = s->levels + from;
        size_t count = s->count - from < MOST_SAMPLES ? s->count - from : MOST_SAMPLES;
        run_samples(twin, array, s->elapsed + from, levels, answers, count);
        for (size_t i = 0; i < count; i++)
            if ((levels[i] & (SCL | SDA)) == (SCL | SDA) && !(answers[i] & 1)) {
                if (found < places_len)
                    places[found] = from + i;
                found++;
            }
    }
    return found;
}

/* 1, 2, 3 and 5. */
static struct refusal call_refusal(uint16_t part, uint8_t select, uint8_t stored, size_t array_len)
{
    struct refusal refusal = power_up_refusal(part, select, stored);

    if (refusal.number == 0 && array_len != kind_of(part)->bytes)
        refusal.number = 5;
    return refusal;
}

uint8_t cdump_replay(uint16_t part, uint8_t select, uint8_t stored, const uint8_t *dump, size_t dump_len, uint8_t *array,
                     size_t array_len, uint64_t *places, size_t places_len, uint64_t *reply, size_t reply_len)
{
    struct dump d = {.text = dump, .at = dump, .end = dump + dump_len, .line = 1};
    struct samples s = {0};
    struct twin twin;

    if (reply_len != 2)
        return 0;
    d.fault = call_refusal(part, select, stored, array_len);
    if (d.fault.number == 0 && read_definitions(&d))
        read_changes(&d, &s);
    reply[0] = d.fault.number;
    reply[1] = d.fault.place;
    if (d.fault.number == 0) {
        power_up(&twin, kind_of(part), select, stored);
        reply[1] = replay(&s, &twin, array, places, places_len);
    }
    free(d.longer);
    free(s.elapsed);
    free(s.levels);
    return 1;
}
