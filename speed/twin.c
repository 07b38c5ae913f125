/* The twin: state by pointer, one step a sample, rule by rule. No samples are batched or skipped ahead, no steps are tabled. */
#include "twin.h"

#include "twin_state.h"

#include <string.h>

void power_up(struct twin *s, const struct kind *kind, uint8_t select, uint8_t stored)
{
    memset(s, 0, sizeof *s);
    s->kind = *kind;
    s->select = select;
    s->stored = stored;
    s->hold = RESET_HOLD;
    s->reset = s->low_vcc = true;
    s->scl = s->sda = s->own = true;
}

static void load_watchdog(struct twin *s)
{
    static const uint32_t times[4] = {LONGEST_WATCHDOG, 600000, 200000, 0};
    s->watchdog_left = times[s->stored >> 5 & 3];
    s->watchdog_runs = s->watchdog_left != 0;
}

static uint32_t less(uint32_t left, uint32_t e)
{
    return left > e ? left - e : 0;
}

static void pass_time(struct twin *s, uint32_t e)
{
    s->write_left = less(s->write_left, e);
    if (s->reset) {
        if (s->low_vcc)
            return;
        s->hold = less(s->hold, e);
        if (s->hold == 0) {
            s->reset = false;
            load_watchdog(s);
        }
    } else if (s->watchdog_runs) {
        s->watchdog_left = less(s->watchdog_left, e);
        if (s->watchdog_left == 0) {
            s->reset = true;
            s->hold = RESET_HOLD;
        }
    }
}

/* What a start, a stop and reset have in common. */
static void drop_talk(struct twin *s, enum phase next)
{
    if (s->any_loaded) {
        memset(s->load, 0, sizeof s->load);
        memset(s->loaded, 0, sizeof s->loaded);
        s->any_loaded = false;
    }
    s->pending = false;
    s->pending_byte = 0;
    s->own = true;
    s->taken = false;
    s->committed = 0;
    s->sent = 0;
    s->phase = next;
}

/* A place of the array: the low bits of a number, as many as the part's places have. */
static uint16_t place(const struct twin *s, unsigned number)
{
    return (uint16_t)(number & (s->kind.bytes - 1));
}

static bool locked(const struct twin *s)
{
    unsigned code = (s->stored & 1u) << 2 | (s->stored >> 3 & 3u); /* BP2 BP1 BP0 */
    if (code < 3)
        return s->counter >= s->kind.upper[code];
    if (code == 3)
        return true;
    return s->counter < PAGE_BYTES << (code - 4);
}

static void start(struct twin *s)
{
    load_watchdog(s);
    drop_talk(s, s->write_left == 0 ? SLAVE : QUIET);
}

static void store_page(struct twin *s, uint8_t *array)
{
    uint8_t *page = array + s->counter / PAGE_BYTES * PAGE_BYTES;
    for (int i = 0; i < PAGE_BYTES; i++)
        if (s->loaded[i])
            page[i] = s->load[i];
    s->write_left = WRITE_TIME;
}

static void write_register(struct twin *s, bool wp)
{
    uint8_t v = s->pending_byte;
    if (!s->rwel) {
        if (v == WEL)
            s->wel = true;
        else if (v == 0)
            s->wel = false;
        else if (v == (RWEL | WEL) && s->wel)
            s->rwel = true;
    } else if ((v & (RWEL | WEL)) == WEL && !(wp && s->stored & WPEN)) {
        s->stored = v & NONVOLATILE;
        s->rwel = false;
        s->write_left = WRITE_TIME;
    }
}

/* A data or register byte has begun, or its acknowledge has not ended. The bit of a stop's own clock is
 * taken and never committed, so that it begins no byte. */
static bool inside_byte(const struct twin *s)
{
    return s->committed != 0 && (s->phase == ARRAY_DATA || s->phase == REGISTER_DATA);
}

/* Asked only where there is something to cancel: most stops have nothing. */
static void stop(struct twin *s, uint8_t *array, bool wp)
{
    if (s->any_loaded && !inside_byte(s))
        store_page(s, array);
    if (s->pending && !inside_byte(s))
        write_register(s, wp);
    drop_talk(s, QUIET);
    s->register_chosen = false;
}

static void acknowledge(struct twin *s, enum phase next)
{
    s->own = false;
    s->phase = next;
}

/* The eighth fall of a byte that came in. */
static void receive(struct twin *s, uint8_t byte)
{
    switch (s->phase) {
    case SLAVE:
        if (byte >> 1 == (0x50 | s->select))
            acknowledge(s, byte & 1 ? READ_TURN : ADDRESS_HIGH);
        else
            s->phase = QUIET;
        break;
    case ADDRESS_HIGH:
        s->address_high = byte;
        acknowledge(s, ADDRESS_LOW);
        break;
    case ADDRESS_LOW:
        s->register_chosen = s->address_high == 0xFF && byte == 0xFF;
        if (!s->register_chosen)
            s->counter = place(s, (unsigned)s->address_high << 8 | byte);
        acknowledge(s, s->register_chosen ? REGISTER_DATA : ARRAY_DATA);
        break;
    case ARRAY_DATA:
        if (!s->wel || locked(s)) {
            s->phase = QUIET;
            break;
        }
        s->load[s->counter % PAGE_BYTES] = byte;
        s->loaded[s->counter % PAGE_BYTES] = s->any_loaded = true;
        s->counter = (uint16_t)(s->counter / PAGE_BYTES * PAGE_BYTES + (s->counter + 1) % PAGE_BYTES);
        acknowledge(s, ARRAY_DATA);
        break;
    case REGISTER_DATA:
        s->pending = !s->pending; /* a second byte cancels the first */
        s->pending_byte = s->pending ? byte : 0;
        if (s->pending)
            acknowledge(s, REGISTER_DATA);
        else
            s->phase = QUIET;
        break;
    default:
        break;
    }
}

static void send(struct twin *s, uint8_t byte, enum phase phase)
{
    s->sent = byte;
    s->own = byte >> 7;
    s->phase = phase;
}

static void fetch(struct twin *s, const uint8_t *array)
{
    uint8_t byte = array[s->counter];
    s->counter = place(s, s->counter + 1u);
    send(s, byte, READ_ARRAY);
}

static void ninth_fall(struct twin *s, const uint8_t *array)
{
    s->committed = 0;
    s->own = true;
    if (s->phase == READ_TURN) {
        if (s->register_chosen)
            send(s, s->stored | (s->rwel ? RWEL : 0) | (s->wel ? WEL : 0), READ_REGISTER);
        else
            fetch(s, array);
    } else if (s->phase == READ_ARRAY) {
        if (s->bit)
            s->phase = QUIET;
        else
            fetch(s, array);
    }
}

static void send_on(struct twin *s)
{
    if (s->committed < 8) {
        s->own = s->sent >> (7 - s->committed) & 1;
        return;
    }
    s->own = true;
    s->sent = 0;
    if (s->phase == READ_REGISTER) {
        s->register_chosen = false;
        s->phase = QUIET;
    }
}

static void fall(struct twin *s, const uint8_t *array)
{
    if (!s->taken)
        return;
    s->taken = false;
    if (s->committed == 8) {
        ninth_fall(s, array);
        return;
    }
    s->committed++;
    if (s->phase >= READ_ARRAY) {
        send_on(s);
        return;
    }
    s->shift = (uint8_t)(s->shift << 1 | s->bit);
    if (s->committed == 8)
        receive(s, s->shift);
}

static uint8_t step(struct twin *s, uint8_t *array, uint32_t e, uint8_t level)
{
    bool scl = level & SCL, line = level & SDA;

    pass_time(s, e);
    s->low_vcc = !(level & VCC);
    if (s->low_vcc) {
        s->reset = true;
        s->hold = RESET_HOLD;
        s->wel = s->rwel = false;
    }
    if (s->reset) {
        drop_talk(s, QUIET);
        s->register_chosen = false;
    } else {
        line = line && s->own;
        if (scl && s->scl) {
            if (s->sda && !line)
                start(s);
            else if (!s->sda && line)
                stop(s, array, level & WP);
        } else if (scl) {
            s->taken = true;
            s->bit = line;
        } else if (s->scl) {
            fall(s, array);
        }
    }
    s->scl = scl;
    s->sda = line;
    bool pin = s->reset == s->kind.reset_high;
    return (uint8_t)(s->own | pin << 1 | (s->write_left > 0) << 2);
}

/* On a copy of the state: for all that the compiler knows a caller's might lie in one of the rows, and would have to be loaded anew
 * after each answer. */
void run_samples(struct twin *state, uint8_t *array, const uint32_t *elapsed, const uint8_t *levels, uint8_t *answers,
                 size_t count)
{
    struct twin s = *state;
    for (size_t i = 0; i < count; i++)
        answers[i] = step(&s, array, elapsed[i], levels[i]);
    *state = s;
}

uint8_t ctwin_replay(uint16_t part, uint8_t select, uint8_t stored,
                     const uint32_t *elapsed, size_t elapsed_len,
                     const uint8_t *levels, size_t levels_len,
                     uint8_t *array, size_t array_len,
                     uint8_t *answers, size_t answers_len,
                     uint64_t *reply, size_t reply_len)
{
    struct twin s;
    struct refusal refusal;

    if (reply_len != 2)
        return 0;
    refusal = power_up_refusal(part, select, stored);
    if (refusal.number == 0) {
        power_up(&s, kind_of(part), select, stored);
        refusal = replay_refusal(&s, elapsed, elapsed_len, levels, levels_len, array_len, answers_len);
    }
    if (refusal.number == 0)
        run_samples(&s, array, elapsed, levels, answers, levels_len);
    reply[0] = refusal.number;
    reply[1] = refusal.number == 0 ? levels_len : refusal.place;
    return 1;
}
