/* Stops inside a byte, on the C twin from power-up: what the byte was part of is cancelled, and nothing
 * else happens. Between the eighth fall of a byte that is acknowledged and its ninth there can be no stop,
 * since the part holds SDA low. */
#include "checking.h"

enum { CUT = 3 }; /* bits of a byte, where any number from 1 to 7 would do */

/* A capture with reset over and WEL set. */
static void begin_writable(struct master *m)
{
    begin(m);
    master_end_reset(m);
    master_register(m, 0, 0x02);
}

/* So many whole bytes from an address on, of the values 1, 2 and so on, then bits of another, and a stop. */
static void write_cut(struct master *m, uint16_t address, unsigned whole, unsigned bits)
{
    master_address(m, 0, address);
    for (unsigned i = 1; i <= whole; i++)
        master_send(m, (uint8_t)i);
    master_bits(m, 0x5A, bits);
    master_stop(m);
}

/* No answer of the capture, from its first sample on, shows a write cycle. */
static bool never_wrote(const struct master *m)
{
    for (size_t i = 0; i < m->length; i++)
        if (answers[i] & WRITING)
            return false;
    return true;
}

/* All bytes of an array are FFh but for one. */
static bool blank_but(size_t place)
{
    for (size_t i = 0; i < LARGER; i++)
        if (i != place && array[i] != 0xFF)
            return false;
    return true;
}

/* Each has the stop's own clock; without bits it is the only one since the acknowledge. */
static void two_bytes(uint16_t part)
{
    for (unsigned bits = 0; bits <= 7; bits++) {
        struct master m;
        begin_writable(&m);
        array[0x0042] = 0xC3;
        write_cut(&m, 0x0040, 2, bits);
        size_t stopped = m.length;
        master_read(&m, 0, 1);
        replay(&m, part, 0x60);
        if (bits == 0) {
            expect(answers[stopped - 1] & WRITING, "the stop's own clock cancels nothing");
            expect(array[0x0040] == 1 && array[0x0041] == 2 && array[0x0042] == 0xC3, "two whole bytes are written");
        } else {
            expect(never_wrote(&m), "a stop inside the third byte begins no write");
            expect(blank_but(0x0042) && array[0x0042] == 0xC3, "a stop inside the third byte stores nothing");
            expect(byte_read(m.length) == 0xC3, "the part hears at once, its counter after the two bytes");
        }
    }
}

/* The first byte, a full page, and a page that went on over its beginning. */
static void other_lengths(uint16_t part)
{
    static const unsigned whole[] = {0, 1, 64, 70};
    for (unsigned i = 0; i < sizeof whole / sizeof whole[0]; i++) {
        struct master m;
        begin_writable(&m);
        array[0x0105] = 0xC3;
        write_cut(&m, (uint16_t)(0x0100 + (5 - whole[i]) % 64), whole[i], CUT);
        master_read(&m, 0, 1);
        replay(&m, part, 0x60);
        expect(never_wrote(&m) && blank_but(0x0105), "no length of a cut page is written");
        expect(byte_read(m.length) == 0xC3, "the counter stands after the whole bytes of a cut page");
    }
}

static void held_by_acknowledge(uint16_t part)
{
    struct master m;
    begin_writable(&m);
    write_cut(&m, 0x0040, 2, 8);
    size_t tried = m.length;
    master_stop(&m);
    replay(&m, part, 0x60);
    expect(!(answers[tried - 1] & (OWN_SDA | WRITING)), "no stop gets through an acknowledge");
    expect(answers[m.length - 1] & WRITING, "the stop after the acknowledge writes");
    expect(array[0x0040] == 1 && array[0x0041] == 2 && array[0x0042] == 0x5A, "and the byte acknowledged is whole");
}

/* A byte without a start, after a cut page or register write. */
static void idle_after_cut(uint16_t part, uint16_t address)
{
    struct master m;
    begin_writable(&m);
    write_cut(&m, address, 1, CUT);
    master_send(&m, 0x00);
    size_t sent = m.length;
    master_stop(&m);
    replay(&m, part, 0x60);
    expect(!acknowledged(sent) && never_wrote(&m), "the part is idle after a cut write");
}

/* The load is gone, WEL is not: what is written next is written alone. */
static void write_after_cut(uint16_t part)
{
    struct master m;
    begin_writable(&m);
    write_cut(&m, 0x0040, 2, CUT);
    write_cut(&m, 0x0085, 1, 0);
    replay(&m, part, 0x60);
    expect(answers[m.length - 1] & WRITING, "a write after a cut one is heard");
    expect(array[0x0085] == 1 && blank_but(0x0085), "a write after a cut one stores its own bytes");
}

/* Nothing is loaded yet, and the counter stays until an address is whole. */
static void address_cut(uint16_t part, uint8_t high, bool in_low)
{
    for (unsigned bits = 1; bits <= 7; bits++) {
        struct master m;
        begin_writable(&m);
        array[0x0123] = 0xC3;
        master_address(&m, 0, 0x0123);
        master_stop(&m);
        master_start(&m);
        master_send(&m, 0xA0);
        if (in_low)
            master_send(&m, high);
        master_bits(&m, high, bits);
        master_stop(&m);
        master_read(&m, 0, 1);
        replay(&m, part, 0x60);
        expect(never_wrote(&m) && blank_but(0x0123), "a stop inside an address byte writes nothing");
        expect(byte_read(m.length) == 0xC3, "a stop inside an address byte leaves counter and choice");
    }
}

/* Whole register writes of the bytes before a 00h, then one whose byte has so many bits of another after
 * it; then the register, read once a write time would be over. */
static uint8_t register_after_cut(uint16_t part, const uint8_t *before, uint8_t last, unsigned bits, bool *wrote)
{
    struct master m;
    begin(&m);
    master_end_reset(&m);
    for (; *before != 0; before++)
        master_register(&m, 0, *before);
    master_address(&m, 0, 0xFFFF);
    master_send(&m, last);
    master_bits(&m, 0x02, bits);
    master_stop(&m);
    master_poll(&m, 0);
    master_address(&m, 0, 0xFFFF);
    master_read(&m, 0, 1);
    replay(&m, part, 0x00);
    *wrote = !never_wrote(&m);
    return byte_read(m.length);
}

/* With eight bits the second byte is whole, and cancels the first by itself. */
static void register_bytes(uint16_t part)
{
    static const struct { uint8_t before[3], last, whole, cut; const char *what; } steps[] = {
        {{0}, 0x02, 0x02, 0x00, "a cut 02h sets no WEL"},
        {{0x02, 0}, 0x00, 0x00, 0x02, "a cut 00h leaves WEL"},
        {{0x02, 0}, 0x06, 0x06, 0x02, "a cut 06h sets no RWEL"},
        {{0x02, 0x06, 0}, 0x63, 0x63, 0x06, "a cut third byte takes nothing, and RWEL stays"},
    };
    bool wrote;

    for (unsigned i = 0; i < sizeof steps / sizeof steps[0]; i++) {
        expect(register_after_cut(part, steps[i].before, steps[i].last, 0, &wrote) == steps[i].whole,
               "a register byte with no clock after it but the stop's does its step");
        expect(wrote == (steps[i].last == 0x63), "the third step alone takes a write time");
        for (unsigned bits = 1; bits <= 8; bits++) {
            expect(register_after_cut(part, steps[i].before, steps[i].last, bits, &wrote) == steps[i].cut, steps[i].what);
            expect(!wrote, "a cut register byte takes no write time");
        }
    }
}

/* 63h in part, 63h with part of another byte, then 63h alone. */
static void third_step_after_cuts(uint16_t part)
{
    struct master m;
    begin_writable(&m);
    array[0] = 0xC3;
    master_register(&m, 0, 0x06);
    master_address(&m, 0, 0xFFFF);
    master_bits(&m, 0x63, 7);
    master_stop(&m);
    master_address(&m, 0, 0xFFFF);
    master_send(&m, 0x63);
    master_bits(&m, 0x63, CUT);
    master_stop(&m);
    size_t cut = m.length;
    master_read(&m, 0, 1);
    size_t read = m.length;
    master_register(&m, 0, 0x63);
    size_t whole = m.length;
    master_poll(&m, 0);
    master_address(&m, 0, 0xFFFF);
    master_read(&m, 0, 1);
    replay(&m, part, 0x00);
    expect(!(answers[cut - 1] & WRITING) && byte_read(read) == 0xC3, "a cut register write drops the choice");
    expect(answers[whole - 1] & WRITING && byte_read(m.length) == 0x63, "the third step is still open after cuts");
}

void check_cuts(uint16_t part)
{
    two_bytes(part);
    other_lengths(part);
    held_by_acknowledge(part);
    idle_after_cut(part, 0x0040);
    idle_after_cut(part, 0xFFFF);
    write_after_cut(part);
    address_cut(part, 0x00, false);
    address_cut(part, 0x00, true);
    address_cut(part, 0xFF, true);
    register_bytes(part);
    third_step_after_cuts(part);
}
