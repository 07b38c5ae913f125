#include "captures.h"

static void data_bytes(struct master *m, size_t count)
{
    for (size_t i = 0; i < count; i++)
        master_send(m, (uint8_t)master_random(m, 256));
}

static void page_write(struct master *m, uint16_t address, size_t count)
{
    master_address(m, 0, address);
    data_bytes(m, count);
    master_stop(m);
    master_poll(m, 0);
}

static uint16_t some_address(struct master *m)
{
    return (uint16_t)master_random(m, m->places);
}

/* The start of a quarter of the array, or of its second, third, fifth or ninth page: where a locked block may begin or end. */
static uint32_t edge(const struct master *m, uint32_t which)
{
    return which < 4 ? m->places / 4 * which : 64u << (which - 4);
}

/* An address of this place, with `above` in the bits that the array has no use for. */
static uint16_t address_of(const struct master *m, uint32_t place, uint32_t above)
{
    return (uint16_t)(above * m->places + place % m->places);
}

/* At an edge or up to two pages before it. */
static uint16_t near_edge(struct master *m)
{
    uint32_t place = edge(m, master_random(m, 8)) + m->places;

    place -= master_random(m, 128);
    return address_of(m, place, master_random(m, 4));
}

/* One transaction of the mix. Writes are one in four, since each brings its polling with it. */
static void mixed(struct master *m)
{
    switch (master_random(m, 8)) {
    case 0:
        page_write(m, some_address(m), 64);
        break;
    case 1:
        page_write(m, some_address(m), 1 + master_random(m, 32));
        break;
    case 2:
        master_read(m, 0, 1 + master_random(m, 4));
        break;
    case 3:
        master_address(m, 0, 0xFFFF);
        master_read(m, 0, 1);
        break;
    case 4:
    case 5:
        master_address(m, 0, some_address(m));
        master_read(m, 0, 1);
        break;
    default:
        master_address(m, 0, some_address(m));
        master_read(m, 0, 16 + master_random(m, 112));
        break;
    }
    master_idle(m, 1 + master_random(m, 8), 20);
}

static void mix_from_here(struct master *m)
{
    for (unsigned turn = 0; !master_full(m); turn++) {
        if (turn % 8 == 0)
            master_register(m, 0, 0x02); /* WEL, again and again as careful drivers do */
        mixed(m);
    }
}

void capture_mix(struct master *m)
{
    master_end_reset(m);
    mix_from_here(m);
}

void capture_reads(struct master *m)
{
    master_end_reset(m);
    while (!master_full(m)) {
        master_address(m, 0, some_address(m));
        master_read(m, 0, 512);
    }
}

void capture_pages(struct master *m)
{
    master_end_reset(m);
    master_register(m, 0, 0x02);
    while (!master_full(m))
        page_write(m, some_address(m), 64);
}

void capture_idle(struct master *m)
{
    master_end_reset(m);
    while (!master_full(m))
        master_idle(m, 1, 4);
}

void capture_reset(struct master *m)
{
    m->pins = 0;
    mix_from_here(m);
}

void capture_edges(struct master *m)
{
    master_end_reset(m);
    while (!master_full(m))
        master_lines(m, 1, !m->sda, 4);
}

void capture_places(struct master *m)
{
    master_end_reset(m);
    master_register(m, 0, 0x02);
    for (uint32_t which = 0; which < 8; which++)
        for (uint32_t before = 0; before < 2; before++)
            for (uint32_t above = 0; above < 2; above++) {
                uint16_t address = address_of(m, edge(m, which) + m->places - before, above);
                page_write(m, address, 1);
                master_address(m, 0, address);
                master_read(m, 0, 2);
            }
}

/* A stop after this many bits of a byte, eight at most; then a byte without a start, which an idle part
 * does not hear. No other stop follows: it would drop a choice that the first one has left. */
static void cut(struct master *m, uint8_t byte, unsigned bits)
{
    master_bits(m, byte, bits);
    master_stop(m);
    if (bits == 8)
        master_stop(m); /* the part may have held SDA low through the first one */
    data_bytes(m, 1);
}

static void read_register(struct master *m)
{
    master_address(m, 0, 0xFFFF);
    master_read(m, 0, 1);
}

/* A read so soon after the stop is heard only if nothing is being written, and shows the counter. The
 * addresses differ, so that bytes of a load that was not dropped would turn up in a later page. */
static void cut_page(struct master *m, size_t whole, unsigned bits)
{
    uint16_t address = some_address(m);

    master_address(m, 0, address);
    data_bytes(m, whole);
    cut(m, (uint8_t)master_random(m, 256), bits);
    master_read(m, 0, 1);
    master_idle(m, 1, 5000);
    master_read(m, 0, 1);
    master_address(m, 0, address);
    master_read(m, 0, 3);
}

void capture_cut_pages(struct master *m)
{
    static const uint8_t whole[] = {0, 1, 2, 5, 64, 66};

    master_end_reset(m);
    master_register(m, 0, 0x02);
    for (size_t i = 0; i < sizeof whole; i++)
        for (unsigned bits = 0; bits <= 8; bits++)
            cut_page(m, whole[i], bits);
}

/* One step of the register: cut within its byte, cut within a second one, then whole. */
static void cut_register(struct master *m, uint8_t byte, unsigned bits)
{
    master_address(m, 0, 0xFFFF);
    cut(m, byte, bits);
    read_register(m);
    master_idle(m, 1, 5000);
    master_address(m, 0, 0xFFFF);
    master_send(m, byte);
    cut(m, (uint8_t)master_random(m, 256), bits);
    master_read(m, 0, 1); /* of the array: the choice is dropped */
    read_register(m);
    master_idle(m, 1, 5000);
    master_register(m, 0, byte);
    master_idle(m, 1, 5000);
    read_register(m);
}

void capture_cut_registers(struct master *m)
{
    master_end_reset(m);
    for (unsigned bits = 0; bits <= 8; bits++) {
        cut_register(m, 0x02, bits);
        cut_register(m, 0x06, bits);
        cut_register(m, (uint8_t)(0x02 | bits << 3), bits); /* the third step: another byte each time */
        cut_register(m, 0x00, bits);
    }
}

/* A rough turn is meant to reach every branch of the rules, not to be likely. */
static void rough_turn(struct master *m, uint8_t own_select)
{
    static const uint8_t register_bytes[] = {0x02, 0x06, 0x00, 0x63, 0x02, 0x06, 0x12, 0x1A, 0x0A, 0x83, 0x67, 0x9B, 0x22};
    uint8_t select = master_random(m, 8) ? own_select : (uint8_t)master_random(m, 4);

    switch (master_random(m, 16)) {
    case 0: /* noise */
        for (unsigned i = master_random(m, 60); i > 0; i--)
            master_lines(m, (uint8_t)master_random(m, 2), (uint8_t)master_random(m, 2), master_random(m, 50));
        break;
    case 1: /* a VCC drop */
        if (master_random(m, 4) == 0) {
            m->pins &= (uint8_t)~VCC_GOOD;
            master_idle(m, 1 + master_random(m, 3), master_random(m, 100000));
            m->pins |= VCC_GOOD;
            master_end_reset(m);
        }
        break;
    case 2:
        m->pins ^= WP_HIGH;
        break;
    case 3: /* long enough for a watchdog */
        if (master_random(m, 3) == 0)
            master_idle(m, master_random(m, 16), master_random(m, 100001));
        break;
    case 4: /* a byte broken off: the first or a later one, of the array or of the register */
        if (master_random(m, 2)) {
            master_address(m, select, some_address(m));
            data_bytes(m, master_random(m, 4));
        } else {
            master_address(m, select, 0xFFFF);
            master_send(m, register_bytes[master_random(m, sizeof register_bytes)]);
        }
        for (unsigned i = master_random(m, 20); i > 0; i--)
            master_bit(m, (uint8_t)master_random(m, 2));
        if (master_random(m, 2))
            master_stop(m);
        break;
    case 5: /* a slave byte that may fit nothing */
        master_start(m);
        master_send(m, (uint8_t)(0xA0 ^ (master_random(m, 4) ? master_random(m, 8) : master_random(m, 256))));
        break;
    case 6:
    case 7:
    case 8:
        master_register(m, select, register_bytes[master_random(m, sizeof register_bytes)]);
        break;
    case 9: /* two register bytes */
        master_address(m, select, 0xFFFF);
        data_bytes(m, 2);
        master_stop(m);
        break;
    case 10: /* the register, then perhaps reading on past it */
        master_address(m, select, 0xFFFF);
        master_read(m, select, 1 + master_random(m, 3));
        break;
    case 11:
    case 12:
        master_address(m, select, near_edge(m));
        data_bytes(m, master_random(m, 80));
        master_stop(m);
        if (master_random(m, 2))
            master_idle(m, 1, 4990 + master_random(m, 20));
        break;
    case 13:
        master_address(m, select, (uint16_t)(master_random(m, 2) ? m->places - 1 : master_random(m, 65536)));
        master_read(m, select, 1 + master_random(m, 6));
        break;
    case 14:
        master_read(m, select, 1 + master_random(m, 3));
        break;
    default: /* reading broken off by a start */
        master_start(m);
        master_send(m, (uint8_t)(0xA1 | select << 1));
        for (unsigned i = master_random(m, 12); i > 0; i--)
            master_bit(m, 1);
        break;
    }
}

void capture_rough(struct master *m, uint8_t select)
{
    if (master_random(m, 8))
        master_end_reset(m);
    while (!master_full(m))
        rough_turn(m, select);
}
