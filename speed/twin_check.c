/* The bench cases P1 to P9, the larger part's rules and a few more on the C twin, each worked out by hand from the papers: a twin
 * that is wrong measures nothing. What the state holds is seen from outside, by the answers and by reading back. */
#include "checking.h"
#include "twin_state.h"

#include <stdio.h>

static void p1(uint16_t part, uint8_t active)
{
    struct master m;
    begin(&m);
    master_idle(&m, 1, 70000); /* the low-VCC flag is still set: nothing falls */
    master_idle(&m, 1, 100000);
    master_idle(&m, 1, 99999);
    master_idle(&m, 1, 1);
    replay(&m, part, 0x60);
    expect((answers[0] & PIN) == active && (answers[1] & PIN) == active, "P1 reset holds");
    expect((answers[2] & PIN) == active, "P1 199,999 keeps reset");
    expect((answers[3] & PIN) != active, "P1 200,000 ends it");
}

/* Tries a byte at an address, with this stored control byte at power-up, and answers whether it was acknowledged. `place` is
 * where it belongs. */
static bool stored_at(uint16_t part, uint8_t stored, uint16_t address, uint16_t place)
{
    struct master m;
    begin(&m);
    master_end_reset(&m);
    master_register(&m, 0, 0x02);
    master_address(&m, 0, address);
    master_send(&m, 0x5A);
    size_t sent = m.length;
    master_stop(&m);
    replay(&m, part, stored);
    bool kept = array[place] == 0x5A;
    expect(kept == acknowledged(sent), "a byte is kept, at its place, exactly when it was acknowledged");
    expect(kept == !!(answers[m.length - 1] & WRITING), "a kept byte takes a write cycle");
    return kept;
}

/* The same at an address below the part's size, under a block code. */
static bool writable(uint16_t part, uint8_t code, uint16_t address)
{
    return stored_at(part, (uint8_t)(0x60 | (code & 3) << 3 | code >> 2), address, address);
}

static void p2_to_p4(uint16_t part)
{
    expect(writable(part, 0, 0x000) && writable(part, 0, 0xFFF), "code 0 locks nothing");
    expect(!writable(part, 4, 0x000) && !writable(part, 4, 0x03F) && writable(part, 4, 0x040), "P2");
    expect(!writable(part, 5, 0x07F) && writable(part, 5, 0x080), "code 5 locks two pages");
    expect(!writable(part, 6, 0x0FF) && writable(part, 6, 0x100), "code 6 locks four");
    expect(!writable(part, 7, 0x000) && !writable(part, 7, 0x1FF) && writable(part, 7, 0x200), "P3");
    expect(writable(part, 2, 0x000) && writable(part, 2, 0xFFF), "P4, and the same places on the larger part");
    expect(writable(part, 1, 0x000) && writable(part, 1, 0xFFF), "code 1 locks none of the first 4,096 bytes");
    expect(!writable(part, 3, 0x000) && !writable(part, 3, 0xFFF), "code 3 locks everything");
}

/* Addresses above the array: 60h stores code 0, 61h code 4, 68h code 1, 70h code 2, 78h code 3. */
static void smaller_places(uint16_t part)
{
    expect(stored_at(part, 0x60, 0x1FFF, 0xFFF) && stored_at(part, 0x61, 0x1FFF, 0xFFF), "0FFFh and 1FFFh are one place");
    expect(stored_at(part, 0x60, 0x3000, 0) && stored_at(part, 0x60, 0xFFFE, 0xFFE), "a counter of 12 bits");
    expect(stored_at(part, 0x68, 0x3000, 0) && stored_at(part, 0x68, 0x3FFF, 0xFFF), "code 1 locks nothing on the smaller part");
    expect(stored_at(part, 0x70, 0x2000, 0) && stored_at(part, 0x70, 0x3FFF, 0xFFF), "code 2 locks nothing on the smaller part");
    expect(!stored_at(part, 0x78, 0x1FFF, 0xFFF) && !stored_at(part, 0x61, 0x1000, 0), "a place is locked by its low 12 bits");
}

static void larger_places(uint16_t part)
{
    expect(writable(part, 0, 0x1FFF) && writable(part, 0, 0x2000) && writable(part, 0, 0x3FFF), "a counter of 14 bits");
    expect(stored_at(part, 0x60, 0x4000, 0) && stored_at(part, 0x60, 0xBFFF, 0x3FFF) && stored_at(part, 0x60, 0xFFFE, 0x3FFE),
           "a counter of no more than 14 bits");
    expect(writable(part, 1, 0x2FFF) && !writable(part, 1, 0x3000) && !writable(part, 1, 0x3FFF), "code 1 locks 3000h to 3FFFh");
    expect(writable(part, 2, 0x1FFF) && !writable(part, 2, 0x2000) && !writable(part, 2, 0x3FFF), "code 2 locks 2000h to 3FFFh");
    expect(!stored_at(part, 0x68, 0x7000, 0x3000) && stored_at(part, 0x68, 0x4000, 0), "a place is locked by its low 14 bits");
    expect(!writable(part, 3, 0x1000) && !writable(part, 3, 0x3FFF), "code 3 locks everything");
    expect(writable(part, 4, 0x1000) && writable(part, 7, 0x3FFF), "codes 4 to 7 lock first pages only");
}

static void p5(uint16_t part, uint16_t page)
{
    struct master m;
    begin(&m);
    for (unsigned i = 0; i < 64; i++)
        array[page + i] = (uint8_t)(0x80 + i);
    master_end_reset(&m);
    master_register(&m, 0, 0x02);
    master_address(&m, 0, (uint16_t)(page + 60));
    for (uint8_t i = 0; i < 12; i++)
        master_send(&m, i);
    master_stop(&m);
    master_poll(&m, 0);
    master_read(&m, 0, 1);
    replay(&m, part, 0x60);
    for (unsigned i = 0; i < 64; i++) {
        unsigned want = i >= 60 ? i - 60 : i < 8 ? i + 4 : 0x80 + i;
        expect(array[page + i] == want, "P5 page");
    }
    expect(byte_read(m.length) == 0x88, "P5 counter at 8");
}

static void p6(uint16_t part)
{
    static const struct { uint8_t byte; bool answered; } cases[] = {{0xA0, true}, {0xA1, true}, {0xA2, false}, {0xA8, false}};
    for (unsigned i = 0; i < 4; i++) {
        struct master m;
        begin(&m);
        master_end_reset(&m);
        master_start(&m);
        master_send(&m, cases[i].byte);
        replay(&m, part, 0x60);
        expect(acknowledged(m.length) == cases[i].answered, "P6");
    }
}

/* 02h, 06h and a third byte, then the register read once its write time is over. */
static uint8_t register_after(uint16_t part, uint8_t third)
{
    struct master m;
    begin(&m);
    master_end_reset(&m);
    master_register(&m, 0, 0x02);
    master_register(&m, 0, 0x06);
    master_register(&m, 0, third);
    master_poll(&m, 0);
    master_address(&m, 0, 0xFFFF);
    master_read(&m, 0, 1);
    replay(&m, part, 0x00);
    return byte_read(m.length);
}

static void p7_p8(uint16_t part)
{
    expect(register_after(part, 0x63) == 0x63, "P7");
    expect(register_after(part, 0x67) == 0x06, "P8");
    expect(register_after(part, 0x9A) == 0x9A, "WPEN, WD and BP are taken from the third byte");
}

static void p9(uint16_t part)
{
    struct master m;
    begin(&m);
    master_end_reset(&m);
    master_register(&m, 0, 0x02);
    master_address(&m, 0, 0);
    master_send(&m, 0);
    master_stop(&m);
    master_idle(&m, 1, 4999);
    master_idle(&m, 1, 1);
    replay(&m, part, 0x60);
    expect(answers[m.length - 2] & WRITING, "P9 4,999");
    expect(!(answers[m.length - 1] & WRITING), "P9 5,000");
}

/* A byte at address 0 with no register write before it. */
static void wel_low(void)
{
    struct master m;
    begin(&m);
    master_end_reset(&m);
    master_address(&m, 0, 0);
    master_send(&m, 0x5A);
    size_t sent = m.length;
    master_stop(&m);
    replay(&m, 4323, 0x60);
    expect(!acknowledged(sent) && array[0] == 0xFF, "WEL low: a byte is withheld and not kept");
}

/* 06h alone, then the register. */
static void rwel_needs_wel(void)
{
    struct master m;
    begin(&m);
    master_end_reset(&m);
    master_register(&m, 0, 0x06);
    master_address(&m, 0, 0xFFFF);
    master_read(&m, 0, 1);
    replay(&m, 4323, 0x60);
    expect(byte_read(m.length) == 0x60, "06h with WEL low sets nothing");
}

/* Two bytes from this address on; the second one, fetched from `next`, is read back on its own. */
static void reads_go_on(uint16_t part, uint16_t from, uint16_t next)
{
    struct master m;
    begin(&m);
    array[next] = 0x3C;
    master_end_reset(&m);
    master_address(&m, 0, from);
    master_read(&m, 0, 1);
    master_read(&m, 0, 1);
    replay(&m, part, 0x60);
    expect(byte_read(m.length) == 0x3C, "a read goes on past its page, and from the last place to the first");
}

/* The refusal of a state, powered up but for its counter, and an array of this length. */
static uint64_t refusal(uint16_t part, uint16_t counter, size_t array_len)
{
    struct twin s = {.kind = *kind_of(part), .counter = counter};
    return replay_refusal(&s, elapsed, 0, levels, 0, array_len, 0).number;
}

static void refusals_by_size(void)
{
    static const uint16_t none[] = {0, 4282, 4284, 4286, 4322, 4324, 4326, 65535};
    struct twin unknown = {.kind = {.part = 4284, .bytes = 16384}};

    for (unsigned i = 0; i < sizeof none / sizeof none[0]; i++)
        expect(power_up_refusal(none[i], 4, 0x06).number == 1, "refusal 1");
    expect(replay_refusal(&unknown, elapsed, 0, levels, 0, 16384, 0).number == 4, "refusal 4: a state of no part");
    for (uint16_t high = 0; high <= 2; high += 2) {
        uint16_t smaller = (uint16_t)(4323 + high), larger = (uint16_t)(4283 + high);
        expect(power_up_refusal(smaller, 0, 0).number == 0 && power_up_refusal(larger, 0, 0).number == 0, "four parts");
        expect(refusal(smaller, 4095, 4096) == 0 && refusal(smaller, 4096, 4096) == 4, "refusal 4, smaller part");
        expect(refusal(larger, 16383, 16384) == 0 && refusal(larger, 16384, 16384) == 4, "refusal 4, larger part");
        expect(refusal(smaller, 0, 16384) == 5 && refusal(smaller, 0, 4095) == 5, "refusal 5, smaller part");
        expect(refusal(larger, 0, 4096) == 5 && refusal(larger, 0, 16385) == 5, "refusal 5, larger part");
        expect(refusal(smaller, 4096, 16384) == 4, "refusal 4 comes before 5");
    }
}

int main(void)
{
    p1(4323, 0);
    p1(4325, PIN);
    p1(4283, 0);
    p1(4285, PIN);
    for (uint16_t high = 0; high <= 2; high += 2) { /* 4323 and 4283, then 4325 and 4285 */
        uint16_t smaller = (uint16_t)(4323 + high), larger = (uint16_t)(4283 + high);
        p2_to_p4(smaller);
        p2_to_p4(larger);
        smaller_places(smaller);
        larger_places(larger);
        p5(smaller, 0x0080);
        p5(larger, 0x0080);
        p5(larger, 0x3FC0);
        p6(smaller);
        p6(larger);
        p7_p8(smaller);
        p7_p8(larger);
        p9(smaller);
        p9(larger);
        reads_go_on(smaller, 0x003F, 0x0040);
        reads_go_on(smaller, 0x0FFF, 0x0000);
        reads_go_on(larger, 0x0FFF, 0x1000);
        reads_go_on(larger, 0x3FFF, 0x0000);
    }
    for (int i = 0; i < KINDS; i++)
        check_cuts(kinds[i].part);
    wel_low();
    rwel_needs_wel();
    refusals_by_size();
    printf(failures ? "the C twin fails its own cases\n"
                    : "the C twin keeps P1 to P9 and the rule of stops inside a byte, on both sizes\n");
    return failures != 0;
}
