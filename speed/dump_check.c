/* The C dump reader on cases worked out by hand from the papers: what is refused and where, which samples a dump makes, and which
 * of them disagree. Samples are not seen from outside; where an acknowledge falls tells how many went before it. */
#include "checking.h"
#include "dump.h"
#include "dump_cases.h"

#include <stdarg.h>
#include <stdio.h>
#include <string.h>

enum { TEXT_ROOM = 1 << 22, PLACES = 100000, UNTOUCHED = 77 };

/* How long after the first time the start is: reset ends at the third sample, the second repeat, and the start is the fourth. */
enum { USUAL_GAP = 200003, USUAL_START = 3 };
enum { TO_ACKNOWLEDGE = 27 }; /* samples from a start to the slave byte's ninth rise */

static char text[TEXT_ROOM];
static size_t length;
static uint32_t now;
static uint64_t places[PLACES], reply[2];

static void say(const char *format, ...)
{
    va_list words;
    va_start(words, format);
    length += (size_t)vsnprintf(text + length, sizeof text - length, format, words);
    va_end(words);
}

/* Definitions, and a first time with all four wires high but WP. */
static void begin_dump(uint32_t first)
{
    length = 0;
    now = first;
    say("$timescale 1 us $end $scope module m $end $var wire 1 c SCL $end $var wire 1 d SDA $end $var wire 1 w WP $end\n");
    say("$var wire 1 v VCC $end $upscope $end $enddefinitions $end\n#%u\n1c\n1d\n0w\n1v\n", now);
    memset(array, 0xFF, sizeof array);
}

static void wait(uint32_t microseconds)
{
    now += microseconds;
    say("#%u\n", now);
}

static void lines(int scl, char sda, uint32_t microseconds)
{
    wait(microseconds);
    say("%dc\n%cd\n", scl, sda);
}

static void send_bit(char sda)
{
    lines(0, sda, 1);
    lines(1, sda, 1);
    lines(0, sda, 1);
}

static void send_start(uint32_t microseconds)
{
    lines(1, '0', microseconds);
    lines(0, '0', 1);
}

/* Eight bits and the ninth rise, with SDA let go. */
static void send_byte(uint8_t byte)
{
    for (int i = 7; i >= 0; i--)
        send_bit(byte >> i & 1 ? '1' : '0');
    lines(0, '1', 1);
    lines(1, '1', 1);
}

/* Up to the slave byte's acknowledge, the start being so long after the first time. */
static void up_to_acknowledge(uint32_t first, uint32_t gap)
{
    begin_dump(first);
    send_start(gap);
    send_byte(0xA0);
}

static void replay_into(size_t room)
{
    for (size_t i = 0; i < PLACES; i++)
        places[i] = UNTOUCHED;
    uint8_t answer = cdump_replay(4323, 0, 0x60, (const uint8_t *)text, length, array, SMALLER, places, room, reply, 2);
    expect(answer == 1 && reply[0] == 0, "a dump is accepted");
}

/* Whether the samples that disagree are `count` in a row from `first` on. */
static bool disagree(uint64_t first, uint64_t count)
{
    replay_into(PLACES);
    for (size_t i = 0; i < PLACES; i++)
        if (places[i] != (i < count ? first + i : UNTOUCHED))
            return false;
    return reply[1] == count;
}

static void check_cases(void)
{
    for (size_t i = 0; i < dump_case_count; i++) {
        const struct dump_case *c = &dump_cases[i];
        uint8_t answer = cdump_replay(4323, 0, 0x60, (const uint8_t *)c->text, c->length, array, SMALLER, places, PLACES, reply, 2);
        bool right = answer == 1 && reply[0] == c->number && reply[1] == c->line;
        expect(right, "a short dump");
        if (!right)
            printf("%u at %u, not %u at %u:\n%s\n", (unsigned)reply[0], (unsigned)reply[1], c->number, (unsigned)c->line, c->text);
    }
}

/* Reset ends when 200,000 have passed, and a start in the sample before is lost. */
static void gaps(void)
{
    up_to_acknowledge(0, USUAL_GAP);
    expect(disagree(USUAL_START + TO_ACKNOWLEDGE, 1), "a gap of 200,003: two repeats");
    up_to_acknowledge(0, 200000);
    expect(disagree(2 + TO_ACKNOWLEDGE, 1), "a gap of 200,000: one repeat");
    up_to_acknowledge(0, 200001);
    expect(disagree(3 + TO_ACKNOWLEDGE, 1), "a gap of 200,001: two repeats");
    up_to_acknowledge(0, 199999);
    expect(disagree(0, 0), "199,999 do not end reset");
    up_to_acknowledge(4000000000u, USUAL_GAP);
    expect(disagree(USUAL_START + TO_ACKNOWLEDGE, 1), "the first sample has elapsed 0, whatever its time");

    begin_dump(0);
    wait(100000);
    send_start(100000);
    send_byte(0xA0);
    expect(disagree(2 + TO_ACKNOWLEDGE, 1), "a gap of 100,000: no repeat");
    begin_dump(0);
    wait(100001);
    send_start(99999);
    send_byte(0xA0);
    expect(disagree(3 + TO_ACKNOWLEDGE, 1), "a gap of 100,001: one repeat, then 1");
}

static void what_disagrees(void)
{
    const uint64_t at = USUAL_START + TO_ACKNOWLEDGE;

    up_to_acknowledge(0, USUAL_GAP);
    lines(1, '0', 1);
    expect(disagree(at, 1), "SDA low in the dump does not disagree");
    up_to_acknowledge(0, USUAL_GAP);
    lines(1, 'z', 1);
    lines(1, 'Z', 1);
    expect(disagree(at, 3), "z counts as 1");
    up_to_acknowledge(0, USUAL_GAP);
    lines(0, '1', 1);
    lines(1, '1', 1);
    expect(disagree(at, 1), "nor does anything with SCL low, or once the part has let go");

    up_to_acknowledge(0, USUAL_GAP);
    lines(0, '0', 250000);
    expect(disagree(at, 3), "repeats have the old levels, and disagree like any other sample");

    up_to_acknowledge(0, USUAL_GAP);
    wait(1);
    say("0c 1c 0d\n\n1d\n");
    expect(disagree(at, 2), "a sample has the last values up to the next time, and no edges inside");
    say("0c");
    expect(disagree(at, 1), "up to the end for the last one");
}

/* The rise of the ninth clock is at microsecond 200,030. */
static void longest_gap(void)
{
    up_to_acknowledge(0, USUAL_GAP);
    wait(4294967295u - 200030);
    expect(disagree(USUAL_START + TO_ACKNOWLEDGE, 1 + 42947 + 1), "a gap up to 4,294,967,295");
}

static void many_samples(void)
{
    enum { HELD = 70000, HALF_HOLD = 100000, FEW = 10 };
    const uint64_t at = USUAL_START + TO_ACKNOWLEDGE, bit = at + HELD + 3;

    begin_dump(0); /* a read of 7Fh: its first bit is low, three samples after the acknowledge */
    array[0] = 0x7F;
    send_start(USUAL_GAP);
    send_byte(0xA1);
    for (int i = 0; i < HELD; i++)
        wait(1);
    lines(0, '1', 1);
    send_bit('1');
    replay_into(PLACES);
    expect(reply[1] == HELD + 2 && places[0] == at && places[HELD] == at + HELD, "places count on from piece to piece");
    expect(places[HELD + 1] == bit && places[HELD + 2] == UNTOUCHED, "the state is carried on");
    replay_into(FEW);
    expect(reply[1] == HELD + 2 && places[FEW - 1] == at + FEW - 1, "a short row keeps the first places");
    expect(places[FEW] == UNTOUCHED, "and nothing is written after it");
    replay_into(0);
    expect(reply[1] == HELD + 2 && places[0] == UNTOUCHED, "no row at all");

    for (uint32_t short_of = 0; short_of <= 1; short_of++) {
        begin_dump(0);
        for (int i = 1; i < HALF_HOLD; i++)
            wait(2);
        send_start(2 - short_of);
        send_byte(0xA0);
        expect(disagree(HALF_HOLD + TO_ACKNOWLEDGE, short_of == 0), "time passes from one piece to the next");
    }
}

/* A whole write of bytes: start, bytes, stop. The ninth clock of each ends with a fall. */
static void send_write(const uint8_t *bytes, size_t count)
{
    send_start(1);
    for (size_t i = 0; i < count; i++) {
        send_byte(bytes[i]);
        lines(0, '1', 1);
    }
    lines(0, '0', 1);
    lines(1, '0', 1);
    lines(1, '1', 1);
}

static const uint8_t set_wel[] = {0xA0, 0xFF, 0xFF, 0x02}, write_5a[] = {0xA0, 0x01, 0x23, 0x5A};

static void arrays(void)
{
    begin_dump(0);
    wait(USUAL_GAP);
    send_write(set_wel, sizeof set_wel);
    send_write(write_5a, sizeof write_5a);
    replay_into(PLACES);
    expect(reply[1] == 8 && array[0x123] == 0x5A, "the array is as the replay leaves it");
    array[0x123] = 0xFF;
    say("#%u\n", now);
    places[0] = UNTOUCHED;
    cdump_replay(4323, 0, 0x60, (const uint8_t *)text, length, array, SMALLER, places, PLACES, reply, 2);
    expect(reply[0] == 22 && array[0x123] == 0xFF && places[0] == UNTOUCHED, "a fault in the last line leaves array and places");
}

/* The third step puts a block code on the first pages unless WPEN, stored, and WP are high; then a byte for address 0. */
static void pins(bool wp, bool vcc)
{
    static const uint8_t set_rwel[] = {0xA0, 0xFF, 0xFF, 0x06}, lock[] = {0xA0, 0xFF, 0xFF, 0xE3}, write_0[] = {0xA0, 0, 0, 0x5A};

    begin_dump(0);
    say("%dw %dv\n", wp, vcc);
    wait(USUAL_GAP);
    send_write(set_wel, sizeof set_wel);
    send_write(set_rwel, sizeof set_rwel);
    send_write(lock, sizeof lock);
    wait(5000);
    send_write(write_0, sizeof write_0);
    cdump_replay(4323, 0, 0xE0, (const uint8_t *)text, length, array, SMALLER, places, PLACES, reply, 2);
    expect(reply[0] == 0 && reply[1] == (!vcc ? 0 : wp ? 16 : 15), "WP and VCC decide on acknowledges, each of which disagrees");
    expect(array[0] == (wp && vcc ? 0x5A : 0xFF), "WP and VCC decide on a write");
}

static void refusals_of_calls(void)
{
    static const struct { uint16_t part; uint8_t select, stored; size_t array_len, reply_len; unsigned number; } calls[] = {
        {4324, 4, 2, 0, 2, 1}, {4323, 4, 2, 0, 2, 2}, {4323, 3, 2, 0, 2, 3}, {4323, 3, 4, 0, 2, 3}, {4323, 3, 0, 0, 2, 5},
        {4323, 0, 0, LARGER, 2, 5}, {4283, 0, 0, SMALLER, 2, 5}, {4285, 3, 0, LARGER, 2, 20}, {4325, 0, 0xF9, SMALLER, 2, 20},
        {4324, 0, 0, SMALLER, 1, UNTOUCHED}, {4323, 0, 0, SMALLER, 3, UNTOUCHED},
    };
    const uint8_t fault = '?';

    for (size_t i = 0; i < sizeof calls / sizeof calls[0]; i++) {
        uint64_t said[3] = {UNTOUCHED, UNTOUCHED, UNTOUCHED};
        uint8_t answer = cdump_replay(calls[i].part, calls[i].select, calls[i].stored, &fault, 1, array, calls[i].array_len, places,
                                      PLACES, said, calls[i].reply_len);
        uint64_t place = calls[i].number == 20 ? 1 : calls[i].number == UNTOUCHED ? UNTOUCHED : 0;
        expect(answer == (calls[i].reply_len == 2) && said[0] == calls[i].number && said[1] == place, "a refused call");
    }
}

int main(void)
{
    check_cases();
    gaps();
    what_disagrees();
    longest_gap();
    many_samples();
    arrays();
    pins(false, true);
    pins(true, true);
    pins(true, false);
    refusals_of_calls();
    printf(failures ? "the C dump reader fails its own cases\n"
                    : "the C dump reader gives the refusals, samples and disagreements that were worked out by hand\n");
    return failures != 0;
}
