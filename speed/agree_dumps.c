#include "agree_dumps.h"

#include "dump_cases.h"
#include "dumps.h"
#include "texts.h"

#include <stdio.h>
#include <string.h>

enum { LONG_DUMP = 1 << 20, EITHER = -1, UNTOUCHED = 77 };

/* A call with every parameter of its own. */
struct call {
    uint16_t part;
    uint8_t select, stored;
    const uint8_t *dump;
    size_t dump_len, array_len, places_len, reply_len;
};

static uint8_t array[LARGER + 1], long_dump[LONG_DUMP];

static struct outcome {
    uint8_t answer;
    uint64_t reply[2];
    uint8_t array[LARGER + 1];
    uint64_t places[MOST_PLACES + 1]; /* one more than any call is lent */
} outcomes[SIDES];

static struct call sound(const struct kind *kind, const void *dump, size_t length)
{
    return (struct call){kind->part, 0, 0x60, dump, length, kind->bytes, MOST_PLACES, 2};
}

static void run(const struct side *side, const struct call *c, struct outcome *o)
{
    memcpy(o->array, array, sizeof array);
    memset(o->places, 0x5A, (c->places_len + 1) * sizeof o->places[0]);
    o->reply[0] = o->reply[1] = UNTOUCHED;
    o->answer = side->replay_dump(c->part, c->select, c->stored, c->dump, c->dump_len, o->array, c->array_len, o->places,
                                  c->places_len, o->reply, c->reply_len);
}

static void print_outcome(const char *what, const struct outcome *o)
{
    printf(" %s %d (%llu, %llu)", what, o->answer, (unsigned long long)o->reply[0], (unsigned long long)o->reply[1]);
}

/* Runs both sides; `number` and `place` are what both must answer, or EITHER where only their agreement is asked. */
static bool agree(const char *what, const struct call *c, int number, int64_t place)
{
    const struct outcome *p = &outcomes[PROVED], *q = &outcomes[PLAIN_C];
    const char *differs = NULL;

    for (int i = 0; i < SIDES; i++)
        run(&sides[i], c, &outcomes[i]);
    if (p->answer != q->answer || memcmp(p->reply, q->reply, sizeof p->reply) != 0)
        differs = "reply";
    else if (memcmp(p->array, q->array, sizeof p->array) != 0)
        differs = "array";
    else if (memcmp(p->places, q->places, (c->places_len + 1) * sizeof p->places[0]) != 0)
        differs = "places";
    else if ((number != EITHER && q->reply[0] != (uint64_t)number) || (place != EITHER && q->reply[1] != (uint64_t)place))
        differs = "reply (both give the wrong one)";
    if (differs == NULL)
        return true;
    printf("DIFFERS in %s on %u: %s;", what, c->part, differs);
    print_outcome("proved", p);
    print_outcome("C", q);
    printf("; the dump:\n%.*s\n", c->dump_len > 1500 ? 1500 : (int)c->dump_len, (const char *)c->dump);
    return false;
}

bool agree_on_dump_job(const struct input *in)
{
    bool ok = true;

    memcpy(array, in->arrays, in->kind->bytes);
    for (size_t call = 0; ok && call < in->calls; call++) {
        struct call c = sound(in->kind, in->dumps + call * in->job->size, in->length[call]);
        c.stored = in->job->stored;
        ok &= agree(in->job->name, &c, 0, EITHER);
    }
    return ok;
}

/* Every short dump with the number and line worked out by hand. */
static bool agree_on_cases(const struct kind *kind)
{
    bool ok = true;
    for (size_t i = 0; i < dump_case_count; i++) {
        struct call c = sound(kind, dump_cases[i].text, dump_cases[i].length);
        ok &= agree("a short dump", &c, (int)dump_cases[i].number, (int64_t)dump_cases[i].line);
    }
    return ok;
}

/* On a sound dump, and on one with a fault in line 21, after definitions, time and values: the call is judged first. */
static bool agree_on_calls(const struct kind *kind, bool fault)
{
    size_t length = make_dump(long_dump, 500, kind, 0x60, array, ONE_TIME, 1);
    int number = fault ? 20 : 0, line = fault ? 21 : 0;
    bool ok = true;
    struct call c;

    if (fault)
        long_dump[length++] = '?';
#define TRY(number, place, change) \
    (c = sound(kind, long_dump, length), change, ok &= agree("call " #number " (" #change ")", &c, number, place))
    TRY(number, line, c.places_len = 0);
    TRY(number, line, (c.select = 3, c.stored = 0xF9));
    TRY(1, 0, (c.part = 4324, c.select = 4, c.stored = 6, c.array_len = 0));
    TRY(1, 0, c.part = 0);
    TRY(2, 0, (c.select = 4, c.stored = 6, c.array_len = 0));
    TRY(3, 0, (c.stored = 2, c.array_len = 0));
    TRY(3, 0, c.stored = 4);
    TRY(5, 0, c.array_len = kind->bytes - 1);
    TRY(5, 0, c.array_len = kind->bytes + 1);
    TRY(5, 0, c.array_len = SMALLER + LARGER - kind->bytes);
    TRY(UNTOUCHED, UNTOUCHED, (c.part = 0, c.reply_len = 1));
    TRY(UNTOUCHED, UNTOUCHED, c.reply_len = 0);
    TRY(UNTOUCHED, UNTOUCHED, c.reply_len = 3);
#undef TRY
    return ok;
}

/* An acknowledge that is held from the ninth rise up to the last microsecond there is: all repeats disagree. */
static size_t held_dump(uint8_t *text, size_t room, const struct kind *kind)
{
    enum { ROOM = 64 };
    uint32_t elapsed[ROOM];
    uint8_t levels[ROOM];
    struct master m;

    master_begin(&m, elapsed, levels, ROOM, kind->bytes, 1);
    master_end_reset(&m);
    master_start(&m);
    master_bits(&m, 0xA0, 8);
    master_lines(&m, 0, 1, 3);
    master_lines(&m, 1, 1, 3);
    master_lines(&m, 0, 1, (uint32_t)(4294967295u - m.clock));
    return dump_capture(text, room, elapsed, levels, m.length, 0, &m);
}

/* Reset ends after 200,000 microseconds, two at a time: in the sample of the start, if those between two pieces count too. */
static size_t slow_dump(uint8_t *text, size_t room, const struct kind *kind)
{
    char *at = (char *)text + make_dump(text, room, kind, 0x60, array, ONE_TIME, 1);
    uint32_t time = 0;

    while ((time += 2) < 200000)
        at += sprintf(at, "#%u\n", time);
    at += sprintf(at, "#%u\n0\"\n#%u\n0!\n", time, time + 1);
    for (unsigned bit = 0; bit <= 8; bit++)
        at += sprintf(at, "#%u %c\" #%u 1! #%u 0!\n", time + 3 * bit + 2, "101000001"[bit], time + 3 * bit + 3, time + 3 * bit + 4);
    return (size_t)(at - (char *)text);
}

/* More samples than a piece has, and more disagreements than there is room for. */
static bool agree_on_long_dumps(const struct kind *kind)
{
    struct call c = sound(kind, long_dump, held_dump(long_dump, LONG_DUMP, kind));
    bool ok = agree("the longest gap", &c, 0, 1 + 42947); /* from 200,093 on */

    c.dump_len = slow_dump(long_dump, LONG_DUMP, kind);
    ok &= agree("reset over two pieces", &c, 0, 1) & (outcomes[PROVED].places[0] == 100027);
    c.dump_len = make_dump(long_dump, LONG_DUMP, kind, 0x60, array, SDA_OF_MASTER | TWO_SKIPPED, kind->part);
    ok &= agree("a long dump", &c, 0, EITHER);
    for (c.places_len = 0; c.places_len < 3000; c.places_len += 999)
        ok &= agree("a long dump, few places", &c, 0, EITHER);
    memcpy(long_dump + c.dump_len - 3, "x!\n", 3); /* the last value */
    return ok & agree("a long dump with a fault in its last line", &c, 23, EITHER);
}

/* A capture as a dump in some form, two times in three damaged. */
static size_t random_dump(uint8_t *text, const struct kind *kind, uint8_t select, struct master *m)
{
    enum { SAMPLES = 600, LEAST = 600, MORE = 6000 };
    static uint32_t elapsed[SAMPLES];
    static uint8_t levels[SAMPLES], whole[LEAST + MORE];
    struct master capture;
    size_t length;

    master_begin(&capture, elapsed, levels, 20 + master_random(m, SAMPLES - 20), kind->bytes, master_random(m, 1u << 31));
    if (master_random(m, 2))
        capture_mix(&capture);
    else
        capture_rough(&capture, select);
    length = dump_capture(whole, LEAST + master_random(m, MORE), elapsed, levels, capture.length, master_random(m, 16), m);
    if (master_random(m, 3) != 0)
        return damaged_dump(text, whole, length, m);
    memcpy(text, whole, length);
    return length;
}

/* Each number must come up often enough to have been compared. */
static bool agree_on_random_dumps(void)
{
    enum { DUMPS = 6000, LEAST = 25, NUMBERS = 24 };
    unsigned came[NUMBERS] = {0};
    struct master m = {.random = 1};
    bool ok = true;

    for (uint32_t turn = 0; ok && turn < DUMPS; turn++) {
        const struct kind *kind = &kinds[turn % KINDS];
        uint8_t select = (uint8_t)master_random(&m, 4);
        struct call c = sound(kind, long_dump, random_dump(long_dump, kind, select, &m));
        c.select = select;
        c.stored = (uint8_t)(master_random(&m, 256) & 0xF9);
        c.places_len = master_random(&m, 100);
        fill_array(array, kind->bytes, 1 + turn % 3, turn);
        ok &= agree("a dump by chance", &c, EITHER, EITHER);
        came[outcomes[PLAIN_C].reply[0] % NUMBERS]++;
    }
    for (int number = 0; ok && number < NUMBERS; number = number == 0 ? 20 : number + 1)
        if (came[number] < LEAST) {
            printf("FAIL: of %d dumps by chance only %u give %d\n", DUMPS, came[number], number);
            ok = false;
        }
    return ok;
}

bool agree_on_dumps(void)
{
    bool ok = true;

    for (int i = 0; i < KINDS; i++) {
        fill_array(array, kinds[i].bytes, 1, 1);
        ok &= agree_on_cases(&kinds[i]);
        ok &= agree_on_calls(&kinds[i], false);
        ok &= agree_on_calls(&kinds[i], true);
        ok &= agree_on_long_dumps(&kinds[i]);
    }
    return ok & agree_on_random_dumps();
}
