#include "dumps.h"

#include "captures.h"
#include "twin_state.h"

#include <string.h>

enum { WANTED = 4, WIRES = 6, WORN = 32 };
enum { LONGEST_NUMBER = 15, LONGEST_TIME = 60, LONGEST_ROUGH_TIME = 400 }; /* bytes: a time alone, then with its values */

struct writer {
    uint8_t *at, *end;
    unsigned form;
    struct master *random;
    const char *codes[WIRES];
    uint32_t time;
    uint8_t shown; /* the levels written last: bits 0 to 3 as in a capture, then the two skipped wires */
    bool begun;
};

static bool rough(const struct writer *w, uint32_t one_in)
{
    return w->form & ANY_BLANKS && master_random(w->random, one_in) == 0;
}

static void put(struct writer *w, const char *text)
{
    while (*text != '\0' && w->at < w->end)
        *w->at++ = (uint8_t)*text++;
}

static void put_blank(struct writer *w, const char *usual)
{
    static const char *const blanks[] = {" ", "\n", "\t", "\r\n", "\r", "\n\n", " \n", "  \t"};
    put(w, rough(w, 3) ? blanks[master_random(w->random, sizeof blanks / sizeof blanks[0])] : usual);
}

static void put_words(struct writer *w, const char *const *words, size_t count)
{
    for (size_t i = 0; i < count; i++) {
        put(w, words[i]);
        put_blank(w, i + 1 < count ? " " : "\n");
    }
}

#define PUT(w, ...) \
    put_words(w, (const char *const[]){__VA_ARGS__}, sizeof((const char *const[]){__VA_ARGS__}) / sizeof(const char *))

static void put_comment(struct writer *w)
{
    PUT(w, "$comment", "at \x80\xFF 1! #5", "$var $enddefinitions", "$end");
}

/* Six different codes: sigrok's, or odd ones. */
static void choose_codes(struct writer *w)
{
    static const char *const plain[WIRES] = {"!", "\"", "#", "$", "%", "&"};
    static const char *const odd[] = {"!", "!!", "!\"", "#", "#5", "$", "$en", "$end1", "$comment", "0", "1", "x", "z1", "b",
                                      "r0", "~~~~~~"};
    const uint32_t count = sizeof odd / sizeof odd[0];
    uint32_t from = rough(w, 1) ? master_random(w->random, count) : 0;

    for (uint32_t i = 0; i < WIRES; i++)
        w->codes[i] = rough(w, 1) ? odd[(from + i * 5) % count] : plain[i];
}

static unsigned wires_of(const struct writer *w)
{
    return w->form & TWO_SKIPPED ? WIRES : WANTED;
}

static void put_vars(struct writer *w)
{
    static const char *const names[WIRES] = {"SCL", "SDA", "WP", "VCC", "D4", "D5"};

    if (rough(w, 4))
        w->codes[2] = w->codes[3]; /* VCC's code serves WP too */
    for (unsigned i = 0; i < wires_of(w); i++) {
        PUT(w, "$var", "wire", "1", w->codes[i], names[i], "$end");
        if (rough(w, 4))
            PUT(w, "$var", "wire", "1", w->codes[i], "alias[0]", "$end");
        if (rough(w, 8))
            put_comment(w);
    }
}

static void put_definitions(struct writer *w)
{
    PUT(w, "$date", "Mon Nov 16 09:00:00 2026", "$end");
    PUT(w, "$version", "libsigrok 0.5.2", "$end");
    put(w, "$comment\n  Acquisition with ");
    put(w, w->form & TWO_SKIPPED ? "6/6" : "4/4");
    put(w, " channels at 1 MHz\n$end\n");
    if (rough(w, 2))
        PUT(w, "$timescale", "1us", "$end");
    else
        PUT(w, "$timescale", "1", "us", "$end");
    PUT(w, "$scope", "module", "libsigrok", "$end");
    put_vars(w);
    PUT(w, "$upscope", "$end");
    PUT(w, "$enddefinitions", "$end");
}

/* The digits of a number; answers the place after them. */
static uint8_t *put_number(uint8_t *at, uint32_t number)
{
    uint8_t digits[10], *first = digits + sizeof digits;

    do
        *--first = (uint8_t)('0' + number % 10);
    while ((number /= 10) != 0);
    while (first < digits + sizeof digits)
        *at++ = *first++;
    return at;
}

static void put_time(struct writer *w)
{
    if (w->end - w->at < LONGEST_NUMBER)
        return;
    put(w, rough(w, 8) ? "#000" : "#");
    w->at = put_number(w->at, w->time);
}

static char value_of(const struct writer *w, unsigned wire, bool high)
{
    if (wire >= WANTED && rough(w, 4))
        return "xXzZ"[master_random(w->random, 4)];
    if (wire == 1 && high && rough(w, 4))
        return "zZ"[master_random(w->random, 2)];
    return high ? '1' : '0';
}

static void put_values(struct writer *w, uint8_t levels, uint8_t which)
{
    for (unsigned wire = 0; wire < wires_of(w); wire++) {
        if (!(which >> wire & 1))
            continue;
        put_blank(w, w->form & ON_ONE_LINE ? " " : "\n");
        put(w, (const char[]){value_of(w, wire, levels >> wire & 1), '\0'});
        put(w, w->codes[wire]);
    }
}

/* One time with the wires that change. At the first that is all of them, in $dumpvars as most analysers do it. */
static void put_any_change(struct writer *w, uint8_t levels)
{
    bool listed = (!w->begun && !(w->form & ON_ONE_LINE)) || rough(w, 16);

    put_time(w);
    if (listed) {
        put_blank(w, "\n");
        put(w, "$dumpvars");
    }
    put_values(w, levels, w->begun ? levels ^ w->shown : 0xFF);
    if (listed) {
        put_blank(w, "\n");
        put(w, "$end");
    }
    put_blank(w, "\n");
    if (rough(w, 16))
        put_comment(w);
}

/* The same where it is one of many and nothing is rough: some megabytes of it are written for each count of instructions. */
static void put_plain_change(struct writer *w, uint8_t levels)
{
    uint8_t *at = w->at, between = w->form & ON_ONE_LINE ? ' ' : '\n';
    unsigned changed = levels ^ w->shown;

    *at++ = '#';
    at = put_number(at, w->time);
    for (unsigned wire = 0; changed >> wire != 0; wire++)
        if (changed >> wire & 1) {
            *at++ = between;
            *at++ = levels >> wire & 1 ? '1' : '0';
            *at++ = (uint8_t)w->codes[wire][0];
        }
    *at++ = '\n';
    w->at = at;
}

static uint8_t with_skipped(struct writer *w, uint8_t levels)
{
    if (!(w->form & TWO_SKIPPED))
        return levels;
    levels |= w->shown & 0x30;
    if (master_random(w->random, 8) == 0)
        levels ^= 0x10;
    if (master_random(w->random, 32) == 0)
        levels ^= 0x20;
    return levels;
}

static void put_sample(struct writer *w, uint32_t elapsed, uint8_t levels)
{
    w->time += elapsed == 0 && w->begun ? 1 : elapsed;
    levels = with_skipped(w, levels);
    if (w->begun && levels == w->shown)
        return;
    if (!w->begun || w->form & ANY_BLANKS)
        put_any_change(w, levels);
    else
        put_plain_change(w, levels);
    w->shown = levels;
    w->begun = true;
}

/* Whether there might be no room for another sample. */
static bool full(const struct writer *w)
{
    return w->end - w->at < (w->form & ANY_BLANKS ? LONGEST_ROUGH_TIME : LONGEST_TIME) || (w->form & ONE_TIME && w->begun);
}

static void put_samples(struct writer *w, const uint32_t *elapsed, const uint8_t *levels, size_t count)
{
    for (size_t i = 0; i < count && !full(w); i++)
        put_sample(w, elapsed[i], levels[i]);
}

static void begin(struct writer *w, uint8_t *text, size_t room, unsigned form, struct master *random)
{
    *w = (struct writer){.at = text, .end = text + room, .form = form, .random = random};
    choose_codes(w);
    put_definitions(w);
}

static size_t finish(struct writer *w, const uint8_t *text)
{
    if (w->form & ON_ONE_LINE) {
        w->time++;
        put_time(w);
        put_blank(w, "\n");
    }
    return (size_t)(w->at - text);
}

/* What an analyser sees on SDA: the master and the part. */
static void join_lines(uint8_t *levels, const uint8_t *answers, size_t count, struct master *m)
{
    for (size_t i = 0; i < count; i++)
        if (!(answers[i] & 1) && master_random(m, WORN) != 0)
            levels[i] &= (uint8_t)~SDA_HIGH;
}

size_t make_dump(uint8_t *text, size_t room, const struct kind *kind, uint8_t stored, const uint8_t *array, unsigned form,
                 uint32_t seed)
{
    static uint32_t elapsed[MOST_SAMPLES];
    static uint8_t levels[MOST_SAMPLES], answers[MOST_SAMPLES], cells[LARGER];
    size_t at_once = room / 4 < MOST_SAMPLES ? room / 4 : MOST_SAMPLES; /* enough to fill a short dump */
    struct master m = {.random = seed};
    struct writer w;
    struct twin s;

    begin(&w, text, room, form, &m);
    power_up(&s, kind, 0, stored);
    memcpy(cells, array, kind->bytes);
    for (; !full(&w); seed += 1000) {
        master_begin(&m, elapsed, levels, at_once, kind->bytes, seed);
        capture_mix(&m);
        run_samples(&s, cells, elapsed, levels, answers, m.length);
        if (!(form & SDA_OF_MASTER))
            join_lines(levels, answers, m.length, &m);
        put_samples(&w, elapsed, levels, m.length);
    }
    return finish(&w, text);
}

size_t dump_capture(uint8_t *text, size_t room, const uint32_t *elapsed, const uint8_t *levels, size_t count, unsigned form,
                    struct master *m)
{
    struct writer w;

    begin(&w, text, room, form, m);
    put_samples(&w, elapsed, levels, count);
    return finish(&w, text);
}
