#include "dump_text.h"

#include <stdio.h>
#include <stdlib.h>
#include <string.h>

void *resized(void *row, size_t bytes)
{
    row = realloc(row, bytes);
    if (row == NULL) {
        fprintf(stderr, "no memory for %zu bytes\n", bytes);
        exit(2);
    }
    return row;
}

static bool blank(uint8_t c)
{
    return c == ' ' || c == '\t' || c == '\r' || c == '\n';
}

/* No line follows a last line feed. */
static uint64_t line_here(const struct dump *d)
{
    bool past_last = d->at == d->end && d->at != d->text && d->at[-1] == '\n';
    return d->line - past_last;
}

void note_fault(struct dump *d, unsigned number)
{
    uint64_t line = line_here(d);
    bool none = d->fault.number == 0;

    if (none || line < d->fault.place || (line == d->fault.place && number < d->fault.number))
        d->fault = (struct refusal){number, line};
}

bool malformed(struct dump *d)
{
    note_fault(d, MALFORMED);
    return false;
}

struct token next_token(struct dump *d)
{
    const uint8_t *at = d->at, *text;

    for (; at < d->end && blank(*at); at++)
        d->line += *at == '\n';
    for (text = at; at < d->end && !blank(*at);)
        at++;
    d->at = at;
    return (struct token){text, (size_t)(at - text)};
}

static bool same(struct token t, const uint8_t *text, size_t length)
{
    return t.length == length && memcmp(t.text, text, length) == 0;
}

bool is(struct token t, const char *word)
{
    return same(t, (const uint8_t *)word, strlen(word));
}

static bool read_word(struct dump *d, const char *word)
{
    return is(next_token(d), word) || malformed(d);
}

/* A code or a name: any token of printable characters but $end. */
static bool read_name(struct dump *d, struct token *name)
{
    struct token t = *name = next_token(d);

    for (size_t i = 0; i < t.length; i++)
        if (t.text[i] < 0x21 || t.text[i] > 0x7E)
            return malformed(d);
    return (t.length != 0 && !is(t, "$end")) || malformed(d);
}

bool skip_section(struct dump *d)
{
    for (;;) {
        struct token t = next_token(d);
        if (t.length == 0)
            return malformed(d);
        if (is(t, "$end"))
            return true;
    }
}

static bool read_timescale(struct dump *d)
{
    struct token t = next_token(d);

    if (is(t, "1"))
        t = next_token(d);
    else if (is(t, "1us"))
        return read_word(d, "$end");
    else
        return malformed(d);
    return is(t, "us") ? read_word(d, "$end") : malformed(d);
}

static bool read_scope(struct dump *d)
{
    static const char *const kinds_of_scope[] = {"module", "task", "function", "begin", "fork"};
    struct token t = next_token(d), name;

    for (unsigned i = 0; i < sizeof kinds_of_scope / sizeof kinds_of_scope[0]; i++)
        if (is(t, kinds_of_scope[i]))
            return read_name(d, &name) && read_word(d, "$end");
    return malformed(d);
}

static uint8_t wire_named(struct token name)
{
    return is(name, "SCL") ? SCL : is(name, "SDA") ? SDA : is(name, "WP") ? WP : is(name, "VCC") ? VCC : 0;
}

uint8_t wires_of_longer(const struct dump *d, const uint8_t *code, size_t length)
{
    for (size_t i = 0; i < d->longer_count; i++)
        if (same(d->longer[i].code, code, length))
            return d->longer[i].wires;
    return 0;
}

static void declare(struct dump *d, struct token code, uint8_t wire)
{
    size_t i = 0;

    if (code.length == 1) {
        d->codes[code.text[0]] |= DECLARED | wire;
        return;
    }
    while (i < d->longer_count && !same(d->longer[i].code, code.text, code.length))
        i++;
    if (i == d->longer_room) {
        d->longer_room = 2 * i + 16;
        d->longer = resized(d->longer, d->longer_room * sizeof d->longer[0]);
    }
    if (i == d->longer_count)
        d->longer[d->longer_count++] = (struct longer_code){code, 0};
    d->longer[i].wires |= DECLARED | wire;
}

static bool read_var(struct dump *d)
{
    struct token code, name;

    if (!read_word(d, "wire") || !read_word(d, "1") || !read_name(d, &code) || !read_name(d, &name))
        return false;
    uint8_t wire = wire_named(name);
    if (d->named & wire)
        note_fault(d, WRONG_WIRES);
    d->named |= wire;
    declare(d, code, wire);
    return read_word(d, "$end");
}

static bool skipped(struct token t)
{
    return is(t, "$comment") || is(t, "$date") || is(t, "$version");
}

/* The sections that must come, one after the other; $var stands in the scope and does not move on. */
bool read_definitions(struct dump *d)
{
    enum { AT_TIMESCALE, AT_SCOPE, IN_SCOPE, AT_END } stage = AT_TIMESCALE;
    bool sound = true;

    while (sound) {
        struct token t = next_token(d);
        if (skipped(t)) {
            sound = skip_section(d);
        } else if (stage == AT_TIMESCALE && is(t, "$timescale")) {
            sound = read_timescale(d);
            stage = AT_SCOPE;
        } else if (stage == AT_SCOPE && is(t, "$scope")) {
            sound = read_scope(d);
            stage = IN_SCOPE;
        } else if (stage == IN_SCOPE && is(t, "$var")) {
            sound = read_var(d);
        } else if (stage == IN_SCOPE && is(t, "$upscope")) {
            sound = read_word(d, "$end");
            stage = AT_END;
        } else if (stage == AT_END && is(t, "$enddefinitions")) {
            if (d->named != WANTED)
                note_fault(d, WRONG_WIRES);
            return read_word(d, "$end");
        } else {
            sound = malformed(d);
        }
    }
    return false;
}
