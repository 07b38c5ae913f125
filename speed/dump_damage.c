#include "dumps.h"

#include <string.h>

static const char *odd_tokens(struct master *m)
{
    static const char *const odd[] = {
        "#0", "#200011", "#4294967295", "#4294967296", "#", "#5x", "# 5", "$end", "$dumpvars", "$dumpvars $end",
        "$dumpvars 1! $end", "$comment", "$comment \x80 $end", "$date", "$version 1 $end", "$dumpoff $end", "$timescale 1us $end",
        "$timescale 1 ns $end", "$scope module m $end", "$scope struct m $end", "$upscope $end", "$enddefinitions $end",
        "$var wire 1 ! SCL $end", "$var wire 1 ' VCC $end", "$var wire 1 ' D6 $end", "$var wire 1 \" D7 [0] $end",
        "$var reg 1 ' D6 $end", "$var wire 8 ' D6 $end", "1!", "0\"", "1#", "0$", "x!", "Z\"", "z\"", "z!", "X$", "z#", "1?", "1",
        "x%", "b0 !", "r1 !", "SCL", "\x7F", "1!\x01", "\v", "-",
    };
    return odd[master_random(m, sizeof odd / sizeof odd[0])];
}

/* Puts bytes in at a place; they must fit. */
static size_t put_in(uint8_t *text, size_t length, size_t place, const void *bytes, size_t count)
{
    memmove(text + place + count, text + place, length - place);
    memcpy(text + place, bytes, count);
    return length + count;
}

static size_t take_out(uint8_t *text, size_t length, size_t from, size_t to)
{
    memmove(text + from, text + to, length - to);
    return length - (to - from);
}

static bool is_blank(uint8_t c)
{
    return c == ' ' || c == '\t' || c == '\r' || c == '\n';
}

/* From a place on, the place after the next blank, or after the next line feed; the end where there is none. */
static size_t after_blank(const uint8_t *text, size_t length, size_t place, bool line)
{
    while (place < length && !(line ? text[place] == '\n' : is_blank(text[place])))
        place++;
    return place < length ? place + 1 : length;
}

static size_t damage(uint8_t *text, size_t length, struct master *m)
{
    enum { MOST_LINE = 100 };
    size_t any = master_random(m, (uint32_t)length), token = after_blank(text, length, any, false);
    size_t line = after_blank(text, length, any, true), next = after_blank(text, length, line, true);
    uint8_t copy[MOST_LINE];
    const char *odd;
    size_t few;

    switch (master_random(m, 10)) {
    case 0:
        text[any] = (uint8_t)"01xXzZ#$!\"%& \n\r\t9bu\x80\0\x7F"[master_random(m, 22)];
        return length;
    case 1:
        few = any + master_random(m, 4);
        return take_out(text, length, any, few < length ? few : length);
    case 2: /* a line twice */
        if (next - line > MOST_LINE)
            return length;
        memcpy(copy, text + line, next - line);
        return put_in(text, length, next, copy, next - line);
    case 3: /* a line lost */
        return take_out(text, length, line, next);
    case 4: /* the end lost */
        return master_random(m, 4) == 0 ? any : length;
    case 5: /* lines joined, so that more faults stand in one, or parted */
    case 6:
        few = 10 + master_random(m, 200);
        for (size_t i = any; i < length && i < any + few; i++)
            if (is_blank(text[i]))
                text[i] = few % 4 == 0 ? '\n' : ' ';
        return length;
    case 7: /* another value, if it is one */
        if (token < length && (text[token] == '0' || text[token] == '1'))
            text[token] = (uint8_t)"01xXzZ"[master_random(m, 6)];
        return length;
    default:
        odd = odd_tokens(m);
        length = put_in(text, length, token, master_random(m, 2) ? " " : "\n", 1);
        return put_in(text, length, token, odd, strlen(odd));
    }
}

size_t damaged_dump(uint8_t *text, const uint8_t *from, size_t length, struct master *m)
{
    memcpy(text, from, length);
    for (uint32_t k = master_random(m, DAMAGES + 1); k > 0 && length > 0; k--)
        length = damage(text, length, m);
    return length;
}
