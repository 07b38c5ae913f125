/* `replay_cases` through the door: what the C call writes for each case named, in the form of the programs of that name.
 *
 *   door_dumps WORD...
 *
 * The words come in fives: DUMP IMAGE PART SELECT STORED. For each five there is the line `== DUMP`, then the places, or the line of the
 * refusal: the part's, then the image's, then the dump's. Besides it sees to it that a refusal changes neither array nor row, and
 * that a row of one place and one of none get the same count and their first places. Exit 0: all well; 1: not so; 2: trouble. */
#include <inttypes.h>
#include <stdbool.h>
#include <stdio.h>
#include <stdlib.h>
#include <string.h>
#include "qillampu.h"

enum { LARGEST = 16384, MOST_BYTES = 1 << 26, MOST_PLACES = 1 << 22, UNTOUCHED = 0xA5 };

static uint8_t image[MOST_BYTES], dump[MOST_BYTES], array[LARGEST], before[LARGEST], other[LARGEST];
static uint64_t places[MOST_PLACES];

static size_t read_whole(const char *name, uint8_t *room)
{
    FILE *file = fopen(name, "rb");
    size_t length = 0;

    if (file != NULL) {
        length = fread(room, 1, MOST_BYTES, file);
        fclose(file);
    }
    if (file == NULL || length == MOST_BYTES) {
        perror(name);
        exit(2);
    }
    return length;
}

/* Decimal, or hexadecimal after 0x; `widest` for what is no number, and for one that is larger. */
static unsigned number_of(const char *word, unsigned widest)
{
    bool hexadecimal = strncmp(word, "0x", 2) == 0;
    const char *at = hexadecimal ? word + 2 : word;
    unsigned long value = 0;

    if (*at == '\0' || at[strspn(at, hexadecimal ? "0123456789abcdefABCDEF" : "0123456789")] != '\0')
        return widest;
    value = strtoul(at, NULL, hexadecimal ? 16 : 10);
    return value < widest ? (unsigned)value : widest;
}

static size_t size_of(unsigned part)
{
    return part == 4283 || part == 4285 ? LARGEST : 4096;
}

static void must(bool holds, const char *what, const char *name)
{
    if (!holds) {
        fflush(stdout);
        fprintf(stderr, "door_dumps: %s: %s\n", name, what);
        exit(1);
    }
}

/* The dump once more with a shorter row: the same reply and array, and the first of the places. */
static void try_row(const char *const *words, unsigned part, unsigned select, unsigned stored, size_t length, const uint64_t *reply, size_t row)
{
    uint64_t again[2], first[2] = {UNTOUCHED, UNTOUCHED};
    bool found = reply[0] == 0 && reply[1] > 0;

    memcpy(other, before, size_of(part));
    qillampu_replay_dump((uint16_t)part, (uint8_t)select, (uint8_t)stored, dump, length, other, size_of(part), first, row, again, 2);
    must(again[0] == reply[0] && again[1] == reply[1], "another row, another reply", words[0]);
    must(memcmp(other, array, size_of(part)) == 0, "another row, another array", words[0]);
    must(first[row] == UNTOUCHED && (row == 0 || first[0] == (found ? places[0] : UNTOUCHED)), "another row, another place", words[0]);
}

static void replay(const char *const *words)
{
    unsigned part = number_of(words[2], 65535), select = number_of(words[3], 255), stored = number_of(words[4], 255);
    size_t size = size_of(part), image_length = read_whole(words[1], image), length = read_whole(words[0], dump);
    uint64_t reply[2] = {0, 0};

    printf("== %s\n", words[0]);
    memset(places, UNTOUCHED, sizeof places[0] * 2);
    qillampu_replay((uint16_t)part, (uint8_t)select, (uint8_t)stored, NULL, 0, NULL, 0, array, size, NULL, 0, reply, 2);
    if (reply[0] == 0)
        qillampu_read_image((uint16_t)part, image, image_length, array, size, reply, 2);
    if (reply[0] == 0) {
        memcpy(before, array, size);
        qillampu_replay_dump((uint16_t)part, (uint8_t)select, (uint8_t)stored, dump, length, array, size, places, MOST_PLACES, reply, 2);
        for (size_t row = 0; row < 2; row++)
            try_row(words, part, select, stored, length, reply, row);
        must(reply[0] == 0 || memcmp(before, array, size) == 0, "refused, and the array has changed", words[0]);
    }
    if (reply[0] != 0) {
        must(memcmp(places, (uint8_t[]){UNTOUCHED, UNTOUCHED, UNTOUCHED, UNTOUCHED}, 4) == 0, "refused, and the row has changed", words[0]);
        printf("%" PRIu64 " %" PRIu64 "\n", reply[0], reply[1]);
        return;
    }
    must(reply[1] <= MOST_PLACES, "more places than there is room for here", words[0]);
    for (size_t i = 0; i < reply[1]; i++)
        printf("%" PRIu64 "\n", places[i]);
}

int main(int argc, char **argv)
{
    for (int i = 1; i + 5 <= argc; i += 5)
        replay((const char *const *)argv + i);
    return 0;
}
