/* Inside the C dump reader: a dump being read, its tokens and what its definitions declare. */
#ifndef DUMP_TEXT_H
#define DUMP_TEXT_H

#include "twin_state.h"

enum { MALFORMED = 20, WRONG_WIRES = 21, WRONG_TIME = 22, WRONG_VALUE = 23 };
enum { WANTED = SCL | SDA | WP | VCC, DECLARED = 0x80 }; /* what a code stands for: DECLARED and wanted wires; 0: nothing */

struct token {
    const uint8_t *text;
    size_t length; /* 0: the dump has ended */
};

struct longer_code {
    struct token code;
    uint8_t wires;
};

struct dump {
    const uint8_t *text, *at, *end;
    uint64_t line;        /* of `at`, from 1 */
    struct refusal fault; /* the least number in the earliest line with a fault, as far as it was read; its place is that line */
    uint8_t named;        /* the wanted wires that the definitions have named */
    uint8_t codes[256];   /* by character, those of one character */
    struct longer_code *longer;
    size_t longer_count, longer_room;
};

/* A fault where the dump has been read up to: in the line of the token read last, or in the last line. */
void note_fault(struct dump *d, unsigned number);

/* Notes a 20, after which nothing can be read; answers false. */
bool malformed(struct dump *d);

struct token next_token(struct dump *d);
bool is(struct token t, const char *word);

/* The tokens up to $end, whatever they are, of a section that is skipped. */
bool skip_section(struct dump *d);

/* Everything up to the $end of $enddefinitions. This and the others answer false if nothing can be read after it. */
bool read_definitions(struct dump *d);

uint8_t wires_of_longer(const struct dump *d, const uint8_t *code, size_t length);

/* realloc; there is no refusal for want of memory, so the program ends there. */
void *resized(void *row, size_t bytes);

#endif
