#include "agree.h"

#include "texts.h"

#include <stdio.h>
#include <string.h>

/* A call with every parameter of its own, for the odd ones. */
struct call {
    uint16_t part;
    uint8_t select, stored;
    size_t elapsed_len, levels_len, array_len, answers_len, text_len, out_len, reply_len;
};

/* Rows with room for one more than the rules allow for any part. */
static uint32_t elapsed[MOST_SAMPLES + 1];
static uint8_t levels[MOST_SAMPLES + 1], text[MOST_TEXT + 1], array[LARGER + 1];

static struct outcome {
    uint8_t answer;
    uint64_t reply[2];
    uint8_t array[LARGER + 1], answers[MOST_SAMPLES + 1], out[LARGER_TEXT + 1];
} outcomes[SIDES];

/* A call that is not refused, with this part's sizes. */
static struct call sound(const struct kind *kind)
{
    return (struct call){kind->part, 0, 0x60, 100, 100, kind->bytes, 100, 0, kind->text, 2};
}

static void run(const struct side *side, enum operation operation, const struct call *c, struct outcome *o)
{
    memcpy(o->array, array, sizeof array);
    memset(o->answers, 0x5A, sizeof o->answers);
    memset(o->out, 0x5A, sizeof o->out);
    o->reply[0] = o->reply[1] = 77;
    switch (operation) {
    case REPLAY:
        o->answer = side->replay(c->part, c->select, c->stored, elapsed, c->elapsed_len, levels, c->levels_len, o->array,
                                 c->array_len, o->answers, c->answers_len, o->reply, c->reply_len);
        break;
    case READ:
        o->answer = side->read(c->part, text, c->text_len, o->array, c->array_len, o->reply, c->reply_len);
        break;
    case WRITE:
        o->answer = side->write(c->part, array, c->array_len, o->out, c->out_len, o->reply, c->reply_len);
        break;
    case REPLAY_DUMP: /* agree_dumps.c */
        break;
    }
}

/* Runs both sides; `number` is the refusal that both must give, or negative where only their agreement is asked. */
static bool agree(const char *what, enum operation operation, const struct call *c, int number)
{
    const struct outcome *p = &outcomes[PROVED], *q = &outcomes[PLAIN_C];
    const char *differs = NULL;

    for (int i = 0; i < SIDES; i++)
        run(&sides[i], operation, c, &outcomes[i]);
    if (p->answer != q->answer || memcmp(p->reply, q->reply, sizeof p->reply) != 0)
        differs = "reply";
    else if (memcmp(p->array, q->array, sizeof p->array) != 0)
        differs = "array";
    else if (memcmp(p->answers, q->answers, sizeof p->answers) != 0)
        differs = "answers";
    else if (memcmp(p->out, q->out, sizeof p->out) != 0)
        differs = "text written";
    else if (number >= 0 && q->reply[0] != (uint64_t)number)
        differs = "refusal (both give the wrong one)";
    if (differs != NULL)
        printf("DIFFERS in %s on %u: %s; proved %d (%llu, %llu), C %d (%llu, %llu)\n", what, c->part, differs, p->answer,
               (unsigned long long)p->reply[0], (unsigned long long)p->reply[1], q->answer,
               (unsigned long long)q->reply[0], (unsigned long long)q->reply[1]);
    return differs == NULL;
}

static bool agree_on_call(const struct input *in, size_t call)
{
    struct call c = sound(in->kind);
    size_t at = call * in->job->size, n = in->length[call];

    c.stored = in->job->stored;
    memcpy(array, in->arrays + (in->job->operation == WRITE ? at : 0), in->kind->bytes);
    if (in->job->operation == REPLAY) {
        memcpy(elapsed, in->elapsed + at, n * sizeof elapsed[0]);
        memcpy(levels, in->levels + at, n);
        c.elapsed_len = c.levels_len = c.answers_len = n;
    } else if (in->job->operation == READ) {
        memset(array, 0xA5, in->kind->bytes); /* so that a reader that stores nothing is seen */
        memcpy(text, in->text + at, n);
        c.text_len = n;
    }
    return agree(in->job->name, in->job->operation, &c, 0);
}

bool agree_on_job(const struct input *in)
{
    bool ok = true;
    for (size_t call = 0; call < in->calls; call++)
        ok &= agree_on_call(in, call);
    return ok;
}

/* The array size that this part does not have. */
static size_t other_bytes(const struct kind *kind)
{
    return SMALLER + LARGER - kind->bytes;
}

static const uint16_t no_parts[] = {0, 1, 4282, 4284, 4286, 4322, 4324, 4326, 65535};
enum { NO_PARTS = sizeof no_parts / sizeof no_parts[0] };

static bool agree_on_replay_refusals(const struct kind *kind)
{
    bool ok = true;
    struct call c;

    memset(elapsed, 0, sizeof elapsed);
    memset(levels, VCC_GOOD | SCL_HIGH | SDA_HIGH, sizeof levels);
#define TRY(number, change) (c = sound(kind), change, ok &= agree("refusal " #number " (" #change ")", REPLAY, &c, number))
    TRY(0, c.elapsed_len = c.levels_len = c.answers_len = 0);
    TRY(0, c.elapsed_len = c.levels_len = c.answers_len = MOST_SAMPLES);
    for (int i = 0; i < NO_PARTS; i++)
        TRY(1, c.part = no_parts[i]);
    TRY(1, (c.part = 0, c.select = 4, c.stored = 6));
    TRY(2, c.select = 4);
    TRY(2, (c.select = 255, c.stored = 2));
    TRY(3, c.stored = 0x02);
    TRY(3, (c.stored = 0x04, c.array_len = 0));
    TRY(5, c.array_len = kind->bytes - 1);
    TRY(5, (c.array_len = kind->bytes + 1, c.levels_len = 1));
    TRY(5, c.array_len = other_bytes(kind));
    TRY(6, c.levels_len = 99);
    TRY(6, c.elapsed_len = MOST_SAMPLES + 1);
    TRY(7, c.elapsed_len = c.levels_len = c.answers_len = MOST_SAMPLES + 1);
    TRY(8, c.answers_len = 99);
    TRY(8, c.answers_len = 101);
    levels[70] = 16;
    TRY(10, c.select = 3);
    elapsed[70] = 100001;
    TRY(9, c.select = 3);
    levels[69] = 255;
    TRY(10, c.select = 3);
    elapsed[0] = 4294967295u;
    TRY(9, c.select = 3);
    TRY(5, c.array_len = 0);
    TRY(77, (c.part = 1, c.reply_len = 1)); /* no reply row, so nothing at all is done */
    TRY(77, c.reply_len = 0);
#undef TRY
    return ok;
}

/* What each text gives on a part of 4,096 bytes and on one of 16,384. */
static bool agree_on_texts(const struct kind *kind)
{
    static const struct { int smaller, larger; const char *text; } texts[] = {
        {0, 0, ":00000001FF"}, {0, 0, ":00000001FF\r\n"}, {0, 0, ":0100000000FF\n:00000001FF\r"}, {17, 17, ""}, {12, 12, "\n"},
        {12, 12, "\r\n"}, {12, 12, "\r"}, {12, 12, ":00000001FF\r\r\n"}, {12, 12, ":00000001FF "}, {12, 12, ":00000001ff\n"},
        {12, 12, ":0100000000FF00\n"}, {12, 12, ":01000000"}, {12, 12, ":0100000000FF\n\n:00000001FF\n"},
        {13, 13, ":00000001FE\n"}, {13, 13, ":0100000200FF\n"}, {14, 14, ":00000002FE\n"}, {14, 14, ":00000101FE\n"},
        {14, 14, ":0100000100FE\n"}, {15, 17, ":01100000FFF0\n"}, {15, 17, ":020FFF000000F0\n"},
        {15, 0, ":013FFF0000C1\n:00000001FF\n"}, {15, 16, ":013FFF0000C1\n:013FFF0000C1\n"}, {15, 15, ":01400000FFC0\n"},
        {15, 15, ":023FFF000000C0\n"}, {15, 15, ":01800000007F\n"}, {15, 15, ":01FFFF000001\n"},
        {0, 0, ":00FFFF0002\n:00000001FF\n"}, {16, 16, ":010FFF0000F1\n:010FFF0000F1\n"}, {17, 17, ":010FFF0000F1\n"},
        {18, 18, ":00000001FF\n\n"}, {18, 18, ":00000001FF\n:00000001FF\n"}, {18, 18, ":00000001FF\n\r"},
    };
    bool ok = true;
    struct call c = sound(kind);

    memset(array, 0xA5, sizeof array);
    for (unsigned i = 0; i < sizeof texts / sizeof texts[0]; i++) {
        c.text_len = strlen(texts[i].text);
        memcpy(text, texts[i].text, c.text_len);
        ok &= agree(texts[i].text, READ, &c, kind->bytes == LARGER ? texts[i].larger : texts[i].smaller);
    }
    return ok;
}

static bool agree_on_image_refusals(const struct kind *kind)
{
    bool ok = agree_on_texts(kind);
    struct call c;

    memset(text, 'x', sizeof text);
#define TRY(operation, number, change) \
    (c = sound(kind), change, ok &= agree(#operation " " #number " (" #change ")", operation, &c, number))
    TRY(READ, 11, c.text_len = MOST_TEXT + 1);
    for (int i = 0; i < NO_PARTS; i++) {
        TRY(READ, 1, (c.part = no_parts[i], c.array_len = 0, c.text_len = MOST_TEXT + 1));
        TRY(WRITE, 1, (c.part = no_parts[i], c.array_len = 0, c.out_len = 0));
    }
    TRY(READ, 5, (c.array_len = 0, c.text_len = MOST_TEXT + 1));
    TRY(READ, 5, c.array_len = other_bytes(kind));
    TRY(READ, 5, c.array_len = kind->bytes - 1);
    TRY(WRITE, 5, c.array_len = 0);
    TRY(WRITE, 5, c.array_len = other_bytes(kind));
    TRY(WRITE, 5, (c.array_len = kind->bytes + 1, c.out_len = kind->text - 1));
    TRY(WRITE, 19, c.out_len = kind->text - 1);
    TRY(WRITE, 0, c.out_len = kind->text + 1);
    TRY(WRITE, kind->bytes == LARGER ? 19 : 0, c.out_len = LARGER_TEXT - 1);
    TRY(WRITE, 77, c.reply_len = 3);
    TRY(READ, 77, c.reply_len = 3);
#undef TRY
    return ok;
}

bool agree_on_refusals(void)
{
    bool ok = true;
    for (int i = 0; i < KINDS; i++) {
        ok &= agree_on_replay_refusals(&kinds[i]);
        ok &= agree_on_image_refusals(&kinds[i]);
    }
    return ok;
}

/* One capture that is always the same. */
static bool agree_on_capture(const char *what, const struct kind *kind, uint8_t stored, void (*capture)(struct master *))
{
    struct master m;
    struct call c = sound(kind);

    fill_array(array, kind->bytes, 1, 1);
    master_begin(&m, elapsed, levels, MOST_SAMPLES, kind->bytes, 1);
    capture(&m);
    c.elapsed_len = c.levels_len = c.answers_len = m.length;
    c.stored = stored;
    return agree(what, REPLAY, &c, 0);
}

bool agree_on_blocks(void)
{
    enum { CODES = 8 };
    bool ok = true;

    for (unsigned i = 0; i < KINDS * CODES; i++) {
        unsigned code = i % CODES;
        ok &= agree_on_capture("a block code", &kinds[i / CODES], (uint8_t)(0x60 | (code & 3) << 3 | code >> 2), capture_places);
    }
    return ok;
}

bool agree_on_cuts(void)
{
    bool ok = true;
    for (int i = 0; i < KINDS; i++) {
        ok &= agree_on_capture("cut page writes", &kinds[i], 0x60, capture_cut_pages);
        ok &= agree_on_capture("cut register writes", &kinds[i], 0x60, capture_cut_registers);
    }
    return ok;
}

static bool agree_on_rough_captures(void)
{
    enum { CAPTURES = 800, LENGTH = 6000 };
    struct master m;
    bool ok = true;

    for (uint32_t seed = 1; ok && seed <= CAPTURES; seed++) {
        const struct kind *kind = &kinds[seed % KINDS];
        struct call c = sound(kind);
        master_begin(&m, elapsed, levels, LENGTH, kind->bytes, seed);
        fill_array(array, kind->bytes, 1 + seed % 3, seed);
        c.elapsed_len = c.levels_len = c.answers_len = LENGTH;
        c.select = (uint8_t)master_random(&m, 4);
        c.stored = (uint8_t)(master_random(&m, 256) & 0xF9);
        capture_rough(&m, c.select);
        ok &= agree("a rough capture", REPLAY, &c, 0);
    }
    return ok;
}

bool agree_on_random(void)
{
    enum { TURNS = 2000 };
    static struct input input;
    struct master m;
    bool ok = agree_on_rough_captures();

    make_input(&input, job_named("read-1k"));
    master_begin(&m, elapsed, levels, 0, LARGER, 1);
    for (uint32_t turn = 0; ok && turn < TURNS; turn++) {
        const struct kind *kind = &kinds[turn % KINDS];
        struct call c = sound(kind);
        fill_array(array, kind->bytes, turn % 7, turn);
        c.text_len = damaged_text(text, input.text, input.length[0], &m);
        ok &= agree("a damaged text", READ, &c, -1);
        c.text_len = scattered_text(text, levels, &m);
        ok &= agree("scattered records", READ, &c, -1);
        ok &= turn % 8 >= KINDS || agree("some array", WRITE, &c, 0);
    }
    return ok;
}
