/* Compares the library with bench/plain.c before the two are timed: every answer and the whole of every lent buffer
   must be the same. Rounds by chance seldom meet widths that cancel out where several elements are read as one word, so
   that labels are also changed in order.
   Use: agree [number of rounds] [seed] */
#include "plain.h"
#include "strip.h"
#include <stdio.h>
#include <stdlib.h>
#include <string.h>

/* More than any strip takes, so that a byte written behind its end shows. */
#define ROOM 400

static uint64_t state;

/* xorshift64*, seeded, so that a run can be repeated */
static uint32_t rnd(void)
{
    state ^= state >> 12;
    state ^= state << 25;
    state ^= state >> 27;
    return (uint32_t)((state * 0x2545F4914F6CDD1DULL) >> 32);
}
static uint32_t below(uint32_t n) { return rnd() % n; }
static int one_in(uint32_t n) { return below(n) == 0; }

/* ---- one comparison ---- */

struct input {
    int reading, s, m;
    size_t len;
    uint8_t bytes[ROOM];
};
struct reply {
    uint64_t answer[4];
    uint8_t out[ROOM];
};
typedef void call(uint8_t, uint8_t, const uint8_t *, size_t, uint8_t *, size_t, uint64_t *);

static struct reply library, plain;

/* Counted apart, so that a difference tells what found it. */
enum kind { ROUNDS, VALUES, RUNS, MIXES, ROWS, LENGTHS, ROOMS, KINDS };
static const char *const kind_name[KINDS] = {
    "rounds by chance", "each byte of each value", "runs of one width", "stretches of mixed widths",
    "a character of every row", "every length", "every room"
};
static enum kind kind;
static unsigned long compared[KINDS][2], differing[KINDS], by_number[2][16];

static void report(const char *what, const struct input *in, size_t room)
{
    if (++differing[kind] > 3)
        return;
    printf("%s: %s, symbology %d mode %d, room %zu, %zu bytes:", kind_name[kind], what, in->s, in->m, room, in->len);
    for (size_t i = 0; i < in->len; i++)
        printf(" %d", in->bytes[i]);
    size_t same = 0;
    while (same < ROOM && library.out[same] == plain.out[same])
        same++;
    const uint64_t *a = library.answer, *b = plain.answer;
    printf("\n  library %lu %lu %lu %lu, plain %lu %lu %lu %lu, the same in the first %zu of %d bytes lent\n",
           (unsigned long)a[0], (unsigned long)a[1], (unsigned long)a[2], (unsigned long)a[3],
           (unsigned long)b[0], (unsigned long)b[1], (unsigned long)b[2], (unsigned long)b[3], same, ROOM);
}

static void ask(call *side, const struct input *in, const uint8_t *bytes, size_t room, int fill, struct reply *reply)
{
    /* The answer is filled too: one that is not written differs. */
    memset(reply, fill, sizeof *reply);
    side((uint8_t)in->s, (uint8_t)in->m, bytes, in->len, reply->out, room, reply->answer);
}

/* Is it done by both, and the same? */
static int both(const struct input *in, size_t room)
{
    /* a copy of exactly this length, so that a sanitizer sees a read behind its end */
    uint8_t *bytes = malloc(in->len ? in->len : 1);
    if (!bytes)
        exit(2);
    memcpy(bytes, in->bytes, in->len);
    int fill = (int)below(256);
    ask(in->reading ? strip_read : strip_draw, in, bytes, room, fill, &library);
    ask(in->reading ? plain_read : plain_draw, in, bytes, room, fill, &plain);
    free(bytes);
    compared[kind][in->reading]++;
    if (plain.answer[0] < 16)
        by_number[in->reading][plain.answer[0]]++;
    if (memcmp(library.answer, plain.answer, sizeof plain.answer) || memcmp(library.out, plain.out, ROOM)) {
        report(in->reading ? "reading" : "drawing", in, room);
        return 0;
    }
    return plain.answer[0] == 0;
}

/* The strip of the drawing just compared. */
static struct input strip_of(const struct input *data)
{
    struct input strip = { .reading = 1, .s = data->s, .m = data->m, .len = (size_t)plain.answer[2] };
    memcpy(strip.bytes, plain.out, ROOM);
    return strip;
}

/* ---- data by chance ---- */

static const char c39[] = "0123456789ABCDEFGHIJKLMNOPQRSTUVWXYZ-. $/+%";
static const char inner[] = "0123456789-$:/.+";

static uint8_t character(int s, int at_end)
{
    switch (s) {
    case 1: return (uint8_t)c39[below(43)];
    case 2: return one_in(3) ? (uint8_t)(0x20 + below(96)) : (uint8_t)c39[below(39)];
    case 3: return at_end ? (uint8_t)("ABCD"[below(4)]) : (uint8_t)inner[below(16)];
    default: return (uint8_t)('0' + below(10));
    }
}

/* Puts the right check behind the data: mode 2 draws it, mode 1 hands it back. Data that are not drawn stay. */
static void add_check(int s, uint8_t *text, size_t len)
{
    uint8_t strip[ROOM];
    uint64_t a[4];
    plain_draw((uint8_t)s, 2, text, len, strip, ROOM, a);
    if (a[0] == 0)
        plain_read((uint8_t)s, 1, strip, (size_t)a[2], text, len + 1, a);
}

/* ---- rounds by chance ---- */

/* Data that mostly fit the symbology and the mode; in mode 1 three of four have the right check. */
static struct input request(int s, int m)
{
    struct input data = { .s = s, .m = m };
    size_t len;
    if (s == 3)
        len = 3 + below(32);
    else if (s == 7)
        len = m == 1 ? 13 : 12;
    else if (s == 8)
        len = m == 1 ? 8 : 7;
    else if (s == 9)
        len = m == 1 ? 12 : 11;
    else
        len = (m == 1 ? 2 : 1) + below(m == 0 ? 32 : 31);
    if (s == 5 && (len + (m == 2)) % 2 && !one_in(8))
        len = len < (m == 2 ? 31 : 32) ? len + 1 : len - 1;
    if (one_in(20))
        len = below(41);
    for (size_t i = 0; i < len; i++)
        data.bytes[i] = character(s, i == 0 || i + 1 == len);
    if (one_in(6) && len)
        data.bytes[below((uint32_t)len)] = (uint8_t)rnd();
    if (m == 1 && len > 1 && !one_in(4))
        add_check(s, data.bytes, len - 1);
    data.len = len;
    return data;
}

static size_t room_for(size_t most)
{
    return one_in(5) ? below((uint32_t)most + 2) : most;
}

/* Widths by chance, mostly such as the symbology has, in a length that mostly fits. */
static size_t wild(int s, uint8_t *strip)
{
    size_t n = 1 + below(34), len;
    switch (s) {
    case 1: case 2: len = 10 * n + 19; break;
    case 3: len = 8 * n - 1; break;
    case 4: len = 10 * n + 11; break;
    case 5: len = 5 * n + 7; break;
    case 6: len = 6 * n + 11; break;
    case 8: len = 43; break;
    default: len = 59; break;
    }
    if (one_in(3))
        len = below(ROOM);
    for (size_t i = 0; i < len; i++)
        strip[i] = one_in(50) ? (uint8_t)rnd() : s >= 7 ? (uint8_t)(1 + below(4)) : one_in(3) ? 3 : 1;
    return len;
}

/* A whole strip of chance characters, laid out without looking at checks or expansions: the drawer of
   mode 0 makes it from a row that full ASCII or the check may refuse. EAN units are mixed by hand. */
static size_t row_strip(int s, uint8_t *strip)
{
    uint8_t text[40];
    uint64_t a[4];
    size_t len;
    if (s <= 6) {
        len = s == 3 ? 3 + below(32) : s == 5 ? 2 * (1 + below(16)) : 1 + below(32);
        for (size_t i = 0; i < len; i++)
            text[i] = character(s == 2 ? 1 : s, i == 0 || i + 1 == len);
        if (s == 2)
            for (size_t i = 0; i + 1 < len; i++)
                if (text[i] == '/' || text[i] == '%' || text[i] == '+')
                    if (!one_in(12))
                        text[i + 1] = (uint8_t)('A' + below(26));
        plain_draw((uint8_t)(s == 2 ? 1 : s), 0, text, len, strip, ROOM, a);
        return (size_t)a[2];
    }
    len = s == 8 ? 7 : s == 7 ? 12 : 11;
    for (size_t i = 0; i < len; i++)
        text[i] = character(s, 0);
    plain_draw((uint8_t)s, 2, text, len, strip, ROOM, a);
    len = (size_t)a[2];
    if (one_in(2)) {
        /* turn one or more units round: another parity on the left, no row on the right */
        size_t half = s == 8 ? 4 : 6, turns = 1 + below(3);
        while (turns--) {
            size_t at = 3 + 4 * below((uint32_t)half);
            if (one_in(8))
                at += 4 * half + 5;
            for (size_t i = 0; i < 2; i++) {
                uint8_t t = strip[at + i];
                strip[at + i] = strip[at + 3 - i];
                strip[at + 3 - i] = t;
            }
        }
    }
    if (one_in(3)) {
        /* one unit taken from another place of the same side: the check is wrong, the rows are not */
        size_t half = s == 8 ? 4 : 6;
        size_t side = one_in(2) ? 3 : 3 + 4 * half + 5;
        size_t to = side + 4 * below((uint32_t)half), from = side + 4 * below((uint32_t)half);
        memmove(strip + to, strip + from, 4);
    }
    return len;
}

static void damage(struct input *strip)
{
    switch (below(5)) {
    case 0: case 1: case 2: {
        unsigned k = 1 + below(2);
        while (k-- && strip->len) {
            size_t at = below((uint32_t)strip->len);
            strip->bytes[at] = one_in(3) ? (uint8_t)rnd() : (uint8_t)(4 - strip->bytes[at]);
        }
        break;
    }
    case 3:
        strip->len = below((uint32_t)strip->len + 1);
        break;
    default:
        for (size_t k = 1 + below(11); k-- && strip->len < ROOM;)
            strip->bytes[strip->len++] = 1;
        break;
    }
}

static void one_round(int s)
{
    int m = (int)below(3);
    if (one_in(40))
        s = (int)below(256);
    if (one_in(40))
        m = (int)below(256);
    else if (s == 3 && !one_in(10))
        m = 0;
    else if (s >= 7 && m == 0 && !one_in(10))
        m = 2;

    struct input data = request(s, m), strip = { .reading = 1, .s = s, .m = m };
    if (both(&data, room_for(STRIP_MAX_ELEMENTS))) {
        strip = strip_of(&data);
        if (both(&strip, room_for(STRIP_MAX_BYTES)) &&
            (plain.answer[2] != data.len || memcmp(plain.out, data.bytes, data.len)))
            report("not read back", &data, ROOM);
        damage(&strip);
        both(&strip, room_for(STRIP_MAX_BYTES));
    }
    if (s >= 1 && s <= 9) {
        strip.len = row_strip(s, strip.bytes);
        both(&strip, room_for(STRIP_MAX_BYTES));
        if (one_in(2)) {
            damage(&strip);
            both(&strip, room_for(STRIP_MAX_BYTES));
        }
    }
    if (one_in(2)) {
        strip.len = wild(s, strip.bytes);
        both(&strip, room_for(STRIP_MAX_BYTES));
    }
}

/* ---- labels changed in order ---- */

static void each_value(struct input in)
{
    kind = VALUES;
    for (size_t at = 0; at < in.len; at++) {
        uint8_t was = in.bytes[at];
        for (int value = 0; value < 256; value++) {
            in.bytes[at] = (uint8_t)value;
            both(&in, ROOM);
        }
        in.bytes[at] = was;
    }
}

static void each_length(struct input in)
{
    kind = LENGTHS;
    /* what is too long begins anew, so that only its length is wrong */
    for (size_t at = in.len; at < ROOM; at++)
        in.bytes[at] = in.bytes[at - in.len];
    for (in.len = 0; in.len <= ROOM; in.len++)
        both(&in, ROOM);
}

static void each_room(struct input in)
{
    kind = ROOMS;
    for (size_t room = 0; room <= ROOM; room++)
        both(&in, room);
}

/* Elements that are changed together: a unit of ten and the next unit's first. */
#define STRETCH 11

/* Sets elements to one width, from each on and one more each time: neighbours, only bars or only spaces (a step of 2),
   and so on up to the same element of two units. */
static void runs(struct input strip)
{
    static const uint8_t width[] = { 0, 1, 2, 3, 4, 5, 6, 7, 9, 16, 64, 127, 128, 129, 131, 253, 254, 255 };
    kind = RUNS;
    for (size_t from = 0; from < strip.len; from++) {
        uint8_t was[STRETCH];
        memcpy(was, strip.bytes + from, STRETCH);
        for (size_t step = 1; step < STRETCH; step++)
            for (size_t w = 0; w < sizeof width; w++) {
                for (size_t at = from; at < strip.len && at < from + STRETCH; at += step) {
                    strip.bytes[at] = width[w];
                    if (at > from)
                        both(&strip, ROOM);
                }
                memcpy(strip.bytes + from, was, STRETCH);
            }
    }
}

/* Widths that can make up for one another in a sum. */
static const uint8_t several[] = { 0, 1, 2, 3, 4, 5, 7, 255 };

/* The same elements with several widths, by chance. */
static void mixes(struct input strip)
{
    kind = MIXES;
    for (size_t from = 0; from < strip.len; from++) {
        uint8_t was[STRETCH];
        memcpy(was, strip.bytes + from, STRETCH);
        for (int turn = 0; turn < 100; turn++) {
            size_t step = one_in(2) ? 1 : 1 + below(STRETCH - 1);
            size_t end = from + step + 1 + below((uint32_t)(STRETCH - step));
            for (size_t at = from; at < strip.len && at < end; at += step)
                strip.bytes[at] = several[below(sizeof several)];
            both(&strip, ROOM);
            memcpy(strip.bytes + from, was, STRETCH);
        }
    }
}

/* Puts every row of widths of the set in the place of `size` elements that lie `step` apart. */
static void each_row(struct input *strip, size_t at, size_t step, size_t size, const uint8_t *set, size_t of)
{
    if (size == 0) {
        both(strip, ROOM);
        return;
    }
    uint8_t was = strip->bytes[at];
    for (size_t i = 0; i < of; i++) {
        strip->bytes[at] = set[i];
        each_row(strip, at + step, step, size - 1, set, of);
    }
    strip->bytes[at] = was;
}

/* The first digit of each half. */
static void rows_of_ean(struct input strip)
{
    kind = ROWS;
    each_row(&strip, 3, 1, 4, several, sizeof several);
    each_row(&strip, strip.len / 2 + 3, 1, 4, several, sizeof several);
}

/* The first character and the parting space behind it: all elements narrow, wide or of one odd width, or bars alone and
   spaces alone of several widths. */
static void rows_of_two_widths(struct input strip)
{
    static const size_t first[7] = { 0, 10, 10, 8, 6, 4, 6 }, sizes[7] = { 0, 10, 10, 8, 10, 10, 6 };
    static const uint8_t odd[] = { 0, 2, 4, 129, 255 };
    size_t at = first[strip.s], size = sizes[strip.s];
    kind = ROWS;
    for (size_t i = 0; i < sizeof odd; i++) {
        uint8_t set[3] = { 1, 3, odd[i] };
        each_row(&strip, at, 1, size, set, sizeof set);
    }
    each_row(&strip, at, 2, size / 2, several, sizeof several);
    each_row(&strip, at + 1, 2, size / 2, several, sizeof several);
}

/* Data of so many drawn characters, the check among them, that are not refused. */
static struct input label(int s, int m, size_t drawn)
{
    struct input data = { .s = s, .m = m, .len = m == 2 ? drawn - 1 : drawn };
    size_t head = m == 0 ? drawn : drawn - 1;
    for (size_t i = 0; i < head; i++)
        /* full ASCII draws a pair for some bytes: none of these where the strip could get too long */
        data.bytes[i] = s == 2 && drawn > 16 ? (uint8_t)c39[below(39)] : character(s, i == 0 || i + 1 == head);
    if (m == 1)
        add_check(s, data.bytes, head);
    return data;
}

enum size { LEAST, MIDDLE, MOST, SIZES };

static size_t drawn_count(int s, int m, enum size size)
{
    static const size_t fixed[3] = { 13, 8, 12 };
    if (s >= 7)
        return fixed[s - 7];
    switch (size) {
    case LEAST: return s == 3 ? 3 : s == 5 || m != 0 ? 2 : 1;
    case MIDDLE: return 16;
    default: return s == 3 ? 34 : 32;
    }
}

static void in_order(int s, int m, enum size size)
{
    struct input data = label(s, m, drawn_count(s, m, size));
    each_value(data);
    each_length(data);
    each_room(data);
    if (!both(&data, ROOM)) {
        report("no strip to change", &data, ROOM);
        return;
    }
    struct input strip = strip_of(&data);
    each_value(strip);
    each_length(strip);
    each_room(strip);
    runs(strip);
    mixes(strip);
    /* modes differ behind the units and counts in their number, so that one label will do */
    if (size == LEAST && m == 0)
        rows_of_two_widths(strip);
    if (size == LEAST && s >= 7 && m == 1)
        rows_of_ean(strip);
}

/* ---- the whole ---- */

static int offered(int s, int m)
{
    return s == 3 ? m == 0 : s < 7 || m != 0;
}

/* Gives the number of differences. */
static unsigned long sums(void)
{
    unsigned long all = 0, differ = 0;
    for (int k = 0; k < KINDS; k++) {
        printf("%s: %lu drawings and %lu readings compared, %lu differ\n", kind_name[k],
               compared[k][0], compared[k][1], differing[k]);
        all += compared[k][0] + compared[k][1];
        differ += differing[k];
    }
    for (int reading = 0; reading < 2; reading++) {
        printf("%s, by answer:", reading ? "reading" : "drawing");
        for (int i = 0; i < 16; i++)
            if (by_number[reading][i])
                printf(" %d: %lu", i, by_number[reading][i]);
        printf("\n");
    }
    printf("agree: %lu compared, %lu differ\n", all, differ);
    return differ;
}

int main(int argc, char **argv)
{
    unsigned long rounds = argc > 1 ? strtoul(argv[1], 0, 10) : 100000;
    state = 0x9E3779B97F4A7C15ULL ^ (argc > 2 ? strtoull(argv[2], 0, 10) : 0);
    kind = ROUNDS;
    for (unsigned long r = 0; r < rounds; r++)
        one_round(1 + (int)(r % 9));
    for (int s = 1; s <= 9; s++)
        for (int m = 0; m <= 2; m++)
            for (int size = LEAST; size < SIZES && offered(s, m); size++)
                in_order(s, m, (enum size)size);
    return sums() != 0;
}
