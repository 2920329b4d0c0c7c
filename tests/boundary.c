/*
 * The C boundary: what include/strip.h says of lengths, pointers and untouched bytes, tried from C. That the answers are right is proved;
 * here a few show that numbers and bytes arrive where C expects them. Prints how many checks passed, or the failing ones.
 */
#include <stdio.h>
#include <string.h>
#include "strip.h"

typedef void call(uint8_t, uint8_t, const uint8_t *, size_t, uint8_t *, size_t, uint64_t *);

enum { GUARD = 16, ROOM = 400 };

static int checks, failed;

static void check(int holds, const char *what, const char *label)
{
    checks++;
    if (!holds) {
        failed++;
        printf("%s: %s\n", label, what);
    }
}

static uint8_t filling(size_t i)
{
    return (uint8_t)(0x80 + i % 101);
}

static int stays(const uint8_t *room, size_t from, size_t to)
{
    while (from < to && room[from] == filling(from)) from++;
    return from == to;
}

/* A call on out_len bytes between guards. Its answer is to be the four numbers, and on 0 the bytes are to be wanted. */
static void is(const char *label, call *f, uint8_t symbology, uint8_t mode, const void *text, size_t len, size_t out_len,
               uint64_t number, uint64_t place, uint64_t count, uint64_t total, const uint8_t *wanted)
{
    uint8_t room[GUARD + ROOM + GUARD];
    uint64_t answer[6] = {77, 78, 79, 80, 81, 82};
    size_t i, written = number == STRIP_DONE ? (size_t)count : 0;

    for (i = 0; i < sizeof room; i++) room[i] = filling(i);
    f(symbology, mode, text, len, room + GUARD, out_len, answer + 1);
    check(answer[1] == number && answer[2] == place && answer[3] == count && answer[4] == total, "the four numbers", label);
    check(answer[0] == 77 && answer[5] == 82, "what stands around answer", label);
    check(stays(room, 0, GUARD), "what stands before out", label);
    check(stays(room, GUARD + written, GUARD + out_len), "the bytes of out that stay", label);
    check(stays(room, GUARD + out_len, sizeof room), "what stands behind out", label);
    if (written) check(memcmp(room + GUARD, wanted, written) == 0, "the bytes written", label);
}

static void refuses(const char *label, call *f, uint8_t symbology, uint8_t mode, const void *text, size_t len, size_t out_len,
                    uint64_t number, uint64_t place)
{
    is(label, f, symbology, mode, text, len, out_len, number, place, 0, 0, NULL);
}

/* Data that are drawn as widths, and the strip that is read as the data: with all room, exact room, one byte short and none. */
static void both(const char *label, uint8_t symbology, uint8_t mode, const char *text, const char *widths, uint64_t total)
{
    uint8_t strip[ROOM];
    size_t i, n = strlen(widths), len = strlen(text);

    for (i = 0; i < n; i++) strip[i] = (uint8_t)(widths[i] - '0');
    is(label, strip_draw, symbology, mode, text, len, ROOM, 0, 0, n, total, strip);
    is(label, strip_draw, symbology, mode, text, len, n, 0, 0, n, total, strip);
    refuses(label, strip_draw, symbology, mode, text, len, n - 1, STRIP_SHORT_BUFFER, n);
    refuses(label, strip_draw, symbology, mode, text, len, 0, STRIP_SHORT_BUFFER, n);
    is(label, strip_read, symbology, mode, strip, n, ROOM, 0, 0, len, total, (const uint8_t *)text);
    is(label, strip_read, symbology, mode, strip, n, len, 0, 0, len, total, (const uint8_t *)text);
    refuses(label, strip_read, symbology, mode, strip, n, len - 1, STRIP_SHORT_BUFFER, len);
    refuses(label, strip_read, symbology, mode, strip, n, 0, STRIP_SHORT_BUFFER, len);
}

/* The longest of a symbology: so many bytes, drawn as so many elements. */
static void longest(const char *label, uint8_t symbology, const char *text, size_t elements, uint64_t total)
{
    uint8_t strip[STRIP_MAX_ELEMENTS];
    char widths[STRIP_MAX_ELEMENTS + 1] = "";
    uint64_t answer[4];
    size_t i;

    strip_draw(symbology, 0, (const uint8_t *)text, strlen(text), strip, sizeof strip, answer);
    for (i = 0; i < answer[STRIP_COUNT]; i++) widths[i] = (char)('0' + strip[i]);
    check(strlen(widths) == elements, "the longest strip", label);
    both(label, symbology, 0, text, widths, total);
}

/* Nothing given, by a pointer that is only not NULL and by one past the end of an array, into nothing as well. */
static void nothing(const char *label, call *f, uint64_t number)
{
    uint8_t array[4];
    const uint8_t *nowhere = (const uint8_t *)(uintptr_t)1, *end = array + sizeof array;
    uint64_t answer[4];
    uint8_t s;

    for (s = 0; s <= 10; s++) {
        uint8_t mode = s < 7 ? 0 : 1;
        uint64_t wanted = s == 0 || s == 10 ? STRIP_NO_SYMBOLOGY : number;
        refuses(label, f, s, mode, nowhere, 0, ROOM, wanted, 0);
        refuses(label, f, s, mode, end, 0, 0, wanted, 0);
        f(s, mode, nowhere, 0, (uint8_t *)(uintptr_t)1, 0, answer);
        check(answer[0] == wanted && answer[1] == 0 && answer[2] == 0 && answer[3] == 0, "nothing into nowhere", label);
        f(s, mode, end, 0, array + sizeof array, 0, answer);
        check(answer[0] == wanted && answer[1] == 0 && answer[2] == 0 && answer[3] == 0, "nothing into an end", label);
    }
}

/* A buffer of no bytes, nowhere and at an end: the count needed. */
static void asks(const char *label, call *f, const uint8_t *text, size_t len, uint64_t needed)
{
    uint8_t array[4];
    uint8_t *nowheres[2];
    uint64_t answer[4];
    int i;

    nowheres[0] = (uint8_t *)(uintptr_t)1;
    nowheres[1] = array + sizeof array;
    for (i = 0; i < 2; i++) {
        f(STRIP_INTERLEAVED_2_OF_5, 0, text, len, nowheres[i], 0, answer);
        check(answer[0] == STRIP_SHORT_BUFFER && answer[1] == needed && answer[2] == 0 && answer[3] == 0, "how many are needed", label);
    }
}

int main(void)
{
    uint8_t strip[ROOM];
    uint64_t answer[4];
    size_t i;

    both("Interleaved 17", STRIP_INTERLEAVED_2_OF_5, 0, "17", "11113111111333311", 27);
    both("Codabar A5B", STRIP_CODABAR, 0, "A5B", "11331311311113111313113", 39);
    both("Matrix 4", STRIP_MATRIX_2_OF_5, 0, "4", "31111111313131111", 25);
    both("Industrial 0", STRIP_INDUSTRIAL_2_OF_5, 0, "0", "313111111131311131113", 33);
    longest("Code 39", STRIP_CODE_39, "ABCDEFGHIJKLMNOPQRSTUVWXYZ012345", STRIP_MAX_ELEMENTS, 543);
    longest("Codabar", STRIP_CODABAR, "A12345678901234567890123456789012B", 271, 411);

    nothing("no text", strip_draw, STRIP_BAD_COUNT);
    nothing("no strip", strip_read, STRIP_BAD_LENGTH);
    asks("draw 17", strip_draw, (const uint8_t *)"17", 2, 17);

    refuses("symbology 255", strip_draw, 255, 0, "1", 1, ROOM, STRIP_NO_SYMBOLOGY, 0);
    refuses("mode 255", strip_draw, STRIP_CODE_39, 255, "1", 1, ROOM, STRIP_NO_MODE, 0);
    refuses("33 bytes", strip_draw, STRIP_CODE_39, 0, "012345678901234567890123456789012", 33, ROOM, STRIP_BAD_COUNT, 0);
    refuses("a star", strip_draw, STRIP_CODE_39, 0, "AB*C", 4, ROOM, STRIP_BAD_BYTE, 2);
    refuses("a byte over 127", strip_draw, STRIP_CODE_39_FULL_ASCII, 0, "A\xff", 2, ROOM, STRIP_BAD_BYTE, 1);
    refuses("417", strip_draw, STRIP_INTERLEAVED_2_OF_5, 0, "417", 3, ROOM, STRIP_ODD_COUNT, 0);
    refuses("17 small letters", strip_draw, STRIP_CODE_39_FULL_ASCII, 0, "abcdefghijklmnopq", 17, ROOM, STRIP_TOO_MANY_DRAWN, 0);
    refuses("a wrong check", strip_draw, STRIP_INDUSTRIAL_2_OF_5, 1, "01234567894", 11, ROOM, STRIP_BAD_CHECK, 10);

    strip_draw(STRIP_INTERLEAVED_2_OF_5, 0, (const uint8_t *)"17", 2, strip, sizeof strip, answer);
    asks("read 17", strip_read, strip, 17, 2);
    refuses("symbology 255", strip_read, 255, 0, strip, 17, ROOM, STRIP_NO_SYMBOLOGY, 0);
    refuses("mode 255", strip_read, STRIP_INTERLEAVED_2_OF_5, 255, strip, 17, ROOM, STRIP_NO_MODE, 0);
    refuses("one element missing", strip_read, STRIP_INTERLEAVED_2_OF_5, 0, strip, 16, ROOM, STRIP_BAD_LENGTH, 0);
    refuses("340 elements", strip_read, STRIP_CODE_39, 0, strip, 340, ROOM, STRIP_BAD_LENGTH, 0);
    strip_draw(STRIP_INTERLEAVED_2_OF_5, 0, (const uint8_t *)"19", 2, strip, sizeof strip, answer);
    refuses("1 with the check 9 for 7", strip_read, STRIP_INTERLEAVED_2_OF_5, 2, strip, 17, ROOM, STRIP_BAD_CHECK, 1);
    strip[4] = 255;
    refuses("an element of 255", strip_read, STRIP_INTERLEAVED_2_OF_5, 0, strip, 17, ROOM, STRIP_NO_SUCH_UNIT, 4);
    strip_draw(STRIP_EAN_13, 2, (const uint8_t *)"000000000000", 12, strip, sizeof strip, answer);
    for (i = 0; i < 6; i++) memcpy(strip + 3 + 4 * i, "\1\1\2\3", 4);
    refuses("six even digits", strip_read, STRIP_EAN_13, 1, strip, 59, ROOM, STRIP_NO_SUCH_PARITIES, 3);
    strip_draw(STRIP_CODE_39, 0, (const uint8_t *)"A/M", 3, strip, sizeof strip, answer);
    refuses("/M", strip_read, STRIP_CODE_39_FULL_ASCII, 0, strip, 49, ROOM, STRIP_NO_EXPANSION, 1);

    if (!failed) printf("%d checks\n", checks);
    return failed != 0;
}
