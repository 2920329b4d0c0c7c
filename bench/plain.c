/* Bottle strips in C, written by hand from document 01 and for speed: eight elements are read as one word, and a
   character takes one access to a table. Nothing in it is proved. It is the measure that the library is compared with,
   and bench/agree.c sees to it that both give the same answers. */
#include "plain.h"
#include <string.h>

enum {
    DONE = 0, NO_SYMBOLOGY = 1, NO_MODE = 2, NO_COUNT = 3, NO_BYTE = 4, ODD_COUNT = 5, TOO_MANY = 6,
    WRONG_CHECK = 7, NO_ROOM = 8, NO_LENGTH = 9, NO_ROW = 10, NO_PARITY = 11, NO_EXPANSION = 12
};

/* Entries of the tables that give a value hold it plus one, so that 0 means "none". */

/* ---- the tables of source 001 ---- */

/* Table 4.2 in the order of table 4.3's values, * behind them as number 43. */
#define CODE39_ROWS(X) \
    X( 0, '0', 0x034) X( 1, '1', 0x121) X( 2, '2', 0x061) X( 3, '3', 0x160) X( 4, '4', 0x031) \
    X( 5, '5', 0x130) X( 6, '6', 0x070) X( 7, '7', 0x025) X( 8, '8', 0x124) X( 9, '9', 0x064) \
    X(10, 'A', 0x109) X(11, 'B', 0x049) X(12, 'C', 0x148) X(13, 'D', 0x019) X(14, 'E', 0x118) \
    X(15, 'F', 0x058) X(16, 'G', 0x00D) X(17, 'H', 0x10C) X(18, 'I', 0x04C) X(19, 'J', 0x01C) \
    X(20, 'K', 0x103) X(21, 'L', 0x043) X(22, 'M', 0x142) X(23, 'N', 0x013) X(24, 'O', 0x112) \
    X(25, 'P', 0x052) X(26, 'Q', 0x007) X(27, 'R', 0x106) X(28, 'S', 0x046) X(29, 'T', 0x016) \
    X(30, 'U', 0x181) X(31, 'V', 0x0C1) X(32, 'W', 0x1C0) X(33, 'X', 0x091) X(34, 'Y', 0x190) \
    X(35, 'Z', 0x0D0) X(36, '-', 0x085) X(37, '.', 0x184) X(38, ' ', 0x0C4) X(39, '$', 0x0A8) \
    X(40, '/', 0x0A2) X(41, '+', 0x08A) X(42, '%', 0x02A)
#define STAR 43
#define STAR_CODE 0x094

/* Table 4.1: 16 inner characters, then the four letters. */
#define CODABAR_ROWS(X) \
    X( 0, '0', 0x03) X( 1, '1', 0x06) X( 2, '2', 0x09) X( 3, '3', 0x60) X( 4, '4', 0x12) \
    X( 5, '5', 0x42) X( 6, '6', 0x21) X( 7, '7', 0x24) X( 8, '8', 0x30) X( 9, '9', 0x48) \
    X(10, '-', 0x0C) X(11, '$', 0x18) X(12, ':', 0x45) X(13, '/', 0x51) X(14, '.', 0x54) \
    X(15, '+', 0x15) X(16, 'A', 0x1A) X(17, 'B', 0x29) X(18, 'C', 0x0B) X(19, 'D', 0x0E)

/* Tables 4.4 to 4.6: the same ten codes. */
#define TWO_OF_FIVE(X) \
    X(0, 0x06) X(1, 0x11) X(2, 0x09) X(3, 0x18) X(4, 0x05) \
    X(5, 0x14) X(6, 0x0C) X(7, 0x03) X(8, 0x12) X(9, 0x0A)

/* Table 5.2: the widths of left odd, which are those of right as well; left even is the same backwards.
   Then the parities by the first digit, E as 1, D2 first. */
#define EAN(X) \
    X(0, 3,2,1,1, 0x00) X(1, 2,2,2,1, 0x0B) X(2, 2,1,2,2, 0x0D) X(3, 1,4,1,1, 0x0E) X(4, 1,1,3,2, 0x13) \
    X(5, 1,2,3,1, 0x19) X(6, 1,1,1,4, 0x1C) X(7, 1,3,1,2, 0x15) X(8, 1,2,1,3, 0x16) X(9, 3,1,1,2, 0x1A)

/* ---- from character to value and back ---- */

static const uint8_t code39_char[43] = {
#define X(v, ch, code) ch,
    CODE39_ROWS(X)
#undef X
};
static const uint8_t code39_of_char[256] = {
#define X(v, ch, code) [ch] = v + 1,
    CODE39_ROWS(X)
#undef X
};
static const uint8_t codabar_char[20] = {
#define X(v, ch, code) ch,
    CODABAR_ROWS(X)
#undef X
};
static const uint8_t codabar_of_char[256] = {
#define X(v, ch, code) [ch] = v + 1,
    CODABAR_ROWS(X)
#undef X
};

/* Full ASCII backwards: the letter behind /, + or % gives the byte, 0 if none does. */
static const uint8_t item_byte[3][26] = {
    { '!', '"', '#', '$', '%', '&', '\'', '(', ')', '*', '+', ',', 0, 0, '/', [25] = ':' },
    { 'a', 'b', 'c', 'd', 'e', 'f', 'g', 'h', 'i', 'j', 'k', 'l', 'm',
      'n', 'o', 'p', 'q', 'r', 's', 't', 'u', 'v', 'w', 'x', 'y', 'z' },
    { [5] = ';', '<', '=', '>', '?', '[', '\\', ']', '^', '_', '{', '|', '}', '~', 0x7F,
      [21] = '@', [22] = '`' }
};

/* ---- from code to value ---- */

static const uint8_t code39_value[512] = {
#define X(v, ch, code) [code] = v + 1,
    CODE39_ROWS(X)
#undef X
    [STAR_CODE] = STAR + 1
};

static const uint8_t codabar_value[128] = {
#define X(v, ch, code) [code] = v + 1,
    CODABAR_ROWS(X)
#undef X
};

static const uint8_t matrix_value[32] = {
#define X(v, code) [code] = v + 1,
    TWO_OF_FIVE(X)
#undef X
};
/* Industrial: nine elements, of which the four spaces are narrow. */
#define SPREAD(code) (((code) & 16) << 4 | ((code) & 8) << 3 | ((code) & 4) << 2 | ((code) & 2) << 1 | ((code) & 1))
static const uint8_t industrial_value[512] = {
#define X(v, code) [SPREAD(code)] = v + 1,
    TWO_OF_FIVE(X)
#undef X
};
/* Interleaved: ten elements, five bars and five spaces in turn; the value is ten times the first digit and the second. */
static const uint8_t pair_value[1024] = {
#define Y(v, a, w, b) [SPREAD(a) << 1 | SPREAD(b)] = 10 * v + w + 1,
#define X(v, a) \
    Y(v, a, 0, 0x06) Y(v, a, 1, 0x11) Y(v, a, 2, 0x09) Y(v, a, 3, 0x18) Y(v, a, 4, 0x05) \
    Y(v, a, 5, 0x14) Y(v, a, 6, 0x0C) Y(v, a, 7, 0x03) Y(v, a, 8, 0x12) Y(v, a, 9, 0x0A)
    TWO_OF_FIVE(X)
#undef X
#undef Y
};

/* Four widths from 1 to 4, two bits each. The value's bit 4 is set for left even. */
#define WIDTHS(a, b, c, d) (((a) - 1) << 6 | ((b) - 1) << 4 | ((c) - 1) << 2 | ((d) - 1))
#define EVEN 16
static const uint8_t ean_value[256] = {
#define X(v, a, b, c, d, parity) [WIDTHS(a, b, c, d)] = v + 1, [WIDTHS(d, c, b, a)] = EVEN + v + 1,
    EAN(X)
#undef X
};
static const uint8_t parity_value[64] = {
#define X(v, a, b, c, d, parity) [parity] = v + 1,
    EAN(X)
#undef X
};

/* ---- answers ---- */

#define ALWAYS static inline __attribute__((always_inline))

ALWAYS void answer_is(uint64_t *answer, uint64_t number, uint64_t place, uint64_t count, uint64_t total)
{
    answer[0] = number;
    answer[1] = place;
    answer[2] = count;
    answer[3] = total;
}

#define REFUSE(number, place) do { answer_is(answer, number, place, 0, 0); return; } while (0)

/* ---- checks ---- */

/* The last value weighs 3, then 1, 3 and so on: the first of an odd number weighs 3, of an even number 1. */
ALWAYS unsigned check_ten(const uint8_t *value, size_t n)
{
    unsigned first = 0, second = 0;
    size_t i;
    for (i = 0; i + 1 < n; i += 2) {
        first += value[i];
        second += value[i + 1];
    }
    if (i < n)
        first += value[i];
    unsigned sum = n % 2 == 0 ? first + 3 * second : 3 * first + second;
    return (10 - sum % 10) % 10;
}

ALWAYS unsigned check_43(const uint8_t *value, size_t n)
{
    unsigned sum = 0;
    for (size_t i = 0; i < n; i++)
        sum += value[i];
    return sum % 43;
}

/* ---- reading ---- */

/* Eight elements as a word, the first one lowest. */
ALWAYS uint64_t eight(const uint8_t *p)
{
    uint64_t x;
    memcpy(&x, p, 8);
#if defined(__BYTE_ORDER__) && __BYTE_ORDER__ == __ORDER_BIG_ENDIAN__
    x = __builtin_bswap64(x);
#endif
    return x;
}

/* 1 is narrow and 3 is wide: without bit 1 either is 1. Not 0 if one of the eight is neither. */
ALWAYS uint64_t stray_of(uint64_t x)
{
    return (x & 0xFDFDFDFDFDFDFDFDULL) ^ 0x0101010101010101ULL;
}

/* Bit 1 of each of the eight, the first one highest. */
ALWAYS unsigned code_of(uint64_t x)
{
    return (unsigned)(((x >> 1 & 0x0101010101010101ULL) * 0x8040201008040201ULL) >> 56);
}

#define STRAY 0x8000

/* The code of nine elements, STRAY if one is neither narrow nor wide. */
ALWAYS unsigned nine(const uint8_t *p)
{
    uint64_t x = eight(p), y = p[8];
    uint64_t stray = stray_of(x) | ((y & 0xFD) ^ 1);
    return stray ? STRAY : code_of(x) << 1 | (unsigned)(y >> 1);
}

/* The code of the first n of eight elements; all eight must lie in the strip. */
ALWAYS unsigned first_of_eight(const uint8_t *p, int n)
{
    uint64_t x = eight(p);
    return stray_of(x) << (64 - 8 * n) ? STRAY : code_of(x) >> (8 - n);
}

/* Are these n elements those? */
#define ARE(p, n, ...) (memcmp(p, (const uint8_t[]){ __VA_ARGS__ }, n) == 0)

ALWAYS void read_code39(int ascii, uint8_t mode, const uint8_t *strip, size_t len,
                        uint8_t *out, size_t out_len, uint64_t *answer)
{
    size_t least = mode == 0 ? 1 : 2;
    size_t n = (len - 19) / 10;
    if (len < 19 || len != 10 * n + 19 || n < least || n > 32)
        REFUSE(NO_LENGTH, 0);
    if (nine(strip) != STAR_CODE)
        REFUSE(NO_ROW, 0);
    if (strip[9] != 1)
        REFUSE(NO_ROW, 9);
    uint8_t value[32];
    size_t at = 10;
    for (size_t i = 0; i < n; i++, at += 10) {
        unsigned code = nine(strip + at);
        if (code == STRAY)
            REFUSE(NO_ROW, at);
        unsigned v = code39_value[code] - 1u;
        if (v >= STAR)
            REFUSE(NO_ROW, at);
        value[i] = (uint8_t)v;
        if (strip[at + 9] != 1)
            REFUSE(NO_ROW, at + 9);
    }
    if (nine(strip + at) != STAR_CODE)
        REFUSE(NO_ROW, at);

    uint64_t total = 16 * (n + 2) - 1;
    size_t head = mode == 0 ? n : n - 1;
    if (!ascii) {
        if (mode != 0 && check_43(value, head) != value[head])
            REFUSE(WRONG_CHECK, head);
        size_t count = mode == 2 ? head : n;
        if (out_len < count)
            REFUSE(NO_ROOM, count);
        for (size_t i = 0; i < count; i++)
            out[i] = code39_char[value[i]];
        answer_is(answer, DONE, 0, count, total);
        return;
    }

    uint8_t data[32];
    size_t count = 0;
    for (size_t i = 0; i < head; count++) {
        unsigned v = value[i];
        if (v < 39) {
            data[count] = code39_char[v];
            i++;
            continue;
        }
        /* 39 is $, which begins no item; 40, 41 and 42 are the shifts. */
        if (v == 39 || i + 1 >= head || (unsigned)value[i + 1] - 10 >= 26)
            REFUSE(NO_EXPANSION, i);
        uint8_t byte = item_byte[v - 40][value[i + 1] - 10];
        if (byte == 0)
            REFUSE(NO_EXPANSION, i);
        data[count] = byte;
        i += 2;
    }
    if (mode != 0 && check_43(value, head) != value[head])
        REFUSE(WRONG_CHECK, head);
    if (mode == 1)
        data[count++] = code39_char[value[head]];
    if (out_len < count)
        REFUSE(NO_ROOM, count);
    memcpy(out, data, count);
    answer_is(answer, DONE, 0, count, total);
}

ALWAYS void read_codabar(const uint8_t *strip, size_t len, uint8_t *out, size_t out_len, uint64_t *answer)
{
    size_t n = (len + 1) / 8;
    if (len + 1 != 8 * n || n < 3 || n > 34)
        REFUSE(NO_LENGTH, 0);
    uint8_t data[34];
    size_t at = 0, last = n - 1;
    uint64_t total = 14 * n - 1;
    for (size_t i = 0; i < n; i++, at += 8) {
        /* A word holds the parting space and the seven elements behind it; before the first there is none. */
        if (i > 0 && strip[at - 1] != 1)
            REFUSE(NO_ROW, at - 1);
        uint64_t x = i > 0 ? eight(strip + at - 1) : eight(strip) << 8 | 1;
        if (stray_of(x))
            REFUSE(NO_ROW, at);
        unsigned v = codabar_value[code_of(x)];
        if (v == 0 || (v > 16) != (i == 0 || i == last))
            REFUSE(NO_ROW, at);
        data[i] = codabar_char[v - 1];
        if (v <= 12)
            total -= 2;
    }
    if (out_len < n)
        REFUSE(NO_ROOM, n);
    memcpy(out, data, n);
    answer_is(answer, DONE, 0, n, total);
}

/* What follows the units for the codes whose characters are digits. */
ALWAYS void hand_over(uint8_t mode, const uint8_t *value, size_t n, uint64_t total, uint8_t *out, size_t out_len, uint64_t *answer)
{
    if (mode != 0 && check_ten(value, n - 1) != value[n - 1])
        REFUSE(WRONG_CHECK, n - 1);
    size_t count = mode == 2 ? n - 1 : n;
    if (out_len < count)
        REFUSE(NO_ROOM, count);
    for (size_t i = 0; i < count; i++)
        out[i] = (uint8_t)('0' + value[i]);
    answer_is(answer, DONE, 0, count, total);
}

/* Industrial and Matrix: start, parting space, then each digit and a parting space, stop. */
ALWAYS void read_parted(int industrial, uint8_t mode, const uint8_t *strip, size_t len,
                        uint8_t *out, size_t out_len, uint64_t *answer)
{
    const size_t width = industrial ? 10 : 6;
    size_t least = mode == 0 ? 1 : 2;
    size_t n = (len - 11) / width;
    if (len < 11 || len != width * n + 11 || n < least || n > 32)
        REFUSE(NO_LENGTH, 0);
    if (industrial ? !ARE(strip, 5, 3, 1, 3, 1, 1) : !ARE(strip, 5, 3, 1, 1, 1, 1))
        REFUSE(NO_ROW, 0);
    if (strip[5] != 1)
        REFUSE(NO_ROW, 5);
    uint8_t value[32];
    size_t at = 6;
    for (size_t i = 0; i < n; i++, at += width) {
        /* Behind a digit of Matrix there are a space and five elements of the stop at least. */
        unsigned code = industrial ? nine(strip + at) : first_of_eight(strip + at, 5);
        if (code == STRAY)
            REFUSE(NO_ROW, at);
        unsigned v = industrial ? industrial_value[code] : matrix_value[code];
        if (v == 0)
            REFUSE(NO_ROW, at);
        value[i] = (uint8_t)(v - 1);
        if (strip[at + width - 1] != 1)
            REFUSE(NO_ROW, at + width - 1);
    }
    if (industrial ? !ARE(strip + at, 5, 3, 1, 1, 1, 3) : !ARE(strip + at, 5, 3, 1, 1, 1, 1))
        REFUSE(NO_ROW, at);
    hand_over(mode, value, n, industrial ? 14 * n + 19 : 10 * n + 15, out, out_len, answer);
}

ALWAYS void read_interleaved(uint8_t mode, const uint8_t *strip, size_t len,
                             uint8_t *out, size_t out_len, uint64_t *answer)
{
    size_t n = (len - 7) / 10 * 2;
    if (len < 7 || len != 5 * n + 7 || n < 2 || n > 32)
        REFUSE(NO_LENGTH, 0);
    if (!ARE(strip, 4, 1, 1, 1, 1))
        REFUSE(NO_ROW, 0);
    uint8_t value[32];
    size_t at = 4;
    for (size_t i = 0; i < n; i += 2, at += 10) {
        unsigned code = nine(strip + at), end = strip[at + 9];
        if (code == STRAY || (end & 0xFD) != 1)
            REFUSE(NO_ROW, at);
        unsigned v = pair_value[code << 1 | end >> 1];
        if (v == 0)
            REFUSE(NO_ROW, at);
        value[i] = (uint8_t)((v - 1) / 10);
        value[i + 1] = (uint8_t)((v - 1) % 10);
    }
    if (!ARE(strip + at, 3, 3, 1, 1))
        REFUSE(NO_ROW, at);
    hand_over(mode, value, n, 9 * n + 9, out, out_len, answer);
}

/* Four widths from 1 to 4, two bits each, the first one highest; NO_WIDTHS if one is another. */
#define NO_WIDTHS 256
ALWAYS unsigned four_widths(const uint8_t *p)
{
    uint32_t x;
    memcpy(&x, p, 4);
#if defined(__BYTE_ORDER__) && __BYTE_ORDER__ == __ORDER_BIG_ENDIAN__
    x = __builtin_bswap32(x);
#endif
    /* Each width less 1; a width of 0 borrows, which shows in its own byte. */
    x -= 0x01010101u;
    return x & 0xFCFCFCFCu ? NO_WIDTHS : (uint32_t)(x * 0x40100401u) >> 24;
}

/* The value of four elements in table 5.2, plus one, 0 if they are in none of its rows. */
ALWAYS unsigned ean_of(const uint8_t *p)
{
    unsigned widths = four_widths(p);
    return widths == NO_WIDTHS ? 0 : ean_value[widths];
}

/* `half` digits on each side; for EAN-13 `value` begins with the digit that the parities carry. */
ALWAYS void read_ean(int thirteen, size_t half, uint8_t mode, const uint8_t *strip, size_t len,
                     uint8_t *out, size_t out_len, uint64_t *answer)
{
    if (len != 8 * half + 11)
        REFUSE(NO_LENGTH, 0);
    if (!ARE(strip, 3, 1, 1, 1))
        REFUSE(NO_ROW, 0);
    uint8_t value[13];
    size_t n = 2 * half + (thirteen ? 1 : 0), k = thirteen ? 1 : 0, at = 3;
    unsigned parity = 0;
    for (size_t i = 0; i < half; i++, at += 4) {
        unsigned v = ean_of(strip + at);
        if (v == 0 || (!thirteen && v > EVEN))
            REFUSE(NO_ROW, at);
        if (thirteen)
            parity = parity << 1 | v >> 4;
        value[k++] = (uint8_t)((v & 15) - 1);
    }
    if (!ARE(strip + at, 5, 1, 1, 1, 1, 1))
        REFUSE(NO_ROW, at);
    at += 5;
    for (size_t i = 0; i < half; i++, at += 4) {
        unsigned v = ean_of(strip + at);
        if (v == 0 || v > EVEN)
            REFUSE(NO_ROW, at);
        value[k++] = (uint8_t)(v - 1);
    }
    if (!ARE(strip + at, 3, 1, 1, 1))
        REFUSE(NO_ROW, at);
    if (thirteen) {
        unsigned v = parity_value[parity];
        if (v == 0)
            REFUSE(NO_PARITY, 3);
        value[0] = (uint8_t)(v - 1);
    }
    hand_over(mode, value, n, 14 * half + 11, out, out_len, answer);
}

void plain_read(uint8_t symbology, uint8_t mode, const uint8_t *strip, size_t strip_len,
                uint8_t *out, size_t out_len, uint64_t answer[4])
{
    if (symbology < 1 || symbology > 9)
        REFUSE(NO_SYMBOLOGY, 0);
    if (mode > 2 || (symbology == 3 && mode != 0) || (symbology >= 7 && mode == 0))
        REFUSE(NO_MODE, 0);
    switch (symbology) {
    case 1: read_code39(0, mode, strip, strip_len, out, out_len, answer); break;
    case 2: read_code39(1, mode, strip, strip_len, out, out_len, answer); break;
    case 3: read_codabar(strip, strip_len, out, out_len, answer); break;
    case 4: read_parted(1, mode, strip, strip_len, out, out_len, answer); break;
    case 5: read_interleaved(mode, strip, strip_len, out, out_len, answer); break;
    case 6: read_parted(0, mode, strip, strip_len, out, out_len, answer); break;
    case 7: read_ean(1, 6, mode, strip, strip_len, out, out_len, answer); break;
    case 8: read_ean(0, 4, mode, strip, strip_len, out, out_len, answer); break;
    default: read_ean(0, 6, mode, strip, strip_len, out, out_len, answer); break;
    }
}

/* ---- drawing ---- */

/* Patterns as widths, the parting space behind them where there is one. Some are filled up to 8 or 16 bytes: a copy
   of the whole entry is one move and runs into the place of the next unit, which is written later, but never behind
   the strip's end. */
#define E(code, bit) (1 + 2 * ((code) >> (bit) & 1))
#define FIVE(code) E(code, 4), E(code, 3), E(code, 2), E(code, 1), E(code, 0)
#define NINE(code) E(code, 8), E(code, 7), E(code, 6), E(code, 5), FIVE(code)

static const uint8_t code39_pattern[44][16] = {
#define X(v, ch, code) { NINE(code), 1 },
    CODE39_ROWS(X)
#undef X
    { NINE(STAR_CODE), 1 }
};
static const uint8_t codabar_pattern[20][8] = {
#define X(v, ch, code) { E(code, 6), E(code, 5), FIVE(code), 1 },
    CODABAR_ROWS(X)
#undef X
};
static const uint8_t industrial_pattern[10][16] = {
#define X(v, code) { E(code, 4), 1, E(code, 3), 1, E(code, 2), 1, E(code, 1), 1, E(code, 0), 1 },
    TWO_OF_FIVE(X)
#undef X
};
static const uint8_t matrix_pattern[10][8] = {
#define X(v, code) { FIVE(code), 1 },
    TWO_OF_FIVE(X)
#undef X
};
#define PAIR(a, b) { E(a, 4), E(b, 4), E(a, 3), E(b, 3), E(a, 2), E(b, 2), E(a, 1), E(b, 1), E(a, 0), E(b, 0) },
static const uint8_t interleaved_pattern[100][16] = {
#define X(v, a) \
    PAIR(a, 0x06) PAIR(a, 0x11) PAIR(a, 0x09) PAIR(a, 0x18) PAIR(a, 0x05) \
    PAIR(a, 0x14) PAIR(a, 0x0C) PAIR(a, 0x03) PAIR(a, 0x12) PAIR(a, 0x0A)
    TWO_OF_FIVE(X)
#undef X
};
/* Left odd (right as well) and left even. */
static const uint8_t ean_pattern[2][10][4] = {
    {
#define X(v, a, b, c, d, parity) { a, b, c, d },
        EAN(X)
#undef X
    }, {
#define X(v, a, b, c, d, parity) { d, c, b, a },
        EAN(X)
#undef X
    }
};
static const uint8_t parity_of[10] = {
#define X(v, a, b, c, d, parity) parity,
    EAN(X)
#undef X
};

/* Full ASCII, bytes 20h to 7Fh: one value, or a shift and a letter. The second value of a single one is NONE. */
#define NONE 255
#define ONE(v) { v, NONE }
#define SLASH(letter) { 40, letter - 'A' + 10 }
#define PLUS(letter) { 41, letter - 'A' + 10 }
#define PERCENT(letter) { 42, letter - 'A' + 10 }
static const uint8_t item[96][2] = {
    ONE(38), SLASH('A'), SLASH('B'), SLASH('C'), SLASH('D'), SLASH('E'), SLASH('F'), SLASH('G'),
    SLASH('H'), SLASH('I'), SLASH('J'), SLASH('K'), SLASH('L'), ONE(36), ONE(37), SLASH('O'),
    ONE(0), ONE(1), ONE(2), ONE(3), ONE(4), ONE(5), ONE(6), ONE(7),
    ONE(8), ONE(9), SLASH('Z'), PERCENT('F'), PERCENT('G'), PERCENT('H'), PERCENT('I'), PERCENT('J'),
    PERCENT('V'), ONE(10), ONE(11), ONE(12), ONE(13), ONE(14), ONE(15), ONE(16),
    ONE(17), ONE(18), ONE(19), ONE(20), ONE(21), ONE(22), ONE(23), ONE(24),
    ONE(25), ONE(26), ONE(27), ONE(28), ONE(29), ONE(30), ONE(31), ONE(32),
    ONE(33), ONE(34), ONE(35), PERCENT('K'), PERCENT('L'), PERCENT('M'), PERCENT('N'), PERCENT('O'),
    PERCENT('W'), PLUS('A'), PLUS('B'), PLUS('C'), PLUS('D'), PLUS('E'), PLUS('F'), PLUS('G'),
    PLUS('H'), PLUS('I'), PLUS('J'), PLUS('K'), PLUS('L'), PLUS('M'), PLUS('N'), PLUS('O'),
    PLUS('P'), PLUS('Q'), PLUS('R'), PLUS('S'), PLUS('T'), PLUS('U'), PLUS('V'), PLUS('W'),
    PLUS('X'), PLUS('Y'), PLUS('Z'), PERCENT('P'), PERCENT('Q'), PERCENT('R'), PERCENT('S'), PERCENT('T')
};

ALWAYS int count_fits(uint8_t mode, size_t len)
{
    return len >= (mode == 1 ? 2 : 1) && len <= (mode == 2 ? 31 : 32);
}

ALWAYS void draw_code39(int ascii, uint8_t mode, const uint8_t *text, size_t len,
                        uint8_t *out, size_t out_len, uint64_t *answer)
{
    if (!count_fits(mode, len))
        REFUSE(NO_COUNT, 0);
    uint8_t value[66];
    size_t n = 0, head = mode == 1 ? len - 1 : len;
    if (ascii) {
        for (size_t i = 0; i < head; i++) {
            unsigned k = text[i] - 0x20u;
            if (k >= 96)
                REFUSE(NO_BYTE, i);
            value[n] = item[k][0];
            value[n + 1] = item[k][1];
            n += item[k][1] == NONE ? 1 : 2;
        }
    } else {
        for (size_t i = 0; i < head; i++) {
            unsigned v = code39_of_char[text[i]];
            if (v == 0)
                REFUSE(NO_BYTE, i);
            value[n++] = (uint8_t)(v - 1);
        }
    }
    unsigned given = 0;
    if (mode == 1) {
        given = code39_of_char[text[head]];
        if (given == 0)
            REFUSE(NO_BYTE, head);
        given--;
    }
    if (ascii && n + (mode != 0) > 32)
        REFUSE(TOO_MANY, 0);
    if (mode != 0) {
        unsigned check = check_43(value, n);
        if (mode == 1 && check != given)
            REFUSE(WRONG_CHECK, n);
        value[n++] = (uint8_t)check;
    }
    size_t count = 10 * n + 19;
    if (out_len < count)
        REFUSE(NO_ROOM, count);
    memcpy(out, code39_pattern[STAR], 16);
    out += 10;
    for (size_t i = 0; i < n; i++, out += 10)
        memcpy(out, code39_pattern[value[i]], 16);
    memcpy(out, code39_pattern[STAR], 9);
    answer_is(answer, DONE, 0, count, 16 * (n + 2) - 1);
}

ALWAYS void draw_codabar(const uint8_t *text, size_t len, uint8_t *out, size_t out_len, uint64_t *answer)
{
    if (len < 3 || len > 34)
        REFUSE(NO_COUNT, 0);
    uint8_t value[34];
    uint64_t total = 14 * len - 1;
    for (size_t i = 0; i < len; i++) {
        unsigned v = codabar_of_char[text[i]];
        if (v == 0 || (v > 16) != (i == 0 || i == len - 1))
            REFUSE(NO_BYTE, i);
        if (v <= 12)
            total -= 2;
        value[i] = (uint8_t)(v - 1);
    }
    size_t count = 8 * len - 1;
    if (out_len < count)
        REFUSE(NO_ROOM, count);
    for (size_t i = 0; i < len - 1; i++, out += 8)
        memcpy(out, codabar_pattern[value[i]], 8);
    memcpy(out, codabar_pattern[value[len - 1]], 7);
    answer_is(answer, DONE, 0, count, total);
}

/* The digits' values; gives the index of the first byte that is no digit, or len. */
ALWAYS size_t digits(const uint8_t *text, size_t len, uint8_t *value)
{
    for (size_t i = 0; i < len; i++) {
        unsigned v = text[i] - (unsigned)'0';
        if (v > 9)
            return i;
        value[i] = (uint8_t)v;
    }
    return len;
}

enum { INDUSTRIAL = 4, INTERLEAVED = 5, MATRIX = 6 };

ALWAYS void draw_five(int kind, uint8_t mode, const uint8_t *text, size_t len,
                      uint8_t *out, size_t out_len, uint64_t *answer)
{
    if (!count_fits(mode, len))
        REFUSE(NO_COUNT, 0);
    uint8_t value[32];
    size_t good = digits(text, len, value);
    if (good < len)
        REFUSE(NO_BYTE, good);
    size_t n = mode == 2 ? len + 1 : len;
    if (kind == INTERLEAVED && n % 2 != 0)
        REFUSE(ODD_COUNT, 0);
    if (mode != 0) {
        unsigned check = check_ten(value, n - 1);
        if (mode == 1 && check != value[n - 1])
            REFUSE(WRONG_CHECK, n - 1);
        value[n - 1] = (uint8_t)check;
    }
    size_t count = kind == INDUSTRIAL ? 10 * n + 11 : kind == INTERLEAVED ? 5 * n + 7 : 6 * n + 11;
    if (out_len < count)
        REFUSE(NO_ROOM, count);
    if (kind == INDUSTRIAL) {
        static const uint8_t start[6] = { 3, 1, 3, 1, 1, 1 }, stop[5] = { 3, 1, 1, 1, 3 };
        memcpy(out, start, 6);
        out += 6;
        for (size_t i = 0; i + 1 < n; i++, out += 10)
            memcpy(out, industrial_pattern[value[i]], 16);
        memcpy(out, industrial_pattern[value[n - 1]], 10);
        out += 10;
        memcpy(out, stop, 5);
        answer_is(answer, DONE, 0, count, 14 * n + 19);
    } else if (kind == INTERLEAVED) {
        static const uint8_t start[4] = { 1, 1, 1, 1 }, stop[3] = { 3, 1, 1 };
        memcpy(out, start, 4);
        out += 4;
        size_t i;
        for (i = 0; i + 2 < n; i += 2, out += 10)
            memcpy(out, interleaved_pattern[10 * value[i] + value[i + 1]], 16);
        memcpy(out, interleaved_pattern[10 * value[i] + value[i + 1]], 10);
        out += 10;
        memcpy(out, stop, 3);
        answer_is(answer, DONE, 0, count, 9 * n + 9);
    } else {
        static const uint8_t guard[6] = { 3, 1, 1, 1, 1, 1 };
        memcpy(out, guard, 6);
        out += 6;
        for (size_t i = 0; i < n; i++, out += 6)
            memcpy(out, matrix_pattern[value[i]], 8);
        memcpy(out, guard, 5);
        answer_is(answer, DONE, 0, count, 10 * n + 15);
    }
}

ALWAYS void draw_ean(int thirteen, size_t half, uint8_t mode, const uint8_t *text, size_t len,
                     uint8_t *out, size_t out_len, uint64_t *answer)
{
    static const uint8_t guard[5] = { 1, 1, 1, 1, 1 };
    const size_t n = 2 * half + (thirteen ? 1 : 0);
    if (len != (mode == 1 ? n : n - 1))
        REFUSE(NO_COUNT, 0);
    uint8_t value[13];
    size_t good = digits(text, len, value);
    if (good < len)
        REFUSE(NO_BYTE, good);
    unsigned check = check_ten(value, n - 1);
    if (mode == 1 && check != value[n - 1])
        REFUSE(WRONG_CHECK, n - 1);
    value[n - 1] = (uint8_t)check;
    size_t count = 8 * half + 11, k = 0;
    if (out_len < count)
        REFUSE(NO_ROOM, count);
    unsigned parity = thirteen ? parity_of[value[k++]] : 0;
    memcpy(out, guard, 3);
    out += 3;
    for (size_t i = 0; i < half; i++, out += 4)
        memcpy(out, ean_pattern[parity >> (half - 1 - i) & 1][value[k++]], 4);
    memcpy(out, guard, 5);
    out += 5;
    for (size_t i = 0; i < half; i++, out += 4)
        memcpy(out, ean_pattern[0][value[k++]], 4);
    memcpy(out, guard, 3);
    answer_is(answer, DONE, 0, count, 14 * half + 11);
}

void plain_draw(uint8_t symbology, uint8_t mode, const uint8_t *text, size_t text_len,
                uint8_t *out, size_t out_len, uint64_t answer[4])
{
    if (symbology < 1 || symbology > 9)
        REFUSE(NO_SYMBOLOGY, 0);
    if (mode > 2 || (symbology == 3 && mode != 0) || (symbology >= 7 && mode == 0))
        REFUSE(NO_MODE, 0);
    switch (symbology) {
    case 1: draw_code39(0, mode, text, text_len, out, out_len, answer); break;
    case 2: draw_code39(1, mode, text, text_len, out, out_len, answer); break;
    case 3: draw_codabar(text, text_len, out, out_len, answer); break;
    case 4: draw_five(INDUSTRIAL, mode, text, text_len, out, out_len, answer); break;
    case 5: draw_five(INTERLEAVED, mode, text, text_len, out, out_len, answer); break;
    case 6: draw_five(MATRIX, mode, text, text_len, out, out_len, answer); break;
    case 7: draw_ean(1, 6, mode, text, text_len, out, out_len, answer); break;
    case 8: draw_ean(0, 4, mode, text, text_len, out, out_len, answer); break;
    default: draw_ean(0, 6, mode, text, text_len, out, out_len, answer); break;
    }
}
