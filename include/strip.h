/*
 * Bottle strips: data bytes to bar-code strips and back.
 *
 * strip_draw draws data as a strip; strip_read hands back the data of a strip. Both answer every input, and every input has one answer:
 * they are proved (crates/strip), from the lent bytes on. What a caller lends is checked by nobody: keep "What is lent" below.
 *
 * Link libstrip.a (x86-64 Linux). It needs memcpy and memset of the C library. The calls allocate nothing and keep nothing, so that
 * threads may call at the same time with buffers of their own.
 */
#ifndef STRIP_H
#define STRIP_H

#include <stddef.h>
#include <stdint.h>

#ifdef __cplusplus
extern "C" {
#endif

/*
 * A strip is a row of elements, bar first, then space, bar and so on, without quiet margins. A byte is the width of an element in modules,
 * 1 to 4: the number, not its digit. No strip is longer than the first of these, and no data are longer than the second.
 */
#define STRIP_MAX_ELEMENTS 339
#define STRIP_MAX_BYTES 34

/*
 * Symbologies, their modes, and how many data bytes each mode takes.
 *
 *                                    modes    mode 0 / 1 / 2           elements for n drawn characters
 */
enum strip_symbology {
    STRIP_CODE_39 = 1,            /* 0 1 2    1-32 / 2-32 / 1-31       10n+19 */
    STRIP_CODE_39_FULL_ASCII = 2, /* 0 1 2    1-32 / 2-32 / 1-31       10n+19 */
    STRIP_CODABAR = 3,            /* 0        3-34                     8n-1   */
    STRIP_INDUSTRIAL_2_OF_5 = 4,  /* 0 1 2    1-32 / 2-32 / 1-31       10n+11 */
    STRIP_INTERLEAVED_2_OF_5 = 5, /* 0 1 2    1-32 / 2-32 / 1-31       5n+7   */
    STRIP_MATRIX_2_OF_5 = 6,      /* 0 1 2    1-32 / 2-32 / 1-31       6n+11  */
    STRIP_EAN_13 = 7,             /* 1 2      13 / 12 (modes 1 / 2)    59     */
    STRIP_EAN_8 = 8,              /* 1 2      8 / 7 (modes 1 / 2)      43     */
    STRIP_UPC_A = 9               /* 1 2      12 / 11 (modes 1 / 2)    59     */
};

/*
 * Mode 0: no check; the last byte is plain data.
 * Mode 1: the last byte must be the right check.
 * Mode 2: the check is worked out and drawn after the data; the reader tests it and does not hand it back.
 * Drawn characters include the check, and in Codabar the start and stop letters, which are data there.
 *
 * The check of 1 and 2 is the character whose value is the sum of the values of the drawn characters before it, by 43 (0-9, A-Z, then
 * - . space $ / + % have the values 0 to 42). The check of 4 to 9 brings a sum of the digits before it to the next multiple of ten, and is 0 where
 * it is one already; the rightmost of them weighs 3, the next to the left 1, then 3 and so on.
 */

/*
 * The answer of a call, four numbers:
 *
 *   answer[STRIP_NUMBER]   0, or why the call turns its input away: the first of these that applies, in the order below
 *   answer[STRIP_PLACE]    where, counted from 0; what it counts differs from number to number
 *   answer[STRIP_COUNT]    on 0 the bytes written to out: elements drawn, or data bytes read; otherwise 0
 *   answer[STRIP_TOTAL]    on 0 the modules of the strip, the sum of its elements, in drawing and in reading; otherwise 0
 */
enum strip_index { STRIP_NUMBER = 0, STRIP_PLACE = 1, STRIP_COUNT = 2, STRIP_TOTAL = 3 };

/*
 * strip_draw checks 1, 2, 3, 4, 5, 6, 7, 8 in that order, strip_read 1, 2, 9, 10, 11, 12, 7, 8; neither gives any other number but 0.
 * Numbers above 13 may come.
 *
 *                                  given by      meaning                                      place
 */
enum strip_number {
    STRIP_DONE = 0,              /* both          done                                         0 */
    STRIP_NO_SYMBOLOGY = 1,      /* both          symbology not 1-9                            0 */
    STRIP_NO_MODE = 2,           /* both          mode not offered for it                      0 */
    STRIP_BAD_COUNT = 3,         /* strip_draw    data count outside the table                 0 */
    STRIP_BAD_BYTE = 4,          /* strip_draw    byte not allowed there                       index of the first such byte in the data */
    STRIP_ODD_COUNT = 5,         /* strip_draw    Interleaved: drawn count is odd              0 */
    STRIP_TOO_MANY_DRAWN = 6,    /* strip_draw    full ASCII: more than 32 drawn characters    0 */
    STRIP_BAD_CHECK = 7,         /* both          check character wrong                        its index in the drawn characters */
    STRIP_SHORT_BUFFER = 8,      /* both          lent buffer too short                        the count needed: elements, or data bytes */
    STRIP_BAD_LENGTH = 9,        /* strip_read    strip length fits no allowed drawn count     0 */
    STRIP_NO_SUCH_UNIT = 10,     /* strip_read    a unit is in no row                          index of its first element in the strip */
    STRIP_NO_SUCH_PARITIES = 11, /* strip_read    EAN-13: parities match no first digit        3, the element behind the guard */
    STRIP_NO_EXPANSION = 12,     /* strip_read    full ASCII: not an expansion                 index, in the drawn characters, of the one
                                                                                               where the first failing item begins */
    STRIP_FIELD_NOT_ZERO = 13    /* neither       job record: a byte after the data            index of the first such byte in the data
                                                  is not zero                                  field */
};

/*
 * What is lent
 *
 *   text, strip   text_len (strip_len) bytes, which are only read.
 *   out           out_len bytes. On 0 the first answer[STRIP_COUNT] are written and the others stay; otherwise no byte changes.
 *                 STRIP_MAX_ELEMENTS bytes are room for every strip and STRIP_MAX_BYTES for all data; 8 says how many are needed.
 *   answer        four numbers, which are always written.
 *
 * The three must not overlap, and nobody else may write to them, or read out or answer, during a call.
 * A length of 0 is allowed. Its pointer is not used, but must not be NULL: pass the address of any object, or one past the end of an array
 * (malloc(0) may give NULL).
 * No text of length 0 is drawn (3) and no strip of length 0 is read (9), unless 1 or 2 applies; an out of length 0 asks how many bytes are
 * needed, if nothing else is wrong (8).
 */

/* Draws the data text as a strip in out. */
void strip_draw(uint8_t symbology, uint8_t mode, const uint8_t *text, size_t text_len, uint8_t *out, size_t out_len, uint64_t answer[4]);

/* Hands the data of strip back in out. */
void strip_read(uint8_t symbology, uint8_t mode, const uint8_t *strip, size_t strip_len, uint8_t *out, size_t out_len, uint64_t answer[4]);

#ifdef __cplusplus
}
#endif

#endif
