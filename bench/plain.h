/* The hand-written version in plain C that the library is measured against.
   Same interface and same answers as the library's strip_draw and strip_read:
   answer = number, place, count, total. */
#ifndef PLAIN_H
#define PLAIN_H
#include <stddef.h>
#include <stdint.h>

void plain_draw(uint8_t symbology, uint8_t mode, const uint8_t *text, size_t text_len,
                uint8_t *out, size_t out_len, uint64_t answer[4]);
void plain_read(uint8_t symbology, uint8_t mode, const uint8_t *strip, size_t strip_len,
                uint8_t *out, size_t out_len, uint64_t answer[4]);
#endif
