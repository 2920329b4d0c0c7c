/* Draws one label, 00417 or the digits that are asked for, prints its widths and reads it back. */
#include <stdio.h>
#include <string.h>
#include "strip.h"

/* Whether a call turned its input away, which is then said. */
static int refused(const char *call, const uint64_t *answer)
{
    if (answer[STRIP_NUMBER] == STRIP_DONE) return 0;
    printf("%s: turned away with %d, place %d\n", call, (int)answer[STRIP_NUMBER], (int)answer[STRIP_PLACE]);
    return 1;
}

int main(int argc, char **argv)
{
    const char *text = argc > 1 ? argv[1] : "00417";
    uint8_t strip[STRIP_MAX_ELEMENTS], back[STRIP_MAX_BYTES];
    uint64_t drawn[4], read[4], i;

    strip_draw(STRIP_INTERLEAVED_2_OF_5, 2, (const uint8_t *)text, strlen(text), strip, sizeof strip, drawn);
    if (refused("draw", drawn)) return 1;
    for (i = 0; i < drawn[STRIP_COUNT]; i++) putchar('0' + strip[i]);
    printf("\n%d elements, %d modules\n", (int)drawn[STRIP_COUNT], (int)drawn[STRIP_TOTAL]);

    strip_read(STRIP_INTERLEAVED_2_OF_5, 2, strip, drawn[STRIP_COUNT], back, sizeof back, read);
    if (refused("read", read)) return 1;
    printf("%.*s\n", (int)read[STRIP_COUNT], (const char *)back);
    return 0;
}
