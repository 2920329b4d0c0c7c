/* Times drawing and reading: this library, plain C and, where they were found, zint and zbar.
   Use: timing labels   prints the labels, for the Rust program: kind, mode, size, data in hex, strip
        timing rounds   so many short interleaved rounds; prints "time <what> <symbology> <size> <side> <ns>"
   A line holds the shortest round of that side, by label. bench/run takes the minimum over several runs. */
#define _POSIX_C_SOURCE 199309L
#include "plain.h"
#include "strip.h"
#include <stdio.h>
#include <stdlib.h>
#include <string.h>
#include <time.h>
#ifdef WITH_ZINT
#include <zint.h>
#endif
#ifdef WITH_ZBAR
#include <zbar.h>
#endif

/* labels of a work: a few, over and over, and many that differ, as a scanner sees them: no search can be learnt from those */
#define FEW 16
#define MANY 1024
#define ROOM 339
/* what a round of one side should last, in ns: short enough to fit between two interruptions */
#define ROUND 40000.0

struct label {
    uint8_t text[40], strip[ROOM];
    size_t len, count;
};
struct work {
    int symbology, mode, size; /* size 0 is short, 1 is long */
    struct label label[MANY];
    unsigned width[FEW][ROOM]; /* the first labels' widths, for zbar */
};
static const char *const size_name[2] = { "short", "long" };
static struct work works[15];
static int work_count;

static uint64_t state = 417;
static unsigned below(unsigned n)
{
    state ^= state >> 12;
    state ^= state << 25;
    state ^= state >> 27;
    return (unsigned)((state * 0x2545F4914F6CDD1DULL) >> 32) % n;
}
static uint8_t one_of(const char *set) { return (uint8_t)set[below((unsigned)strlen(set))]; }

static void die(const char *what, int symbology)
{
    fprintf(stderr, "timing: %s, symbology %d\n", what, symbology);
    exit(1);
}

static void make_label(int s, int size, struct label *l)
{
    size_t n = size ? 30 : 8, drawn = 0;
    l->len = 0;
    switch (s) {
    case 1:
        while (l->len < n)
            l->text[l->len++] = one_of("0123456789ABCDEFGHIJKLMNOPQRSTUVWXYZ-. $/+%");
        break;
    case 2:
        /* 8 bytes, or as many as make about 30 drawn characters; a quarter of them are pairs */
        while (size ? drawn < 29 : l->len < n) {
            uint8_t c = one_of("0123456789ABCDEFGHIJ abcdefgh");
            l->text[l->len++] = c;
            drawn += c >= 'a' ? 2 : 1;
        }
        break;
    case 3:
        l->text[l->len++] = one_of("ABCD");
        while (l->len < n - 1)
            l->text[l->len++] = one_of("0123456789-$:/.+");
        l->text[l->len++] = one_of("ABCD");
        break;
    case 5: n--; break;
    case 7: n = 12; break;
    case 8: n = 7; break;
    case 9: n = 11; break;
    }
    while (l->len < n && s > 3)
        l->text[l->len++] = (uint8_t)('0' + below(10));
}

static void make_works(void)
{
    for (int size = 0; size < 2; size++)
        for (int s = 1; s <= (size ? 6 : 9); s++) {
            struct work *w = &works[work_count++];
            w->symbology = s;
            w->mode = s == 3 ? 0 : 2;
            w->size = size;
            for (int i = 0; i < MANY; i++) {
                struct label *l = &w->label[i];
                uint8_t other[ROOM], back[40];
                uint64_t a[4], b[4];
                make_label(s, size, l);
                strip_draw((uint8_t)s, (uint8_t)w->mode, l->text, l->len, l->strip, ROOM, a);
                plain_draw((uint8_t)s, (uint8_t)w->mode, l->text, l->len, other, ROOM, b);
                if (a[0] != 0 || memcmp(a, b, sizeof a) || memcmp(l->strip, other, (size_t)a[2]))
                    die("drawing differs", s);
                l->count = (size_t)a[2];
                strip_read((uint8_t)s, (uint8_t)w->mode, l->strip, l->count, back, sizeof back, a);
                if (a[0] != 0 || a[2] != l->len || memcmp(back, l->text, l->len))
                    die("reading differs", s);
                plain_read((uint8_t)s, (uint8_t)w->mode, l->strip, l->count, back, sizeof back, b);
                if (memcmp(a, b, sizeof a) || memcmp(back, l->text, l->len))
                    die("plain reading differs", s);
                for (size_t k = 0; i < FEW && k < l->count; k++)
                    w->width[i][k] = 4u * l->strip[k];
            }
        }
}

/* ---- the sides: each runs the first `labels` of a work `turns` times and gives a sum that nobody can leave out ---- */

typedef void call(uint8_t, uint8_t, const uint8_t *, size_t, uint8_t *, size_t, uint64_t *);

static uint64_t draw_all(call *draw, const struct work *w, int labels, int turns)
{
    uint8_t out[ROOM];
    uint64_t a[4], sum = 0;
    for (int t = 0; t < turns; t++)
        for (int i = 0; i < labels; i++) {
            draw((uint8_t)w->symbology, (uint8_t)w->mode, w->label[i].text, w->label[i].len, out, ROOM, a);
            sum += a[0] == 0;
        }
    return sum;
}
static uint64_t read_all(call *read, const struct work *w, int labels, int turns)
{
    uint8_t out[40];
    uint64_t a[4], sum = 0;
    for (int t = 0; t < turns; t++)
        for (int i = 0; i < labels; i++) {
            read((uint8_t)w->symbology, (uint8_t)w->mode, w->label[i].strip, w->label[i].count, out, sizeof out, a);
            sum += a[0] == 0;
        }
    return sum;
}
static uint64_t draw_library(const struct work *w, int labels, int turns) { return draw_all(strip_draw, w, labels, turns); }
static uint64_t draw_plain(const struct work *w, int labels, int turns) { return draw_all(plain_draw, w, labels, turns); }
static uint64_t read_library(const struct work *w, int labels, int turns) { return read_all(strip_read, w, labels, turns); }
static uint64_t read_plain(const struct work *w, int labels, int turns) { return read_all(plain_read, w, labels, turns); }

#ifdef WITH_ZINT
/* zint's nearest symbology and option 2 (1 adds a check character). No image is made; the symbol is made once. */
static const int zint_kind[10] = { 0, BARCODE_CODE39, BARCODE_EXCODE39, BARCODE_CODABAR, BARCODE_C25IND,
    BARCODE_C25INTER, BARCODE_C25MATRIX, BARCODE_EANX, BARCODE_EANX, BARCODE_UPCA };
static const int zint_check[10] = { 0, 1, 1, 0, 1, 1, 1, 0, 0, 0 };
static struct zint_symbol *symbol;

static uint64_t draw_zint(const struct work *w, int labels, int turns)
{
    uint64_t sum = 0;
    if (!symbol)
        symbol = ZBarcode_Create();
    symbol->symbology = zint_kind[w->symbology];
    symbol->option_2 = zint_check[w->symbology];
    symbol->input_mode = DATA_MODE;
    for (int t = 0; t < turns; t++)
        for (int i = 0; i < labels; i++) {
            ZBarcode_Clear(symbol);
            sum += ZBarcode_Encode(symbol, w->label[i].text, (int)w->label[i].len) < ZINT_ERROR;
        }
    return sum;
}
#endif

#ifdef WITH_ZBAR
/* zbar's decoder with this one symbology switched on, fed with a margin, the widths (4 to a module), a margin. */
static const zbar_symbol_type_t zbar_kind[10] = { 0, ZBAR_CODE39, 0, ZBAR_CODABAR, 0, ZBAR_I25, 0,
    ZBAR_EAN13, ZBAR_EAN8, ZBAR_UPCA };
static zbar_decoder_t *decoders[10];

static zbar_decoder_t *decoder_for(int s)
{
    if (!decoders[s]) {
        zbar_decoder_t *d = decoders[s] = zbar_decoder_create();
        zbar_decoder_set_config(d, 0, ZBAR_CFG_ENABLE, 0);
        zbar_decoder_set_config(d, zbar_kind[s], ZBAR_CFG_ENABLE, 1);
        if (s == 9)
            /* zbar sees UPC-A as an EAN-13 that begins with 0 */
            zbar_decoder_set_config(d, ZBAR_EAN13, ZBAR_CFG_ENABLE, 1);
    }
    return decoders[s];
}
static int decode(zbar_decoder_t *d, const struct work *w, int label)
{
    int seen = 0;
    zbar_decoder_new_scan(d);
    zbar_decode_width(d, 80);
    for (size_t i = 0; i < w->label[label].count; i++)
        seen |= zbar_decode_width(d, w->width[label][i]) > ZBAR_PARTIAL;
    seen |= zbar_decode_width(d, 80) > ZBAR_PARTIAL;
    return seen;
}
static uint64_t read_zbar(const struct work *w, int labels, int turns)
{
    zbar_decoder_t *d = decoder_for(w->symbology);
    uint64_t sum = 0;
    for (int t = 0; t < turns; t++)
        for (int i = 0; i < labels; i++)
            sum += (uint64_t)decode(d, w, i);
    return sum;
}
static void check_zbar(const struct work *w)
{
    zbar_decoder_t *d = decoder_for(w->symbology);
    for (int i = 0; i < 2 * FEW; i++) {
        const struct label *l = &w->label[i % FEW];
        const char *data = decode(d, w, i % FEW) ? zbar_decoder_get_data(d) : "";
        if (strncmp(data, (const char *)l->text, l->len)) {
            fprintf(stderr, "timing: zbar read '%s' for '%.*s'\n", data, (int)l->len, l->text);
            die("zbar does not read the label", w->symbology);
        }
    }
}
#endif

struct side {
    const char *name, *what;
    uint64_t (*run)(const struct work *, int, int);
    int labels, turns;
    double best;
};

static double now(void)
{
    struct timespec t;
    clock_gettime(CLOCK_MONOTONIC, &t);
    return (double)t.tv_sec * 1e9 + (double)t.tv_nsec;
}

static double once(const struct side *s, const struct work *w, int turns)
{
    double from = now();
    uint64_t good = s->run(w, s->labels, turns);
    double took = now() - from;
    if (good != (uint64_t)turns * (uint64_t)s->labels) {
        fprintf(stderr, "timing: %s did %lu of %d\n", s->name, (unsigned long)good, turns * s->labels);
        die("a label was refused", w->symbology);
    }
    return took;
}

static void time_sides(struct side *sides, int n, const struct work *w, int rounds)
{
    for (int i = 0; i < n; i++) {
        once(&sides[i], w, 20);
        double t = 1e18;
        for (int k = 0; k < 5; k++) {
            double again = once(&sides[i], w, 4) / 4;
            t = again < t ? again : t;
        }
        sides[i].turns = t >= ROUND ? 1 : (int)(ROUND / t);
        sides[i].best = 1e18;
    }
    for (int r = 0; r < rounds; r++)
        for (int i = 0; i < n; i++) {
            double t = once(&sides[i], w, sides[i].turns) / (sides[i].turns * sides[i].labels);
            if (t < sides[i].best)
                sides[i].best = t;
        }
    for (int i = 0; i < n; i++)
        printf("time %s %d %s %s %.2f\n", sides[i].what, w->symbology, size_name[w->size], sides[i].name, sides[i].best);
    fflush(stdout);
}

int main(int argc, char **argv)
{
    make_works();
    if (argc > 1 && !strcmp(argv[1], "labels")) {
        for (int k = 0; k < work_count; k++)
            for (int i = 0; i < FEW; i++) {
                const struct label *l = &works[k].label[i];
                printf("%d %d %s ", works[k].symbology, works[k].mode, size_name[works[k].size]);
                for (size_t j = 0; j < l->len; j++)
                    printf("%02x", l->text[j]);
                printf(" ");
                for (size_t j = 0; j < l->count; j++)
                    printf("%d", l->strip[j]);
                printf("\n");
            }
        return 0;
    }
    int rounds = argc > 1 ? atoi(argv[1]) : 100;
    for (int k = 0; k < work_count; k++) {
        const struct work *w = &works[k];
        struct side drawing[] = {
            { "library", "draw", draw_library, FEW, 0, 0 },
            { "plain", "draw", draw_plain, FEW, 0, 0 },
#ifdef WITH_ZINT
            { "zint", "draw", draw_zint, FEW, 0, 0 },
#endif
        };
        struct side reading[] = {
            { "library", "read", read_library, FEW, 0, 0 },
            { "plain", "read", read_plain, FEW, 0, 0 },
#ifdef WITH_ZBAR
            { "zbar", "read", read_zbar, FEW, 0, 0 },
#endif
        };
        struct side differing[] = {
            { "library", "differ", read_library, MANY, 0, 0 },
            { "plain", "differ", read_plain, MANY, 0, 0 },
        };
        int readers = (int)(sizeof reading / sizeof reading[0]);
#ifdef WITH_ZBAR
        if (zbar_kind[w->symbology])
            check_zbar(w);
        else
            readers--;
#endif
        time_sides(drawing, (int)(sizeof drawing / sizeof drawing[0]), w, rounds);
        time_sides(reading, readers, w, rounds);
        time_sides(differing, (int)(sizeof differing / sizeof differing[0]), w, rounds);
    }
    return 0;
}
