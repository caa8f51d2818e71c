/* png_read.c: see png_read.h. First all chunks are judged, each against its sum; then the data is unpacked (inflate.c),
 * freed of its filters row by row, and made into pixels. */
#include "png_read.h"
#include <stdarg.h>
#include <stdio.h>
#include <string.h>
#include "inflate.h"
#include "png.h"

enum { GREY = 0, RGB = 2, PALETTE = 3, GREY_ALPHA = 4, RGB_ALPHA = 6 };

typedef struct {
    const uint8_t *file;
    size_t len, at;                       /* `at`: the next chunk */
    unsigned type, depth;
    bool interlaced, ended;
    const uint8_t *palette, *transparent; /* what PLTE and tRNS hold, NULL without them */
    uint32_t palette_len, transparent_len;
    const uint8_t *data;                  /* the first IDAT chunk's, NULL before it */
    uint32_t data_len;
    bool data_over;                       /* another chunk has followed */
    char *why;
} reader;

typedef struct { const uint8_t *name, *data; uint32_t len; } chunk;

static bool refuse(reader *r, const char *form, ...) {
    va_list words;
    va_start(words, form);
    vsnprintf(r->why, PNG_WHY_BYTES, form, words);
    va_end(words);
    return false;
}

static uint32_t big16(const uint8_t *p) { return (uint32_t)p[0] << 8 | p[1]; }
static uint32_t big32(const uint8_t *p) { return big16(p) << 16 | big16(p + 2); }

static bool is(const chunk *c, const char *name) { return memcmp(c->name, name, 4) == 0; }

/* ---- Chunks: length, name, data, sum ---------------------------------------------------------------------------- */

static bool letters(const uint8_t *name) {
    for (int i = 0; i < 4; i++)
        if ((name[i] | 0x20) < 'a' || (name[i] | 0x20) > 'z') return false;
    return true;
}

/* The next chunk, if it lies whole in the file and has its sum. */
static bool next_chunk(reader *r, chunk *c) {
    size_t left = r->len - r->at;
    if (left == 0) return refuse(r, "the file is cut short: it ends without an end chunk");
    if (left < 12) return refuse(r, "the file is cut short: it ends inside a chunk");
    c->len = big32(r->file + r->at);
    c->name = r->file + r->at + 4;
    c->data = c->name + 4;
    if (!letters(c->name)) return refuse(r, "a chunk has no name: the file is damaged");
    if (c->len > left - 12) return refuse(r, "the file is cut short: it ends inside chunk %.4s", (const char *)c->name);
    if (big32(c->data + c->len) != (uint32_t)~png_crc(~0u, c->name, 4 + (size_t)c->len))
        return refuse(r, "the sum of chunk %.4s is wrong: the file is damaged", (const char *)c->name);
    r->at += 12 + (size_t)c->len;
    return true;
}

static bool depth_fits(unsigned type, unsigned depth) {
    switch (type) {
    case GREY: return depth == 1 || depth == 2 || depth == 4 || depth == 8 || depth == 16;
    case PALETTE: return depth == 1 || depth == 2 || depth == 4 || depth == 8;
    case RGB: case GREY_ALPHA: case RGB_ALPHA: return depth == 8 || depth == 16;
    default: return false;
    }
}

static bool take_header(reader *r, const chunk *c) {
    if (c->len != 13) return refuse(r, "its header has %lu bytes and not 13", (unsigned long)c->len);
    uint32_t width = big32(c->data), height = big32(c->data + 4);
    if (width != PNG_READ_WIDTH || height != PNG_READ_HEIGHT)
        return refuse(r, "it is %lu x %lu, and a screen is 256 x 192", (unsigned long)width, (unsigned long)height);
    r->depth = c->data[8];
    r->type = c->data[9];
    r->interlaced = c->data[12] == 1;
    if (!depth_fits(r->type, r->depth))
        return refuse(r, "its header has colour type %u with depth %u, which PNG does not have", r->type, r->depth);
    if (c->data[10] != 0 || c->data[11] != 0 || c->data[12] > 1)
        return refuse(r, "its header asks for a compression, filter or interlace that PNG does not have");
    return true;
}

static bool take_palette(reader *r, const chunk *c) {
    uint32_t most = r->type == PALETTE ? 3u << r->depth : 768;
    if (r->type == GREY || r->type == GREY_ALPHA) return refuse(r, "it is grey and has a palette");
    if (r->palette != NULL || r->data != NULL) return refuse(r, "its palette stands in the wrong place");
    if (c->len == 0 || c->len % 3 != 0 || c->len > most)
        return refuse(r, "its palette has %lu bytes", (unsigned long)c->len);
    r->palette = c->data;
    r->palette_len = c->len;
    return true;
}

/* Alpha by palette entry, or the one colour that is not there. */
static bool take_transparent(reader *r, const chunk *c) {
    bool fits = (r->type == GREY && c->len == 2) || (r->type == RGB && c->len == 6) ||
                (r->type == PALETTE && c->len <= r->palette_len / 3);
    if (!fits || r->transparent != NULL || r->data != NULL) return refuse(r, "its chunk tRNS does not fit it");
    r->transparent = c->data;
    r->transparent_len = c->len;
    return true;
}

static bool take_data(reader *r, const chunk *c) {
    if (r->type == PALETTE && r->palette == NULL) return refuse(r, "its palette is missing");
    if (r->data_over) return refuse(r, "its data is not in one run of chunks");
    if (r->data == NULL) {
        r->data = c->data;
        r->data_len = c->len;
    }
    return true;
}

static bool take_end(reader *r, const chunk *c) {
    if (c->len != 0) return refuse(r, "its end chunk is not empty");
    if (r->data == NULL) return refuse(r, "it has no picture data");
    r->ended = true;
    return true;
}

/* A chunk that a reader does not know may be passed over if its name starts with a small letter. */
static bool take(reader *r, const chunk *c) {
    if (is(c, "IDAT")) return take_data(r, c);
    r->data_over = r->data != NULL;
    if (is(c, "PLTE")) return take_palette(r, c);
    if (is(c, "tRNS")) return take_transparent(r, c);
    if (is(c, "IEND")) return take_end(r, c);
    return c->name[0] & 0x20 ? true : refuse(r, "chunk %.4s is not known, or twice there", (const char *)c->name);
}

static bool take_chunks(reader *r) {
    chunk c;
    if (!next_chunk(r, &c)) return false;
    if (!is(&c, "IHDR")) return refuse(r, "it does not start with a header");
    if (!take_header(r, &c)) return false;
    while (!r->ended)
        if (!next_chunk(r, &c) || !take(r, &c)) return false;
    return true;
}

/* ---- The data, out of its chunks -------------------------------------------------------------------------------- */

typedef struct { const uint8_t *at; uint32_t left; } run;

/* The next byte of the data's run of chunks. All of them, and the end chunk behind them, were judged. */
static int next_byte(void *from) {
    run *data = from;
    while (data->left == 0) {
        const uint8_t *next = data->at + 4; /* behind the sum */
        if (memcmp(next + 4, "IDAT", 4) != 0) return -1;
        data->left = big32(next);
        data->at = next + 8;
    }
    data->left--;
    return *data->at++;
}

/* An interlaced picture comes as seven, each of every dx-th pixel of every dy-th row; another as one. */
typedef struct { uint8_t x, y, dx, dy; } pass;
static const pass whole[1] = {{0, 0, 1, 1}};
static const pass adam7[7] = {
    {0, 0, 8, 8}, {4, 0, 8, 8}, {0, 4, 4, 8}, {2, 0, 4, 4}, {0, 2, 2, 4}, {1, 0, 2, 2}, {0, 1, 1, 2},
};

enum {
    LONGEST_ROW = 8 * PNG_READ_WIDTH, /* four samples of 16 bits */
    ROWS_OF_PASSES = PNG_READ_HEIGHT * (3 + 2 * 2 + 2 * 4) / 8, /* every 8th three times, every 4th and 2nd twice */
    MOST_DATA = PNG_READ_HEIGHT * LONGEST_ROW + ROWS_OF_PASSES
};

static unsigned bits_a_pixel(const reader *r) {
    static const uint8_t samples[7] = {[GREY] = 1, [RGB] = 3, [PALETTE] = 1, [GREY_ALPHA] = 2, [RGB_ALPHA] = 4};
    return samples[r->type] * r->depth;
}

/* A screen's size can be divided by 8, so no pass is empty and no row ends inside a byte. */
static size_t row_bytes(const reader *r, const pass *p) { return PNG_READ_WIDTH / p->dx * bits_a_pixel(r) / 8; }

static size_t data_bytes(const reader *r, const pass *passes, unsigned count) {
    size_t sum = 0;
    for (unsigned i = 0; i < count; i++) sum += PNG_READ_HEIGHT / passes[i].dy * (1 + row_bytes(r, &passes[i]));
    return sum;
}

/* ---- Filters: what a row's bytes were lessened by, from the bytes to the left, above, and at the corner --------- */

static uint8_t paeth(int left, int above, int corner) {
    int guess = left + above - corner;
    int to_left = guess > left ? guess - left : left - guess, to_above = guess > above ? guess - above : above - guess;
    int to_corner = guess > corner ? guess - corner : corner - guess;
    if (to_left <= to_above && to_left <= to_corner) return (uint8_t)left;
    return (uint8_t)(to_above <= to_corner ? above : corner);
}

static uint8_t foretold(unsigned filter, uint8_t left, uint8_t above, uint8_t corner) {
    switch (filter) {
    case 1: return left;
    case 2: return above;
    case 3: return (uint8_t)((left + above) / 2);
    case 4: return paeth(left, above, corner);
    default: return 0;
    }
}

static void unfilter(unsigned filter, uint8_t *row, const uint8_t *above, size_t n, size_t step) {
    for (size_t i = 0; i < n; i++) {
        uint8_t left = i < step ? 0 : row[i - step], corner = i < step ? 0 : above[i - step];
        row[i] = (uint8_t)(row[i] + foretold(filter, left, above[i], corner));
    }
}

/* ---- Pixels ----------------------------------------------------------------------------------------------------- */

/* Sample number i of a row, in the file's own depth. */
static unsigned sample(const reader *r, const uint8_t *row, size_t i) {
    if (r->depth == 16) return big16(row + 2 * i);
    size_t bit = i * r->depth;
    return row[bit / 8] >> (8 - r->depth - bit % 8) & ((1u << r->depth) - 1);
}

/* The largest sample of a depth divides 65,535. */
static uint16_t full(unsigned value, unsigned depth) { return (uint16_t)(value * (65535 / ((1u << depth) - 1))); }

/* Whether these samples are the one colour that tRNS takes out. */
static bool taken_out(const reader *r, const unsigned *samples, unsigned count) {
    if (r->transparent == NULL) return false;
    for (unsigned i = 0; i < count; i++)
        if (samples[i] != (big16(r->transparent + 2 * i) & ((1u << r->depth) - 1))) return false;
    return true;
}

static png_pixel pixel_of(const reader *r, const uint8_t *row, size_t i) {
    unsigned count = bits_a_pixel(r) / r->depth, s[4];
    uint16_t v[4];
    for (unsigned k = 0; k < count; k++) {
        s[k] = sample(r, row, count * i + k);
        v[k] = full(s[k], r->depth);
    }
    bool grey = count < 3, has_alpha = count % 2 == 0;
    uint16_t alpha = has_alpha ? v[count - 1] : taken_out(r, s, count) ? 0 : 65535;
    png_pixel p = {v[0], grey ? v[0] : v[1], grey ? v[0] : v[2], alpha};
    return p;
}

/* False if the palette has no such entry. */
static bool entry_of(const reader *r, unsigned entry, png_pixel *p) {
    if (entry >= r->palette_len / 3) return false;
    const uint8_t *rgb = r->palette + 3 * entry;
    p->red = full(rgb[0], 8);
    p->green = full(rgb[1], 8);
    p->blue = full(rgb[2], 8);
    p->alpha = entry < r->transparent_len ? full(r->transparent[entry], 8) : 65535;
    return true;
}

static bool row_of(reader *r, const uint8_t *row, const pass *p, unsigned y, png_pixel *out) {
    for (unsigned i = 0; i < PNG_READ_WIDTH / p->dx; i++) {
        unsigned x = p->x + i * p->dx;
        if (r->type != PALETTE) out[x] = pixel_of(r, row, i);
        else if (!entry_of(r, sample(r, row, i), &out[x]))
            return refuse(r, "pixel (%u, %u) has entry %u of a palette of %lu", x, y, sample(r, row, i),
                          (unsigned long)r->palette_len / 3);
    }
    return true;
}

/* The rows of one pass, from `data` on. */
static bool rows_of(reader *r, uint8_t *data, const pass *p, png_pixel out[PNG_READ_HEIGHT][PNG_READ_WIDTH]) {
    static const uint8_t nothing[LONGEST_ROW]; /* above the first row */
    const uint8_t *above = nothing;
    size_t n = row_bytes(r, p), step = (bits_a_pixel(r) + 7) / 8;
    for (unsigned y = p->y; y < PNG_READ_HEIGHT; y += p->dy) {
        unsigned filter = *data++;
        if (filter > 4) return refuse(r, "row %u has filter %u, which PNG does not have", y, filter);
        unfilter(filter, data, above, n, step);
        if (!row_of(r, data, p, y, out[y])) return false;
        above = data;
        data += n;
    }
    return true;
}

bool png_read(const uint8_t *file, size_t len, png_pixel out[PNG_READ_HEIGHT][PNG_READ_WIDTH],
              char why[PNG_WHY_BYTES]) {
    static uint8_t data[MOST_DATA];
    reader r = {.file = file, .len = len, .at = PNG_MARK_BYTES, .why = why};
    if (len < PNG_MARK_BYTES || memcmp(file, png_mark, PNG_MARK_BYTES) != 0) return refuse(&r, "it is no PNG");
    if (!take_chunks(&r)) return false;
    const pass *passes = r.interlaced ? adam7 : whole;
    unsigned count = r.interlaced ? 7 : 1;
    run from = {r.data, r.data_len};
    const char *wrong = inflate(next_byte, &from, data, data_bytes(&r, passes, count));
    if (wrong != NULL) return refuse(&r, "%s", wrong);
    uint8_t *at = data;
    for (unsigned i = 0; i < count; i++) {
        if (!rows_of(&r, at, &passes[i], out)) return false;
        at += PNG_READ_HEIGHT / passes[i].dy * (1 + row_bytes(&r, &passes[i]));
    }
    return true;
}
