/* png.c: a PNG of 16 palette colours. The data is stored, not compressed: a zlib stream of stored deflate blocks. */
#include "png.h"

const uint8_t png_mark[PNG_MARK_BYTES] = {0x89, 'P', 'N', 'G', '\r', '\n', 0x1A, '\n'};

void png_colour(unsigned number, uint8_t rgb[3]) {
    uint8_t on = number & 8 ? 0xFF : 0xCD;
    rgb[0] = number & 2 ? on : 0;
    rgb[1] = number & 4 ? on : 0;
    rgb[2] = number & 1 ? on : 0;
}

uint32_t png_crc(uint32_t sum, const uint8_t *p, size_t n) {
    while (n--) {
        sum ^= *p++;
        for (int bit = 0; bit < 8; bit++) sum = sum & 1 ? sum >> 1 ^ 0xEDB88320u : sum >> 1;
    }
    return sum;
}

uint32_t png_adler(uint32_t sum, const uint8_t *p, size_t n) {
    uint32_t a = sum & 0xFFFF, b = sum >> 16;
    while (n--) {
        a = (a + *p++) % 65521;
        b = (b + a) % 65521;
    }
    return b << 16 | a;
}

/* Where the bytes go: each counts for the sum of the chunk that is being written. Once a write failed none is tried. */
typedef struct { FILE *f; uint32_t sum; int failed; } sink;

static void put(sink *to, const uint8_t *p, size_t n) {
    to->sum = png_crc(to->sum, p, n);
    if (n != 0 && !to->failed) to->failed = fwrite(p, n, 1, to->f) != 1;
}

static void big32(uint8_t *p, uint32_t v) {
    for (int i = 0; i < 4; i++) p[i] = (uint8_t)(v >> (24 - 8 * i));
}

static void put32(sink *to, uint32_t v) {
    uint8_t p[4];
    big32(p, v);
    put(to, p, sizeof p);
}

/* A chunk: length, name, data, and the sum over name and data. */
static void open_chunk(sink *to, const char *name, uint32_t n) {
    put32(to, n);
    to->sum = ~0u;
    put(to, (const uint8_t *)name, 4);
}

static void close_chunk(sink *to) { put32(to, ~to->sum); }

static void chunk(sink *to, const char *name, const uint8_t *data, uint32_t n) {
    open_chunk(to, name, n);
    put(to, data, n);
    close_chunk(to);
}

static void header(sink *to, uint32_t width, uint32_t height) {
    uint8_t data[13] = {0};
    big32(data, width);
    big32(data + 4, height);
    data[8] = 8; /* bits a pixel */
    data[9] = 3; /* palette */
    chunk(to, "IHDR", data, sizeof data);
}

static void palette(sink *to) {
    uint8_t data[3 * PNG_COLOURS];
    for (unsigned i = 0; i < PNG_COLOURS; i++) png_colour(i, data + 3 * i);
    chunk(to, "PLTE", data, sizeof data);
}

enum { STORED = 65535 }; /* bytes that a stored block has at the most */

static void open_block(sink *to, uint32_t left) {
    uint32_t n = left < STORED ? left : STORED;
    uint8_t head[5] = {left == n, (uint8_t)n, (uint8_t)(n >> 8), (uint8_t)~n, (uint8_t)(~n >> 8)};
    put(to, head, sizeof head);
}

/* The zlib stream: two bytes of header, stored blocks, the sum of what they hold: of each row no filter, then a byte a
 * pixel. */
static void data(sink *to, const uint8_t *pixels, uint32_t width, uint32_t height) {
    static const uint8_t head[2] = {0x78, 0x01};
    uint32_t row = width + 1, all = row * height, sum = 1;
    open_chunk(to, "IDAT", 2 + (all + STORED - 1) / STORED * 5 + all + 4);
    put(to, head, sizeof head);
    for (uint32_t at = 0; at < all; at++) {
        uint8_t byte = at % row == 0 ? 0 : *pixels++;
        if (at % STORED == 0) open_block(to, all - at);
        put(to, &byte, 1);
        sum = png_adler(sum, &byte, 1);
    }
    put32(to, sum);
    close_chunk(to);
}

int png_write(FILE *f, const uint8_t *pixels, uint32_t width, uint32_t height) {
    sink to = {f, 0, 0};
    put(&to, png_mark, sizeof png_mark);
    header(&to, width, height);
    palette(&to);
    data(&to, pixels, width, height);
    chunk(&to, "IEND", NULL, 0);
    return to.failed ? -1 : 0;
}
