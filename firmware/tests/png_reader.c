/* png_reader.c: what firmware/png_read.c says of PNG files, for firmware/tests/scr. It needs no archive, so it is built
 * for the machine that it runs on, with the sanitizers.
 *   png_reader FILE..                       a line a file: `read`, width and height in pixels, and the sum of its
 *                                           samples; or what is wrong
 *   png_reader --spoil ROUNDS SEED FILE..   each file cut at every length, which has to be refused, and then ROUNDS
 *                                           files with something changed, most with their sums put right again
 * A file's bytes end at a page that cannot be read: whoever reads on is ended by a fault. */
#define _DEFAULT_SOURCE /* MAP_ANONYMOUS */
#include <stdio.h>
#include <stdlib.h>
#include <string.h>
#include <sys/mman.h>
#include <unistd.h>
#include "png.h"
#include "png_read.h"

enum { ROOM = 1 << 20, FILES = 256 };
static uint8_t *room_end; /* the page that cannot be read starts here */
static uint8_t kept[FILES][ROOM / 2];
static size_t kept_len[FILES];
static png_pixel pixels[PNG_READ_HEIGHT][PNG_READ_WIDTH];
static char why[PNG_WHY_BYTES];

static void stop(const char *what, const char *name) {
    printf("png_reader: %s: %s\n", name, what);
    exit(1);
}

static void make_room(void) {
    size_t page = (size_t)sysconf(_SC_PAGESIZE);
    uint8_t *room = mmap(NULL, ROOM + page, PROT_READ | PROT_WRITE, MAP_PRIVATE | MAP_ANONYMOUS, -1, 0);
    if (room == MAP_FAILED || mprotect(room + ROOM, page, PROT_NONE) != 0) stop("no memory", "room");
    room_end = room + ROOM;
}

static void keep(int number, const char *path) {
    FILE *f = fopen(path, "rb");
    if (f == NULL) stop("cannot be opened", path);
    kept_len[number] = fread(kept[number], 1, sizeof kept[number], f);
    fclose(f);
}

/* The reader on bytes that end at the page's edge; what it says has to be a text. */
static bool reads(const uint8_t *bytes, size_t len) {
    memset(why, 'x', sizeof why);
    memmove(room_end - len, bytes, len);
    bool read = png_read(room_end - len, len, pixels, why);
    if (!read && (memchr(why, 0, sizeof why) == NULL || why[0] == 0)) stop("refused without a word", "a file");
    return read;
}

/* Over the samples of all pixels, each as two bytes, the high one first. */
static uint32_t pixel_sum(void) {
    uint32_t sum = ~0u;
    for (unsigned i = 0; i < PNG_READ_HEIGHT * PNG_READ_WIDTH; i++) {
        const png_pixel *p = &pixels[i / PNG_READ_WIDTH][i % PNG_READ_WIDTH];
        uint16_t samples[4] = {p->red, p->green, p->blue, p->alpha};
        for (int k = 0; k < 4; k++) {
            uint8_t bytes[2] = {(uint8_t)(samples[k] >> 8), (uint8_t)samples[k]};
            sum = png_crc(sum, bytes, 2);
        }
    }
    return ~sum;
}

static void tell(const char *path) {
    keep(0, path);
    if (!reads(kept[0], kept_len[0])) printf("%s\n", why);
    else printf("read %u x %u %08lX\n", PNG_READ_WIDTH, PNG_READ_HEIGHT, (unsigned long)pixel_sum());
}

/* ---- Spoilt files ------------------------------------------------------------------------------------------------ */

static uint64_t dice;
static uint32_t roll(uint32_t sides) {
    dice = dice * 6364136223846793005u + 1442695040888963407u;
    return (uint32_t)(dice >> 33) % sides;
}

/* The sums of all chunks, as far as their lengths lead: without that hardly a change would come past them. */
static void put_sums_right(uint8_t *bytes, size_t len) {
    for (size_t at = PNG_MARK_BYTES; len - at >= 12;) {
        size_t n = (size_t)bytes[at] << 24 | (size_t)bytes[at + 1] << 16 | (size_t)bytes[at + 2] << 8 | bytes[at + 3];
        if (n > len - at - 12) return;
        uint32_t sum = ~png_crc(~0u, bytes + at + 4, n + 4);
        for (int i = 0; i < 4; i++) bytes[at + 8 + n + (size_t)i] = (uint8_t)(sum >> (24 - 8 * i));
        at += n + 12;
    }
}

static size_t spoil(uint8_t *bytes, size_t len) {
    static const uint8_t edges[8] = {0, 1, 2, 3, 0x7F, 0x80, 0xFE, 0xFF};
    size_t near = roll(2) ? len : len < 200 ? len : 200; /* headers and code tables stand near the start */
    size_t at = PNG_MARK_BYTES + roll((uint32_t)(near - PNG_MARK_BYTES)), n = 1 + roll(24);
    if (n > len - at) n = len - at;
    switch (roll(6)) {
    case 0: bytes[at] ^= (uint8_t)(1u << roll(8)); break;
    case 1: bytes[at] = edges[roll(8)]; break;
    case 2: bytes[at] = (uint8_t)roll(256); break;
    case 3: for (size_t i = 0; i < n; i++) bytes[at + i] = (uint8_t)roll(256); break;
    case 4: memmove(bytes + at, bytes + at + n, len - at - n); return len - n; /* n bytes less */
    default: memmove(bytes + at + n, bytes + at, len - at); return len + n;    /* n bytes twice */
    }
    return len;
}

static void cut_everywhere(int number, const char *name) {
    for (size_t len = 0; len < kept_len[number]; len++)
        if (reads(kept[number], len)) stop("a part of it was read as a whole", name);
}

static void spoil_round(int number, unsigned long *read) {
    static uint8_t bytes[ROOM];
    size_t len = kept_len[number];
    memcpy(bytes, kept[number], len);
    for (uint32_t changes = 1 + roll(4); changes > 0 && len > PNG_MARK_BYTES + 24; changes--) len = spoil(bytes, len);
    if (roll(8) != 0) put_sums_right(bytes, len);
    *read += reads(bytes, len);
}

int main(int argc, char **argv) {
    make_room();
    if (argc < 2 || strcmp(argv[1], "--spoil") != 0) {
        for (int i = 1; i < argc; i++) tell(argv[i]);
        return 0;
    }
    if (argc < 5 || argc - 4 > FILES) stop("wants ROUNDS, SEED and up to 256 files", "--spoil");
    unsigned long rounds = strtoul(argv[2], NULL, 10), cuts = 0, read = 0;
    dice = strtoul(argv[3], NULL, 10);
    for (int i = 0; i < argc - 4; i++) {
        keep(i, argv[4 + i]);
        if (!reads(kept[i], kept_len[i])) stop(why, argv[4 + i]);
        cut_everywhere(i, argv[4 + i]);
        cuts += kept_len[i];
    }
    for (unsigned long i = 0; i < rounds; i++) spoil_round((int)roll((uint32_t)(argc - 4)), &read);
    printf("%lu cut files, all refused; %lu spoilt ones, %lu of them refused\n", cuts, rounds, rounds - read);
    return 0;
}
