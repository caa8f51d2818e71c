/* png.h: writes colour numbers 0..15 as a PNG file, and has what a reader of such files needs too; no dependency. */
#ifndef PNG_H
#define PNG_H

#include <stddef.h>
#include <stdint.h>
#include <stdio.h>

enum { PNG_COLOURS = 16, PNG_MARK_BYTES = 8 };

/* What every PNG file starts with. */
extern const uint8_t png_mark[PNG_MARK_BYTES];

/* Red, green and blue of a colour number: bit 0 blue, bit 1 red, bit 2 green, bit 3 bright. 0 and 8 are both black. */
void png_colour(unsigned number, uint8_t rgb[3]);

/* The two sums of the format, over one more run of bytes. A chunk's starts at ~0 and is turned over at its end; that of
 * the picture's data starts at 1. */
uint32_t png_crc(uint32_t sum, const uint8_t *p, size_t n);
uint32_t png_adler(uint32_t sum, const uint8_t *p, size_t n);

/* A picture of width x height colour numbers, row by row. 0 if all was handed to the file, else -1 (errno says why);
 * the caller closes it, and must look at that answer too. */
int png_write(FILE *f, const uint8_t *pixels, uint32_t width, uint32_t height);

#endif
