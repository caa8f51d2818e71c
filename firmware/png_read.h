/* png_read.h: reads a PNG of a screen's size: every colour type, depth and filter, interlaced or not; no dependency. */
#ifndef PNG_READ_H
#define PNG_READ_H

#include <stdbool.h>
#include <stddef.h>
#include <stdint.h>

/* One size only, so that every buffer has a fixed length, and no file can ask for more. */
enum { PNG_READ_WIDTH = 256, PNG_READ_HEIGHT = 192, PNG_WHY_BYTES = 160 };

/* 0 to 65,535 whatever the file's depth: a byte of v is 257 x v. An alpha of 65,535 is opaque. */
typedef struct { uint16_t red, green, blue, alpha; } png_pixel;

/* True if the file is a sound PNG of that size: its pixels are then in `out`. Else false, and `why` says what is wrong.
 * The file may be any bytes: none is read behind `len`. Colour profiles and gamma are not looked at: samples count as
 * they stand. What follows the data's own sum, or the end chunk, is no part of the picture, and is not read. */
bool png_read(const uint8_t *file, size_t len, png_pixel out[PNG_READ_HEIGHT][PNG_READ_WIDTH], char why[PNG_WHY_BYTES]);

#endif
