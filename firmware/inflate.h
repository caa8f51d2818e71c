/* inflate.h: what a zlib stream holds (RFC 1950, 1951): blocks stored, fixed and dynamic; no dependency. */
#ifndef INFLATE_H
#define INFLATE_H

#include <stddef.h>
#include <stdint.h>

/* The stream's next byte, or -1 if it has no more. */
typedef int inflate_next(void *from);

/* NULL if the stream is whole, its sum right and what it holds exactly `len` bytes, which are then in `out`; else what
 * is wrong with it, in words. Of a wrong stream `out` may hold a part. No byte is asked for behind the stream's sum. */
const char *inflate(inflate_next *next, void *from, uint8_t *out, size_t len);

#endif
