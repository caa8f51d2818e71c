/* lending.h: slices between pages that nobody may touch, and the 29 calls of ulb.h by the slices that they are lent.
 * What the tests and the fuzz program share. A sanitizer watches only the C that it compiled; these pages watch the
 * archive. */
#ifndef LENDING_H
#define LENDING_H

#include "reading.h"

enum { GUARD = 4096 };

/* `size` bytes of whole pages between guard pages, seen twice: to be written, and to be read only. */
typedef struct { uint8_t *rw, *ro; size_t size; } zone;

/* A zone of at least so many bytes, all 0; ends the program if there is none to be had, or pages are not of GUARD bytes. */
zone make_zone(size_t bytes);

/* Calls `report` where a guard page is touched or a read-only view is written, and ends the program with status 1. */
void on_fault(void (*report)(const void *where));

/* Makes the call, with a pointer for each slice; those that it is not lent are not looked at. */
uint8_t make_call(const call *c, uint8_t *p[SLICES]);

extern const char *const slice_names[SLICES];

#endif
