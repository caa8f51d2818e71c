/* files.h: what a program does with the files that it is given by name. One is read whole. One is written beside its
 * place and then put there, so that what was there is lost to a whole file only. What goes wrong is said in one line on
 * the error output. */
#ifndef FILES_H
#define FILES_H

#include <stdbool.h>
#include <stddef.h>
#include <stdint.h>
#include <stdio.h>

enum { DONE = 0, REFUSED = 1, WRONG_WORDS = 2 }; /* exit statuses */

/* What such a line starts with: each program has its own name here. */
extern const char program[];

/* The line: the program, the file's name, and why. Gives REFUSED. */
int refuse(const char *name, const char *form, ...);

bool ends_in(const char *name, const char *ending); /* in capitals or not */
bool same_file(const char *one, const char *other); /* by another name too */

/* All bytes of a file of `most` bytes at the most into `to`, which has room for one more. */
int read_file(const char *path, uint8_t *to, size_t most, size_t *len);

/* Whether OUT may be written: it is not there, or is a file that may be written and `over` was asked for. */
int judge_out(const char *out, bool over);

/* Writes OUT by `put`, which gives false, with errno set, if a write failed: then what was there is still there. */
int write_file(const char *out, bool (*put)(FILE *f, const void *content), const void *content);

#endif
