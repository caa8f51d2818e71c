/* files.c: see files.h. */
#define _XOPEN_SOURCE 700 /* realpath, stat, access */
#include "files.h"
#include <errno.h>
#include <limits.h>
#include <stdarg.h>
#include <stdlib.h>
#include <string.h>
#include <strings.h>
#include <sys/stat.h>
#include <unistd.h>

int refuse(const char *name, const char *form, ...) {
    va_list words;
    va_start(words, form);
    fprintf(stderr, "%s: %s: ", program, name);
    vfprintf(stderr, form, words);
    fputc('\n', stderr);
    va_end(words);
    return REFUSED;
}

bool ends_in(const char *name, const char *ending) {
    size_t n = strlen(name), k = strlen(ending);
    return n >= k && strcasecmp(name + n - k, ending) == 0;
}

bool same_file(const char *one, const char *other) {
    struct stat a, b;
    return stat(one, &a) == 0 && stat(other, &b) == 0 && a.st_dev == b.st_dev && a.st_ino == b.st_ino;
}

int read_file(const char *path, uint8_t *to, size_t most, size_t *len) {
    FILE *f = fopen(path, "rb");
    if (f == NULL) return refuse(path, "%s", strerror(errno));
    *len = fread(to, 1, most + 1, f);
    int failed = ferror(f) ? errno : 0;
    fclose(f);
    if (failed) return refuse(path, "%s", strerror(failed));
    return *len > most ? refuse(path, "it has more than %lu MiB, and is not read", (unsigned long)(most >> 20)) : DONE;
}

int judge_out(const char *out, bool over) {
    struct stat there;
    if (stat(out, &there) != 0) return DONE; /* if it cannot be asked for another reason, the write says so */
    if (!S_ISREG(there.st_mode)) return refuse(out, "it is there already, and is no file; nothing was written");
    if (!over) return refuse(out, "it is there already, and was left alone: add --over to write over it");
    return access(out, W_OK) == 0 ? DONE : refuse(out, "%s; nothing was written", strerror(errno));
}

int write_file(const char *out, bool (*put)(FILE *f, const void *content), const void *content) {
    static char real[PATH_MAX], beside[PATH_MAX + 32];
    const char *path = realpath(out, real) != NULL ? real : out; /* behind a link, the file that it stands for */
    snprintf(beside, sizeof beside, "%s.%ld.new", path, (long)getpid());
    FILE *f = fopen(beside, "wbx");
    if (f == NULL) return refuse(out, "%s; nothing was written", strerror(errno));
    bool written = put(f, content);
    int failed = errno;
    if (fclose(f) != 0 && written) {
        written = false;
        failed = errno;
    }
    if (written && rename(beside, path) == 0) return DONE;
    if (written) failed = errno;
    remove(beside);
    return refuse(out, "%s; nothing was written", strerror(failed));
}
