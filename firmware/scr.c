/* scr.c: a screen file (SCR) into a PNG picture and back, for artists. Run without words it says what it does.
 *
 * What a screen file shows is the library's to say: a PNG is the still picture of the file as the library loads it, and
 * a file is what the library saves, loaded once more and held to the PNG before a byte of it is written. */
#include <stdbool.h>
#include <stdio.h>
#include <stdlib.h>
#include <string.h>
#include "files.h"
#include "png.h"
#include "png_read.h"
#include "ulb.h"

enum { WIDTH = PNG_READ_WIDTH, HEIGHT = PNG_READ_HEIGHT, ROWS = HEIGHT / 8, COLUMNS = WIDTH / 8, LISTED = 20 };

typedef struct { const char *in, *out; bool flash, over; } words;
typedef uint8_t picture[HEIGHT][WIDTH]; /* a colour number a pixel */

const char program[] = "scr";

static const char *const colour_names[PNG_COLOURS] = {
    "black",        "blue",        "red",        "magenta",        "green",        "cyan",        "yellow",
    "white",        "bright black", "bright blue", "bright red", "bright magenta", "bright green", "bright cyan",
    "bright yellow", "bright white",
};

/* ---- What it says ----------------------------------------------------------------------------------------------- */

static void colour_list(void) {
    for (unsigned i = 0; i < 8; i++) {
        uint8_t plain[3], bright[3];
        png_colour(i, plain);
        png_colour(i + 8, bright);
        printf("    %-8s #%02X%02X%02X    %-15s #%02X%02X%02X\n", colour_names[i], plain[0], plain[1], plain[2],
               colour_names[i + 8], bright[0], bright[1], bright[2]);
    }
}

static void usage(void) {
    puts("scr: turns a ZX Spectrum screen file (SCR) into a PNG picture, and a PNG into a\n"
         "screen file.\n"
         "\n"
         "    scr IN.scr OUT.png            the screen, as a picture of 256 x 192 pixels\n"
         "    scr IN.scr OUT.png --flash    the same with ink and paper of flashing cells\n"
         "                                  exchanged\n"
         "    scr IN.png OUT.scr            the picture, as a screen file of 6,912 bytes\n"
         "\n"
         "What is in IN decides which, not its name. If OUT is there already it is left\n"
         "alone, unless you add --over. For example:\n"
         "\n"
         "    scr title.scr title.png            to look at a screen, or to draw on it\n"
         "    scr title.png title.scr --over     to put the drawing back\n"
         "\n"
         "A PNG for a screen has 256 x 192 opaque pixels of exactly these colours:\n");
    colour_list();
    puts("\nA cell of 8 x 8 pixels holds at most two of them, both bright or neither; black\n"
         "goes with either. Cells that are not so are named by row 0 to 23 and column 0 to\n"
         "31, as PRINT AT has them, and by their pixels, and nothing is written.\n"
         "\n"
         "Paper is the colour that has more of a cell's pixels; if both have 32, the one\n"
         "that stands first in the list (down, then right). A cell of one colour has it as\n"
         "paper, black as ink, and no pixel set. A PNG does not keep which cells flash: in\n"
         "a screen file that is made of one, none does.\n"
         "\n"
         "Exit status: 0 OUT was written; 1 it was not, and a line says why; 2 no words, or\n"
         "wrong ones.");
}

static int refuse_words(const char *what, const char *word) {
    fprintf(stderr, "scr: %s%s; run scr without words to see what it takes\n", what, word);
    return WRONG_WORDS;
}

/* ---- The library: a 48K, whose page 0 is the screen ------------------------------------------------------------- */

static uint8_t state[ULB_STATE_BYTES], ram[ULB_RAM_BYTES_48K];
static uint8_t a[ULB_PICTURE_BYTES], b[ULB_PICTURE_BYTES], border[ULB_BORDER_BYTES]; /* a start clears them */

/* No call is refused that this program makes. If one is, something is broken, and nothing may be written. */
static void must(uint8_t refusal, const char *call) {
    if (refusal == ULB_OK) return;
    refuse(call, "the library refused it with %u; nothing was written", refusal);
    exit(REFUSED);
}

static void start(void) {
    must(ulb_start(state, sizeof state, ram, sizeof ram, a, sizeof a, b, sizeof b, border, sizeof border, ULB_48K),
         "ulb_start");
}

/* What the screen shows of a file. */
static void still(const uint8_t file[ULB_SCREEN_FILE_BYTES], bool flash, picture to) {
    start();
    must(ulb_load_scr(state, sizeof state, ram, sizeof ram, file, ULB_SCREEN_FILE_BYTES, 0), "ulb_load_scr");
    must(ulb_still_picture(state, sizeof state, ram, sizeof ram, to[0], ULB_PICTURE_BYTES, flash), "ulb_still_picture");
}

/* Where a line's bytes start in the screen's page. */
static uint32_t line_start(unsigned y) {
    uint8_t answer[ULB_NUMBER_ANSWER_BYTES];
    must(ulb_bitmap_line_addr(y, answer, sizeof answer), "ulb_bitmap_line_addr");
    return (uint32_t)(answer[1] | answer[2] << 8) - 0x4000; /* page 0 stands at 4000h */
}

/* ---- Files ------------------------------------------------------------------------------------------------------ */

enum { MOST = 16 << 20 }; /* bytes of IN; the picture itself needs 400,000 at the most */
static uint8_t in[MOST + 1];
static size_t in_len;

/* As a screen's first bytes a PNG's mark would be strange: what starts with it is a PNG, even of 6,912 bytes. */
static bool in_is_png(void) { return in_len >= PNG_MARK_BYTES && memcmp(in, png_mark, PNG_MARK_BYTES) == 0; }

/* Whoever swaps the two words must not lose a picture: OUT is not IN, nor named like it, nor there already. */
static int judge_names(const words *w) {
    if (same_file(w->in, w->out)) return refuse(w->out, "IN and OUT are the same file; nothing was written");
    const char *kind = in_is_png() ? "a PNG" : "an SCR file", *other = in_is_png() ? "an SCR file" : "a PNG";
    if (ends_in(w->out, in_is_png() ? ".png" : ".scr"))
        return refuse(w->out, "it is named like %s, and would be %s, since %s is %s: swapped? nothing was written",
                      kind, other, w->in, kind);
    return judge_out(w->out, w->over);
}

/* What is written into OUT: a screen file if `file` is not NULL, else a picture. */
typedef struct { const uint8_t *file; const uint8_t *pixels; } content;

static bool put(FILE *f, const void *what) {
    const content *c = what;
    if (c->file != NULL) return fwrite(c->file, ULB_SCREEN_FILE_BYTES, 1, f) == 1;
    return png_write(f, c->pixels, WIDTH, HEIGHT) == 0;
}

/* ---- SCR to PNG ------------------------------------------------------------------------------------------------- */

static bool cells_differ(picture one, picture other, unsigned row, unsigned column) {
    for (unsigned y = 8 * row; y < 8 * row + 8; y++)
        if (memcmp(&one[y][8 * column], &other[y][8 * column], 8) != 0) return true;
    return false;
}

static unsigned flashing_cells(picture one, picture other) {
    unsigned count = 0;
    for (unsigned row = 0; row < ROWS; row++)
        for (unsigned column = 0; column < COLUMNS; column++) count += cells_differ(one, other, row, column);
    return count;
}

/* Bright black is black: so that pictures which look the same are the same file. */
static void one_black(picture p) {
    for (unsigned i = 0; i < HEIGHT * WIDTH; i++)
        if (p[i / WIDTH][i % WIDTH] == 8) p[i / WIDTH][i % WIDTH] = 0;
}

static int scr_to_png(const words *w) {
    static picture shown, exchanged;
    if (in_len != ULB_SCREEN_FILE_BYTES)
        return refuse(w->in, "it has %lu bytes: no SCR file, which has 6912, and no PNG either; nothing was written",
                      (unsigned long)in_len);
    int status = judge_names(w);
    if (status != DONE) return status;
    still(in, w->flash, shown);
    still(in, !w->flash, exchanged);
    one_black(shown);
    one_black(exchanged);
    content c = {NULL, shown[0]};
    status = write_file(w->out, put, &c);
    if (status != DONE) return status;
    printf("%s: written, the screen of %s as 256 x 192 pixels\n", w->out, w->in);
    unsigned flashing = flashing_cells(shown, exchanged);
    if (flashing != 0)
        printf("%s: cells that flash: %u, here with ink and paper %s; a PNG does not keep that they flash\n", w->out,
               flashing, w->flash ? "exchanged" : "as they are (--flash exchanges them)");
    return DONE;
}

/* ---- PNG to SCR: each pixel's colour ---------------------------------------------------------------------------- */

enum { NO_COLOUR = 0xFF };
static png_pixel pixels[HEIGHT][WIDTH];

/* How far a pixel is from a colour: the sum of the squares over red, green and blue, 0 if it is that colour exactly. */
static uint64_t distance(const png_pixel *p, unsigned number) {
    uint8_t rgb[3];
    png_colour(number, rgb);
    int64_t red = p->red - 257 * rgb[0], green = p->green - 257 * rgb[1], blue = p->blue - 257 * rgb[2];
    return (uint64_t)(red * red + green * green + blue * blue);
}

/* The first of the nearest; so black is 0, never 8. */
static unsigned nearest(const png_pixel *p) {
    unsigned best = 0;
    uint64_t least = distance(p, 0);
    for (unsigned i = 1; i < PNG_COLOURS && least != 0; i++) {
        uint64_t here = distance(p, i);
        if (here >= least) continue;
        best = i;
        least = here;
    }
    return best;
}

static bool same_colour(const png_pixel *p, const png_pixel *q) {
    return p->red == q->red && p->green == q->green && p->blue == q->blue;
}

/* Pixels that a screen cannot have, by their colour: the first of each, and how many there are. */
typedef struct { unsigned x, y, count; } oddity;
static struct { oddity at[LISTED], transparent; unsigned kinds, others; } odd;

static void note_odd(unsigned x, unsigned y) {
    for (unsigned i = 0; i < odd.kinds; i++) {
        if (!same_colour(&pixels[y][x], &pixels[odd.at[i].y][odd.at[i].x])) continue;
        odd.at[i].count++;
        return;
    }
    if (odd.kinds == LISTED) {
        odd.others++;
        return;
    }
    oddity first = {x, y, 1};
    odd.at[odd.kinds++] = first;
}

static void note_transparent(unsigned x, unsigned y) {
    if (odd.transparent.count++ != 0) return;
    odd.transparent.x = x;
    odd.transparent.y = y;
}

static uint8_t colour_at(unsigned x, unsigned y) {
    const png_pixel *p = &pixels[y][x];
    unsigned number = nearest(p);
    if (p->alpha != 65535) note_transparent(x, y);
    else if (distance(p, number) != 0) note_odd(x, y);
    else return (uint8_t)number;
    return NO_COLOUR;
}

/* #RRGGBB, or with four digits each where two do not tell it. */
static void print_colour(const png_pixel *p) {
    bool bytes = p->red % 257 == 0 && p->green % 257 == 0 && p->blue % 257 == 0;
    int digits = bytes ? 2 : 4;
    unsigned per = bytes ? 257 : 1;
    fprintf(stderr, "#%0*X%0*X%0*X", digits, p->red / per, digits, p->green / per, digits, p->blue / per);
}

static void print_pixel(const words *w, const oddity *o) {
    fprintf(stderr, "scr: %s: ", w->in);
    if (o->count > 1) fprintf(stderr, "%u pixels, the first of them ", o->count);
    fprintf(stderr, "pixel (%u, %u) ", o->x, o->y);
}

static void print_odd(const words *w, const oddity *o) {
    const png_pixel *p = &pixels[o->y][o->x];
    uint8_t rgb[3];
    png_colour(nearest(p), rgb);
    print_pixel(w, o);
    fputs("has ", stderr);
    print_colour(p);
    fprintf(stderr, ", none of the sixteen colours; the nearest is %s #%02X%02X%02X\n", colour_names[nearest(p)],
            rgb[0], rgb[1], rgb[2]);
}

/* True if every pixel has a colour; else all that have none are told. */
static bool find_colours(const words *w, picture colours) {
    for (unsigned y = 0; y < HEIGHT; y++)
        for (unsigned x = 0; x < WIDTH; x++) colours[y][x] = colour_at(x, y);
    if (odd.transparent.count != 0) {
        print_pixel(w, &odd.transparent);
        fputs("is transparent, which a screen cannot show: fill what lies behind\n", stderr);
    }
    for (unsigned i = 0; i < odd.kinds; i++) print_odd(w, &odd.at[i]);
    if (odd.others != 0) refuse(w->in, "and %u more pixels of yet other colours", odd.others);
    return odd.transparent.count == 0 && odd.kinds == 0;
}

/* ---- PNG to SCR: each cell's ink and paper ---------------------------------------------------------------------- */

typedef struct {
    unsigned row, column;
    unsigned of[PNG_COLOURS];            /* how many pixels have each colour */
    unsigned found, colour[PNG_COLOURS]; /* the colours that some have, lowest number first */
} cell;

static cell look_at(picture colours, unsigned row, unsigned column) {
    cell c = {.row = row, .column = column};
    for (unsigned i = 0; i < 64; i++) {
        uint8_t colour = colours[8 * row + i / 8][8 * column + i % 8];
        if (colour != NO_COLOUR) c.of[colour]++;
    }
    for (unsigned i = 0; i < PNG_COLOURS; i++)
        if (c.of[i] != 0) c.colour[c.found++] = i;
    return c;
}

/* Two colours other than black, one bright and one not: an attribute has one bit for both. */
static bool clash(const cell *c) { return c->found == 2 && c->colour[0] != 0 && (c->colour[0] ^ c->colour[1]) & 8; }

static void print_cell(const words *w, const cell *c) {
    fprintf(stderr, "scr: %s: cell row %u, column %u (pixels %u..%u across, %u..%u down) has ", w->in, c->row,
            c->column, 8 * c->column, 8 * c->column + 7, 8 * c->row, 8 * c->row + 7);
    if (c->found > 2) fprintf(stderr, "%u colours, and room for two: ", c->found);
    for (unsigned i = 0; i < c->found; i++)
        fprintf(stderr, "%s%s", i == 0 ? "" : c->found == 2 ? " and " : ", ", colour_names[c->colour[i]]);
    fputs(c->found == 2 ? ": both of a cell are bright, or neither\n" : "\n", stderr);
}

/* True if every cell can be held by an attribute; else those that cannot are told. */
static bool judge_cells(const words *w, picture colours) {
    unsigned bad = 0;
    for (unsigned i = 0; i < ROWS * COLUMNS; i++) {
        cell c = look_at(colours, i / COLUMNS, i % COLUMNS);
        if (c.found <= 2 && !clash(&c)) continue;
        if (bad++ < LISTED) print_cell(w, &c);
    }
    if (bad > LISTED) refuse(w->in, "and %u more cells", bad - LISTED);
    return bad == 0;
}

/* A good cell's bytes: eight of the bitmap and the attribute. */
static void put_cell(uint8_t page[ULB_PAGE_BYTES], picture colours, const cell *c) {
    unsigned paper = c->colour[0], ink = c->found == 2 ? c->colour[1] : 0;
    if (c->found == 2 && c->of[ink] > c->of[paper]) {
        paper = c->colour[1];
        ink = c->colour[0];
    }
    for (unsigned y = 8 * c->row; y < 8 * c->row + 8; y++) {
        unsigned bits = 0;
        for (unsigned x = 8 * c->column; x < 8 * c->column + 8; x++) bits = 2 * bits + (colours[y][x] != paper);
        page[line_start(y) + c->column] = (uint8_t)bits;
    }
    page[0x1800 + COLUMNS * c->row + c->column] = (uint8_t)(((ink | paper) & 8) << 3 | (paper & 7) << 3 | (ink & 7));
}

static void make_file(picture colours, uint8_t file[ULB_SCREEN_FILE_BYTES]) {
    static uint8_t page[ULB_PAGE_BYTES];
    for (unsigned i = 0; i < ROWS * COLUMNS; i++) {
        cell c = look_at(colours, i / COLUMNS, i % COLUMNS);
        put_cell(page, colours, &c);
    }
    start();
    must(ulb_load_page(state, sizeof state, ram, sizeof ram, page, sizeof page, 0), "ulb_load_page");
    must(ulb_save_scr(state, sizeof state, ram, sizeof ram, file, ULB_SCREEN_FILE_BYTES), "ulb_save_scr");
}

/* The file is loaded into a fresh machine, and its still picture must have the PNG's colours. */
static int check_file(const words *w, const uint8_t file[ULB_SCREEN_FILE_BYTES]) {
    static picture shown;
    still(file, false, shown);
    for (unsigned y = 0; y < HEIGHT; y++)
        for (unsigned x = 0; x < WIDTH; x++)
            if (distance(&pixels[y][x], shown[y][x]) != 0)
                return refuse(w->out, "pixel (%u, %u) of %s would show as %s: scr is broken, and nothing was written",
                              x, y, w->in, colour_names[shown[y][x] % PNG_COLOURS]);
    return DONE;
}

static int png_to_scr(const words *w) {
    static picture colours;
    static uint8_t file[ULB_SCREEN_FILE_BYTES];
    char why[PNG_WHY_BYTES];
    if (w->flash) return refuse(w->in, "it is a PNG, and --flash is for an SCR file");
    int status = judge_names(w);
    if (status != DONE) return status;
    if (!png_read(in, in_len, pixels, why)) return refuse(w->in, "%s; nothing was written", why);
    bool coloured = find_colours(w, colours), fits = judge_cells(w, colours);
    if (!coloured || !fits) return refuse(w->out, "nothing was written");
    make_file(colours, file);
    status = check_file(w, file);
    if (status != DONE) return status;
    content c = {file, NULL};
    status = write_file(w->out, put, &c);
    if (status == DONE) printf("%s: written, 6912 bytes that show every pixel of %s\n", w->out, w->in);
    return status;
}

/* ---- Its words -------------------------------------------------------------------------------------------------- */

int main(int argc, char **argv) {
    words w = {NULL, NULL, false, false};
    if (argc < 2) {
        usage();
        return WRONG_WORDS;
    }
    for (int i = 1; i < argc; i++) {
        if (strcmp(argv[i], "--help") == 0 || strcmp(argv[i], "-h") == 0) {
            usage();
            return DONE;
        }
        if (strcmp(argv[i], "--flash") == 0) w.flash = true;
        else if (strcmp(argv[i], "--over") == 0) w.over = true;
        else if (argv[i][0] == '-') return refuse_words("unknown word ", argv[i]);
        else if (w.in == NULL) w.in = argv[i];
        else if (w.out == NULL) w.out = argv[i];
        else return refuse_words("one word too many: ", argv[i]);
    }
    if (w.out == NULL) return refuse_words("two names are needed, IN and OUT", "");
    int status = read_file(w.in, in, MOST, &in_len);
    if (status != DONE) return status;
    return in_is_png() ? png_to_scr(&w) : scr_to_png(&w);
}
