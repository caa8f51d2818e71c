/* first_frame.c: the first frame after a start, as a capture bench stores it. Words: `plain`, or the colour of a start
 * with a colour; and the PNG to write. The picture is a test card; the border has the start's colour until the first
 * border write, in mid-frame, and stripes behind it. firmware/tests/run holds what is written to its stored pictures;
 * the program itself counts the border's pixels, by document 01's border position. */
#include <stdio.h>
#include <stdlib.h>
#include <string.h>
#include "png.h"
#include "ulb_machine.h"

enum { WIDTH = 320, HEIGHT = 240 };
enum { FIRST_WRITE = 30000, APART = 613, LAST_WRITE = 60000 }; /* clocks: in line 94 of the window, stripes of 2.7 lines */
static ulb_machine m;
static uint8_t shown[HEIGHT][WIDTH];

static void stop(const char *what) {
    printf("first_frame: %s\n", what);
    exit(1);
}

static ulb_timed taken(ulb_timed t) {
    if (t.refusal != ULB_OK) stop(ulb_refusal_text(t.refusal));
    return t;
}

/* Eight papers across, bright below the middle; in each cell an arrow of ink. */
static void draw_card(void) {
    static const uint8_t arrow[8] = {0x00, 0x10, 0x38, 0x7C, 0x10, 0x10, 0x10, 0x00};
    for (uint32_t line = 0; line < 192; line++) {
        uint32_t addr = ulb_number_of(ulb_bitmap_line_addr, line).number;
        for (uint32_t column = 0; column < 32; column++) {
            ulb_machine_write(&m, (uint16_t)(addr + column), arrow[line % 8]);
            uint8_t paper = (uint8_t)(column / 4), bright = line < 96 ? 0 : 0x40;
            ulb_machine_write(&m, (uint16_t)(0x5800 + 32 * (line / 8) + column), (uint8_t)(bright | paper << 3 | (7 - paper)));
        }
    }
}

/* From the first write on a stripe of each of the colours 1 to 6, which are no start's here; to the frame's end. */
static void run_frame(void) {
    uint8_t colour = 0;
    for (uint32_t clock = FIRST_WRITE; clock < LAST_WRITE; clock += APART) {
        taken(ulb_machine_wait(&m, clock - 1 - ulb_machine_frame_clock(&m))); /* a write acts 1 clock into its call */
        colour = (uint8_t)(colour % 6 + 1);
        if (taken(ulb_machine_write_io(&m, 0x00FE, colour)).value != ULB_WROTE_BORDER) stop("a border write was none");
    }
    if (!taken(ulb_machine_wait(&m, ulb_machine_frame_length(&m) - ulb_machine_frame_clock(&m))).closed) stop("no frame");
}

/* Pixels of the window that the beam has passed at a clock within it (document 01, "Border position", 48K). */
static unsigned passed(uint32_t clock) {
    uint32_t c = clock - 8945, line = c / 224, pixel = 2 * (c % 224 + 1);
    return pixel > WIDTH ? WIDTH * (line + 1) : WIDTH * line + pixel;
}

int main(int argc, char **argv) {
    static const uint8_t rom[ULB_ROM_BYTES_48K];
    if (argc != 3) stop("words: plain or a colour 0..7, and the PNG to write");
    int plain = strcmp(argv[1], "plain") == 0;
    uint32_t colour = plain ? 0 : (uint32_t)atoi(argv[1]);
    uint8_t refusal = plain ? ulb_machine_init(&m, ULB_48K, rom, sizeof rom)
                            : ulb_machine_init_colour(&m, ULB_48K, rom, sizeof rom, colour);
    if (refusal != ULB_OK) stop(ulb_refusal_text(refusal));
    draw_card();
    run_frame();

    unsigned before = passed(FIRST_WRITE), own = 0, wrong = 0;
    for (unsigned i = 0; i < ULB_BORDER_BYTES; i++) {
        own += m.border[i] == colour;
        wrong += (m.border[i] == colour) != (i < before);
    }
    if (wrong != 0) stop("the start's colour shows elsewhere than up to the first border write");
    memcpy(shown, m.border, sizeof shown);
    const uint8_t *picture = ulb_machine_shown_picture(&m).bytes;
    for (int y = 0; y < 192; y++) memcpy(&shown[24 + y][32], picture + 256 * y, 256);
    FILE *f = fopen(argv[2], "wb");
    if (f == NULL || png_write(f, shown[0], WIDTH, HEIGHT) != 0 || fclose(f) != 0) stop("the PNG could not be written");
    printf("first_frame: %s: %u of %u border pixels in colour %u, all up to the first write\n", argv[1], own,
           (unsigned)ULB_BORDER_BYTES, (unsigned)colour);
    return 0;
}
