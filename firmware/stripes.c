/* stripes.c: the model main loop. It plays a tape loader on a 48K for four frames: border stripes, a picture that loads
 * while the beam runs, and a title whose attributes change from line to line; the last call of the fourth frame runs far
 * over the frame's end. It writes that finished frame to stripes.png and then checks what the bus reported.
 *
 * A port of an emulator has the same shape: a processor makes timed calls (here `loader_turn` and `colour_line`); after
 * each of them `after` looks at the answer, and shows the frame when one has closed. Read from `main` upwards. */
#include <stdio.h>
#include <stdlib.h>
#include <string.h>
#include "png.h"
#include "ulb_machine.h"

/* The machine, a second one to try port timings on, and the finished frame: static, since they are large. */
static ulb_machine m, scratch;
enum { FRAME_WIDTH = 320, FRAME_HEIGHT = 240 };
static uint8_t shown[FRAME_HEIGHT][FRAME_WIDTH];

/* What the answers add up to since the start; demand 3 says what these sums must be. */
static struct { unsigned frames; unsigned long clocks, blocks; } sum;

static void stop(const char *what) {
    printf("stripes: %s\n", what);
    exit(1);
}

/* ---- Border writes of the running frame and of the finished one: when, and which colour --------------------------- */

typedef struct { uint32_t clock; uint8_t colour; } border_write;
typedef struct { border_write at[4096]; unsigned count; } border_log;
static border_log running, finished;

static void log_border(uint32_t clock, uint8_t colour) {
    if (running.count == sizeof running.at / sizeof *running.at) stop("too many border writes in a frame");
    running.at[running.count].clock = clock;
    running.at[running.count++].colour = colour;
}

/* A new frame starts in the colour that the last one ended in. */
static void next_log(void) {
    uint8_t colour = running.at[running.count - 1].colour;
    finished = running;
    running.count = 0;
    log_border(0, colour);
}

/* ---- After every timed call ------------------------------------------------------------------------------------- */

/* Picture over border. The border's bytes and the shown picture are those of the finished frame only until the next call,
 * so this is done as soon as an answer says `closed`. */
static void show_frame(void) {
    ulb_part picture = ulb_machine_shown_picture(&m);
    if (picture.refusal != ULB_OK) stop(ulb_refusal_text(picture.refusal));
    memcpy(shown, m.border, sizeof shown);
    for (int y = 0; y < 192; y++) memcpy(&shown[24 + y][32], picture.bytes + 256 * y, 256);
}

static void after(ulb_timed t) {
    if (t.refusal != ULB_OK) stop(ulb_refusal_text(t.refusal));
    sum.clocks += t.clocks;
    sum.blocks += t.blocks;
    if (t.closed) {
        sum.frames++;
        show_frame();
        next_log();
    }
    /* t.interrupt: here a processor that has interrupts enabled would be told. The loader has them disabled. */
}

/* ---- The tape: a level that turns over at its edges ------------------------------------------------------------- */

enum { PILOT_PULSES = 108, PILOT = 2168, SYNC = 667, ZERO = 855, ONE = 1710 };
static struct { bool level; unsigned pulses; unsigned long edge; } tape = {true, 0, PILOT};

static unsigned pulse_length(unsigned number) {
    if (number < PILOT_PULSES) return PILOT;
    if (number < PILOT_PULSES + 2) return SYNC;
    unsigned bit = (number - PILOT_PULSES - 2) / 2; /* two pulses a bit; the a number stands in for a game */
    return (2026u * 40503u >> bit % 16 ^ bit / 5) & 1 ? ONE : ZERO;
}

static bool tape_level(unsigned long now) {
    while (tape.edge <= now) {
        tape.level = !tape.level;
        tape.edge += pulse_length(++tape.pulses);
    }
    return tape.level;
}

/* ---- The loader: looks at the tape, and turns the border over at each edge --------------------------------------- */

static bool heard = true;
static unsigned turns, loaded; /* bytes of the lower third that stand in RAM */

static void turn_border(void) {
    bool pilot = tape.pulses <= PILOT_PULSES + 1;
    uint8_t colour = pilot ? (heard ? 2 : 5) : (heard ? 1 : 6); /* red and cyan, then blue and yellow */
    uint16_t port = (uint16_t)(colour << 8 | 0xFE);
    /* The write acts after the call's first part: one clock, as no address below 4000h is contended. */
    uint32_t clock = ulb_machine_frame_clock(&m) + 1, frame = ulb_machine_frame_length(&m);
    if (clock < frame) log_border(clock, colour);
    ulb_timed t = ulb_machine_write_io(&m, port, colour);
    after(t);
    if (clock >= frame) log_border(clock - frame, colour);
    if (t.value != ULB_WROTE_BORDER) stop("a write to an even port was no border write");
}

/* The next byte of the lower third, in the order of the display file; its three memory clocks come first. */
static void load_byte(void) {
    if (loaded == 2048) return;
    uint16_t addr = (uint16_t)(0x5000 + loaded);
    unsigned line = ulb_number_of(ulb_bitmap_line_rel, 0x1000 + loaded).number;
    unsigned column = ulb_number_of(ulb_bitmap_col_rel, 0x1000 + loaded).number;
    after(ulb_machine_wait_mreq(&m, addr, 3));
    ulb_machine_write(&m, addr, (uint8_t)(0x0F0F >> (line + 2 * column) % 8));
    loaded++;
}

/* One turn: a port read, an edge perhaps, a byte perhaps, and the rest of the loop's time. */
static void loader_turn(void) {
    /* The tape bit must be that of the moment when the read takes its value: one clock before the call's end. How long
     * the call takes depends on where the beam is; a dry run on the second machine's record tells. */
    ulb_timed dry = ulb_machine_port_timing(&m, &scratch, 0x7FFE);
    ulb_machine_set_tape(&m, tape_level(sum.clocks + dry.clocks - 1));
    ulb_timed t = ulb_machine_read_io(&m, 0x7FFE);
    if (t.clocks != dry.clocks) stop("the dry run took another time");
    after(t);
    bool hears = (t.value & 0x40) != 0;
    if (hears != heard) {
        heard = hears;
        turn_border();
    }
    if (sum.frames >= 2 && ++turns % 2 == 0) load_byte();
    after(ulb_machine_wait(&m, 43));
}

/* ---- The title: drawn once, coloured line by line as the beam goes down ------------------------------------------- */

enum { TITLE_LINE = 40, TITLE_COLUMN = 3, TITLE_COLUMNS = 27, TITLE_LINES = 24 };

static void draw_title(void) {
    static const uint8_t glyphs[9][8] = {
        {0x00, 0xFE, 0x10, 0x10, 0x10, 0x10, 0x10, 0x00}, {0x00, 0x42, 0x42, 0x42, 0x42, 0x42, 0x3C, 0x00}, /* T U */
        {0x00, 0x7E, 0x40, 0x7C, 0x40, 0x40, 0x40, 0x00}, {0x00, 0xFE, 0x10, 0x10, 0x10, 0x10, 0x10, 0x00}, /* F T */
        {0x00, 0x3C, 0x40, 0x3C, 0x02, 0x42, 0x3C, 0x00}, {0x00, 0x7C, 0x42, 0x42, 0x7C, 0x40, 0x40, 0x00}, /* S P */
        {0x00, 0x3C, 0x42, 0x42, 0x42, 0x42, 0x3C, 0x00}, {0x00, 0x44, 0x48, 0x70, 0x48, 0x44, 0x42, 0x00}, /* O K */
        {0x00, 0x7E, 0x40, 0x7C, 0x40, 0x40, 0x7E, 0x00},                                                   /* E */
    };
    for (unsigned line = 0; line < TITLE_LINES; line++) {
        uint32_t addr = ulb_number_of(ulb_bitmap_line_addr, TITLE_LINE + line).number + TITLE_COLUMN;
        for (unsigned column = 0; column < TITLE_COLUMNS; column++) {
            uint8_t bits = 0;
            for (unsigned x = 8 * column; x < 8 * column + 8; x++) /* each glyph three times as large */
                bits = (uint8_t)(bits << 1 | (glyphs[x / 24][line / 3] >> (7 - x % 24 / 3) & 1));
            ulb_machine_write(&m, (uint16_t)(addr + column), bits);
        }
    }
}

static void draw_attributes(void) {
    for (unsigned row = 0; row < 24; row++)
        for (unsigned column = 0; column < 32; column++)
            ulb_machine_write(&m, (uint16_t)(0x5800 + 32 * row + column), row < 16 ? 0x07 : (uint8_t)(0x41 + row % 7));
}

/* The clock when the beam has left a picture line and the next one is 96 clocks away. */
static uint32_t line_left(unsigned line) { return 14335 + 224 * line + 128; }

/* The title's colours for the line to come: 27 attributes of 3 clocks each fit before it starts. */
static void colour_line(unsigned line) {
    unsigned row = (TITLE_LINE + line) / 8;
    uint8_t attribute = (uint8_t)(0x40 | (1 + line / 3 % 7));
    for (unsigned column = TITLE_COLUMN; column < TITLE_COLUMN + TITLE_COLUMNS; column++) {
        uint16_t addr = (uint16_t)(0x5800 + 32 * row + column);
        after(ulb_machine_wait_mreq(&m, addr, 3));
        ulb_machine_write(&m, addr, attribute);
    }
}

/* ---- A frame, and the call that runs over its end ----------------------------------------------------------------- */

static void run_frame(void) {
    unsigned frame = sum.frames, line = 0;
    while (sum.frames == frame) {
        uint32_t now = ulb_machine_frame_clock(&m);
        if (frame == 3 && now > 66000) return; /* the last frame is ended by hand */
        if (line < TITLE_LINES && now + 100 > line_left(TITLE_LINE + line - 1)) {
            if (now < line_left(TITLE_LINE + line - 1)) after(ulb_machine_wait(&m, line_left(TITLE_LINE + line - 1) - now));
            colour_line(line++);
        } else {
            loader_turn();
        }
    }
}

/* One wait from near the frame's end to 20,000 clocks past it. The tail belongs to the next frame: it is not painted into
 * the finished one, though the picture's first 25 lines lie in it, and a byte written just before shows in neither. */
enum { TAIL = 20000 };
static void run_over_the_end(void) {
    ulb_machine_write(&m, 0x4000, 0xFF); /* the first block, long painted in this frame */
    uint32_t left = ulb_machine_frame_length(&m) - ulb_machine_frame_clock(&m);
    ulb_timed t = ulb_machine_wait(&m, left + TAIL);
    after(t);
    if (!t.closed || shown[24][32] != 0) stop("the tail was painted into the finished frame");
    after(ulb_machine_wait(&m, 0)); /* the next step, be it of no clocks, paints the tail's blocks into the other picture */
}

/* ---- What a person can check -------------------------------------------------------------------------------------- */

/* Document 01, "Border position", for the 48K: the pixel that the beam has reached, 76,800 at frame end. */
static uint32_t border_position(uint32_t clock) {
    if (clock < 8945) return 0;
    uint32_t c = clock - 8945, line = c / 224, pixel = 2 * (c % 224 + 1);
    if (pixel > 320) {
        line++;
        pixel = 0;
    }
    return line >= 240 ? 76800 : 320 * line + pixel;
}

/* "Each border pixel has the colour last written at or before it". */
static const border_write *write_of(unsigned x, unsigned y) {
    const border_write *last = &finished.at[0];
    for (unsigned i = 1; i < finished.count; i++)
        if (border_position(finished.at[i].clock) <= 320 * y + x) last = &finished.at[i];
    return last;
}

static bool in_picture(unsigned x, unsigned y) { return x >= 32 && x < 288 && y >= 24 && y < 216; }

static void check_border(void) {
    unsigned seen = 0;
    for (unsigned y = 0; y < FRAME_HEIGHT; y++)
        for (unsigned x = 0; x < FRAME_WIDTH; x++)
            if (!in_picture(x, y)) {
                seen++;
                if (shown[y][x] != write_of(x, y)->colour) stop("a border pixel has another colour than its write");
            }
    printf("border    %u pixels have the colour of the last of %u writes at or before them\n", seen, finished.count - 1);
}

static void name_pixel(const char *name, unsigned x, unsigned y) {
    static const char *const names[8] = {"black", "blue", "red", "magenta", "green", "cyan", "yellow", "white"};
    const border_write *w = write_of(x, y);
    printf("pixel     %s (%u, %u) is %u %s: written at clock %lu, when the beam stood at (%lu, %lu)\n", name, x, y, shown[y][x],
           names[shown[y][x] & 7], (unsigned long)w->clock, (unsigned long)border_position(w->clock) % 320,
           (unsigned long)border_position(w->clock) / 320);
}

static void check_sums(void) {
    unsigned long frame = ulb_machine_frame_length(&m), clock = ulb_machine_frame_clock(&m);
    unsigned long painted = ulb_machine_blocks_painted(&m);
    printf("frames    %u closed; the bus counts %lu\n", sum.frames, (unsigned long)ulb_machine_frames_count(&m).number);
    printf("clocks    %lu reported; %u x %lu + %lu = %lu\n", sum.clocks, sum.frames, frame, clock, sum.frames * frame + clock);
    printf("blocks    %lu reported; %u x 6144 + %lu = %lu\n", sum.blocks, sum.frames, painted, sum.frames * 6144 + painted);
    if (sum.clocks != sum.frames * frame + clock) stop("the clocks do not add up");
    if (sum.blocks != sum.frames * 6144 + painted) stop("the blocks do not add up");
    if (sum.frames != ulb_machine_frames_count(&m).number) stop("the frames do not add up");
}

int main(int argc, char **argv) {
    static const uint8_t rom[ULB_ROM_BYTES_48K]; /* the loader is played from here, so the ROM's bytes do not matter */
    const char *path = argc > 1 ? argv[1] : "stripes.png";
    if (ulb_machine_init(&m, ULB_48K, rom, sizeof rom) != ULB_OK) stop("no machine");
    if (ulb_machine_init(&scratch, ULB_48K, rom, sizeof rom) != ULB_OK) stop("no second machine");
    log_border(0, ulb_machine_beam_colour(&m)); /* the border has the start's colour until the first write */

    draw_attributes();
    draw_title();
    for (int frame = 0; frame < 4; frame++) run_frame();
    run_over_the_end();

    FILE *f = fopen(path, "wb");
    if (f == NULL || png_write(f, shown[0], FRAME_WIDTH, FRAME_HEIGHT) != 0 || fclose(f) != 0) {
        perror(path);
        return 1;
    }
    check_sums();
    check_border();
    name_pixel("top left", 0, 0);
    name_pixel("left of the title", 16, 76);
    name_pixel("bottom right", 319, 239);
    printf("stripes   %s holds the last frame, 320 x 240\n", path);
    return 0;
}
