/* Calls every function of ulb.h from C and holds what it gives where it is accepted to fixed answers: answers, record, memory,
 * pictures, where parts start, and the cases that document 01 marks to be run. (Refusals: refusals.c; all about snapshots:
 * snapshots.c.) Every buffer ends at a
 * guard page, so that the archive cannot read or write past it unseen; a sanitizer would watch the C of this file alone.
 * Prints one line a failure and a last line `calls: N checks, M failed`; exit status 1 if any failed. */
#include <stdio.h>
#include <string.h>
#include "lending.h"
#include "ulb.h"

static unsigned checks, failures;

static void check_at(int line, const char *what, long got, long want) {
    checks++;
    if (got != want) {
        failures++;
        printf("calls.c:%d: %s: got %ld, want %ld\n", line, what, got, want);
    }
}
#define CHECK(what, got, want) check_at(__LINE__, what, (long)(got), (long)(want))

/* One machine, with every buffer that it lends. */
typedef struct {
    uint8_t *state, *rom, *ram, *a, *b, *border, *devices, *answer;
    size_t rom_len, ram_len;
} machine;

/* `n` bytes that end at a guard page. They are not given back: the program ends soon. */
static uint8_t *room(size_t n, int fill) {
    zone z = make_zone(n);
    return memset(z.rw + z.size - n, fill, n);
}

static bool all_are(const uint8_t *p, size_t n, uint8_t value) {
    for (size_t i = 0; i < n; i++)
        if (p[i] != value) return false;
    return true;
}

static machine make(unsigned kind) {
    machine m;
    m.rom_len = kind == ULB_48K ? ULB_ROM_BYTES_48K : ULB_ROM_BYTES_128K;
    m.ram_len = kind == ULB_48K ? ULB_RAM_BYTES_48K : ULB_RAM_BYTES_128K;
    m.state = room(ULB_STATE_BYTES, 0xAA);
    m.rom = room(m.rom_len, 0x55);
    m.ram = room(m.ram_len, 0xAA);
    m.a = room(ULB_PICTURE_BYTES, 0xAA);
    m.b = room(ULB_PICTURE_BYTES, 0xAA);
    m.border = room(ULB_BORDER_BYTES, 0xAA);
    m.devices = room(ULB_DEVICE_BYTES, 0);
    memset(m.devices, 0xFF, 24);
    m.devices[24] = 1;
    m.answer = room(ULB_TIMED_ANSWER_BYTES, 0xAA);
    return m;
}

static unsigned start(machine *m, unsigned kind) {
    return ulb_start(m->state, ULB_STATE_BYTES, m->ram, m->ram_len, m->a, ULB_PICTURE_BYTES, m->b, ULB_PICTURE_BYTES,
                     m->border, ULB_BORDER_BYTES, kind);
}

#define OWN(m) (m)->state, ULB_STATE_BYTES
#define LENT(m) (m)->ram, (m)->ram_len, (m)->a, ULB_PICTURE_BYTES, (m)->b, ULB_PICTURE_BYTES, (m)->border, ULB_BORDER_BYTES
#define TEN(m) (m)->answer, 10
#define FIVE(m) (m)->answer + 5, 5 /* so that they too end at the guard page */

/* The plain start, or the one in a colour; the colour that the beam then has. */
enum { PLAIN = -1 };
static unsigned start_in(machine *m, unsigned kind, int colour) {
    return colour == PLAIN ? start(m, kind) : ulb_start_colour(OWN(m), LENT(m), kind, (uint32_t)colour);
}
static uint8_t beam_of(int colour) { return colour == PLAIN ? 0 : (uint8_t)colour; }

static unsigned wait_plain(machine *m, uint32_t n) { return ulb_wait_internal(OWN(m), LENT(m), n, TEN(m)); }
static unsigned in(machine *m, uint16_t port) {
    return ulb_read_io(OWN(m), m->devices, ULB_DEVICE_BYTES, LENT(m), port, TEN(m));
}
static unsigned out(machine *m, uint16_t port, uint8_t v) {
    return ulb_write_io(OWN(m), m->devices, ULB_DEVICE_BYTES, LENT(m), port, v, TEN(m));
}
static void poke(machine *m, uint16_t addr, uint8_t v) {
    CHECK("byte write", ulb_write_internal(OWN(m), m->ram, m->ram_len, addr, v), 0);
}

static unsigned long word32(const uint8_t *p) {
    return p[0] | (unsigned long)p[1] << 8 | (unsigned long)p[2] << 16 | (unsigned long)p[3] << 24;
}
static unsigned clocks(const machine *m) { return (unsigned)word32(m->answer + 4); }
static unsigned painted(const machine *m) { return m->answer[8] | m->answer[9] << 8; }
static unsigned long number(const machine *m) { return word32(m->answer + 6); } /* of FIVE */
static unsigned long frame_clock(const machine *m) { return word32(m->state + 6); }
static void set32(uint8_t *p, unsigned long v) { for (int i = 0; i < 4; i++) p[i] = (uint8_t)(v >> (8 * i)); }

static const uint32_t frame[2] = {69888, 70908};

/* From the frame's clock on to its end, by waits alone. */
static void close_frame(machine *m, unsigned kind) {
    CHECK("wait into the frame", wait_plain(m, (frame[kind] - frame_clock(m)) / 2), 0);
    CHECK("is not closed", m->answer[2], 0);
    CHECK("wait to its end", wait_plain(m, frame[kind] - frame_clock(m)), 0);
    CHECK("is closed", m->answer[2], 1);
}

/* Request Q-3: "Start shall set the beam colour to 0, as the reported border already is"; the second start sets the one
 * that it is given. All else is cleared, whatever stood there, and nothing is painted. */
static void fresh_start(machine *m, unsigned kind, int colour) {
    const uint8_t fresh[ULB_STATE_BYTES] = {'U', 'L', 'B', 1, 0, (uint8_t)kind, 0, 0, 0, 0, 0, 0, 0, 0, 0, 0, 0, 0,
                                            0 /* the reported border */, beam_of(colour), 0, 0, 0};
    memset(m->state, 0xAA, ULB_STATE_BYTES);
    memset(m->ram, 0xAA, m->ram_len);
    memset(m->a, 0xAA, ULB_PICTURE_BYTES);
    memset(m->b, 0xAA, ULB_PICTURE_BYTES);
    memset(m->border, 0xAA, ULB_BORDER_BYTES);
    CHECK("start", start_in(m, kind, colour), 0);
    for (int i = 0; i < ULB_STATE_BYTES; i++) CHECK("fresh record", m->state[i], fresh[i]);
    CHECK("RAM is 0", all_are(m->ram, m->ram_len, 0), 1);
    CHECK("picture A is 0", all_are(m->a, ULB_PICTURE_BYTES, 0), 1);
    CHECK("picture B is 0", all_are(m->b, ULB_PICTURE_BYTES, 0), 1);
    CHECK("border is 0", all_are(m->border, ULB_BORDER_BYTES, 0), 1);
    CHECK("ROM is not touched", all_are(m->rom, m->rom_len, 0x55), 1);
}

/* Frames with no border write are all of the start's colour, the first and those after it: each of the 76,800 pixels,
 * which are spoilt before so that one left alone would be seen. */
static void unwritten_frames(machine *m, unsigned kind, int colour) {
    fresh_start(m, kind, colour);
    for (int frames = 0; frames < 2; frames++) {
        memset(m->border, 0xAA, ULB_BORDER_BYTES);
        close_frame(m, kind);
        CHECK("a frame of the start's colour", all_are(m->border, ULB_BORDER_BYTES, beam_of(colour)), 1);
    }
    CHECK("still reported: black", m->state[18], 0);
}

/* A border write that acts at `clock`, in the first frame or in one after it, when the beam has passed `pixels`: these
 * have the start's colour, and those behind the written one, as the next frame has. */
static void written_frame(machine *m, unsigned kind, int colour, int frames, uint32_t clock, unsigned pixels) {
    uint8_t beam = beam_of(colour), written = (beam + 3) % 8;
    unsigned wrong = 0;
    fresh_start(m, kind, colour);
    while (frames-- > 0) close_frame(m, kind);
    memset(m->border, 0xAA, ULB_BORDER_BYTES);
    CHECK("wait", wait_plain(m, clock - 1), 0); /* the write acts after the call's first part, 1 clock at this port */
    CHECK("border write", out(m, 0x00FE, written), 0);
    CHECK("is one", m->answer[1], ULB_WROTE_BORDER);
    CHECK("and is reported", m->state[18], written);
    close_frame(m, kind);
    for (unsigned i = 0; i < ULB_BORDER_BYTES; i++) wrong += m->border[i] != (i < pixels ? beam : written);
    CHECK("pixels of another colour than the start's before the write, or than the written one behind it", wrong, 0);
    memset(m->border, 0xAA, ULB_BORDER_BYTES);
    close_frame(m, kind);
    CHECK("the next frame has the written colour", all_are(m->border, ULB_BORDER_BYTES, written), 1);
}

static void starts(void) {
    /* a frame's first clock; before and at the beam's first pixels; in line 100 and behind it; the last pixels; frame
     * end. In the first frame, the second and the third by turns. */
    static const struct { uint32_t clock[2]; unsigned pixels; } moments[] = {
        {{1, 1}, 0}, {{8944, 8874}, 0}, {{8945, 8875}, 2}, {{31394, 31724}, 32100}, {{31505, 31835}, 32320},
        {{62640, 63526}, 76800}, {{62641, 63527}, 76800},
    };
    for (unsigned kind = 0; kind < 2; kind++) {
        machine m = make(kind);
        for (int colour = PLAIN; colour < 8; colour++) {
            unwritten_frames(&m, kind, colour);
            for (size_t i = 0; i < sizeof moments / sizeof *moments; i++)
                written_frame(&m, kind, colour, i % 3, moments[i].clock[kind], moments[i].pixels);
        }
    }
}

/* Document 01, "Run only". */
static void run_only(void) {
    machine m = make(ULB_48K);
    start(&m, ULB_48K);
    poke(&m, 0x4000, 0x80);
    poke(&m, 0x5800, 0x47);
    CHECK("wait to the first block", wait_plain(&m, 14338), 0);
    CHECK("blocks", painted(&m), 1);
    CHECK("attribute 47h, bit set", m.b[0], 15);
    CHECK("attribute 47h, bit clear", m.b[1], 8);
    CHECK("A is shown", m.a[0], 0);

    CHECK("in FFFEh", in(&m, 0xFFFE), 0);
    CHECK("FFFEh with no row", m.answer[1], 0xFF);
    m.devices[24] = 0;
    in(&m, 0xFFFE);
    CHECK("FFFEh with tape bit 0", m.answer[1], 0xBF);
    m.devices[0] = 0xBF;
    in(&m, 0xFEFE);
    CHECK("a row with bit 6 low and tape bit 0: toggled, not cleared", m.answer[1], 0xFF);

    start(&m, ULB_48K);
    CHECK("wait 65,535", wait_plain(&m, 65535), 0);
    CHECK("65,536 is refused", wait_plain(&m, 65536), ULB_LONG_WAIT);
    CHECK("to clock 69,887", wait_plain(&m, 69887 - 65535), 0);
    CHECK("clock", frame_clock(&m), 69887);
    CHECK("plus 0", wait_plain(&m, 0), 0);
    CHECK("closes nothing", m.answer[2], 0);
    CHECK("plus 1", wait_plain(&m, 1), 0);
    CHECK("closes the frame", m.answer[2], 1);
    CHECK("interrupt", m.answer[3], 1);
    CHECK("clock 0", frame_clock(&m), 0);
    CHECK("one frame", (ulb_frames_count(OWN(&m), FIVE(&m)), number(&m)), 1);
    CHECK("B is shown", (ulb_shown_picture(OWN(&m), m.a, 49152, m.b, 49152, FIVE(&m)), number(&m)), 49152);

    start(&m, ULB_48K);
    wait_plain(&m, 14335);
    CHECK("port 40FFh at 14,335", in(&m, 0x40FF), 0);
    CHECK("takes 16 clocks", clocks(&m), 16);
}

/* A wait at an address: the delay that is due if its page is contended, then its clocks. */
static void waits_at_addresses(void) {
    static const struct { unsigned kind; uint8_t paging; uint16_t addr; uint32_t clock; unsigned takes; } rows[] = {
        {ULB_48K, 0, 0x4000, 14334, 4}, {ULB_48K, 0, 0x4000, 14335, 10}, {ULB_48K, 0, 0x7FFF, 14336, 9},
        {ULB_48K, 0, 0x8000, 14335, 4}, {ULB_48K, 0, 0x3FFF, 14335, 4}, {ULB_48K, 0, 0x4000, 57244, 5},
        {ULB_48K, 0, 0x4000, 57245, 4}, {ULB_128K, 0, 0x4000, 14360, 4}, {ULB_128K, 0, 0x4000, 14361, 10},
        {ULB_128K, 0, 0xC000, 14361, 4}, {ULB_128K, 1, 0xC000, 14361, 10}, {ULB_128K, 2, 0xC000, 14361, 4},
    };
    for (size_t i = 0; i < sizeof rows / sizeof *rows; i++)
        for (int request = 0; request < 2; request++) {
            machine m = make(rows[i].kind);
            start(&m, rows[i].kind);
            set32(m.state + 6, rows[i].clock);
            m.state[17] = rows[i].paging;
            CHECK("wait at an address",
                  (request ? ulb_wait_mreq : ulb_wait_no_mreq)(OWN(&m), LENT(&m), rows[i].addr, 4, TEN(&m)), 0);
            CHECK("its clocks", clocks(&m), rows[i].takes);
            CHECK("the frame's clock", frame_clock(&m), rows[i].clock + rows[i].takes);
        }
}

static void ports(void) {
    machine m = make(ULB_128K);
    start(&m, ULB_128K);
    CHECK("out 7FFDh, 27h", out(&m, 0x7FFD, 0x27), 0);
    CHECK("is paged", m.answer[1], ULB_PAGED);
    CHECK("page 7 at C000h", (ulb_block(OWN(&m), m.rom, m.rom_len, m.ram, m.ram_len, 3, FIVE(&m)), number(&m)), 32768 + 7 * 16384);
    out(&m, 0x7FFD, 0x00);
    CHECK("then 00h is locked", m.answer[1], ULB_LOCKED);
    out(&m, 0x7FFC, 5);
    CHECK("7FFCh is a border write", m.answer[1], ULB_WROTE_BORDER);
    CHECK("reported border", m.state[18], 5);
    out(&m, 0xFFFD, 1);
    CHECK("FFFDh", m.answer[1], ULB_WROTE_AY_SELECT);
    out(&m, 0xBFFD, 1);
    CHECK("BFFDh", m.answer[1], ULB_WROTE_AY_DATA);
    out(&m, 0x00FF, 1);
    CHECK("00FFh", m.answer[1], ULB_WROTE_NOTHING);
    m.devices[25] = 1;
    m.devices[26] = 0x12;
    out(&m, 0x7FFC, 1);
    CHECK("the extender claims", m.answer[1], ULB_WROTE_EXTENDER);
    CHECK("and the border does not see it", m.state[18], 5);
    in(&m, 0xFFFE);
    CHECK("the extender answers", m.answer[1], 0x12);
    m.devices[25] = 0;
    m.devices[27] = 1;
    m.devices[28] = 0x34;
    in(&m, 0xFFFD);
    CHECK("the AY answers", m.answer[1], 0x34);
    m.devices[27] = 0;
    in(&m, 0xFFFD);
    CHECK("no AY: the floating bus", m.answer[1], 0xFF);
    m.devices[29] = 1;
    m.devices[30] = 0x1F;
    in(&m, 0x001F);
    CHECK("the joystick answers", m.answer[1], 0x1F);
    m.devices[31] = 1;
    m.devices[32] = 1; m.devices[33] = 2; m.devices[34] = 3;
    in(&m, 0xFADF);
    CHECK("mouse buttons", m.answer[1], 1);
    in(&m, 0xFBDF);
    CHECK("mouse x", m.answer[1], 2);
    in(&m, 0xFFDF);
    CHECK("mouse y", m.answer[1], 3);
}

/* Pages and parts, and the last of the passed frames. */
static void pages_and_parts(void) {
    machine m = make(ULB_48K);
    start(&m, ULB_48K);
    uint8_t *page = room(ULB_PAGE_BYTES, 0x5A), *picture = room(ULB_PICTURE_BYTES, 0xAA);
    CHECK("page 2", ulb_load_page(OWN(&m), m.ram, m.ram_len, page, ULB_PAGE_BYTES, 2), 0);
    CHECK("is loaded", all_are(m.ram + 32768, ULB_PAGE_BYTES, 0x5A), 1);
    CHECK("and no other byte", all_are(m.ram, 32768, 0), 1);
    CHECK("RAM page 2", ulb_ram_page(OWN(&m), m.ram, m.ram_len, 2, FIVE(&m)), 0);
    CHECK("starts after ROM", number(&m), 16384 + 32768);
    CHECK("block 0", ulb_block(OWN(&m), m.rom, m.rom_len, m.ram, m.ram_len, 0, FIVE(&m)), 0);
    CHECK("is ROM", number(&m), 0);
    CHECK("block 3", ulb_block(OWN(&m), m.rom, m.rom_len, m.ram, m.ram_len, 3, FIVE(&m)), 0);
    CHECK("is RAM 2", number(&m), 16384 + 32768);
    poke(&m, 0x57FF, 0x01);
    poke(&m, 0x5AFF, 0xC7);
    CHECK("still", ulb_still_picture(OWN(&m), m.ram, m.ram_len, picture, ULB_PICTURE_BYTES, 0), 0);
    CHECK("its last pixel is ink", picture[49151], 15);
    CHECK("the one before is paper", picture[49150], 8);
    CHECK("all before its last attribute's pixels is black", all_are(picture, 184 * 256, 0), 1);
    CHECK("still, flash on", ulb_still_picture(OWN(&m), m.ram, m.ram_len, picture, ULB_PICTURE_BYTES, 1), 0);
    CHECK("ink and paper exchanged", picture[49151], 8);

    set32(m.state + 6, 69887);
    set32(m.state + 10, 4294967294u);
    CHECK("the last frame but one", wait_plain(&m, 1), 0);
    CHECK("is closed", m.answer[2], 1);
    CHECK("frames are told", (ulb_frames_count(OWN(&m), FIVE(&m)), number(&m)), 4294967295u);
    CHECK("and full", wait_plain(&m, 1), ULB_FRAMES_FULL);
    CHECK("and reset", ulb_reset_frame_counter(OWN(&m)), 0);
    CHECK("to 0", (ulb_frames_count(OWN(&m), FIVE(&m)), number(&m)), 0);
    CHECK("so that time goes on", wait_plain(&m, 1), 0);
}

static void bytes_and_paging(void) {
    machine m = make(ULB_128K);
    start(&m, ULB_128K);
    CHECK("ROM byte", (ulb_read_internal(OWN(&m), m.rom, m.rom_len, m.ram, m.ram_len, 0x1234, FIVE(&m)), number(&m)), 0x55);
    poke(&m, 0x1234, 0xFF);
    CHECK("a ROM write vanishes", m.rom[0x1234], 0x55);
    poke(&m, 0x4001, 0x11);
    CHECK("4001h is page 5", m.ram[5 * 16384 + 1], 0x11);
    CHECK("write 7FFD", ulb_write_7ffd(OWN(&m), 0x1B, FIVE(&m)), 0);
    CHECK("paged", number(&m), 5);
    CHECK("read 7FFD", (ulb_read_7ffd(OWN(&m), FIVE(&m)), number(&m)), 0x1B);
    poke(&m, 0xC002, 0x22);
    CHECK("C002h is page 3", m.ram[3 * 16384 + 2], 0x22);
    CHECK("ROM 1", (ulb_block(OWN(&m), m.rom, m.rom_len, m.ram, m.ram_len, 0, FIVE(&m)), number(&m)), 16384);
    CHECK("lock", (ulb_write_7ffd(OWN(&m), 0x20, FIVE(&m)), number(&m)), 5);
    CHECK("locked", (ulb_write_7ffd(OWN(&m), 0x07, FIVE(&m)), number(&m)), 6);
    CHECK("interrupt at clock 0", (ulb_int_active(OWN(&m), FIVE(&m)), number(&m)), 1);
    CHECK("wait without a request", ulb_wait_no_mreq(OWN(&m), LENT(&m), 0x4000, 32, TEN(&m)), 0);
    CHECK("interrupt at clock 32", (ulb_int_active(OWN(&m), FIVE(&m)), number(&m)), 0);
    machine n = make(ULB_48K);
    start(&n, ULB_48K);
    uint8_t held[23];
    memcpy(held, n.state, 23);
    CHECK("7FFD on 48K", (ulb_write_7ffd(OWN(&n), 0x07, FIVE(&n)), number(&n)), 0);
    CHECK("changes nothing", memcmp(held, n.state, 23), 0);
}

/* A screen of one bitmap byte and one attribute. */
static void plain_screen(uint8_t *bytes, uint8_t bitmap, uint8_t attribute) {
    memset(bytes, bitmap, 0x1800);
    memset(bytes + 0x1800, attribute, 0x300);
}

static void fill_page(machine *m, unsigned page, uint8_t bitmap, uint8_t attribute) {
    static uint8_t bytes[ULB_PAGE_BYTES];
    plain_screen(bytes, bitmap, attribute);
    CHECK("page load", ulb_load_page(OWN(m), m->ram, m->ram_len, bytes, ULB_PAGE_BYTES, page), 0);
}

/* Two 7FFD writes on a 128K, and the page that is shown after them. */
typedef struct { uint8_t first, second; unsigned page; } paged;
static const paged pagings[] = {
    {0x00, 0x00, 5}, {0x00, 0x08, 7}, {0x08, 0x00, 5}, {0x08, 0x1F, 7}, {0x08, 0xF7, 5}, /* the second write is taken */
    {0x28, 0x00, 7}, {0x20, 0x08, 5}, {0x2F, 0x27, 7}, {0xF7, 0xFF, 5},                 /* the first one has locked */
};

static void page_in(machine *m, paged row) {
    ulb_write_7ffd(OWN(m), row.first, FIVE(m));
    ulb_write_7ffd(OWN(m), row.second, FIVE(m));
}

/* Request Q-1: the still picture is of the page that is now shown, bit 3 off and on, locked or not; with the record's own flash it
 * is what a frame paints in which nothing is written. The floating bus stays with 4000h. */
static void stills(void) {
    for (size_t i = 0; i < sizeof pagings / sizeof *pagings; i++) {
        machine m = make(ULB_128K);
        start(&m, ULB_128K);
        for (unsigned page = 0; page < 8; page++) fill_page(&m, page, 0xFF, 0x36); /* yellow on yellow: neither page's colours */
        fill_page(&m, 5, 0x00, 0x91); /* all paper: red, flashing to blue */
        fill_page(&m, 7, 0xFF, 0xDC); /* all ink: bright green, flashing to bright magenta */
        page_in(&m, pagings[i]);
        uint8_t *still[2], held[23], colour[2] = {pagings[i].page == 5 ? 2 : 12, pagings[i].page == 5 ? 1 : 11};
        memcpy(held, m.state, 23);
        for (unsigned flash = 0; flash < 2; flash++) {
            still[flash] = room(ULB_PICTURE_BYTES, 0xAA);
            CHECK("still", ulb_still_picture(OWN(&m), m.ram, m.ram_len, still[flash], ULB_PICTURE_BYTES, flash), 0);
            CHECK("is of the page now shown", all_are(still[flash], ULB_PICTURE_BYTES, colour[flash]), 1);
        }
        CHECK("and changes no record", memcmp(held, m.state, 23), 0);

        wait_plain(&m, 14361);
        CHECK("a port read", in(&m, 0x00FF), 0);
        CHECK("sees page 5, whichever is shown", m.answer[1], 0x00);
        wait_plain(&m, 50000);
        CHECK("the first frame, flash off, paints the still", memcmp(m.b, still[0], ULB_PICTURE_BYTES), 0);
        wait_plain(&m, 70908 - 14365 - 50000);
        CHECK("is closed", m.answer[2], 1);
        wait_plain(&m, 60000);
        CHECK("the second, flash on, the other", memcmp(m.a, still[1], ULB_PICTURE_BYTES), 0);
    }
}

static unsigned save_scr(machine *m, uint8_t *file) {
    return ulb_save_scr(OWN(m), m->ram, m->ram_len, file, ULB_SCREEN_FILE_BYTES);
}
static unsigned load_scr(machine *m, const uint8_t *file, uint32_t page) {
    return ulb_load_scr(OWN(m), m->ram, m->ram_len, file, ULB_SCREEN_FILE_BYTES, page);
}

/* The picture of a screen file, from the file alone. */
static void picture_of(const uint8_t *file, unsigned flash, uint8_t *picture) {
    for (unsigned y = 0; y < 192; y++)
        for (unsigned x = 0; x < 256; x++) {
            unsigned bits = file[2048 * (y / 64) + 256 * (y % 8) + 32 * (y / 8 % 8) + x / 8];
            unsigned attribute = file[6144 + 32 * (y / 8) + x / 8];
            unsigned ink = (bits >> (7 - x % 8) & 1) ^ (attribute >> 7 & flash);
            picture[256 * y + x] = (uint8_t)(attribute / 64 % 2 * 8 + (ink ? attribute % 8 : attribute / 8 % 8));
        }
}

/* Request Q-2: a file is the first 6,912 bytes of the page that is shown; read into a video page, shown or not, it is
 * those bytes again, and no other byte of RAM changes. */
static void screen_files(unsigned kind, paged row) {
    static const unsigned video[2][2] = {{0, 0}, {5, 7}};
    static const unsigned places[] = {0, 1, 31, 32, 255, 256, 0x7FF, 0x800, 0x17FF, 0x1800, 0x1801, 0x1AFE, 0x1AFF};
    machine m = make(kind);
    start(&m, kind);
    page_in(&m, row);
    uint8_t *file = room(ULB_SCREEN_FILE_BYTES, 0xAA), *ram = room(m.ram_len, 0), record[23];
    uint8_t *still = room(ULB_PICTURE_BYTES, 0xAA), *picture = room(ULB_PICTURE_BYTES, 0);
    memcpy(record, m.state, 23);
    for (size_t i = 0; i < m.ram_len; i++) ram[i] = (uint8_t)(31 * (i / ULB_PAGE_BYTES) + 7 * i + (i >> 8));
    memcpy(m.ram, ram, m.ram_len);

    CHECK("save", save_scr(&m, file), 0);
    CHECK("has the shown page's first bytes", memcmp(file, ram + row.page * ULB_PAGE_BYTES, ULB_SCREEN_FILE_BYTES), 0);
    CHECK("read back", load_scr(&m, file, row.page), 0);
    CHECK("changes no byte of RAM", memcmp(m.ram, ram, m.ram_len), 0);
    for (int v = 0; v < 2; v++) {
        uint32_t page = video[kind][v];
        uint8_t *want = ram + page * ULB_PAGE_BYTES;
        for (unsigned i = 0; i < ULB_SCREEN_FILE_BYTES; i++) file[i] = want[i] = (uint8_t)~want[i];
        CHECK("load", load_scr(&m, file, page), 0);
        CHECK("changes those bytes and no others", memcmp(m.ram, ram, m.ram_len), 0);
        for (size_t i = 0; i < sizeof places / sizeof *places; i++) {
            file[places[i]] ^= 0x10;
            want[places[i]] ^= 0x10;
            CHECK("load with one byte other", load_scr(&m, file, page), 0);
            CHECK("leaves that byte other, in its place", memcmp(m.ram, ram, m.ram_len), 0);
        }
        for (unsigned flash = 0; flash < 2 && page == row.page; flash++) {
            picture_of(file, flash, picture);
            CHECK("still", ulb_still_picture(OWN(&m), m.ram, m.ram_len, still, ULB_PICTURE_BYTES, flash), 0);
            CHECK("is the picture of the file", memcmp(still, picture, ULB_PICTURE_BYTES), 0);
        }
    }
    CHECK("save", save_scr(&m, file), 0);
    CHECK("what was read is saved", memcmp(file, ram + row.page * ULB_PAGE_BYTES, ULB_SCREEN_FILE_BYTES), 0);
    CHECK("and the record stays", memcmp(record, m.state, 23), 0);
}

static void all_screen_files(void) {
    screen_files(ULB_48K, (paged){0, 0, 0});
    for (size_t i = 0; i < sizeof pagings / sizeof *pagings; i++) screen_files(ULB_128K, pagings[i]);
}

/* A file read in mid-frame, when so many blocks are painted: these have the old bytes' colour, and the rest of the
 * frame has the file's, if its page is shown. One read into the other page shows when that does. */
static void read_in_mid_frame(unsigned kind, uint8_t paging, uint32_t page, uint32_t clock, unsigned blocks) {
    enum { OLD = 1, NEW = 14 }; /* the file's bitmap with the old attribute would be 7, the other way round 8 */
    bool shown = kind == ULB_48K || page == (paging == 8 ? 7 : 5);
    machine m = make(kind);
    start(&m, kind);
    ulb_write_7ffd(OWN(&m), paging, FIVE(&m));
    for (unsigned p = 0; p < m.ram_len / ULB_PAGE_BYTES; p++) fill_page(&m, p, 0x00, 0x0F);
    uint8_t *file = room(ULB_SCREEN_FILE_BYTES, 0), record[23];
    plain_screen(file, 0xFF, 0x46);

    CHECK("wait into the frame", wait_plain(&m, clock), 0);
    CHECK("blocks painted before", painted(&m), blocks);
    memcpy(record, m.state, 23);
    CHECK("load", load_scr(&m, file, page), 0);
    CHECK("takes no time and paints nothing", memcmp(record, m.state, 23), 0);
    CHECK("wait to its end", wait_plain(&m, frame[kind] - clock), 0);
    CHECK("is closed", m.answer[2], 1);
    CHECK("blocks painted after", painted(&m), 6144 - blocks);
    unsigned wrong = 0;
    for (unsigned i = 0; i < ULB_PICTURE_BYTES; i++) wrong += m.b[i] != (i / 8 >= blocks && shown ? NEW : OLD);
    CHECK("pixels of another colour than their block's", wrong, 0);
    if (!shown) ulb_write_7ffd(OWN(&m), paging ^ 8, FIVE(&m));
    wait_plain(&m, 60000);
    CHECK("the next frame is all the file's", all_are(m.a, ULB_PICTURE_BYTES, NEW), 1);
}

static void mid_frames(void) {
    /* before, at and between the first and the last block, on 48K and 128K, and the blocks painted by then */
    static const struct { uint32_t clock[2]; unsigned blocks; } moments[] = {
        {{14337, 14363}, 0}, {{14338, 14364}, 1}, {{36788, 37214}, 3213}, {{57245, 58035}, 6143},
        {{57246, 58036}, 6144},
    };
    static const struct { unsigned kind; uint8_t paging; uint32_t page; } pages[] = {
        {ULB_48K, 0, 0}, {ULB_128K, 0, 5}, {ULB_128K, 0, 7}, {ULB_128K, 8, 7}, {ULB_128K, 8, 5},
    };
    for (size_t i = 0; i < sizeof moments / sizeof *moments; i++)
        for (size_t p = 0; p < sizeof pages / sizeof *pages; p++)
            read_in_mid_frame(pages[p].kind, pages[p].paging, pages[p].page, moments[i].clock[pages[p].kind],
                              moments[i].blocks);
}

/* Request Q-4: a start from a snapshot, and a snapshot written. The 16 KiB of each bank are one byte, its number plus 10h. */
static void fill_banks(uint8_t *bytes, const uint8_t *banks, unsigned n) {
    for (unsigned i = 0; i < n; i++) memset(bytes + i * ULB_PAGE_BYTES, 0x10 + banks[i], ULB_PAGE_BYTES);
}

/* The snapshot in `file`, with border 5, is imported over whatever stood there; all that it leaves, and the file back. */
static void one_snapshot(unsigned kind, uint8_t *file, size_t size, uint8_t paging) {
    const uint8_t fresh[ULB_STATE_BYTES] = {'U', 'L', 'B', 1, 0, (uint8_t)kind, 0, 0, 0, 0, 0, 0, 0, 0, 0, 0, 0, paging, 5, 5};
    machine m = make(kind);
    uint8_t *registers = room(ULB_REGISTER_BYTES, 0xAA), *written = room(size, 0xAA), last[3] = {0, 0, 0};
    for (uint8_t i = 0; i < 26; i++) file[i] = (uint8_t)(i + 1);
    file[26] = 0xFD; /* bits 3 to 7 are handed back, and are no colour */
    if (kind == ULB_128K) {
        last[0] = file[49179] = 0x34; /* PC 1234h */
        last[1] = file[49180] = 0x12;
        file[49181] = paging;
        last[2] = file[49182] = 0x99; /* TR-DOS */
    }
    CHECK("import", ulb_load_sna(OWN(&m), m.ram, m.ram_len, file, size, registers, ULB_REGISTER_BYTES, m.a, ULB_PICTURE_BYTES,
                                 m.b, ULB_PICTURE_BYTES, m.border, ULB_BORDER_BYTES, kind), 0);
    for (int i = 0; i < ULB_STATE_BYTES; i++) CHECK("fresh record", m.state[i], fresh[i]);
    for (unsigned p = 0; p < m.ram_len / ULB_PAGE_BYTES; p++)
        CHECK("a bank in its place", all_are(m.ram + p * ULB_PAGE_BYTES, ULB_PAGE_BYTES, (uint8_t)(0x10 + p)), 1);
    CHECK("picture A is 0", all_are(m.a, ULB_PICTURE_BYTES, 0), 1);
    CHECK("picture B is 0", all_are(m.b, ULB_PICTURE_BYTES, 0), 1);
    CHECK("border is 0", all_are(m.border, ULB_BORDER_BYTES, 0), 1);
    CHECK("the header is handed back", memcmp(registers, file, 27), 0);
    CHECK("and PC and TR-DOS", memcmp(registers + 27, last, 3), 0);
    CHECK("7FFD byte", (ulb_read_7ffd(OWN(&m), FIVE(&m)), number(&m)), paging);

    CHECK("export", ulb_save_sna(OWN(&m), m.ram, m.ram_len, written, size, registers, ULB_REGISTER_BYTES), 0);
    file[26] = 5;
    CHECK("gives the file back, with the border as a colour", memcmp(written, file, size), 0);
    CHECK("and changes no record", memcmp(m.state, fresh, sizeof fresh), 0);

    CHECK("border write", out(&m, 0x00FE, 6), 0);
    CHECK("export in mid-frame", ulb_save_sna(OWN(&m), m.ram, m.ram_len, written, size, registers, ULB_REGISTER_BYTES), 0);
    CHECK("has the border that is now reported", written[26], 6);
}

static void snapshots(void) {
    uint8_t *file = room(ULB_SNA_BYTES_48K, 0);
    fill_banks(file + 27, (const uint8_t[]){0, 1, 2}, 3);
    one_snapshot(ULB_48K, file, ULB_SNA_BYTES_48K, 0);

    file = room(ULB_SNA_BYTES_128K, 0);
    fill_banks(file + 27, (const uint8_t[]){5, 2, 4}, 3);
    fill_banks(file + 49183, (const uint8_t[]){0, 1, 3, 6, 7}, 5);
    one_snapshot(ULB_128K, file, ULB_SNA_BYTES_128K, 0x34); /* locked */

    file = room(ULB_SNA_BYTES_128K_TWICE, 0);
    fill_banks(file + 27, (const uint8_t[]){5, 2, 2}, 3);
    fill_banks(file + 49183, (const uint8_t[]){0, 1, 3, 4, 6, 7}, 6);
    one_snapshot(ULB_128K, file, ULB_SNA_BYTES_128K_TWICE, 0xCA);
    fill_banks(file + 27, (const uint8_t[]){5, 2, 5}, 3);
    one_snapshot(ULB_128K, file, ULB_SNA_BYTES_128K_TWICE, 0x05);
}

static void helpers(void) {
    static const struct { uint8_t (*call)(uint32_t, uint8_t *, size_t); uint32_t n; unsigned long gives; } rows[] = {
        {ulb_bitmap_line_addr, 0, 0x4000}, {ulb_bitmap_line_addr, 1, 0x4100}, {ulb_bitmap_line_addr, 191, 0x57E0},
        {ulb_bitmap_line_rel, 0, 0}, {ulb_bitmap_line_rel, 0x0100, 1}, {ulb_bitmap_line_rel, 0x17FF, 191},
        {ulb_bitmap_col_rel, 0x0020, 0}, {ulb_bitmap_col_rel, 0x17FF, 31},
        {ulb_attr_row_rel, 0x1800, 0}, {ulb_attr_row_rel, 0x1AFF, 23},
        {ulb_attr_col_rel, 0x1800, 0}, {ulb_attr_col_rel, 0x1AFF, 31},
        {ulb_color_from_bits, 0, 0}, {ulb_color_from_bits, 7, 7},
    };
    uint8_t *answer = room(5, 0xAA);
    for (size_t i = 0; i < sizeof rows / sizeof *rows; i++) {
        memset(answer, 0xAA, 5);
        CHECK("helper", rows[i].call(rows[i].n, answer, 5), 0);
        CHECK("helper's answer", answer[0], 0);
        CHECK("helper's number", word32(answer + 1), rows[i].gives);
    }
}

/* The wall drawing: a wait that runs over the frame's end paints nothing of the new frame into the finished one. */
static void left_over(void) {
    machine m = make(ULB_48K);
    start(&m, ULB_48K);
    poke(&m, 0x4000, 0xFF);
    poke(&m, 0x5800, 0x07);
    wait_plain(&m, 60000);
    CHECK("all blocks", painted(&m), 6144);
    poke(&m, 0x4000, 0x00);
    CHECK("over the end by 40,000", wait_plain(&m, 49888), 0);
    CHECK("one frame closed", m.answer[2], 1);
    CHECK("no block of it painted", painted(&m), 0);
    CHECK("the finished picture has the old byte", m.b[0], 7);
    CHECK("painted is 0", m.state[15] | m.state[16], 0);
    wait_plain(&m, 0);
    CHECK("the next step paints the left-over blocks", painted(&m) > 0, 1);
    CHECK("into the other picture", m.a[0], 0);
}

static void fault(const void *where) { printf("calls: a fault at %p: outside a slice\n", where); }

int main(void) {
    on_fault(fault);
    starts();
    run_only();
    waits_at_addresses();
    ports();
    pages_and_parts();
    bytes_and_paging();
    stills();
    all_screen_files();
    mid_frames();
    snapshots();
    helpers();
    left_over();
    printf("calls: %u checks, %u failed\n", checks, failures);
    return failures != 0;
}
