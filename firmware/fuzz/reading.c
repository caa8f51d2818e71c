/* reading.c: see reading.h. The order is document 01's, and its words, or document 02's, stand above each part. */
#include "reading.h"
#include <string.h>

#define BIT(s) (1u << (s))
#define PAINTED (BIT(A) | BIT(B) | BIT(BORDER))
#define TIMED (BIT(STATE) | BIT(RAM) | PAINTED | BIT(ANSWER))

const call_shape shapes[KINDS] = {
    {"ulb_start", BIT(STATE) | BIT(RAM) | PAINTED, BIT(STATE) | BIT(RAM) | PAINTED, 0},
    {"ulb_start_colour", BIT(STATE) | BIT(RAM) | PAINTED, BIT(STATE) | BIT(RAM) | PAINTED, 0},
    {"ulb_load_sna", BIT(STATE) | BIT(RAM) | BIT(SNA) | BIT(REGISTERS) | PAINTED,
     BIT(STATE) | BIT(RAM) | BIT(REGISTERS) | PAINTED, 0},
    {"ulb_wait_internal", TIMED, BIT(STATE) | PAINTED | BIT(ANSWER), 10},
    {"ulb_wait_mreq", TIMED, BIT(STATE) | PAINTED | BIT(ANSWER), 10},
    {"ulb_wait_no_mreq", TIMED, BIT(STATE) | PAINTED | BIT(ANSWER), 10},
    {"ulb_read_io", TIMED | BIT(DEVICES), BIT(STATE) | PAINTED | BIT(ANSWER), 10},
    {"ulb_write_io", TIMED | BIT(DEVICES), BIT(STATE) | PAINTED | BIT(ANSWER), 10},
    {"ulb_read_internal", BIT(STATE) | BIT(ROM) | BIT(RAM) | BIT(ANSWER), BIT(ANSWER), 5},
    {"ulb_write_internal", BIT(STATE) | BIT(RAM), BIT(RAM), 0},
    {"ulb_write_7ffd", BIT(STATE) | BIT(ANSWER), BIT(STATE) | BIT(ANSWER), 5},
    {"ulb_read_7ffd", BIT(STATE) | BIT(ANSWER), BIT(ANSWER), 5},
    {"ulb_int_active", BIT(STATE) | BIT(ANSWER), BIT(ANSWER), 5},
    {"ulb_frames_count", BIT(STATE) | BIT(ANSWER), BIT(ANSWER), 5},
    {"ulb_reset_frame_counter", BIT(STATE), BIT(STATE), 0},
    {"ulb_load_page", BIT(STATE) | BIT(RAM) | BIT(BYTES), BIT(RAM), 0},
    {"ulb_save_scr", BIT(STATE) | BIT(RAM) | BIT(SCR), BIT(SCR), 0},
    {"ulb_load_scr", BIT(STATE) | BIT(RAM) | BIT(SCR), BIT(RAM), 0},
    {"ulb_save_sna", BIT(STATE) | BIT(RAM) | BIT(SNA) | BIT(REGISTERS), BIT(SNA), 0},
    {"ulb_ram_page", BIT(STATE) | BIT(RAM) | BIT(ANSWER), BIT(ANSWER), 5},
    {"ulb_block", BIT(STATE) | BIT(ROM) | BIT(RAM) | BIT(ANSWER), BIT(ANSWER), 5},
    {"ulb_shown_picture", BIT(STATE) | BIT(A) | BIT(B) | BIT(ANSWER), BIT(ANSWER), 5},
    {"ulb_still_picture", BIT(STATE) | BIT(RAM) | BIT(PICTURE), BIT(PICTURE), 0},
    {"ulb_bitmap_line_addr", BIT(ANSWER), BIT(ANSWER), 5},
    {"ulb_bitmap_line_rel", BIT(ANSWER), BIT(ANSWER), 5},
    {"ulb_bitmap_col_rel", BIT(ANSWER), BIT(ANSWER), 5},
    {"ulb_attr_row_rel", BIT(ANSWER), BIT(ANSWER), 5},
    {"ulb_attr_col_rel", BIT(ANSWER), BIT(ANSWER), 5},
    {"ulb_color_from_bits", BIT(ANSWER), BIT(ANSWER), 5},
};

/* ---- "Numbers of the two machines" --------------------------------------------------------------------------------- */

const numbers machines[2] = {
    {224, 69888, 14335, 14338, 8945, 49152, 16384},
    {228, 70908, 14361, 14364, 8875, 131072, 32768},
};

/* "Zero before the contention origin and from 192 lines after it. Otherwise let x be the clocks since the origin modulo the
 * line. From 128 on the delay is 0, below that it is entry x mod 8 of 6 5 4 3 2 1 0 0." */
uint32_t delay_at(const numbers *n, uint32_t clock) {
    static const uint8_t pattern[8] = {6, 5, 4, 3, 2, 1, 0, 0};
    if (clock < n->contention || clock >= n->contention + 192 * n->line) return 0;
    uint32_t x = (clock - n->contention) % n->line;
    return x < 128 ? pattern[x % 8] : 0;
}

/* "Before the block origin 0. Otherwise with c clocks since it: line c / line length, column (c mod line length) / 4 + 1; a
 * column above 32 becomes column 0 of the next line; line 192 or later is 6,144. Position = 32 x line + column." */
uint32_t block_position(const numbers *n, uint32_t clock) {
    if (clock < n->block) return 0;
    uint32_t c = clock - n->block, line = c / n->line, column = c % n->line / 4 + 1;
    if (column > 32) {
        column = 0;
        line++;
    }
    return line >= 192 ? 6144 : 32 * line + column;
}

/* "Before the border origin 0. Otherwise line c / line length and pixel 2 x (c mod line length + 1); a pixel above 320 becomes
 * pixel 0 of the next line; line 240 or later is frame end. Position = 320 x line + pixel, always even." */
uint32_t border_position(const numbers *n, uint32_t clock, bool *end) {
    *end = false;
    if (clock < n->border) return 0;
    uint32_t c = clock - n->border, line = c / n->line, pixel = 2 * (c % n->line + 1);
    if (pixel > 320) {
        pixel = 0;
        line++;
    }
    *end = line >= 240;
    return *end ? 76800 : 320 * line + pixel;
}

/* ---- "Lent memory" ------------------------------------------------------------------------------------------------- */

static uint32_t word32(const uint8_t *p) {
    return p[0] | (uint32_t)p[1] << 8 | (uint32_t)p[2] << 16 | (uint32_t)p[3] << 24;
}

static void put32(uint8_t *p, uint32_t v) {
    for (int i = 0; i < 4; i++) p[i] = (uint8_t)(v >> 8 * i);
}

static void put16(uint8_t *p, unsigned v) {
    p[0] = (uint8_t)v;
    p[1] = (uint8_t)(v >> 8);
}

/* "`ULB`; version 1 (16 bits); machine; frame clock (32); passed frames (32); flash phase 0..31; blocks painted (16); last 7FFD
 * byte; reported border 0..7; beam colour 0..7; beam blocked 0/1; beam position in pixel pairs (16)." */
void encode(const record *r, uint8_t bytes[23]) {
    memcpy(bytes, "ULB\1\0", 5);
    bytes[5] = (uint8_t)r->machine;
    put32(bytes + 6, r->clock);
    put32(bytes + 10, r->passed);
    bytes[14] = (uint8_t)r->phase;
    put16(bytes + 15, r->painted);
    bytes[17] = (uint8_t)r->paging;
    bytes[18] = (uint8_t)r->reported;
    bytes[19] = (uint8_t)r->colour;
    bytes[20] = (uint8_t)r->blocked;
    put16(bytes + 21, r->pairs);
}

/* "It is sound if mark, version and ranges hold, frame clock < frame, blocks painted <= block position of the frame clock, beam
 * pairs <= half the border position (38,400 at frame end), blocked only at frame end with pairs 0, and the 7FFD byte is 0 on
 * 48K." */
bool sound(const uint8_t bytes[23], record *r) {
    if (memcmp(bytes, "ULB\1\0", 5) != 0 || bytes[5] > 1) return false;
    const numbers *n = &machines[bytes[5]];
    bool end;
    r->machine = bytes[5];
    r->clock = word32(bytes + 6);
    r->passed = word32(bytes + 10);
    r->phase = bytes[14];
    r->painted = bytes[15] | bytes[16] << 8;
    r->paging = bytes[17];
    r->reported = bytes[18];
    r->colour = bytes[19];
    r->blocked = bytes[20];
    r->pairs = bytes[21] | bytes[22] << 8;
    if (r->clock >= n->frame || r->phase > 31 || r->reported > 7 || r->colour > 7 || r->blocked > 1) return false;
    if (r->painted > block_position(n, r->clock)) return false;
    if (r->pairs > border_position(n, r->clock, &end) / 2) return false;
    if (r->blocked && (!end || r->pairs != 0)) return false;
    return r->machine == 1 || r->paging == 0;
}

size_t right_length(slice s, unsigned machine, unsigned answer) {
    switch (s) {
        case STATE: return 23;
        case DEVICES: return 35;
        case ROM: return machines[machine].rom;
        case RAM: return machines[machine].ram;
        case BYTES: return 16384;
        case SCR: return 6912;
        case SNA: return sna_size(machine, 5);
        case REGISTERS: return 30;
        case BORDER: return 76800;
        case ANSWER: return answer;
        default: return 49152;
    }
}

/* ---- The files of snapshots: 02, Q-4 -------------------------------------------------------------------------------- */

/* "131,103 bytes, or 147,487 when bank 5 or 2 is the paged one and so stands twice" */
static bool stands_twice(unsigned paging) { return (paging & 7) == 5 || (paging & 7) == 2; }

/* "the 48K form of 49,179 bytes", and the 128K form */
size_t sna_size(unsigned machine, unsigned paging) {
    if (machine == 0) return 49179;
    return stands_twice(paging) ? 147487 : 131103;
}

/* "27 header bytes, border colour in byte 26, then RAM from 4000h .. and the 128K form: the same, with banks 5, 2 and the
 * paged one, then PC, the 7FFD byte, a TR-DOS byte and the remaining banks": where the file's banks begin, counted from
 * 0, and the bytes between the third and the fourth. */
enum { HEADER = 27, BORDER_AT = 26, PC_AT = 49179, TR_DOS_AT = 49182 };
static size_t bank_at(unsigned i) { return HEADER + 16384 * i + (i < 3 ? 0 : 4); }

/* "RAM from 4000h"; "banks 5, 2 and the paged one, .. and the remaining banks in rising order": which they are, and how
 * many. */
static unsigned banks_of(unsigned machine, unsigned paging, unsigned bank[9]) {
    unsigned n = 3;
    bank[0] = machine == 0 ? 0 : 5;
    bank[1] = machine == 0 ? 1 : 2;
    bank[2] = machine == 0 ? 2 : paging & 7;
    for (unsigned k = 0; machine == 1 && k < 8; k++)
        if (k != bank[0] && k != bank[1] && k != bank[2]) bank[n++] = k;
    return n;
}

/* "10 when the size is not the one due for the machine and, on 128K, for the file's 7FFD byte, or the record's when
 * writing (a file too short to hold that byte included)" */
static bool wrong_size(const call *c, const record *r, const uint8_t *sna) {
    size_t size = c->length[SNA];
    unsigned paging = r->paging;
    if (c->kind == LOAD_SNA && r->machine == 1) {
        if (size <= SNA_PAGING_AT) return true;
        paging = sna[SNA_PAGING_AT];
    }
    return size != sna_size(r->machine, paging);
}

/* "Where the two copies differ the file is refused." */
static bool copies_differ(const uint8_t *sna) {
    unsigned paging = sna[SNA_PAGING_AT];
    const uint8_t *first = sna + bank_at((paging & 7) == 5 ? 0 : 1), *second = sna + bank_at(2);
    return stands_twice(paging) && memcmp(first, second, 16384) != 0;
}

/* ---- "Eight refusals": "Order: 1, record length, 3, other lengths, 4, 5, 6, 7, 8."; 9 "after 7" (02, Q-2); 10, "then 11
 * for unequal copies, both after 2" (02, Q-4) ----------------------------------------------------------------------- */

bool is_start(call_kind k) { return k == START || k == START_COLOUR || k == LOAD_SNA; }
static bool is_wait(call_kind k) { return k == WAIT_INTERNAL || k == WAIT_MREQ || k == WAIT_NO_MREQ; }
static bool is_port(call_kind k) { return k == READ_IO || k == WRITE_IO; }
static bool names_page(call_kind k) { return k == LOAD_PAGE || k == LOAD_SCR || k == RAM_PAGE; }

/* "Flags and tape bit are 0 or 1." */
static bool flags_hold(const uint8_t *devices) {
    return devices[24] <= 1 && devices[25] <= 1 && devices[27] <= 1 && devices[29] <= 1 && devices[31] <= 1;
}

/* "line 191, bitmap 17FFh, attributes 1800h to 1AFFh, colour 7, block 3, still-picture flash 1"; of the second start
 * "colour above 7 is 8, after 1 and 2" (02, Q-3) */
static bool out_of_range(const call *c) {
    uint32_t number = c->number;
    switch (c->kind) {
        case START_COLOUR: return c->colour > 7;
        case BITMAP_LINE_ADDR: return number > 191;
        case BITMAP_LINE_REL:
        case BITMAP_COL_REL: return number > 0x17FF;
        case ATTR_ROW_REL:
        case ATTR_COL_REL: return number < 0x1800 || number > 0x1AFF;
        case COLOR_FROM_BITS: return number > 7;
        case BLOCK: return number > 3;
        case STILL_PICTURE: return number > 1;
        default: return false;
    }
}

/* "a named video page (0 on 48K; 5 or 7 on 128K)" (02, Q-2) */
static bool is_video_page(unsigned machine, uint32_t page) { return machine == 0 ? page == 0 : page == 5 || page == 7; }

unsigned refusal_of(const call *c, const uint8_t *state, const uint8_t *devices, const uint8_t *sna) {
    const call_shape *shape = &shapes[c->kind];
    record r = {0, 0, 0, 0, 0, 0, 0, 0, 0, 0};
    if (is_start(c->kind)) {
        if (c->number > 1) return 1;
        r.machine = c->number;
    }
    if (shape->lent & BIT(STATE)) {
        if (c->length[STATE] != 23) return 2;
        if (!is_start(c->kind) && !sound(state, &r)) return 3;
    }
    for (slice s = STATE; s < SLICES; s++)
        if (shape->lent & BIT(s) && s != SNA && c->length[s] != right_length(s, r.machine, shape->answer)) return 2;
    if (is_port(c->kind) && !flags_hold(devices)) return 4;
    if (is_wait(c->kind) && c->number > 65535) return 5;
    if ((is_wait(c->kind) || is_port(c->kind)) && r.passed == 4294967295u) return 6;
    if (names_page(c->kind) && c->number > (r.machine == 0 ? 2u : 7u)) return 7;
    if (c->kind == LOAD_SCR && !is_video_page(r.machine, c->number)) return 9;
    if (out_of_range(c)) return 8;
    if (shape->lent & BIT(SNA) && wrong_size(c, &r, sna)) return 10;
    return c->kind == LOAD_SNA && r.machine == 1 && copies_differ(sna) ? 11 : 0;
}

/* ---- "Start, time and paint" ----------------------------------------------------------------------------------------- */

/* What a call works on, and what it counts. */
typedef struct {
    const numbers *n;
    record r;
    world *w;
    uint32_t clocks, blocks;
    bool closed;
} bus;

/* The display file: offset of a line's first byte. */
static unsigned line_offset(unsigned line) { return (line & 7) << 8 | (line & 0x38) << 2 | (line & 0xC0) << 5; }

/* "A block takes bitmap and attribute from the shown page ..; a pixel is ink when its bit differs from (attribute flash and
 * flash on), else paper." */
static void paint_block(uint8_t *picture, const uint8_t *page, unsigned k, bool flash) {
    unsigned line = k / 32, column = k % 32;
    unsigned bitmap = page[line_offset(line) + column], attribute = page[0x1800 + 32 * (line / 8) + column];
    unsigned bright = attribute & 0x40 ? 8 : 0, ink = (attribute & 7) + bright, paper = (attribute >> 3 & 7) + bright;
    bool turned = (attribute & 0x80) && flash;
    for (unsigned x = 0; x < 8; x++) {
        bool bit = bitmap >> (7 - x) & 1;
        picture[256 * line + 8 * column + x] = (uint8_t)(bit != turned ? ink : paper);
    }
}

unsigned shown_page(const record *r) { return r->machine == 0 ? 0 : r->paging & 8 ? 7 : 5; }

static void fill(bus *b, unsigned from, unsigned to) {
    for (unsigned i = from; i < to; i++) b->w->border[i] = (uint8_t)b->r.colour;
}

/* "Closing sets painted to 0, raises passed frames by one and the phase by one modulo 32, and finishes the border." "Closing
 * fills the rest unless blocked, and clears both." */
static void close_frame(bus *b) {
    b->r.painted = 0;
    b->r.passed++;
    b->r.phase = (b->r.phase + 1) % 32;
    if (!b->r.blocked) fill(b, 2 * b->r.pairs, 76800);
    b->r.blocked = 0;
    b->r.pairs = 0;
    b->closed = true;
}

/* "A step of n clocks adds n, catches up the screen, then, if the clock is at or past the frame, subtracts one frame and closes
 * it." "flash is on in phases 1 to 16"; "A is shown in even phases, B in odd", the other one is painted. */
static void step(bus *b, uint32_t n) {
    b->r.clock += n;
    b->clocks += n;
    uint32_t to = block_position(b->n, b->r.clock);
    for (; b->r.painted < to; b->r.painted++, b->blocks++)
        paint_block(b->w->picture[b->r.phase % 2 == 0], b->w->ram + 16384 * shown_page(&b->r), b->r.painted,
                    b->r.phase >= 1 && b->r.phase <= 16);
    if (b->r.clock >= b->n->frame) {
        b->r.clock -= b->n->frame;
        close_frame(b);
    }
}

/* "A border write fills from the beam position to the write's position in the old beam colour, then moves there with the new
 * colour. At frame end it fills to 76,800, sets blocked and beam 0; later writes in that frame only change the colour." */
static void write_border(bus *b, unsigned colour) {
    bool end;
    uint32_t to = border_position(b->n, b->r.clock, &end);
    if (!b->r.blocked) {
        fill(b, 2 * b->r.pairs, to);
        b->r.pairs = end ? 0 : to / 2;
        b->r.blocked = end;
    }
    b->r.colour = b->r.reported = colour;
}

/* ---- "Bus calls" ------------------------------------------------------------------------------------------------------ */

/* "Block 0 is the ROM page; 48K blocks 1 to 3 are RAM 0, 1, 2. On 128K they are RAM 5, 2 and bits 0..2 of the 7FFD byte". */
static unsigned ram_of_block(const record *r, unsigned block) {
    if (r->machine == 0) return block - 1;
    return block == 1 ? 5 : block == 2 ? 2 : r->paging & 7;
}

/* "contended RAM pages: 0" and "1, 3, 5, 7" */
static bool contended(const record *r, uint16_t addr) {
    unsigned block = addr >> 14;
    if (block == 0) return false;
    unsigned page = ram_of_block(r, block);
    return r->machine == 0 ? page == 0 : page % 2 == 1;
}

static void wait_delay(bus *b, uint32_t more) { step(b, delay_at(b->n, b->r.clock) + more); }

static void first_part(bus *b, uint16_t port) {
    if (contended(&b->r, port)) wait_delay(b, 0);
    step(b, 1);
}

static void last_part(bus *b, uint16_t port) {
    if (port % 2 == 0) {
        wait_delay(b, 2);
    } else if (contended(&b->r, port)) {
        wait_delay(b, 1);
        wait_delay(b, 1);
        wait_delay(b, 0);
    } else {
        step(b, 2);
    }
}

/* "AND of the rows whose high port bit is 0, over three sets, bit 6 toggled if the tape bit is 0" */
static unsigned keys(const uint8_t *d, uint16_t port) {
    unsigned value = 0xFF;
    for (unsigned i = 0; i < 24; i++)
        if (!(port >> (8 + i % 8) & 1)) value &= d[i];
    return d[24] ? value : value ^ 0x40;
}

/* "FFh before the origin, from row 192, from r = 124, or when r mod 8 > 3. Else column 2 x (r / 8) + (r mod 8) / 2, the bitmap
 * byte if r is even, the attribute if odd." It reads through 4000h. */
static unsigned floating_bus(const bus *b) {
    if (b->r.clock < b->n->block) return 0xFF;
    uint32_t c = b->r.clock - b->n->block, row = c / b->n->line, r = c % b->n->line;
    if (row >= 192 || r >= 124 || r % 8 > 3) return 0xFF;
    const uint8_t *page = b->w->ram + 16384 * ram_of_block(&b->r, 1);
    uint32_t column = 2 * (r / 8) + r % 8 / 2;
    return r % 2 == 0 ? page[line_offset(row) + column] : page[0x1800 + 32 * (row / 8) + column];
}

/* "Read order" */
static unsigned read_value(const bus *b, const uint8_t *d, uint16_t port) {
    if (d[25]) return d[26];
    if (port % 2 == 0) return keys(d, port);
    if (d[31]) {
        if ((port & 0x0121) == 0x0001) return d[32];
        if ((port & 0x0521) == 0x0101) return d[33];
        if ((port & 0x0521) == 0x0501) return d[34];
    }
    if ((port & 0xC002) == 0xC000) return d[27] ? d[28] : floating_bus(b);
    if (d[29] && (port & 0x00E0) == 0) return d[30];
    return floating_bus(b);
}

/* "The 7FFD write answers 5, 6, or on 48K 0 with nothing changed." "bit 5 locks after that same write has remapped" */
static unsigned write_7ffd(record *r, uint8_t value) {
    if (r->machine == 0) return 0;
    if (r->paging & 0x20) return 6;
    r->paging = value;
    return 5;
}

/* "Write order, with its code" */
static unsigned write_port(bus *b, const uint8_t *d, uint16_t port, uint8_t value) {
    if (d[25]) return 1;
    if ((port & 0xC002) == 0xC000) return 2;
    if ((port & 0xC002) == 0x8000) return 3;
    if (port % 2 == 0) {
        write_border(b, value & 7);
        return 4;
    }
    return (port & 0x8002) == 0 ? write_7ffd(&b->r, value) : 0;
}

static unsigned timed(bus *b, const call *c, const uint8_t *devices) {
    unsigned value = 0;
    if (is_wait(c->kind)) {
        if (c->kind != WAIT_INTERNAL && contended(&b->r, c->addr)) wait_delay(b, 0);
        step(b, c->number);
        return 0;
    }
    first_part(b, c->addr);
    if (c->kind == WRITE_IO) value = write_port(b, devices, c->addr, c->value);
    last_part(b, c->addr);
    if (c->kind == READ_IO) value = read_value(b, devices, c->addr);
    step(b, 1);
    return value;
}

/* Where the 16 KiB at a block start, RAM counted after ROM. */
static uint32_t block_start(const bus *b, unsigned block) {
    if (block == 0) return b->r.machine == 1 && b->r.paging & 0x10 ? 16384 : 0;
    return (uint32_t)b->n->rom + 16384 * ram_of_block(&b->r, block);
}

static uint8_t *byte_at(bus *b, uint16_t addr) {
    uint32_t at = block_start(b, addr >> 14) + addr % 16384;
    return at < b->n->rom ? b->w->rom + at : b->w->ram + (at - b->n->rom);
}

/* Where byte `i` of a page's screen file stands: "SCR files: 6,144 bitmap bytes in page order, then 768 attribute
 * bytes" (02, Q-2). */
static uint8_t *screen_byte(bus *b, unsigned page, unsigned i) {
    return b->w->ram + 16384 * page + (i < 6144 ? i : 0x1800 + (i - 6144));
}

/* Calls with a number to give. */
static uint32_t told(bus *b, const call *c) {
    uint32_t n = c->number;
    switch (c->kind) {
        case READ_INTERNAL: return *byte_at(b, c->addr);
        case WRITE_7FFD: return write_7ffd(&b->r, c->value);
        case READ_7FFD: return b->r.paging;
        case INT_ACTIVE: return b->r.clock < 32;
        case FRAMES_COUNT: return b->r.passed;
        case RAM_PAGE: return (uint32_t)b->n->rom + 16384 * n;
        case BLOCK: return block_start(b, n);
        case SHOWN_PICTURE: return b->r.phase % 2 == 0 ? 0 : 49152;
        case BITMAP_LINE_ADDR: return 0x4000 + line_offset(n);
        case BITMAP_LINE_REL: return 64 * (n >> 11) + 8 * (n >> 5 & 7) + (n >> 8 & 7);
        case ATTR_ROW_REL: return (n - 0x1800) / 32;
        case BITMAP_COL_REL:
        case ATTR_COL_REL: return n % 32;
        default: return n; /* COLOR_FROM_BITS */
    }
}

/* "Start clears RAM, pictures and border to 0 and writes a record of zeros but for mark, version, machine and beam
 * colour 7." In the place of that 7: "Start shall set the beam colour to 0, as the reported border already is", and
 * beside it is "a second start that takes the beam colour" (02, Q-3). */
static void start(bus *b, unsigned machine, unsigned colour) {
    record fresh = {0, 0, 0, 0, 0, 0, 0, 0, 0, 0};
    fresh.machine = machine;
    fresh.colour = colour;
    b->r = fresh;
    memset(b->w->ram, 0, machines[machine].ram);
    memset(b->w->picture, 0, sizeof b->w->picture);
    memset(b->w->border, 0, sizeof b->w->border);
}

/* "The import writes RAM and a fresh record with border, paging and lock, clears pictures and border as a start does, and
 * hands back the header for the Z80 and, for 128K, PC and the TR-DOS byte. Border and beam colour both take the low three
 * bits of byte 26." (02, Q-4) The header is handed back as it stands; on 48K the bytes behind it are 0, and so is the 7FFD
 * byte. */
static void load_sna(bus *b, unsigned machine) {
    const uint8_t *file = b->w->sna;
    uint8_t *registers = b->w->registers;
    unsigned paging = machine == 0 ? 0 : file[SNA_PAGING_AT], bank[9], n = banks_of(machine, paging, bank);
    start(b, machine, file[BORDER_AT] & 7);
    b->r.reported = file[BORDER_AT] & 7;
    b->r.paging = paging;
    for (unsigned i = 0; i < n; i++) memcpy(b->w->ram + 16384 * bank[i], file + bank_at(i), 16384);
    memcpy(registers, file, HEADER);
    registers[27] = machine == 0 ? 0 : file[PC_AT];
    registers[28] = machine == 0 ? 0 : file[PC_AT + 1];
    registers[29] = machine == 0 ? 0 : file[TR_DOS_AT];
}

/* "The writer is wanted too, from a lent header, PC and TR-DOS byte, with the reported border in byte 26" (02, Q-4); the
 * 7FFD byte is the record's. */
static void save_sna(const bus *b) {
    uint8_t *file = b->w->sna;
    const uint8_t *registers = b->w->registers;
    unsigned bank[9], n = banks_of(b->r.machine, b->r.paging, bank);
    memcpy(file, registers, HEADER);
    file[BORDER_AT] = (uint8_t)b->r.reported;
    for (unsigned i = 0; i < n; i++) memcpy(file + bank_at(i), b->w->ram + 16384 * bank[i], 16384);
    if (b->r.machine == 0) return;
    file[PC_AT] = registers[27];
    file[PC_AT + 1] = registers[28];
    file[SNA_PAGING_AT] = (uint8_t)b->r.paging;
    file[TR_DOS_AT] = registers[29];
}

void carry_out(const call *c, uint8_t state[23], const uint8_t devices[35], world *w, uint8_t answer[10]) {
    bus b = {&machines[0], {0, 0, 0, 0, 0, 0, 0, 0, 0, 0}, w, 0, 0, false};
    bool has_state = shapes[c->kind].lent & BIT(STATE);
    if (c->kind == START) start(&b, c->number, 0);
    else if (c->kind == START_COLOUR) start(&b, c->number, c->colour);
    else if (c->kind == LOAD_SNA) load_sna(&b, c->number);
    else if (has_state) sound(state, &b.r);
    b.n = &machines[b.r.machine];
    if (shapes[c->kind].answer == 10) {
        unsigned value = timed(&b, c, devices);
        answer[0] = 0;
        answer[1] = (uint8_t)value;
        answer[2] = b.closed;
        answer[3] = b.r.clock < 32;
        put32(answer + 4, b.clocks);
        put16(answer + 8, b.blocks);
    } else if (shapes[c->kind].answer == 5) {
        answer[0] = 0;
        put32(answer + 1, told(&b, c));
    } else if (c->kind == WRITE_INTERNAL) {
        if (c->addr >= 0x4000) *byte_at(&b, c->addr) = c->value;
    } else if (c->kind == RESET_FRAME_COUNTER) {
        b.r.passed = 0;
    } else if (c->kind == LOAD_PAGE) {
        memcpy(w->ram + 16384 * c->number, w->bytes, 16384);
    } else if (c->kind == SAVE_SCR) { /* "from the shown page into a lent slice" */
        for (unsigned i = 0; i < 6912; i++) w->file[i] = *screen_byte(&b, shown_page(&b.r), i);
    } else if (c->kind == LOAD_SCR) { /* "into a named video page", and the rest of RAM stays */
        for (unsigned i = 0; i < 6912; i++) *screen_byte(&b, c->number, i) = w->file[i];
    } else if (c->kind == SAVE_SNA) {
        save_sna(&b);
    } else if (c->kind == STILL_PICTURE) { /* request Q-1: "the page now shown, by bit 3 of the 7FFD byte" */
        for (unsigned k = 0; k < 6144; k++) paint_block(w->still, w->ram + 16384 * shown_page(&b.r), k, c->number == 1);
    }
    if (has_state) encode(&b.r, state);
}
