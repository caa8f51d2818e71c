/* ulb_machine.c: see ulb_machine.h. Each function lends the machine's buffers to one call of ulb.h and decodes its answer. */
#include "ulb_machine.h"
#include <string.h>

/* The slices that a call is lent, in ulb.h's order. */
#define STATE m->state, sizeof m->state
#define DEVICES m->devices, sizeof m->devices
#define ROM m->rom, m->rom_len
#define RAM m->ram, m->ram_len
#define PICTURES m->a, sizeof m->a, m->b, sizeof m->b
#define PAINTED PICTURES, m->border, sizeof m->border

/* Where things stand in the state record (docs/LAYOUTS.md). */
enum { KIND_AT = 5, PAGING_AT = 17 };

/* How far ram[0] lies from rom[0] in the struct. */
#define RAM_FROM_ROM (offsetof(ulb_machine, ram) - offsetof(ulb_machine, rom))

static uint16_t word16(const uint8_t *p) { return (uint16_t)(p[0] | p[1] << 8); }
static uint32_t word32(const uint8_t *p) { return word16(p) | (uint32_t)word16(p + 2) << 16; }
static void put16(uint8_t *p, uint16_t v) {
    p[0] = (uint8_t)v;
    p[1] = (uint8_t)(v >> 8);
}

static ulb_timed timed(uint8_t refusal, const uint8_t *answer) {
    ulb_timed t;
    t.refusal = refusal;
    t.value = answer[1];
    t.closed = answer[2] != 0;
    t.interrupt = answer[3] != 0;
    t.clocks = word32(answer + 4);
    t.blocks = word16(answer + 8);
    return t;
}

static ulb_number numbered(uint8_t refusal, const uint8_t *answer) {
    ulb_number n;
    n.refusal = refusal;
    n.number = word32(answer + 1);
    return n;
}

static ulb_part refused_part(uint8_t refusal) {
    ulb_part p = {0, NULL, 0, false};
    p.refusal = refusal;
    return p;
}

/* A part of RAM or ROM by its start, RAM counted after ROM. */
static ulb_part memory_part(const ulb_machine *m, ulb_number start) {
    if (start.refusal != ULB_OK) return refused_part(start.refusal);
    ulb_part p;
    p.refusal = ULB_OK;
    p.in_rom = start.number < m->rom_len;
    p.bytes = p.in_rom ? m->rom + start.number : m->ram + (start.number - m->rom_len);
    p.len = ULB_PAGE_BYTES;
    return p;
}

/* Asks ulb_block where each block starts. Needed whenever the 7FFD byte may have changed, and only then: after a start, after
 * a write that answered ULB_PAGED, and after a record from outside (contracts' theorem `map-stays`). Refused: the map stays. */
static uint8_t renew_map(ulb_machine *m) {
    uint32_t map[4];
    for (uint32_t block = 0; block < 4; block++) {
        ulb_part part = ulb_machine_block(m, block);
        if (part.refusal != ULB_OK) return part.refusal;
        map[block] = (uint32_t)(part.in_rom ? part.bytes - m->rom : part.bytes - m->ram + (ptrdiff_t)RAM_FROM_ROM);
    }
    memcpy(m->map, map, sizeof m->map);
    return ULB_OK;
}

static size_t rom_bytes(uint32_t kind) { return kind == ULB_48K ? ULB_ROM_BYTES_48K : ULB_ROM_BYTES_128K; }
static size_t ram_bytes(uint32_t kind) { return kind == ULB_48K ? ULB_RAM_BYTES_48K : ULB_RAM_BYTES_128K; }

/* What a first start judges by itself, before its call is made. */
static uint8_t judge_kind_and_rom(uint32_t kind, const uint8_t *rom, size_t rom_len) {
    if (kind > ULB_128K) return ULB_BAD_MACHINE;
    return rom == NULL || rom_len != rom_bytes(kind) ? ULB_BAD_LENGTH : ULB_OK;
}

/* What a first start writes besides, once its call was accepted. */
static uint8_t furnish(ulb_machine *m, uint32_t kind, const uint8_t *rom) {
    m->kind = kind;
    m->rom_len = rom_bytes(kind);
    m->ram_len = ram_bytes(kind);
    memcpy(m->rom, rom, m->rom_len);
    ulb_machine_no_devices(m);
    return renew_map(m);
}

uint8_t ulb_machine_init_colour(ulb_machine *m, uint32_t kind, const uint8_t *rom, size_t rom_len, uint32_t colour) {
    uint8_t refusal = judge_kind_and_rom(kind, rom, rom_len);
    /* before all else that is written: it judges the colour, and refused it leaves the machine as it was */
    if (refusal == ULB_OK) refusal = ulb_start_colour(STATE, m->ram, ram_bytes(kind), PAINTED, kind, colour);
    return refusal == ULB_OK ? furnish(m, kind, rom) : refusal;
}

uint8_t ulb_machine_init(ulb_machine *m, uint32_t kind, const uint8_t *rom, size_t rom_len) {
    return ulb_machine_init_colour(m, kind, rom, rom_len, 0);
}

uint8_t ulb_machine_restart_colour(ulb_machine *m, uint32_t colour) {
    uint8_t refusal = ulb_start_colour(STATE, RAM, PAINTED, m->kind, colour);
    return refusal == ULB_OK ? renew_map(m) : refusal;
}

uint8_t ulb_machine_restart(ulb_machine *m) { return ulb_machine_restart_colour(m, 0); }

uint8_t ulb_machine_init_sna(ulb_machine *m, uint32_t kind, const uint8_t *rom, size_t rom_len, const uint8_t *file,
                             size_t file_len, uint8_t registers[ULB_REGISTER_BYTES]) {
    uint8_t refusal = judge_kind_and_rom(kind, rom, rom_len);
    /* before all else that is written, as above: it judges the file */
    if (refusal == ULB_OK)
        refusal = ulb_load_sna(STATE, m->ram, ram_bytes(kind), file, file_len, registers, ULB_REGISTER_BYTES, PAINTED, kind);
    return refusal == ULB_OK ? furnish(m, kind, rom) : refusal;
}

uint8_t ulb_machine_load_sna(ulb_machine *m, const uint8_t *file, size_t len, uint8_t registers[ULB_REGISTER_BYTES]) {
    uint8_t refusal = ulb_load_sna(STATE, RAM, file, len, registers, ULB_REGISTER_BYTES, PAINTED, m->kind);
    return refusal == ULB_OK ? renew_map(m) : refusal;
}

size_t ulb_machine_sna_bytes(const ulb_machine *m) {
    if (m->kind == ULB_48K) return ULB_SNA_BYTES_48K;
    unsigned paged = m->state[PAGING_AT] & 7;
    return paged == 5 || paged == 2 ? ULB_SNA_BYTES_128K_TWICE : ULB_SNA_BYTES_128K;
}

uint8_t ulb_machine_save_sna(ulb_machine *m, uint8_t *file, size_t len, const uint8_t registers[ULB_REGISTER_BYTES]) {
    return ulb_save_sna(STATE, RAM, file, len, registers, ULB_REGISTER_BYTES);
}

/* Where the registers stand (docs/LAYOUTS.md). */
enum {
    I_AT = 0, HL2_AT = 1, DE2_AT = 3, BC2_AT = 5, AF2_AT = 7, HL_AT = 9, DE_AT = 11, BC_AT = 13, IY_AT = 15, IX_AT = 17,
    IFF_AT = 19, R_AT = 20, AF_AT = 21, SP_AT = 23, IM_AT = 25, BORDER_AT = 26, PC_AT = 27, TR_DOS_AT = 29
};

ulb_z80_registers ulb_z80_registers_of(const uint8_t bytes[ULB_REGISTER_BYTES]) {
    ulb_z80_registers z;
    z.af = word16(bytes + AF_AT);
    z.bc = word16(bytes + BC_AT);
    z.de = word16(bytes + DE_AT);
    z.hl = word16(bytes + HL_AT);
    z.ix = word16(bytes + IX_AT);
    z.iy = word16(bytes + IY_AT);
    z.sp = word16(bytes + SP_AT);
    z.af2 = word16(bytes + AF2_AT);
    z.bc2 = word16(bytes + BC2_AT);
    z.de2 = word16(bytes + DE2_AT);
    z.hl2 = word16(bytes + HL2_AT);
    z.pc = word16(bytes + PC_AT);
    z.i = bytes[I_AT];
    z.r = bytes[R_AT];
    z.iff = bytes[IFF_AT];
    z.im = bytes[IM_AT];
    z.border = bytes[BORDER_AT];
    z.tr_dos = bytes[TR_DOS_AT];
    return z;
}

void ulb_z80_registers_to(const ulb_z80_registers *z, uint8_t bytes[ULB_REGISTER_BYTES]) {
    put16(bytes + AF_AT, z->af);
    put16(bytes + BC_AT, z->bc);
    put16(bytes + DE_AT, z->de);
    put16(bytes + HL_AT, z->hl);
    put16(bytes + IX_AT, z->ix);
    put16(bytes + IY_AT, z->iy);
    put16(bytes + SP_AT, z->sp);
    put16(bytes + AF2_AT, z->af2);
    put16(bytes + BC2_AT, z->bc2);
    put16(bytes + DE2_AT, z->de2);
    put16(bytes + HL2_AT, z->hl2);
    put16(bytes + PC_AT, z->pc);
    bytes[I_AT] = z->i;
    bytes[R_AT] = z->r;
    bytes[IFF_AT] = z->iff;
    bytes[IM_AT] = z->im;
    bytes[BORDER_AT] = z->border;
    bytes[TR_DOS_AT] = z->tr_dos;
}

ulb_timed ulb_machine_wait(ulb_machine *m, uint32_t clocks) {
    uint8_t answer[ULB_TIMED_ANSWER_BYTES] = {0};
    uint8_t refusal = ulb_wait_internal(STATE, RAM, PAINTED, clocks, answer, sizeof answer);
    return timed(refusal, answer);
}

ulb_timed ulb_machine_wait_mreq(ulb_machine *m, uint16_t addr, uint32_t clocks) {
    uint8_t answer[ULB_TIMED_ANSWER_BYTES] = {0};
    uint8_t refusal = ulb_wait_mreq(STATE, RAM, PAINTED, addr, clocks, answer, sizeof answer);
    return timed(refusal, answer);
}

ulb_timed ulb_machine_wait_no_mreq(ulb_machine *m, uint16_t addr, uint32_t clocks) {
    uint8_t answer[ULB_TIMED_ANSWER_BYTES] = {0};
    uint8_t refusal = ulb_wait_no_mreq(STATE, RAM, PAINTED, addr, clocks, answer, sizeof answer);
    return timed(refusal, answer);
}

ulb_timed ulb_machine_read_io(ulb_machine *m, uint16_t port) {
    uint8_t answer[ULB_TIMED_ANSWER_BYTES] = {0};
    uint8_t refusal = ulb_read_io(STATE, DEVICES, RAM, PAINTED, port, answer, sizeof answer);
    return timed(refusal, answer);
}

ulb_timed ulb_machine_write_io(ulb_machine *m, uint16_t port, uint8_t value) {
    uint8_t answer[ULB_TIMED_ANSWER_BYTES] = {0};
    uint8_t refusal = ulb_write_io(STATE, DEVICES, RAM, PAINTED, port, value, answer, sizeof answer);
    ulb_timed t = timed(refusal, answer);
    if (t.value == ULB_PAGED) renew_map(m); /* of a refused call the value is 0 */
    return t;
}

ulb_timed ulb_machine_port_timing(const ulb_machine *m, ulb_machine *scratch, uint16_t port) {
    if (scratch->kind != m->kind) {
        ulb_timed t = {ULB_BAD_LENGTH, 0, false, false, 0, 0};
        return t;
    }
    memcpy(scratch->state, m->state, sizeof scratch->state);
    memcpy(scratch->map, m->map, sizeof scratch->map);
    return ulb_machine_read_io(scratch, port);
}

ulb_number ulb_machine_read(ulb_machine *m, uint16_t addr) {
    uint8_t answer[ULB_NUMBER_ANSWER_BYTES] = {0};
    uint8_t refusal = ulb_read_internal(STATE, ROM, RAM, addr, answer, sizeof answer);
    return numbered(refusal, answer);
}

uint8_t ulb_machine_write(ulb_machine *m, uint16_t addr, uint8_t value) {
    return ulb_write_internal(STATE, RAM, addr, value);
}

uint8_t ulb_machine_load_page(ulb_machine *m, const uint8_t *bytes, size_t len, uint32_t page) {
    return ulb_load_page(STATE, RAM, bytes, len, page);
}

uint8_t ulb_machine_save_scr(ulb_machine *m, uint8_t *file, size_t len) { return ulb_save_scr(STATE, RAM, file, len); }

uint8_t ulb_machine_load_scr(ulb_machine *m, const uint8_t *file, size_t len, uint32_t page) {
    return ulb_load_scr(STATE, RAM, file, len, page);
}

ulb_number ulb_machine_write_7ffd(ulb_machine *m, uint8_t value) {
    uint8_t answer[ULB_NUMBER_ANSWER_BYTES] = {0};
    uint8_t refusal = ulb_write_7ffd(STATE, value, answer, sizeof answer);
    ulb_number n = numbered(refusal, answer);
    if (n.number == ULB_PAGED) renew_map(m); /* of a refused call the number is 0 */
    return n;
}

ulb_number ulb_machine_read_7ffd(ulb_machine *m) {
    uint8_t answer[ULB_NUMBER_ANSWER_BYTES] = {0};
    uint8_t refusal = ulb_read_7ffd(STATE, answer, sizeof answer);
    return numbered(refusal, answer);
}

ulb_number ulb_machine_int_active(ulb_machine *m) {
    uint8_t answer[ULB_NUMBER_ANSWER_BYTES] = {0};
    uint8_t refusal = ulb_int_active(STATE, answer, sizeof answer);
    return numbered(refusal, answer);
}

ulb_number ulb_machine_frames_count(ulb_machine *m) {
    uint8_t answer[ULB_NUMBER_ANSWER_BYTES] = {0};
    uint8_t refusal = ulb_frames_count(STATE, answer, sizeof answer);
    return numbered(refusal, answer);
}

uint8_t ulb_machine_reset_frame_counter(ulb_machine *m) { return ulb_reset_frame_counter(STATE); }

uint8_t ulb_machine_load_state(ulb_machine *m, const uint8_t *state, size_t len) {
    if (len != sizeof m->state || state[KIND_AT] != m->kind) return ULB_BAD_LENGTH;
    uint8_t before[ULB_STATE_BYTES];
    memcpy(before, m->state, sizeof before);
    memcpy(m->state, state, sizeof m->state);
    uint8_t refusal = renew_map(m); /* its calls judge the record */
    if (refusal != ULB_OK) memcpy(m->state, before, sizeof m->state);
    return refusal;
}

ulb_part ulb_machine_ram_page(ulb_machine *m, uint32_t page) {
    uint8_t answer[ULB_NUMBER_ANSWER_BYTES] = {0};
    uint8_t refusal = ulb_ram_page(STATE, RAM, page, answer, sizeof answer);
    return memory_part(m, numbered(refusal, answer));
}

ulb_part ulb_machine_block(ulb_machine *m, uint32_t block) {
    uint8_t answer[ULB_NUMBER_ANSWER_BYTES] = {0};
    uint8_t refusal = ulb_block(STATE, ROM, RAM, block, answer, sizeof answer);
    return memory_part(m, numbered(refusal, answer));
}

ulb_part ulb_machine_shown_picture(ulb_machine *m) {
    uint8_t answer[ULB_NUMBER_ANSWER_BYTES] = {0};
    uint8_t refusal = ulb_shown_picture(STATE, PICTURES, answer, sizeof answer);
    if (refusal != ULB_OK) return refused_part(refusal);
    ulb_part p;
    p.refusal = ULB_OK;
    p.bytes = numbered(refusal, answer).number == 0 ? m->a : m->b;
    p.len = ULB_PICTURE_BYTES;
    p.in_rom = false;
    return p;
}

uint8_t ulb_machine_still_picture(ulb_machine *m, uint8_t *picture, size_t len, uint32_t flash) {
    return ulb_still_picture(STATE, RAM, picture, len, flash);
}

ulb_number ulb_number_of(uint8_t (*helper)(uint32_t, uint8_t *, size_t), uint32_t number) {
    uint8_t answer[ULB_NUMBER_ANSWER_BYTES] = {0};
    uint8_t refusal = helper(number, answer, sizeof answer);
    return numbered(refusal, answer);
}

/* Where things stand in the device record (docs/LAYOUTS.md). */
enum { ROWS = 24, TAPE = 24, EXTENDER = 25, AY = 27, JOYSTICK = 29, MOUSE = 31 };

void ulb_machine_no_devices(ulb_machine *m) {
    memset(m->devices, 0, sizeof m->devices);
    memset(m->devices, 0xFF, ROWS);
    m->devices[TAPE] = 1;
}

void ulb_machine_set_row(ulb_machine *m, unsigned set, unsigned row, uint8_t bits) {
    if (set < 3 && row < 8) m->devices[8 * set + row] = bits;
}

void ulb_machine_set_tape(ulb_machine *m, bool bit) { m->devices[TAPE] = bit; }

static void set_device(ulb_machine *m, int at, bool present, uint8_t value) {
    m->devices[at] = present;
    m->devices[at + 1] = value;
}

void ulb_machine_set_extender(ulb_machine *m, bool claims_port, uint8_t value) {
    set_device(m, EXTENDER, claims_port, value);
}

void ulb_machine_set_ay(ulb_machine *m, bool present, uint8_t value) { set_device(m, AY, present, value); }

void ulb_machine_set_joystick(ulb_machine *m, bool present, uint8_t value) { set_device(m, JOYSTICK, present, value); }

void ulb_machine_set_mouse(ulb_machine *m, bool present, uint8_t buttons, uint8_t x, uint8_t y) {
    set_device(m, MOUSE, present, buttons);
    m->devices[MOUSE + 2] = x;
    m->devices[MOUSE + 3] = y;
}

uint32_t ulb_machine_frame_clock(const ulb_machine *m) { return word32(m->state + 6); }
uint32_t ulb_machine_passed_frames(const ulb_machine *m) { return word32(m->state + 10); }
uint8_t ulb_machine_phase(const ulb_machine *m) { return m->state[14]; }
uint16_t ulb_machine_blocks_painted(const ulb_machine *m) { return word16(m->state + 15); }
uint8_t ulb_machine_reported_border(const ulb_machine *m) { return m->state[18]; }
uint8_t ulb_machine_beam_colour(const ulb_machine *m) { return m->state[19]; }
uint32_t ulb_machine_frame_length(const ulb_machine *m) { return m->kind == ULB_48K ? 69888 : 70908; }

const char *ulb_refusal_text(uint8_t refusal) {
    static const char *const text[] = {
        "accepted", "machine above 1", "a slice has the wrong length", "the state record is not sound",
        "a device flag or the tape bit is above 1", "a wait above 65,535 clocks",
        "passed frames are full: reset the frame counter", "no such RAM page", "a number outside its range",
        "a RAM page that is no video page", "a snapshot's size is not the one due",
        "the two copies of a bank in a snapshot differ",
    };
    return refusal < sizeof text / sizeof *text ? text[refusal] : "no refusal has this number";
}
