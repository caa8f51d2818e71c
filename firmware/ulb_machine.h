/* ulb_machine.h: one Spectrum with its buffers, for firmware that does not want to type ten lengths.
 *
 * A thin layer of plain C over ulb.h. It owns the memory that the bus is lent, passes every slice with its own length,
 * and decodes the answers. It is not proved; it adds no rule of its own, and each function says which call it makes.
 *
 *     static ulb_machine m;                     // 340 KB: static storage, not the stack
 *     if (ulb_machine_init(&m, ULB_48K, rom, sizeof rom) != ULB_OK) ...
 *     ulb_timed t = ulb_machine_write_io(&m, 0x00FE, 2);
 *     if (t.closed) show(ulb_machine_shown_picture(&m).bytes, m.border);
 *
 * Nothing here allocates. A struct is one machine; two structs are two machines. One machine is for one thread at a
 * time. Between calls hand the buffers back untouched: RAM is written by ulb_machine_write, ulb_machine_load_page,
 * ulb_machine_load_scr and ulb_machine_load_sna, pictures and border are the bus's alone. */
#ifndef ULB_MACHINE_H
#define ULB_MACHINE_H

#include <stdbool.h>
#include <stddef.h>
#include <stdint.h>
#include "ulb.h"

#ifdef __cplusplus
extern "C" {
#endif

/* The arrays have the sizes of the 128K; a 48K uses the first rom_len and ram_len bytes of its own. */
typedef struct {
    uint32_t kind;                       /* ULB_48K or ULB_128K */
    size_t rom_len, ram_len;             /* what is lent: by the kind */
    uint32_t map[4];                     /* ulb_machine_byte's: where each block starts, in bytes from rom[0] on over this
                                          * struct; offsets and no pointers, so that a machine can be copied and saved */
    uint8_t state[ULB_STATE_BYTES];      /* docs/LAYOUTS.md, "State" */
    uint8_t devices[ULB_DEVICE_BYTES];   /* docs/LAYOUTS.md, "Devices"; the setters below write it */
    uint8_t rom[ULB_ROM_BYTES_128K];
    uint8_t ram[ULB_RAM_BYTES_128K];
    uint8_t a[ULB_PICTURE_BYTES];        /* pictures A and B: one is shown, the other being painted */
    uint8_t b[ULB_PICTURE_BYTES];
    uint8_t border[ULB_BORDER_BYTES];
} ulb_machine;

/* What a timed call answers. Of a refused call all but `refusal` is 0. */
typedef struct {
    uint8_t refusal;   /* ULB_OK, or why nothing was done */
    uint8_t value;     /* a port read's value, a port write's code; 0 for a wait */
    bool closed;       /* this call closed a frame: show it before the next call */
    bool interrupt;    /* the interrupt is on after this call */
    uint32_t clocks;   /* clocks that this call took, delays included */
    uint16_t blocks;   /* blocks of eight pixels that this call painted */
} ulb_timed;

/* What a call with a number answers. Of a refused call the number is 0. */
typedef struct {
    uint8_t refusal;
    uint32_t number;
} ulb_number;

/* A part of a machine's own buffers; `bytes` is NULL and `len` 0 if refused. */
typedef struct {
    uint8_t refusal;
    const uint8_t *bytes;
    size_t len;
    bool in_rom;       /* ulb_machine_block only: the part is ROM, so writes to it vanish */
} ulb_part;

/* The 30 register bytes of a snapshot by name, for a Z80: see ulb_z80_registers_of. */
typedef struct {
    uint16_t af, bc, de, hl, ix, iy, sp;
    uint16_t af2, bc2, de2, hl2; /* AF', BC', DE', HL' */
    uint16_t pc;                 /* 128K; on 48K 0: PC is on the stack, its low byte at sp, and a RETN takes it from there */
    uint8_t i, r;
    uint8_t iff;                 /* header byte 19, all its bits; & ULB_Z80_IFF2 is IFF2 */
    uint8_t im;                  /* interrupt mode 0..2, in a good file */
    uint8_t border;              /* header byte 26, all its bits; an export ignores it */
    uint8_t tr_dos;              /* 128K; on 48K 0 */
} ulb_z80_registers;
enum { ULB_Z80_IFF2 = 0x04 };

/* Takes a copy of the ROM and starts, in black (as ulb_start). No key is down, the tape bit is 1, no device is present.
 * Refusals: 1 kind above 1; 2 the ROM is not 16,384 bytes (48K) or 32,768 bytes (128K). Refused: nothing is written. */
uint8_t ulb_machine_init(ulb_machine *m, uint32_t kind, const uint8_t *rom, size_t rom_len);
/* The same in a beam colour 0..7 (ulb_start_colour): for a capture bench whose stored first frames begin white, which
 * asks for 7. Refusals: 1, 2 as above; 8 colour above 7. Refused: nothing is written. */
uint8_t ulb_machine_init_colour(ulb_machine *m, uint32_t kind, const uint8_t *rom, size_t rom_len, uint32_t colour);
/* Starts again, in black or in a colour, same kind and ROM, same devices: RAM, pictures, border and record as at the
 * first start. Refusal, with nothing changed: 8 colour above 7. */
uint8_t ulb_machine_restart(ulb_machine *m);
uint8_t ulb_machine_restart_colour(ulb_machine *m, uint32_t colour);

/* Snapshots (SNA; ulb.h draws the file's bytes at ulb_load_sna).
 * As ulb_machine_init, but it starts from a snapshot of this kind (ulb_load_sna): RAM, paging and border are the file's,
 * and `registers` gets its 30 bytes. Refusals: 1, 2 as there; 10, 11. Refused: nothing is written, `registers` neither. */
uint8_t ulb_machine_init_sna(ulb_machine *m, uint32_t kind, const uint8_t *rom, size_t rom_len, const uint8_t *file,
                             size_t file_len, uint8_t registers[ULB_REGISTER_BYTES]);
/* Starts again, from a snapshot of the machine's own kind: same ROM, same devices. Refusals, with nothing changed: 10, 11. */
uint8_t ulb_machine_load_sna(ulb_machine *m, const uint8_t *file, size_t len, uint8_t registers[ULB_REGISTER_BYTES]);
/* Writes one, in no time (ulb_save_sna). `len` has to be what ulb_machine_sna_bytes says now: at most
 * ULB_SNA_BYTES_128K_TWICE, and another number once another bank is paged. Refusal: 10, with nothing written. */
size_t ulb_machine_sna_bytes(const ulb_machine *m);
uint8_t ulb_machine_save_sna(ulb_machine *m, uint8_t *file, size_t len, const uint8_t registers[ULB_REGISTER_BYTES]);
/* The 30 bytes by name, and back: no byte is lost either way. */
ulb_z80_registers ulb_z80_registers_of(const uint8_t bytes[ULB_REGISTER_BYTES]);
void ulb_z80_registers_to(const ulb_z80_registers *z, uint8_t bytes[ULB_REGISTER_BYTES]);

/* Timed calls: ulb_wait_internal, ulb_wait_mreq, ulb_wait_no_mreq, ulb_read_io, ulb_write_io. */
ulb_timed ulb_machine_wait(ulb_machine *m, uint32_t clocks);
ulb_timed ulb_machine_wait_mreq(ulb_machine *m, uint16_t addr, uint32_t clocks);
ulb_timed ulb_machine_wait_no_mreq(ulb_machine *m, uint16_t addr, uint32_t clocks);
ulb_timed ulb_machine_read_io(ulb_machine *m, uint16_t port);
ulb_timed ulb_machine_write_io(ulb_machine *m, uint16_t port, uint8_t value);
/* What a read of `port` would take, with `m` left alone: a port read on `scratch`, a machine of the same kind whose record
 * is overwritten by m's. The value's moment is t.clocks - 1 after now: set tape, AY and extender for that moment, then read
 * for true. (Clocks depend on record and port alone, so no memory is copied; value and blocks are scratch's own.)
 * Refused with ULB_BAD_LENGTH if the kinds differ. */
ulb_timed ulb_machine_port_timing(const ulb_machine *m, ulb_machine *scratch, uint16_t port);

/* The byte at an address, in no time and without a call: for a processor, which asks for thousands a frame. It reads where
 * ulb_block said that the address's block starts. That this is the byte which ulb_machine_read would give is proved as long as
 * the 7FFD byte stays (crate contracts, proofs/Map.antt); the calls here that change it ask ulb_block anew: a start, from a
 * snapshot or not, and a port or 7FFD write that answers ULB_PAGED. If you write m->state yourself, do it by
 * ulb_machine_load_state.
 * Of a machine that was never started the byte means nothing. */
static inline uint8_t ulb_machine_byte(const ulb_machine *m, uint16_t addr) {
    const uint8_t *from_rom = (const uint8_t *)m + offsetof(ulb_machine, rom);
    return from_rom[m->map[addr / ULB_PAGE_BYTES] + addr % ULB_PAGE_BYTES];
}

/* Memory, in no time: ulb_read_internal (the same byte, judged: with a refusal if the record is not sound),
 * ulb_write_internal, ulb_load_page (16,384 bytes). */
ulb_number ulb_machine_read(ulb_machine *m, uint16_t addr);
uint8_t ulb_machine_write(ulb_machine *m, uint16_t addr, uint8_t value);
uint8_t ulb_machine_load_page(ulb_machine *m, const uint8_t *bytes, size_t len, uint32_t page);

/* Screen files (SCR), 6,912 bytes of the caller's own: ulb_save_scr, of the page that is now shown; ulb_load_scr, into
 * a video page (48K: 0; 128K: 5 or 7), shown or not. In no time: a file read in mid-frame shows in the blocks that are
 * still to come. */
uint8_t ulb_machine_save_scr(ulb_machine *m, uint8_t *file, size_t len);
uint8_t ulb_machine_load_scr(ulb_machine *m, const uint8_t *file, size_t len, uint32_t page);

/* Paging, interrupt and frames, in no time. */
ulb_number ulb_machine_write_7ffd(ulb_machine *m, uint8_t value);
ulb_number ulb_machine_read_7ffd(ulb_machine *m);
ulb_number ulb_machine_int_active(ulb_machine *m);
ulb_number ulb_machine_frames_count(ulb_machine *m);
uint8_t ulb_machine_reset_frame_counter(ulb_machine *m);

/* A record that was kept (23 bytes, as m->state had them) in the place of the machine's own. RAM is yours to load besides.
 * Refusals, with nothing changed: 2 it has another length or is another kind's; 3 it is not sound. */
uint8_t ulb_machine_load_state(ulb_machine *m, const uint8_t *state, size_t len);

/* Parts: ulb_ram_page, ulb_block, ulb_shown_picture. They stay where they are until the next call. */
ulb_part ulb_machine_ram_page(ulb_machine *m, uint32_t page);
ulb_part ulb_machine_block(ulb_machine *m, uint32_t block);
ulb_part ulb_machine_shown_picture(ulb_machine *m);

/* ulb_still_picture, of the page that is now shown, into 49,152 bytes of the caller's own, neither m->a nor m->b. */
uint8_t ulb_machine_still_picture(ulb_machine *m, uint8_t *picture, size_t len, uint32_t flash);

/* The six helpers that need no machine: ulb_bitmap_line_addr and its like. */
ulb_number ulb_number_of(uint8_t (*helper)(uint32_t, uint8_t *, size_t), uint32_t number);

/* Devices. Rows are the port read's own bits: bit 0..4 a key, 0 = down; FFh = no key of that row. Sets 0 to 2 are ANDed:
 * use one for the keyboard and the others for, say, buttons mapped to keys. Out of range: nothing is written. */
void ulb_machine_no_devices(ulb_machine *m);
void ulb_machine_set_row(ulb_machine *m, unsigned set, unsigned row, uint8_t bits);
void ulb_machine_set_tape(ulb_machine *m, bool bit);
void ulb_machine_set_extender(ulb_machine *m, bool claims_port, uint8_t value);
void ulb_machine_set_ay(ulb_machine *m, bool present, uint8_t value);
void ulb_machine_set_joystick(ulb_machine *m, bool present, uint8_t value);
void ulb_machine_set_mouse(ulb_machine *m, bool present, uint8_t buttons, uint8_t x, uint8_t y);

/* Fields of the state record. */
uint32_t ulb_machine_frame_clock(const ulb_machine *m);
uint32_t ulb_machine_passed_frames(const ulb_machine *m);
uint8_t ulb_machine_phase(const ulb_machine *m);
uint16_t ulb_machine_blocks_painted(const ulb_machine *m);
uint8_t ulb_machine_reported_border(const ulb_machine *m);
uint8_t ulb_machine_beam_colour(const ulb_machine *m);
/* Clocks of one frame: 69,888 or 70,908. */
uint32_t ulb_machine_frame_length(const ulb_machine *m);

/* A refusal in words, for a log. */
const char *ulb_refusal_text(uint8_t refusal);

#ifdef __cplusplus
}
#endif

#endif
