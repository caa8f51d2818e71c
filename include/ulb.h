/* ulb.h: the ULA bus of the ZX Spectrum 48K and 128K, proved in Rattle, for C firmware.
 *
 * Link with libulb.a. Each call takes byte slices (a pointer and its length) and numbers, and returns its refusal
 * number: 0 if accepted. A refused call changes no state, memory or picture; it fills its answer with its number and
 * then zeros, and leaves an answer of the wrong length alone. Slices of one call must not overlap (docs/DUTIES.md).
 *
 * Refusals, in the order in which they are judged:
 *   1  a start or the import of a snapshot: machine above 1
 *   2  the state record has the wrong length
 *   3  the state record is not sound
 *   2  another lent slice, or the answer, has the wrong length
 *   4  a device flag or the tape bit is above 1
 *   5  a wait above 65,535 clocks
 *   6  a timed call with passed frames at 4,294,967,295
 *   7  a RAM page above 2 (48K) or 7 (128K)
 *   9  a RAM page that is no video page: other than 0 (48K), or than 5 and 7 (128K)
 *   8  a number outside its range; start: a colour above 7
 *  10  a snapshot's size is not the one due
 *  11  the two copies of a bank in a snapshot differ
 *
 * A timed call's answer has 10 bytes, little-endian:
 *   0 refusal; 1 value or code (0 for a wait); 2 frame closed 0/1; 3 interrupt after the call 0/1;
 *   4..7 clocks; 8..9 blocks painted by this call
 * Another answer has 5 bytes: 0 refusal; 1..4 the number.
 *
 * Stack that a call needs, in bytes, its return address and arguments included, on x86-64: at most, and where no
 * catch-up goes by the constant table of offsets (docs/DUTIES.md, 15; made by tools/stack)
 *  at most  without the table
 *   12,920                584  ulb_write_io
 *   12,600                264  ulb_read_io
 *   12,552                216  ulb_wait_internal, ulb_wait_mreq, ulb_wait_no_mreq
 *   12,456                184  ulb_still_picture
 *      232                     ulb_load_sna
 *      216                     ulb_read_internal
 *      184                     ulb_load_page, ulb_load_scr, ulb_block
 *      168                     ulb_write_7ffd, ulb_save_scr, ulb_ram_page, ulb_shown_picture
 *      152                     ulb_start, ulb_start_colour
 *      136                     ulb_read_7ffd, ulb_int_active, ulb_frames_count
 *      120                     ulb_reset_frame_counter
 *      104                     ulb_save_sna
 *       64                     ulb_write_internal
 *       16                     ulb_bitmap_line_addr, ulb_bitmap_line_rel, ulb_bitmap_col_rel, ulb_attr_row_rel,
 *                              ulb_attr_col_rel, ulb_color_from_bits
 * (end of stack)
 */
#ifndef ULB_H
#define ULB_H

#include <stddef.h>
#include <stdint.h>

#ifdef __cplusplus
extern "C" {
#endif

enum {
    ULB_STATE_BYTES = 23,
    ULB_DEVICE_BYTES = 35,
    ULB_PAGE_BYTES = 16384,
    ULB_SCREEN_FILE_BYTES = 6912, /* an SCR file: 6,144 bitmap bytes in page order, then 768 attribute bytes */
    ULB_REGISTER_BYTES = 30,      /* a snapshot's 27 header bytes, PC, the TR-DOS byte */
    ULB_SNA_BYTES_48K = 49179,    /* an SNA file by its machine */
    ULB_SNA_BYTES_128K = 131103,
    ULB_SNA_BYTES_128K_TWICE = 147487, /* bank 5 or 2 is the paged one, and so stands twice */
    ULB_PICTURE_BYTES = 49152, /* 256 x 192, a byte a pixel: colour 0..7, plus 8 if bright */
    ULB_BORDER_BYTES = 76800,  /* 320 x 240, a byte a pixel: colour 0..7 */
    ULB_RAM_BYTES_48K = 49152,
    ULB_ROM_BYTES_48K = 16384,
    ULB_RAM_BYTES_128K = 131072,
    ULB_ROM_BYTES_128K = 32768,
    ULB_TIMED_ANSWER_BYTES = 10,
    ULB_NUMBER_ANSWER_BYTES = 5
};

enum { ULB_48K = 0, ULB_128K = 1 };

enum {
    ULB_OK = 0,
    ULB_BAD_MACHINE = 1,
    ULB_BAD_LENGTH = 2,
    ULB_UNSOUND = 3,
    ULB_BAD_FLAG = 4,
    ULB_LONG_WAIT = 5,
    ULB_FRAMES_FULL = 6,
    ULB_BAD_PAGE = 7,
    ULB_BAD_NUMBER = 8,
    ULB_NO_VIDEO_PAGE = 9,
    ULB_WRONG_SIZE = 10,
    ULB_UNEQUAL_COPIES = 11
};

/* Codes of a port write, and 0, PAGED and LOCKED of ulb_write_7ffd. */
enum {
    ULB_WROTE_NOTHING = 0,
    ULB_WROTE_EXTENDER = 1,
    ULB_WROTE_AY_SELECT = 2,
    ULB_WROTE_AY_DATA = 3,
    ULB_WROTE_BORDER = 4,
    ULB_PAGED = 5,
    ULB_LOCKED = 6
};

/* Start, with a black border: clears RAM, pictures and border to 0 and writes a fresh state record, 0 everywhere but
 * mark, version and machine. It does not judge the record that it writes over. Refusals: 1, 2. */
uint8_t ulb_start(uint8_t *state, size_t state_len, uint8_t *ram, size_t ram_len, uint8_t *a, size_t a_len,
                  uint8_t *b, size_t b_len, uint8_t *border, size_t border_len, uint32_t machine);

/* The same start in a beam colour 0..7; ulb_start is this with 0. For a capture bench whose stored first frames begin
 * white: it asks for 7, with which the Rust original, rustzx, starts. The border that is reported is 0 whatever the
 * colour. Nothing is painted yet: the colour shows as the beam runs, frame after frame, until the first border write.
 * Refusals: 1, 2, 8. */
uint8_t ulb_start_colour(uint8_t *state, size_t state_len, uint8_t *ram, size_t ram_len, uint8_t *a, size_t a_len,
                         uint8_t *b, size_t b_len, uint8_t *border, size_t border_len, uint32_t machine,
                         uint32_t colour);

/* Start from a snapshot (SNA). Every byte of a file:
 *
 *   48K: 49,179 bytes             128K: 131,103 bytes, or 147,487 where bank 5 or 2 is the paged one
 *        0  header, 27 bytes           0  header, 27 bytes
 *       26    its last: border        26    its last: border
 *       27  RAM page 0 (4000h)        27  bank 5 (4000h)
 *   16,411  RAM page 1 (8000h)    16,411  bank 2 (8000h)
 *   32,795  RAM page 2 (C000h)    32,795  the paged bank (C000h): bits 0..2 of the 7FFD byte
 *                                 49,179  PC, low byte first
 *                                 49,181  the 7FFD byte
 *                                 49,182  the TR-DOS byte
 *                                 49,183  the banks of 0..7 that did not stand yet, in rising order: five of them,
 *                                         or six where the paged one is 5 or 2, which then stands twice
 *
 * The import writes the file's banks into RAM and a fresh state record with the file's 7FFD byte, all eight bits and so
 * its lock (48K: 0); reported border and beam colour are the low three bits of byte 26. It clears pictures and border to
 * 0, as a start does, and does not judge the record that it writes over.
 * `registers` gets 30 bytes on either machine, for the Z80: the header as it stands in the file, byte 26 with all its
 * bits; then PC and the TR-DOS byte, which are 0 on 48K, where PC is on the stack.
 * Refusals: 1, 2, 10, 11; refused it writes nothing, `registers` neither. A `file` of another size than the one due for
 * `machine` and, on 128K, for the file's own 7FFD byte is 10 and never 2, one too short to hold that byte too. 11: bank
 * 5 or 2 stands twice, and its copies are not equal. */
uint8_t ulb_load_sna(uint8_t *state, size_t state_len, uint8_t *ram, size_t ram_len, const uint8_t *file,
                     size_t file_len, uint8_t *registers, size_t registers_len, uint8_t *a, size_t a_len, uint8_t *b,
                     size_t b_len, uint8_t *border, size_t border_len, uint32_t machine);

/* Plain wait: one step of `clocks`. Answer: 10 bytes. Refusals: 2, 3, 2, 5, 6. */
uint8_t ulb_wait_internal(uint8_t *state, size_t state_len, const uint8_t *ram, size_t ram_len, uint8_t *a,
                          size_t a_len, uint8_t *b, size_t b_len, uint8_t *border, size_t border_len,
                          uint32_t clocks, uint8_t *answer, size_t answer_len);

/* Wait at an address, with a memory request and without one: where the address's page is contended a step of the delay
 * that is due, then a step of `clocks`. Answer: 10 bytes. Refusals: 2, 3, 2, 5, 6. */
uint8_t ulb_wait_mreq(uint8_t *state, size_t state_len, const uint8_t *ram, size_t ram_len, uint8_t *a, size_t a_len,
                      uint8_t *b, size_t b_len, uint8_t *border, size_t border_len, uint16_t addr, uint32_t clocks,
                      uint8_t *answer, size_t answer_len);
uint8_t ulb_wait_no_mreq(uint8_t *state, size_t state_len, const uint8_t *ram, size_t ram_len, uint8_t *a,
                         size_t a_len, uint8_t *b, size_t b_len, uint8_t *border, size_t border_len, uint16_t addr,
                         uint32_t clocks, uint8_t *answer, size_t answer_len);

/* Port read: its value is answer byte 1. `devices` has 35 bytes: three sets of eight key rows; tape bit; extender flag
 * and byte; AY flag and byte; joystick flag and byte; mouse flag, buttons, x, y. Takes 4 to 16 clocks.
 * Answer: 10 bytes. Refusals: 2, 3, 2, 4, 6. */
uint8_t ulb_read_io(uint8_t *state, size_t state_len, const uint8_t *devices, size_t devices_len, const uint8_t *ram,
                    size_t ram_len, uint8_t *a, size_t a_len, uint8_t *b, size_t b_len, uint8_t *border,
                    size_t border_len, uint16_t port, uint8_t *answer, size_t answer_len);

/* Port write: answer byte 1 is its code (ULB_WROTE_..., ULB_PAGED, ULB_LOCKED). Takes 4 to 16 clocks.
 * Answer: 10 bytes. Refusals: 2, 3, 2, 4, 6. */
uint8_t ulb_write_io(uint8_t *state, size_t state_len, const uint8_t *devices, size_t devices_len, const uint8_t *ram,
                     size_t ram_len, uint8_t *a, size_t a_len, uint8_t *b, size_t b_len, uint8_t *border,
                     size_t border_len, uint16_t port, uint8_t value, uint8_t *answer, size_t answer_len);

/* The byte at an address, in no time. Answer: 5 bytes. Refusals: 2, 3, 2. */
uint8_t ulb_read_internal(const uint8_t *state, size_t state_len, const uint8_t *rom, size_t rom_len,
                          const uint8_t *ram, size_t ram_len, uint16_t addr, uint8_t *answer, size_t answer_len);

/* A byte to an address, in no time; a write to ROM vanishes. Refusals: 2, 3, 2. */
uint8_t ulb_write_internal(const uint8_t *state, size_t state_len, uint8_t *ram, size_t ram_len, uint16_t addr,
                           uint8_t value);

/* A 7FFD write, in no time. Answer: 5 bytes, the number 5 if paged, 6 if locked, 0 on 48K. Refusals: 2, 3, 2. */
uint8_t ulb_write_7ffd(uint8_t *state, size_t state_len, uint8_t value, uint8_t *answer, size_t answer_len);

/* The last 7FFD byte; whether the interrupt is on (0/1); passed frames. Answer: 5 bytes. Refusals: 2, 3, 2. */
uint8_t ulb_read_7ffd(const uint8_t *state, size_t state_len, uint8_t *answer, size_t answer_len);
uint8_t ulb_int_active(const uint8_t *state, size_t state_len, uint8_t *answer, size_t answer_len);
uint8_t ulb_frames_count(const uint8_t *state, size_t state_len, uint8_t *answer, size_t answer_len);

/* Passed frames back to 0. Refusals: 2, 3. */
uint8_t ulb_reset_frame_counter(uint8_t *state, size_t state_len);

/* 16,384 bytes into a RAM page. Refusals: 2, 3, 2, 7. */
uint8_t ulb_load_page(const uint8_t *state, size_t state_len, uint8_t *ram, size_t ram_len, const uint8_t *src,
                      size_t src_len, uint32_t page);

/* Screen files (SCR), of 6,912 bytes: 6,144 bitmap bytes in page order, and then 768 attribute bytes.
 * Saving writes the shown page's (48K: 0; 128K: 5, or 7 with bit 3 of the 7FFD byte) into `file`. Refusals: 2, 3, 2.
 * Loading writes the first 6,912 bytes of a video page (48K: 0; 128K: 5 or 7, shown or not) and no other byte of RAM.
 * Neither takes time or paints: a file read in mid-frame shows from the next catch-up on, in the blocks that the beam
 * has still to reach. Refusals: 2, 3, 2, 7, 9. */
uint8_t ulb_save_scr(const uint8_t *state, size_t state_len, const uint8_t *ram, size_t ram_len, uint8_t *file,
                     size_t file_len);
uint8_t ulb_load_scr(const uint8_t *state, size_t state_len, uint8_t *ram, size_t ram_len, const uint8_t *file,
                     size_t file_len, uint32_t page);

/* Writes a snapshot (SNA; its bytes are drawn at ulb_load_sna) into `file`, whose size has to be the one due for the
 * record's machine and 7FFD byte. From `registers`, 30 bytes as an import gives them, come the header but for its byte 26,
 * where the reported border goes, and on 128K PC and the TR-DOS byte; on 48K their last three are ignored. It takes no time,
 * and the machine stays as it is. What it wrote gives the same RAM, paging and border when it is imported.
 * Refusals: 2, 3, 2, 10. */
uint8_t ulb_save_sna(const uint8_t *state, size_t state_len, const uint8_t *ram, size_t ram_len, uint8_t *file,
                     size_t file_len, const uint8_t *registers, size_t registers_len);

/* Where a RAM page starts, and where the 16 KiB at a block 0..3 starts: counted through ROM and then RAM, so a number
 * below the ROM's length is in ROM, and else RAM at that number less the ROM's length.
 * Answer: 5 bytes. Refusals: 2, 3, 2, then 7 (page) or 8 (block). */
uint8_t ulb_ram_page(const uint8_t *state, size_t state_len, const uint8_t *ram, size_t ram_len, uint32_t page,
                     uint8_t *answer, size_t answer_len);
uint8_t ulb_block(const uint8_t *state, size_t state_len, const uint8_t *rom, size_t rom_len, const uint8_t *ram,
                  size_t ram_len, uint32_t block, uint8_t *answer, size_t answer_len);

/* Where the shown picture starts, counted through A and then B: 0 or 49,152. Answer: 5 bytes. Refusals: 2, 3, 2. */
uint8_t ulb_shown_picture(const uint8_t *state, size_t state_len, const uint8_t *a, size_t a_len, const uint8_t *b,
                          size_t b_len, uint8_t *answer, size_t answer_len);

/* The still picture: the RAM page that is now shown (48K: 0; 128K: 5, or 7 with bit 3 of the 7FFD byte) painted whole as RAM
 * stands, with flash 0 or 1. With the flash of the record's phase (on in 1 to 16) it is what a frame shows through which RAM and
 * page stay as they are. Lend neither A nor B. Refusals: 2, 3, 2, 8. */
uint8_t ulb_still_picture(const uint8_t *state, size_t state_len, const uint8_t *ram, size_t ram_len,
                          uint8_t *picture, size_t picture_len, uint32_t flash);

/* The five address helpers and the colour of three bits. Answer: 5 bytes. Refusals: 2, 8.
 * Ranges: line 0..191; bitmap offset 0..17FFh; attribute offset 1800h..1AFFh; colour 0..7. */
uint8_t ulb_bitmap_line_addr(uint32_t line, uint8_t *answer, size_t answer_len);
uint8_t ulb_bitmap_line_rel(uint32_t addr, uint8_t *answer, size_t answer_len);
uint8_t ulb_bitmap_col_rel(uint32_t addr, uint8_t *answer, size_t answer_len);
uint8_t ulb_attr_row_rel(uint32_t addr, uint8_t *answer, size_t answer_len);
uint8_t ulb_attr_col_rel(uint32_t addr, uint8_t *answer, size_t answer_len);
uint8_t ulb_color_from_bits(uint32_t bits, uint8_t *answer, size_t answer_len);

#ifdef __cplusplus
}
#endif

#endif
