/* reading.h: document 01, and what has landed of 02, read as plain C, by itself: it shares no line with the bus that it
 * is compared with.
 * A call is described by its numbers and by the lengths of the slices that it is lent; `refusal_of` judges it by the table
 * of refusals, and `carry_out` does an accepted one on copies of the memory. */
#ifndef READING_H
#define READING_H

#include <stdbool.h>
#include <stddef.h>
#include <stdint.h>

/* The calls of ulb.h, in its order. */
typedef enum {
    START, START_COLOUR, LOAD_SNA, WAIT_INTERNAL, WAIT_MREQ, WAIT_NO_MREQ, READ_IO, WRITE_IO, READ_INTERNAL,
    WRITE_INTERNAL, WRITE_7FFD, READ_7FFD, INT_ACTIVE, FRAMES_COUNT, RESET_FRAME_COUNTER, LOAD_PAGE, SAVE_SCR, LOAD_SCR,
    SAVE_SNA, RAM_PAGE, BLOCK, SHOWN_PICTURE, STILL_PICTURE, BITMAP_LINE_ADDR, BITMAP_LINE_REL, BITMAP_COL_REL,
    ATTR_ROW_REL, ATTR_COL_REL, COLOR_FROM_BITS, KINDS
} call_kind;

/* The slices that a call can be lent, in ulb.h's order. */
typedef enum { STATE, DEVICES, ROM, RAM, BYTES, SCR, SNA, REGISTERS, PICTURE, A, B, BORDER, ANSWER, SLICES } slice;

enum { REFUSALS = 12 }; /* 0, which is none, and 1 to 11 */

typedef struct {
    const char *name;
    unsigned lent;    /* a bit for each slice */
    unsigned written; /* those of them that an accepted call may write */
    unsigned answer;  /* 0, 5 or 10 bytes */
} call_shape;
extern const call_shape shapes[KINDS];

typedef struct {
    call_kind kind;
    size_t length[SLICES];
    uint32_t number; /* machine, clocks, page, block, flash, or a helper's number */
    uint32_t colour; /* of START_COLOUR */
    uint16_t addr;   /* or port */
    uint8_t value;
} call;

typedef struct {
    uint32_t line, frame, contention, block, border;
    size_t ram, rom;
} numbers;
extern const numbers machines[2];

/* The state record, read. */
typedef struct {
    unsigned machine;
    uint32_t clock, passed;
    unsigned phase, painted, paging, reported, colour, blocked, pairs;
} record;

/* Either start, or a start from a snapshot: it makes a record, and judges none. */
bool is_start(call_kind k);

bool sound(const uint8_t bytes[23], record *r);
void encode(const record *r, uint8_t bytes[23]);
uint32_t delay_at(const numbers *n, uint32_t clock);
uint32_t block_position(const numbers *n, uint32_t clock);
uint32_t border_position(const numbers *n, uint32_t clock, bool *end);
unsigned shown_page(const record *r);

/* The lent memory, in the sizes of the larger machine. */
typedef struct {
    uint8_t rom[32768], ram[131072], bytes[16384], file[6912], still[49152], picture[2][49152], border[76800];
    uint8_t sna[147487], registers[30];
} world;

/* The length that a slice must have, for a machine. A snapshot has its size instead, which is no matter of lengths: of it
 * this is the largest that can be due. */
size_t right_length(slice s, unsigned machine, unsigned answer);

/* The size that is due of a snapshot, for a machine and a 7FFD byte; and where that byte stands in one. */
size_t sna_size(unsigned machine, unsigned paging);
enum { SNA_PAGING_AT = 49181 };

/* The first refusal, in the stated order, whose condition holds; 0 if none does. `state` is read only if its length is
 * right, `devices` likewise. `sna` is the snapshot that is imported, in a room of the largest size. */
unsigned refusal_of(const call *c, const uint8_t *state, const uint8_t *devices, const uint8_t *sna);

/* An accepted call: changes `state` and `w`, and fills the first 0, 5 or 10 bytes of `answer`. */
void carry_out(const call *c, uint8_t state[23], const uint8_t devices[35], world *w, uint8_t answer[10]);

#endif
