/* lending.c: see lending.h. */
#define _GNU_SOURCE
#include "lending.h"
#include <signal.h>
#include <stdio.h>
#include <stdlib.h>
#include <string.h>
#include <sys/mman.h>
#include <unistd.h>
#include "ulb.h"

const char *const slice_names[SLICES] = {"state", "devices", "rom", "ram", "bytes", "file", "snapshot", "registers",
                                         "picture", "a", "b", "border", "answer"};

static uint8_t *map_between(int file, size_t size, int rights) {
    uint8_t *room = mmap(NULL, size + 2 * GUARD, PROT_NONE, MAP_PRIVATE | MAP_ANONYMOUS, -1, 0);
    if (room == MAP_FAILED || mmap(room + GUARD, size, rights, MAP_SHARED | MAP_FIXED, file, 0) == MAP_FAILED) {
        perror("lending: mmap");
        exit(2);
    }
    return room + GUARD;
}

zone make_zone(size_t bytes) {
    zone z;
    z.size = (bytes + GUARD - 1) / GUARD * GUARD;
    int file = memfd_create("zone", 0);
    if (sysconf(_SC_PAGESIZE) != GUARD || file < 0 || ftruncate(file, (off_t)z.size) != 0) {
        fprintf(stderr, "lending: no guarded memory in pages of %d bytes\n", GUARD);
        exit(2);
    }
    z.rw = map_between(file, z.size, PROT_READ | PROT_WRITE);
    z.ro = map_between(file, z.size, PROT_READ);
    close(file);
    return z;
}

static void (*report_fault)(const void *where);

static void fault(int signal, siginfo_t *info, void *context) {
    (void)signal;
    (void)context;
    report_fault(info->si_addr);
    fflush(stdout);
    _exit(1);
}

void on_fault(void (*report)(const void *where)) {
    struct sigaction act;
    memset(&act, 0, sizeof act);
    report_fault = report;
    act.sa_sigaction = fault;
    act.sa_flags = SA_SIGINFO;
    sigaction(SIGSEGV, &act, NULL);
    sigaction(SIGBUS, &act, NULL);
}

uint8_t make_call(const call *c, uint8_t *p[SLICES]) {
#define S(s) p[s], c->length[s]
#define LENT S(RAM), S(A), S(B), S(BORDER)
    switch (c->kind) {
        case START: return ulb_start(S(STATE), LENT, c->number);
        case START_COLOUR: return ulb_start_colour(S(STATE), LENT, c->number, c->colour);
        case LOAD_SNA:
            return ulb_load_sna(S(STATE), S(RAM), S(SNA), S(REGISTERS), S(A), S(B), S(BORDER), c->number);
        case WAIT_INTERNAL: return ulb_wait_internal(S(STATE), LENT, c->number, S(ANSWER));
        case WAIT_MREQ: return ulb_wait_mreq(S(STATE), LENT, c->addr, c->number, S(ANSWER));
        case WAIT_NO_MREQ: return ulb_wait_no_mreq(S(STATE), LENT, c->addr, c->number, S(ANSWER));
        case READ_IO: return ulb_read_io(S(STATE), S(DEVICES), LENT, c->addr, S(ANSWER));
        case WRITE_IO: return ulb_write_io(S(STATE), S(DEVICES), LENT, c->addr, c->value, S(ANSWER));
        case READ_INTERNAL: return ulb_read_internal(S(STATE), S(ROM), S(RAM), c->addr, S(ANSWER));
        case WRITE_INTERNAL: return ulb_write_internal(S(STATE), S(RAM), c->addr, c->value);
        case WRITE_7FFD: return ulb_write_7ffd(S(STATE), c->value, S(ANSWER));
        case READ_7FFD: return ulb_read_7ffd(S(STATE), S(ANSWER));
        case INT_ACTIVE: return ulb_int_active(S(STATE), S(ANSWER));
        case FRAMES_COUNT: return ulb_frames_count(S(STATE), S(ANSWER));
        case RESET_FRAME_COUNTER: return ulb_reset_frame_counter(S(STATE));
        case LOAD_PAGE: return ulb_load_page(S(STATE), S(RAM), S(BYTES), c->number);
        case SAVE_SCR: return ulb_save_scr(S(STATE), S(RAM), S(SCR));
        case LOAD_SCR: return ulb_load_scr(S(STATE), S(RAM), S(SCR), c->number);
        case SAVE_SNA: return ulb_save_sna(S(STATE), S(RAM), S(SNA), S(REGISTERS));
        case RAM_PAGE: return ulb_ram_page(S(STATE), S(RAM), c->number, S(ANSWER));
        case BLOCK: return ulb_block(S(STATE), S(ROM), S(RAM), c->number, S(ANSWER));
        case SHOWN_PICTURE: return ulb_shown_picture(S(STATE), S(A), S(B), S(ANSWER));
        case STILL_PICTURE: return ulb_still_picture(S(STATE), S(RAM), S(PICTURE), c->number);
        case BITMAP_LINE_ADDR: return ulb_bitmap_line_addr(c->number, S(ANSWER));
        case BITMAP_LINE_REL: return ulb_bitmap_line_rel(c->number, S(ANSWER));
        case BITMAP_COL_REL: return ulb_bitmap_col_rel(c->number, S(ANSWER));
        case ATTR_ROW_REL: return ulb_attr_row_rel(c->number, S(ANSWER));
        case ATTR_COL_REL: return ulb_attr_col_rel(c->number, S(ANSWER));
        default: return ulb_color_from_bits(c->number, S(ANSWER));
    }
#undef LENT
#undef S
}
