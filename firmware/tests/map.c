/* Holds the wrapper's read without a call (ulb_machine_byte) to ulb_read_internal: at the edges of each block and across it, on
 * both kinds, over every 7FFD byte, by either way of writing it, locked or not, after a restart, a loaded record, a snapshot
 * and a copy.
 * Then what else the wrapper does by itself: screen files, its starts in black, in a colour and from a snapshot, and the
 * registers of one by name.
 * Prints one line a failure and a last line `map: N checks, M failed`; exit status 1 if any failed. */
#include <stdio.h>
#include <string.h>
#include "ulb_machine.h"

static ulb_machine m, other;
static unsigned checks, failures;

static void check_at(int line, const char *what, long got, long want) {
    checks++;
    if (got != want) {
        failures++;
        printf("map.c:%d: %s: got %ld, want %ld\n", line, what, got, want);
    }
}
#define CHECK(what, got, want) check_at(__LINE__, what, (long)(got), (long)(want))

/* No two pages of ROM and RAM have the same byte at the same offset, so that a wrong page is seen at every address. */
static uint8_t filling(unsigned page, unsigned offset) { return (uint8_t)(31 * page + 7 * offset + (offset >> 8) + 3); }

static void fill(ulb_machine *x, uint32_t kind) {
    static uint8_t rom[ULB_ROM_BYTES_128K], page[ULB_PAGE_BYTES];
    size_t rom_len = kind == ULB_48K ? ULB_ROM_BYTES_48K : ULB_ROM_BYTES_128K;
    for (size_t i = 0; i < rom_len; i++) rom[i] = filling(8 + (unsigned)(i / ULB_PAGE_BYTES), i % ULB_PAGE_BYTES);
    CHECK("init", ulb_machine_init(x, kind, rom, rom_len), ULB_OK);
    for (unsigned p = 0; p < (kind == ULB_48K ? 3 : 8); p++) {
        for (unsigned i = 0; i < sizeof page; i++) page[i] = filling(p, i);
        CHECK("load page", ulb_machine_load_page(x, page, sizeof page, p), ULB_OK);
    }
}

/* The map's byte is the call's, in every block at its first and last two bytes, and at every `stride`th address. */
static void same_at(int line, ulb_machine *x, unsigned stride) {
    for (unsigned addr = 0; addr < 65536; addr++) {
        unsigned offset = addr % ULB_PAGE_BYTES;
        if (offset > 1 && offset < ULB_PAGE_BYTES - 2 && addr % stride != 0) continue;
        ulb_number call = ulb_machine_read(x, (uint16_t)addr);
        check_at(line, "the read is accepted", call.refusal, ULB_OK);
        check_at(line, "the map's byte is the call's", ulb_machine_byte(x, (uint16_t)addr), (long)call.number);
    }
}
#define SAME(x, stride) same_at(__LINE__, x, stride)

/* At how many of the blocks' first bytes a map differs from the calls. */
static unsigned wrong_blocks(const uint32_t *map) {
    ulb_machine *x = &other; /* a copy of m, but with that map */
    memcpy(x, &m, sizeof m);
    memcpy(x->map, map, sizeof x->map);
    unsigned wrong = 0;
    for (unsigned block = 0; block < 4; block++) {
        uint16_t addr = (uint16_t)(ULB_PAGE_BYTES * block);
        wrong += ulb_machine_byte(x, addr) != ulb_machine_read(&m, addr).number;
    }
    return wrong;
}

/* The wrapper's two calls of screen files, on m, a 128K that shows page 5. */
static void screen_files(void) {
    static uint8_t file[ULB_SCREEN_FILE_BYTES];
    const uint8_t *page5 = m.ram + 5 * ULB_PAGE_BYTES, *page7 = m.ram + 7 * ULB_PAGE_BYTES;
    CHECK("save", ulb_machine_save_scr(&m, file, sizeof file), ULB_OK);
    CHECK("is of the shown page", memcmp(file, page5, sizeof file), 0);
    CHECK("page 7 is another", memcmp(file, page7, sizeof file) != 0, 1);
    CHECK("load", ulb_machine_load_scr(&m, file, sizeof file, 7), ULB_OK);
    CHECK("is in page 7", memcmp(file, page7, sizeof file), 0);
    CHECK("a short file is not written", ulb_machine_save_scr(&m, file, sizeof file - 1), ULB_BAD_LENGTH);
    CHECK("nor read", ulb_machine_load_scr(&m, file, sizeof file - 1, 6), ULB_BAD_LENGTH);
    CHECK("no page 8", ulb_machine_load_scr(&m, file, sizeof file, 8), ULB_BAD_PAGE);
    CHECK("page 6 is no video page", ulb_machine_load_scr(&m, file, sizeof file, 6), ULB_NO_VIDEO_PAGE);
    CHECK("which has words", strcmp(ulb_refusal_text(ULB_NO_VIDEO_PAGE), "a RAM page that is no video page"), 0);
    CHECK("and 12 has none", strcmp(ulb_refusal_text(12), "no refusal has this number"), 0);
}

/* After a start ROM is there and RAM empty; the first frame, with no border write, shows the beam's colour, and black
 * is reported. */
enum { ROM_BYTE = 0x5A };
static void check_started(uint8_t colour) {
    unsigned other_pixels = 0;
    CHECK("ROM", ulb_machine_byte(&m, 0x3FFF), ROM_BYTE);
    CHECK("RAM", ulb_machine_byte(&m, 0x4000), 0);
    CHECK("beam colour", ulb_machine_beam_colour(&m), colour);
    CHECK("reported border", ulb_machine_reported_border(&m), 0);
    memset(m.border, 0xAA, sizeof m.border); /* so that a pixel left alone is seen */
    CHECK("wait", ulb_machine_wait(&m, 60000).refusal, ULB_OK);
    CHECK("closes", ulb_machine_wait(&m, ulb_machine_frame_length(&m) - 60000).closed, true);
    for (size_t i = 0; i < sizeof m.border; i++) other_pixels += m.border[i] != colour;
    CHECK("pixels of another colour", other_pixels, 0);
}

/* The wrapper's starts: the first and again, in black and in a colour. One that is refused writes nothing. */
static void starts(uint32_t kind) {
    static uint8_t rom[ULB_ROM_BYTES_128K];
    size_t rom_len = kind == ULB_48K ? ULB_ROM_BYTES_48K : ULB_ROM_BYTES_128K;
    memset(rom, ROM_BYTE, sizeof rom);
    memset(&m, 0xAA, sizeof m);
    memcpy(&other, &m, sizeof m);
    CHECK("no such kind", ulb_machine_init_colour(&m, 2, rom, rom_len - 1, 8), ULB_BAD_MACHINE);
    CHECK("a short ROM", ulb_machine_init_colour(&m, kind, rom, rom_len - 1, 8), ULB_BAD_LENGTH);
    CHECK("colour 8", ulb_machine_init_colour(&m, kind, rom, rom_len, 8), ULB_BAD_NUMBER);
    CHECK("colour 256", ulb_machine_init_colour(&m, kind, rom, rom_len, 256), ULB_BAD_NUMBER);
    CHECK("nothing was written", memcmp(&m, &other, sizeof m), 0);

    CHECK("init", ulb_machine_init(&m, kind, rom, rom_len), ULB_OK);
    check_started(0);
    for (uint8_t colour = 0; colour < 8; colour++) {
        CHECK("init in a colour", ulb_machine_init_colour(&m, kind, rom, rom_len, colour), ULB_OK);
        check_started(colour);
        ulb_machine_set_tape(&m, false);
        CHECK("restart in another", ulb_machine_restart_colour(&m, 7u - colour), ULB_OK);
        CHECK("the devices stay", m.devices[24], 0);
        check_started(7 - colour);
        memcpy(&other, &m, sizeof m);
        CHECK("restart in colour 8", ulb_machine_restart_colour(&m, 8), ULB_BAD_NUMBER);
        CHECK("restart in colour 80000007h", ulb_machine_restart_colour(&m, 0x80000007), ULB_BAD_NUMBER);
        CHECK("all stays", memcmp(&m, &other, sizeof m), 0);
        CHECK("restart", ulb_machine_restart(&m), ULB_OK);
        check_started(0);
    }
}

/* The wrapper's snapshots, for each bank that can be paged: what a machine writes another of its kind starts from, and so does
 * the machine itself again. One that is refused writes nothing. */
static void snapshots(uint32_t kind, uint8_t paging) {
    static uint8_t file[ULB_SNA_BYTES_128K_TWICE + 1], again[sizeof file], rom[ULB_ROM_BYTES_128K];
    uint8_t registers[ULB_REGISTER_BYTES], back[ULB_REGISTER_BYTES], held[ULB_REGISTER_BYTES];
    size_t rom_len = kind == ULB_48K ? ULB_ROM_BYTES_48K : ULB_ROM_BYTES_128K;
    bool twice = kind == ULB_128K && (paging % 8 == 5 || paging % 8 == 2);
    size_t size = kind == ULB_48K ? ULB_SNA_BYTES_48K : twice ? ULB_SNA_BYTES_128K_TWICE : ULB_SNA_BYTES_128K;
    memset(rom, ROM_BYTE, sizeof rom);
    for (unsigned i = 0; i < sizeof registers; i++) registers[i] = (uint8_t)(3 * i + 1);
    fill(&m, kind);
    ulb_machine_write_7ffd(&m, paging);
    CHECK("border", ulb_machine_write_io(&m, 0x00FE, 6).value, ULB_WROTE_BORDER);
    CHECK("the size that is due", ulb_machine_sna_bytes(&m), size);
    memcpy(&other, &m, sizeof m);
    CHECK("a short export", ulb_machine_save_sna(&m, file, size - 1, registers), ULB_WRONG_SIZE);
    CHECK("a long one", ulb_machine_save_sna(&m, file, size + 1, registers), ULB_WRONG_SIZE);
    CHECK("export", ulb_machine_save_sna(&m, file, size, registers), ULB_OK);
    CHECK("changes nothing", memcmp(&m, &other, sizeof m), 0);

    /* a machine that was never started */
    memset(&other, 0xAA, sizeof other);
    memset(back, 0xAA, sizeof back);
    memcpy(&m, &other, sizeof m);
    memcpy(held, back, sizeof held);
    CHECK("no such kind", ulb_machine_init_sna(&m, 2, rom, rom_len - 1, file, size - 1, back), ULB_BAD_MACHINE);
    CHECK("a short ROM", ulb_machine_init_sna(&m, kind, rom, rom_len - 1, file, size - 1, back), ULB_BAD_LENGTH);
    CHECK("no ROM", ulb_machine_init_sna(&m, kind, NULL, rom_len, file, size - 1, back), ULB_BAD_LENGTH);
    CHECK("a short file", ulb_machine_init_sna(&m, kind, rom, rom_len, file, size - 1, back), ULB_WRONG_SIZE);
    if (twice) {
        file[32795] ^= 1;
        CHECK("unequal copies", ulb_machine_init_sna(&m, kind, rom, rom_len, file, size, back), ULB_UNEQUAL_COPIES);
        file[32795] ^= 1;
    }
    CHECK("nothing was written", memcmp(&m, &other, sizeof m) | memcmp(back, held, sizeof back), 0);
    CHECK("init from a snapshot", ulb_machine_init_sna(&m, kind, rom, rom_len, file, size, back), ULB_OK);
    CHECK("ROM", ulb_machine_byte(&m, 0x3FFF), ROM_BYTE);
    CHECK("no device, and the tape bit is 1", m.devices[24] == 1 && m.devices[0] == 0xFF && m.devices[25] == 0, 1);
    SAME(&m, 997);

    /* and again, into one whose RAM, paging and devices are others, and stay if it is refused */
    ulb_machine_write_7ffd(&m, 0x10);
    ulb_machine_set_tape(&m, false);
    for (unsigned addr = 0x4000; addr < 0x10000; addr += 101) ulb_machine_write(&m, (uint16_t)addr, 0xA5);
    memcpy(&other, &m, sizeof m);
    memset(back, 0xAA, sizeof back);
    CHECK("a long file", ulb_machine_load_sna(&m, file, size + 1, back), ULB_WRONG_SIZE);
    CHECK("all stays", memcmp(&m, &other, sizeof m) | memcmp(back, held, sizeof back), 0);
    CHECK("load", ulb_machine_load_sna(&m, file, size, back), ULB_OK);
    SAME(&m, 997);
    CHECK("the devices stay", m.devices[24], 0);
    CHECK("the ROM too", ulb_machine_byte(&m, 0), ROM_BYTE);
    CHECK("paging and lock", ulb_machine_read_7ffd(&m).number, kind == ULB_48K ? 0 : paging);
    CHECK("reported border", ulb_machine_reported_border(&m), 6);
    CHECK("beam colour", ulb_machine_beam_colour(&m), 6);
    CHECK("frame clock", ulb_machine_frame_clock(&m), 0);
    registers[26] = 6; /* not what was lent, but the border */
    if (kind == ULB_48K) memset(registers + 27, 0, 3);
    CHECK("the registers", memcmp(back, registers, sizeof back), 0);
    for (unsigned p = 0; p < (kind == ULB_48K ? 3 : 8); p++) {
        const uint8_t *bank = ulb_machine_ram_page(&m, p).bytes;
        unsigned wrong = 0;
        for (unsigned i = 0; i < ULB_PAGE_BYTES; i++) wrong += bank[i] != filling(p, i);
        CHECK("bytes of another bank", wrong, 0);
    }
    CHECK("export again", ulb_machine_save_sna(&m, again, ulb_machine_sna_bytes(&m), back), ULB_OK);
    CHECK("is the same file", memcmp(again, file, size), 0);
}

/* Each register of a snapshot by its name, from the header's places; and back, with no byte lost. */
static void registers_by_name(void) {
    static const uint8_t bytes[ULB_REGISTER_BYTES] = {
        0x3F, 0x02, 0x01, 0x04, 0x03, 0x06, 0x05, 0x08, 0x07, 0x0A, 0x09, 0x0C, 0x0B, 0x0E, 0x0D, 0x10, 0x0F, 0x12, 0x11, 0x04,
        0x7E, 0x14, 0x13, 0x16, 0x15, 0x02, 0xF9, 0x18, 0x17, 0x5D,
    };
    uint8_t back[ULB_REGISTER_BYTES];
    ulb_z80_registers z = ulb_z80_registers_of(bytes);
    CHECK("I", z.i, 0x3F);
    CHECK("HL'", z.hl2, 0x0102);
    CHECK("DE'", z.de2, 0x0304);
    CHECK("BC'", z.bc2, 0x0506);
    CHECK("AF'", z.af2, 0x0708);
    CHECK("HL", z.hl, 0x090A);
    CHECK("DE", z.de, 0x0B0C);
    CHECK("BC", z.bc, 0x0D0E);
    CHECK("IY", z.iy, 0x0F10);
    CHECK("IX", z.ix, 0x1112);
    CHECK("IFF2", z.iff & ULB_Z80_IFF2, ULB_Z80_IFF2);
    CHECK("R", z.r, 0x7E);
    CHECK("AF", z.af, 0x1314);
    CHECK("SP", z.sp, 0x1516);
    CHECK("interrupt mode", z.im, 2);
    CHECK("border", z.border, 0xF9);
    CHECK("PC", z.pc, 0x1718);
    CHECK("TR-DOS", z.tr_dos, 0x5D);
    for (unsigned i = 0; i < ULB_REGISTER_BYTES; i++)
        for (unsigned v = 0; v < 256; v += 51) {
            uint8_t one[ULB_REGISTER_BYTES];
            memcpy(one, bytes, sizeof one);
            one[i] = (uint8_t)v;
            z = ulb_z80_registers_of(one);
            memset(back, 0xAA, sizeof back);
            ulb_z80_registers_to(&z, back);
            CHECK("no byte is lost", memcmp(one, back, sizeof one), 0);
        }
}

int main(void) {
    uint8_t fresh[ULB_STATE_BYTES];
    uint32_t old[4];

    /* 48K: nothing pages */
    fill(&m, ULB_48K);
    SAME(&m, 1);
    CHECK("7FFD on 48K", ulb_machine_write_7ffd(&m, 0x17).number, ULB_WROTE_NOTHING);
    SAME(&m, 97);
    CHECK("port 7FFD on 48K", ulb_machine_write_io(&m, 0x7FFD, 0x17).value, ULB_WROTE_NOTHING);
    SAME(&m, 97);

    /* 128K: every 7FFD byte, by the call and by the port, each from a fresh record, since some lock */
    fill(&m, ULB_128K);
    memcpy(fresh, m.state, sizeof fresh);
    SAME(&m, 1);
    for (unsigned v = 0; v < 256; v++) {
        CHECK("a fresh record", ulb_machine_load_state(&m, fresh, sizeof fresh), ULB_OK);
        SAME(&m, 4999);
        CHECK("paged", ulb_machine_write_7ffd(&m, (uint8_t)v).number, ULB_PAGED);
        SAME(&m, 997);
        CHECK("again", ulb_machine_write_io(&m, 0x7FFD, (uint8_t)(v ^ 7)).value, v & 0x20 ? ULB_LOCKED : ULB_PAGED);
        SAME(&m, 997);
    }

    /* the test would see a map that is not made anew: after paging the old one is wrong at ROM and at C000h */
    CHECK("a fresh record", ulb_machine_load_state(&m, fresh, sizeof fresh), ULB_OK);
    memcpy(old, m.map, sizeof old);
    CHECK("the map is right", wrong_blocks(old), 0);
    CHECK("paged", ulb_machine_write_io(&m, 0x7FFD, 0x13).value, ULB_PAGED);
    CHECK("the old map is wrong", wrong_blocks(old), 2);
    CHECK("the new one is right", wrong_blocks(m.map), 0);

    /* a locked write and a border write leave it; so do waits, reads, bytes written, screen files and refused calls */
    CHECK("locks", ulb_machine_write_7ffd(&m, 0x36).number, ULB_PAGED);
    memcpy(old, m.map, sizeof old);
    CHECK("locked", ulb_machine_write_io(&m, 0x7FFD, 0).value, ULB_LOCKED);
    CHECK("border", ulb_machine_write_io(&m, 0x00FE, 5).value, ULB_WROTE_BORDER);
    CHECK("wait", ulb_machine_wait(&m, 60000).refusal, ULB_OK);
    CHECK("a wait too long", ulb_machine_wait(&m, 65536).refusal, ULB_LONG_WAIT);
    CHECK("port read", ulb_machine_read_io(&m, 0x40FF).refusal, ULB_OK);
    for (unsigned addr = 0; addr < 65536; addr += 4093) {
        CHECK("byte write", ulb_machine_write(&m, (uint16_t)addr, 0xA5), ULB_OK);
        CHECK("is read", ulb_machine_byte(&m, (uint16_t)addr), addr < 0x4000 ? filling(9, addr) : 0xA5);
    }
    screen_files();
    m.devices[24] = 2;
    CHECK("a bad tape bit", ulb_machine_write_io(&m, 0x7FFD, 1).refusal, ULB_BAD_FLAG);
    m.devices[24] = 1;
    CHECK("the map stayed", memcmp(old, m.map, sizeof old), 0);
    SAME(&m, 1);

    /* a copy reads as the machine does, and its own bytes */
    uint8_t mine = ulb_machine_byte(&m, 0xC000), its = (uint8_t)~mine;
    memcpy(&other, &m, sizeof m);
    CHECK("byte write", ulb_machine_write(&other, 0xC000, its), ULB_OK);
    CHECK("the copy's", ulb_machine_byte(&other, 0xC000), its);
    CHECK("the machine's", ulb_machine_byte(&m, 0xC000), mine);
    SAME(&other, 997);

    /* port_timing lends its scratch machine the record, and the map with it */
    fill(&other, ULB_128K);
    CHECK("port timing", ulb_machine_port_timing(&m, &other, 0x40FF).refusal, ULB_OK);
    SAME(&other, 997);

    /* records from outside: a sound one is taken with its paging, a bad one leaves record and map */
    uint8_t record[ULB_STATE_BYTES];
    memcpy(record, fresh, sizeof record);
    record[17] = 0x14;
    CHECK("loaded", ulb_machine_load_state(&m, record, sizeof record), ULB_OK);
    CHECK("its 7FFD byte", ulb_machine_read_7ffd(&m).number, 0x14);
    SAME(&m, 97);
    memcpy(old, m.map, sizeof old);
    record[14] = 32; /* no such flash phase */
    CHECK("unsound", ulb_machine_load_state(&m, record, sizeof record), ULB_UNSOUND);
    CHECK("short", ulb_machine_load_state(&m, fresh, sizeof fresh - 1), ULB_BAD_LENGTH);
    memcpy(record, fresh, sizeof record);
    record[5] = ULB_48K;
    CHECK("another kind", ulb_machine_load_state(&m, record, sizeof record), ULB_BAD_LENGTH);
    CHECK("its 7FFD byte", ulb_machine_read_7ffd(&m).number, 0x14);
    CHECK("the map stayed", memcmp(old, m.map, sizeof old), 0);

    /* a restart pages page 0 and ROM 0 in again */
    CHECK("restart", ulb_machine_restart(&m), ULB_OK);
    CHECK("ROM 0", ulb_machine_byte(&m, 0), filling(8, 0));
    SAME(&m, 1);

    starts(ULB_48K);
    starts(ULB_128K);
    snapshots(ULB_48K, 0);
    for (uint8_t bank = 0; bank < 8; bank++) {
        snapshots(ULB_128K, (uint8_t)(0x10 + bank));
        snapshots(ULB_128K, (uint8_t)(0xE8 + bank)); /* locked */
    }
    CHECK("10 has words", strcmp(ulb_refusal_text(ULB_WRONG_SIZE), "a snapshot's size is not the one due"), 0);
    CHECK("and 11", strcmp(ulb_refusal_text(ULB_UNEQUAL_COPIES), "the two copies of a bank in a snapshot differ"), 0);
    registers_by_name();
    printf("map: %u checks, %u failed\n", checks, failures);
    return failures != 0;
}
