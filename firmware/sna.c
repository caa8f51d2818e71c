/* sna.c: says what a snapshot (SNA) holds, and makes a PNG of its screen, for port engineers. Run without words it says
 * what it does.
 *
 * Whether a file is a snapshot is the library's to say, by its import; what is said here of a refused one only puts the
 * refusal in words. The picture is the library's still picture of the machine that the import leaves. */
#include <errno.h>
#include <string.h>
#include "files.h"
#include "png.h"
#include "ulb.h"

enum { WIDTH = 256, HEIGHT = 192 };
typedef struct { const char *in, *out; bool over; } words;

const char program[] = "sna";

static const char *const colour_names[8] = {"black", "blue", "red", "magenta", "green", "cyan", "yellow", "white"};

/* ---- What it says ----------------------------------------------------------------------------------------------- */

static void usage(void) {
    puts("sna: says what a ZX Spectrum snapshot (SNA file) holds: the machine, its border,\n"
         "its memory paging and the registers of its processor, the Z80.\n"
         "\n"
         "    sna FILE.sna                  says it\n"
         "    sna FILE.sna OUT.png          says it, and makes a picture of its screen, of\n"
         "                                  256 x 192 pixels\n"
         "\n"
         "If OUT is there already it is left alone, unless you add --over. FILE is only\n"
         "read. For example:\n"
         "\n"
         "    sna menu.sna                       to see where a title goes on\n"
         "    sna menu.sna menu.png --over       to look at it, too\n"
         "\n"
         "A snapshot is known by its size, in bytes:\n"
         "\n"
         "    49179     of a 48K machine\n"
         "    131103    of a 128K machine\n"
         "    147487    of a 128K machine where bank 5 or 2 is the paged one: it stands in\n"
         "              the file twice, and the two copies have to be equal\n"
         "\n"
         "What the lines say. A number with h behind it is hexadecimal; an offset counts\n"
         "the file's bytes from 0.\n"
         "\n"
         "    border    the border's colour: the low three bits of byte 26\n"
         "    7FFD      128K: the byte last written to the paging port 7FFDh, and what its\n"
         "              bits say: which of the eight banks of RAM (16,384 bytes each) the\n"
         "              Z80 sees from C000h on, the paged one; whether the screen shown is\n"
         "              bank 5 or bank 7; which ROM it sees; whether paging is locked, so\n"
         "              that nothing but a reset changes it; unused bits, if one is set\n"
         "    RAM       48K: where it stands in the file\n"
         "    banks     128K: where each stands in the file\n"
         "    TR-DOS    128K: 1 if the disk system's ROM was paged in, else 0\n"
         "    PC        where the Z80 goes on. A 128K snapshot has it; in a 48K one it lies\n"
         "              on the stack, in the two bytes of RAM at SP, low byte first, and a\n"
         "              RETN instruction takes it from there. If SP points into the ROM\n"
         "              (below 4000h), or at FFFFh, whose next byte is at 0000h, then it\n"
         "              is not in the file\n"
         "    SP        the stack pointer; of 48K also what it is once PC was taken\n"
         "    AF to IY  more registers; those with ' are the second set. Flags by letter, or\n"
         "              a - where one is 0: S sign, Z zero, 5 bit 5, H half carry, 3 bit 3,\n"
         "              P parity or overflow, N subtraction, C carry\n"
         "    I, R, IM  interrupt page, refresh counter, interrupt mode 0, 1 or 2\n"
         "    IFF2      1 if the Z80 takes interrupts when it goes on\n"
         "\n"
         "In the picture, cells that flash have ink and paper as they are, not exchanged.\n"
         "\n"
         "Exit status: 0 all was said, and OUT, if there is one, was written; 1 not so, and\n"
         "a line says why; 2 no words, or wrong ones.");
}

static int refuse_words(const char *what, const char *word) {
    fprintf(stderr, "sna: %s%s; run sna without words to see what it takes\n", what, word);
    return WRONG_WORDS;
}

/* ---- The file, and the machine that the library makes of it ----------------------------------------------------- */

/* Where things stand in a file. */
enum {
    IFF2_AT = 19,
    R_AT = 20,
    SP_AT = 23,
    MODE_AT = 25,
    BORDER_AT = 26,
    RAM_AT = 27,
    BANK_2_AT = RAM_AT + ULB_PAGE_BYTES,
    PAGED_AT = BANK_2_AT + ULB_PAGE_BYTES,
    PC_AT = PAGED_AT + ULB_PAGE_BYTES,
    PAGING_AT = PC_AT + 2,
    REST_AT = PAGING_AT + 2
};
/* Where PC and the TR-DOS byte stand in the bytes that an import hands back, behind those of the header. */
enum { GIVEN_PC_AT = 27, GIVEN_TR_DOS_AT = 29 };

enum { MOST = 16 << 20 };
static uint8_t in[MOST + 1];
static size_t in_len;

static uint8_t state[ULB_STATE_BYTES], ram[ULB_RAM_BYTES_128K], registers[ULB_REGISTER_BYTES];
static uint8_t a[ULB_PICTURE_BYTES], b[ULB_PICTURE_BYTES], border[ULB_BORDER_BYTES]; /* an import clears them */

static uint32_t machine(void) { return in_len == ULB_SNA_BYTES_48K ? ULB_48K : ULB_128K; }
static size_t ram_len(void) { return machine() == ULB_48K ? ULB_RAM_BYTES_48K : ULB_RAM_BYTES_128K; }

static unsigned word_at(const uint8_t *p) { return p[0] | (unsigned)p[1] << 8; }

static unsigned paged_bank(unsigned paging) { return paging & 7; }
static unsigned shown_bank(unsigned paging) { return paging & 8 ? 7 : 5; }
static bool stands_twice(unsigned bank) { return bank == 5 || bank == 2; }

/* What ends a refusal's line where OUT was asked for. */
static const char *unwritten(const words *w) { return w->out == NULL ? "" : "; nothing was written"; }

/* A refusal that no file can cause: something is broken, and nothing may be said or written. */
static int refuse_call(uint8_t refusal, const char *call) {
    return refuse(call, "the library refused it with %u; nothing was written", refusal);
}

/* Refusal 10, in words: the size that is due goes by the 7FFD byte, which a short file does not hold. */
static int refuse_size(const words *w) {
    static const char sizes[] = "a 48K one has 49179, a 128K one 131103, or 147487 where bank 5 or 2 is the paged one";
    unsigned long size = (unsigned long)in_len;
    if (in_len <= PAGING_AT)
        return refuse(w->in, "it has %lu bytes, and is no snapshot: %s%s", size, sizes, unwritten(w));
    unsigned bank = paged_bank(in[PAGING_AT]);
    return refuse(w->in,
                  "it has %lu bytes, and is no snapshot: %s; of 128K it would have %u, since its 7FFD byte, %02Xh "
                  "at offset %u, pages bank %u%s",
                  size, sizes, stands_twice(bank) ? ULB_SNA_BYTES_128K_TWICE : ULB_SNA_BYTES_128K, in[PAGING_AT],
                  PAGING_AT, bank, unwritten(w));
}

/* Refusal 11, in words: where the copies first differ, and in how many bytes. */
static int refuse_copies(const words *w) {
    unsigned bank = paged_bank(in[PAGING_AT]), count = 0, first = 0, at = bank == 5 ? RAM_AT : BANK_2_AT;
    for (unsigned i = ULB_PAGE_BYTES; i-- > 0;) {
        if (in[at + i] == in[PAGED_AT + i]) continue;
        first = i;
        count++;
    }
    if (count == 0) return refuse_call(ULB_UNEQUAL_COPIES, "ulb_load_sna");
    return refuse(w->in,
                  "bank %u is the paged one and so stands twice, and the two copies differ, in %u byte%s, first at "
                  "byte %04Xh of the bank: %02Xh at offset %u and %02Xh at offset %u%s",
                  bank, count, count == 1 ? "" : "s", first, in[at + first], at + first, in[PAGED_AT + first],
                  PAGED_AT + first, unwritten(w));
}

static int import(const words *w) {
    uint8_t refusal = ulb_load_sna(state, sizeof state, ram, ram_len(), in, in_len, registers, sizeof registers, a,
                                   sizeof a, b, sizeof b, border, sizeof border, machine());
    switch (refusal) {
    case ULB_OK: return DONE;
    case ULB_WRONG_SIZE: return refuse_size(w);
    case ULB_UNEQUAL_COPIES: return refuse_copies(w);
    default: return refuse_call(refusal, "ulb_load_sna");
    }
}

/* ---- What the snapshot holds ------------------------------------------------------------------------------------ */

/* A line's name; what it says follows. */
static void line(const char *name) { printf("%-10s", name); }

static void say_border(void) {
    unsigned byte = registers[BORDER_AT], colour = byte & 7;
    line("border");
    printf("%u %s", colour, colour_names[colour]);
    if (byte != colour) printf("; byte 26 is %02Xh, of which the low three bits count", byte);
    putchar('\n');
}

static void say_paging(unsigned paging) {
    line("7FFD");
    printf("%02Xh, at offset %u\n", paging, PAGING_AT);
    printf("  bank    %u from C000h on (bits 0 to 2)\n", paged_bank(paging));
    printf("  screen  in bank %u (bit 3 is %u)\n", shown_bank(paging), paging >> 3 & 1);
    printf("  ROM     %u, %s (bit 4)\n", paging >> 4 & 1, paging & 0x10 ? "48K BASIC" : "the 128K's editor");
    printf("  lock    %s\n", paging & 0x20 ? "on: only a reset changes the paging (bit 5 is 1)" : "off (bit 5 is 0)");
    static const char *const unused[] = {NULL, "bit 6 is", "bit 7 is", "bits 6 and 7 are"};
    if (paging >> 6 != 0) printf("  unused  %s set; the import keeps the whole byte\n", unused[paging >> 6]);
}

/* The banks in the order in which they stand in the file. */
static void say_banks(unsigned paging) {
    unsigned paged = paged_bank(paging), at = REST_AT;
    line("banks");
    printf("5 at offset %u, 2 at %u, %u%s at %u (the paged one%s)\n", RAM_AT, BANK_2_AT, paged,
           stands_twice(paged) ? " once more" : "", PAGED_AT, stands_twice(paged) ? ", both copies equal" : "");
    line("");
    for (unsigned bank = 0; bank < 8; bank++) {
        if (stands_twice(bank) || bank == paged) continue;
        printf("%s%u at %u", at == REST_AT ? "" : ", ", bank, at);
        at += ULB_PAGE_BYTES;
    }
    putchar('\n');
}

static void say_tr_dos(void) {
    unsigned byte = registers[GIVEN_TR_DOS_AT];
    line("TR-DOS");
    if (byte > 1) printf("%02Xh: neither 0 nor 1\n", byte);
    else printf("%u: its ROM was %spaged in\n", byte, byte == 1 ? "" : "not ");
}

/* A byte of the 48K's RAM; NULL below 4000h, where ROM is. */
static const uint8_t *ram_at(unsigned address) { return address < 0x4000 ? NULL : ram + address - 0x4000; }

/* PC of a 48K snapshot: the two bytes at SP, as far as they stand in the file. Behind FFFFh comes 0000h. */
static void say_stacked_pc(unsigned sp) {
    unsigned next = (sp + 1) & 0xFFFF;
    const uint8_t *low = ram_at(sp), *high = ram_at(next);
    if (low != NULL && high != NULL)
        printf("%04Xh, on the stack: %02Xh at %04Xh, where SP points, and %02Xh at %04Xh\n",
               *low | (unsigned)*high << 8, *low, sp, *high, next);
    else if (low != NULL)
        printf("not in the file: its low byte is %02Xh at FFFFh, where SP points; the next address wraps to 0000h, "
               "which is ROM\n", *low);
    else if (high != NULL)
        printf("not in the file: its low byte is at 3FFFh, where SP points, which is ROM; its high byte is %02Xh at "
               "4000h\n", *high);
    else printf("not in the file: its bytes are at %04Xh, where SP points, and %04Xh, which is ROM\n", sp, next);
}

static void say_pc_and_sp(void) {
    unsigned sp = word_at(registers + SP_AT);
    line("PC");
    if (machine() == ULB_48K) say_stacked_pc(sp);
    else printf("%04Xh, at offset %u\n", word_at(registers + GIVEN_PC_AT), PC_AT);
    line("SP");
    printf("%04Xh", sp);
    if (machine() == ULB_48K) printf("; %04Xh once a RETN has taken PC", (sp + 2) & 0xFFFF);
    putchar('\n');
}

static void flag_letters(unsigned flags, char to[9]) {
    for (unsigned i = 0; i < 8; i++) to[i] = flags << i & 0x80 ? "SZ5H3PNC"[i] : '-';
    to[8] = 0;
}

/* Two registers of 16 bits, which stand in the file at `left` and `right`. */
static void say_pair(const char *name, unsigned left, const char *other, unsigned right) {
    line(name);
    printf("%04Xh              %-10s%04Xh\n", word_at(registers + left), other, word_at(registers + right));
}

static void say_registers(void) {
    char flags[9], second[9];
    unsigned iff2 = registers[IFF2_AT] >> 2 & 1, mode = registers[MODE_AT];
    flag_letters(registers[21], flags);
    flag_letters(registers[7], second);
    line("AF");
    printf("%04Xh  %-12s%-10s%04Xh  %s\n", word_at(registers + 21), flags, "AF'", word_at(registers + 7), second);
    say_pair("BC", 13, "BC'", 5);
    say_pair("DE", 11, "DE'", 3);
    say_pair("HL", 9, "HL'", 1);
    say_pair("IX", 17, "IY", 15);
    line("I");
    printf("%02Xh                %-10s%02Xh\n", registers[0], "R", registers[R_AT]);
    line("IM");
    if (mode > 2) printf("byte 25 is %02Xh, and there are modes 0, 1 and 2 only\n", mode);
    else printf("%u\n", mode);
    line("IFF2");
    printf("%u: interrupts are %s", iff2, iff2 ? "on" : "off");
    if ((registers[IFF2_AT] & ~4) != 0) printf("; byte 19 is %02Xh, of which bit 2 counts", registers[IFF2_AT]);
    putchar('\n');
}

static int say_all(const words *w) {
    printf("%s: a %s snapshot, %lu bytes\n", w->in, machine() == ULB_48K ? "48K" : "128K", (unsigned long)in_len);
    say_border();
    if (machine() == ULB_48K) {
        line("RAM");
        printf("4000h to FFFFh at offset %u\n", RAM_AT);
    } else {
        say_paging(in[PAGING_AT]);
        say_banks(in[PAGING_AT]);
        say_tr_dos();
    }
    say_pc_and_sp();
    say_registers();
    if (w->out != NULL)
        printf("%s: written, the screen of %s as 256 x 192 pixels; cells that flash are as they are, not exchanged\n",
               w->out, w->in);
    return fflush(stdout) == 0 && !ferror(stdout) ? DONE : refuse("what it says", "%s", strerror(errno));
}

/* ---- Its screen, as a PNG --------------------------------------------------------------------------------------- */

static bool put_picture(FILE *f, const void *pixels) { return png_write(f, pixels, WIDTH, HEIGHT) == 0; }

static int write_screen(const words *w) {
    static uint8_t picture[ULB_PICTURE_BYTES];
    uint8_t refusal = ulb_still_picture(state, sizeof state, ram, ram_len(), picture, sizeof picture, 0);
    if (refusal != ULB_OK) return refuse_call(refusal, "ulb_still_picture");
    for (unsigned i = 0; i < sizeof picture; i++)
        if (picture[i] == 8) picture[i] = 0; /* bright black is black: so scr makes the same file of the same screen */
    return write_file(w->out, put_picture, picture);
}

/* Whoever swaps the two words must not lose a snapshot. */
static int judge_names(const words *w) {
    if (same_file(w->in, w->out)) return refuse(w->out, "FILE and OUT are the same file; nothing was written");
    if (ends_in(w->out, ".sna"))
        return refuse(w->out, "it is named like a snapshot, and would be a PNG: swapped? nothing was written");
    return judge_out(w->out, w->over);
}

/* ---- Its words -------------------------------------------------------------------------------------------------- */

int main(int argc, char **argv) {
    words w = {NULL, NULL, false};
    if (argc < 2) {
        usage();
        return WRONG_WORDS;
    }
    for (int i = 1; i < argc; i++) {
        if (strcmp(argv[i], "--help") == 0 || strcmp(argv[i], "-h") == 0) {
            usage();
            return DONE;
        }
        if (strcmp(argv[i], "--over") == 0) w.over = true;
        else if (argv[i][0] == '-') return refuse_words("unknown word ", argv[i]);
        else if (w.in == NULL) w.in = argv[i];
        else if (w.out == NULL) w.out = argv[i];
        else return refuse_words("one word too many: ", argv[i]);
    }
    if (w.in == NULL) return refuse_words("a name is needed, FILE", "");
    if (w.over && w.out == NULL) return refuse_words("--over is for OUT, and no OUT is named", "");
    int status = read_file(w.in, in, MOST, &in_len);
    if (status == DONE) status = import(&w);
    if (status == DONE && w.out != NULL) status = judge_names(&w);
    if (status == DONE && w.out != NULL) status = write_screen(&w);
    return status == DONE ? say_all(&w) : status;
}
