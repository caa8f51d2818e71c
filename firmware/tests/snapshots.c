/* Snapshots (SNA), read by ulb_load_sna and written by ulb_save_sna. The files are made here, by document 02's words and by
 * nothing that the calls or the fuzz program's reading are made of: each byte of RAM shows whose bank it is. Every
 * paged bank, locked and not; every byte 26; every size that is refused, and copies that differ; what an import leaves, byte
 * for byte; that a refused call writes nothing; and what the frames behind an import show.
 * Every buffer ends at a guard page; a file that is read and registers that are read stand where they cannot be written.
 *
 *     snapshots             last line `snapshots: N checks, M failed`; exit status 1 if any failed
 *     snapshots --wrong N   the calls as a bus would do them that makes mistake N (1 to 16): it has to fail, and ends there */
#include <stdio.h>
#include <stdlib.h>
#include <string.h>
#include "lending.h"
#include "ulb.h"

static unsigned long checks, failures;
static int wrong; /* the mistake made on purpose; 0 for none */
static const char *under_way = ""; /* for a report, with the 7FFD byte and the size */
static unsigned paging_under_way;
static size_t size_under_way;

static void check_at(int line, const char *what, long got, long want) {
    checks++;
    if (got == want) return;
    failures++;
    printf("snapshots.c:%d: %s: %s: got %ld, want %ld (7FFD byte %02Xh, %zu bytes)\n", line, under_way, what, got, want,
           paging_under_way, size_under_way);
    if (wrong != 0) exit(1);
}
#define CHECK(what, got, want) check_at(__LINE__, what, (long)(got), (long)(want))

static bool all_are(const uint8_t *p, size_t n, uint8_t value) {
    for (size_t i = 0; i < n; i++)
        if (p[i] != value) return false;
    return true;
}

/* ---- Files, made by hand --------------------------------------------------------------------------------------------- */

enum { BANK = 16384, LARGEST = ULB_SNA_BYTES_128K_TWICE + 1 };

static zone file_zone, registers_zone; /* one for both directions: to be written, or to be read only */

/* A file of so many bytes ends at the guard page. */
static uint8_t *file_of(size_t size) { return file_zone.rw + (file_zone.size - size); }
static const uint8_t *read_only_file(size_t size) { return file_zone.ro + (file_zone.size - size); }

/* The byte of a bank at an offset: its upper three bits are the bank, and the others go by all bits of the offset. */
static uint8_t bank_byte(unsigned bank, unsigned offset) {
    return (uint8_t)(32 * bank + (offset ^ offset >> 5 ^ offset >> 10) % 32);
}

static void put_bank(uint8_t *at, unsigned bank) {
    for (unsigned i = 0; i < BANK; i++) at[i] = bank_byte(bank, i);
}

/* The header's byte i; byte 26 has its own. */
static uint8_t header_byte(unsigned i) { return (uint8_t)(0xB0 + i); }

static void put_header(uint8_t *file, uint8_t border) {
    for (unsigned i = 0; i < 26; i++) file[i] = header_byte(i);
    file[26] = border;
}

/* 48K: "27 header bytes, border colour in byte 26, then RAM from 4000h". */
static size_t make_48k(uint8_t border) {
    uint8_t *file = file_of(49179);
    put_header(file, border);
    put_bank(file + 27, 0);
    put_bank(file + 16411, 1);
    put_bank(file + 32795, 2);
    return 49179;
}

/* The banks behind the TR-DOS byte, by the paged one; 9 is none. */
static const uint8_t remaining[8][6] = {
    {1, 3, 4, 6, 7, 9}, {0, 3, 4, 6, 7, 9}, {0, 1, 3, 4, 6, 7}, {0, 1, 4, 6, 7, 9},
    {0, 1, 3, 6, 7, 9}, {0, 1, 3, 4, 6, 7}, {0, 1, 3, 4, 7, 9}, {0, 1, 3, 4, 6, 9},
};
enum { PC_LOW = 0x34, PC_HIGH = 0x92, TR_DOS = 0x5D };

static size_t due_128k(uint8_t paging) { return remaining[paging % 8][5] == 9 ? 131103 : 147487; }

/* 128K: "the same, with banks 5, 2 and the paged one, then PC, the 7FFD byte, a TR-DOS byte and the remaining banks in
 * rising order". */
static size_t make_128k(uint8_t paging, uint8_t border) {
    size_t size = due_128k(paging);
    uint8_t *file = file_of(size), *end = file + 49183;
    put_header(file, border);
    put_bank(file + 27, 5);
    put_bank(file + 16411, 2);
    put_bank(file + 32795, paging % 8);
    file[49179] = PC_LOW;
    file[49180] = PC_HIGH;
    file[49181] = paging;
    file[49182] = TR_DOS;
    for (int i = 0; i < 6 && remaining[paging % 8][i] != 9; i++, end += BANK) put_bank(end, remaining[paging % 8][i]);
    CHECK("the test's own file has its size", end - file, (long)size);
    return size;
}

static size_t make_file(unsigned kind, uint8_t paging, uint8_t border) {
    paging_under_way = kind == ULB_48K ? 0 : paging;
    return size_under_way = kind == ULB_48K ? make_48k(border) : make_128k(paging, border);
}

/* ---- A machine, and the two calls on it ------------------------------------------------------------------------------ */

typedef struct {
    uint8_t *state, *ram, *a, *b, *border, *answer;
    size_t ram_len;
} machine;

/* `n` bytes that end at a guard page. */
static uint8_t *room(size_t n) {
    zone z = make_zone(n);
    return z.rw + z.size - n;
}

static machine make(unsigned kind) {
    machine m;
    m.ram_len = kind == ULB_48K ? ULB_RAM_BYTES_48K : ULB_RAM_BYTES_128K;
    m.state = room(ULB_STATE_BYTES);
    m.ram = room(m.ram_len);
    m.a = room(ULB_PICTURE_BYTES);
    m.b = room(ULB_PICTURE_BYTES);
    m.border = room(ULB_BORDER_BYTES);
    m.answer = room(ULB_TIMED_ANSWER_BYTES);
    return m;
}

#define OWN(m) (m)->state, ULB_STATE_BYTES
#define PAINTED(m) (m)->a, ULB_PICTURE_BYTES, (m)->b, ULB_PICTURE_BYTES, (m)->border, ULB_BORDER_BYTES
#define LENT(m) (m)->ram, (m)->ram_len, PAINTED(m)
#define TEN(m) (m)->answer, 10
#define FIVE(m) (m)->answer + 5, 5

static uint8_t *registers(void) { return registers_zone.rw + registers_zone.size - ULB_REGISTER_BYTES; }
static const uint8_t *read_only_registers(void) { return registers_zone.ro + registers_zone.size - ULB_REGISTER_BYTES; }

/* What stood everywhere before an import. */
enum { BEFORE = 0xA5 };
static void spoil(machine *m) {
    memset(m->state, BEFORE, ULB_STATE_BYTES);
    memset(m->ram, BEFORE, m->ram_len);
    memset(m->a, BEFORE, ULB_PICTURE_BYTES);
    memset(m->b, BEFORE, ULB_PICTURE_BYTES);
    memset(m->border, BEFORE, ULB_BORDER_BYTES);
    memset(registers(), BEFORE, ULB_REGISTER_BYTES);
}

/* Mistakes that a bus could make. The call is made as it should be; then what it left or answered is made what the mistake
 * would have left or answered. */
enum {
    FALLING = 1, LOST_LOCK, BLACK_BEAM, BLACK_REPORT, FOUR_BITS, COLOUR_BACK, SWAPPED_PC, KEPT_PC, LEFT_PIXEL, KEPT_FRAMES,
    WRITTEN_REGISTERS, LAST_BYTE, LONG_FILE, EXPORT_HEADER, EXPORT_BEAM, EXPORT_COPY
};

static void exchange(uint8_t *p, uint8_t *q, size_t n) {
    for (size_t i = 0; i < n; i++) {
        uint8_t byte = p[i];
        p[i] = q[i];
        q[i] = byte;
    }
}

static unsigned mistaken_import(machine *m, const uint8_t *file, size_t size, unsigned kind, unsigned answer) {
    uint8_t *got = registers();
    if (answer != 0) {
        bool twice = kind == ULB_128K && size == 147487;
        size_t first = twice && file[49181] % 8 == 5 ? 27 : 16411;
        if (wrong == WRITTEN_REGISTERS) got[29] = 0;
        if (wrong == LAST_BYTE && twice && memcmp(file + first, file + 32795, BANK - 1) == 0) return 0;
        if (wrong == LONG_FILE && kind == ULB_48K && size > 49179) return 0;
        return answer;
    }
    switch (wrong) {
        case FALLING: exchange(m->ram, m->ram + BANK, BANK); break;
        case LOST_LOCK: m->state[17] &= 0xDF; break;
        case BLACK_BEAM: m->state[19] = 0; break;
        case BLACK_REPORT: m->state[18] = 0; break;
        case FOUR_BITS: m->state[18] = m->state[19] = file[26] & 15; break;
        case COLOUR_BACK: got[26] &= 7; break;
        case SWAPPED_PC: exchange(got + 27, got + 28, 1); break;
        case KEPT_PC: if (kind == ULB_48K) got[27] = BEFORE; break;
        case LEFT_PIXEL: m->b[ULB_PICTURE_BYTES - 1] = BEFORE; break;
        case KEPT_FRAMES: m->state[10] = 1; break;
        default: break;
    }
    return answer;
}

static unsigned import(machine *m, size_t size, unsigned kind) {
    const uint8_t *file = read_only_file(size);
    unsigned answer = ulb_load_sna(OWN(m), m->ram, m->ram_len, file, size, registers(), ULB_REGISTER_BYTES, PAINTED(m), kind);
    return wrong == 0 ? answer : mistaken_import(m, file, size, kind, answer);
}

static unsigned export(const machine *m, size_t size) {
    uint8_t *file = file_of(size);
    const uint8_t *lent = read_only_registers();
    unsigned answer = ulb_save_sna(OWN(m), m->ram, m->ram_len, file, size, lent, ULB_REGISTER_BYTES);
    if (answer == 0 && wrong == EXPORT_HEADER) file[26] = lent[26];
    if (answer == 0 && wrong == EXPORT_BEAM) file[26] = m->state[19];
    if (answer == 0 && wrong == EXPORT_COPY && size == 147487) memset(file + 32795, 0, BANK);
    return answer;
}

/* ---- What an import leaves --------------------------------------------------------------------------------------------- */

static void check_record(const machine *m, unsigned kind, uint8_t paging, uint8_t border) {
    const uint8_t fresh[ULB_STATE_BYTES] = {'U', 'L', 'B', 1, 0, (uint8_t)kind, 0, 0, 0, 0, 0, 0, 0, 0, 0, 0, 0,
                                            kind == ULB_48K ? 0 : paging, border % 8, border % 8, 0, 0, 0};
    for (int i = 0; i < ULB_STATE_BYTES; i++) CHECK("a byte of the record", m->state[i], fresh[i]);
}

static void check_registers(unsigned kind, uint8_t border) {
    const uint8_t *got = registers();
    for (unsigned i = 0; i < 26; i++) CHECK("a byte of the header", got[i], header_byte(i));
    CHECK("byte 26, as it stood", got[26], border);
    CHECK("PC's low byte", got[27], kind == ULB_48K ? 0 : PC_LOW);
    CHECK("PC's high byte", got[28], kind == ULB_48K ? 0 : PC_HIGH);
    CHECK("the TR-DOS byte", got[29], kind == ULB_48K ? 0 : TR_DOS);
}

/* Bytes of RAM that are not their bank's. */
static unsigned long other_bytes(const machine *m) {
    unsigned long other = 0;
    for (size_t i = 0; i < m->ram_len; i++) other += m->ram[i] != bank_byte((unsigned)(i / BANK), i % BANK);
    return other;
}

static void check_imported(const machine *m, unsigned kind, uint8_t paging, uint8_t border) {
    check_record(m, kind, paging, border);
    check_registers(kind, border);
    CHECK("bytes of RAM that are not their bank's", other_bytes(m), 0);
    CHECK("picture A is cleared", all_are(m->a, ULB_PICTURE_BYTES, 0), 1);
    CHECK("picture B is cleared", all_are(m->b, ULB_PICTURE_BYTES, 0), 1);
    CHECK("the border is cleared", all_are(m->border, ULB_BORDER_BYTES, 0), 1);
}

/* "import after export gives the same RAM and paging"; and "export after import gives the file back but for bits 3..7 of
 * byte 26". The registers go back as they came, but for byte 26, which is ignored. */
static void check_round_trip(machine *m, unsigned kind, uint8_t paging, uint8_t border) {
    static uint8_t held[LARGEST];
    size_t size = size_under_way;
    uint8_t *file = file_of(size);
    memcpy(held, file, size);
    memset(file, BEFORE, size);
    registers()[26] = (uint8_t)~border;
    CHECK("export", export(m, size), 0);
    CHECK("its byte 26 is the reported border", file[26], border % 8);
    held[26] = border % 8;
    CHECK("and all else the file", memcmp(file, held, size), 0);
    check_record(m, kind, paging, border);
    CHECK("the export leaves RAM", other_bytes(m), 0);
    spoil(m);
    CHECK("import of the export", import(m, size, kind), 0);
    check_imported(m, kind, paging, border % 8);
}

/* A 7FFD write behind the import: the file's lock holds. */
static void check_lock(machine *m, unsigned kind, uint8_t paging) {
    bool locked = kind == ULB_128K && paging & 0x20;
    CHECK("7FFD write", ulb_write_7ffd(OWN(m), 0x17, FIVE(m)), 0);
    CHECK("is locked, or paged; 48K: neither", m->answer[6], kind == ULB_48K ? 0 : locked ? ULB_LOCKED : ULB_PAGED);
    CHECK("and the 7FFD byte", m->state[17], kind == ULB_48K ? 0 : locked ? paging : 0x17);
}

static void imports(unsigned kind) {
    machine m = make(kind);
    under_way = "import";
    for (unsigned bits = 0; bits < (kind == ULB_48K ? 1 : 32); bits++) /* bits 3, 4, 6 and 7 of the 7FFD byte, and its lock */
        for (unsigned bank = 0; bank < (kind == ULB_48K ? 1 : 8); bank++) {
            uint8_t paging = (uint8_t)(8 * bits + bank), border = (uint8_t)(37 * paging + 0xA6);
            size_t size = make_file(kind, paging, border);
            spoil(&m);
            CHECK("import", import(&m, size, kind), 0);
            check_imported(&m, kind, paging, border);
            if (bits % 5 == 0) check_round_trip(&m, kind, paging, border);
            check_lock(&m, kind, paging);
        }
}

/* Each value of byte 26: its low three bits are border and beam colour, and all of it is handed back. */
static void borders(unsigned kind) {
    machine m = make(kind);
    under_way = "byte 26";
    size_t size = make_file(kind, 0x20, 0);
    for (unsigned border = 0; border < 256; border++) {
        file_of(size)[26] = (uint8_t)border;
        memset(m.state, (int)border, ULB_STATE_BYTES); /* any bytes: an import does not judge them */
        CHECK("import", import(&m, size, kind), 0);
        check_record(&m, kind, 0x20, (uint8_t)border);
        CHECK("as it stood", registers()[26], border);
    }
}

/* Each byte of the header, PC and the TR-DOS byte goes through, whatever it is. */
static void registers_through(unsigned kind) {
    machine m = make(kind);
    under_way = "registers";
    size_t size = make_file(kind, 0x00, 3);
    uint8_t *file = file_of(size), *lent = registers();
    CHECK("import", import(&m, size, kind), 0);
    for (unsigned value = 0; value < 256; value += 15)
        for (unsigned i = 0; i < ULB_REGISTER_BYTES; i++) {
            uint8_t held = lent[i];
            static const size_t places[3] = {49179, 49180, 49182};
            lent[i] = (uint8_t)value;
            memset(file, BEFORE, 27);
            CHECK("export", export(&m, size), 0);
            if (i == 26) CHECK("byte 26 is the border", file[26], 3);
            else if (i < 26) CHECK("a byte of the header", file[i], value);
            else if (kind == ULB_128K) CHECK("PC or TR-DOS", file[places[i - 27]], value);
            else CHECK("the last byte of RAM", file[49178], bank_byte(2, BANK - 1));
            lent[i] = held;
        }
}

/* The record's reported border and 7FFD byte go into an export, whatever else the record is; the record stays. */
static void exported_records(unsigned kind) {
    machine m = make(kind);
    under_way = "export";
    uint8_t held[ULB_STATE_BYTES];
    for (unsigned i = 0; i < 24; i++) {
        uint8_t paging = (uint8_t)(11 * i), reported = i % 8, beam = (uint8_t)(7 - reported);
        size_t size = make_file(kind, paging, reported);
        CHECK("import", import(&m, size, kind), 0);
        m.state[6] = 0x00; m.state[7] = 0x40; /* clock 16,384: within the picture */
        m.state[10] = 0x77;                   /* passed frames */
        m.state[14] = 17;                     /* phase */
        m.state[15] = 3;                      /* blocks painted */
        m.state[19] = beam;                   /* another colour than the reported one */
        m.state[21] = 9;                      /* pairs */
        memcpy(held, m.state, sizeof held);
        memset(file_of(size), BEFORE, size);
        CHECK("export", export(&m, size), 0);
        CHECK("the reported border, not the beam's", file_of(size)[26], reported);
        if (kind == ULB_128K) CHECK("the 7FFD byte", file_of(size)[49181], paging);
        CHECK("the record stays", memcmp(held, m.state, sizeof held), 0);
        CHECK("import", import(&m, size, kind), 0);
        check_imported(&m, kind, paging, reported);
    }
}

/* ---- Refusals: nothing is written ---------------------------------------------------------------------------------------- */

static void check_untouched(const machine *m) {
    CHECK("the record stays", all_are(m->state, ULB_STATE_BYTES, BEFORE), 1);
    CHECK("RAM stays", all_are(m->ram, m->ram_len, BEFORE), 1);
    CHECK("picture A stays", all_are(m->a, ULB_PICTURE_BYTES, BEFORE), 1);
    CHECK("picture B stays", all_are(m->b, ULB_PICTURE_BYTES, BEFORE), 1);
    CHECK("the border stays", all_are(m->border, ULB_BORDER_BYTES, BEFORE), 1);
    CHECK("the registers stay", all_are(registers(), ULB_REGISTER_BYTES, BEFORE), 1);
}

static void refused_import(machine *m, size_t size, unsigned kind, unsigned want) {
    size_under_way = size;
    spoil(m);
    CHECK("import is refused", import(m, size, kind), want);
    check_untouched(m);
}

/* The file of a 7FFD byte, cut to another size or made longer: its bytes from the first on, and 33h behind them. */
static void resize(unsigned kind, uint8_t paging, size_t size) {
    static uint8_t held[LARGEST];
    size_t due = make_file(kind, paging, 4);
    memset(held, 0x33, sizeof held);
    memcpy(held, file_of(due), due);
    memcpy(file_of(size), held, size);
}

static void import_sizes(unsigned kind) {
    static const size_t sizes[] = {0, 1, 26, 27, 28, 16411, 49152, 49178, 49179, 49180, 49181, 49182, 49183, 65567,
                                   131072, 131102, 131103, 131104, 147486, 147487, 147488};
    machine m = make(kind);
    under_way = "size";
    for (unsigned bank = 0; bank < (kind == ULB_48K ? 1 : 8); bank++) {
        uint8_t paging = (uint8_t)(bank + (bank % 2 ? 0xF8 : 0x00));
        size_t due = make_file(kind, paging, 4);
        for (size_t i = 0; i < sizeof sizes / sizeof *sizes; i++) {
            if (sizes[i] == due) continue;
            resize(kind, paging, sizes[i]);
            refused_import(&m, sizes[i], kind, ULB_WRONG_SIZE);
        }
    }
}

/* A file too short to hold its 7FFD byte, of every size: what would stand there does not count. */
static void too_short(void) {
    machine m = make(ULB_128K);
    under_way = "too short for its 7FFD byte";
    make_file(ULB_128K, 0, 0);
    spoil(&m);
    for (size_t size = 0; size <= 49181; size++) {
        size_under_way = size;
        CHECK("import", import(&m, size, ULB_128K), ULB_WRONG_SIZE);
    }
    check_untouched(&m);
}

/* "Where the two copies differ the file is refused": in one bit of one byte, of either copy. Equal ones are taken. */
static void unequal_copies(void) {
    static const unsigned places[] = {0, 1, 255, 256, 6911, 8191, 8192, 12345, 16382, 16383};
    static const struct { uint8_t paging; size_t first; } rows[] = {
        {0x05, 27}, {0x25, 27}, {0xFD, 27}, {0x02, 16411}, {0x3A, 16411}, {0xCA, 16411},
    };
    machine m = make(ULB_128K);
    under_way = "copies";
    for (size_t r = 0; r < sizeof rows / sizeof *rows; r++) {
        size_t size = make_file(ULB_128K, rows[r].paging, 6);
        uint8_t *file = file_of(size);
        for (size_t i = 0; i < sizeof places / sizeof *places; i++)
            for (int second = 0; second < 2; second++) {
                uint8_t *byte = file + (second ? 32795 : rows[r].first) + places[i], bit = (uint8_t)(1u << (i % 8));
                *byte ^= bit;
                refused_import(&m, size, ULB_128K, ULB_UNEQUAL_COPIES);
                *byte ^= bit;
            }
        CHECK("equal ones are taken", import(&m, size, ULB_128K), 0);
        check_imported(&m, ULB_128K, rows[r].paging, 6);
        /* the size is judged before the copies */
        uint8_t last = (uint8_t)~file[49178];
        for (size_t other = size - 1; other <= size + 1; other += 2) {
            resize(ULB_128K, rows[r].paging, other);
            file_of(other)[49178] = last;
            refused_import(&m, other, ULB_128K, ULB_WRONG_SIZE);
        }
    }
    /* where another bank is paged, banks 5 and 2 stand once, and nothing is compared with them */
    for (unsigned bank = 0; bank < 8; bank++)
        if (bank != 5 && bank != 2) CHECK("no copy", import(&m, make_file(ULB_128K, (uint8_t)bank, 0), ULB_128K), 0);
}

/* Machine, lengths and their order: the file is judged last. */
static void import_order(unsigned kind) {
    machine m = make(kind);
    under_way = "order";
    uint8_t paging = 0x05;
    size_t size = make_file(kind, paging, 1);
    file_of(size)[32795] ^= 0xFF; /* 128K: unequal copies */
    const uint8_t *file = read_only_file(size);
    spoil(&m);
#define TRY(state_by, ram_by, file_by, registers_by, a_by, b_by, border_by, number)                                       \
    ulb_load_sna(m.state, (size_t)(ULB_STATE_BYTES + (state_by)), m.ram, (size_t)((int)m.ram_len + (ram_by)), file,            \
                 (size_t)((int)size + (file_by)), registers(), (size_t)(ULB_REGISTER_BYTES + (registers_by)), m.a,          \
                 (size_t)(ULB_PICTURE_BYTES + (a_by)), m.b, (size_t)(ULB_PICTURE_BYTES + (b_by)), m.border,               \
                 (size_t)(ULB_BORDER_BYTES + (border_by)), number)
    CHECK("machine 2", TRY(-1, -1, -1, -1, -1, -1, -1, 2), ULB_BAD_MACHINE);
    CHECK("machine 256", TRY(0, 0, 0, 0, 0, 0, 0, 256), ULB_BAD_MACHINE);
    CHECK("machine FFFFFFFFh", TRY(0, 0, 0, 0, 0, 0, 0, 0xFFFFFFFF), ULB_BAD_MACHINE);
    CHECK("a short record", TRY(-1, 0, -1, 0, 0, 0, 0, kind), ULB_BAD_LENGTH);
    CHECK("short RAM", TRY(0, -1, -1, 0, 0, 0, 0, kind), ULB_BAD_LENGTH);
    CHECK("short registers", TRY(0, 0, -1, -1, 0, 0, 0, kind), ULB_BAD_LENGTH);
    CHECK("only a header's registers", TRY(0, 0, -1, -3, 0, 0, 0, kind), ULB_BAD_LENGTH);
    CHECK("a short A", TRY(0, 0, -1, 0, -1, 0, 0, kind), ULB_BAD_LENGTH);
    CHECK("a short B", TRY(0, 0, -1, 0, 0, -1, 0, kind), ULB_BAD_LENGTH);
    CHECK("a short border", TRY(0, 0, -1, 0, 0, 0, -1, kind), ULB_BAD_LENGTH);
    CHECK("the other machine, whose RAM this is not", TRY(0, 0, 0, 0, 0, 0, 0, 1 - kind), ULB_BAD_LENGTH);
    CHECK("a short file", TRY(0, 0, -1, 0, 0, 0, 0, kind), ULB_WRONG_SIZE);
    if (kind == ULB_128K) CHECK("then the copies", TRY(0, 0, 0, 0, 0, 0, 0, kind), ULB_UNEQUAL_COPIES);
#undef TRY
    check_untouched(&m);
}

/* Of an export nothing but the size of the file is new; refused, it leaves what stood there. */
static void refused_exports(unsigned kind) {
    static const size_t sizes[] = {0, 27, 49178, 49179, 49180, 49182, 131102, 131103, 131104, 147486, 147487, 147488};
    machine m = make(kind);
    under_way = "refused export";
    for (unsigned bank = 0; bank < (kind == ULB_48K ? 1 : 8); bank++) {
        uint8_t paging = (uint8_t)(bank + (bank % 2 ? 0x00 : 0xF8));
        size_t due = make_file(kind, paging, 2);
        CHECK("import", import(&m, due, kind), 0);
        for (size_t i = 0; i < sizeof sizes / sizeof *sizes; i++) {
            size_t size = size_under_way = sizes[i];
            memset(file_of(size), BEFORE, size);
            CHECK("export", export(&m, size), size == due ? 0 : ULB_WRONG_SIZE);
            CHECK("writes nothing, or the file", all_are(file_of(size), size, BEFORE), size != due || size == 0);
        }
        uint8_t *file = file_of(due);
        const uint8_t *lent = read_only_registers();
        memset(file, BEFORE, due);
        CHECK("a short record", ulb_save_sna(m.state, 22, m.ram, m.ram_len, file, due - 1, lent, 29), ULB_BAD_LENGTH);
        m.state[14] = 32; /* no such phase */
        CHECK("unsound", ulb_save_sna(OWN(&m), m.ram, m.ram_len - 1, file, due - 1, lent, 29), ULB_UNSOUND);
        m.state[14] = 31;
        CHECK("RAM", ulb_save_sna(OWN(&m), m.ram, m.ram_len - 1, file, due - 1, lent, 30), ULB_BAD_LENGTH);
        CHECK("registers", ulb_save_sna(OWN(&m), m.ram, m.ram_len, file, due - 1, lent, 29), ULB_BAD_LENGTH);
        CHECK("only a header's", ulb_save_sna(OWN(&m), m.ram, m.ram_len, file, due, lent, 27), ULB_BAD_LENGTH);
        CHECK("nothing was written", all_are(file, due, BEFORE), 1);
    }
}

/* ---- The frames behind an import ---------------------------------------------------------------------------------------- */

/* The first frame has byte 26's colour all around, and its picture is the file's screen: what the still picture gives, and
 * that is of the bank that bit 3 shows. The second frame is the same with flash on. */
static void first_frames(unsigned kind, uint8_t paging, uint8_t border) {
    static const uint32_t frame[2] = {69888, 70908};
    machine m = make(kind);
    uint8_t *still = room(ULB_PICTURE_BYTES), *shown[2] = {m.b, m.a}; /* of the first frame B is shown, of the second A */
    under_way = "first frames";
    CHECK("import", import(&m, make_file(kind, paging, border), kind), 0);
    unsigned page = kind == ULB_48K ? 0 : paging & 8 ? 7 : 5;
    for (unsigned flash = 0; flash < 2; flash++) {
        memset(m.border, BEFORE, ULB_BORDER_BYTES);
        CHECK("interrupt at its beginning", (ulb_int_active(OWN(&m), FIVE(&m)), m.answer[6]), 1);
        CHECK("wait", ulb_wait_internal(OWN(&m), LENT(&m), 40000, TEN(&m)), 0);
        CHECK("wait", ulb_wait_internal(OWN(&m), LENT(&m), frame[kind] - 40000, TEN(&m)), 0);
        CHECK("is closed", m.answer[2], 1);
        CHECK("still", ulb_still_picture(OWN(&m), m.ram, m.ram_len, still, ULB_PICTURE_BYTES, flash), 0);
        CHECK("the picture is the still", memcmp(shown[flash], still, ULB_PICTURE_BYTES), 0);
        CHECK("the border is byte 26's colour", all_are(m.border, ULB_BORDER_BYTES, border % 8), 1);
        CHECK("frames passed", (ulb_frames_count(OWN(&m), FIVE(&m)), m.answer[6]), flash + 1);
        /* one pixel by hand: the last line's last byte, and the last attribute */
        unsigned bits = bank_byte(page, 0x17FF), attribute = bank_byte(page, 0x1AFF);
        bool ink = (bits & 1) != (attribute >> 7 & flash);
        unsigned colour = (ink ? attribute : attribute >> 3) % 8 + (attribute & 0x40 ? 8 : 0);
        CHECK("its last pixel", shown[flash][ULB_PICTURE_BYTES - 1], colour);
    }
}

/* A second import in mid-frame is a second start: nothing of the first one's frame is left. */
static void second_import(unsigned kind) {
    machine m = make(kind);
    under_way = "second import";
    CHECK("import", import(&m, make_file(kind, 0x0F, 2), kind), 0);
    CHECK("wait", ulb_wait_internal(OWN(&m), LENT(&m), 65535, TEN(&m)), 0);
    CHECK("wait", ulb_wait_internal(OWN(&m), LENT(&m), 40000, TEN(&m)), 0);
    CHECK("a frame was closed", m.answer[2], 1);
    CHECK("a byte write", ulb_write_internal(OWN(&m), m.ram, m.ram_len, 0x8000, 0x99), 0);
    memset(registers(), BEFORE, ULB_REGISTER_BYTES);
    CHECK("import", import(&m, make_file(kind, 0x22, 13), kind), 0);
    check_imported(&m, kind, 0x22, 13);
}

static void fault(const void *where) {
    printf("snapshots: %s: a fault at %p: outside a slice, or a write where none may be\n", under_way, where);
}

int main(int argc, char **argv) {
    if (argc == 3 && strcmp(argv[1], "--wrong") == 0) wrong = atoi(argv[2]);
    on_fault(fault);
    file_zone = make_zone(LARGEST);
    registers_zone = make_zone(ULB_REGISTER_BYTES);
    for (unsigned kind = 0; kind < 2; kind++) {
        imports(kind);
        borders(kind);
        registers_through(kind);
        exported_records(kind);
        import_sizes(kind);
        import_order(kind);
        refused_exports(kind);
        second_import(kind);
        first_frames(kind, 0x00, 0xFD);
        first_frames(kind, 0x2A, 0x0B);
        first_frames(kind, 0x10, 0x40);
        first_frames(kind, 0x1D, 0x07);
    }
    too_short();
    unequal_copies();
    printf("snapshots: %lu checks, %lu failed\n", checks, failures);
    return failures != 0;
}
