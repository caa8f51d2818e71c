/* fuzz.c: throws random lengths, records, flags and numbers at every call of ulb.h and holds each answer against reading.c.
 *
 *     fuzz CALLS SEED EVERY
 *
 * Every buffer has a guard page on both sides. Each is mapped twice, to be written and to be read only: a call that must be
 * refused, and a slice that a call may only read, gets the second, so that a write which should not be is a fault. Faults are
 * reported with the call. After an accepted call its answer and the record are compared; all memory is compared after every
 * EVERY calls (256 unless said). Last line: `fuzz: N calls, 0 differences`; exit status 1 at the first difference. */
#include <stdio.h>
#include <stdlib.h>
#include <string.h>
#include "lending.h"

/* ---- Random numbers: the same for a seed on every machine --------------------------------------------------------- */

static uint64_t dice;

static uint32_t roll(void) {
    uint64_t z = dice += 0x9E3779B97F4A7C15u;
    z = (z ^ z >> 30) * 0xBF58476D1CE4E5B9u;
    z = (z ^ z >> 27) * 0x94D049BB133111EBu;
    return (uint32_t)(z >> 32 ^ z);
}
static uint32_t below(uint32_t n) { return roll() % n; }
static bool chance(unsigned in_hundred) { return below(100) < in_hundred; }

/* ---- What is going on, for a report -------------------------------------------------------------------------------- */

static struct { unsigned long number; uint64_t seed; call c; uint8_t state[23]; unsigned wanted; } now;
static unsigned long accepted[KINDS], refused[REFUSALS], painted_from_file;
static unsigned long imported[9], exported[9]; /* by the bank that was paged; the last of a 48K */

static world w; /* the reading's own memory */

static void describe(void) {
    const call_shape *shape = &shapes[now.c.kind];
    printf("  seed %llu, call %lu: %s number %lu colour %lu addr %04Xh value %02Xh, wanted %u\n  record",
           (unsigned long long)now.seed, now.number, shape->name, (unsigned long)now.c.number,
           (unsigned long)now.c.colour, now.c.addr, now.c.value, now.wanted);
    for (int i = 0; i < 23; i++) printf(" %02X", now.state[i]);
    printf("\n  lengths");
    for (int s = 0; s < SLICES; s++)
        if (shape->lent >> s & 1) printf(" %s %zu", slice_names[s], now.c.length[s]);
    if (shape->lent >> SNA & 1) printf("; the snapshot's 7FFD byte %02Xh", w.sna[SNA_PAGING_AT]);
    printf("\n");
}

static void differs(const char *what, unsigned long got, unsigned long want) {
    printf("fuzz: DIFFERENCE: %s: got %lu, want %lu\n", what, got, want);
    describe();
    exit(1);
}

static void fault(const void *where) {
    printf("fuzz: DIFFERENCE: a fault at %p: outside a slice, or a write where none may be\n", where);
    describe();
}

/* ---- Guarded memory ------------------------------------------------------------------------------------------------- */

enum { LONGEST = 196608 };

/* For each slice the zone of its right length (ROM and RAM: by machine), and one for wrong lengths, only ever lent to read. */
static zone home[2][SLICES], spare[SLICES];
static bool at_end[SLICES]; /* the slice ends at the upper guard page, or else starts at the lower one */

static void make_zones(void) {
    for (slice s = STATE; s < SLICES; s++) {
        home[0][s] = make_zone(right_length(s, 0, 10));
        home[1][s] = s == ROM || s == RAM ? make_zone(right_length(s, 1, 10)) : home[0][s];
        if (s == SNA) home[0][s] = home[1][s] = make_zone(LONGEST);
        spare[s] = make_zone(LONGEST);
        memset(spare[s].rw, 0xA5, LONGEST);
    }
}

static size_t offset(const zone *z, slice s, size_t length) { return at_end[s] ? z->size - length : 0; }

/* The bytes of a slice of right length, to be set or compared from here. */
static uint8_t *own(slice s, unsigned machine, size_t length) {
    return home[machine][s].rw + offset(&home[machine][s], s, length);
}

/* The pointer that a call gets. Of a snapshot the bytes count whatever its size. */
static uint8_t *lent(const call *c, slice s, unsigned machine, bool writable) {
    const zone *z = &home[machine][s];
    if (s != SNA && c->length[s] != right_length(s, machine, shapes[c->kind].answer)) {
        z = &spare[s];
        writable = false;
    }
    return (writable ? z->rw : z->ro) + offset(z, s, c->length[s]);
}

/* ---- A session: a start or an import, and what follows -------------------------------------------------------------- */

static uint8_t state[23], devices[35];
static unsigned machine;        /* whose zones are in use */
static bool history;            /* no record but the bus's own is accepted, so demand 3's sums must hold */
static struct { unsigned long clocks, blocks, closed; } sum;
static bool file_read;          /* the last accepted call read a screen file */
static bool in_mid_frame;       /* and that into the shown page, of which some blocks were painted and some were not */

static void scatter(uint8_t *p, size_t n) {
    for (size_t i = 0; i < n; i += 4) {
        uint32_t r = roll();
        memcpy(p + i, &r, n - i < 4 ? n - i : 4);
    }
}

static void compare(const char *what, const uint8_t *got, const uint8_t *want, size_t n) {
    for (size_t i = 0; i < n; i++)
        if (got[i] != want[i]) {
            printf("fuzz: in %s, byte %zu\n", what, i);
            differs("a byte of memory, in this call or since the last comparison", got[i], want[i]);
        }
}

static void compare_memory(void) {
    struct { const char *name; slice s; const uint8_t *want; } all[] = {
        {"RAM", RAM, w.ram}, {"ROM", ROM, w.rom}, {"picture A", A, w.picture[0]}, {"picture B", B, w.picture[1]},
        {"border", BORDER, w.border}, {"still picture", PICTURE, w.still}, {"page bytes", BYTES, w.bytes},
        {"screen file", SCR, w.file},
    };
    for (size_t i = 0; i < sizeof all / sizeof *all; i++) {
        size_t n = right_length(all[i].s, machine, 0);
        const uint8_t *got = own(all[i].s, machine, n);
        if (memcmp(got, all[i].want, n) != 0) compare(all[i].name, got, all[i].want, n);
    }
}

static void check_sums(void) {
    record r;
    if (!history || !sound(state, &r)) return;
    if (sum.clocks != sum.closed * machines[machine].frame + r.clock)
        differs("demand 3: clocks of the session", sum.clocks, sum.closed * machines[machine].frame + r.clock);
    if (sum.blocks != sum.closed * 6144 + r.painted)
        differs("demand 3: blocks of the session", sum.blocks, sum.closed * 6144 + r.painted);
}

/* Random bytes, for the reading and for the calls. */
static void refill(slice s, uint8_t *bytes) {
    size_t n = right_length(s, machine, 0);
    scatter(bytes, n);
    memcpy(own(s, machine, n), bytes, n);
}

/* A snapshot of any bytes, whichever bank is paged, 5 and 2 more often than others; of these two the copies are equal, or
 * they differ in one byte: the first, the last or any, of either copy. */
static void draw_snapshot(bool equal) {
    enum { BANK_5 = 27, BANK_2 = BANK_5 + 16384, PAGED = BANK_2 + 16384 };
    uint8_t *file = w.sna;
    scatter(file, sizeof w.sna);
    if (chance(35)) file[SNA_PAGING_AT] = (uint8_t)((file[SNA_PAGING_AT] & 0xF8) | (chance(50) ? 5 : 2));
    unsigned paged = file[SNA_PAGING_AT] & 7, first = paged == 5 ? BANK_5 : BANK_2;
    if (machine == 0 || (paged != 5 && paged != 2)) return;
    memcpy(file + PAGED, file + first, 16384);
    if (equal || chance(50)) return;
    unsigned copy = chance(50) ? PAGED : first, at = chance(40) ? 16383 : chance(30) ? 0 : below(16384);
    file[copy + at] ^= (uint8_t)(1u << below(8));
}

static void count_snapshot(const call *c) {
    unsigned bank = machine == 0 ? 8 : w.sna[SNA_PAGING_AT] & 7;
    if (c->kind == LOAD_SNA) imported[bank]++;
    if (c->kind == SAVE_SNA) exported[bank]++;
}

static void new_session(void) {
    static const call_kind starts[3] = {START, START_COLOUR, LOAD_SNA};
    machine = below(2);
    history = chance(50);
    memset(&sum, 0, sizeof sum);
    at_end[BORDER] = chance(50);
    at_end[SCR] = chance(50);
    file_read = in_mid_frame = false;
    call c = {starts[below(3)], {0}, 0, 0, 0, 0};
    uint8_t none[10], *p[SLICES];
    c.number = machine;
    if (c.kind == START_COLOUR) c.colour = below(8);
    refill(ROM, w.rom);
    refill(BYTES, w.bytes);
    refill(SCR, w.file);
    refill(PICTURE, w.still);
    if (c.kind == LOAD_SNA) draw_snapshot(true);
    carry_out(&c, state, devices, &w, none);
    for (slice s = STATE; s < SLICES; s++) {
        size_t right = s == SNA ? sna_size(machine, w.sna[SNA_PAGING_AT]) : right_length(s, machine, 0);
        c.length[s] = shapes[c.kind].lent >> s & 1 ? right : 0;
        p[s] = own(s, machine, c.length[s]);
        memset(p[s], 0x77, c.length[s]); /* the record too: a start does not judge it */
    }
    memcpy(p[SNA], w.sna, c.length[SNA]);
    now.wanted = 0;
    now.c = c;
    uint8_t got = make_call(&c, p);
    if (got != 0) differs("start", got, 0);
    compare("record after a start", p[STATE], state, 23);
    compare("registers of a snapshot", p[REGISTERS], w.registers, c.length[REGISTERS]);
    compare_memory();
    count_snapshot(&c);
    if (c.kind != LOAD_SNA && chance(80)) refill(RAM, w.ram); /* bytes that show, as a snapshot's do */
}

/* ---- Random calls ---------------------------------------------------------------------------------------------------- */

static uint32_t near(uint32_t n) { return n + below(7) - 3; }

static uint32_t random_clock(const numbers *n) {
    const uint32_t edges[] = {n->contention, n->contention + 192 * n->line, n->block, n->block + 191 * n->line + 124,
                              n->border, n->border + 239 * n->line + 159, n->frame - 1, 31};
    switch (below(8)) {
        case 6:
        case 7: return near(edges[below(sizeof edges / sizeof *edges)]) % n->frame;
        case 0: return near(n->contention + below(193) * n->line) % n->frame;
        case 1: return near(n->block + below(193) * n->line + 4 * below(34)) % n->frame;
        case 2: return near(n->border + below(241) * n->line + 160) % n->frame;
        case 3: return n->frame - 1 - below(20);
        case 4: return below(40);
        default: return below(n->frame);
    }
}

/* A sound record at a clock of interest, then perhaps one thing wrong with it. */
static void craft(uint8_t bytes[23], unsigned of, bool spoil) {
    record r;
    bool end;
    const numbers *n = &machines[of];
    r.machine = of;
    r.clock = random_clock(n);
    r.passed = chance(8) ? 4294967295u - below(2) : roll() >> below(32);
    r.phase = below(32);
    uint32_t blocks = block_position(n, r.clock), pairs = border_position(n, r.clock, &end) / 2;
    r.painted = chance(40) ? blocks : below(blocks + 1);
    r.paging = of == 0 ? 0 : chance(70) ? roll() & 0xDF : roll() & 0xFF;
    r.reported = below(8);
    r.colour = below(8);
    r.blocked = end && chance(50);
    r.pairs = r.blocked ? 0 : chance(40) ? pairs : below(pairs + 1);
    if (spoil)
        switch (below(11)) {
            case 0: r.clock = n->frame + below(3); break;
            case 1: r.painted = blocks + 1 + below(2); break;
            case 2: r.pairs = pairs + 1 + below(2); break;
            case 3: r.blocked = 1; break;
            case 4: r.phase = 31 + below(3); break;
            case 5: r.reported = 7 + below(3); break;
            case 6: r.colour = 7 + below(3); break;
            case 7: r.paging = 1u << below(8); break;
            case 8: r.machine = 2 + below(3); break;
            case 9: r.clock = roll(); break;
            default: r.blocked = 2 + below(254); break;
        }
    encode(&r, bytes);
    if (spoil && chance(15)) bytes[below(23)] = (uint8_t)roll();
    if (spoil && chance(3)) scatter(bytes, 20);
}

static void random_devices(void) {
    scatter(devices, 24);
    for (int i = 24; i < 35; i++) devices[i] = (uint8_t)roll();
    static const int flags[5] = {24, 25, 27, 29, 31};
    for (int i = 0; i < 5; i++) devices[flags[i]] = chance(i == 1 ? 10 : 50);
    if (chance(5)) devices[flags[below(5)]] = (uint8_t)(2 + below(254));
}

static uint16_t random_port(void) {
    static const uint16_t known[] = {0x00FE, 0x7FFE, 0xFFFE, 0x40FE, 0x7FFD, 0x7FFC, 0x3FFD, 0xFFFD, 0xBFFD, 0xFADF, 0xFBDF,
                                     0xFFDF, 0x001F, 0x40FF, 0xC0FF, 0xFFFC, 0xBFFC, 0x401F, 0xC01F, 0x00FF};
    uint16_t port = chance(60) ? known[below(sizeof known / sizeof *known)] : (uint16_t)roll();
    return chance(20) ? port ^ (uint16_t)(1u << below(16)) : port;
}

static uint32_t random_number(call_kind k) {
    switch (k) {
        case LOAD_SNA: return chance(80) ? machine : chance(30) ? 1 - machine : chance(50) ? 2 + below(3) : roll();
        case START:
        case START_COLOUR: return chance(30) ? machine : chance(30) ? 1 - machine : chance(50) ? 2 + below(3) : roll();
        case WAIT_INTERNAL:
        case WAIT_MREQ:
        case WAIT_NO_MREQ: return chance(80) ? below(30) : chance(60) ? below(9000) : chance(70) ? near(65535) : roll();
        case LOAD_SCR: return chance(50) ? (machine == 0 ? 0 : 5 + 2 * below(2)) : chance(90) ? below(9) : roll();
        case LOAD_PAGE:
        case RAM_PAGE: return chance(90) ? below(9) : roll();
        case BLOCK: return chance(90) ? below(5) : roll();
        case STILL_PICTURE: return chance(90) ? below(3) : roll();
        case BITMAP_LINE_ADDR: return chance(90) ? below(194) : roll();
        case BITMAP_LINE_REL:
        case BITMAP_COL_REL: return chance(90) ? below(0x1804) : roll();
        case ATTR_ROW_REL:
        case ATTR_COL_REL: return chance(90) ? 0x17FC + below(0x308) : roll();
        default: return chance(90) ? below(10) : roll();
    }
}

/* Of a start: 0..7 more often than not; else just above, or a number whose low byte or low bits alone would do. */
static uint32_t random_colour(void) {
    static const uint32_t wrong[] = {8, 255, 256, 0x80000007};
    return chance(70) ? below(8) : chance(80) ? wrong[below(sizeof wrong / sizeof *wrong)] : roll();
}

static size_t wrong_length(size_t right) {
    switch (below(7)) {
        case 0: return 0;
        case 1: return right + 1;
        case 2: return right - 1;
        case 3: return below(64);
        case 4: return 16384u * below(9);
        case 5: return right == 5 ? 10 : right == 10 ? 5 : right + 1;
        default: return below(LONGEST + 1);
    }
}

/* The size of a snapshot: the one due more often than not; else a byte less or more, the others that there are, or just so
 * many bytes that the 7FFD byte is not in it or is its last. */
static size_t random_size(size_t due) {
    static const size_t others[] = {49179, 131103, 147487, SNA_PAGING_AT, SNA_PAGING_AT + 1, 0};
    if (chance(65)) return due;
    switch (below(4)) {
        case 0: return due - 1;
        case 1: return due + 1;
        case 2: return others[below(sizeof others / sizeof *others)];
        default: return below(LONGEST + 1);
    }
}

/* The snapshot and the registers that this call is lent, if it is: to an import a new one, or what the last export wrote or the
 * last import read; to an export any registers, or those of the last import. */
static void lend_snapshot(call *c, const uint8_t record_bytes[23]) {
    if (!(shapes[c->kind].lent >> SNA & 1)) return;
    if (c->kind == LOAD_SNA && chance(75)) draw_snapshot(false);
    if (c->kind == SAVE_SNA && chance(75)) scatter(w.registers, sizeof w.registers);
    size_t size = random_size(sna_size(machine, c->kind == LOAD_SNA ? w.sna[SNA_PAGING_AT] : record_bytes[17]));
    c->length[SNA] = size;
    memcpy(own(SNA, machine, size), w.sna, size < sizeof w.sna ? size : sizeof w.sna);
    memcpy(own(REGISTERS, machine, sizeof w.registers), w.registers, sizeof w.registers);
}

static call random_call(void) {
    call c;
    unsigned imports = machine == 0 ? 4 : 14; /* a 128K's snapshots have more cases */
    c.kind = chance(65) ? WAIT_INTERNAL + below(5) : chance(15) ? SAVE_SCR + below(3)
             : chance(imports) ? LOAD_SNA : below(KINDS);
    if (c.kind == LOAD_SNA && history && chance(70)) c.kind = WAIT_INTERNAL + below(5); /* a history is to be long */
    if ((c.kind == LOAD_PAGE || c.kind == STILL_PICTURE) && chance(70)) c.kind = WRITE_INTERNAL;
    c.number = random_number(c.kind);
    if (file_read && chance(70)) { /* a wait that paints from what was read */
        c.kind = WAIT_INTERNAL + below(3);
        c.number = below(9000);
    }
    c.colour = c.kind == START_COLOUR ? random_colour() : 0;
    c.addr = c.kind == READ_IO || c.kind == WRITE_IO ? random_port() : (uint16_t)roll();
    c.value = (uint8_t)(chance(70) ? roll() & 0xDF : roll());
    for (slice s = STATE; s < SLICES; s++) {
        size_t right = right_length(s, machine, shapes[c.kind].answer);
        c.length[s] = shapes[c.kind].lent >> s & 1 ? right : 0;
    }
    if (c.length[SCR] > 0 && chance(15)) c.length[SCR] = chance(50) ? 6911 : 6913;
    for (int wrongs = chance(30) ? 1 + (int)below(3) : 0; wrongs > 0; wrongs--) {
        slice s = below(SLICES);
        if (shapes[c.kind].lent >> s & 1) c.length[s] = wrong_length(c.length[s]);
    }
    return c;
}

/* The record that this call is lent: the bus's own; outside a history any other, but not behind a file that was read,
 * which is to be painted from; and now and then a spoilt one. */
static void lend_record(uint8_t bytes[23]) {
    record r;
    memcpy(bytes, state, 23);
    if (history) {
        uint8_t other[23];
        craft(other, machine, true);
        if (chance(5) && !sound(other, &r)) memcpy(bytes, other, 23);
    } else if (!file_read && chance(50)) {
        bool spoilt = chance(12); /* rolled by itself: compilers differ in which argument they take first */
        craft(bytes, chance(97) ? machine : 1 - machine, spoilt);
    }
}

static void check_answer(const call *c, const uint8_t *got, const uint8_t *want) {
    static const char *const timed[10] = {"refusal", "value", "closed", "interrupt", "clocks", "clocks", "clocks", "clocks",
                                          "blocks", "blocks"};
    for (unsigned i = 0; i < shapes[c->kind].answer; i++)
        if (got[i] != want[i]) differs(shapes[c->kind].answer == 10 ? timed[i] : "the number's answer", got[i], want[i]);
}

static void count_up(const call *c, const uint8_t *answer) {
    accepted[c->kind]++;
    if (shapes[c->kind].answer != 10) return;
    unsigned clocks = answer[4] | answer[5] << 8 | answer[6] << 16;
    if ((c->kind == READ_IO || c->kind == WRITE_IO) && (clocks < 4 || clocks > 16)) differs("a port call's clocks", clocks, 4);
    sum.clocks += clocks;
    sum.blocks += answer[8] | (unsigned)answer[9] << 8;
    sum.closed += answer[2];
}

/* Counts the timed calls that painted right after a file was read into the shown page in mid-frame. */
static void watch_files(const call *c, const uint8_t *answer) {
    record r;
    if (in_mid_frame && shapes[c->kind].answer == 10 && (answer[8] | answer[9]) != 0) painted_from_file++;
    file_read = c->kind == LOAD_SCR;
    in_mid_frame = file_read && sound(state, &r) && r.painted > 0 && r.painted < 6144 &&
                   c->number == shown_page(&r);
}

static void one_call(void) {
    call c = random_call();
    uint8_t bytes[23], want[10] = {0}, *p[SLICES];
    lend_record(bytes);
    /* the other machine's RAM and ROM are not at hand, so its start and its record meet this machine's lengths: refusal 2 */
    if ((is_start(c.kind) ? c.number : bytes[5]) != machine) {
        if (c.length[RAM] > 0) c.length[RAM] = machines[machine].ram;
        if (c.length[ROM] > 0) c.length[ROM] = machines[machine].rom;
    }
    random_devices();
    for (slice s = STATE; s < SLICES; s++)
        if (s != BORDER && s != SCR) at_end[s] = chance(50); /* the bytes of these two stay from call to call */
    memcpy(own(STATE, machine, 23), bytes, 23);
    memcpy(own(DEVICES, machine, 35), devices, 35);
    lend_snapshot(&c, bytes);
    if (c.kind == LOAD_SCR && chance(70)) refill(SCR, w.file); /* else what the last save wrote */

    now.c = c;
    memcpy(now.state, bytes, 23);
    unsigned refusal = now.wanted = refusal_of(&c, bytes, devices, w.sna);
    unsigned size = shapes[c.kind].answer;
    uint8_t *answer = own(ANSWER, machine, size);
    memset(answer, 0xAA, size);
    for (slice s = STATE; s < SLICES; s++) {
        bool writes = s == ANSWER || (refusal == 0 && shapes[c.kind].written >> s & 1);
        p[s] = lent(&c, s, machine, writes);
    }
    uint8_t got = make_call(&c, p);
    if (got != refusal) differs("refusal", got, refusal);
    if (refusal != 0) {
        refused[refusal]++;
        want[0] = (uint8_t)refusal;
        if (c.length[ANSWER] == size) check_answer(&c, answer, want);
        return;
    }
    carry_out(&c, bytes, devices, &w, want);
    check_answer(&c, answer, want);
    if (shapes[c.kind].lent & 1) {
        compare("the record", own(STATE, machine, 23), bytes, 23);
        memcpy(state, bytes, 23);
    }
    if (shapes[c.kind].lent >> SNA & 1) {
        compare("the snapshot", own(SNA, machine, c.length[SNA]), w.sna, c.length[SNA]);
        compare("the registers", own(REGISTERS, machine, sizeof w.registers), w.registers, sizeof w.registers);
        count_snapshot(&c);
    }
    count_up(&c, answer);
    if (is_start(c.kind)) memset(&sum, 0, sizeof sum);
    bool copies = c.kind == LOAD_PAGE || c.kind == SAVE_SCR || c.kind == LOAD_SCR;
    if (is_start(c.kind) || copies || c.kind == STILL_PICTURE || file_read) compare_memory();
    watch_files(&c, answer);
}

static void print_banks(const char *what, const unsigned long count[9]) {
    printf("snapshots %s: 48K %lu; 128K by the paged bank", what, count[8]);
    for (int i = 0; i < 8; i++) printf(" %d: %lu%s", i, count[i], i < 7 ? "," : "\n");
}

/* A run that never met a case would prove little: of 20,000 calls or more each must have been met. */
static int report(unsigned long calls) {
    unsigned long good = 0;
    int missing = 0;
    for (int k = 0; k < KINDS; k++) {
        good += accepted[k];
        if (accepted[k] == 0 && calls >= 20000) missing = printf("fuzz: %s was never accepted\n", shapes[k].name);
    }
    printf("accepted %lu; refused", good);
    for (int i = 1; i < REFUSALS; i++) {
        printf(" %d: %lu%s", i, refused[i], i < REFUSALS - 1 ? "," : "\n");
        if (refused[i] == 0 && calls >= 20000) missing = printf("fuzz: refusal %d was never met\n", i);
    }
    printf("painted from a screen file that was read in mid-frame: %lu\n", painted_from_file);
    if (painted_from_file == 0 && calls >= 20000) missing = printf("fuzz: no file was read in mid-frame and shown\n");
    print_banks("imported", imported);
    print_banks("exported", exported);
    if ((imported[5] + imported[2] == 0 || exported[5] + exported[2] == 0) && calls >= 20000)
        missing = printf("fuzz: no snapshot with bank 5 or 2 twice was imported, or none was exported\n");
    printf("fuzz: %lu calls, 0 differences\n", calls);
    return missing != 0;
}

int main(int argc, char **argv) {
    unsigned long calls = argc > 1 ? strtoul(argv[1], NULL, 10) : 20000;
    now.seed = argc > 2 ? strtoull(argv[2], NULL, 10) : 1;
    unsigned long every = argc > 3 ? strtoul(argv[3], NULL, 10) : 256;
    if (calls == 0 || every == 0) {
        fprintf(stderr, "fuzz: usage: fuzz CALLS SEED EVERY\n");
        return 2;
    }
    on_fault(fault);
    dice = now.seed;
    make_zones();
    for (now.number = 0; now.number < calls; now.number++) {
        if (now.number % 1024 == 0) {
            if (now.number > 0) {
                compare_memory();
                check_sums();
            }
            new_session();
        }
        one_call();
        if (now.number % every == 0) compare_memory();
    }
    compare_memory();
    check_sums();
    return report(calls);
}
