/* Every refusal of every call of ulb.h, by tables: accepted at each limit and refused one past it; in the stated order where
 * two or more causes hold; the answer's bytes exact (the number and then zeros; untouched if its length is wrong); and no
 * other byte written. Each slice begins, and then ends, at a guard page, and what a call may not write is lent read-only, so that
 * the archive itself is watched. The table `gives` says which refusals a call has: one that was never tried is a failure too.
 *
 *     refusals             last line `refusals: N cases, M failed`; exit status 1 if any failed
 *     refusals --wrong N   the same with mistake N (1 to 5) made on purpose: it has to fail */
#include <stdio.h>
#include <stdlib.h>
#include <string.h>
#include "lending.h"
#include "ulb.h"

static unsigned long cases, failures;
static int wrong; /* the mistake made on purpose; 0 for none */
enum { WRONG_LIMIT = 1, WRONG_ORDER, WRONG_COVERAGE, WRONG_SLICE, WRONG_WRITE };

/* ---- What is expected ------------------------------------------------------------------------------------------------ */

/* The refusals of each call, as ulb.h lists them, a sign each: A is 10, B is 11. */
static const char sign_of[REFUSALS + 1] = "0123456789AB";
static const char *const gives[KINDS] = {
    [START] = "12", [START_COLOUR] = "128", [LOAD_SNA] = "12AB",
    [WAIT_INTERNAL] = "2356", [WAIT_MREQ] = "2356", [WAIT_NO_MREQ] = "2356", [READ_IO] = "2346", [WRITE_IO] = "2346",
    [READ_INTERNAL] = "23", [WRITE_INTERNAL] = "23", [WRITE_7FFD] = "23", [READ_7FFD] = "23", [INT_ACTIVE] = "23",
    [FRAMES_COUNT] = "23", [RESET_FRAME_COUNTER] = "23", [LOAD_PAGE] = "237", [SAVE_SCR] = "23",
    [LOAD_SCR] = "2379", [SAVE_SNA] = "23A", [RAM_PAGE] = "237", [BLOCK] = "238", [SHOWN_PICTURE] = "23", [STILL_PICTURE] = "238",
    [BITMAP_LINE_ADDR] = "28", [BITMAP_LINE_REL] = "28", [BITMAP_COL_REL] = "28", [ATTR_ROW_REL] = "28",
    [ATTR_COL_REL] = "28", [COLOR_FROM_BITS] = "28",
};

/* The causes in the order in which they are judged, and the number that each gives. */
typedef enum {
    MACHINE, RECORD_LENGTH, UNSOUND, OTHER_LENGTH, FLAG, LONG_WAIT, FRAMES_FULL, PAGE, NO_VIDEO_PAGE, RANGE, SIZE, COPIES,
    CAUSES
} cause;
static const unsigned number_of[CAUSES] = {1, 2, 3, 2, 4, 5, 6, 7, 9, 8, 10, 11};

/* Numbers by their limits: the last that is accepted, and the first that is not; of video pages one that is, and one
 * that is not. `machine` is 2 where both agree. */
static const struct { call_kind from, to; cause why; unsigned machine; uint32_t accepted, refused; } limits[] = {
    {START, LOAD_SNA, MACHINE, 0, 0, 2},
    {START, LOAD_SNA, MACHINE, 1, 1, 2},
    {START_COLOUR, START_COLOUR, RANGE, 2, 7, 8},
    {START_COLOUR, START_COLOUR, RANGE, 2, 0, 256}, /* the whole number counts */
    {START_COLOUR, START_COLOUR, RANGE, 2, 7, 0x80000007},
    {WAIT_INTERNAL, WAIT_NO_MREQ, LONG_WAIT, 2, 65535, 65536},
    {WAIT_INTERNAL, WRITE_IO, FRAMES_FULL, 2, 4294967294u, 4294967295u},
    {LOAD_PAGE, LOAD_PAGE, PAGE, 0, 2, 3},
    {LOAD_PAGE, LOAD_PAGE, PAGE, 1, 7, 8},
    {LOAD_SCR, LOAD_SCR, PAGE, 0, 0, 3},
    {LOAD_SCR, LOAD_SCR, PAGE, 1, 7, 8},
    {LOAD_SCR, LOAD_SCR, NO_VIDEO_PAGE, 0, 0, 1},
    {LOAD_SCR, LOAD_SCR, NO_VIDEO_PAGE, 0, 0, 2},
    {LOAD_SCR, LOAD_SCR, NO_VIDEO_PAGE, 1, 5, 0},
    {LOAD_SCR, LOAD_SCR, NO_VIDEO_PAGE, 1, 5, 1},
    {LOAD_SCR, LOAD_SCR, NO_VIDEO_PAGE, 1, 5, 2},
    {LOAD_SCR, LOAD_SCR, NO_VIDEO_PAGE, 1, 5, 3},
    {LOAD_SCR, LOAD_SCR, NO_VIDEO_PAGE, 1, 5, 4},
    {LOAD_SCR, LOAD_SCR, NO_VIDEO_PAGE, 1, 7, 6},
    {RAM_PAGE, RAM_PAGE, PAGE, 0, 2, 3},
    {RAM_PAGE, RAM_PAGE, PAGE, 1, 7, 8},
    {BLOCK, BLOCK, RANGE, 2, 3, 4},
    {STILL_PICTURE, STILL_PICTURE, RANGE, 2, 1, 2},
    {BITMAP_LINE_ADDR, BITMAP_LINE_ADDR, RANGE, 2, 191, 192},
    {BITMAP_LINE_REL, BITMAP_COL_REL, RANGE, 2, 0x17FF, 0x1800},
    {ATTR_ROW_REL, ATTR_COL_REL, RANGE, 2, 0x1AFF, 0x1B00},
    {ATTR_ROW_REL, ATTR_COL_REL, RANGE, 2, 0x1800, 0x17FF},
    {COLOR_FROM_BITS, COLOR_FROM_BITS, RANGE, 2, 7, 8},
};

/* Snapshots by 7FFD byte: the size that is due, and sizes that are not: a byte less and more, none, the other machine's and
 * the one of the other 7FFD bytes; on 128K just without the 7FFD byte, and with it as the last. */
static const struct { unsigned machine; uint8_t paging; uint32_t due, not_due[7]; } sizes[] = {
    {0, 0x00, 49179, {49178, 49180, 0, 131103, 147487, 27, 49183}},
    {1, 0x00, 131103, {131102, 131104, 0, 49179, 147487, 49181, 49182}},
    {1, 0x31, 131103, {131102, 131104, 0, 49179, 147487, 49181, 49182}},
    {1, 0x02, 147487, {147486, 147488, 0, 49179, 131103, 49181, 49182}},
    {1, 0xCB, 131103, {131102, 131104, 0, 49179, 147487, 49181, 49182}},
    {1, 0x14, 131103, {131102, 131104, 0, 49179, 147487, 49181, 49182}},
    {1, 0xFD, 147487, {147486, 147488, 0, 49179, 131103, 49181, 49182}},
    {1, 0x26, 131103, {131102, 131104, 0, 49179, 147487, 49181, 49182}},
    {1, 0xDF, 131103, {131102, 131104, 0, 49179, 147487, 49181, 49182}},
};

/* A 128K's snapshots whose copies of bank 5 (27, 32,795) or 2 (16,411, 32,795) differ, at a byte of either copy: the first,
 * the second, one within, the last but one and the last. */
static const struct { uint8_t paging; uint32_t at; } copies[] = {
    {0x05, 27}, {0x05, 28}, {0x05, 10000}, {0x05, 16409}, {0x05, 16410},
    {0x3D, 32795}, {0x3D, 32796}, {0x3D, 40000}, {0x3D, 49177}, {0x3D, 49178},
    {0x02, 16411}, {0x02, 16412}, {0x02, 20000}, {0x02, 32793}, {0x02, 32794},
    {0xE2, 32795}, {0xE2, 32796}, {0xE2, 45678}, {0xE2, 49177}, {0xE2, 49178},
};

/* Clocks of interest: the first block and all blocks reached, the first pixel pair, frame end, the frame's length. */
typedef enum { BLOCK_1, BLOCKS_ALL, PAIR_1, EDGE_END, FRAME } moment;
static const uint32_t clock_of[2][5] = {{14338, 57246, 8945, 62641, 69888}, {14364, 58036, 8875, 63527, 70908}};

/* Records by clock, painted count and beam: sound at each limit, not sound one past it. */
static const struct { bool sound; moment at; int plus; unsigned painted, pairs, blocked; } places[] = {
    {true, FRAME, -1, 6144, 38400, 0}, {true, FRAME, -1, 0, 0, 1}, {false, FRAME, 0, 0, 0, 0}, {false, FRAME, 0, 6144, 38400, 0},
    {true, BLOCK_1, 0, 1, 0, 0}, {false, BLOCK_1, 0, 2, 0, 0}, {true, BLOCK_1, -1, 0, 0, 0}, {false, BLOCK_1, -1, 1, 0, 0},
    {true, BLOCKS_ALL, 0, 6144, 0, 0}, {false, BLOCKS_ALL, 0, 6145, 0, 0},
    {true, BLOCKS_ALL, -1, 6143, 0, 0}, {false, BLOCKS_ALL, -1, 6144, 0, 0},
    {true, PAIR_1, 0, 0, 1, 0}, {false, PAIR_1, 0, 0, 2, 0}, {true, PAIR_1, -1, 0, 0, 0}, {false, PAIR_1, -1, 0, 1, 0},
    {true, EDGE_END, -1, 0, 38400, 0}, {false, EDGE_END, -1, 0, 38401, 0}, {false, EDGE_END, -1, 0, 0, 1},
    {true, EDGE_END, 0, 0, 38400, 0}, {false, EDGE_END, 0, 0, 38401, 0},
    {true, EDGE_END, 0, 0, 0, 1}, {false, EDGE_END, 0, 0, 1, 1}, {false, EDGE_END, 0, 0, 0, 2},
};

/* The same by single bytes; `machine` is 2 where both agree. */
static const struct { bool sound; unsigned machine, at, value; } bytes[] = {
    {false, 2, 0, 'V'}, {false, 2, 1, 'l'}, {false, 2, 2, 0}, {false, 2, 3, 0}, {false, 2, 3, 2}, {false, 2, 4, 1},
    {false, 2, 5, 2}, {false, 2, 5, 255}, {false, 2, 9, 1}, {true, 2, 14, 31}, {false, 2, 14, 32}, {true, 1, 17, 255},
    {false, 0, 17, 1}, {false, 0, 17, 128}, {true, 2, 18, 7}, {false, 2, 18, 8}, {true, 2, 19, 7}, {false, 2, 19, 8},
};

/* ---- One case -------------------------------------------------------------------------------------------------------- */

/* A call with what it is lent; of a snapshot its 7FFD byte, if it has that many, and the byte that is unlike the others,
 * 0 for none. As `good` makes it, it is accepted. */
typedef struct { call c; uint8_t state[23], devices[35], paging; uint32_t unlike; } attempt;

static unsigned machine; /* whose lengths are right */
static bool at_start;    /* of their zones stand the slices, or else at the end */
static zone zones[SLICES];
static uint8_t *before[SLICES];
static bool tried[KINDS][REFUSALS], length_tried[KINDS][SLICES][2];
static const attempt *under_way;

static bool lends(call_kind k, slice s) { return shapes[k].lent >> s & 1; }
/* It is judged by its length, 2; a snapshot by its size. */
static bool by_length(call_kind k, slice s) { return lends(k, s) && s != SNA; }
static bool timed(call_kind k) { return k >= WAIT_INTERNAL && k <= WRITE_IO; }
static size_t right(call_kind k, slice s) { return right_length(s, machine, shapes[k].answer); }

static void put(uint8_t *p, unsigned size, uint32_t v) {
    for (unsigned i = 0; i < size; i++) p[i] = (uint8_t)(v >> 8 * i);
}

static attempt good(call_kind k) {
    attempt t = {{k, {0}, 0, 0, 0x7FFD, 0}, {'U', 'L', 'B', 1}, {0}, 0, 0};
    t.state[5] = (uint8_t)machine;
    put(t.state + 6, 4, 20000); /* in the picture: blocks to paint, border behind the beam */
    memset(t.devices, 255, sizeof t.devices);
    for (int i = 25; i < 32; i += 2) t.devices[i] = 0;
    t.devices[24] = 0;
    for (slice s = STATE; s < SLICES; s++)
        if (lends(k, s)) t.c.length[s] = right(k, s);
    if (lends(k, SNA)) t.c.length[SNA] = sizes[machine].due;
    if (is_start(k)) t.c.number = machine;
    if (k == LOAD_SCR && machine == 1) t.c.number = 7;
    if (k == ATTR_ROW_REL || k == ATTR_COL_REL) t.c.number = 0x1900;
    return t;
}

static void failed(const char *what, unsigned got, unsigned want) {
    const attempt *t = under_way;
    failures++;
    printf("%s: %s: got %u, want %u\n  number %lu, colour %lu; lengths", shapes[t->c.kind].name, what, got, want,
           (unsigned long)t->c.number, (unsigned long)t->c.colour);
    for (slice s = STATE; s < SLICES; s++)
        if (lends(t->c.kind, s)) printf(" %s %zu", slice_names[s], t->c.length[s]);
    printf("; record");
    for (int i = 0; i < 23; i++) printf(" %02X", t->state[i]);
    printf("\n");
}

static void fault(const void *where) {
    printf("a fault at %p: outside a slice, or a write where none may be\n", where);
    failed("fault", 1, 0);
}

static void check(const char *what, unsigned got, unsigned want) {
    if (got != want) failed(what, got, want);
}

/* Where a slice stands in its zone: behind the lower guard page, or before the upper one. */
static size_t place(const attempt *t, slice s) { return at_start ? 0 : zones[s].size - t->c.length[s]; }
static uint8_t *own(const attempt *t, slice s) { return zones[s].rw + place(t, s); }

static void lay_out(const attempt *t, unsigned want, uint8_t *p[SLICES]) {
    memset(zones[STATE].rw, 0, zones[STATE].size);
    memset(zones[DEVICES].rw, 0, zones[DEVICES].size);
    memset(zones[ANSWER].rw, 0xAA, zones[ANSWER].size);
    memcpy(own(t, STATE), t->state, t->c.length[STATE] < 23 ? t->c.length[STATE] : 23);
    memcpy(own(t, DEVICES), t->devices, t->c.length[DEVICES] < 35 ? t->c.length[DEVICES] : 35);
    if (lends(t->c.kind, SNA)) {
        memset(zones[SNA].rw, 0x33, zones[SNA].size);
        if (t->c.length[SNA] > SNA_PAGING_AT) own(t, SNA)[SNA_PAGING_AT] = t->paging;
        if (t->c.length[SNA] > t->unlike && t->unlike > 0) own(t, SNA)[t->unlike] ^= 1;
    }
    for (slice s = STATE; s < SLICES; s++) {
        bool writes = s == ANSWER ? t->c.length[s] == right(t->c.kind, s) : want == 0 && (shapes[t->c.kind].written >> s & 1);
        p[s] = (writes ? zones[s].rw : zones[s].ro) + place(t, s);
        if (lends(t->c.kind, s)) memcpy(before[s], zones[s].rw, zones[s].size);
    }
}

/* Makes the call, which must be answered by `want`. */
static void try_it(const attempt *t, unsigned want) {
    call_kind k = t->c.kind;
    uint8_t *p[SLICES];
    under_way = t;
    cases++;
    tried[k][want] = true;
    lay_out(t, want, p);
    if (wrong == WRONG_SLICE && want == 0) p[STATE]++;
    check("returned", make_call(&t->c, p), want);
    if (wrong == WRONG_WRITE && want != 0) zones[RAM].rw[0] ^= 1;
    if (lends(k, ANSWER) && t->c.length[ANSWER] == right(k, ANSWER)) {
        check("answer byte 0", own(t, ANSWER)[0], want);
        for (unsigned i = 1; want != 0 && i < shapes[k].answer; i++) check("behind the answer's number", own(t, ANSWER)[i], 0);
        memcpy(before[ANSWER] + place(t, ANSWER), own(t, ANSWER), t->c.length[ANSWER]);
    }
    for (slice s = STATE; s < SLICES; s++)
        if (lends(k, s) && (want != 0 || !(shapes[k].written >> s & 1)))
            check(slice_names[s], memcmp(before[s], zones[s].rw, zones[s].size) != 0, 0);
}

/* ---- One cause at a time --------------------------------------------------------------------------------------------- */

/* A cause: which, of which slice (lengths), at which byte (flags) or with which 7FFD byte (snapshots), and the number,
 * length or byte put there. */
typedef struct { cause why; unsigned where; uint32_t value; } spoiler;

/* A snapshot of this 7FFD byte and size: the file's own, and the record's where one is written. */
static void with_paging(attempt *t, unsigned paging, uint32_t size) {
    t->c.length[SNA] = size;
    t->paging = (uint8_t)paging;
    if (t->c.kind == SAVE_SNA) t->state[17] = (uint8_t)paging;
}

static void spoil(attempt *t, spoiler s) {
    switch (s.why) {
        case RECORD_LENGTH:
        case OTHER_LENGTH: t->c.length[s.where] = s.value; break;
        case UNSOUND: put(t->state + 6, 4, s.value); break;
        case FLAG: t->devices[s.where] = (uint8_t)s.value; break;
        case FRAMES_FULL: put(t->state + 10, 4, s.value); break;
        case RANGE: *(t->c.kind == START_COLOUR ? &t->c.colour : &t->c.number) = s.value; break;
        case SIZE: with_paging(t, s.where, s.value); break;
        case COPIES:
            with_paging(t, s.where, 147487);
            t->unlike = s.value;
            break;
        default: t->c.number = s.value;
    }
}

static void try_spoilt(call_kind k, spoiler s, unsigned want) {
    attempt t = good(k);
    spoil(&t, s);
    try_it(&t, want);
}

static cause length_cause(slice s) { return s == STATE ? RECORD_LENGTH : OTHER_LENGTH; }

static void try_lengths(call_kind k) {
    for (slice s = STATE; s < SLICES; s++) {
        if (!by_length(k, s)) continue;
        size_t is = right(k, s), other = s == ANSWER ? 15 - is : right_length(s, 1 - machine, 0);
        const size_t bad[] = {is - 1, is + 1, 0, other};
        for (int i = 0; i < 4; i++)
            if (bad[i] != is) try_spoilt(k, (spoiler){length_cause(s), s, (uint32_t)bad[i]}, 2);
        length_tried[k][s][machine] = true;
    }
}

static void try_limits(call_kind k) {
    for (size_t i = 0; i < sizeof limits / sizeof *limits; i++) {
        if (k < limits[i].from || k > limits[i].to || limits[i].machine == 1 - machine) continue;
        spoiler s = {limits[i].why, 0, limits[i].accepted};
        try_spoilt(k, s, wrong == WRONG_LIMIT ? number_of[s.why] : 0);
        s.value = limits[i].refused;
        try_spoilt(k, s, number_of[s.why]);
        s.value = 4294967295u;
        if (s.why != NO_VIDEO_PAGE) try_spoilt(k, s, number_of[s.why]); /* such a page is PAGE's to refuse */
    }
    /* "a timed call with passed frames at 4,294,967,295", and no other */
    if (lends(k, STATE) && !timed(k)) try_spoilt(k, (spoiler){FRAMES_FULL, 0, 4294967295u}, 0);
}

static void try_snapshots(call_kind k) {
    if (!lends(k, SNA)) return;
    for (size_t i = 0; i < sizeof sizes / sizeof *sizes; i++) {
        if (sizes[i].machine != machine) continue;
        try_spoilt(k, (spoiler){SIZE, sizes[i].paging, sizes[i].due}, 0);
        for (int j = 0; j < 7; j++) try_spoilt(k, (spoiler){SIZE, sizes[i].paging, sizes[i].not_due[j]}, 10);
        length_tried[k][SNA][machine] = true;
    }
    for (size_t i = 0; k == LOAD_SNA && machine == 1 && i < sizeof copies / sizeof *copies; i++)
        try_spoilt(k, (spoiler){COPIES, copies[i].paging, copies[i].at}, 11);
}

static void try_flags(call_kind k) {
    static const unsigned flags[5] = {24, 25, 27, 29, 31};
    for (int i = 0; lends(k, DEVICES) && i < 5; i++)
        for (unsigned v = 0; v < 4; v++) try_spoilt(k, (spoiler){FLAG, flags[i], v == 3 ? 255 : v}, v < 2 ? 0 : 4);
}

/* Sound records and others; a start does not judge the one that it writes over. */
static void try_records(call_kind k) {
    if (!lends(k, STATE)) return;
    for (size_t i = 0; i < sizeof places / sizeof *places; i++) {
        attempt t = good(k);
        put(t.state + 6, 4, clock_of[machine][places[i].at] + (uint32_t)places[i].plus);
        put(t.state + 15, 2, places[i].painted);
        t.state[20] = (uint8_t)places[i].blocked;
        put(t.state + 21, 2, places[i].pairs);
        try_it(&t, places[i].sound || is_start(k) ? 0 : 3);
    }
    for (size_t i = 0; i < sizeof bytes / sizeof *bytes; i++) {
        if (bytes[i].machine == 1 - machine) continue;
        attempt t = good(k);
        t.state[bytes[i].at] = (uint8_t)bytes[i].value;
        try_it(&t, bytes[i].sound || is_start(k) ? 0 : 3);
    }
}

/* ---- Several causes at once: the earlier one's number ------------------------------------------------------------------ */

enum { MOST_CAUSES = 2 * SLICES + sizeof limits / sizeof *limits + 7 * sizeof sizes / sizeof *sizes
                     + sizeof copies / sizeof *copies + CAUSES };

/* Each cause that a call has, with each slice a byte short and a byte long; how many. In the order of judging. */
static unsigned all_causes(call_kind k, spoiler out[MOST_CAUSES]) {
    unsigned n = 0;
    for (cause w = MACHINE; w < CAUSES; w++) {
        if (w == UNSOUND && lends(k, STATE) && !is_start(k)) out[n++] = (spoiler){w, 0, clock_of[machine][FRAME]};
        if (w == FLAG && lends(k, DEVICES)) out[n++] = (spoiler){w, 24, 2};
        for (slice s = STATE; s < SLICES; s++)
            for (int by = -1; by < 2; by += 2)
                if (by_length(k, s) && w == length_cause(s)) out[n++] = (spoiler){w, s, (uint32_t)((int)right(k, s) + by)};
        for (size_t i = 0; i < sizeof limits / sizeof *limits; i++)
            if (limits[i].why == w && k >= limits[i].from && k <= limits[i].to && limits[i].machine != 1 - machine)
                out[n++] = (spoiler){w, 0, limits[i].refused};
        for (size_t i = 0; w == SIZE && lends(k, SNA) && i < sizeof sizes / sizeof *sizes; i++)
            for (int j = 0; j < 7; j += 2) /* of each form, with bank 5 or 2 twice or neither, one 7FFD byte and four sizes, */
                if (sizes[i].machine == machine && (sizes[i].paging == 0 || sizes[i].due == 147487))
                    out[n++] = (spoiler){w, sizes[i].paging, sizes[i].not_due[j]};
        for (size_t i = 4; w == COPIES && k == LOAD_SNA && machine == 1 && i < sizeof copies / sizeof *copies; i += 5)
            out[n++] = (spoiler){w, copies[i].paging, copies[i].at}; /* and of each copy the last byte */
    }
    return n;
}

static void try_order(call_kind k) {
    spoiler s[MOST_CAUSES];
    unsigned n = all_causes(k, s);
    for (unsigned i = 0; i < n; i++) {
        attempt all = good(k);
        /* this cause and every later one; itself last, since of two pages one stays, and one that is not there has both
         * causes, 7 and 9 */
        for (unsigned j = n; j-- > i;) spoil(&all, s[j]);
        try_it(&all, number_of[s[i].why]);
        for (unsigned j = i + 1; j < n; j++) {
            attempt two = good(k);
            spoil(&two, s[j]);
            spoil(&two, s[i]);
            try_it(&two, number_of[s[wrong == WRONG_ORDER ? j : i].why]);
        }
    }
}

/* ---- All of it --------------------------------------------------------------------------------------------------------- */

/* Each refusal that a call has was tried, and none that it has not; each slice's length on each machine. */
static void check_coverage(call_kind k) {
    const char *numbers = wrong == WRONG_COVERAGE && k == FRAMES_COUNT ? "236" : gives[k];
    for (int i = 1; i < REFUSALS; i++)
        if (tried[k][i] != (strchr(numbers, sign_of[i]) != NULL)) {
            failures++;
            printf("%s: refusal %d was %s\n", shapes[k].name, i, tried[k][i] ? "expected, and it has none" : "never tried");
        }
    for (slice s = STATE; s < SLICES; s++)
        if (!tried[k][0] || (lends(k, s) && !(length_tried[k][s][0] && length_tried[k][s][1]))) {
            failures++;
            printf("%s: never accepted, or %s was never of a wrong length\n", shapes[k].name, slice_names[s]);
        }
}

int main(int argc, char **argv) {
    if (argc == 3 && strcmp(argv[1], "--wrong") == 0) wrong = atoi(argv[2]);
    on_fault(fault);
    for (slice s = STATE; s < SLICES; s++) {
        zones[s] = make_zone(right_length(s, 1, 10) + 1);
        before[s] = malloc(zones[s].size);
        if (!before[s]) return 2;
    }
    for (call_kind k = START; k < KINDS; k++) {
        for (unsigned turn = 0; turn < 4; turn++) {
            machine = turn % 2;
            at_start = turn < 2;
            attempt t = good(k);
            try_it(&t, 0);
            try_lengths(k);
            try_limits(k);
            try_snapshots(k);
            try_flags(k);
            try_records(k);
            try_order(k);
        }
        check_coverage(k);
    }
    printf("refusals: %lu cases, %lu failed\n", cases, failures);
    return failures != 0;
}
