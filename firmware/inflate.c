/* inflate.c: see inflate.h. The stream is a stranger's: whatever it says is judged before it is done, and after the
 * first thing that is wrong (`wrong`) every bit that is asked for is 0 and every loop ends. */
#include "inflate.h"
#include <stdbool.h>
#include <string.h>
#include "png.h"

typedef struct {
    inflate_next *next;
    void *from;
    uint32_t held;     /* bits that were taken from the stream and not yet used, the next one lowest */
    unsigned count;    /* how many: below 8 between two calls of `bits` */
    uint8_t *out;
    size_t len, at;    /* room, and how much of it is filled */
    const char *wrong; /* the first thing that is wrong, NULL so far */
} stream;

static unsigned fail(stream *s, const char *what) {
    if (s->wrong == NULL) s->wrong = what;
    return 0;
}

/* The next n bits, at most 16, as a number: the first of them is its lowest. */
static unsigned bits(stream *s, unsigned n) {
    while (s->count < n && s->wrong == NULL) {
        int byte = s->next(s->from);
        if (byte < 0) return fail(s, "its data ends too early");
        s->held |= (uint32_t)byte << s->count;
        s->count += 8;
    }
    if (s->wrong != NULL) return 0;
    unsigned value = s->held & ((1u << n) - 1);
    s->held >>= n;
    s->count -= n;
    return value;
}

static void to_byte_edge(stream *s) { bits(s, s->count % 8); }

static void give(stream *s, uint8_t byte) {
    if (s->at == s->len) fail(s, "its data is longer than its picture");
    if (s->wrong == NULL) s->out[s->at++] = byte;
}

/* ---- A code of 1 to 15 bits a symbol ---------------------------------------------------------------------------- */

enum { LONGEST = 15, SYMBOLS = 288 };
typedef struct { uint16_t count[LONGEST + 1], symbol[SYMBOLS]; } code; /* how many of each length; their symbols */

/* From the length of each symbol's code, 0 for none. Each bit doubles the codes that there may be: more than that
 * cannot be told apart, and fewer are allowed only where there is one code, or none. */
static void make_code(stream *s, code *c, const uint8_t *lengths, unsigned n) {
    unsigned start[LONGEST + 2] = {0};
    int room = 1;
    memset(c, 0, sizeof *c);
    for (unsigned i = 0; i < n; i++) c->count[lengths[i]]++;
    unsigned coded = n - c->count[0];
    for (unsigned length = 1; length <= LONGEST; length++) {
        room = 2 * room - c->count[length];
        start[length + 1] = start[length] + c->count[length];
        if (room < 0) {
            fail(s, "its data has a code with too many words");
            return;
        }
    }
    if (room > 0 && !(coded == c->count[1] && coded <= 1)) fail(s, "its data has a code with words left over");
    for (unsigned i = 0; i < n; i++)
        if (lengths[i] != 0) c->symbol[start[lengths[i]]++] = (uint16_t)i;
}

/* The codes of one length are numbers in a row, and those of the next follow at twice the number behind the last. So
 * `place` is where the bits stand among the codes of their length. */
static unsigned symbol(stream *s, const code *c) {
    unsigned place = 0, before = 0;
    for (unsigned length = 1; length <= LONGEST; length++) {
        place = 2 * place + bits(s, 1);
        if (place < c->count[length]) return c->symbol[before + place];
        place -= c->count[length];
        before += c->count[length];
    }
    return fail(s, "its data has a word that stands for nothing");
}

/* ---- The three kinds of block ----------------------------------------------------------------------------------- */

static void stored_block(stream *s) {
    to_byte_edge(s);
    unsigned n = bits(s, 16), turned = bits(s, 16);
    if ((n ^ turned) != 0xFFFF) fail(s, "its data has a block whose length is not confirmed");
    while (n-- > 0 && s->wrong == NULL) give(s, (uint8_t)bits(s, 8));
}

/* A copy of what was given before: symbol 257 and up is its length, and then comes how far back. */
static void copy(stream *s, unsigned what, const code *distances) {
    static const uint16_t length_from[29] = {3,  4,  5,  6,  7,  8,  9,  10, 11,  13,  15,  17,  19,  23, 27,
                                             31, 35, 43, 51, 59, 67, 83, 99, 115, 131, 163, 195, 227, 258};
    static const uint8_t length_bits[29] = {0, 0, 0, 0, 0, 0, 0, 0, 1, 1, 1, 1, 2, 2, 2,
                                            2, 3, 3, 3, 3, 4, 4, 4, 4, 5, 5, 5, 5, 0};
    static const uint16_t back_from[30] = {1,   2,   3,   4,   5,   7,    9,    13,   17,   25,
                                           33,  49,  65,  97,  129, 193,  257,  385,  513,  769,
                                           1025, 1537, 2049, 3073, 4097, 6145, 8193, 12289, 16385, 24577};
    static const uint8_t back_bits[30] = {0, 0, 0, 0, 1, 1, 2, 2,  3,  3,  4,  4,  5,  5,  6,
                                          6, 7, 7, 8, 8, 9, 9, 10, 10, 11, 11, 12, 12, 13, 13};
    if (what - 257 >= 29) {
        fail(s, "its data has a copy of no known length");
        return;
    }
    unsigned length = length_from[what - 257] + bits(s, length_bits[what - 257]);
    unsigned how_far = symbol(s, distances);
    if (how_far >= 30) {
        fail(s, "its data has a copy from no known place");
        return;
    }
    size_t back = back_from[how_far] + bits(s, back_bits[how_far]);
    if (back > s->at) fail(s, "its data has a copy from before its start");
    while (length-- > 0 && s->wrong == NULL) give(s, s->out[s->at - back]);
}

static void coded_block(stream *s, const code *literals, const code *distances) {
    while (s->wrong == NULL) {
        unsigned what = symbol(s, literals);
        if (what == 256) return; /* the block's end */
        if (what < 256) give(s, (uint8_t)what);
        else copy(s, what, distances);
    }
}

static void fixed_block(stream *s) {
    static code literals, distances;
    uint8_t lengths[SYMBOLS];
    for (unsigned i = 0; i < SYMBOLS; i++) lengths[i] = i < 144 ? 8 : i < 256 ? 9 : i < 280 ? 7 : 8;
    make_code(s, &literals, lengths, SYMBOLS);
    memset(lengths, 5, 32);
    make_code(s, &distances, lengths, 32);
    coded_block(s, &literals, &distances);
}

/* The lengths of both codes, in a code of their own: 0 to 15 is a length, 16 the last one again, 17 and 18 none. */
static void read_lengths(stream *s, const code *c, uint8_t *lengths, unsigned n) {
    unsigned at = 0;
    while (at < n && s->wrong == NULL) {
        unsigned what = symbol(s, c), times = 1;
        uint8_t length = what < 16 ? (uint8_t)what : 0;
        if (what == 16) {
            if (at == 0) fail(s, "its data repeats a length before the first");
            else length = lengths[at - 1];
            times = 3 + bits(s, 2);
        }
        if (what == 17) times = 3 + bits(s, 3);
        if (what == 18) times = 11 + bits(s, 7);
        if (times > n - at) fail(s, "its data has more lengths than codes");
        while (times-- > 0 && s->wrong == NULL) lengths[at++] = length;
    }
}

static void dynamic_block(stream *s) {
    static const uint8_t order[19] = {16, 17, 18, 0, 8, 7, 9, 6, 10, 5, 11, 4, 12, 3, 13, 2, 14, 1, 15};
    static code first, literals, distances;
    uint8_t lengths[SYMBOLS + 32] = {0};
    unsigned literal_count = 257 + bits(s, 5), distance_count = 1 + bits(s, 5), first_count = 4 + bits(s, 4);
    if (literal_count > 286 || distance_count > 30) fail(s, "its data has more codes than there are");
    for (unsigned i = 0; i < first_count; i++) lengths[order[i]] = (uint8_t)bits(s, 3);
    make_code(s, &first, lengths, 19);
    if (s->wrong != NULL) return;
    memset(lengths, 0, sizeof lengths);
    read_lengths(s, &first, lengths, literal_count + distance_count);
    if (lengths[256] == 0) fail(s, "its data has a block without an end");
    make_code(s, &literals, lengths, literal_count);
    make_code(s, &distances, lengths + literal_count, distance_count);
    coded_block(s, &literals, &distances);
}

/* ---- The stream around them ------------------------------------------------------------------------------------- */

static void head(stream *s) {
    unsigned method = bits(s, 8), flags = bits(s, 8);
    bool known = method % 16 == 8 && method / 16 <= 7 && (256 * method + flags) % 31 == 0;
    if (!known || flags & 0x20) fail(s, "its data is no zlib stream"); /* 20h: a dictionary, which PNG does not have */
}

static void blocks(stream *s) {
    bool last = false;
    while (!last && s->wrong == NULL) {
        last = bits(s, 1) == 1;
        switch (bits(s, 2)) {
        case 0: stored_block(s); break;
        case 1: fixed_block(s); break;
        case 2: dynamic_block(s); break;
        default: fail(s, "its data has a block of no known kind");
        }
    }
}

static void check_sum(stream *s) {
    uint32_t sum = 0;
    to_byte_edge(s);
    for (int i = 0; i < 4; i++) sum = sum << 8 | bits(s, 8);
    if (s->at < s->len) fail(s, "its data is shorter than its picture");
    if (sum != png_adler(1, s->out, s->at)) fail(s, "the sum of its data is wrong: it is damaged");
}

const char *inflate(inflate_next *next, void *from, uint8_t *out, size_t len) {
    stream s = {next, from, 0, 0, out, len, 0, NULL};
    head(&s);
    blocks(&s);
    check_sum(&s);
    return s.wrong;
}
