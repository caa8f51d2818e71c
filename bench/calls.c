/* calls WORK COUNT: makes COUNT calls of one work on a 128K machine that is 20,000 clocks into its first frame, in the picture; for
 * bench/instructions. calls alone: the works, one to a line. */
#include <stdint.h>
#include <stdio.h>
#include <stdlib.h>
#include <string.h>
#include "ulb.h"

static uint8_t state[23], devices[35], rom[32768], ram[131072], a[49152], b[49152], border[76800], answer[10];

#define STATE state, sizeof state
#define DEVICES devices, sizeof devices
#define RAM ram, sizeof ram
#define SCREEN a, sizeof a, b, sizeof b, border, sizeof border

static void wait(uint32_t clocks) { ulb_wait_internal(STATE, RAM, SCREEN, clocks, answer, 10); }
static void write_port(uint16_t port) { ulb_write_io(STATE, DEVICES, RAM, SCREEN, port, 2, answer, 10); }
static void read_port(uint16_t port) { ulb_read_io(STATE, DEVICES, RAM, SCREEN, port, answer, 10); }

static void plain_4(unsigned i) { (void)i; wait(4); }
static void plain_0(unsigned i) { (void)i; wait(0); }
static void contended(unsigned i) { (void)i; ulb_wait_mreq(STATE, RAM, SCREEN, 0x4000, 4, answer, 10); }
static void no_request(unsigned i) { (void)i; ulb_wait_no_mreq(STATE, RAM, SCREEN, 0x4000, 1, answer, 10); }
static void keys(unsigned i) { read_port((uint16_t)(0xFE | i << 8)); }
static void floating(unsigned i) { (void)i; read_port(0x40FF); }
static void to_border(unsigned i) { (void)i; write_port(0xFE); }
static void to_7ffd(unsigned i) { (void)i; write_port(0x7FFD); }
static void unheard(unsigned i) { (void)i; write_port(0x0103); }
static void byte_read(unsigned i) { ulb_read_internal(STATE, rom, sizeof rom, RAM, (uint16_t)i, answer, 5); }
static void byte_write(unsigned i) { ulb_write_internal(STATE, RAM, (uint16_t)(0x4000 + i % 0x1B00), 3); }

static const struct {
    const char *name;
    void (*call)(unsigned);
} works[] = {
    {"plain wait, 4 clocks", plain_4},
    {"plain wait, 0 clocks", plain_0},
    {"contended wait, 4 clocks", contended},
    {"contended wait without request, 1 clock", no_request},
    {"port read, keys", keys},
    {"port read, floating bus", floating},
    {"port write, border", to_border},
    {"port write, 7FFD", to_7ffd},
    {"port write that nothing hears", unheard},
    {"byte read", byte_read},
    {"byte write", byte_write},
};
enum { WORKS = sizeof works / sizeof works[0] };

int main(int count, char **words) {
    if (count != 3) {
        for (unsigned k = 0; k < WORKS; k++) puts(works[k].name);
        return 0;
    }
    unsigned work = (unsigned)atoi(words[1]), times = (unsigned)atoi(words[2]);
    if (work >= WORKS) return 2;
    memset(devices, 0xFF, 24); /* no key is down */
    devices[24] = 1;
    if (ulb_start(STATE, RAM, SCREEN, 1) != 0) return 1;
    wait(20000);
    for (unsigned i = 0; i < times; i++) works[work].call(i);
    return answer[0];
}
