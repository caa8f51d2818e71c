/* first.c: the shortest program that shows a frame. One border write, one byte of picture, one frame's wait. */
#include <stdio.h>
#include "ulb_machine.h"

static ulb_machine m; /* 340 KB: static, not on the stack */

int main(void) {
    static const uint8_t rom[ULB_ROM_BYTES_48K]; /* yours */
    uint8_t refusal = ulb_machine_init(&m, ULB_48K, rom, sizeof rom);
    if (refusal != ULB_OK) {
        printf("no machine: %s\n", ulb_refusal_text(refusal));
        return 1;
    }
    ulb_machine_write(&m, 0x4000, 0x0F);               /* eight pixels: four of paper, four of ink */
    ulb_machine_write(&m, 0x5800, 0x45);               /* bright, paper 0, ink 5 */
    ulb_timed t = ulb_machine_write_io(&m, 0x00FE, 2); /* red border; 4 clocks */
    printf("border write: code %u, %u clocks\n", t.value, (unsigned)t.clocks);
    unsigned blocks = 0;
    while (!t.closed) { /* a processor's instructions would stand here */
        t = ulb_machine_wait(&m, 1000);
        blocks += t.blocks;
    }
    const uint8_t *picture = ulb_machine_shown_picture(&m).bytes;
    printf("one frame closed: %u blocks, %u clocks into the next\n", blocks, (unsigned)ulb_machine_frame_clock(&m));
    printf("picture starts %u %u %u %u %u %u %u %u; border is %u\n", picture[0], picture[1], picture[2], picture[3], picture[4],
           picture[5], picture[6], picture[7], m.border[0]);
    return 0;
}
