/* Walks one address, starts the machine and reads from it, through include/wuzhamben.h. Prints the three answers. */
#include "wuzhamben.h"
#include <stdio.h>

int main(void) {
    static uint8_t memory[4096] = {[0] = 0x02, [1] = 0x04, [2] = 0x02, [0x10] = 0x2a}; /* a section at 0, AP 1, nG set; a byte of data */
    static uint32_t track[2 * 1024], registers[4]; /* the rows of one context and of the global entries */
    const uint32_t read[4] = {WUZHAMBEN_READ, 0x10, 1, 0};
    printf("%llx\n", (unsigned long long)walk_image(memory, sizeof memory, 0, 0x10));
    printf("%llx\n", (unsigned long long)machine_start(memory, sizeof memory, track, 2 * 1024, 0, registers, 4));
    printf("%llx\n", (unsigned long long)machine_step(read, 4, registers, 4, memory, sizeof memory, track, 2 * 1024));
    return 0;
}
