/* Ten million steps of loads, stores and arithmetic over 16 KiB, to measure with: halts with a checksum. */
#include "guest.h"

#define WORDS 4096

static word table[WORDS];

void guest(void)
{
    word sum = 1;
    for (word round = 0; round < 833333; round++) {
        word *at = &table[round % WORDS];
        sum = sum * 33 + *at;
        *at = sum ^ round;
    }
    halt(sum & 0xFF);
}

/* Where the run begins: all registers are zero, so the stack comes first. It grows down from 0x08000000. */
__attribute__((naked, section(".text.start"))) void _start(void)
{
    __asm__("lui sp, 0x8000\n\tj guest");
}
