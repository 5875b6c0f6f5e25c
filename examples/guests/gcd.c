/* Reads two words, writes their greatest common divisor to the journal, and halts with 0; with 1 where both are 0. */
#include "guest.h"

void guest(void)
{
    word pair[2];
    read_words(pair, 2);
    word a = pair[0];
    word b = pair[1];
    while (b != 0) {
        word rest = a % b;
        a = b;
        b = rest;
    }
    if (a == 0)
        halt(1);
    commit(&a, sizeof a);
    halt(0);
}

/* Where the run begins: all registers are zero, so the stack comes first. It grows down from 0x08000000. */
__attribute__((naked, section(".text.start"))) void _start(void)
{
    __asm__("lui sp, 0x8000\n\tj guest");
}
