/* The host calls of a guest: the number in a7, arguments from a0 on, the answer in a0. */
#ifndef GUEST_H
#define GUEST_H

typedef unsigned int word;

static inline word host_call(word number, word first, word second)
{
    register word a0 __asm__("a0") = first;
    register word a1 __asm__("a1") = second;
    register word a7 __asm__("a7") = number;
    __asm__ volatile("ecall" : "+r"(a0) : "r"(a1), "r"(a7) : "memory");
    return a0;
}

/* Ends the run with an exit code. */
static inline void halt(word code)
{
    host_call(0, code, 0);
    __builtin_unreachable();
}

/* Stores the next `count` input words, at most 256, at an aligned address. */
static inline word read_words(word *at, word count)
{
    return host_call(1, (word)at, count);
}

/* Appends `count` bytes, at most 1,024, to the journal. */
static inline word commit(const void *at, word count)
{
    return host_call(2, (word)at, count);
}

/* Assumes that the image of an id halts with 0 and a journal of a digest, both of 32 bytes and aligned. */
static inline word assume(const word image[8], const word journal[8])
{
    return host_call(3, (word)image, (word)journal);
}

#endif
