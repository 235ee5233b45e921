/* The numbers of system calls. user.h has the instruction and its registers, of each processor. */
#ifndef CALLS_H
#define CALLS_H

enum {
    CALL_SAY,     /* text, number: prints them; the text has to be in the program */
    CALL_ALLOC,   /* order: allocates a page block and maps it. Returns its first frame */
    CALL_FREE,    /* frame: unmaps and frees the page block that begins there */
    CALL_MAKE,    /* makes an endpoint. Returns its place, by which other calls name it */
    CALL_SEND,    /* endpoint, word: sends the word to the thread that waits there, or else to the endpoint's queue of 7 words */
    CALL_RECEIVE, /* endpoint: returns its next word. If it has none, waits, or is refused if no other thread can run */
    CALL_DROP,    /* endpoint: drops it if no thread waits there */
    CALL_START,   /* address, stack, argument: starts a thread, which runs when this one waits or ends. Returns its number */
    CALL_CATCH,   /* address: after a fault, this thread continues there. Without such an address a fault ends the thread */
    CALL_REAP,    /* frees the empty slabs of the partition */
    CALL_REPORT,  /* prints the figures of the partition's memory */
    CALL_MEET,    /* number, not 0: waits until the administrator has answered this meeting */
    CALL_EXIT,    /* ends this thread */
    CALLS
};

#define REFUSED UINT64_MAX /* the result of a call that was refused */

#endif
