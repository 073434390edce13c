/*
 * The drive engine as a C library: libarchive.a, written by `bin/library`, for x86-64 Linux.
 *
 *     cc -std=c99 -Iclient/include host.c target/staticlib/libarchive.a -pthread
 *
 * One function serves one drive on two descriptors. Calls go to it as bytes, many in one list, and what is seen of them comes back as bytes;
 * docs/PROTOCOL.md has the whole form, and examples/engine.c a host in a page. The names below are of its letters, kinds and numbers.
 */

#ifndef CUMINHAMPER_H
#define CUMINHAMPER_H

#include <stdint.h>

#ifdef __cplusplus
extern "C" {
#endif

/*
 * Serves the frames that come from `in`, and writes an answer to `out` for each, until the input ends or the output takes no more. The drive is at
 * first a fresh one of address 00, and is gone when the call returns.
 *
 * Threads: the call blocks, so it has a thread of its own; a socketpair between it and the host is the usual line (one descriptor may be given as both).
 * Any number of calls may run at once, each with descriptors of its own: they share nothing. The thread needs 1 MB of stack (musl gives less unless asked).
 * Ownership: both descriptors are open and blocking while the call runs, and nobody else reads or writes them. It closes neither. To end it, shut the
 * host's end down for writing (a close is not enough while a child process has a copy), read what is still owed, join the thread, then close both ends.
 * Signals: block them in that thread (pthread_sigmask before pthread_create): a read or write that a handler interrupts may end the call. Have SIGPIPE
 * ignored if the host may close its end before the engine has answered.
 */
void cuminhamper_serve(int32_t in, int32_t out);

/* The version of the protocol, the answer to CUMINHAMPER_VERSION. */
#define CUMINHAMPER_PROTOCOL 1

/* A frame is its length in 4 bytes, then that many; numbers are little-endian. The first byte of a request is its kind. */
#define CUMINHAMPER_VERSION 'V' /* the version */
#define CUMINHAMPER_FRESH 'F'   /* address(1): the drive is now a fresh one */
#define CUMINHAMPER_LIST 'L'    /* a list: carries it out */
#define CUMINHAMPER_LOAD 'R'    /* an image: the drive is now the one that it gives */
#define CUMINHAMPER_IMAGE 'X'   /* the image of the drive */

/* The most bytes of a request, its kind included; of a list; of what is seen of a list; and the buffer that a string needs for its answer. */
#define CUMINHAMPER_REQUEST_BYTES 16385
#define CUMINHAMPER_LIST_BYTES 16384
#define CUMINHAMPER_SEEN_BYTES 65536
#define CUMINHAMPER_ANSWER_ROOM 64

/* Each word of a list begins with its letter. What is seen of a word begins with 0 or a refusal. */
#define CUMINHAMPER_STRING 'S'      /* room(1) length(2) text; seen: refusal(1) length(1) answer */
#define CUMINHAMPER_INPUTS 'I'      /* word(2); seen: refusal(1) */
#define CUMINHAMPER_MILLISECOND 'M' /* seen: refusal(1) */
#define CUMINHAMPER_STEP 'P'        /* seen: refusal(1) */
#define CUMINHAMPER_AT_SPEED 'A'    /* seen: refusal(1) */
#define CUMINHAMPER_HALTED 'H'      /* seen: refusal(1) */
#define CUMINHAMPER_WAIT 'W'        /* budget(4); seen: refusal(1) end(1) given(4) */
#define CUMINHAMPER_ORDER 'B'       /* seen: 0(1) kind(1) current(1) signals(1) ramp(1) hertz(4) rest(4) outputs(4) */
#define CUMINHAMPER_TRAVEL 'G'      /* n(4); seen: 0(1) given(4) */

/* The end of a wait. */
#define CUMINHAMPER_END_REFUSED 0
#define CUMINHAMPER_END_IDLE 1
#define CUMINHAMPER_END_MOVING 2
#define CUMINHAMPER_END_SPENT 3

/* The kind of an order, and the bits of its signals. */
#define CUMINHAMPER_ORDER_STAND 0
#define CUMINHAMPER_ORDER_SLOW 1
#define CUMINHAMPER_ORDER_RUN 2
#define CUMINHAMPER_SIGNAL_CU 1
#define CUMINHAMPER_SIGNAL_FC 2
#define CUMINHAMPER_SIGNAL_BACKWARD 4

/* Refusals: of a call or a frame. The drive is then as it was. */
#define CUMINHAMPER_REFUSED_ADDRESS 1       /* the address of a drive is 0 to 47 */
#define CUMINHAMPER_REFUSED_UNSOUND 2       /* the drive is unsound */
#define CUMINHAMPER_REFUSED_ANSWER_BUFFER 3 /* the buffer for the answer of a string needs 64 bytes */
#define CUMINHAMPER_REFUSED_INPUTS_WORD 4   /* an inputs word is 0 to 2047 */
#define CUMINHAMPER_REFUSED_NO_RUN 5        /* a step is taken only while a run is under way */
#define CUMINHAMPER_REFUSED_REPORT 6        /* at-speed or halted where it is not expected */
#define CUMINHAMPER_REFUSED_FREQUENCY 7     /* a step frequency is 1 to 4800 */
#define CUMINHAMPER_REFUSED_BUDGET 8        /* the budget of a wait is 1 to 1000000 milliseconds */
#define CUMINHAMPER_REFUSED_IMAGE 10        /* the bytes are the memory image of no drive */
#define CUMINHAMPER_REFUSED_LETTER 100      /* a word of the list begins with none of the nine letters */
#define CUMINHAMPER_REFUSED_CUT_WORD 101    /* the list ends within a word */
#define CUMINHAMPER_REFUSED_ROOM 102        /* what is seen of the list may need more than 65536 bytes */
#define CUMINHAMPER_REFUSED_LONG_FRAME 103  /* the frame is longer than 16385 bytes */
#define CUMINHAMPER_REFUSED_FRAME 104       /* the frame is empty, of no known kind, or not of its kind's length */
#define CUMINHAMPER_REFUSED_CUT_FRAME 105   /* the input ended within a frame; this is the last answer */

#ifdef __cplusplus
}
#endif

#endif
