/*
 * The proved engine inside a C program: an engine in a thread, a program stored and run to its end.
 *
 *     bin/library
 *     cc -std=c99 -Iclient/include examples/engine.c target/staticlib/libarchive.a -pthread -o engine && ./engine
 *
 * The clock and the pulse board of a real host stand where this one counts.
 */

#define _POSIX_C_SOURCE 200809L

#include "cuminhamper_host.h"
#include <stdio.h>

/* A program with an output and a run, its start, and afterwards the position. */
static const char *const strings[] = {"00WN,100,58,O0,1,101\r", "00WN,101,11,05,+1200,x1,000\r", "00PS,100\r", "00QA\r"};

/* A millisecond of the host in one request: the clock, the steps of a board at 500 Hz, one in every second millisecond, and the order after them. */
static int run(struct cuminhamper *engine)
{
    uint8_t list[] = {CUMINHAMPER_MILLISECOND, CUMINHAMPER_TRAVEL, 0, 0, 0, 0, CUMINHAMPER_ORDER}, seen[1 + 5 + 17];
    uint32_t milliseconds = 0, steps = 0;
    size_t count;
    do {
        list[2] = ++milliseconds % 2 == 0;
        if (cuminhamper_perform(engine, list, sizeof list, seen, sizeof seen, &count) != 0)
            return 1;
        steps += cuminhamper_number(seen + 2);
    } while (steps == 0 || seen[7] != CUMINHAMPER_ORDER_STAND);
    printf("%u steps in %u ms, outputs ", (unsigned)steps, (unsigned)milliseconds);
    for (int place = 0; place < 14; place++)
        putchar('0' + (int)(cuminhamper_number(seen + 19) >> place & 1));
    return putchar('\n') == EOF;
}

int main(void)
{
    struct cuminhamper engine;
    uint8_t answer[CUMINHAMPER_ANSWER_ROOM];
    size_t length;
    int failed = 0;
    if (cuminhamper_start(&engine) != 0)
        return 1;
    for (int k = 0; k < 4 && !failed; k++) {
        if (k == 3)
            failed = run(&engine);
        failed = failed || cuminhamper_string(&engine, strings[k], answer, &length) != 0 || length == 0;
        if (!failed)
            printf("%-28.*s %.*s\\r\n", (int)strlen(strings[k]) - 1, strings[k], (int)length - 1, (const char *)answer);
    }
    cuminhamper_end(&engine);
    return failed;
}
