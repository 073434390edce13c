/*
 * The host's side in C (POSIX): an engine in a thread of its own, and requests to it. All functions are static; a host whose loop polls writes its own from
 * docs/PROTOCOL.md. Define _POSIX_C_SOURCE as 200809L or more before the first include.
 */

#ifndef CUMINHAMPER_HOST_H
#define CUMINHAMPER_HOST_H

#include "cuminhamper.h"
#include <pthread.h>
#include <signal.h>
#include <string.h>
#include <sys/socket.h>
#include <unistd.h>

/* The engine cannot be reached any more, or a request or its answer is longer than the host has room for. Refusals are 1 to 105. */
#define CUMINHAMPER_LOST (-1)

struct cuminhamper {
    int ends[2]; /* the host's end of the line, and the engine's */
    pthread_t thread;
};

static inline void *cuminhamper_thread(void *engine)
{
    int end = ((struct cuminhamper *)engine)->ends[1];
    cuminhamper_serve(end, end);
    shutdown(end, SHUT_RDWR); /* whatever ended it, the host does not wait for more */
    return engine;
}

/* Starts an engine with a fresh drive of address 00: 0, or CUMINHAMPER_LOST. Its place in memory must not change until it has ended. */
static inline int cuminhamper_start(struct cuminhamper *engine)
{
    sigset_t all, before;
    int made;
    if (socketpair(AF_UNIX, SOCK_STREAM, 0, engine->ends) != 0)
        return CUMINHAMPER_LOST;
    sigfillset(&all); /* signals are the host's */
    pthread_sigmask(SIG_SETMASK, &all, &before);
    made = pthread_create(&engine->thread, NULL, cuminhamper_thread, engine);
    pthread_sigmask(SIG_SETMASK, &before, NULL);
    if (made == 0)
        return 0;
    close(engine->ends[0]);
    close(engine->ends[1]);
    return CUMINHAMPER_LOST;
}

/* Ends an engine and waits for its end. */
static inline void cuminhamper_end(struct cuminhamper *engine)
{
    shutdown(engine->ends[0], SHUT_WR);
    pthread_join(engine->thread, NULL);
    close(engine->ends[0]);
    close(engine->ends[1]);
}

/* The number in four bytes. */
static inline uint32_t cuminhamper_number(const uint8_t *bytes)
{
    return bytes[0] | (uint32_t)bytes[1] << 8 | (uint32_t)bytes[2] << 16 | (uint32_t)bytes[3] << 24;
}

/* Sends a request of a kind and gets its answer into `rest`, which has `room` bytes; `count` is how many came. Gives the status: 0, a refusal, or
 * CUMINHAMPER_LOST, after which the engine can only be ended. */
static inline int cuminhamper_request(struct cuminhamper *engine, char kind, const void *bytes, size_t length, uint8_t *rest, size_t room, size_t *count)
{
    uint32_t size = (uint32_t)length + 1;
    uint8_t head[5] = {(uint8_t)size, (uint8_t)(size >> 8), 0, 0, (uint8_t)kind};
    if (length >= CUMINHAMPER_REQUEST_BYTES || send(engine->ends[0], head, 5, MSG_NOSIGNAL) != 5)
        return CUMINHAMPER_LOST;
    if (length != 0 && send(engine->ends[0], bytes, length, MSG_NOSIGNAL) != (ssize_t)length)
        return CUMINHAMPER_LOST;
    if (recv(engine->ends[0], head, 5, MSG_WAITALL) != 5 || cuminhamper_number(head) - 1 > room)
        return CUMINHAMPER_LOST;
    *count = cuminhamper_number(head) - 1;
    if (*count != 0 && recv(engine->ends[0], rest, *count, MSG_WAITALL) != (ssize_t)*count)
        return CUMINHAMPER_LOST;
    return head[4];
}

/* Carries a list out; what is seen of it is left in `seen`. */
static inline int cuminhamper_perform(struct cuminhamper *engine, const uint8_t *list, size_t length, uint8_t *seen, size_t room, size_t *count)
{
    return cuminhamper_request(engine, CUMINHAMPER_LIST, list, length, seen, room, count);
}

/* Gives a string, with its byte 13; `answer` has CUMINHAMPER_ANSWER_ROOM bytes, and `length` is how many of them answer, 0 for silence. */
static inline int cuminhamper_string(struct cuminhamper *engine, const char *text, uint8_t *answer, size_t *length)
{
    uint8_t list[4 + 256] = {CUMINHAMPER_STRING, CUMINHAMPER_ANSWER_ROOM}, seen[2 + CUMINHAMPER_ANSWER_ROOM];
    size_t count, size = strlen(text);
    int status;
    if (size > 256)
        return CUMINHAMPER_LOST;
    list[2] = (uint8_t)size;
    list[3] = (uint8_t)(size >> 8);
    memcpy(list + 4, text, size);
    status = cuminhamper_perform(engine, list, 4 + size, seen, sizeof seen, &count);
    if (status != 0)
        return status;
    *length = seen[1];
    memcpy(answer, seen + 2, seen[1]);
    return seen[0];
}

#endif
