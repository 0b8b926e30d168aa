/* Bevelrose for programs in C: networks of blocks as in .NET's TPL Dataflow, run over records.
 *
 * A network is a text in TOML, records are a text in CSV, and what a run answers is a text, its report. None of them ends with a zero
 * byte: each has its length beside it.
 *
 * What a caller has to keep:
 *
 * - No pointer is NULL, also where a length is 0, and each leads to as many bytes as the length beside it says. `room`, `length` and
 *   `network` overlap with nothing else that is given to the same call. `room` holds some value in each byte, as memory that was cleared
 *   or written does.
 * - A bevelrose_network is zero before its first call. It is no copy of another that is in use: what a copy still names was let go.
 * - One call at a time has the same bevelrose_network, and the calls with one all come from one thread. Networks of their own may be
 *   used by as many threads at once.
 * - No call is made in a signal handler, nor in a child of fork() whose parent has several threads.
 *
 * Whatever the bytes of a text are, each call returns and answers. No call starts a thread, reads or writes a file, or keeps any memory
 * but that of its network. All memory comes from the program's malloc and realloc, and goes back by its free.
 */
#ifndef BEVELROSE_H
#define BEVELROSE_H

#include <stddef.h>
#include <stdint.h>

#ifdef __cplusplus
extern "C" {
#endif

/* What a call answers. */
enum {
    BEVELROSE_QUIET = 0,   /* every block is done, and no record waits; of check and open: the text is a network */
    BEVELROSE_LEFT = 1,    /* nothing can move any more, but a block is not done, or records wait */
    BEVELROSE_REFUSED = 2, /* a text is refused, and the answer says why; or "closed": the bevelrose_network holds no network */
    BEVELROSE_STOPPED = 3, /* as many events happened as may; or "ids": a block has no id left for its next message */
    BEVELROSE_MEMORY = 4,  /* there was no memory for it */
    BEVELROSE_READ = 5     /* the records could not be read */
};

/* No limit of events. */
#define BEVELROSE_NO_LIMIT UINT64_MAX

/* A network that was made ready, or none where it is zero: bevelrose_network network = {0}; */
typedef struct {
    void *network;
} bevelrose_network;

/* The number of these functions and of what they promise, to be compared with BEVELROSE_VERSION. */
#define BEVELROSE_VERSION 1
uint32_t bevelrose_version(void);

/* Each call below answers with a text beside its status. The text goes to `room` where it has that much room, and else nothing goes
 * there: `length` says how long the text is, either way. What is behind the text in `room` stays as it was. */

/* Whether a text is a network. The answer is empty, or the line of the refusal, as "8 Plan 9 Cycle". */
uint8_t bevelrose_check(const uint8_t *text, size_t text_length, uint8_t *room, size_t room_length, size_t *length);

/* Makes the network of a text ready, and lets go the one that was ready before. After a refusal the one from before is ready still. The
 * answer is empty, or the line of the refusal. */
uint8_t bevelrose_open(bevelrose_network *network, const uint8_t *text, size_t text_length, uint8_t *room, size_t room_length,
                       size_t *length);

/* Runs the network over records until nothing can move any more, or `limit` events have happened. The answer is the report, which
 * `flow_run NET 1 LIMIT` would write, or the line of the refusal. The network stays ready, and each run begins anew: so where a report
 * was longer than the room, the same call with more room answers with the same report. */
uint8_t bevelrose_run(bevelrose_network *network, const uint8_t *records, size_t records_length, uint64_t limit, uint8_t *room,
                      size_t room_length, size_t *length);

/* Lets the network go. It holds none then, and may be opened again or closed again. */
void bevelrose_close(bevelrose_network *network);

#ifdef __cplusplus
}
#endif

#endif
