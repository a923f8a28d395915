/* The queue of one TTCN-3 message port, for C11 and later.
 *
 * A port queues each message that arrives, and gives them out in order of arrival. It is started,
 * halted or stopped, and the status says which messages are deliverable:
 *
 *   started   all that are queued
 *   halted    those that were queued when the port was halted
 *   stopped   none
 *
 * A receiving operation looks at the top message alone: the oldest one, if it is deliverable
 * (ETSI ES 201 873-1, clauses 22.2 and 22.5).
 *
 *   tp_port port;
 *   tp_port_init(&port);
 *   if (!tp_port_arrive(&port, sender, 0, message)) refuse(message);
 *   tp_answer top = tp_port_check(&port, false, 0, true);
 *   if (top.outcome == TP_FOUND && wants(top.message))
 *       serve(tp_port_receive(&port, false, 0, true).message);
 *   tp_port_drop(&port);
 *
 * Messages. A message is 64 bits that the port keeps and gives back: an index, a handle, or an
 * address. No function follows it. What it stands for is owned by the caller from before the
 * arrival to after the last answer that has it. `tp_port_start`, `tp_port_clear` and
 * `tp_port_drop` forget the messages that are queued. A caller that has to free them looks at each
 * one by `tp_port_at` first.
 *
 * Memory. `tp_port_arrive` alone asks `malloc` or `realloc` for memory. Every other function
 * succeeds without. The memory of the queue goes back to `free` in `tp_port_drop`. It grows with
 * the longest queue so far, and a port that empties keeps it.
 *
 * Threads. One port, one call at a time. Two threads may use two ports at the same time; for one
 * port the caller takes a mutex. No function waits. None is for a signal handler.
 *
 * Undefined behaviour, in every function that takes a port: an address that is null or at which no
 * port is; a port that another call uses at the same time; a port whose bytes the caller changed.
 * `tp_port_init` alone needs no port there, but memory of the size and the alignment of a `tp_port`.
 *
 * The functions are proved to do what their contracts say (crates/tp_c). This header, and that the
 * caller keeps the conditions above, is not: docs/EMBEDDING.md says what is trusted.
 */
#ifndef TP_PORT_H
#define TP_PORT_H

#include <stdbool.h>
#include <stddef.h>
#include <stdint.h>

#ifdef __cplusplus
extern "C" {
#endif

#if defined(__GNUC__)
#define TP_PORT_RESULT_IS_USED __attribute__((warn_unused_result))
#else
#define TP_PORT_RESULT_IS_USED
#endif

/* A port: memory of the caller, in any storage, that only the functions below look into. It may be
 * moved as bytes, as by `memcpy` or `realloc`, while no call uses it: the bytes at the old address
 * are no port then. Two copies of one port must not both be used. */
typedef struct tp_port {
    uint64_t opaque[7];
} tp_port;

/* What became of the message of an answer: the values of `outcome`. */
enum {
    TP_NOTHING = 0, /* there is no message: the other fields are 0 */
    TP_TOOK = 1,    /* it was received, and is no longer queued */
    TP_FOUND = 1,   /* it is queued: the answer of `tp_port_check` and `tp_port_at` */
    TP_DROPPED = 2  /* it was discarded, and is no longer queued: of `tp_port_trigger` alone */
};

/* What `tp_port_status` returns. */
enum {
    TP_STARTED = 0,
    TP_HALTED = 1,
    TP_STOPPED = 2
};

/* A message, with what was said of it at its arrival. */
typedef struct tp_answer {
    uint32_t outcome;
    uint32_t sender;  /* who sent it */
    uint64_t number;  /* its number, which the queue only keeps */
    uint64_t message; /* the message */
} tp_answer;

/* The bytes of a port in the library that is linked: `sizeof(tp_port)`, or the header is of another
 * library. */
size_t tp_port_size(void);

/* The address of a port is a multiple of this many bytes: at most `_Alignof(tp_port)`. */
size_t tp_port_align(void);

/* Makes a started port with nothing queued in the memory at `port`, whatever is there: if a port is
 * there, its memory leaks. Asks for no memory. Every port ends with `tp_port_drop`. */
void tp_port_init(tp_port *port);

/* Frees the memory of the queue, and forgets the messages. There is no port at the address from then
 * on; the caller may make one there again, or free the memory. */
void tp_port_drop(tp_port *port);

/* Puts a message at the end of the queue, whatever the status: a halted or a stopped port queues too.
 *
 * `sender` is a number that the caller gives each sender; a receiving operation can ask for one.
 * `number` is only kept, so that a reader can tell two equal messages apart.
 *
 * Returns false if memory is refused. Then the queue is as it was, and the caller still has the
 * message. */
TP_PORT_RESULT_IS_USED
bool tp_port_arrive(tp_port *port, uint32_t sender, uint64_t number, uint64_t message);

/* Takes the top message out if `fits`, and if it is from the sender `from` where `named` is true.
 * `from` is not looked at where `named` is false.
 *
 * `fits` is the caller's answer to whether the top message is wanted. A caller that has to look at
 * the message finds it by `tp_port_check` first. It is true for a `receive` without a template.
 *
 * Returns TP_TOOK with the message, or TP_NOTHING: nothing has happened then. */
tp_answer tp_port_receive(tp_port *port, bool named, uint32_t from, bool fits);

/* Takes the top message out, whether it is wanted or not. It is received by the test of
 * `tp_port_receive`, and otherwise discarded.
 *
 * Returns TP_TOOK or TP_DROPPED with the message, or TP_NOTHING if no message is deliverable. The
 * message of a TP_DROPPED is the caller's to free. */
tp_answer tp_port_trigger(tp_port *port, bool named, uint32_t from, bool fits);

/* Finds the top message by the test of `tp_port_receive`, and leaves it in the queue.
 *
 * With `fits` true this shows the top message, or the top message of one sender. What the message
 * stands for is lent: it is queued until the next call that takes it out or empties the queue.
 *
 * Returns TP_FOUND with the message, or TP_NOTHING. */
tp_answer tp_port_check(tp_port *port, bool named, uint32_t from, bool fits);

/* Empties the queue, starts the port, and removes the mark of a halt. Also a started port is emptied.
 * Returns how many messages were discarded. */
uint64_t tp_port_start(tp_port *port);

/* Empties the queue, and leaves the status: what arrives later at a halted port stays undeliverable.
 * Returns how many messages were discarded. */
uint64_t tp_port_clear(tp_port *port);

/* Stops the port, and leaves the queue. Returns how many messages are queued. */
uint64_t tp_port_stop(tp_port *port);

/* Halts a started port: what is queued is still deliverable, and what arrives from now on is not.
 * Returns true if the port was started. A halted or a stopped port is left as it is. */
bool tp_port_halt(tp_port *port);

/* Returns how many of the queued messages are deliverable. */
uint64_t tp_port_ahead(tp_port *port);

/* Returns how many messages are queued, deliverable or not. */
uint64_t tp_port_len(tp_port *port);

/* Returns TP_FOUND with the message at `place` of the queue, deliverable or not. Place 0 is the
 * oldest. Returns TP_NOTHING from the place `tp_port_len` on. */
tp_answer tp_port_at(tp_port *port, uint64_t place);

/* Returns TP_STARTED, TP_HALTED or TP_STOPPED. */
uint32_t tp_port_status(tp_port *port);

#ifdef __cplusplus
}
#endif

#endif
