/* What tp_port.h says of sizes and numbers is so in the library that is linked. */
#include "tp_port.h"
#include <stddef.h>
#include <stdio.h>

_Static_assert(sizeof(tp_port) == 56, "a port has 56 bytes");
_Static_assert(sizeof(tp_answer) == 24, "an answer has 24 bytes");
_Static_assert(offsetof(tp_answer, outcome) == 0, "outcome");
_Static_assert(offsetof(tp_answer, sender) == 4, "sender");
_Static_assert(offsetof(tp_answer, number) == 8, "number");
_Static_assert(offsetof(tp_answer, message) == 16, "message");

static int failed;

static void must(bool holds, const char *what) {
    if (holds) return;
    printf("it doesn't hold: %s\n", what);
    failed = 1;
}

static void must_be(tp_answer answer, uint32_t outcome, uint32_t sender, uint64_t number, uint64_t message, const char *what) {
    must(answer.outcome == outcome && answer.sender == sender && answer.number == number && answer.message == message, what);
}

int main(void) {
    tp_port port;
    must(tp_port_size() == sizeof(tp_port), "tp_port_size() is sizeof(tp_port)");
    must(_Alignof(tp_port) % tp_port_align() == 0, "a tp_port is aligned as tp_port_align() says");
    tp_port_init(&port);
    must(tp_port_status(&port) == TP_STARTED, "a new port is TP_STARTED");
    must_be(tp_port_check(&port, false, 0, true), TP_NOTHING, 0, 0, 0, "TP_NOTHING, and 0");
    must(tp_port_arrive(&port, UINT32_MAX, UINT64_MAX, UINT64_MAX - 1), "the largest numbers arrive");
    must(tp_port_arrive(&port, 2, 3, 5), "the second arrives");
    must_be(tp_port_at(&port, 0), TP_FOUND, UINT32_MAX, UINT64_MAX, UINT64_MAX - 1, "at the first place");
    must_be(tp_port_check(&port, true, UINT32_MAX, true), TP_FOUND, UINT32_MAX, UINT64_MAX, UINT64_MAX - 1, "found");
    must_be(tp_port_receive(&port, true, UINT32_MAX, true), TP_TOOK, UINT32_MAX, UINT64_MAX, UINT64_MAX - 1, "taken");
    must_be(tp_port_trigger(&port, false, 0, false), TP_DROPPED, 2, 3, 5, "dropped");
    must(tp_port_halt(&port), "a started port is halted");
    must(tp_port_status(&port) == TP_HALTED, "it is TP_HALTED then");
    must(tp_port_stop(&port) == 0, "it has nothing queued");
    must(tp_port_status(&port) == TP_STOPPED, "it is TP_STOPPED then");
    tp_port_drop(&port);
    return failed;
}
