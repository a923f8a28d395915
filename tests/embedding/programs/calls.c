/* Each function of tp_port.h at one port, step by step. */
#include "tp_port.h"
#include <stdio.h>
#include <string.h>

static int failed;

#define MUST(holds) must((holds), #holds, __LINE__)

static void must(bool holds, const char *what, int line) {
    if (holds) return;
    printf("calls.c:%d: it doesn't hold: %s\n", line, what);
    failed = 1;
}

static bool is(tp_answer answer, uint32_t outcome, uint32_t sender, uint64_t number, uint64_t message) {
    return answer.outcome == outcome && answer.sender == sender && answer.number == number && answer.message == message;
}

static bool is_nothing(tp_answer answer) { return is(answer, TP_NOTHING, 0, 0, 0); }

static void receiving(tp_port *port) {
    MUST(tp_port_arrive(port, 7, 0, 70) && tp_port_arrive(port, 8, 1, 80));
    MUST(is_nothing(tp_port_receive(port, true, 8, true))); /* it is of 7: only the top is looked at */
    MUST(is_nothing(tp_port_receive(port, true, 7, false))); /* it doesn't fit */
    MUST(is(tp_port_check(port, true, 7, true), TP_FOUND, 7, 0, 70) && tp_port_len(port) == 2);
    MUST(is(tp_port_receive(port, false, 8, true), TP_TOOK, 7, 0, 70)); /* `from` isn't looked at */
    MUST(is(tp_port_trigger(port, true, 7, true), TP_DROPPED, 8, 1, 80)); /* of another sender */
    MUST(is_nothing(tp_port_trigger(port, false, 0, true)) && tp_port_len(port) == 0);
}

static void halting(tp_port *port) {
    MUST(tp_port_arrive(port, 7, 2, 71) && tp_port_halt(port) && !tp_port_halt(port));
    MUST(tp_port_arrive(port, 9, 3, 90) && tp_port_ahead(port) == 1 && tp_port_len(port) == 2);
    MUST(is(tp_port_trigger(port, false, 0, true), TP_TOOK, 7, 2, 71));
    MUST(is_nothing(tp_port_receive(port, false, 0, true)) && is_nothing(tp_port_check(port, false, 0, true)));
    MUST(is(tp_port_at(port, 0), TP_FOUND, 9, 3, 90) && is_nothing(tp_port_at(port, 1)));
    MUST(tp_port_clear(port) == 1 && tp_port_status(port) == TP_HALTED);
    MUST(tp_port_arrive(port, 9, 4, 91) && tp_port_ahead(port) == 0); /* the mark is at the top */
    MUST(tp_port_start(port) == 1 && tp_port_status(port) == TP_STARTED && tp_port_len(port) == 0);
}

static void stopping(tp_port *port) {
    MUST(tp_port_arrive(port, 1, 5, 10) && tp_port_stop(port) == 1 && tp_port_ahead(port) == 0);
    MUST(!tp_port_halt(port) && tp_port_status(port) == TP_STOPPED);
    MUST(tp_port_arrive(port, 1, 6, 11) && tp_port_stop(port) == 2);
    MUST(tp_port_clear(port) == 2 && tp_port_status(port) == TP_STOPPED && tp_port_start(port) == 0);
}

int main(void) {
    tp_port port, moved;
    tp_port_init(&port);
    MUST(tp_port_status(&port) == TP_STARTED && tp_port_len(&port) == 0 && tp_port_ahead(&port) == 0);
    receiving(&port);
    halting(&port);
    stopping(&port);
    MUST(tp_port_arrive(&port, 1, 7, 12));
    memcpy(&moved, &port, sizeof port); /* the old bytes are no port then */
    memset(&port, 0xff, sizeof port);
    MUST(is(tp_port_receive(&moved, false, 0, true), TP_TOOK, 1, 7, 12));
    for (uint64_t number = 0; number < 100000; number++) MUST(tp_port_arrive(&moved, 2, number, ~number));
    for (uint64_t number = 0; number < 100000; number++) {
        MUST(is(tp_port_receive(&moved, true, 2, true), TP_TOOK, 2, number, ~number));
    }
    MUST(tp_port_arrive(&moved, 3, 0, 0));
    tp_port_drop(&moved); /* with a message in it */
    return failed;
}
