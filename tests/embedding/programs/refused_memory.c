/* Each call of malloc and realloc refused in turn: an arrival then returns false, and the queue is as it was. Linked
 * with --wrap=malloc --wrap=realloc. */
#include "tp_port.h"
#include <stdio.h>
#include <stdlib.h>

void *__real_malloc(size_t bytes);
void *__real_realloc(void *block, size_t bytes);
void *__wrap_malloc(size_t bytes);
void *__wrap_realloc(void *block, size_t bytes);

static bool refuses;
static unsigned refused;

void *__wrap_malloc(size_t bytes) {
    refused += refuses;
    return refuses ? NULL : __real_malloc(bytes);
}

void *__wrap_realloc(void *block, size_t bytes) {
    refused += refuses;
    return refuses ? NULL : __real_realloc(block, bytes);
}

static bool arrive_all(tp_port *port) {
    for (uint64_t number = 0; number < 100; number++) {
        if (!tp_port_arrive(port, 1, number, number)) return false;
    }
    return true;
}

/* Every other function is called while memory is refused. A port that is emptied keeps its memory. */
static const char *wrong_without_memory(void) {
    tp_port port;
    const unsigned before = refused;
    refuses = true;
    tp_port_init(&port);
    refuses = false;
    if (!arrive_all(&port)) return "an arrival is refused";
    refuses = true;
    if (tp_port_receive(&port, false, 0, true).outcome != TP_TOOK) return "receive";
    if (tp_port_trigger(&port, false, 0, false).outcome != TP_DROPPED) return "trigger";
    if (tp_port_check(&port, false, 0, true).outcome != TP_FOUND) return "check";
    if (tp_port_at(&port, 97).outcome != TP_FOUND || tp_port_at(&port, 98).outcome != TP_NOTHING) return "at";
    if (!tp_port_halt(&port) || tp_port_status(&port) != TP_HALTED) return "halt";
    if (tp_port_ahead(&port) != 98 || tp_port_len(&port) != 98) return "ahead and len";
    if (tp_port_stop(&port) != 98 || tp_port_clear(&port) != 98) return "stop and clear";
    if (!arrive_all(&port)) return "a port that is cleared keeps no memory";
    if (tp_port_start(&port) != 100) return "start";
    if (!arrive_all(&port)) return "a port that is started keeps no memory";
    tp_port_drop(&port);
    refuses = false;
    return refused == before ? NULL : "a function asks for memory";
}

int main(void) {
    const char *wrong = wrong_without_memory();
    if (wrong != NULL) return refuses = false, puts(wrong), 1;
    tp_port port;
    tp_port_init(&port);
    for (uint64_t number = 0; number < 1000; number++) {
        refuses = true;
        const unsigned before = refused;
        bool arrived = tp_port_arrive(&port, 1, number, number);
        refuses = false;
        if (arrived == (refused > before)) return puts("it isn't refused just where memory is"), 1;
        if (tp_port_len(&port) != number + arrived) return puts("the queue isn't as it was"), 1;
        if (!arrived && !tp_port_arrive(&port, 1, number, number)) return puts("it is refused again"), 1;
        if (tp_port_at(&port, number).message != number) return puts("another message is queued"), 1;
    }
    for (uint64_t number = 0; number < 1000; number++) {
        if (tp_port_receive(&port, false, 0, true).message != number) return puts("another message came out"), 1;
    }
    tp_port_drop(&port);
    return refused < 5 ? puts("too few calls were refused"), 1 : 0;
}
