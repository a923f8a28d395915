/* The example at the head of tp_port.h, which embedded.py writes into example_of_c.inc. */
#include "tp_port.h"

static uint64_t served;

static bool wants(uint64_t message) { return message == 5; }
static void serve(uint64_t message) { served = message; }
static void refuse(uint64_t message) { served = ~message; }

int main(void) {
    const uint32_t sender = 7;
    const uint64_t message = 5;
#include "example_of_c.inc"
    return served != message;
}
