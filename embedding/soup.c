#include <stdio.h>
#include <string.h>
#include <tp_port.h>

int main(void) {
    const char *orders[] = {"soup of the day", "bread"};
    tp_port counter;
    tp_port_init(&counter);
    for (uint64_t number = 0; number < 2; number++)
        if (!tp_port_arrive(&counter, 7, number, (uintptr_t)orders[number])) return 1;
    tp_answer top = tp_port_check(&counter, true, 7, true);
    bool fits = top.outcome == TP_FOUND && strncmp((const char *)(uintptr_t)top.message, "soup", 4) == 0;
    tp_answer taken = tp_port_receive(&counter, true, 7, fits);
    if (taken.outcome == TP_TOOK) puts((const char *)(uintptr_t)taken.message);
    tp_port_drop(&counter);
    return 0;
}
