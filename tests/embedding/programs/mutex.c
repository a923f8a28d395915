/* Several threads at one port: a mutex round each call, and what a message stands for is written before it arrives. With
 * the word `late` it is written after: a build with -fsanitize=thread must tell that race. */
#include "tp_port.h"
#include <pthread.h>
#include <stdio.h>

enum { SENDERS = 3, EACH = 2000 };

typedef struct {
    pthread_mutex_t mutex;
    tp_port port;
} shared_port;

static shared_port shared = {.mutex = PTHREAD_MUTEX_INITIALIZER};
static uint64_t orders[SENDERS][EACH]; /* what the messages stand for: each is the address of one */
static bool is_late;

static bool arrive(uint32_t sender, uint64_t number) {
    pthread_mutex_lock(&shared.mutex);
    const bool arrived = tp_port_arrive(&shared.port, sender, number, (uintptr_t)&orders[sender][number]);
    pthread_mutex_unlock(&shared.mutex);
    return arrived;
}

static tp_answer receive(void) {
    pthread_mutex_lock(&shared.mutex);
    const tp_answer answer = tp_port_receive(&shared.port, false, 0, true);
    pthread_mutex_unlock(&shared.mutex);
    return answer;
}

static void *send_all(void *given) {
    const uint32_t sender = *(const uint32_t *)given;
    for (uint64_t number = 0; number < EACH; number++) {
        if (!is_late) orders[sender][number] = number;
        if (!arrive(sender, number)) return given;
        if (is_late) orders[sender][number] = number;
    }
    return NULL;
}

static int receive_all(void) {
    uint64_t next[SENDERS] = {0};
    int failed = 0;
    for (unsigned taken = 0; taken < SENDERS * EACH;) {
        const tp_answer answer = receive();
        if (answer.outcome == TP_NOTHING) continue;
        failed |= *(const uint64_t *)(uintptr_t)answer.message != next[answer.sender]++;
        taken++;
    }
    return failed;
}

int main(int count, char **words) {
    pthread_t threads[SENDERS];
    uint32_t senders[SENDERS];
    (void)words;
    is_late = count > 1;
    tp_port_init(&shared.port);
    for (uint32_t sender = 0; sender < SENDERS; sender++) {
        senders[sender] = sender;
        if (pthread_create(&threads[sender], NULL, send_all, &senders[sender]) != 0) return 2;
    }
    const int failed = receive_all();
    for (unsigned sender = 0; sender < SENDERS; sender++) pthread_join(threads[sender], NULL);
    tp_port_drop(&shared.port);
    if (failed) puts("a message came out of turn");
    return failed;
}
