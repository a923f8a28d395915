// Calls by chance at a port and at a std::deque with the rules of ports beside it. Argument: the seed.
#include "deque_port.hpp"
#include "tp_port.h"

#include <cstdio>
#include <cstdlib>
#include <random>

static bool is(const tp_answer &ours, const tp_answer &theirs) {
    return ours.outcome == theirs.outcome && ours.sender == theirs.sender && ours.number == theirs.number &&
           ours.message == theirs.message;
}

// One call at both: whether they say the same.
static bool call(tp_port *port, DequePort &other, std::mt19937_64 &chance) {
    const bool named = chance() % 2, fits = chance() % 4 != 0;
    const auto sender = static_cast<std::uint32_t>(chance() % 3);
    const std::uint64_t number = chance(), message = chance();
    switch (chance() % 16) {
    case 0: return tp_port_start(port) == other.start();
    case 1: return tp_port_clear(port) == other.clear();
    case 2: return tp_port_stop(port) == other.stop();
    case 3: return tp_port_halt(port) == other.halt();
    case 4: return is(tp_port_trigger(port, named, sender, fits), other.trigger(named, sender, fits));
    case 5: return is(tp_port_check(port, named, sender, fits), other.check(named, sender, fits));
    case 6: case 7: case 8: case 9:
        return is(tp_port_receive(port, named, sender, fits), other.receive(named, sender, fits));
    default: return tp_port_arrive(port, sender, number, message) && other.arrive(sender, number, message);
    }
}

// Whether all that can be seen of both is the same.
static bool are_alike(tp_port *port, const DequePort &other) {
    if (tp_port_len(port) != other.len() || tp_port_ahead(port) != other.ahead()) return false;
    if (tp_port_status(port) != other.status()) return false;
    for (std::uint64_t place = 0; place <= other.len(); ++place) {
        if (!is(tp_port_at(port, place), other.at(place))) return false;
    }
    return true;
}

int main(int, char **words) {
    std::mt19937_64 chance(std::strtoull(words[1], nullptr, 10));
    for (int turn = 0; turn < 200; ++turn) {
        tp_port port;
        DequePort other;
        tp_port_init(&port);
        for (int number = 0; number < 300; ++number) {
            if (call(&port, other, chance) && are_alike(&port, other)) continue;
            std::printf("seed %s, turn %d: they differ at call %d\n", words[1], turn, number);
            return 1;
        }
        tp_port_drop(&port);
    }
    return 0;
}
