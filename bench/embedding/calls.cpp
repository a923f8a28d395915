// The calls of a port: ours beside a std::deque with the same rules (tests/embedding/programs/deque_port.hpp), whose
// calls aren't inlined either. The two take turns, and the best time of each counts.
#include "deque_port.hpp"
#include "tp_port.h"

#include <chrono>
#include <cstdio>
#include <cstdlib>

namespace {

constexpr std::uint64_t MESSAGES = 2'000'000;

struct Ours {
    tp_port port;
    Ours() { tp_port_init(&port); }
    ~Ours() { tp_port_drop(&port); }
    bool arrive(std::uint32_t sender, std::uint64_t number, std::uint64_t message) {
        return tp_port_arrive(&port, sender, number, message);
    }
    tp_answer receive(bool named, std::uint32_t from, bool fits) { return tp_port_receive(&port, named, from, fits); }
    tp_answer check(bool named, std::uint32_t from, bool fits) { return tp_port_check(&port, named, from, fits); }
};

struct Plain {
    DequePort port;
    __attribute__((noinline)) bool arrive(std::uint32_t sender, std::uint64_t number, std::uint64_t message) {
        return port.arrive(sender, number, message);
    }
    __attribute__((noinline)) tp_answer receive(bool named, std::uint32_t from, bool fits) {
        return port.receive(named, from, fits);
    }
    __attribute__((noinline)) tp_answer check(bool named, std::uint32_t from, bool fits) {
        return port.check(named, from, fits);
    }
};

// The sum of what came out of a port with so many messages always queued, so that no call is left out.
template <class Port>
std::uint64_t turns(std::uint64_t depth) {
    Port port;
    std::uint64_t sum = 0;
    for (std::uint64_t number = 0; number < depth; ++number) port.arrive(1, number, number);
    for (std::uint64_t number = 0; number < MESSAGES; ++number) {
        port.arrive(1, number, number);
        sum += port.check(true, 2, true).outcome;
        sum += port.receive(true, 1, true).message;
    }
    return sum;
}

template <class Port>
double seconds(std::uint64_t depth, std::uint64_t &sum) {
    const auto begun = std::chrono::steady_clock::now();
    sum = turns<Port>(depth);
    return std::chrono::duration<double>(std::chrono::steady_clock::now() - begun).count();
}

} // namespace

int main(int, char **words) {
    const int runs = std::atoi(words[1]);
    for (const std::uint64_t depth : {1, 100, 10'000}) {
        double ours = 1e9, plain = 1e9;
        for (int run = 0; run < runs; ++run) {
            std::uint64_t sum = 0, other = 0;
            const double first = seconds<Ours>(depth, sum), second = seconds<Plain>(depth, other);
            if (sum != other) return std::puts("bench: the two differ"), 1;
            if (first < ours) ours = first;
            if (second < plain) plain = second;
        }
        const double calls = 3.0 * MESSAGES / 1e6;
        std::printf("depth %5llu   ours %5.1f   plain %5.1f million calls a second   ratio of times %.2f\n",
                    static_cast<unsigned long long>(depth), calls / ours, calls / plain, ours / plain);
    }
}
