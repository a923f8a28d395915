// tp::Port: every operation, and that each message is destroyed once.
#include "tp_port.hpp"

#include <algorithm>
#include <cstdio>
#if __cplusplus >= 202002L
#include <ranges>
#endif
#include <stdexcept>
#include <string>
#include <vector>

static int failed;
static int alive;

#define MUST(holds) must((holds), #holds, __LINE__)

static void must(bool holds, const char *what, int line) {
    if (holds) return;
    std::printf("owning.cpp:%d: it doesn't hold: %s\n", line, what);
    failed = 1;
}

struct Order {
    std::string dish;
    explicit Order(std::string name) : dish(std::move(name)) { ++alive; }
    Order(const Order &) = delete;
    ~Order() { --alive; }
};

static bool is_soup(const Order &order) { return order.dish.rfind("soup", 0) == 0; }

static void receiving() {
    tp::Port<Order> port;
    port.emplace(1, 0, "soup of the day");
    port.arrive(2, 1, std::make_unique<Order>("bread"));
    MUST(!port.receive(is_soup, 2));
    auto found = port.check(is_soup);
    MUST(found && found->sender == 1 && found->number == 0 && found->message.dish == "soup of the day");
    auto taken = port.receive(is_soup, 1);
    MUST(taken && taken->message->dish == "soup of the day" && taken->sender == 1 && alive == 2);
    MUST(!port.receive(is_soup) && !port.check(is_soup) && port.check()->number == 1);
    auto triggered = port.trigger(is_soup);
    MUST(triggered.envelope && !triggered.received && triggered.envelope->message->dish == "bread");
    MUST(!port.trigger().envelope && !port.receive() && port.empty());
    port.emplace(3, 2, "soup, please");
    MUST(port.trigger(is_soup, 3).received && port.empty());
    port.emplace(3, 3, "soup, again");
    triggered = port.trigger(is_soup, 4);
    MUST(triggered.envelope && !triggered.received);
}

static void emptying() {
    tp::Port<Order> port;
    port.emplace(1, 0, "first");
    MUST(port.halt() && !port.halt() && port.status() == tp::Status::halted);
    port.emplace(1, 1, "second");
    MUST(port.ahead() == 1 && port.size() == 2 && alive == 2);
    std::vector<std::string> dishes;
    for (const auto &queued : port) dishes.push_back(queued.message.dish);
    MUST((dishes == std::vector<std::string>{"first", "second"}));
    MUST(port.clear() == 2 && alive == 0 && port.status() == tp::Status::halted);
    port.emplace(1, 2, "third");
    MUST(!port.check() && port.start() == 1 && alive == 0 && port.status() == tp::Status::started);
    port.emplace(1, 3, "fourth");
    port.stop();
    MUST(port.status() == tp::Status::stopped && !port.receive() && port.size() == 1 && port.begin() != port.end());
}

static void looking() {
    tp::Port<Order> port;
    port.emplace(1, 0, "soup");
    port.emplace(2, 1, "bread");
    port.emplace(2, 2, "cake");
    const auto is_of_2 = [](const auto &queued) { return queued.sender == 2; };
    MUST(std::count_if(port.begin(), port.end(), is_of_2) == 2);
    MUST((*std::find_if(port.begin(), port.end(), is_of_2)).message.dish == "bread");
#if __cplusplus >= 202002L
    static_assert(std::ranges::input_range<const tp::Port<Order>>);
    MUST(std::ranges::count_if(port, is_of_2) == 2);
#endif
}

static void moving() {
    tp::Port<Order> first;
    first.emplace(1, 0, "soup");
    tp::Port<Order> second(std::move(first));
    MUST(first.empty() && second.size() == 1); // NOLINT: a port that was moved from is empty
    first.emplace(1, 1, "bread");
    first = std::move(second);
    MUST(alive == 1 && first.check()->message.dish == "soup" && second.empty());
    std::vector<tp::Port<Order>> ports(3);
    ports[1].emplace(1, 2, "cake");
    ports.resize(100);
    MUST(ports[1].receive()->message->dish == "cake");
}

static void throwing() {
    tp::Port<Order> port;
    port.emplace(1, 0, "soup");
    auto matcher = [](const Order &) -> bool { throw std::runtime_error("no"); };
    int caught = 0;
    try { port.receive(matcher); } catch (const std::runtime_error &) { ++caught; }
    try { port.trigger(matcher); } catch (const std::runtime_error &) { ++caught; }
    try { port.check(matcher); } catch (const std::runtime_error &) { ++caught; }
    MUST(caught == 3 && port.size() == 1);
    MUST(!port.receive(matcher, 2)); // of another sender: the matcher isn't called
}

int main() {
    receiving();
    MUST(alive == 0);
    emptying();
    MUST(alive == 0);
    looking();
    MUST(alive == 0);
    moving();
    MUST(alive == 0);
    throwing();
    MUST(alive == 0);
    return failed;
}
