#include <iostream>
#include <string>
#include <tp_port.hpp>

int main() {
    auto is_soup = [](const std::string &order) { return order.rfind("soup", 0) == 0; };
    tp::Port<std::string> counter;
    counter.emplace(7, 0, "soup of the day");
    counter.halt();
    counter.emplace(7, 1, "soup, please");
    while (auto taken = counter.receive(is_soup, 7)) std::cout << *taken->message << '\n';
    for (const auto &queued : counter) std::cout << "left: " << queued.message << '\n';
}
