// The example at the head of tp_port.hpp, which embedded.py writes into example_of_cpp.inc.
#include "tp_port.hpp"

#include <string>

static std::string served;

static void serve(const std::string &text) { served = text; }

int main() {
#include "example_of_cpp.inc"
    return served != "soup of the day";
}
