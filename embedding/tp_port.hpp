// The queue of one TTCN-3 message port that owns its messages, for C++17 and later. Header only, over
// tp_port.h, which says what a port does.
//
//     tp::Port<std::string> port;
//     port.arrive(1, 0, std::make_unique<std::string>("soup of the day"));
//     auto soup = [](const std::string &text) { return text.rfind("soup", 0) == 0; };
//     if (auto taken = port.receive(soup, 1)) serve(*taken->message);
//
// A matcher is called with the top message at most once, before anything happens, and not at all
// where the sender is another one. If it throws, nothing has happened. Neither a matcher nor the
// destructor of a message may use the port.
//
// One port, one call at a time: the const functions too. Nothing in this file is proved. The functions
// of tp_port.h that it calls are.
#ifndef TP_PORT_HPP
#define TP_PORT_HPP

#include "tp_port.h"

#include <cstddef>
#include <cstdint>
#include <iterator>
#include <memory>
#include <new>
#include <optional>
#include <utility>

namespace tp {

enum class Status { started = TP_STARTED, halted = TP_HALTED, stopped = TP_STOPPED };

// The matcher of a `receive` without a template.
struct Any {
    template <class Message>
    bool operator()(const Message &) const noexcept {
        return true;
    }
};

// A message that left its port, with who sent it and the number that it had.
template <class Message>
struct Envelope {
    std::uint32_t sender;
    std::uint64_t number;
    std::unique_ptr<Message> message; // never null
};

// A message that is queued, lent until the next call that changes the port.
template <class Message>
struct Queued {
    std::uint32_t sender;
    std::uint64_t number;
    const Message &message;
};

// What a `trigger` did. Without an envelope no message was deliverable.
template <class Message>
struct Triggered {
    std::optional<Envelope<Message>> envelope;
    bool received; // else the envelope was discarded
};

template <class Message>
class Port {
public:
    using Sender = std::optional<std::uint32_t>; // nobody: a message of any sender

    // Started, with nothing queued.
    Port() noexcept { tp_port_init(&port_); }

    ~Port() {
        free_messages();
        tp_port_drop(&port_);
    }

    Port(const Port &) = delete;
    Port &operator=(const Port &) = delete;

    // A port that was moved from is started, with nothing queued.
    Port(Port &&other) noexcept : port_(other.port_) { tp_port_init(&other.port_); }

    Port &operator=(Port &&other) noexcept {
        if (this == &other) return *this;
        free_messages();
        tp_port_drop(&port_);
        port_ = other.port_;
        tp_port_init(&other.port_);
        return *this;
    }

    // Puts a message at the end of the queue, whatever the status. The message must not be null.
    // std::bad_alloc if memory is refused: the queue is as it was, and the message still the caller's.
    void arrive(std::uint32_t sender, std::uint64_t number, std::unique_ptr<Message> &&message) {
        const auto address = reinterpret_cast<std::uintptr_t>(message.get());
        if (!tp_port_arrive(&port_, sender, number, address)) throw std::bad_alloc();
        message.release(); // the queue has it
    }

    // The same of a message that is made of these arguments.
    template <class... Arguments>
    void emplace(std::uint32_t sender, std::uint64_t number, Arguments &&...arguments) {
        arrive(sender, number, std::make_unique<Message>(std::forward<Arguments>(arguments)...));
    }

    // Takes the top message out if it is from the sender, if one is named, and `matches(message)` is true.
    template <class Matcher = Any>
    std::optional<Envelope<Message>> receive(Matcher &&matches = {}, Sender from = {}) {
        if (!check(std::forward<Matcher>(matches), from)) return std::nullopt;
        return owned(tp_port_receive(&port_, false, 0, true));
    }

    // Takes the top message out. It is received by the test of `receive`, and otherwise discarded.
    template <class Matcher = Any>
    Triggered<Message> trigger(Matcher &&matches = {}, Sender from = {}) {
        const bool fits = check(std::forward<Matcher>(matches), from).has_value();
        const tp_answer answer = tp_port_trigger(&port_, false, 0, fits);
        if (answer.outcome == TP_NOTHING) return {std::nullopt, false};
        return {owned(answer), answer.outcome == TP_TOOK};
    }

    // Finds the top message by the test of `receive`, and leaves it in the queue.
    template <class Matcher = Any>
    std::optional<Queued<Message>> check(Matcher &&matches = {}, Sender from = {}) const {
        const tp_answer top = tp_port_check(&port_, from.has_value(), from.value_or(0), true);
        if (top.outcome == TP_NOTHING || !matches(seen(top))) return std::nullopt;
        return Queued<Message>{top.sender, top.number, seen(top)};
    }

    // Empties the queue and starts the port. Returns how many messages were destroyed.
    std::uint64_t start() {
        free_messages();
        return tp_port_start(&port_);
    }

    // Empties the queue, and leaves the status. Returns how many messages were destroyed.
    std::uint64_t clear() {
        free_messages();
        return tp_port_clear(&port_);
    }

    // Stops the port, and leaves the queue.
    void stop() noexcept { tp_port_stop(&port_); }

    // Halts a started port. Returns false if the port was halted or stopped: it is left as it is.
    bool halt() noexcept { return tp_port_halt(&port_); }

    Status status() const noexcept { return static_cast<Status>(tp_port_status(&port_)); }

    // How many of the queued messages are deliverable.
    std::uint64_t ahead() const noexcept { return tp_port_ahead(&port_); }

    // How many messages are queued, deliverable or not.
    std::uint64_t size() const noexcept { return tp_port_len(&port_); }

    bool empty() const noexcept { return size() == 0; }

    // What is queued, the oldest first: `for (const auto &queued : port) use(queued.message);`
    // In C++20 a port is a `std::ranges::input_range`.
    class Iterator {
    public:
        using iterator_category = std::input_iterator_tag;
        using value_type = Queued<Message>;
        using difference_type = std::ptrdiff_t;
        using pointer = void;
        using reference = Queued<Message>;

        Iterator() noexcept : Iterator(nullptr, 0) {} // of no port: only to be assigned to
        Iterator(const Port *port, std::uint64_t place) noexcept : port_(port), place_(place) {}

        Queued<Message> operator*() const {
            const tp_answer found = tp_port_at(&port_->port_, place_);
            return {found.sender, found.number, seen(found)};
        }
        Iterator &operator++() noexcept {
            ++place_;
            return *this;
        }
        Iterator operator++(int) noexcept {
            Iterator before = *this;
            ++place_;
            return before;
        }
        bool operator==(const Iterator &other) const noexcept { return place_ == other.place_; }
        bool operator!=(const Iterator &other) const noexcept { return place_ != other.place_; }

    private:
        const Port *port_;
        std::uint64_t place_;
    };

    Iterator begin() const noexcept { return {this, 0}; }
    Iterator end() const noexcept { return {this, size()}; }

private:
    static Message *address(const tp_answer &answer) noexcept {
        return reinterpret_cast<Message *>(static_cast<std::uintptr_t>(answer.message));
    }

    static const Message &seen(const tp_answer &answer) noexcept { return *address(answer); }

    static Envelope<Message> owned(const tp_answer &answer) noexcept {
        return {answer.sender, answer.number, std::unique_ptr<Message>(address(answer))};
    }

    // The queue forgets its messages afterwards: each caller empties or drops it.
    void free_messages() noexcept {
        for (std::uint64_t place = 0, count = size(); place < count; ++place) {
            std::unique_ptr<Message>(address(tp_port_at(&port_, place)));
        }
    }

    static_assert(sizeof(std::uintptr_t) <= sizeof(std::uint64_t), "an address must fit into 64 bits");

    // The library takes every port by an address that it may write to, also where it only looks.
    mutable tp_port port_;
};

} // namespace tp

#endif
