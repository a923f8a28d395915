// The rules of a message port over std::deque, as a C++ programmer would write them by hand.
#ifndef DEQUE_PORT_HPP
#define DEQUE_PORT_HPP

#include "tp_port.h"

#include <cstdint>
#include <deque>

class DequePort {
public:
    bool arrive(std::uint32_t sender, std::uint64_t number, std::uint64_t message) {
        queued_.push_back({TP_FOUND, sender, number, message});
        return true;
    }
    tp_answer check(bool named, std::uint32_t from, bool fits) const {
        return offers(named, from, fits) ? queued_.front() : tp_answer{TP_NOTHING, 0, 0, 0};
    }
    tp_answer receive(bool named, std::uint32_t from, bool fits) {
        return offers(named, from, fits) ? take(TP_TOOK) : tp_answer{TP_NOTHING, 0, 0, 0};
    }
    tp_answer trigger(bool named, std::uint32_t from, bool fits) {
        if (ahead() == 0) return {TP_NOTHING, 0, 0, 0};
        return take(offers(named, from, fits) ? TP_TOOK : TP_DROPPED);
    }
    std::uint64_t start() {
        status_ = TP_STARTED;
        return clear();
    }
    std::uint64_t clear() {
        const std::uint64_t count = queued_.size();
        queued_.clear();
        ahead_ = 0;
        return count;
    }
    std::uint64_t stop() {
        status_ = TP_STOPPED;
        return queued_.size();
    }
    bool halt() {
        if (status_ != TP_STARTED) return false;
        status_ = TP_HALTED;
        ahead_ = queued_.size();
        return true;
    }
    std::uint64_t ahead() const {
        return status_ == TP_STARTED ? queued_.size() : status_ == TP_HALTED ? ahead_ : 0;
    }
    std::uint64_t len() const { return queued_.size(); }
    std::uint32_t status() const { return status_; }
    tp_answer at(std::uint64_t place) const {
        return place < queued_.size() ? queued_[place] : tp_answer{TP_NOTHING, 0, 0, 0};
    }

private:
    bool offers(bool named, std::uint32_t from, bool fits) const {
        return ahead() > 0 && fits && (!named || queued_.front().sender == from);
    }
    tp_answer take(std::uint32_t outcome) {
        tp_answer top = queued_.front();
        top.outcome = outcome;
        queued_.pop_front();
        if (ahead_ > 0) --ahead_;
        return top;
    }

    std::deque<tp_answer> queued_;
    std::uint64_t ahead_ = 0; // of a halted port
    std::uint32_t status_ = TP_STARTED;
};

#endif
