// recycler.hpp: recycler.h for C++11 and later. A code other than RECYCLER_OK is thrown as an `error`; what a command is answered
// is told, refusals too. What each call does, and what it asks of its caller, says recycler.h.
#ifndef RECYCLER_HPP
#define RECYCLER_HPP

#include <cstdint>
#include <stdexcept>
#include <string>

#include "recycler.h"

namespace recycling {

// A call did nothing, for the reason that `code` tells.
class error : public std::runtime_error {
  public:
    error(const char *call, recycler_code code)
        : std::runtime_error(std::string(call) + ": " + recycler_code_text(code)), code(code) {}
    const recycler_code code;
};

inline void must(std::uint32_t code, const char *call) {
    if (code != RECYCLER_OK) {
        throw error(call, static_cast<recycler_code>(code));
    }
}

// A mutator of a running heap. It is a name of the heap's handle: copies name the same mutator, and one thread at a time calls.
class mutator {
  public:
    explicit mutator(recycler_handle &handle) : handle(&handle) {}
    // The epoch that was crossed into, or 0.
    std::uint32_t poll() {
        std::uint32_t crossed = 0;
        must(recycler_poll(handle, &crossed), "recycler_poll");
        return crossed;
    }
    recycler_answer leave() { return ask(recycler_leave(handle, &told), "recycler_leave"); }
    recycler_answer make(std::uint32_t reg, std::uint32_t label) {
        return ask(recycler_new(handle, reg, label, &told), "recycler_new");
    }
    recycler_answer make_leaf(std::uint32_t reg, std::uint32_t label) {
        return ask(recycler_leaf(handle, reg, label, &told), "recycler_leaf");
    }
    void null(std::uint32_t reg) { ask(recycler_null(handle, reg, &told), "recycler_null"); }
    void copy(std::uint32_t dst, std::uint32_t src) {
        ask(recycler_copy(handle, dst, src, &told), "recycler_copy");
    }
    recycler_answer get(std::uint32_t dst, std::uint32_t src, std::uint32_t field) {
        return ask(recycler_get(handle, dst, src, field, &told), "recycler_get");
    }
    recycler_answer put(std::uint32_t src, std::uint32_t field, std::uint32_t val) {
        return ask(recycler_put(handle, src, field, val, &told), "recycler_put");
    }
    // RECYCLER_A_VALUE, with the label in `label`, or RECYCLER_A_NO_OBJECT.
    recycler_answer value(std::uint32_t reg, std::uint32_t &label) {
        const recycler_answer answer = ask(recycler_value(handle, reg, &told), "recycler_value");
        label = told.label;
        return answer;
    }
    bool same(std::uint32_t a, std::uint32_t b) {
        return ask(recycler_same(handle, a, b, &told), "recycler_same") == RECYCLER_A_YES;
    }

  private:
    recycler_answer ask(std::uint32_t code, const char *call) {
        must(code, call);
        return static_cast<recycler_answer>(told.answer);
    }
    recycler_handle *handle;
    recycler_asked told{};
};

// The collector of a running heap, named as a mutator is.
class collector {
  public:
    explicit collector(recycler_handle &handle) : handle(&handle) {}
    recycler_turned turn() {
        recycler_turned told{};
        must(recycler_turn(handle, &told), "recycler_turn");
        return told;
    }
    recycler_turned collect(std::uint32_t turns) {
        recycler_turned told{};
        must(recycler_collect(handle, turns, &told), "recycler_collect");
        return told;
    }

  private:
    recycler_handle *handle;
};

// A heap. It opens at rest, and its end stops and closes it; by then no other thread calls.
class heap {
  public:
    explicit heap(const recycler_config &config) { must(recycler_open(&r, &config), "recycler_open"); }
    ~heap() {
        const std::uint32_t stopped = recycler_stop(&r), closed = recycler_close(&r);
        static_cast<void>(stopped);
        static_cast<void>(closed);
    }
    heap(const heap &) = delete;
    heap &operator=(const heap &) = delete;

    void start() { must(recycler_start(&r), "recycler_start"); }
    void stop() { must(recycler_stop(&r), "recycler_stop"); }
    recycler_settled settle() {
        recycler_settled told{};
        must(recycler_settle(&r, &told), "recycler_settle");
        return told;
    }
    void renew(std::uint32_t slots) { must(recycler_renew(&r, slots), "recycler_renew"); }
    void notices(std::uint32_t room) { must(recycler_notices(&r, room), "recycler_notices"); }
    // Whether a label was heard, which is in `label` then.
    bool hear(std::uint32_t &label) {
        recycler_heard told{};
        must(recycler_hear(&r.listener, &told), "recycler_hear");
        label = told.label;
        return told.any != 0;
    }
    recycler_slot_told slot(std::uint32_t number) {
        recycler_slot_told told{};
        must(recycler_slot(&r, number, &told), "recycler_slot");
        return told;
    }
    std::uint32_t taken() {
        std::uint32_t told = 0;
        must(recycler_taken(&r, &told), "recycler_taken");
        return told;
    }
    recycler_totals_told totals() {
        recycler_totals_told told{};
        must(recycler_totals(&r, &told), "recycler_totals");
        return told;
    }
    // The mutator with this number, from 1.
    mutator mutator_at(std::uint32_t number) {
        if (number < 1 || number > RECYCLER_MOST_MUTATORS) {
            throw error("mutator_at", RECYCLER_E_RANGE);
        }
        return mutator(r.mutators[number - 1]);
    }
    collector the_collector() { return collector(r.collector); }

  private:
    recycler r = RECYCLER_CLOSED;
};

} // namespace recycling

#endif
