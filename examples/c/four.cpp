// Four mutators on a thread each make and drop rings; a fifth thread turns the collector beside them. Then the heap is stopped and
// settles. It prints how many objects were made and freed, and how many slots hold objects afterwards.
#include <atomic>
#include <chrono>
#include <iostream>
#include <thread>
#include <vector>

#include "recycler.hpp"

namespace {

constexpr std::uint32_t slots = 1024, mutators = 4, rounds = 1000, length = 8;
constexpr std::uint32_t first = 1, last = 2, next = 3; // registers

std::atomic<std::uint32_t> working{mutators};

// Asks again until the command is made: the collector frees slots, and a poll that crosses empties the log.
template <class Command> void done(recycling::mutator &mutator, Command command) {
    while (command() != RECYCLER_A_DONE) {
        mutator.poll();
        std::this_thread::yield();
    }
}

void build(recycling::mutator &mutator) {
    done(mutator, [&] { return mutator.make(first, 0); });
    mutator.copy(last, first);
    for (std::uint32_t label = 1; label < length; label++) {
        done(mutator, [&] { return mutator.make(next, label); });
        done(mutator, [&] { return mutator.put(last, 0, next); });
        mutator.copy(last, next);
    }
    done(mutator, [&] { return mutator.put(last, 0, first); });
    for (std::uint32_t reg = first; reg <= next; reg++) {
        mutator.null(reg);
    }
}

// A mutator that is done polls until all are: else it would hold up the collector.
void mutate(recycling::mutator mutator) {
    for (std::uint32_t round = 0; round < rounds; round++) {
        build(mutator);
        mutator.poll();
    }
    for (working--; working > 0; std::this_thread::yield()) {
        mutator.poll();
    }
}

void collect(recycling::collector collector) {
    while (working > 0) {
        const recycler_turned told = collector.collect(100);
        if (told.what == RECYCLER_W_WAITING) {
            std::this_thread::yield();
        } else if (told.what == RECYCLER_W_COLLECTED && told.freed == 0) {
            std::this_thread::sleep_for(std::chrono::microseconds(100));
        }
    }
}

} // namespace

int main() {
    recycler_config config = RECYCLER_DEFAULTS;
    config.slots = slots;
    config.fields = 1;
    config.mutators = mutators;
    config.log_entries = RECYCLER_LOG_ENTRIES(slots, mutators);
    recycling::heap heap(config);
    heap.start();
    std::vector<std::thread> threads;
    for (std::uint32_t number = 1; number <= mutators; number++) {
        threads.emplace_back(mutate, heap.mutator_at(number));
    }
    threads.emplace_back(collect, heap.the_collector());
    for (std::thread &thread : threads) {
        thread.join();
    }
    heap.stop();
    const recycler_settled settled = heap.settle();
    const recycler_totals_told totals = heap.totals();
    std::cout << "made " << totals.born << ", freed " << totals.freed << ", live " << settled.live << "\n";
}
