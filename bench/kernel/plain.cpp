// The kernel's cycle with plain collections: the waiters of an event in a std::multimap by value,
// the ready slots and the free slots in a std::deque.
#include <chrono>
#include <cstddef>
#include <cstdio>
#include <deque>
#include <map>
#include <vector>

using Value = unsigned __int128;
using Clock = std::chrono::steady_clock;

constexpr std::size_t EVENTS = 64, SLOTS = 256;
constexpr int ROUNDS = 20000, ADVANCES = 20000;

struct Kernel {
    std::vector<Value> counts = std::vector<Value>(EVENTS);
    std::vector<std::multimap<Value, std::size_t>> waiters{EVENTS};
    std::deque<std::size_t> ready, free;

    Kernel() {
        for (std::size_t slot = 0; slot < SLOTS; slot++) free.push_back(slot);
    }

    void park(std::size_t event, Value value, std::size_t slot) { waiters[event].emplace(value, slot); }

    std::size_t advance(std::size_t event) {
        Value count = ++counts[event];
        std::size_t woken = 0;
        auto &waiting = waiters[event];
        for (auto first = waiting.begin(); first != waiting.end() && first->first <= count; woken++) {
            ready.push_back(first->second);
            first = waiting.erase(first);
        }
        return woken;
    }
};

static bool taken(std::deque<std::size_t> &list, std::size_t &slot) {
    if (list.empty()) return false;
    slot = list.front();
    list.pop_front();
    return true;
}

static void park_all(Kernel &kernel, std::size_t slots) {
    std::size_t slot;
    for (std::size_t number = 0; number < slots; number++)
        if (taken(kernel.free, slot)) kernel.park(number % EVENTS, kernel.counts[number % EVENTS] + 1, slot);
}

static void park_at_first(Kernel &kernel, std::size_t slots, Value more) {
    std::size_t slot;
    for (std::size_t number = 0; number < slots; number++)
        if (taken(kernel.free, slot)) kernel.park(0, more ? more : kernel.counts[0] + 1, slot);
}

static void free_all(Kernel &kernel, std::size_t slots) {
    std::size_t slot;
    for (std::size_t number = 0; number < slots; number++)
        if (taken(kernel.ready, slot)) kernel.free.push_back(slot);
}

static long long nanoseconds(Clock::time_point start) {
    return std::chrono::duration_cast<std::chrono::nanoseconds>(Clock::now() - start).count();
}

int main() {
    Kernel kernel;
    std::size_t woken = 0;
    auto start = Clock::now();
    for (int round = 0; round < ROUNDS; round++) {
        park_all(kernel, SLOTS);
        for (std::size_t event = 0; event < EVENTS; event++) woken += kernel.advance(event);
        free_all(kernel, SLOTS);
    }
    std::printf("cycle %lld %zu\n", nanoseconds(start), woken);
    for (std::size_t wakes : {0, 1, 4, 16, 64, 255}) {
        Kernel kernel;
        park_at_first(kernel, wakes, 0);
        park_at_first(kernel, SLOTS, ~Value(0));
        long long total = 0;
        for (int round = 0; round < ADVANCES; round++) {
            auto start = Clock::now();
            woken += kernel.advance(0);
            total += nanoseconds(start);
            free_all(kernel, wakes);
            park_at_first(kernel, wakes, 0);
        }
        std::printf("advance %zu %lld\n", wakes, total);
    }
    return woken == 0;
}
