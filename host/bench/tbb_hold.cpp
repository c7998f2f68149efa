// The hold model of hold_model.rs on oneTBB's concurrent_priority_queue.
//   tbb_hold PENDING HOLDS SPREAD SPAN RUNS THREADS
// prints the nanoseconds of each run's holds, and the fold of the times that the first
// thread took. The random numbers are those of host/schedule, run 0 from seed 0.
#include <atomic>
#include <chrono>
#include <cstdint>
#include <cstdio>
#include <cstdlib>
#include <thread>
#include <tuple>
#include <vector>

#include <tbb/concurrent_priority_queue.h>

struct Random {
    uint64_t state;
    uint64_t draw() {
        state += 0x9E3779B97F4A7C15u;
        uint64_t z = state;
        z = (z ^ (z >> 30)) * 0xBF58476D1CE4E5B9u;
        z = (z ^ (z >> 27)) * 0x94D049BB133111EBu;
        return z ^ (z >> 31);
    }
    uint32_t below(uint32_t bound) { return uint32_t(draw() % bound); }
};

struct Pending {
    uint32_t time, ticket, path, order, distance;
};

// By the pool's key.
struct Later {
    bool operator()(const Pending &a, const Pending &b) const {
        return std::tie(a.time, a.order, a.ticket) > std::tie(b.time, b.order, b.ticket);
    }
};

using Queue = tbb::concurrent_priority_queue<Pending, Later>;

struct Share {
    const uint32_t *increments;
    size_t count;
};

uint64_t hold(Queue &queue, Share share, uint32_t span, std::atomic<uint32_t> &ticket, uint64_t fold) {
    for (size_t i = 0; i < share.count; i++) {
        Pending taken;
        while (!queue.try_pop(taken)) {
        }
        fold = fold * 31 + taken.time;
        uint32_t later = taken.time + share.increments[i];
        taken.time = later < span ? later : span - 1;
        taken.ticket = ticket.fetch_add(1, std::memory_order_relaxed);
        queue.push(taken);
    }
    return fold;
}

int main(int count, char **words) {
    if (count != 7) {
        return 2;
    }
    auto number = [&](int at) { return std::strtoull(words[at], nullptr, 10); };
    size_t pending = number(1), holds = number(2);
    uint32_t spread = uint32_t(number(3)), span = uint32_t(number(4));
    uint64_t runs = number(5);
    size_t threads = number(6);

    std::vector<uint64_t> folds(threads);
    for (uint64_t run = 0; run < runs; run++) {
        Random random{run};
        Queue queue;
        std::atomic<uint32_t> ticket{0};
        for (size_t i = 0; i < pending; i++) {
            queue.push({random.below(spread), ticket++, 7, 1, 3});
        }
        std::vector<uint32_t> increments(holds);
        for (uint32_t &increment : increments) {
            increment = random.below(spread);
        }
        // The threads are there before the clock starts.
        std::atomic<size_t> waiting{0};
        std::atomic<bool> begun{false};
        std::vector<std::thread> others;
        auto share = [&](size_t thread) {
            size_t first = holds * thread / threads, end = holds * (thread + 1) / threads;
            return Share{increments.data() + first, end - first};
        };
        for (size_t thread = 1; thread < threads; thread++) {
            others.emplace_back([&, thread] {
                waiting++;
                while (!begun) {
                }
                folds[thread] = hold(queue, share(thread), span, ticket, folds[thread]);
            });
        }
        while (waiting + 1 < threads) {
        }
        auto start = std::chrono::steady_clock::now();
        begun = true;
        folds[0] = hold(queue, share(0), span, ticket, folds[0]);
        for (std::thread &other : others) {
            other.join();
        }
        std::chrono::nanoseconds elapsed = std::chrono::steady_clock::now() - start;
        std::printf("%lld\n", (long long)elapsed.count());
    }
    std::printf("%llu\n", (unsigned long long)folds[0]);
}
