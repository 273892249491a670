// The tests of threads that count while others scrape: exact totals, and scrapes of one moment.
#include "test.hpp"

#include <atomic>
#include <functional>
#include <thread>

using namespace dirgwako;

// Runs so many threads, and makes scrapes meanwhile, at least one, which are looked at.
static long long Scraped(const Registry &registry, int threads, const std::function<void(int)> &work,
                         const std::function<bool(const std::string &)> &is_torn) {
    std::atomic<int> running{threads};
    std::vector<std::thread> all;
    for (int i = 0; i < threads; ++i)
        all.emplace_back([&, i] {
            work(i);
            --running;
        });
    long long torn = 0;
    do torn += is_torn(registry.Text(1'000'000));
    while (running != 0);
    for (auto &it : all) it.join();
    return torn;
}

// Threads that publish lists and observe, also more of them than there are recorders: catches a count that is lost
// where a recorder is shared, a list that is seen in part, and a histogram whose sum is of other values than its count.
static void Lists(int threads, int rounds) {
    Registry registry;
    auto a = CounterOf(registry, "a_total"), b = CounterOf(registry, "b_total");
    auto g = GaugeOf(registry, "g");
    auto h = HistogramOf(registry, "h");
    const long long torn = Scraped(
        registry, threads,
        [&](int) {
            for (int i = 0; i < rounds; ++i) {
                registry.Publish({a.By(1), b.By(2), g.By(-1)});
                h.Observe(7);
            }
        },
        [](const std::string &text) {
            return 2 * At(text, "a_total") != At(text, "b_total") || At(text, "a_total") != -At(text, "g") ||
                   7 * At(text, "h_count") != At(text, "h_sum");
        });
    const std::string text = registry.Text();
    Is("torn scrapes", torn, 0);
    Is("a", At(text, "a_total"), static_cast<long long>(threads) * rounds);
    Is("h", At(text, "h_count"), static_cast<long long>(threads) * rounds);
    Is("nothing was refused", static_cast<long long>(registry.Refused()), 0);
}

// Each thread raises one counter, and then another: catches a scrape that reads the one before the other.
static void OneAfterTheOther() {
    constexpr int threads = 3, rounds = 30'000;
    Registry registry;
    auto first = BuildCounter().Name("first_total").Help("First.").Labels({"n"}).Register(registry);
    auto then = BuildCounter().Name("then_total").Help("Then.").Labels({"n"}).Register(registry);
    for (int i = 0; i < threads; ++i) {
        (void)first.Add({{"n", std::to_string(i)}});
        (void)then.Add({{"n", std::to_string(i)}});
    }
    const auto series = [](const char *name, int i) { return name + std::string("{n=\"") + std::to_string(i) + "\"}"; };
    const long long torn = Scraped(
        registry, threads,
        [&](int i) {
            const auto a = first.Add({{"n", std::to_string(i)}}), b = then.Add({{"n", std::to_string(i)}});
            for (int k = 0; k < rounds; ++k) {
                a.Increment();
                b.Increment();
            }
        },
        [&](const std::string &text) {
            bool is_torn = false;
            for (int i = 0; i < threads; ++i) {
                const long long apart = At(text, series("first_total", i)) - At(text, series("then_total", i));
                is_torn = is_torn || (apart != 0 && apart != 1);
            }
            return is_torn;
        });
    Is("torn scrapes", torn, 0);
    Is("the total", At(registry.Text(), series("then_total", threads - 1)), rounds);
}

// One thread raises a and hands over, the other raises b and hands back: a - b is 0 or 1 at each moment. Catches a
// count that is shown later than one which came after it in another thread.
static void PingPong() {
    constexpr int rounds = 20'000;
    Registry registry;
    auto a = CounterOf(registry, "a_total"), b = CounterOf(registry, "b_total");
    std::atomic<int> turn{0};
    const long long torn = Scraped(
        registry, 2,
        [&](int own) {
            for (int i = 0; i < rounds; ++i) {
                while (turn.load(std::memory_order_acquire) != own) std::this_thread::yield();
                (own == 0 ? a : b).Increment();
                turn.store(1 - own, std::memory_order_release);
            }
        },
        [](const std::string &text) {
            const long long apart = At(text, "a_total") - At(text, "b_total");
            return apart != 0 && apart != 1;
        });
    Is("torn scrapes", torn, 0);
    Is("the total", At(registry.Text(), "b_total"), rounds);
}

// Catches a recorder that is not given back, or that two threads have.
static void StartAndEnd() {
    Registry registry;
    auto a = CounterOf(registry, "a_total");
    for (int i = 0; i < 100; ++i) {
        std::vector<std::thread> all;
        for (int t = 0; t < 10; ++t)
            all.emplace_back([&a] {
                for (int k = 0; k < 100; ++k) a.Increment();
            });
        for (auto &it : all) it.join();
    }
    Is("1,000 threads", At(registry.Text(), "a_total"), 100'000);
    std::vector<Recorder> all;
    const std::size_t most = detail::BuiltFor().workers - 1;
    while (all.size() < most) all.push_back(registry.TakeRecorder());
    std::thread([&a] { a.Increment(); }).join();
    Is("by the common one", At(registry.Text(), "a_total"), 100'001);
}

// Threads find and make the same children at once, over several boards: catches a child that is made twice, and one
// that is found before it is there.
static void Children() {
    constexpr int threads = 6, many = 250;
    Registry registry;
    auto counters = BuildCounter().Name("c_total").Help("C.").Register(registry);
    auto histograms = BuildHistogram().Name("h").Help("H.").Labels({"n"}).Buckets({1}).Register(registry);
    const long long torn = Scraped(
        registry, threads,
        [&](int own) {
            for (int i = 0; i < many; ++i) {
                const int at = own % 2 == 0 ? i : many - 1 - i;
                counters.Add({{"n", std::to_string(at)}}).Increment(at);
                if (at < 100) histograms.Add({{"n", std::to_string(at)}}).Observe(at);
            }
        },
        [](const std::string &) { return false; });
    const std::string text = registry.Text();
    long long wrong = torn;
    for (int i = 0; i < many; ++i) {
        const std::string label = "{n=\"" + std::to_string(i) + "\"}";
        wrong += At(text, "c_total" + label) != threads * i;
        if (i < 100) wrong += At(text, "h_sum" + label) != threads * i;
    }
    Is("exact totals", wrong, 0);
    Is("several boards", registry.Boards() > 1, 1);
}

// Catches numbers that are read one after the other, and those of another board.
static void Moments() {
    Registry registry, other;
    auto a = CounterOf(registry, "a_total"), b = CounterOf(registry, "b_total"), foreign = CounterOf(other, "c_total");
    auto g = GaugeOf(registry, "g");
    auto h = HistogramOf(registry, "h");
    std::atomic<bool> is_over{false};
    std::thread thread([&] {
        while (!is_over) registry.Publish({a.By(1), b.By(2), g.By(-1), h.Of(11)});
    });
    long long torn = 0;
    for (int i = 0; i < 2'000; ++i) {
        const Moment moment = registry.Read(a);
        const auto count = static_cast<long long>(moment.Of(a));
        torn += 2 * count != static_cast<long long>(moment.Of(b)) || count != -moment.Of(g) ||
                11 * count != static_cast<long long>(moment.Of(h).sum) || moment.Of(h).buckets[1] != moment.Of(a);
    }
    is_over = true;
    thread.join();
    Is("torn moments", torn, 0);
    Is("the last", registry.Read(g).Of(g), -static_cast<long long>(a.Value()));
    Is("another's", RefusedBy([&] { (void)registry.Read(a).Of(foreign); }), 16);
    Is("another's", RefusedBy([&] { (void)registry.Read(foreign); }), 16);
}

// Metrics of one group agree on whichever board: catches a group that is spread while its board has room.
static void Groups() {
    Registry registry;
    registry.AddBoard();
    registry.AddBoard();
    long long refused = 0;
    for (std::size_t i = 0; i < 3; ++i) {
        const std::string n = std::to_string(i);
        const auto a = BuildCounter()
                           .Name("a" + n + "_total")
                           .Help("A.")
                           .Labels({"n"})
                           .Group(i)
                           .Register(registry)
                           .Add({{"n", "1"}});
        const auto h =
            BuildHistogram().Name("h" + n).Help("H.").Labels({"n"}).Group(i).Register(registry).Add({{"n", "1"}}, {10});
        refused += registry.TryPublish({a.By(1), h.Of(i)});
    }
    Is("one version a group", refused, 0);
}

// A recorder by hand, that is handed from thread to thread: catches one that is bound to the thread that took it.
static void ByHand() {
    Registry registry;
    auto a = CounterOf(registry, "a_total");
    Recorder recorder = registry.TakeRecorder();
    for (int i = 0; i < 20; ++i)
        std::thread([own = std::move(recorder), &a, &recorder]() mutable {
            for (int k = 0; k < 1'000; ++k) own.Increment(a);
            recorder = std::move(own);
        }).join();
    Is("the total", At(registry.Text(), "a_total"), 20'000);
}

void Threads() {
    Lists(3, 20'000);
    Lists(10, 5'000);
    Lists(40, 500);
    OneAfterTheOther();
    PingPong();
    StartAndEnd();
    Children();
    Moments();
    Groups();
    ByHand();
}
