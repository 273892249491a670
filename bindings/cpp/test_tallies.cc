// The tests of tallies.
#include "test.hpp"

#include <atomic>
#include <thread>

using namespace dirgwako;

// Catches counts that are shown before they are flushed, a flush at another call than it should be, and counts that are
// lost at a tally's end.
static void Flushes() {
    Registry registry;
    auto a = CounterOf(registry, "a_total"), b = CounterOf(registry, "b_total");
    {
        Tally tally(registry, 100);
        for (int i = 0; i < 99; ++i) tally.Increment(a, 2);
        Is("nothing before", At(registry.Text(), "a_total"), 0);
        tally.Increment(b);
        Is("the hundredth", At(registry.Text(), "a_total"), 198);
        Is("with it", At(registry.Text(), "b_total"), 1);
        tally.Increment(a);
        tally.Flush();
        Is("when asked", At(registry.Text(), "a_total"), 199);
        tally.Flush();
        tally.Increment(b, 0);
        tally.Increment(b, 7u);
    }
    Is("at its end", At(registry.Text(), "b_total"), 8);
    Is("nothing twice", At(registry.Text(), "a_total"), 199);
}

// Catches a gauge whose difference has the wrong sign, or is listed twice.
static void Differences() {
    Registry registry;
    auto g = GaugeOf(registry, "g");
    Tally tally(registry);
    tally.Increment(g, 3);
    tally.Decrement(g, 10);
    tally.Increment(g, -1);
    tally.Decrement(g, -2);
    Is("flushed", tally.TryFlush(), 0);
    Is("the difference", At(registry.Text(), "g"), -6);
    tally.Decrement(g);
    tally.Increment(g);
    tally.Increment(g, 5);
    tally.Flush();
    Is("once more", At(registry.Text(), "g"), -1);
    tally.Decrement(g, 4);
    tally.Increment(g, 4);
    Is("none", tally.TryFlush(), 0);
    Is("as it was", At(registry.Text(), "g"), -1);
    const std::uint64_t most = (std::uint64_t{1} << 48) - 1;
    auto large = GaugeOf(registry, "large");
    tally.Increment(large, most / 2);
    tally.Increment(large, most / 2 + 1);
    tally.Decrement(large, most);
    tally.Decrement(large, most);
    tally.Decrement(large);
    Is("two lists", tally.TryFlush(), 12);
    Is("as far as it goes", large.Value(), -static_cast<long long>(most));
}

// Catches an observation that is lost where the list is full, and a metric of another board that goes into this one's
// list.
static void OfManyBoards() {
    Registry registry;
    auto counters = BuildCounter().Name("c_total").Help("C.").Labels({"n"}).Register(registry);
    auto gauges = BuildGauge().Name("g").Help("G.").Labels({"n"}).Register(registry);
    auto histograms = BuildHistogram().Name("h").Help("H.").Labels({"n"}).Buckets({10, 100}).Register(registry);
    std::vector<Counter> c;
    std::vector<Gauge> g;
    std::vector<Histogram> h;
    constexpr int many = 200;
    for (int i = 0; i < many; ++i) c.push_back(counters.Add({{"n", std::to_string(i)}}));
    for (int i = 0; i < 80; ++i) g.push_back(gauges.Add({{"n", std::to_string(i)}}));
    for (int i = 0; i < 40; ++i) h.push_back(histograms.Add({{"n", std::to_string(i)}}));
    Is("several boards", registry.Boards() > 1, 1);
    {
        Tally tally(registry, 1'000'000);
        for (int round = 0; round < 50; ++round) {
            for (std::size_t i = 0; i < c.size(); ++i) tally.Increment(c[i], i);
            for (std::size_t i = 0; i < g.size(); ++i) tally.Decrement(g[i], i);
            for (std::size_t i = 0; i < h.size(); ++i) tally.Observe(h[i], i);
        }
    }
    const std::string text = registry.Text();
    long long wrong = 0;
    const auto label = [](const char *name, int i) { return name + std::string("{n=\"") + std::to_string(i) + "\"}"; };
    for (int i = 0; i < many; ++i) wrong += At(text, label("c_total", i)) != 50 * i;
    for (int i = 0; i < 80; ++i) wrong += At(text, label("g", i)) != -50 * i;
    for (int i = 0; i < 40; ++i) wrong += At(text, label("h_sum", i)) != 50 * i || At(text, label("h_count", i)) != 50;
    Is("exact totals", wrong, 0);
    Is("nothing was refused", static_cast<long long>(registry.Refused()), 0);
}

// Catches counts that are lost because another one of their version was refused.
static void Refused() {
    const std::uint64_t most = (std::uint64_t{1} << 48) - 1;
    Registry registry, other;
    auto a = CounterOf(registry, "a_total"), full = CounterOf(registry, "full_total"),
         foreign = CounterOf(other, "f_total");
    auto h = HistogramOf(registry, "h");
    full.Increment(most);
    Tally tally(registry);
    tally.Increment(a, 3);
    tally.Increment(full, 2);
    tally.Observe(h, 11);
    Is("one was refused", tally.TryFlush(), 12);
    Is("who asks is told", static_cast<long long>(registry.Refused()), 0);
    Is("the others are counted", At(registry.Text(), "a_total") + At(registry.Text(), "h_sum"), 14);
    tally.Increment(a, -1);
    tally.Increment(full);
    tally.Flush();
    Is("who does not, by the registry", static_cast<long long>(registry.Refused()), 2);
    tally.Observe(h, -1);
    tally.Increment(a, most + 1);
    Is("too large by itself, at once", static_cast<long long>(registry.Refused()), 4);
    Is("and nothing else is", tally.TryFlush(), 0);
    tally.Increment(foreign);
    tally.Increment(GaugeOf(other, "g"), 2);
    tally.Observe(HistogramOf(other, "h"), 2);
    Is("another's", static_cast<long long>(other.Refused()), 3);
    Is("by its number", other.LastRefusal(), 16);
    Is("it is not counted", At(other.Text(), "f_total"), 0);
    tally.Increment(a, 2);
    tally.Increment(a, most);
    Is("beyond one change", tally.TryFlush(), 12);
    Is("what was before is counted", At(registry.Text(), "a_total"), 5);
}

// Catches a flush that is two versions: each scrape has as many of a as of b, of each thread's tally; and a tally that
// threads share by turns.
static void AtOnce() {
    Registry registry;
    constexpr int threads = 6, rounds = 100'000;
    auto a = CounterOf(registry, "a_total"), b = CounterOf(registry, "b_total");
    std::atomic<int> running{threads};
    std::vector<std::thread> all;
    for (int t = 0; t < threads; ++t)
        all.emplace_back([&] {
            Tally tally(registry, 20);
            for (int i = 0; i < rounds; ++i) {
                tally.Increment(a);
                tally.Increment(b);
            }
            --running;
        });
    long long torn = 0;
    do {
        const std::string text = registry.Text(1'000'000);
        torn += At(text, "a_total") != At(text, "b_total");
    } while (running != 0);
    for (auto &it : all) it.join();
    Is("torn scrapes", torn, 0);
    Is("the total", At(registry.Text(), "a_total"), threads * rounds);
}

void Tallies() {
    Flushes();
    Differences();
    OfManyBoards();
    Refused();
    AtOnce();
}
