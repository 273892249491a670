// What the calls cost, beside prometheus-cpp's where the compiler finds it (Debian: prometheus-cpp-dev; link
// -lprometheus-cpp-core), unless DIRGWAKO_NO_PEER is defined.
//
// Of one thread the fastest of many batches is told, in nanoseconds a call; of four threads that begin together the
// median of the times until all have ended, by the calls of one; of texts the fastest, in microseconds. `bench quick`
// makes a few batches only, to see that it runs.
#include <dirgwako.hpp>

#include <algorithm>
#include <atomic>
#include <chrono>
#include <cstdio>
#include <cstring>
#include <functional>
#include <thread>

#if __has_include(<prometheus/registry.h>) && !defined(DIRGWAKO_NO_PEER)
#define HAS_PEER 1
#include <prometheus/counter.h>
#include <prometheus/histogram.h>
#include <prometheus/registry.h>
#include <prometheus/text_serializer.h>
#endif

namespace {

using Clock = std::chrono::steady_clock;
using namespace dirgwako;

int turns = 100;
constexpr int threads = 4;

double Since(Clock::time_point begun) { return std::chrono::duration<double, std::nano>(Clock::now() - begun).count(); }

template <class Call>
double Alone(Call call, int calls = 10'000) {
    double best = 1e18;
    for (int t = 0; t < turns; ++t) {
        const auto begun = Clock::now();
        for (int i = 0; i < calls; ++i) call();
        best = std::min(best, Since(begun) / calls);
    }
    return best;
}

/// `make` makes what a thread calls, in the thread.
template <class Make>
double Together(Make make, int calls = 50'000) {
    std::vector<double> took;
    for (int t = 0; t < turns / 5 + 1; ++t) {
        std::atomic<int> ready{0};
        std::atomic<bool> is_begun{false};
        std::vector<std::thread> all;
        for (int i = 0; i < threads; ++i)
            all.emplace_back([&, i] {
                auto call = make(i);
                ++ready;
                while (!is_begun) std::this_thread::yield();
                for (int k = 0; k < calls; ++k) call();
            });
        while (ready != threads) std::this_thread::yield();
        const auto begun = Clock::now();
        is_begun = true;
        for (auto &it : all) it.join();
        took.push_back(Since(begun) / calls);
    }
    std::sort(took.begin(), took.end());
    return took[took.size() / 2];
}

void Row(const char *what, double ours, double peers = 0) {
    if (peers > 0)
        std::printf("| %s | %.1f | %.1f | %.2f |\n", what, ours, peers, ours / peers);
    else
        std::printf("| %s | %.1f | - | - |\n", what, ours);
    std::fflush(stdout);
}

const std::vector<std::uint64_t> bounds{5, 10, 25, 50, 100, 250, 500, 1'000, 2'500, 5'000};

/// The metrics of a registry of ours.
struct Ours {
    Registry registry;
    Family<Counter> family = BuildCounter().Name("c_total").Help("C.").Register(registry);
    std::vector<Counter> counters;
    Gauge gauge = BuildGauge().Name("g").Help("G.").Register(registry).Add();
    Histogram histogram = BuildHistogram().Name("h").Help("H.").Buckets(bounds).Register(registry).Add();

    Ours() {
        for (int i = 0; i < 10; ++i) counters.push_back(family.Add({{"n", std::to_string(i)}}));
    }
};

#ifdef HAS_PEER
/// The same of prometheus-cpp.
struct Peers {
    prometheus::Registry registry;
    prometheus::Family<prometheus::Counter> &family =
        prometheus::BuildCounter().Name("c_total").Help("C.").Register(registry);
    std::vector<prometheus::Counter *> counters;
    prometheus::Gauge &gauge = prometheus::BuildGauge().Name("g").Help("G.").Register(registry).Add({});
    prometheus::Histogram &histogram = prometheus::BuildHistogram().Name("h").Help("H.").Register(registry).Add(
        {}, prometheus::Histogram::BucketBoundaries(bounds.begin(), bounds.end()));

    Peers() {
        for (int i = 0; i < 10; ++i) counters.push_back(&family.Add({{"n", std::to_string(i)}}));
    }
};
#endif

/// Times of calls of the peer, 0 where it is not there.
struct Times {
    double increment = 0, gauge = 0, observe = 0, ten = 0, add = 0, one_counter = 0, one_each = 0, observes = 0,
           text = 0;
};

Times OfThePeer() {
    Times times;
#ifdef HAS_PEER
    Peers p;
    times.increment = Alone([&] { p.counters[0]->Increment(); });
    times.gauge = Alone([&] { p.gauge.Increment(); });
    times.observe = Alone([&] { p.histogram.Observe(300); });
    times.ten = Alone(
        [&] {
            for (auto *it : p.counters) it->Increment();
        },
        2'000);
    times.add = Alone([&] { p.family.Add({{"n", "2"}}).Increment(); }, 2'000);
    times.one_counter = Together([&](int) { return [&] { p.counters[0]->Increment(); }; });
    times.one_each =
        Together([&](int i) { return [it = p.counters[static_cast<std::size_t>(i)]] { it->Increment(); }; });
    times.observes = Together([&](int) { return [&] { p.histogram.Observe(300); }; });
    prometheus::Registry many;
    for (int i = 0; i < 64; ++i)
        prometheus::BuildCounter()
            .Name("c" + std::to_string(i) + "_total")
            .Help("C.")
            .Register(many)
            .Add({})
            .Increment(10'007 * i);
    for (int i = 0; i < 8; ++i)
        prometheus::BuildHistogram()
            .Name("h" + std::to_string(i))
            .Help("H.")
            .Register(many)
            .Add({}, prometheus::Histogram::BucketBoundaries(bounds.begin(), bounds.end()))
            .Observe(300);
    std::size_t len = 0;
    times.text = Alone([&] { len += prometheus::TextSerializer().Serialize(many.Collect()).size(); }, 20) / 1'000;
    if (len == 0) std::puts("no text");
#endif
    return times;
}

void OneThread(Ours &d, const Times &peer) {
    Row("Counter::Increment", Alone([&] { d.counters[0].Increment(); }), peer.increment);
    Tally tally(d.registry);
    Row("Tally::Increment of a counter, published each 1,000th", Alone([&] { tally.Increment(d.counters[0]); }),
        peer.increment);
    Row("Gauge::Increment", Alone([&] { d.gauge.Increment(); }), peer.gauge);
    Row("Histogram::Observe, 10 buckets", Alone([&] { d.histogram.Observe(300); }), peer.observe);
    Row("Tally::Observe", Alone([&] { tally.Observe(d.histogram, 300); }), peer.observe);
    Row("Publish of ten counters, as one version",
        Alone(
            [&] {
                const auto &c = d.counters;
                d.registry.Publish({c[0].By(1), c[1].By(1), c[2].By(1), c[3].By(1), c[4].By(1), c[5].By(1), c[6].By(1),
                                    c[7].By(1), c[8].By(1), c[9].By(1)});
            },
            2'000),
        peer.ten);
    Row("family.Add(labels).Increment()", Alone([&] { d.family.Add({{"n", "2"}}).Increment(); }, 2'000), peer.add);
}

void FourThreads(Ours &d, const Times &peer) {
    Row("four threads: Increment of one counter", Together([&](int) { return [&] { d.counters[0].Increment(); }; }),
        peer.one_counter);
    Row("four threads: of one counter each",
        Together([&](int i) { return [it = d.counters[static_cast<std::size_t>(i)]] { it.Increment(); }; }),
        peer.one_each);
    Row("four threads: Tally::Increment", Together([&](int i) {
            auto own = std::make_shared<Tally>(d.registry);
            return [own, it = d.counters[static_cast<std::size_t>(i)]] { own->Increment(it); };
        }),
        peer.one_each);
    Row("four threads: Observe", Together([&](int) { return [&] { d.histogram.Observe(300); }; }), peer.observes);
}

void Texts(const Times &peer) {
    Registry many;
    for (int i = 0; i < 64; ++i)
        BuildCounter().Name("c" + std::to_string(i) + "_total").Help("C.").Register(many).Add().Increment(10'007 * i);
    for (int i = 0; i < 8; ++i)
        BuildHistogram().Name("h" + std::to_string(i)).Help("H.").Buckets(bounds).Register(many).Add().Observe(300);
    std::size_t len = 0;
    Row("text of 64 counters and 8 histograms, us", Alone([&] { len += many.Text().size(); }, 20) / 1'000, peer.text);
    if (len == 0) std::puts("no text");
}

long long At(const std::string &text, const std::string &series) {
    const auto at = ("\n" + text).find("\n" + series + " ");
    return at == std::string::npos ? -1 : std::atoll(text.c_str() + at + series.size() + 1);
}

/// One thread raises a, and then b, and observes 7, without rest: how many texts show what never was.
long Torn(const std::function<void()> &count, const std::function<std::string()> &text, int scrapes) {
    std::atomic<bool> is_over{false};
    std::thread thread([&] {
        while (!is_over) count();
    });
    long torn = 0;
    for (int i = 0; i < scrapes; ++i) {
        const std::string got = text();
        const long long apart = At(got, "a_total") - At(got, "b_total");
        torn += apart < 0 || apart > 1 || At(got, "h_sum") != 7 * At(got, "h_count");
    }
    is_over = true;
    thread.join();
    return torn;
}

void Moments(int scrapes) {
    Registry registry;
    const auto a = BuildCounter().Name("a_total").Help("A.").Register(registry).Add();
    const auto b = BuildCounter().Name("b_total").Help("B.").Register(registry).Add();
    const auto h = BuildHistogram().Name("h").Help("H.").Buckets(bounds).Register(registry).Add();
    std::printf("torn of %d scrapes: %ld", scrapes,
                Torn([&] { a.Increment(), b.Increment(), h.Observe(7); }, [&] { return registry.Text(); }, scrapes));
#ifdef HAS_PEER
    prometheus::Registry other;
    auto &pa = prometheus::BuildCounter().Name("a_total").Help("A.").Register(other).Add({});
    auto &pb = prometheus::BuildCounter().Name("b_total").Help("B.").Register(other).Add({});
    auto &ph = prometheus::BuildHistogram().Name("h").Help("H.").Register(other).Add(
        {}, prometheus::Histogram::BucketBoundaries(bounds.begin(), bounds.end()));
    std::printf("; prometheus-cpp's: %ld",
                Torn([&] { pa.Increment(), pb.Increment(), ph.Observe(7); },
                     [&] { return prometheus::TextSerializer().Serialize(other.Collect()); }, scrapes));
#endif
    std::puts("");
}

} // namespace

int main(int argc, char **argv) {
    const bool is_quick = argc > 1 && std::strcmp(argv[1], "quick") == 0;
    if (is_quick) turns = 3;
    std::puts("| ns a call | dirgwako | prometheus-cpp | ratio |\n|---|---|---|---|");
    const Times peer = OfThePeer();
    Ours ours;
    OneThread(ours, peer);
    FourThreads(ours, peer);
    Texts(peer);
    Moments(is_quick ? 100 : 5'000);
    return ours.registry.Refused() != 0;
}
