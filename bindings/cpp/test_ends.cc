// The tests of what ends: metrics after their registry, threads, registries under a living thread, and counts within
// destructors.
#include "test.hpp"

#include <cstdlib>
#include <memory>
#include <new>
#include <thread>

#ifdef __GLIBC__
#include <malloc.h>
#endif

using namespace dirgwako;

// (clang's sanitizer of threads has operators of its own, which none may replace)
#if defined(__has_feature)
#if __has_feature(thread_sanitizer)
#define DIRGWAKO_HAS_MEMORY
#endif
#endif

#ifndef DIRGWAKO_HAS_MEMORY
// Whether this thread has no memory left.
static thread_local bool has_none = false;

[[gnu::noinline]] void *operator new(std::size_t size) {
    if (void *const at = has_none ? nullptr : std::malloc(size)) return at;
    throw std::bad_alloc();
}
[[gnu::noinline]] void operator delete(void *at) noexcept { std::free(at); }
[[gnu::noinline]] void operator delete(void *at, std::size_t) noexcept { std::free(at); }
#endif

// Catches a metric, a family, a recorder and a tally that point into a registry that is gone.
static void Outlive() {
    auto registry = std::make_unique<Registry>();
    auto family =
        std::make_unique<Family<Counter>>(BuildCounter().Name("a_total").Help("A.").Labels({"n"}).Register(*registry));
    auto recorder = std::make_unique<Recorder>(registry->TakeRecorder());
    auto tally = std::make_unique<Tally>(*registry);
    registry.reset();
    auto a = std::make_unique<Counter>(family->Add({{"n", "1"}}));
    family.reset();
    Is("the metric counts", a->TryIncrement(), 0);
    Is("the recorder counts", recorder->TryIncrement(*a, 2), 0);
    tally->Increment(*a, 4);
    Is("the tally counts", tally->TryFlush(), 0);
    Is("they are counted", static_cast<long long>(a->Value()), 7);
    Is("its name", a->Name() == "a_total", 1);
    tally->Increment(*a);
    a.reset();
    tally.reset();
    recorder.reset();
}

// Catches a copy that is another metric, and an assignment that leaves the old one's registry behind.
static void Copies() {
    Registry one, two;
    auto a = CounterOf(one, "a_total"), b = CounterOf(two, "b_total");
    Counter c = a;
    c.Increment();
    Counter moved = std::move(c); // (there is no move: both are the metric)
    c.Increment();                // NOLINT
    moved.Increment();
    Is("copies", At(one.Text(), "a_total"), 3);
    c = b;
    c.Increment();
    Is("assigned", At(two.Text(), "b_total"), 1);
    Registry same = one;
    CounterOf(same, "more_total").Increment(5);
    Is("a copy of a registry", At(one.Text(), "more_total"), 5);
}

// Catches a thread's recorder of a registry that is gone, found by an address that another one has now.
static void ComeAndGo() {
    for (int i = 1; i <= (IsLarge() ? 30 : 300); ++i) {
        Registry registry;
        auto a = CounterOf(registry, "a_total");
        a.Increment(i);
        a.Increment();
        Is("of its own", At(registry.Text(), "a_total"), i + 1);
    }
}

// Catches boards that are kept because a living thread has counted on them.
static void AreFreed() {
#if defined(__GLIBC__) && (__GLIBC__ > 2 || __GLIBC_MINOR__ >= 33)
    const auto used = [] {
        const auto info = mallinfo2();
        return info.uordblks + info.hblkhd;
    };
    const auto before = used();
    for (int i = 0; i < 20; ++i) {
        Registry registry;
        CounterOf(registry, "a_total").Increment();
        std::thread([&] { CounterOf(registry, "b_total").Increment(); }).join();
    }
    Is("memory is given back", used() < before + 200'000, 1);
#endif
}

// Catches a count that goes to another registry than its metric's, where a thread counts on several by turns.
static void Several() {
    const std::vector<Registry> all(IsLarge() ? 6 : 40);
    std::vector<Counter> counters;
    for (const Registry &it : all) counters.push_back(CounterOf(it, "a_total"));
    std::vector<std::thread> threads;
    for (int t = 0; t < 3; ++t)
        threads.emplace_back([&counters] {
            for (int round = 0; round < 200; ++round)
                for (std::size_t i = 0; i < counters.size(); ++i) counters[i].Increment(i + 1);
        });
    for (auto &it : threads) it.join();
    for (std::size_t i = 0; i < counters.size(); ++i)
        Is("of its own", At(all[i].Text(), "a_total"), 600 * static_cast<long long>(i + 1));
}

// A thread's own object, which counts when it ends: after the thread's recorders were given back, where it was made
// before them.
struct AtEnd {
    std::unique_ptr<Counter> counter;
    std::unique_ptr<Tally> tally;
    bool has_counted = false;
    ~AtEnd() {
        if (counter == nullptr) return;
        if (has_counted) Is("no recorder is its own any more", detail::mine.recorder == nullptr, 1);
        Is("a count at a thread's end", counter->TryIncrement(), 0);
        tally->Increment(*counter, 10);
    }
};
static thread_local AtEnd at_end;

// Catches a recorder that is used after it was given back, and counts that are lost at a thread's end.
static void InDestructors() {
    Registry registry;
    auto a = CounterOf(registry, "a_total");
    for (int i = 0; i < 100; ++i)
        std::thread([&] {
            at_end.counter = std::make_unique<Counter>(a);
            at_end.tally = std::make_unique<Tally>(registry);
            at_end.has_counted = i % 2 == 0;
            if (at_end.has_counted) a.Increment(100);
        }).join();
    Is("what they counted", At(registry.Text(), "a_total"), 100 * 11 + 50 * 100);
    Is("all are given back", RefusedBy([&] {
           std::vector<Recorder> all;
           for (std::size_t n = 1; n < detail::BuiltFor().workers; ++n) all.push_back(registry.TakeRecorder());
       }),
       0);
}

// A static object that counts after main: catches what is used after it ended. A program that fails here ends with
// another status.
struct AfterMain {
    Registry registry;
    Counter counter = CounterOf(registry, "a_total");
    ~AfterMain() {
        counter.Increment();
        if (At(registry.Text(), "a_total") != 3) std::_Exit(3);
    }
};
static AfterMain after_main;

// Catches a thread that is the last to hold a registry, and ends it while it ends itself.
static void EndWithThread() {
    for (int i = 0; i < (IsLarge() ? 10 : 50); ++i) {
        auto registry = std::make_unique<Registry>();
        std::thread thread([own = *registry] {
            auto a = CounterOf(own, "a_total");
            a.Increment();
        });
        registry.reset();
        thread.join();
    }
}

#ifndef DIRGWAKO_HAS_MEMORY
// Threads without memory: catches a count that is lost, or ends the program, since a thread cannot note its recorder or
// a tally its list.
static void WithoutMemory() {
    Registry registry;
    auto a = CounterOf(registry, "a_total");
    auto h = HistogramOf(registry, "h");
    std::thread([&] {
        Tally tally(registry);
        has_none = true;
        a.Increment();
        tally.Increment(a, 2);
        tally.Observe(h, 3);
        Is("a list", registry.TryPublish({a.By(4), h.Of(4)}), 0);
        has_none = false;
        a.Increment(8);
        tally.Increment(a, 16);
    }).join();
    Is("what they counted", At(registry.Text(), "a_total"), 31);
    Is("and observed", At(registry.Text(), "h_sum"), 7);
    Is("nothing was refused", static_cast<long long>(registry.Refused()), 0);
}
#endif

void Ends() {
#ifndef DIRGWAKO_HAS_MEMORY
    WithoutMemory();
#endif
    Outlive();
    Copies();
    ComeAndGo();
    AreFreed();
    Several();
    InDestructors();
    EndWithThread();
    after_main.counter.Increment(2);
}
