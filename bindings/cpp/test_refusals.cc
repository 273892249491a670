// The tests of refusals: each that a program can meet through this header, by its number; and what must not compile.
#include "test.hpp"

using namespace dirgwako;

// What must not compile, and what must: catches a float that is cut to a whole number, a gauge that is set, and a
// recorder that two threads have.
template <class, class Metric, class... Given>
struct Counts : std::false_type {};
template <class Metric, class... Given>
struct Counts<std::void_t<decltype(std::declval<const Metric &>().Increment(std::declval<Given>()...))>, Metric,
              Given...> : std::true_type {};
template <class Metric, class... Given>
constexpr bool counts = Counts<void, Metric, Given...>::value;

template <class, class Given>
struct Observes : std::false_type {};
template <class Given>
struct Observes<std::void_t<decltype(std::declval<const Histogram &>().Observe(std::declval<Given>()))>, Given>
    : std::true_type {};

template <class, class Given>
struct Sets : std::false_type {};
template <class Given>
struct Sets<std::void_t<decltype(std::declval<const Gauge &>().Set(std::declval<Given>()))>, Given> : std::true_type {};

template <class, class Given>
struct Tallied : std::false_type {};
template <class Given>
struct Tallied<
    std::void_t<decltype(std::declval<Tally &>().Increment(std::declval<const Counter &>(), std::declval<Given>()))>,
    Given> : std::true_type {};

template <class, class Given>
struct Recorded : std::false_type {};
template <class Given>
struct Recorded<
    std::void_t<decltype(std::declval<Recorder &>().Increment(std::declval<const Counter &>(), std::declval<Given>()))>,
    Given> : std::true_type {};

static_assert(counts<Counter> && counts<Counter, int> && counts<Counter, std::uint64_t> && counts<Counter, short>);
static_assert(!counts<Counter, double> && !counts<Counter, float> && !counts<Counter, bool> &&
              !counts<Counter, char *>);
static_assert(counts<Gauge> && counts<Gauge, int> && !counts<Gauge, double> && !counts<Gauge, bool>);
static_assert(Observes<void, int>::value && Observes<void, std::chrono::nanoseconds>::value);
static_assert(!Observes<void, double>::value && !Observes<void, float>::value && !Observes<void, bool>::value);
static_assert(!Sets<void, int>::value && !Sets<void, double>::value);
static_assert(Tallied<void, int>::value && !Tallied<void, double>::value && !Tallied<void, bool>::value);
static_assert(Recorded<void, int>::value && !Recorded<void, double>::value && !Recorded<void, bool>::value);

static_assert(!std::is_copy_constructible_v<Recorder> && !std::is_copy_assignable_v<Recorder>);
static_assert(std::is_nothrow_move_constructible_v<Recorder> && std::is_nothrow_move_assignable_v<Recorder>);
static_assert(!std::is_copy_constructible_v<Tally> && !std::is_move_constructible_v<Tally>);
static_assert(!std::is_default_constructible_v<Counter> && !std::is_default_constructible_v<Family<Gauge>>);
static_assert(std::is_nothrow_copy_constructible_v<Counter> && std::is_copy_assignable_v<Histogram>);
static_assert(
    noexcept(std::declval<const Counter &>().Increment(1)) &&noexcept(std::declval<const Gauge &>().Decrement()));
static_assert(noexcept(std::declval<const Histogram &>().Observe(1)) &&noexcept(std::declval<Tally &>().Flush()));
static_assert(noexcept(std::declval<const Registry &>().Publish(std::declval<const std::vector<Change> &>())));

static const std::uint64_t largest = (std::uint64_t{1} << 48) - 1;

// Catches a number that is lost on the way, and a text that does not say which metric it is.
static void OfTexts() {
    Registry registry;
    const auto build = [&](const char *name, const char *help) {
        return RefusedBy([&] { (void)BuildCounter().Name(name).Help(help).Register(registry).Add(); });
    };
    Is("no name", build("", "A."), 1);
    Is("a bad byte", build("9lives", "A."), 2);
    Is("the metric is named", said.find("9lives") != std::string::npos && said.find("(2)") != std::string::npos, 1);
    Is("the words", said.find(Words(2)) != std::string::npos, 1);
    Is("a long name", build(std::string(129, 'a').c_str(), "A."), 3);
    Is("a help with an edge", build("edge_total", " A."), 5);
    Is("not UTF-8", build("utf_total", "\xff"), 36);
    Is("a name that is not UTF-8", build("\xff", "A."), 36);
    const auto label = [&](const std::vector<std::string> &names) {
        return RefusedBy([&] { (void)BuildCounter().Name("a_total").Help("A.").Labels(names).Register(registry); });
    };
    Is("a reserved label", label({"a", "__a"}), 4);
    Is("the label is named", said.find("a_total, label \"__a\"") != std::string::npos, 1);
    Is("a label with a colon", label({"a:b"}), 2);
    Is("that one is named", said.find("label \"a:b\"") != std::string::npos, 1);
    Is("a label twice", label({"a", "a"}), 7);
    Is("nine labels", label({"a", "b", "c", "d", "e", "f", "g", "h", "i"}), 9);
    Is("a label that is not UTF-8", label({"\xff"}), 36);
    Is("digits", RefusedBy([&] { (void)BuildGauge().Name("g").Help("G.").Labels({}).Digits(10).Register(registry); }),
       43);
    Is("le",
       RefusedBy([&] { (void)BuildHistogram().Name("h").Help("H.").Labels({"le"}).Buckets({1}).Register(registry); }),
       8);
    Is("bounds", RefusedBy([&] {
           (void)BuildHistogram().Name("b").Help("B.").Buckets({5, 5}).Register(registry).Add();
       }),
       10);
    Is("the name is free", label({"a"}), 0);
    auto h = BuildHistogram().Name("h").Help("H.").Register(registry);
    (void)h.Add({}, {1, 2});
    Is("other bounds", RefusedBy([&] { (void)h.Add({}, {1, 3}); }), 10);
    Is("a clash", build("h_sum", "H."), 19);
}

static void OfChildren() {
    Registry registry;
    auto family = BuildCounter().Name("a_total").Help("A.").Labels({"a", "b"}).Register(registry);
    Is("too few", RefusedBy([&] { (void)family.Add({{"a", "1"}}); }), 21);
    Is("too many", RefusedBy([&] { (void)family.Add({{"a", "1"}, {"b", "1"}, {"c", "1"}}); }), 21);
    Is("another", RefusedBy([&] { (void)family.Add({{"a", "1"}, {"c", "1"}}); }), 21);
    Is("the labels are named", said.find("{a, b}") != std::string::npos, 1);
    Is("the metric is named", said.find("a_total") != std::string::npos, 1);
    Is("a long value", RefusedBy([&] { (void)family.Add({{"a", std::string(257, 'v')}, {"b", ""}}); }), 3);
    Is("not UTF-8", RefusedBy([&] { (void)family.Add({{"a", "\xff"}, {"b", "\xff"}}); }), 36);
    Is("they are not there", family.Has({{"a", "\xff"}, {"b", "\xff"}}), 0);
    for (int i = 0; i < 256; ++i) (void)family.Add({{"a", std::to_string(i)}, {"b", ""}});
    Is("257 children", RefusedBy([&] { (void)family.Add({{"a", "256"}, {"b", ""}}); }), 46);
    Is("those are found", RefusedBy([&] { (void)family.Add({{"a", "255"}, {"b", ""}}); }), 0);
    for (int i = 1; i < 128; ++i)
        (void)BuildCounter().Name("a" + std::to_string(i) + "_total").Help("A.").Labels({}).Register(registry);
    Is("129 families",
       RefusedBy([&] { (void)BuildCounter().Name("b_total").Help("B.").Labels({}).Register(registry); }), 23);
}

// Each slot of a kind on 96 boards: catches a child that is made on a board which is not there. Where boards are small,
// as 96 large ones take a while.
static void OfBoards() {
    if (IsLarge()) return;
    Registry registry;
    const std::size_t most = 96 * detail::BuiltFor().histograms;
    std::size_t made = 0;
    for (std::size_t i = 0; made < most; ++i) {
        auto family =
            BuildHistogram().Name("h" + std::to_string(i)).Help("H.").Labels({"n"}).Buckets({1}).Register(registry);
        for (std::size_t n = 0; n < 256 && made < most; ++n, ++made) family.Add({{"n", std::to_string(n)}}).Observe(1);
    }
    Is("96 boards", static_cast<long long>(registry.Boards()), 96);
    Is("every slot is used", RefusedBy([&] { (void)HistogramOf(registry, "last"); }), 22);
    Is("no more boards", RefusedBy([&] { registry.AddBoard(); }), 44);
}

static void OfCounts() {
    Registry registry, other;
    auto a = CounterOf(registry, "a_total"), foreign = CounterOf(other, "b_total");
    auto h = HistogramOf(registry, "h");
    a.Increment(largest);
    Is("nothing was refused", static_cast<long long>(registry.Refused() + registry.LastRefusal()), 0);
    Is("too large", a.TryIncrement(), 12);
    Is("who asks is told", static_cast<long long>(registry.Refused()), 0);
    a.Increment();
    h.Observe(largest + 1);
    registry.Publish({h.Of(1), a.By(1)});
    Is("who does not, by the registry", static_cast<long long>(registry.Refused()), 3);
    Is("by its number", registry.LastRefusal(), 12);
    Is("nothing of the list is counted", At(registry.Text(), "h_count"), 0);
    Is("another's", registry.TryPublish({foreign.By(1)}), 16);
    Is("two boards", registry.TryPublish({a.By(1), foreign.By(1)}), 47);
    Is("nothing", registry.TryPublish({}), 0);
    const std::vector<Change> many(detail::BuiltFor().changes + 1, h.Of(1));
    Is("too many", registry.TryPublish(many), 33);
    Is("many", registry.TryPublish(std::vector<Change>(many.begin() + 1, many.end())), 0);
    Change none = h.Of(1);
    none.kind = 9;
    Is("no kind", registry.TryPublish({none}), 39);
    none.kind = 1;
    none.slot = 100'000;
    Is("no slot", registry.TryPublish({none}), 11);
}

static void OfRecorders() {
    Registry registry, other;
    auto a = CounterOf(registry, "a_total"), foreign = CounterOf(other, "b_total");
    auto g = GaugeOf(registry, "g");
    auto h = HistogramOf(registry, "h");
    std::vector<Recorder> all;
    const std::size_t most = detail::BuiltFor().workers - 1;
    while (all.size() < most) all.push_back(registry.TakeRecorder());
    Is("none is left", RefusedBy([&] { (void)registry.TakeRecorder(); }), 35);
    Is("another's", all[0].TryIncrement(foreign), 16);
    Recorder moved = std::move(all[0]);
    Is("moved from", all[0].TryIncrement(a), 34);
    Is("moved from", all[0].TryObserve(h, 1), 34);
    Is("moved from", all[0].TryDecrement(g), 34);
    Is("moved from", all[0].TryPublish({a.By(1)}), 34);
    all[0].Increment(a);
    Is("it is told", registry.LastRefusal(), 34);
    moved.Increment(a, 2);
    moved.Increment(g, -2);
    moved.Decrement(g, 3);
    moved.Observe(h, 7);
    moved.Observe(h, std::chrono::seconds(4));
    Is("a list", moved.TryPublish({a.By(1), h.Of(1)}), 0);
    const std::string text = registry.Text();
    Is("a", At(text, "a_total"), 3);
    Is("g", At(text, "g"), -5);
    Is("h", At(text, "h_sum"), 12);
    all[1] = std::move(moved);
    Is("moved from", moved.TryIncrement(a), 34); // NOLINT: asked on purpose
    Is("the old one was given back", RefusedBy([&] { moved = registry.TakeRecorder(); }), 0);
    Is("and no other", RefusedBy([&] { (void)registry.TakeRecorder(); }), 35);
    all.clear();
    Is("given back", RefusedBy([&] { (void)registry.TakeRecorder(); }), 0);
}

void Refusals() {
    OfTexts();
    OfChildren();
    OfBoards();
    OfCounts();
    OfRecorders();
}
