// The tests: they end in `N passed, 0 failed`. Here are the ones of names, and what all share.
#include "test.hpp"

#include <cstdio>
#include <cstdlib>
#include <mutex>

using namespace dirgwako;

std::string said;
static unsigned passed, failed;
static std::mutex telling;

void Is(const char *what, long long got, long long want) {
    const std::lock_guard<std::mutex> one(telling);
    if (got == want) {
        ++passed;
        return;
    }
    ++failed;
    std::fprintf(stderr, "%s: %lld, not %lld\n", what, got, want);
}

long long At(const std::string &text, const std::string &series) {
    const auto at = ("\n" + text).find("\n" + series + " ");
    return at == std::string::npos ? -1 : std::atoll(text.c_str() + at + series.size() + 1);
}

bool IsLarge() { return detail::BuiltFor().numbers > 400; }

Counter CounterOf(const Registry &registry, const std::string &name) {
    return BuildCounter().Name(name).Help("Counts.").Register(registry).Add();
}
Gauge GaugeOf(const Registry &registry, const std::string &name) {
    return BuildGauge().Name(name).Help("Rises and falls.").Register(registry).Add();
}
Histogram HistogramOf(const Registry &registry, const std::string &name) {
    return BuildHistogram().Name(name).Help("Values.").Buckets({10, 100}).Register(registry).Add();
}

// A program for prometheus-cpp: references to families and metrics, a shared registry, labels and bounds that the
// children tell. Catches a call that such a program makes and that does not compile, and a label that goes to another's
// place.
static void AsThePeer() {
    auto registry = std::make_shared<Registry>();
    auto &packets = BuildCounter().Name("packets_total").Help("Packets.").Labels({{"host", "a"}}).Register(*registry);
    auto &tcp = packets.Add({{"protocol", "tcp"}, {"direction", "rx"}});
    auto &udp = packets.Add({{"protocol", "udp"}, {"direction", "tx"}});
    tcp.Increment();
    tcp.Increment(2);
    udp.Increment(5u);
    packets.Add({{"direction", "rx"}, {"protocol", "tcp"}}).Increment();
    auto &open = BuildGauge().Name("open").Help("Open.").Register(*registry).Add({});
    open.Increment(5);
    open.Decrement(9);
    open.Increment();
    open.Decrement();
    auto &bytes = BuildHistogram().Name("bytes").Help("Bytes.").Register(*registry).Add(
        {{"way", "in"}}, Histogram::BucketBoundaries{10, 100});
    bytes.Observe(100);
    bytes.Observe(101);
    const std::string text = registry->Text();
    Is("tcp", At(text, R"(packets_total{host="a",direction="rx",protocol="tcp"})"), 4);
    Is("udp", At(text, R"(packets_total{host="a",direction="tx",protocol="udp"})"), 5);
    Is("open", At(text, "open"), -4);
    Is("100", At(text, R"(bytes_bucket{way="in",le="100"})"), 1);
    Is("sum", At(text, R"(bytes_sum{way="in"})"), 201);
    Is("tcp by itself", static_cast<long long>(tcp.Value()), 4);
    Is("open by itself", open.Value(), -4);
    Is("bytes by themselves", static_cast<long long>(bytes.Value().sum), 201);
    Is("the constant label", packets.GetConstantLabels().at("host") == "a", 1);
    Is("the name", packets.GetName() == "packets_total" && tcp.Name() == "packets_total", 1);
}

// Catches a family that is registered twice under one name, and one that is merged with another that differs.
static void Merged() {
    Registry registry;
    auto first = BuildCounter().Name("a_total").Help("A.").Register(registry);
    BuildCounter().Name("a_total").Help("B.").Labels({"path"}).Register(registry).Add({{"path", "/"}}).Increment();
    first.Add({{"path", "/"}}).Increment(2);
    Is("one child", At(registry.Text(), R"(a_total{path="/"})"), 3);
    Is("it is there", first.Has({{"path", "/"}}), 1);
    Is("another is not", first.Has({{"path", "/b"}}), 0);
    Is("of another label", first.Has({{"way", "/"}}), 0);
    Is("other labels", RefusedBy([&] { BuildCounter().Name("a_total").Labels({"way"}).Register(registry); }), 19);
    Is("other constants", RefusedBy([&] {
           BuildCounter().Name("a_total").Labels({{"a", "b"}}).Register(registry);
       }),
       19);
    Is("other digits", RefusedBy([&] { BuildCounter().Name("a_total").Digits(3).Register(registry); }), 19);
    Is("another group", RefusedBy([&] { BuildCounter().Name("a_total").Group(3).Register(registry); }), 19);
    Is("another kind", RefusedBy([&] { BuildGauge().Name("a_total").Register(registry); }), 19);
    Registry strict(Registry::InsertBehavior::Throw);
    BuildCounter().Name("a_total").Help("A.").Register(strict);
    Is("again", RefusedBy([&] { BuildCounter().Name("a_total").Help("A.").Register(strict); }), 19);
}

// Catches labels in the order of their names where the builder told another, and values that stand for each other.
static void InOrder() {
    Registry registry;
    const std::vector<std::string> names{"way", "code"};
    auto family = BuildCounter().Name("a_total").Help("A.").Labels(names).Register(registry);
    family.Add({{"code", "200"}, {"way", "in"}}).Increment(7);
    family.Add({{"code", "in"}, {"way", "200"}}).Increment(8);
    family.Add({{"code", ""}, {"way", "200in"}}).Increment(9);
    const std::string text = registry.Text();
    Is("in", At(text, R"(a_total{way="in",code="200"})"), 7);
    Is("the other way round", At(text, R"(a_total{way="200",code="in"})"), 8);
    Is("an empty one", At(text, R"(a_total{way="200in",code=""})"), 9);
}

// Catches a time in another unit than the family's, and bounds that are not shifted with the values.
static void Seconds() {
    using namespace std::chrono_literals;
    Registry registry;
    auto took = BuildHistogram().Name("took_seconds").Help("Took.").Buckets({5'000, 100'000}).Register(registry).Add();
    took.Observe(4'000);
    took.Observe(250ms);
    took.Observe(std::chrono::duration<double>(0.001));
    registry.Publish({took.Of(5'500'999ns)});
    const std::string text = registry.Text();
    Is("5 ms", At(text, R"(took_seconds_bucket{le="0.005"})"), 2);
    Is("100 ms", At(text, R"(took_seconds_bucket{le="0.1"})"), 3);
    Is("the sum", text.find("\ntook_seconds_sum 0.2605\n") != std::string::npos, 1);
    auto whole = BuildHistogram().Name("age").Help("Ages.").Buckets({60}).Register(registry).Add();
    whole.Observe(2min);
    Is("seconds", At(registry.Text(), "age_sum"), 120);
    auto told = BuildHistogram().Name("told_seconds").Help("T.").Buckets({60}).Digits(0).Register(registry).Add();
    told.Observe(2min);
    Is("seconds, as told", At(registry.Text(), "told_seconds_sum"), 120);
    auto fine = BuildHistogram().Name("fine").Help("Fine.").Buckets({60}).Digits(9).Register(registry).Add();
    fine.Observe(7ns);
    Is("nanoseconds", static_cast<long long>(fine.Value().sum), 7);
}

// Catches a gauge that is raised by what is below 0, and the least number of a type.
static void Signs() {
    Registry registry;
    auto gauge = GaugeOf(registry, "a");
    gauge.Increment(-3);
    gauge.Decrement(-10);
    Is("ups and downs", gauge.Value(), 7);
    registry.Publish({gauge.By(-9), gauge.By(1u)});
    Is("in a list", gauge.Value(), -1);
    Is("the least", gauge.TryIncrement(INT64_MIN), 12);
    gauge.Increment(static_cast<signed char>(-128));
    Is("a small type", gauge.Value(), -129);
    auto counter = CounterOf(registry, "a_total");
    Is("below 0", counter.TryIncrement(-1), 12);
    Is("a value below 0", HistogramOf(registry, "h").TryObserve(-1), 12);
    Is("nothing was counted", At(registry.Text(), "a_total") + At(registry.Text(), "h_count"), 0);
}

// The status of the reply to a request.
static long long StatusOf(const Registry &registry, const std::string &request) {
    return std::atoll(registry.Reply(request).substr(std::string("HTTP/1.1 ").size()).c_str());
}

// Catches a reply that is not to the request, and a text that is cut where it grew since the last one.
static void Texts() {
    Registry registry;
    auto family = BuildCounter().Name("a_total").Help("A.").Labels({"n"}).Register(registry);
    for (int i = 0; i < 50; ++i) family.Add({{"n", std::string(200, 'v') + std::to_string(i)}}).Increment(i);
    const std::string last = "a_total{n=\"" + std::string(200, 'v') + "49\"}";
    Is("the last one", At(registry.Text(), last), 49);
    std::string text = "before";
    Is("a text", registry.TryText(text), 0);
    Is("is the same", text == registry.Text() && text.back() == '\n', 1);
    Is("a scrape", StatusOf(registry, "GET /metrics HTTP/1.1\r\nHost: a\r\n\r\n"), 200);
    Is("its number", At(registry.Reply("GET /metrics HTTP/1.1\r\nHost: a\r\n\r\n"), last), 49);
    Is("another page", StatusOf(registry, "GET / HTTP/1.1\r\nHost: a\r\n\r\n"), 404);
    Is("another method", StatusOf(registry, "PUT /metrics HTTP/1.1\r\nHost: a\r\n\r\n"), 405);
    Is("no byte", RefusedBy([&] { (void)registry.Reply(""); }), 26);
}

void Names() {
    AsThePeer();
    Merged();
    InOrder();
    Seconds();
    Signs();
    Texts();
}

int main() {
    Names();
    Refusals();
    Ends();
    Tallies();
    Threads();
    std::printf("%u passed, %u failed\n", passed, failed);
    return failed != 0;
}
