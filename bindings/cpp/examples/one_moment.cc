// Three threads raise `begun_total` and then `ended_total`, without rest, and observe a value with each end as one
// version. Each scrape shows one moment: no end without its beginning, at most one job a thread that has begun and not
// ended, and as many values as ends.
#include <dirgwako.hpp>

#include <atomic>
#include <cstdlib>
#include <iostream>
#include <thread>

namespace {

constexpr int threads = 3;

long long At(const std::string &text, const std::string &series) {
    const auto at = text.find("\n" + series + " ");
    return at == std::string::npos ? -1 : std::atoll(text.c_str() + at + series.size() + 2);
}

bool IsOneMoment(const std::string &text) {
    const long long open = At(text, "begun_total") - At(text, "ended_total");
    return open >= 0 && open <= threads && At(text, "job_bytes_count") == At(text, "ended_total");
}

} // namespace

int main(int argc, char **argv) {
    using namespace dirgwako;
    const int scrapes = argc > 1 ? std::atoi(argv[1]) : 10'000;
    const Registry registry;
    const auto begun = BuildCounter().Name("begun_total").Help("Jobs that began.").Register(registry).Add();
    const auto ended = BuildCounter().Name("ended_total").Help("Jobs that ended.").Register(registry).Add();
    const auto bytes =
        BuildHistogram().Name("job_bytes").Help("Bytes of jobs.").Buckets({100, 1'000}).Register(registry).Add();

    std::atomic<bool> is_over{false};
    std::vector<std::thread> all;
    for (int i = 0; i < threads; ++i)
        all.emplace_back([&] {
            for (int job = 0; !is_over; ++job) {
                begun.Increment();
                registry.Publish({ended.By(1), bytes.Of(job % 2'000)});
            }
        });

    int torn = 0;
    for (int i = 0; i < scrapes; ++i) torn += !IsOneMoment(registry.Text());
    is_over = true;
    for (auto &it : all) it.join();
    std::cout << scrapes << " scrapes, " << torn << " torn\n";
    return torn != 0;
}
