// A service to copy: two threads do pretended jobs, and the main one answers scrapes over HTTP, by plain sockets.
//
//   service [PORT [CONNECTIONS]]      port 0, which is the default, is one that the system chooses; without a number it
//   answers for ever
#include <dirgwako.hpp>

#include <arpa/inet.h>
#include <netinet/in.h>
#include <sys/socket.h>
#include <sys/time.h>
#include <unistd.h>

#include <atomic>
#include <chrono>
#include <csignal>
#include <cstdio>
#include <cstdlib>
#include <thread>

namespace {

using namespace dirgwako;

/// What the service counts. What shall agree is in one group.
struct Metrics {
    explicit Metrics(const Registry &of)
        : registry(of), open(BuildGauge().Name("jobs_open").Help("Jobs at work.").Group(1).Register(of).Add()),
          jobs(BuildCounter().Name("jobs_total").Help("Jobs by result.").Labels({"result"}).Group(1).Register(of)),
          done(jobs.Add({{"result", "done"}})), failed(jobs.Add({{"result", "failed"}})),
          took(BuildHistogram()
                   .Name("job_seconds")
                   .Help("Time of jobs.")
                   .Buckets({1'000, 5'000, 25'000, 100'000})
                   .Group(1)
                   .Register(of)
                   .Add()) {}

    Registry registry;
    Gauge open;
    Family<Counter> jobs;
    Counter done, failed;
    Histogram took;
};

void Work(const Metrics &metrics, const std::atomic<bool> &is_over) {
    using Clock = std::chrono::steady_clock;
    for (int job = 1; !is_over; ++job) {
        metrics.open.Increment();
        const auto begun = Clock::now();
        std::this_thread::sleep_for(std::chrono::milliseconds(job % 20));
        const Counter &end = job % 10 == 0 ? metrics.failed : metrics.done;
        // One version: a job is open or has ended, and its time is counted where its result is.
        metrics.registry.Publish({metrics.open.By(-1), end.By(1), metrics.took.Of(Clock::now() - begun)});
    }
}

/// The request up to its empty line, or what came of it within five seconds and 8,192 bytes.
std::string Asked(int connection) {
    const timeval patience{5, 0};
    setsockopt(connection, SOL_SOCKET, SO_RCVTIMEO, &patience, sizeof patience);
    setsockopt(connection, SOL_SOCKET, SO_SNDTIMEO, &patience, sizeof patience);
    const auto until = std::chrono::steady_clock::now() + std::chrono::seconds(5);
    std::string request;
    char some[1024];
    while (request.find("\r\n\r\n") == std::string::npos && request.size() < 8192 &&
           std::chrono::steady_clock::now() < until) {
        const ssize_t got = recv(connection, some, sizeof some, 0);
        if (got <= 0) break;
        request.append(some, static_cast<std::size_t>(got));
    }
    return request;
}

void Answer(const Registry &registry, int connection) {
    const std::string request = Asked(connection);
    if (request.empty()) return;
    const std::string reply = registry.Reply(request);
    for (std::size_t sent = 0; sent < reply.size();) {
        const ssize_t more = send(connection, reply.data() + sent, reply.size() - sent, MSG_NOSIGNAL);
        if (more <= 0) return;
        sent += static_cast<std::size_t>(more);
    }
}

/// A socket that listens on this port of 127.0.0.1; the port that it has is printed.
int Listen(int port) {
    const int listener = socket(AF_INET, SOCK_STREAM, 0);
    sockaddr_in address{};
    address.sin_family = AF_INET;
    address.sin_port = htons(static_cast<std::uint16_t>(port));
    address.sin_addr.s_addr = htonl(INADDR_LOOPBACK);
    socklen_t len = sizeof address;
    auto *const any = reinterpret_cast<sockaddr *>(&address);
    const int again = 1;
    if (listener < 0 || setsockopt(listener, SOL_SOCKET, SO_REUSEADDR, &again, sizeof again) != 0 ||
        bind(listener, any, len) != 0 || listen(listener, 64) != 0 || getsockname(listener, any, &len) != 0) {
        std::perror("service");
        std::exit(1);
    }
    std::printf("http://127.0.0.1:%d/metrics\n", ntohs(address.sin_port));
    std::fflush(stdout);
    return listener;
}

} // namespace

int main(int argc, char **argv) {
    const int port = argc > 1 ? std::atoi(argv[1]) : 0;
    long connections = argc > 2 ? std::atol(argv[2]) : -1;
    const Registry registry;
    const Metrics metrics(registry);
    std::atomic<bool> is_over{false};
    std::thread first(Work, std::cref(metrics), std::cref(is_over)),
        second(Work, std::cref(metrics), std::cref(is_over));
    const int listener = Listen(port);
    for (; connections != 0; connections -= connections > 0) {
        const int connection = accept(listener, nullptr, nullptr);
        if (connection < 0) continue;
        try {
            Answer(registry, connection);
        } catch (const Refusal &why) {
            std::fprintf(stderr, "%s\n", why.what());
        }
        close(connection);
    }
    close(listener);
    is_over = true;
    first.join();
    second.join();
    return registry.Refused() != 0;
}
