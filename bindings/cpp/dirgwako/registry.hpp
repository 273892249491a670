// A registry, and what a thread counts with by hand.
#ifndef DIRGWAKO_REGISTRY_HPP
#define DIRGWAKO_REGISTRY_HPP

#include "family.hpp"

namespace dirgwako {

/// What one thread at a time counts with: one of the registry's recorders, which no other thread has meanwhile. It is
/// moved, not copied, and given back at its end. One that was moved from counts nothing (34).
class Recorder {
  public:
    Recorder(Recorder &&other) noexcept : core_(std::move(other.core_)), seat_(std::exchange(other.seat_, nullptr)) {}
    Recorder &operator=(Recorder &&other) noexcept {
        Recorder moved(std::move(other)); // which gives back what this one had
        std::swap(core_, moved.core_);
        std::swap(seat_, moved.seat_);
        return *this;
    }
    ~Recorder() {
        if (seat_ != nullptr) core_->GiveBack(seat_);
    }

    // As the calls of the metrics. What is refused is told by Refused of the metric's registry.

    template <class Metric, class N = int, detail::IfWhole<N> = 0>
    void Increment(const Metric &metric, N by = 1) noexcept {
        Note(metric, TryIncrement(metric, by));
    }
    template <class N = int, detail::IfWhole<N> = 0>
    void Decrement(const Gauge &gauge, N by = 1) noexcept {
        Note(gauge, TryDecrement(gauge, by));
    }
    template <class N, detail::IfWhole<N> = 0>
    void Observe(const Histogram &histogram, N value) noexcept {
        Note(histogram, TryObserve(histogram, value));
    }
    template <class N, class Period>
    void Observe(const Histogram &histogram, std::chrono::duration<N, Period> time) noexcept {
        Note(histogram, TryObserve(histogram, time));
    }

    template <class Metric, class N = int, detail::IfWhole<N> = 0>
    [[nodiscard]] std::uint32_t TryIncrement(const Metric &metric, N by = 1) noexcept {
        if (seat_ == nullptr) return DIRGWAKO_EMPTY;
        return detail::RaiseBy(&seat_->held, detail::Access::ChildOf(metric).handle, by);
    }
    template <class N = int, detail::IfWhole<N> = 0>
    [[nodiscard]] std::uint32_t TryDecrement(const Gauge &gauge, N by = 1) noexcept {
        if (seat_ == nullptr) return DIRGWAKO_EMPTY;
        return detail::LowerBy(&seat_->held, detail::Access::ChildOf(gauge).handle, by);
    }
    template <class N, detail::IfWhole<N> = 0>
    [[nodiscard]] std::uint32_t TryObserve(const Histogram &histogram, N value) noexcept {
        if (seat_ == nullptr) return DIRGWAKO_EMPTY;
        return detail::Observe(&seat_->held, detail::Access::ChildOf(histogram).handle, detail::Whole(value));
    }
    template <class N, class Period>
    [[nodiscard]] std::uint32_t TryObserve(const Histogram &histogram, std::chrono::duration<N, Period> time) noexcept {
        return TryObserve(histogram, histogram.InUnits(time));
    }

    /// Changes of one board as one version: all of them or nothing.
    [[nodiscard]] std::uint32_t TryPublish(std::initializer_list<Change> changes) noexcept {
        if (seat_ == nullptr) return DIRGWAKO_EMPTY;
        return detail::Publish(&seat_->held, changes.begin(), changes.size());
    }

  private:
    friend class Registry;
    Recorder(std::shared_ptr<detail::Core> core, detail::Seat *seat) : core_(std::move(core)), seat_(seat) {}

    template <class Metric>
    static void Note(const Metric &metric, std::uint32_t number) noexcept {
        if (number != DIRGWAKO_OK) detail::Access::RecordOf(metric)->core.Note(number);
    }

    std::shared_ptr<detail::Core> core_;
    detail::Seat *seat_;
};

/// The numbers of a board at one moment, by its metrics: 16 of a metric that is on another one.
class Moment {
  public:
    [[nodiscard]] std::uint64_t Of(const Counter &counter) const { return Found<std::uint64_t>(counter); }
    [[nodiscard]] std::int64_t Of(const Gauge &gauge) const { return Found<std::int64_t>(gauge); }
    /// How many values fell into each bucket alone, their sum and their count.
    [[nodiscard]] dirgwako_totals Of(const Histogram &histogram) const { return Found<dirgwako_totals>(histogram); }

  private:
    friend class Registry;
    Moment() = default;

    template <class Answer, class Metric>
    Answer Found(const Metric &metric) const {
        Answer answer{};
        detail::Check(detail::Find(read_, detail::Access::ChildOf(metric).handle, answer), metric.Name());
        return answer;
    }

    detail::Moment read_;
};

/// Boards and their metrics, for any thread. A copy is the same registry, which lives as long as one of them, or a
/// family, a metric, a recorder or a tally of it.
class Registry {
  public:
    /// What comes where a name is registered again: the same family, or a refusal (19).
    enum class InsertBehavior { Merge, Throw };

    explicit Registry(InsertBehavior again = InsertBehavior::Merge)
        : core_(new detail::Core(again == InsertBehavior::Merge)) {}
    Registry(const Registry &) = default;
    Registry &operator=(const Registry &) = default;
    ~Registry() = default;

    /// The text of a scrape, in the text exposition format 0.0.4: all series of a board at one moment. A scrape that is
    /// given up (14), which is hardly ever one, is made again, so many times at most.
    [[nodiscard]] std::string Text(int tries = 100) const {
        std::string text;
        detail::Check(TryText(text, tries), "a scrape");
        return text;
    }

    /// 0, or the number of a refusal, after which the text is none.
    [[nodiscard]] std::uint32_t TryText(std::string &text, int tries = 100) const {
        return Filled(text, tries, [this](std::string &buffer, std::size_t &len) noexcept {
            return detail::Scrape(core_->page, buffer, len);
        });
    }

    /// The reply to a request of HTTP/1.1 that was read up to its empty line, head and body: 200 with a scrape for `GET
    /// /metrics`.
    [[nodiscard]] std::string Reply(std::string_view request) const {
        std::string text;
        const auto reply = [this, request](std::string &buffer, std::size_t &len) noexcept {
            return detail::Reply(core_->page, request, buffer, len);
        };
        detail::Check(Filled(text, 1, reply), "a reply");
        return text;
    }

    /// The numbers of a metric's board at one moment, by a scrape of that board.
    template <class Metric>
    [[nodiscard]] Moment Read(const Metric &metric) const {
        Moment moment;
        const std::lock_guard<std::mutex> one(core_->lock);
        detail::Check(detail::Read(core_->page, detail::Access::ChildOf(metric).handle.registry, moment.read_),
                      metric.Name());
        return moment;
    }

    /// Changes of one board as one version: a scrape sees all of them or none. Where one is refused, none is counted,
    /// and Refused tells it.
    void Publish(std::initializer_list<Change> changes) const noexcept { Note(TryPublish(changes)); }
    void Publish(const std::vector<Change> &changes) const noexcept { Note(TryPublish(changes)); }

    /// 0, or the number of a refusal, after which nothing is counted.
    [[nodiscard]] std::uint32_t TryPublish(std::initializer_list<Change> changes) const noexcept {
        return TryPublish(changes.begin(), changes.size());
    }
    [[nodiscard]] std::uint32_t TryPublish(const std::vector<Change> &changes) const noexcept {
        return TryPublish(changes.data(), changes.size());
    }

    /// A recorder that no thread has. Those that are taken so are not there for threads that count without one. 35,
    /// none is left.
    [[nodiscard]] Recorder TakeRecorder() const {
        detail::Seat *const taken = core_->Take();
        detail::Check(taken == nullptr ? DIRGWAKO_NO_WORKER : DIRGWAKO_OK, "a recorder");
        return {core_, taken};
    }

    /// Makes a further board, so that later children have its memory already.
    void AddBoard() const {
        const std::lock_guard<std::mutex> one(core_->lock);
        detail::Check(detail::AddBoard(core_->page), "a board");
    }

    /// How many boards there are.
    [[nodiscard]] std::size_t Boards() const {
        std::size_t count = 0;
        const std::lock_guard<std::mutex> one(core_->lock);
        detail::Check(detail::CountBoards(core_->page, count), "boards");
        return count;
    }

    /// How often a count was refused whose caller was not told, and the number of the last such refusal, 0 where there
    /// was none.
    [[nodiscard]] std::uint64_t Refused() const noexcept { return core_->refused.load(std::memory_order_relaxed); }
    [[nodiscard]] std::uint32_t LastRefusal() const noexcept {
        return core_->last_refused.load(std::memory_order_relaxed);
    }

  private:
    template <class>
    friend class Builder;
    friend class Tally;

    void Note(std::uint32_t number) const noexcept {
        if (number != DIRGWAKO_OK) core_->Note(number);
    }

    std::uint32_t TryPublish(const Change *changes, std::size_t count) const noexcept {
        return detail::Count(*core_, core_->serial, [changes, count](dirgwako_recorder *recorder) noexcept {
            return detail::Publish(recorder, changes, count);
        });
    }

    /// Fills a text under the registry's lock, in a buffer that is as long as the last one had to be, and some more.
    template <class Fill>
    [[nodiscard]] std::uint32_t Filled(std::string &text, int tries, Fill fill) const {
        for (;;) {
            std::size_t len = 0;
            std::uint32_t number = DIRGWAKO_OK;
            {
                const std::lock_guard<std::mutex> one(core_->lock);
                text.resize(core_->room);
                number = fill(text, len);
                if (number == DIRGWAKO_TOO_SHORT) core_->room = len + len / 4;
            }
            const bool is_again = number == DIRGWAKO_TOO_SHORT || (number == given_up && --tries > 0);
            if (is_again) continue;
            text.resize(number == DIRGWAKO_OK ? len : 0);
            return number;
        }
    }

    static constexpr std::uint32_t given_up = 14;
    std::shared_ptr<detail::Core> core_;
};

template <class Metric>
const Family<Metric> Builder<Metric>::Register(const Registry &registry) const {
    using Handle = typename Metric::HandleType;
    auto &record = detail::FindOrMake<Handle>(*registry.core_, Told());
    // (shares the core, which has the record)
    return Family<Metric>(std::shared_ptr<detail::Record<Handle>>(registry.core_, &record));
}

} // namespace dirgwako
#endif
