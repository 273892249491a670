// Counters, gauges and histograms: values that any thread may copy and count with.
//
// What counts never throws and never waits for a scrape. What is refused then (a number that would pass 2^48 - 1, above
// all) is not counted, and Registry::Refused tells how often that was; the calls that begin with Try answer the number
// instead.
#ifndef DIRGWAKO_METRICS_HPP
#define DIRGWAKO_METRICS_HPP

#include "core.hpp"

#include <chrono>
#include <type_traits>

namespace dirgwako {

template <class Metric>
class Family;

namespace detail {

template <class N>
using IfWhole = std::enable_if_t<std::is_integral_v<N> && !std::is_same_v<N, bool>, int>;
template <class N>
using IfFloat = std::enable_if_t<std::is_floating_point_v<N>, int>;

/// What is below 0 becomes a number that is too large for any metric, and is refused by 12.
template <class N>
constexpr std::uint64_t Whole(N by) noexcept {
    return static_cast<std::uint64_t>(by);
}

template <class N>
constexpr bool IsBelowZero([[maybe_unused]] N by) noexcept {
    if constexpr (std::is_signed_v<N>) return by < 0;
    return false;
}

/// How far below 0 it is.
template <class N>
constexpr std::uint64_t Below(N by) noexcept {
    return std::uint64_t{0} - static_cast<std::uint64_t>(by);
}

template <class N>
std::uint32_t RaiseBy(dirgwako_recorder *recorder, const dirgwako_counter &counter, N by) noexcept {
    return Raise(recorder, counter, Whole(by));
}
template <class N>
std::uint32_t RaiseBy(dirgwako_recorder *recorder, const dirgwako_gauge &gauge, N by) noexcept {
    return IsBelowZero(by) ? Lower(recorder, gauge, Below(by)) : Raise(recorder, gauge, Whole(by));
}
template <class N>
std::uint32_t LowerBy(dirgwako_recorder *recorder, const dirgwako_gauge &gauge, N by) noexcept {
    return IsBelowZero(by) ? Raise(recorder, gauge, Below(by)) : Lower(recorder, gauge, Whole(by));
}

/// A child of a family: the library's handle, its number among all children of the registry, and that of its board.
template <class Handle>
struct Child {
    Handle handle;
    std::size_t number;
    std::size_t board;
};

/// What the metrics have in common. A copy is the same metric, and there is no move: so none is ever empty.
template <class Handle>
class Metric {
  public:
    using HandleType = Handle;

    Metric(const Metric &) = default;
    Metric &operator=(const Metric &) = default;
    ~Metric() = default;

    /// The name of its family.
    [[nodiscard]] const std::string &Name() const noexcept { return record_->name; }

  protected:
    Metric(std::shared_ptr<RecordBase> record, const Child<Handle> &child)
        : record_(std::move(record)), child_(child) {}

    template <class Call>
    [[nodiscard]] std::uint32_t Counted(Call call) const noexcept {
        return Count(record_->core, record_->serial, call);
    }

    void Note(std::uint32_t number) const noexcept {
        if (number != DIRGWAKO_OK) record_->core.Note(number);
    }

    /// What the metric's board has of it now.
    template <class Found>
    [[nodiscard]] Found Now() const {
        Moment moment;
        Found found{};
        {
            const std::lock_guard<std::mutex> one(record_->core.lock);
            Check(Read(record_->core.page, child_.handle.registry, moment), record_->name);
        }
        Check(Find(moment, child_.handle, found), record_->name);
        return found;
    }

    friend struct Access;
    std::shared_ptr<RecordBase> record_; // shares the core, which has the record
    Child<Handle> child_;
};

/// By which the other classes of this package look into a metric.
struct Access {
    template <class Handle>
    static const std::shared_ptr<RecordBase> &RecordOf(const Metric<Handle> &metric) noexcept {
        return metric.record_;
    }
    template <class Handle>
    static const Child<Handle> &ChildOf(const Metric<Handle> &metric) noexcept {
        return metric.child_;
    }
};

} // namespace detail

/// A number that rises.
class Counter : public detail::Metric<dirgwako_counter> {
  public:
    void Increment() const noexcept { Note(TryIncrement()); }
    template <class N, detail::IfWhole<N> = 0>
    void Increment(N by) const noexcept {
        Note(TryIncrement(by));
    }
    template <class N, detail::IfFloat<N> = 0>
    void Increment(N) const = delete; // numbers are whole: count in a smaller unit, and have it shown by Digits

    /// 0, or the number of a refusal, after which nothing is counted.
    template <class N = int, detail::IfWhole<N> = 0>
    [[nodiscard]] std::uint32_t TryIncrement(N by = 1) const noexcept {
        return Counted(
            [this, by](dirgwako_recorder *recorder) noexcept { return detail::RaiseBy(recorder, child_.handle, by); });
    }

    /// That it rises, for Publish.
    template <class N, detail::IfWhole<N> = 0>
    [[nodiscard]] Change By(N by) const noexcept {
        return detail::Raises(child_.handle, detail::Whole(by));
    }

    /// The total over all threads, by a scrape of its board: it costs as much as one.
    [[nodiscard]] std::uint64_t Value() const { return Now<std::uint64_t>(); }

  private:
    friend class Family<Counter>;
    Counter(std::shared_ptr<detail::RecordBase> record, const detail::Child<HandleType> &child)
        : Metric(std::move(record), child) {}
};

/// A number that rises and falls.
class Gauge : public detail::Metric<dirgwako_gauge> {
  public:
    void Increment() const noexcept { Note(TryIncrement()); }
    void Decrement() const noexcept { Note(TryDecrement()); }
    template <class N, detail::IfWhole<N> = 0>
    void Increment(N by) const noexcept {
        Note(TryIncrement(by));
    }
    template <class N, detail::IfWhole<N> = 0>
    void Decrement(N by) const noexcept {
        Note(TryDecrement(by));
    }
    template <class N, detail::IfFloat<N> = 0>
    void Increment(N) const = delete; // numbers are whole: count in a smaller unit, and have it shown by Digits
    template <class N, detail::IfFloat<N> = 0>
    void Decrement(N) const = delete; // numbers are whole: count in a smaller unit, and have it shown by Digits
    template <class N>
    void Set(N) const = delete;             // a gauge is the sum of all threads' ups and downs: add the difference
    void SetToCurrentTime() const = delete; // the same

    /// 0, or the number of a refusal, after which nothing is counted. What is below 0 lowers it.
    template <class N = int, detail::IfWhole<N> = 0>
    [[nodiscard]] std::uint32_t TryIncrement(N by = 1) const noexcept {
        return Counted(
            [this, by](dirgwako_recorder *recorder) noexcept { return detail::RaiseBy(recorder, child_.handle, by); });
    }
    template <class N = int, detail::IfWhole<N> = 0>
    [[nodiscard]] std::uint32_t TryDecrement(N by = 1) const noexcept {
        return Counted(
            [this, by](dirgwako_recorder *recorder) noexcept { return detail::LowerBy(recorder, child_.handle, by); });
    }

    /// That it rises, or falls where `by` is below 0, for Publish.
    template <class N, detail::IfWhole<N> = 0>
    [[nodiscard]] Change By(N by) const noexcept {
        return detail::IsBelowZero(by) ? detail::Lowers(child_.handle, detail::Below(by))
                                       : detail::Raises(child_.handle, detail::Whole(by));
    }

    /// The sum over all threads, by a scrape of its board: it costs as much as one.
    [[nodiscard]] std::int64_t Value() const { return Now<std::int64_t>(); }

  private:
    friend class Family<Gauge>;
    Gauge(std::shared_ptr<detail::RecordBase> record, const detail::Child<HandleType> &child)
        : Metric(std::move(record), child) {}
};

/// How many values were at most each of its bounds, their sum and their count.
class Histogram : public detail::Metric<dirgwako_histogram> {
  public:
    /// Upper bounds: rising, at most 24.
    using BucketBoundaries = std::vector<std::uint64_t>;

    template <class N, detail::IfWhole<N> = 0>
    void Observe(N value) const noexcept {
        Note(TryObserve(value));
    }
    template <class N, detail::IfFloat<N> = 0>
    void Observe(N) const = delete; // numbers are whole: observe a smaller unit, and have it shown by Digits

    /// A time, in the unit that the family's digits make of seconds: with 6 in whole microseconds, without any in whole
    /// seconds.
    template <class N, class Period>
    void Observe(std::chrono::duration<N, Period> time) const noexcept {
        Note(TryObserve(time));
    }

    /// 0, or the number of a refusal, after which nothing is counted.
    template <class N, detail::IfWhole<N> = 0>
    [[nodiscard]] std::uint32_t TryObserve(N value) const noexcept {
        return Counted([this, value](dirgwako_recorder *recorder) noexcept {
            return detail::Observe(recorder, child_.handle, detail::Whole(value));
        });
    }

    template <class N, class Period>
    [[nodiscard]] std::uint32_t TryObserve(std::chrono::duration<N, Period> time) const noexcept {
        return TryObserve(InUnits(time));
    }

    /// That the value is counted, for Publish.
    template <class N, detail::IfWhole<N> = 0>
    [[nodiscard]] Change Of(N value) const noexcept {
        return detail::Observes(child_.handle, detail::Whole(value));
    }
    template <class N, class Period>
    [[nodiscard]] Change Of(std::chrono::duration<N, Period> time) const noexcept {
        return Of(InUnits(time));
    }

    /// How many values fell into each bucket alone, their sum and their count, all of one moment, by a scrape of its
    /// board.
    [[nodiscard]] dirgwako_totals Value() const { return Now<dirgwako_totals>(); }

  private:
    friend class Family<Histogram>;
    Histogram(std::shared_ptr<detail::RecordBase> record, const detail::Child<HandleType> &child)
        : Metric(std::move(record), child) {}

    friend class Recorder;
    friend class Tally;
    template <class N, class Period>
    [[nodiscard]] std::int64_t InUnits(std::chrono::duration<N, Period> time) const noexcept {
        return std::chrono::duration_cast<std::chrono::nanoseconds>(time).count() / record_->unit;
    }
};

} // namespace dirgwako
#endif
