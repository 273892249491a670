// A tally: what a loop counts for itself, and publishes now and then.
#ifndef DIRGWAKO_TALLY_HPP
#define DIRGWAKO_TALLY_HPP

#include "registry.hpp"

namespace dirgwako {

/// Counts of one thread at a time, of any metrics of a registry, published together: at each `every`th call, where a
/// board's list is full, by Flush, and at its end. Of each board that is one version: a scrape sees none of its counts,
/// and then all of them.
///
/// A counter and a gauge take one place of their board's list, however often they change, and each observed value takes
/// one of its own. Where a version is refused, its changes are published one by one, so that only what is refused by
/// itself is not counted.
class Tally {
  public:
    explicit Tally(const Registry &registry, std::uint32_t every = 1000)
        : core_(registry.core_), serial_(core_->serial), room_(core_->abi.changes), every_(every == 0 ? 1 : every),
          left_(every_) {}
    Tally(const Tally &) = delete;
    Tally &operator=(const Tally &) = delete;
    ~Tally() { Flush(); }

    template <class N = int, detail::IfWhole<N> = 0>
    void Increment(const Counter &counter, N by = 1) noexcept {
        const std::uint64_t whole = detail::Whole(by);
        Change *const change = Find(counter);
        if (change == nullptr || whole > most - change->by) return Begin(counter, counter.By(by));
        change->by += whole;
        Step();
    }

    /// Of a gauge the list has the difference alone.
    template <class N = int, detail::IfWhole<N> = 0>
    void Increment(const Gauge &gauge, N by = 1) noexcept {
        Move(gauge, gauge.By(by));
    }
    template <class N = int, detail::IfWhole<N> = 0>
    void Decrement(const Gauge &gauge, N by = 1) noexcept {
        Change change = gauge.By(by);
        change.kind = change.kind == falls ? rises : falls;
        Move(gauge, change);
    }

    template <class N, detail::IfWhole<N> = 0>
    void Observe(const Histogram &histogram, N value) noexcept {
        Append(histogram, histogram.Of(value));
    }
    template <class N, class Period>
    void Observe(const Histogram &histogram, std::chrono::duration<N, Period> time) noexcept {
        Append(histogram, histogram.Of(time));
    }

    /// Publishes what was counted since. What is refused is told by the registry's Refused.
    void Flush() noexcept {
        (void)FlushAll([this](std::uint32_t number) noexcept { core_->Note(number); });
    }

    /// 0, or the number of the last refusal.
    [[nodiscard]] std::uint32_t TryFlush() noexcept {
        return FlushAll([](std::uint32_t) noexcept {});
    }

  private:
    static constexpr std::uint64_t most = (std::uint64_t{1} << 48) - 1;
    static constexpr std::uint64_t rises = 2, falls = 3; // the kinds of a gauge's changes

    /// What is listed of a board: so many of these changes, all of which the board's versions have room for.
    struct List {
        std::vector<Change> changes;
        std::size_t count = 0;
    };

    /// The change of a metric that has a place, or null.
    template <class Handle>
    Change *Find(const detail::Metric<Handle> &metric) noexcept {
        const auto &child = detail::Access::ChildOf(metric);
        if (detail::Access::RecordOf(metric)->serial != serial_ || child.number >= places_.size()) return nullptr;
        return places_[child.number];
    }

    void Step() noexcept {
        if (--left_ == 0) Flush();
    }

    /// Lists the first change of a metric since the last flush, or one by which its number would be too large for one
    /// change.
    template <class Handle>
    [[gnu::noinline]] void Begin(const detail::Metric<Handle> &metric, const Change &change) noexcept {
        if (Find(metric) != nullptr) Flush();
        const std::size_t number = detail::Access::ChildOf(metric).number;
        if (change.by > most || !HasPlace(metric, number)) return AtOnce(metric, change);
        List &list = lists_[detail::Access::ChildOf(metric).board];
        list.changes[list.count++] = change;
        places_[number] = &list.changes[list.count - 1];
        owners_.push_back(number);
        Step();
    }

    /// Adds to the difference of a gauge, which is below 0 where it falls.
    void Move(const Gauge &gauge, const Change &change) noexcept {
        Change *const listed = Find(gauge);
        if (listed == nullptr || change.by > most) return Begin(gauge, change);
        const auto have = static_cast<std::int64_t>(listed->kind == falls ? 0 - listed->by : listed->by);
        const auto more = static_cast<std::int64_t>(change.kind == falls ? 0 - change.by : change.by);
        const std::int64_t sum = have + more;
        const std::uint64_t size = sum < 0 ? 0 - static_cast<std::uint64_t>(sum) : static_cast<std::uint64_t>(sum);
        if (size > most) return Begin(gauge, change);
        listed->kind = sum < 0 ? falls : rises;
        listed->by = size;
        Step();
    }

    /// Lists a value.
    void Append(const Histogram &histogram, const Change &change) noexcept {
        if (change.value > most || (!HasRoom(histogram) && !HasPlace(histogram, 0))) return AtOnce(histogram, change);
        List &list = lists_[detail::Access::ChildOf(histogram).board];
        list.changes[list.count++] = change;
        Step();
    }

    /// Whether the metric is of this registry, and the list of its board has room.
    template <class Handle>
    bool HasRoom(const detail::Metric<Handle> &metric) const noexcept {
        const std::size_t board = detail::Access::ChildOf(metric).board;
        return detail::Access::RecordOf(metric)->serial == serial_ && board < lists_.size() &&
               lists_[board].count < lists_[board].changes.size();
    }

    /// The same, after room was made, by a flush or by memory; and there is a place of this number.
    template <class Handle>
    [[gnu::noinline]] bool HasPlace(const detail::Metric<Handle> &metric, std::size_t number) noexcept {
        if (detail::Access::RecordOf(metric)->serial != serial_) return false;
        try {
            const std::size_t board = detail::Access::ChildOf(metric).board;
            if (number >= places_.size()) places_.resize(std::max(number + 1, 2 * places_.size()));
            owners_.reserve(places_.size());
            if (board >= lists_.size()) lists_.resize(board + 1);
            if (lists_[board].changes.empty()) lists_[board].changes.resize(room_);
        } catch (const std::bad_alloc &) {
            return false;
        }
        if (!HasRoom(metric)) Flush();
        return true;
    }

    /// Counts what has no place: memory is wanting, or it is refused, as what is of another registry, or too large.
    template <class Handle>
    void AtOnce(const detail::Metric<Handle> &metric, const Change &change) noexcept {
        const std::uint32_t number = Publish(&change, 1);
        if (number != DIRGWAKO_OK) detail::Access::RecordOf(metric)->core.Note(number);
    }

    [[nodiscard]] std::uint32_t Publish(const Change *changes, std::size_t count) const noexcept {
        return detail::Count(*core_, serial_, [changes, count](dirgwako_recorder *recorder) noexcept {
            return detail::Publish(recorder, changes, count);
        });
    }

    template <class Tell>
    [[gnu::noinline]] std::uint32_t FlushAll(Tell tell) noexcept {
        std::uint32_t answer = DIRGWAKO_OK;
        for (List &list : lists_) {
            if (list.count != 0 && Publish(list.changes.data(), list.count) != DIRGWAKO_OK) {
                for (std::size_t i = 0; i < list.count; ++i) {
                    const std::uint32_t number = Publish(&list.changes[i], 1);
                    if (number == DIRGWAKO_OK) continue;
                    answer = number;
                    tell(number);
                }
            }
            list.count = 0;
        }
        for (const std::size_t it : owners_) places_[it] = nullptr;
        owners_.clear();
        left_ = every_;
        return answer;
    }

    std::shared_ptr<detail::Core> core_;
    std::uint64_t serial_;
    std::size_t room_;                // of a list: the most changes of one version
    std::uint32_t every_, left_;      // how many calls there are from flush to flush, and until the next
    std::vector<Change *> places_;    // by the number of a metric: its change in its board's list, or null
    std::vector<std::size_t> owners_; // the numbers of those that have a place
    std::vector<List> lists_;         // by the number of a board; a list that has memory stays where it is
};

} // namespace dirgwako
#endif
