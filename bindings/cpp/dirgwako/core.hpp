// What is behind a registry: its boards, the recorders by which threads count, and which thread has which.
//
// All recorders are taken when the registry is made. The first is common to threads, behind a lock; each of the others
// is of one thread, from its first count on until it ends, or of a Recorder. So no count meets the registry's lock, and
// none is refused where there are more threads.
#ifndef DIRGWAKO_CORE_HPP
#define DIRGWAKO_CORE_HPP

#include "refusal.hpp"

#include <algorithm>
#include <atomic>
#include <map>
#include <memory>
#include <mutex>
#include <new>
#include <utility>

namespace dirgwako::detail {

// (constant and without destructors, so that they may be used before main and after it)
inline std::atomic<std::uint64_t> last_serial{0};

class Core;

/// What a metric and its family have in common, whatever their kind. It lives as long as the core, which has it.
class RecordBase {
  public:
    RecordBase(Core &of, std::uint64_t number, std::string_view called, std::size_t digits)
        : serial(number), core(of), name(called), unit(1'000'000'000) {
        for (std::size_t i = 0; i < std::min<std::size_t>(digits, 9); ++i) unit /= 10;
    }
    RecordBase(const RecordBase &) = delete;
    RecordBase &operator=(const RecordBase &) = delete;
    virtual ~RecordBase() = default;

    const std::uint64_t serial; // of the core: beside what else a count reads
    Core &core;
    const std::string name;
    std::int64_t unit; // what 1 is in nanoseconds, of a family that shows seconds
};

/// Lives as long as a registry, a family, a metric, a recorder or a tally of it, and never because a thread has
/// counted.
class Core : public std::enable_shared_from_this<Core> {
  public:
    explicit Core(bool merges)
        : serial(last_serial.fetch_add(1, std::memory_order_relaxed) + 1), is_merging(merges), abi(Asked()),
          seats_(Checked(page), abi.workers) {
        Check(seats_.count == 0 ? DIRGWAKO_NO_WORKER : DIRGWAKO_OK, "a registry");
        // (the first is the common one; there are 32 at most)
        spare_.store(static_cast<std::uint32_t>((std::uint64_t{1} << seats_.count) - 2), std::memory_order_release);
    }

    /// A recorder that nobody has, or null. Whoever had it has given it back before: the bit is stored with release
    /// order.
    Seat *Take() noexcept {
        std::uint32_t seen = spare_.load(std::memory_order_relaxed);
        while (seen != 0) {
            const std::uint32_t rest = seen & (seen - 1);
            if (spare_.compare_exchange_weak(seen, rest, std::memory_order_acquire, std::memory_order_relaxed))
                return &seats_.all[PlaceOf(seen ^ rest)];
        }
        return nullptr;
    }

    void GiveBack(const Seat *seat) noexcept {
        const auto place = static_cast<std::size_t>(seat - seats_.all.data());
        spare_.fetch_or(std::uint32_t{1} << place, std::memory_order_release);
    }

    /// Counts by the recorder that threads share.
    template <class Call>
    std::uint32_t Together(Call &call) noexcept {
        const std::lock_guard<std::mutex> one(common_);
        return call(&seats_.all[0].held);
    }

    /// That a count was refused which nobody was told of.
    void Note(std::uint32_t number) noexcept {
        refused.fetch_add(1, std::memory_order_relaxed);
        last_refused.store(number, std::memory_order_relaxed);
    }

    /// The number of the board of this id, in the order in which they were met. The lock is held.
    std::size_t BoardOf(std::uint64_t id) {
        const auto found = std::find(boards_.begin(), boards_.end(), id);
        if (found != boards_.end()) return static_cast<std::size_t>(found - boards_.begin());
        boards_.push_back(id);
        return boards_.size() - 1;
    }

    const std::uint64_t serial; // that no other registry of this process ever has, as an address may
    const bool is_merging;
    const dirgwako_abi abi;

    std::mutex families_lock; // taken before the lock of a family, and that before `lock`
    std::map<std::string, std::unique_ptr<RecordBase>, std::less<>> families;

    std::mutex lock; // of what stands below
    Page page;
    std::size_t room = 4096; // what the last text needed, and some more
    std::size_t children = 0;

    std::atomic<std::uint64_t> refused{0};
    std::atomic<std::uint32_t> last_refused{0};

  private:
    static dirgwako_abi Asked() {
        const dirgwako_abi abi = BuiltFor();
        const bool is_alike = abi.version == DIRGWAKO_ABI && abi.counter_bytes == sizeof(dirgwako_counter) &&
                              abi.gauge_bytes == sizeof(dirgwako_gauge) &&
                              abi.histogram_bytes == sizeof(dirgwako_histogram) &&
                              abi.family_bytes == sizeof(dirgwako_counter_family) &&
                              abi.change_bytes == sizeof(Change) && abi.totals_bytes == sizeof(dirgwako_totals);
        if (!is_alike) throw std::logic_error("dirgwako: dirgwako.h is not the header of the library that was linked");
        return abi;
    }

    static Page &Checked(Page &page) {
        Check(page.number, "a registry");
        return page;
    }

    static std::size_t PlaceOf(std::uint32_t bit) noexcept {
        std::size_t place = 0;
        while ((bit >>= 1) != 0) ++place;
        return place;
    }

    std::vector<std::uint64_t> boards_;
    Seats seats_;
    std::mutex common_;
    std::atomic<std::uint32_t> spare_{0}; // a bit for each recorder that nobody has
};

/// By which recorder this thread has counted last. Plain data, so that it is read without a guard, and after the
/// thread's destructors too.
struct Mine {
    std::uint64_t serial;
    dirgwako_recorder *recorder;
    bool has_ended;
};
inline thread_local Mine mine{0, nullptr, false};

/// The recorders that a thread has, of each registry one. They keep no registry alive: its core frees them with itself.
class Claims {
  public:
    Claims() = default;
    Claims(const Claims &) = delete;
    Claims &operator=(const Claims &) = delete;
    ~Claims() {
        mine = {0, nullptr, true};
        for (const Claim &it : all_)
            if (const auto core = it.core.lock()) core->GiveBack(it.seat);
    }

    /// The one of this registry, which is taken where there is none; null where none is spare.
    dirgwako_recorder *Find(Core &core) {
        for (const Claim &it : all_)
            if (it.serial == core.serial) return &it.seat->held;
        Seat *const seat = core.Take();
        if (seat == nullptr) return nullptr;
        try {
            const auto is_over = [](const Claim &it) { return it.core.expired(); };
            all_.erase(std::remove_if(all_.begin(), all_.end(), is_over), all_.end());
            all_.push_back({core.serial, core.weak_from_this(), seat});
        } catch (...) {
            core.GiveBack(seat);
            throw;
        }
        return &seat->held;
    }

  private:
    struct Claim {
        std::uint64_t serial;
        std::weak_ptr<Core> core;
        Seat *seat;
    };
    std::vector<Claim> all_;
};

/// The recorder of this thread, or null: where none is spare, memory is wanting, or the thread's own are given back
/// already.
inline dirgwako_recorder *Own(Core &core) noexcept {
    if (mine.has_ended) return nullptr;
    try {
        thread_local Claims claims;
        dirgwako_recorder *const recorder = claims.Find(core);
        if (recorder != nullptr) mine = {core.serial, recorder, false};
        return recorder;
    } catch (const std::bad_alloc &) {
        return nullptr;
    }
}

template <class Call>
[[gnu::noinline]] std::uint32_t CountSlowly(Core &core, Call &call) noexcept {
    dirgwako_recorder *const own = Own(core);
    return own != nullptr ? call(own) : core.Together(call);
}

/// Calls with a recorder that is this thread's while the call lasts.
template <class Call>
std::uint32_t Count(Core &core, std::uint64_t serial, Call call) noexcept {
    if (mine.serial != serial) return CountSlowly(core, call);
    return call(mine.recorder);
}

} // namespace dirgwako::detail
#endif
