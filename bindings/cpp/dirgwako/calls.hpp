// All calls of the C library, each with what it is owed; nothing else in this package calls it.
//
// What holds of all: the library takes no null pointer, also where a length is 0 (so texts and lists have a byte or a
// place of their own then); one call at a time uses a registry, which is why each call that takes one says whose lock
// is held; and a recorder is one thread's at a time.
#ifndef DIRGWAKO_CALLS_HPP
#define DIRGWAKO_CALLS_HPP

#include <dirgwako.h>

#include <array>
#include <cstddef>
#include <cstdint>
#include <string>
#include <string_view>
#include <vector>

namespace dirgwako {

/// A change of a metric, of which several are published as one version.
using Change = dirgwako_change;

namespace detail {

/// What a family is registered by.
struct Description {
    std::string name, help;
    std::vector<std::string> labels;
    std::vector<std::uint64_t> bounds;
    std::size_t digits = 0, group = 0;
};

inline const std::uint8_t *Bytes(std::string_view text) noexcept {
    static constexpr std::uint8_t none = 0;
    return text.empty() ? &none : reinterpret_cast<const std::uint8_t *>(text.data());
}

/// The texts of a list, which they point into; there is one place at least, so that their address is not null.
inline std::vector<dirgwako_text> Texts(const std::vector<std::string> &list) {
    std::vector<dirgwako_text> texts;
    texts.reserve(list.size() + 1);
    for (const std::string &it : list) texts.push_back({Bytes(it), it.size()});
    if (texts.empty()) texts.push_back({Bytes(""), 0});
    return texts;
}

/// What the library was built for. It writes all of the struct.
inline dirgwako_abi BuiltFor() noexcept {
    dirgwako_abi abi{};
    (void)dirgwako_c_abi(&abi);
    return abi;
}

/// What a refusal says. The buffer is longer than any of them, and the answer ends in a zero byte.
inline std::string Words(std::uint32_t number) {
    std::array<char, 128> buffer{};
    return dirgwako_refusal(number, buffer.data(), buffer.size());
}

/// Whether this is a metric's name. It needs no registry.
inline std::uint32_t IsName(std::string_view name) noexcept { return dirgwako_c_is_name(Bytes(name), name.size()); }

/// A registry's handle, which owns it: it is written by the library alone, never copied, and freed once.
class Page {
  public:
    /// One scrape is kept. The id is one that no other registry of this process has.
    Page() noexcept : number(dirgwako_registry_new(&held, 1)) {}
    Page(const Page &) = delete;
    Page &operator=(const Page &) = delete;
    ~Page() { (void)dirgwako_registry_free(&held); }

    dirgwako_registry held{nullptr, 0};
    const std::uint32_t number; // 0, or why there is none
};

/// A recorder's handle, which owns it, at an address of its own: on a cache line of its own, as a call may write to it.
struct alignas(64) Seat {
    dirgwako_recorder held{nullptr, 0};
};

/// The recorders of a registry, which they may outlive, and which are freed once.
class Seats {
  public:
    /// Takes as many as there are, by the caller's own registry, which nobody else knows yet.
    Seats(Page &page, std::size_t most) : all(most) {
        while (count < most && dirgwako_recorder_take(&page.held, &all[count].held) == DIRGWAKO_OK) ++count;
    }
    Seats(const Seats &) = delete;
    Seats &operator=(const Seats &) = delete;
    ~Seats() {
        for (std::size_t i = 0; i < count; ++i) (void)dirgwako_recorder_free(&all[i].held);
    }

    std::vector<Seat> all;
    std::size_t count = 0;
};

// Counting. The recorder is this thread's own, or its lock is held; the metric is one that the library wrote.

inline std::uint32_t Raise(dirgwako_recorder *recorder, const dirgwako_counter &counter, std::uint64_t by) noexcept {
    return dirgwako_c_inc(recorder, &counter, by);
}

inline std::uint32_t Raise(dirgwako_recorder *recorder, const dirgwako_gauge &gauge, std::uint64_t by) noexcept {
    return dirgwako_c_up(recorder, &gauge, by);
}

inline std::uint32_t Lower(dirgwako_recorder *recorder, const dirgwako_gauge &gauge, std::uint64_t by) noexcept {
    return dirgwako_c_down(recorder, &gauge, by);
}

inline std::uint32_t Observe(dirgwako_recorder *recorder, const dirgwako_histogram &histogram,
                             std::uint64_t value) noexcept {
    return dirgwako_c_observe(recorder, &histogram, value);
}

/// The header's own function stands for the list's address where it is null.
inline std::uint32_t Publish(dirgwako_recorder *recorder, const Change *changes, std::size_t count) noexcept {
    return dirgwako_publish(recorder, changes, count);
}

// Changes are plain data. Of a histogram the library finds the value's bucket, by bounds that it wrote.

inline Change Raises(const dirgwako_counter &counter, std::uint64_t by) noexcept {
    return dirgwako_change_inc(&counter, by);
}
inline Change Raises(const dirgwako_gauge &gauge, std::uint64_t by) noexcept { return dirgwako_change_up(&gauge, by); }
inline Change Lowers(const dirgwako_gauge &gauge, std::uint64_t by) noexcept {
    return dirgwako_change_down(&gauge, by);
}
inline Change Observes(const dirgwako_histogram &histogram, std::uint64_t value) noexcept {
    return dirgwako_change_observe(&histogram, value);
}

// Families and children, by the kind of the metric. The registry's lock is held; what is written to is written by the
// library alone, and only where the answer is 0.

template <class Handle>
struct FamilyOf;
template <>
struct FamilyOf<dirgwako_counter> {
    using type = dirgwako_counter_family;
};
template <>
struct FamilyOf<dirgwako_gauge> {
    using type = dirgwako_gauge_family;
};
template <>
struct FamilyOf<dirgwako_histogram> {
    using type = dirgwako_histogram_family;
};

inline std::uint32_t NewFamily(Page &page, const Description &of, dirgwako_counter_family &family) {
    const auto labels = Texts(of.labels);
    return dirgwako_c_counter_family_new(&page.held, Bytes(of.name), of.name.size(), Bytes(of.help), of.help.size(),
                                         labels.data(), of.labels.size(), of.digits, of.group, &family);
}

inline std::uint32_t NewFamily(Page &page, const Description &of, dirgwako_gauge_family &family) {
    const auto labels = Texts(of.labels);
    return dirgwako_c_gauge_family_new(&page.held, Bytes(of.name), of.name.size(), Bytes(of.help), of.help.size(),
                                       labels.data(), of.labels.size(), of.digits, of.group, &family);
}

inline std::uint32_t NewFamily(Page &page, const Description &of, dirgwako_histogram_family &family) {
    static constexpr std::uint64_t none = 0;
    const auto labels = Texts(of.labels);
    return dirgwako_c_histogram_family_new(
        &page.held, Bytes(of.name), of.name.size(), Bytes(of.help), of.help.size(), labels.data(), of.labels.size(),
        of.bounds.empty() ? &none : of.bounds.data(), of.bounds.size(), of.digits, of.group, &family);
}

inline std::uint32_t ChildOf(Page &page, const dirgwako_counter_family &family, const std::vector<std::string> &values,
                             dirgwako_counter &child) {
    return dirgwako_c_counter_of(&page.held, &family, Texts(values).data(), values.size(), &child);
}

inline std::uint32_t ChildOf(Page &page, const dirgwako_gauge_family &family, const std::vector<std::string> &values,
                             dirgwako_gauge &child) {
    return dirgwako_c_gauge_of(&page.held, &family, Texts(values).data(), values.size(), &child);
}

inline std::uint32_t ChildOf(Page &page, const dirgwako_histogram_family &family,
                             const std::vector<std::string> &values, dirgwako_histogram &child) {
    return dirgwako_c_histogram_of(&page.held, &family, Texts(values).data(), values.size(), &child);
}

// Boards, texts and numbers. The registry's lock is held.

inline std::uint32_t AddBoard(Page &page) noexcept {
    std::size_t number = 0;
    return dirgwako_board_add(&page.held, &number);
}

inline std::uint32_t CountBoards(Page &page, std::size_t &count) noexcept {
    return dirgwako_boards(&page.held, &count);
}

/// The text goes to the front of the buffer, which is not empty; `len` is its length, or what it needs (37).
inline std::uint32_t Scrape(Page &page, std::string &buffer, std::size_t &len) noexcept {
    return dirgwako_scrape(&page.held, buffer.data(), buffer.size(), &len);
}

inline std::uint32_t Reply(Page &page, std::string_view request, std::string &buffer, std::size_t &len) noexcept {
    return dirgwako_c_reply(&page.held, Bytes(request), request.size(), reinterpret_cast<std::uint8_t *>(buffer.data()),
                            buffer.size(), &len);
}

/// The numbers of a board at one moment, as the library writes them, which has no more than there is room for.
struct Moment {
    std::array<std::uint64_t, DIRGWAKO_MOST_NUMBERS> numbers;
    std::size_t len = 0;
};

/// Makes a scrape of the board of this id.
inline std::uint32_t Read(Page &page, std::uint64_t id, Moment &moment) noexcept {
    std::size_t board = 0;
    const std::uint32_t number = dirgwako_board_of(&page.held, id, &board);
    if (number != DIRGWAKO_OK) return number;
    return dirgwako_read(&page.held, board, moment.numbers.data(), moment.numbers.size(), &moment.len);
}

// What a moment has; it was read.

inline std::uint32_t Find(const Moment &in, const dirgwako_counter &counter, std::uint64_t &total) noexcept {
    return dirgwako_counter_total(in.numbers.data(), in.len, &counter, &total);
}
inline std::uint32_t Find(const Moment &in, const dirgwako_gauge &gauge, std::int64_t &value) noexcept {
    return dirgwako_gauge_value(in.numbers.data(), in.len, &gauge, &value);
}
inline std::uint32_t Find(const Moment &in, const dirgwako_histogram &histogram, dirgwako_totals &totals) noexcept {
    return dirgwako_histogram_totals(in.numbers.data(), in.len, &histogram, &totals);
}

} // namespace detail
} // namespace dirgwako
#endif
