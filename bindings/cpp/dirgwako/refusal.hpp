// What is refused, and by which number.
#ifndef DIRGWAKO_REFUSAL_HPP
#define DIRGWAKO_REFUSAL_HPP

#include "calls.hpp"

#include <stdexcept>

namespace dirgwako {

/// What a number of docs/REFUSALS.md says, in a few words.
[[nodiscard]] inline std::string Words(std::uint32_t number) { return detail::Words(number); }

/// What was asked for is refused, and nothing has changed.
class Refusal : public std::runtime_error {
  public:
    /// `what` is the metric's name, or the call.
    Refusal(std::uint32_t number, std::string_view what)
        : std::runtime_error("dirgwako: " + std::string(what) + ": " + Words(number) + " (" + std::to_string(number) +
                             ")"),
          number_(number) {}

    /// The number in docs/REFUSALS.md.
    [[nodiscard]] std::uint32_t number() const noexcept { return number_; }

  private:
    std::uint32_t number_;
};

namespace detail {

inline void Check(std::uint32_t number, std::string_view what) {
    if (number != DIRGWAKO_OK) throw Refusal(number, what);
}

} // namespace detail
} // namespace dirgwako
#endif
