// What the tests share.
#ifndef DIRGWAKO_TEST_HPP
#define DIRGWAKO_TEST_HPP

#include "dirgwako.hpp"

#include <string>

/// Whether what was answered is what was wanted.
void Is(const char *what, long long got, long long want);

/// The number of a series of a text, or -1 where there is none.
long long At(const std::string &text, const std::string &series);

/// The number by which a call is refused, or 0; its text is kept for Said.
template <class Call>
long long RefusedBy(Call call);
extern std::string said;
template <class Call>
long long RefusedBy(Call call) {
    try {
        call();
    } catch (const dirgwako::Refusal &refusal) {
        said = refusal.what();
        return refusal.number();
    }
    return 0;
}

/// Whether a board takes megabytes, so that there should not be many of them.
bool IsLarge();

/// A counter, a gauge and a histogram without labels, of the group 0.
dirgwako::Counter CounterOf(const dirgwako::Registry &registry, const std::string &name);
dirgwako::Gauge GaugeOf(const dirgwako::Registry &registry, const std::string &name);
dirgwako::Histogram HistogramOf(const dirgwako::Registry &registry, const std::string &name);

// The tests, by what they are of.
void Names();
void Refusals();
void Ends();
void Threads();
void Tallies();

#endif
