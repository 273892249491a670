// Dirgwako for C++17: numbers that threads count without a lock, and scrapes in which all those of a board stood
// together. Header only, over dirgwako.h and one of the three libraries for C; the names are those of prometheus-cpp
// where what they do is the same.
//
//   dirgwako::Registry registry;
//   auto requests = dirgwako::BuildCounter().Name("requests_total").Help("Requests.").Register(registry);
//   auto home = requests.Add({{"path", "/"}});
//   home.Increment();                       // from any thread
//   std::string text = registry.Text();     // all series of one moment
//
// Registries, families and metrics are handles: any thread may copy and use them, they may end in any order, and a copy
// is the same thing.
//
// What registers or scrapes throws a Refusal, with the number of docs/REFUSALS.md. What counts throws nothing: a count
// that is refused is told by Registry::Refused, or by the call that begins with Try, which answers the number.
#ifndef DIRGWAKO_HPP
#define DIRGWAKO_HPP

#include "dirgwako/tally.hpp"

#endif
