// One counter, counted and printed.
#include <dirgwako.hpp>
#include <iostream>

int main() {
    dirgwako::Registry registry;
    auto visits = dirgwako::BuildCounter().Name("visits_total").Help("Visits so far.").Register(registry).Add();
    visits.Increment(3);
    std::cout << registry.Text();
}
