// Families: metrics of one name, which differ in their labels' values; and what builds them.
#ifndef DIRGWAKO_FAMILY_HPP
#define DIRGWAKO_FAMILY_HPP

#include "metrics.hpp"

#include <initializer_list>
#include <optional>
#include <string_view>
#include <unordered_map>

namespace dirgwako {

/// Labels with their values.
using Labels = std::map<std::string, std::string>;

class Registry;

namespace detail {

/// What a builder was told. What it was not told, the first child tells: the labels, and a histogram's bounds.
struct Settings {
    std::string name, help;
    Labels constants;
    std::optional<std::vector<std::string>> labels;
    std::optional<std::vector<std::uint64_t>> bounds;
    std::size_t digits = 0, group = 0;
};

/// A family and the children that it has, which are found without the registry's lock: so that no thread waits for a
/// scrape to find one.
template <class Handle>
class Record : public RecordBase {
  public:
    /// The families' lock is held.
    Record(Core &of, const Settings &settings)
        : RecordBase(of, of.serial, settings.name, settings.digits), told_(settings) {
        Check(IsName(name), name);
        if (IsTold()) Register(told_.labels.value(), told_.bounds.value_or(Bounds{}));
    }

    /// Whether these settings are the same, or leave open what this family has; what it has left open they tell.
    bool Meets(const Settings &other) {
        const std::lock_guard<std::mutex> one(lock_);
        if (told_.constants != other.constants || told_.digits != other.digits || told_.group != other.group)
            return false;
        if (is_registered_)
            return (!other.labels || *other.labels == told_.labels) && (!other.bounds || *other.bounds == told_.bounds);
        if (told_.labels && other.labels && told_.labels != other.labels) return false;
        if (told_.bounds && other.bounds && told_.bounds != other.bounds) return false;
        if (other.labels) told_.labels = other.labels;
        if (other.bounds) told_.bounds = other.bounds;
        if (IsTold()) Register(*told_.labels, told_.bounds.value_or(Bounds{}));
        return true;
    }

    /// The child of these labels, which is made where there is none.
    Child<Handle> Add(const Labels &labels, const std::vector<std::uint64_t> *bounds) {
        const std::lock_guard<std::mutex> one(lock_);
        if (!is_registered_) RegisterFor(labels, bounds);
        if (bounds != nullptr && *bounds != told_.bounds)
            throw Refusal(10, name + ", which is there with other bounds");
        std::string key;
        if (!KeyOf(labels, key)) throw Refusal(21, name + ", whose labels are {" + Listed(sorted_) + "}");
        const auto found = children_.find(key);
        if (found != children_.end()) return found->second;
        const Child<Handle> made = Make(labels);
        children_.emplace(std::move(key), made);
        return made;
    }

    /// (which nothing changes)
    const Labels &Constants() const noexcept { return told_.constants; }

    bool Has(const Labels &labels) {
        const std::lock_guard<std::mutex> one(lock_);
        std::string key;
        return is_registered_ && KeyOf(labels, key) && children_.count(key) != 0;
    }

  private:
    using Bounds = std::vector<std::uint64_t>;

    bool IsTold() const { return told_.labels && (told_.bounds || !std::is_same_v<Handle, dirgwako_histogram>); }

    /// What was not told is as the first child has it.
    void RegisterFor(const Labels &labels, const Bounds *bounds) {
        std::vector<std::string> names;
        for (const auto &it : labels) names.push_back(it.first);
        if (bounds != nullptr && told_.bounds && *bounds != *told_.bounds)
            throw Refusal(10, name + ", which is told with other bounds");
        Register(told_.labels.value_or(names), bounds != nullptr ? *bounds : told_.bounds.value_or(Bounds{}));
    }

    void Register(const std::vector<std::string> &labels, const Bounds &bounds) {
        Description of{name, told_.help, {}, bounds, told_.digits, told_.group};
        for (const auto &it : told_.constants) of.labels.push_back(it.first);
        of.labels.insert(of.labels.end(), labels.begin(), labels.end());
        std::vector<std::string> sorted = labels;
        std::sort(sorted.begin(), sorted.end());
        {
            const std::lock_guard<std::mutex> one(core.lock);
            const std::uint32_t number = NewFamily(core.page, of, family_);
            if (number != DIRGWAKO_OK) throw Refusal(number, Blamed(number, of.labels));
        }
        told_.labels = labels;
        told_.bounds = bounds;
        all_ = std::move(of.labels);
        sorted_ = std::move(sorted);
        is_registered_ = true;
    }

    static std::string Listed(const std::vector<std::string> &names) {
        std::string all;
        for (const std::string &it : names) all += (all.empty() ? "" : ", ") + it;
        return all;
    }

    /// The metric, and the label where it is one that has no name that a label may have (1 to 4).
    std::string Blamed(std::uint32_t number, const std::vector<std::string> &labels) const {
        for (const std::string &it : labels) {
            const bool is_label =
                IsName(it) == DIRGWAKO_OK && it.find(':') == std::string::npos && it.compare(0, 2, "__") != 0;
            if (number <= 4 && !is_label) return name + ", label \"" + it + "\"";
        }
        return name;
    }

    /// The values in the order of their labels' names, each behind a byte that no UTF-8 has; whether these are just the
    /// family's labels.
    bool KeyOf(const Labels &labels, std::string &key) const {
        if (labels.size() != sorted_.size()) return false;
        auto name_of = sorted_.begin();
        for (const auto &it : labels) {
            if (it.first != *name_of++) return false;
            key += it.second;
            key += '\xff';
        }
        return true;
    }

    Child<Handle> Make(const Labels &labels) {
        std::vector<std::string> values;
        for (const std::string &it : all_) {
            const auto found = labels.find(it);
            values.push_back(found != labels.end() ? found->second : told_.constants.at(it));
        }
        Child<Handle> made{};
        const std::lock_guard<std::mutex> one(core.lock);
        Check(ChildOf(core.page, family_, values, made.handle), name);
        made.board = core.BoardOf(made.handle.registry);
        made.number = core.children++;
        return made;
    }

    std::mutex lock_; // of all below
    Settings told_;
    bool is_registered_ = false;
    typename FamilyOf<Handle>::type family_{};
    std::vector<std::string> all_;    // labels, the constant ones first
    std::vector<std::string> sorted_; // those that a child tells
    std::unordered_map<std::string, Child<Handle>> children_;
};

/// The family of these settings, which is made where there is none of the name.
template <class Handle>
Record<Handle> &FindOrMake(Core &core, const Settings &settings) {
    const std::lock_guard<std::mutex> one(core.families_lock);
    const auto found = core.families.find(settings.name);
    if (found != core.families.end()) {
        auto *const same = dynamic_cast<Record<Handle> *>(found->second.get());
        if (!core.is_merging || same == nullptr || !same->Meets(settings))
            throw Refusal(19, settings.name + ", which is there as another kind or with other settings");
        return *same;
    }
    auto made = std::make_unique<Record<Handle>>(core, settings);
    Record<Handle> &family = *made;
    core.families.emplace(settings.name, std::move(made));
    return family;
}

} // namespace detail

/// Metrics of one name. A copy is the same family. What is const is so that `auto &` takes it, as of a library that
/// answers references.
template <class Metric>
class Family {
  public:
    using Handle = typename Metric::HandleType;

    Family(const Family &) = default;
    Family &operator=(const Family &) = default;
    ~Family() = default;

    /// The metric of these labels, which is made at the first call, and found without the registry's lock at the
    /// others. The first child of a family whose builder was told no labels tells their names.
    const Metric Add(const Labels &labels = {}) const { return Metric(record_, record_->Add(labels, nullptr)); }

    /// The same; the first child of a family whose builder was told no bounds tells them.
    const Metric Add(const Labels &labels, const Histogram::BucketBoundaries &bounds) const {
        static_assert(std::is_same_v<Metric, Histogram>, "a histogram alone has buckets");
        return Metric(record_, record_->Add(labels, &bounds));
    }

    /// Whether this metric was made.
    [[nodiscard]] bool Has(const Labels &labels) const { return record_->Has(labels); }

    [[nodiscard]] const std::string &GetName() const noexcept { return record_->name; }
    [[nodiscard]] const Labels &GetConstantLabels() const noexcept { return record_->Constants(); }

    /// A metric is never taken away: its total would fall.
    template <class Any>
    void Remove(Any) const = delete; // no metric is taken away

  private:
    template <class>
    friend class Builder;
    explicit Family(std::shared_ptr<detail::Record<Handle>> record) : record_(std::move(record)) {}

    std::shared_ptr<detail::Record<Handle>> record_;
};

/// Builds a family: `BuildCounter().Name("requests_total").Help("Requests.").Labels({"path"}).Register(registry)`.
template <class Metric>
class Builder {
  public:
    Builder &Name(std::string_view name) {
        told_.name = name;
        return *this;
    }

    Builder &Help(std::string_view help) {
        told_.help = help;
        return *this;
    }

    /// The names of the labels, in the order in which a text has them, 8 at most with the constant ones.
    Builder &Labels(std::initializer_list<const char *> names) {
        told_.labels = std::vector<std::string>(names.begin(), names.end());
        return *this;
    }

    /// The same. (A list of two texts in two braces would else be taken for one text between two pointers.)
    template <class Names, std::enable_if_t<std::is_same_v<Names, std::vector<std::string>>, int> = 0>
    Builder &Labels(const Names &names) {
        told_.labels = names;
        return *this;
    }

    /// Labels that each child has with these values.
    Builder &Labels(const dirgwako::Labels &constants) {
        told_.constants = constants;
        return *this;
    }

    /// Of a histogram its upper bounds: rising, 24 at most, none over 2^48 - 1.
    Builder &Buckets(const Histogram::BucketBoundaries &bounds) {
        static_assert(std::is_same_v<Metric, Histogram>, "a histogram alone has buckets");
        told_.bounds = bounds;
        return *this;
    }

    /// By how many decimal digits a text shifts the numbers, 9 at most: with 6 microseconds are counted, and seconds
    /// are shown. Where none are told a histogram whose name ends in `_seconds` has 6, any other metric none.
    Builder &Digits(std::size_t digits) {
        digits_ = digits;
        return *this;
    }

    /// Families of one group begin on one board, whose numbers a scrape shows at one moment.
    Builder &Group(std::size_t group) {
        told_.group = group;
        return *this;
    }

    /// The family; where the registry has it already, the same.
    const Family<Metric> Register(const Registry &registry) const;

  private:
    /// With the digits that the metric has.
    [[nodiscard]] detail::Settings Told() const {
        constexpr std::string_view seconds = "_seconds";
        detail::Settings told = told_;
        const bool is_of_seconds = told.name.size() >= seconds.size() &&
                                   told.name.compare(told.name.size() - seconds.size(), seconds.size(), seconds) == 0;
        told.digits = digits_.value_or(std::is_same_v<Metric, Histogram> && is_of_seconds ? 6 : 0);
        return told;
    }

    detail::Settings told_;
    std::optional<std::size_t> digits_;
};

[[nodiscard]] inline Builder<Counter> BuildCounter() { return {}; }
[[nodiscard]] inline Builder<Gauge> BuildGauge() { return {}; }
[[nodiscard]] inline Builder<Histogram> BuildHistogram() { return {}; }

} // namespace dirgwako
#endif
