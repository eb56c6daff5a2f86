/* geolint for C++11 and later, over geolint.h: a linter that frees its memory, the verdict as a value, and ranges over findings.
 *
 * No call gives a reference into an argument or into an object that ends with the expression: `valid_or_throw(check(text))` may be
 * kept by value and by reference. Nothing here throws but `geolint::valid_or_throw`, which is left out where exceptions are turned off,
 * and `Locator::path` where there is no memory for its string. */
#ifndef GEOLINT_HPP
#define GEOLINT_HPP

#include "geolint.h"

#include <cstddef>
#include <cstdint>
#include <cstdio>
#include <cstdlib>
#include <iterator>
#include <memory>
#include <string>
#include <type_traits>
#include <utility>
#if defined(__cpp_exceptions)
#include <stdexcept>
#endif
#if defined(__has_include)
#if __has_include(<version>)
#include <version>
#endif
#endif
#if defined(__has_cpp_attribute)
#if __has_cpp_attribute(clang::lifetimebound)
#define GEOLINT_LIFETIMEBOUND [[clang::lifetimebound]] /* What the call gives is not to outlive the object: clang warns. */
#endif
#endif
#if !defined(GEOLINT_LIFETIMEBOUND)
#define GEOLINT_LIFETIMEBOUND
#endif
#if defined(__cpp_lib_expected)
#include <expected>
#endif
#if defined(__cpp_lib_optional) && defined(__cpp_lib_string_view)
#include <optional>
#include <string_view>
#endif

namespace geolint {

/* How deep a text may nest and how many bytes it may have; 0 stands for the most that can be. */
struct Limits {
    std::uint32_t max_depth;
    std::uint64_t max_bytes;
    explicit constexpr Limits(std::uint32_t depth = 0, std::uint64_t bytes = 0) noexcept : max_depth(depth), max_bytes(bytes) {}
};

/* What a text is. */
class Verdict {
public:
    explicit Verdict(const geolint_report &report) noexcept : report_(report) {}

    /* There is a verdict; otherwise the limits were not allowed, or the linter had ended. */
    bool judged() const noexcept { return report_.status == GEOLINT_DONE; }
    bool valid() const noexcept { return report_.verdict == GEOLINT_VALID; }
    bool broken() const noexcept { return report_.verdict == GEOLINT_BROKEN; }
    bool not_json() const noexcept { return report_.verdict == GEOLINT_NOT_JSON; }
    /* A valid text with a warning. */
    bool warned() const noexcept { return report_.warned != 0; }

    /* The number of the broken rule or of the cause, and the place of either. */
    std::uint32_t rule() const noexcept { return report_.rule; }
    std::uint32_t cause() const noexcept { return report_.cause; }
    std::uint64_t place() const noexcept { return report_.place; }
    /* What the rule or the cause says; empty of a valid text. */
    const char *text() const noexcept { return broken() ? geolint_rule(rule()) : geolint_cause(cause()); }

    /* Of the warning W<kind>, from 1 to GEOLINT_KINDS; none of another kind. */
    geolint_warned warnings(std::uint32_t kind) const noexcept {
        return kind >= 1 && kind <= GEOLINT_KINDS ? report_.warnings[kind - 1] : geolint_warned();
    }

    /* The plain numbers; of a verdict that does not stay, a copy of them. */
    const geolint_report &report() const & noexcept { return report_; }
    geolint_report report() const && noexcept { return report_; }

private:
    geolint_report report_;
};

/* Checks a text in memory. */
inline Verdict check(const void *bytes, std::size_t length, Limits limits = Limits()) noexcept {
    return Verdict(geolint_check(geolint_bytes(bytes), length, limits.max_depth, limits.max_bytes));
}

/* Checks any container of bytes that has data() and size(), as std::string, std::vector<char>, std::string_view or std::span. */
template <class Bytes, class = decltype(std::declval<const Bytes &>().data())>
Verdict check(const Bytes &bytes, Limits limits = Limits()) noexcept {
    return check(bytes.data(), bytes.size() * sizeof(*bytes.data()), limits);
}

namespace detail {

struct Free {
    void operator()(void *memory) const noexcept { free(memory); }
};

/* Memory for a handle of this type: none where it could not be begun. It can be moved, and is freed once. */
template <class Handle, class Freeing = Free> class Memory {
public:
    explicit operator bool() const noexcept { return memory_ != nullptr; }

protected:
    explicit Memory(std::size_t size) noexcept : memory_(malloc(size)) {}
    Handle *at() const noexcept { return static_cast<Handle *>(memory_.get()); }
    void begun(std::uint32_t status) noexcept {
        if (status != GEOLINT_DONE)
            memory_.reset();
    }

private:
    std::unique_ptr<void, Freeing> memory_;
};

} // namespace detail

/* Checks a text that comes in pieces. It can be moved, and frees its memory once. */
class Linter : public detail::Memory<geolint_linter> {
public:
    /* Test it before use: it is empty if there is no memory or the limits are not allowed, and then checks nothing. */
    explicit Linter(Limits limits = Limits()) noexcept : Memory(geolint_size()) {
        begun(geolint_begin(at(), limits.max_depth, limits.max_bytes));
    }

    /* Takes the next bytes. False: the text is refused, or the linter is empty or has ended; the host may stop reading. */
    bool feed(const void *bytes, std::size_t length) noexcept { return geolint_feed(at(), geolint_bytes(bytes), length) == GEOLINT_DONE; }
    template <class Bytes, class = decltype(std::declval<const Bytes &>().data())> bool feed(const Bytes &bytes) noexcept {
        return feed(bytes.data(), bytes.size() * sizeof(*bytes.data()));
    }

    /* No text that begins with the bytes fed is valid, as far as that is seen early. */
    bool doomed() noexcept { return geolint_doomed(at()) != 0; }
    std::uint64_t offset() noexcept { return geolint_offset(at()); }
    /* How many arrays and objects are open after the bytes taken. */
    std::uint32_t levels() noexcept { return geolint_levels(at()); }

    /* The verdict of all that was fed, and the end of the linter. */
    Verdict finish() noexcept { return Verdict(geolint_finish(at())); }

    /* Begins again, in the same memory, at little cost. */
    bool begin(Limits limits = Limits()) noexcept {
        return geolint_begin_again(at(), limits.max_depth, limits.max_bytes) == GEOLINT_DONE;
    }
};

/* What is found in a feature or in a record; places are from the start of the input. */
class Finding {
public:
    explicit Finding(const geolint_finding &finding) noexcept : finding_(finding) {}

    /* Of a feature: how many stand before it. A record is counted from 1; 0 is what stands before the first RS of a sequence. */
    std::uint64_t number() const noexcept { return finding_.number; }
    /* The place of its first byte, and that after its last, which is 0 of a feature that is neither an object nor an array. */
    std::uint64_t place() const noexcept { return finding_.place; }
    std::uint64_t end() const noexcept { return finding_.end; }
    /* The place of the value of the feature's first member `id`, or 0 where it has none. */
    std::uint64_t id() const noexcept { return finding_.id; }
    Verdict verdict() const noexcept { return Verdict(finding_.report); }
    bool valid() const noexcept { return finding_.report.verdict == GEOLINT_VALID; }

private:
    geolint_finding finding_;
};

namespace detail {

/* Whether the bytes of a container stay after the expression: it is named, or a view, as std::string_view and std::span. */
template <class Bytes, class = void> struct IsArray : std::false_type {};
template <class Bytes> struct IsArray<Bytes, decltype(static_cast<void>(std::tuple_size<Bytes>::value))> : std::true_type {};
template <class Bytes>
struct Stays : std::integral_constant<bool, std::is_lvalue_reference<Bytes>::value || (std::is_trivially_copyable<Bytes>::value && !IsArray<Bytes>::value)> {};

/* The calls on features, and on records. */
struct FeatureCalls {
    typedef geolint_features Handle;
    static std::size_t size() noexcept { return geolint_features_size(); }
    static geolint_progress feed(Handle *at, const void *bytes, std::size_t length) noexcept { return geolint_features_feed(at, bytes, length); }
    static geolint_finding next(Handle *at) noexcept { return geolint_features_next(at); }
};
struct RecordCalls {
    typedef geolint_records Handle;
    static std::size_t size() noexcept { return geolint_records_size(); }
    static geolint_progress feed(Handle *at, const void *bytes, std::size_t length) noexcept { return geolint_records_feed(at, bytes, length); }
    static geolint_finding next(Handle *at) noexcept { return geolint_records_next(at); }
};

/* Ends the process, as an assertion does that fails: to go on would feed pieces in the wrong order, or read memory that is freed. */
[[noreturn]] inline void misused() noexcept {
    std::fputs("geolint: a range of findings has not ended: read it to its end, or destroy it, before its object is fed, begun, finished or destroyed\n", stderr);
    std::abort();
}

/* The byte after a handle: 1 while a range over its findings has not ended. */
template <class Calls> char &has_range(void *handle) noexcept { return static_cast<char *>(handle)[Calls::size()]; }

template <class Calls> struct FreeWithoutRange {
    void operator()(void *handle) const noexcept {
        if (has_range<Calls>(handle))
            misused();
        free(handle);
    }
};

/* Reports findings in bytes that come in pieces. */
template <class Calls> class Puller : public Memory<typename Calls::Handle, FreeWithoutRange<Calls>> {
public:
    /* The findings that end in a piece, as they are asked for: a range for one pass, over bytes that the host keeps until it has ended.
     * What is left of the piece is fed with the range's end or with its destruction. Before that, to feed, begin, finish or destroy what
     * gave the range ends the process with a text that says so. */
    class Range {
    public:
        class iterator {
        public:
            typedef std::input_iterator_tag iterator_category;
            typedef Finding value_type;
            typedef std::ptrdiff_t difference_type;
            typedef const Finding *pointer;
            typedef Finding reference;

            iterator() noexcept : range_(nullptr), finding_() {}
            Finding operator*() const noexcept { return Finding(finding_); }
            iterator &operator++() noexcept {
                if (!range_->next(&finding_))
                    range_ = nullptr;
                return *this;
            }
            void operator++(int) noexcept { ++*this; }
            bool operator==(const iterator &other) const noexcept { return range_ == other.range_; }
            bool operator!=(const iterator &other) const noexcept { return range_ != other.range_; }

        private:
            friend class Range;
            explicit iterator(Range *range) noexcept : range_(range), finding_() {
                if (range_)
                    ++*this;
            }
            Range *range_;
            geolint_finding finding_;
        };

        Range(Range &&other) noexcept : at_(other.at_), bytes_(other.bytes_), left_(other.left_) { other.at_ = nullptr; }
        Range(const Range &) = delete;
        Range &operator=(const Range &) = delete;
        Range &operator=(Range &&) = delete;
        ~Range() {
            geolint_finding finding;
            while (next(&finding)) {
            }
        }

        iterator begin() & noexcept GEOLINT_LIFETIMEBOUND { return iterator(this); }
        iterator begin() && = delete;
        iterator end() noexcept { return iterator(nullptr); }

    private:
        friend class Puller;
        Range(typename Calls::Handle *at, const void *bytes, std::size_t length) noexcept
            : at_(at), bytes_(static_cast<const char *>(geolint_bytes(bytes))), left_(length) {
            if (at_)
                has_range<Calls>(at_) = 1;
        }

        bool next(geolint_finding *finding) noexcept {
            while (at_) {
                *finding = Calls::next(at_);
                if (finding->report.status == GEOLINT_DONE)
                    return true;
                if (!left_) {
                    has_range<Calls>(at_) = 0;
                    at_ = nullptr;
                    break;
                }
                geolint_progress progress = Calls::feed(at_, bytes_, left_);
                bytes_ += progress.taken;
                left_ -= static_cast<std::size_t>(progress.taken);
                if (progress.status != GEOLINT_DONE && !progress.ready)
                    left_ = 0;
            }
            return false;
        }

        typename Calls::Handle *at_; /* null once the range has ended */
        const char *bytes_;
        std::size_t left_;
    };

    /* The findings that end in these bytes, of an object and of a container that both stay after the expression: of others it does not
     * compile. */
    Range feed(const void *bytes, std::size_t length) & noexcept GEOLINT_LIFETIMEBOUND { return Range(without_range(), bytes, length); }
    template <class Bytes, class = typename std::enable_if<Stays<Bytes>::value>::type, class = decltype(std::declval<const Bytes &>().data())>
    Range feed(Bytes &&bytes) & noexcept GEOLINT_LIFETIMEBOUND {
        return feed(bytes.data(), bytes.size() * sizeof(*bytes.data()));
    }
    Range feed(const void *bytes, std::size_t length) && = delete;
    template <class Bytes> Range feed(Bytes &&bytes) && = delete;

protected:
    typedef Memory<typename Calls::Handle, FreeWithoutRange<Calls>> Base;
    using Base::at;
    Puller() noexcept : Base(Calls::size() + 1) {
        if (at())
            has_range<Calls>(at()) = 0;
    }
    typename Calls::Handle *without_range() const noexcept {
        if (at() && has_range<Calls>(at()))
            misused();
        return at();
    }
};

} // namespace detail

/* Reports what is found in each feature of a text that comes in pieces:
 *
 *     geolint::Features features;
 *     while (read(piece))
 *         for (geolint::Finding finding : features.feed(piece))
 *             ..
 *     geolint::Verdict verdict = features.finish(); */
class Features : public detail::Puller<detail::FeatureCalls> {
public:
    /* Test it before use, as a linter: if it is empty, it reports nothing. */
    explicit Features(Limits limits = Limits()) noexcept {
        begun(geolint_features_begin(at(), limits.max_depth, limits.max_bytes));
    }
    /* Begins again, in the same memory, at little cost; findings that were not asked for are forgotten. */
    bool begin(Limits limits = Limits()) noexcept {
        return geolint_features_begin_again(without_range(), limits.max_depth, limits.max_bytes) == GEOLINT_DONE;
    }
    std::uint64_t offset() noexcept { return geolint_features_offset(at()); }
    /* The verdict of all that was fed, and the end. */
    Verdict finish() noexcept { return Verdict(geolint_features_finish(without_range())); }
};

/* Reports what is found in each record of an input. */
class Records : public detail::Puller<detail::RecordCalls> {
public:
    explicit Records(geolint_framing framing, Limits limits = Limits()) noexcept {
        begun(geolint_records_begin(at(), framing, limits.max_depth, limits.max_bytes));
    }
    /* Begins again, in the same memory, at little cost. */
    bool begin(geolint_framing framing, Limits limits = Limits()) noexcept {
        return geolint_records_begin_again(without_range(), framing, limits.max_depth, limits.max_bytes) == GEOLINT_DONE;
    }
    std::uint64_t offset() noexcept { return geolint_records_offset(at()); }
    /* What the input is as a whole, and the end; `number` is how many records there are, or that of the first that is not valid. */
    Verdict finish(std::uint64_t *number = nullptr) noexcept {
        const geolint_whole whole = geolint_records_finish(without_range());
        if (number)
            *number = whole.number;
        return Verdict(whole.report);
    }
    /* The last record, which the end of the input ends, where there is one. */
    Range last() & noexcept GEOLINT_LIFETIMEBOUND { return feed("", 0); }
    Range last() && = delete;
};

/* A run of features of a text, checked apart from it: what geolint.h says of parts. Empty where no feature can have ended at the place. */
class Run : public detail::Memory<geolint_run> {
public:
    explicit Run(std::uint64_t place, std::uint32_t max_depth = 0) noexcept : Memory(geolint_run_size()) {
        begun(geolint_run_begin(at(), max_depth, place));
    }
    /* Takes the next bytes. False: no further byte makes the run longer. */
    bool feed(const void *bytes, std::size_t length) noexcept {
        return geolint_run_feed(at(), geolint_bytes(bytes), length) == GEOLINT_DONE && !sum().ended;
    }
    geolint_sum sum() const noexcept { return geolint_run_sum(at()); }
    /* After how many of these bytes a run may begin, as far as they say; 0 where there is no such place. */
    static std::size_t likely(const void *bytes, std::size_t length) noexcept { return geolint_run_likely(geolint_bytes(bytes), length); }
};

/* Checks a text without its runs. Empty as a Linter. */
class Join : public detail::Memory<geolint_join> {
public:
    explicit Join(Limits limits = Limits()) noexcept : Memory(geolint_join_size()) {
        begun(geolint_join_begin(at(), limits.max_depth, limits.max_bytes));
    }
    bool feed(const void *bytes, std::size_t length) noexcept {
        return geolint_join_feed(at(), geolint_bytes(bytes), length) == GEOLINT_DONE;
    }
    /* Passes over the run of a sum, where a feature has ended right before it; the next bytes are then those from its `end` on. */
    bool pass_over(const geolint_sum &sum) noexcept { return geolint_join_pass_over(at(), &sum) != 0; }
    Verdict finish() noexcept { return Verdict(geolint_join_finish(at())); }
};

/* Finds the path to a place: it is fed the bytes before the place, and the one that stands there. */
class Locator : public detail::Memory<geolint_locator> {
public:
    explicit Locator(Limits limits = Limits()) noexcept : Memory(geolint_locator_size()) {
        begun(geolint_locator_begin(at(), limits.max_depth, limits.max_bytes));
    }
    bool feed(const void *bytes, std::size_t length) noexcept {
        return geolint_locator_feed(at(), geolint_bytes(bytes), length) == GEOLINT_DONE;
    }
    template <class Bytes, class = decltype(std::declval<const Bytes &>().data())> bool feed(const Bytes &bytes) noexcept {
        return feed(bytes.data(), bytes.size() * sizeof(*bytes.data()));
    }
    /* As $.features[3].geometry. */
    std::string path() const {
        std::string path = "$";
        for (std::uint32_t i = 0;; i++) {
            const geolint_step step = geolint_locator_step(at(), i);
            if (!step.size)
                return path;
            path.append(step.bytes, static_cast<std::size_t>(step.size));
        }
    }
};

/* Counts the line and the column of the place after the bytes that it is fed, each from 1. */
class Lines {
public:
    Lines() noexcept : lines_(geolint_lines_begin()) {}
    void feed(const void *bytes, std::size_t length) noexcept { lines_ = geolint_lines_feed(lines_, geolint_bytes(bytes), length); }
    template <class Bytes, class = decltype(std::declval<const Bytes &>().data())> void feed(const Bytes &bytes) noexcept {
        feed(bytes.data(), bytes.size() * sizeof(*bytes.data()));
    }
    std::uint64_t line() const noexcept { return lines_.line; }
    std::uint64_t column() const noexcept { return lines_.column; }

private:
    geolint_lines lines_;
};

/* The hint for a text in memory, by its verdict: what it looks like that is not valid, and a command that makes it right. Never null;
 * empty where there is none. The text lies in the library for good. */
inline const char *hint(const Verdict &verdict, const void *bytes, std::size_t length) noexcept {
    return geolint_hint(&verdict.report(), bytes, length);
}
template <class Bytes, class = decltype(std::declval<const Bytes &>().data())> const char *hint(const Verdict &verdict, const Bytes &bytes) noexcept {
    return hint(verdict, bytes.data(), bytes.size() * sizeof(*bytes.data()));
}

/* The hint for an input that came in pieces, by its first 512 bytes, the last 256 before the place and 256 from it on, or as many as
 * there are. `levels` is that of the linter before its end; of a record pass 1. */
template <class Head, class Before, class After>
const char *hint_around(const Verdict &verdict, std::uint32_t levels, const Head &head, const Before &before, const After &after) noexcept {
    geolint_text text = {"", 1};
    geolint_hint_around(&verdict.report(), levels, geolint_bytes(head.data()), head.size() * sizeof(*head.data()), geolint_bytes(before.data()),
                        before.size() * sizeof(*before.data()), geolint_bytes(after.data()), after.size() * sizeof(*after.data()), &text);
    return text.bytes;
}

#if defined(__cpp_lib_optional) && defined(__cpp_lib_string_view)
/* As `hint`, and nothing where there is none: from C++17 on. */
template <class Bytes, class = decltype(std::declval<const Bytes &>().data())>
std::optional<std::string_view> find_hint(const Verdict &verdict, const Bytes &bytes) noexcept {
    const std::string_view text = hint(verdict, bytes);
    if (text.empty())
        return std::nullopt;
    return text;
}
#endif

#if defined(__cpp_lib_expected)
/* The verdict of a valid text, or as the error that of another, as a value: from C++23 on. */
inline std::expected<Verdict, Verdict> expect_valid(const Verdict &verdict) noexcept {
    if (verdict.valid())
        return verdict;
    return std::unexpected<Verdict>(verdict);
}
#endif

#if defined(__cpp_exceptions)
/* A text that is not valid, as an exception. */
class Invalid : public std::runtime_error {
public:
    explicit Invalid(const Verdict &verdict) : std::runtime_error(message(verdict)), verdict_(verdict) {}
    const Verdict &verdict() const & noexcept { return verdict_; }
    Verdict verdict() const && noexcept { return verdict_; }

private:
    static std::string message(const Verdict &verdict) {
        if (!verdict.judged())
            return "no verdict";
        return (verdict.broken() ? "broken G" + std::to_string(verdict.rule()) : std::string("not JSON")) + " at " +
               std::to_string(verdict.place()) + ": " + verdict.text();
    }
    Verdict verdict_;
};

/* The verdict of a valid text, as a value; otherwise throws `Invalid`. */
inline Verdict valid_or_throw(const Verdict &verdict) {
    if (!verdict.valid())
        throw Invalid(verdict);
    return verdict;
}
#endif

} // namespace geolint

#undef GEOLINT_LIFETIMEBOUND
#endif
