// What geolint.hpp offers beyond the example: C++11 and later.
#include <csignal>
#include <cstdio>
#include <geolint.hpp>
#include <memory>
#include <string>
#include <sys/wait.h>
#include <thread>
#include <type_traits>
#include <unistd.h>
#include <utility>
#include <vector>
#if __cplusplus >= 202002L
#include <ranges>
#include <span>
#include <string_view>
#endif

static int failed = 0;

static void wants(bool holds, const char *what) {
    if (!holds) {
        std::printf("FAILED: %s\n", what);
        failed = 1;
    }
}

static const std::string POINT = R"({"type":"Point","coordinates":[1,2]})";
static const std::string RING = R"({"type":"Polygon","coordinates":[[[0,0],[1,0],[1,1],[0,0,0]]]})";

static_assert(!std::is_copy_constructible<geolint::Linter>::value, "a linter is not copied");
static_assert(std::is_nothrow_move_constructible<geolint::Linter>::value, "a linter is moved");
static_assert(std::is_nothrow_move_assignable<geolint::Linter>::value, "a linter is moved");
static_assert(std::is_copy_assignable<geolint::Verdict>::value, "a verdict is a value");

/* Whether these calls compile: of a call on an object that ends with the expression the findings would be read from freed memory. */
template <class Of, class = void> struct Feeds : std::false_type {};
template <class Of> struct Feeds<Of, decltype(static_cast<void>(std::declval<Of>().feed(POINT)))> : std::true_type {};
template <class Of, class = void> struct FeedsBytes : std::false_type {};
template <class Of> struct FeedsBytes<Of, decltype(static_cast<void>(std::declval<Of>().feed("", 0)))> : std::true_type {};
template <class Of, class = void> struct HasLast : std::false_type {};
template <class Of> struct HasLast<Of, decltype(static_cast<void>(std::declval<Of>().last()))> : std::true_type {};
template <class Of, class = void> struct Begins : std::false_type {};
template <class Of> struct Begins<Of, decltype(static_cast<void>(std::declval<Of>().begin()))> : std::true_type {};
static_assert(Feeds<geolint::Features &>::value && !Feeds<geolint::Features>::value, "features that stay");
static_assert(FeedsBytes<geolint::Features &>::value && !FeedsBytes<geolint::Features>::value, "features that stay");
static_assert(HasLast<geolint::Records &>::value && !HasLast<geolint::Records>::value, "records that stay");
static_assert(Begins<geolint::Records::Range &>::value && !Begins<geolint::Records::Range>::value, "a range that stays");

#if defined(__cpp_lib_ranges)
static_assert(std::ranges::input_range<geolint::Features::Range> && std::ranges::input_range<geolint::Records::Range>, "findings are a range");
static_assert(!std::ranges::borrowed_range<geolint::Features::Range>, "which is not borrowed");
#endif

static bool is_open_ring(const geolint::Verdict &verdict) {
    return verdict.judged() && verdict.broken() && verdict.rule() == 15 && verdict.place() == 33 &&
           std::string(verdict.text()) == "ring not closed";
}

static void one_call() {
    geolint::Verdict verdict = geolint::check(POINT);
    wants(verdict.judged() && verdict.valid() && !verdict.warned() && *verdict.text() == 0, "a point");
    verdict = geolint::check(std::vector<unsigned char>(RING.begin(), RING.end()));
    wants(is_open_ring(verdict), "an open ring");
    verdict = geolint::check("\xEF\xBB\xBF" + POINT);
    wants(verdict.valid() && verdict.warned() && verdict.warnings(1).count == 1 && verdict.warnings(2).count == 0, "a mark");
    wants(verdict.warnings(0).count == 0 && verdict.warnings(10).count == 0, "no such kind");
    verdict = geolint::check(std::vector<char>());
    wants(verdict.not_json() && verdict.cause() == GEOLINT_TRUNCATED && verdict.place() == 0, "no bytes");
    wants(geolint::check(nullptr, 0).not_json(), "a null pointer to no bytes");
    wants(geolint::check(POINT, geolint::Limits(1)).cause() == GEOLINT_DEPTH, "one level");
    wants(!geolint::check(POINT, geolint::Limits(257)).judged(), "257 levels");
}

static geolint::Verdict of_point() {
    return geolint::check(POINT);
}

static const geolint::Verdict const_of_ring() {
    return geolint::check(RING);
}

/* What is kept by a reference after the expression that made it has ended: the sanitizers see a read of what is gone. */
static void kept_references() {
    const geolint_report &report = of_point().report();
    const geolint_report &of_const = const_of_ring().report();
    wants(report.verdict == GEOLINT_VALID && of_const.rule == 15, "the report of a verdict that is gone");
    const geolint::Verdict named = geolint::check(RING);
    wants(&named.report() == &named.report(), "the report of a verdict that stays is no copy");
#if defined(__cpp_exceptions)
    const geolint::Verdict &valid = geolint::valid_or_throw(of_point());
    auto &&moved = geolint::valid_or_throw(geolint::check(POINT));
    wants(valid.judged() && valid.valid() && moved.valid(), "the verdict of a text that is gone");
    const geolint::Verdict &thrown = geolint::Invalid(geolint::check(RING)).verdict();
    wants(is_open_ring(thrown), "the verdict of an exception that is gone");
    static_assert(!std::is_reference<decltype(geolint::valid_or_throw(std::declval<const geolint::Verdict>()))>::value, "a value");
    static_assert(!std::is_reference<decltype(std::declval<const geolint::Invalid>().verdict())>::value, "a value");
#endif
    static_assert(!std::is_reference<decltype(std::declval<const geolint::Verdict>().report())>::value, "a value");
}

/* Views of bytes, where the standard has them. */
static void views() {
#if __cplusplus >= 202002L
    wants(geolint::check(std::string_view(POINT)).valid() && geolint::check(std::string_view()).not_json(), "a view of characters");
    const std::span<const char> whole(RING);
    wants(is_open_ring(geolint::check(whole)) && is_open_ring(geolint::check(std::as_bytes(whole))), "a span");
    geolint::Linter linter;
    wants(linter.feed(whole.first(10)) && linter.feed(std::as_bytes(whole.subspan(10))) && is_open_ring(linter.finish()), "spans in turn");
    wants(geolint::check(std::span<const unsigned short>()).cause() == GEOLINT_TRUNCATED, "an empty span");
#endif
}

static void hints() {
    const std::string nan = R"({"type":"Point","coordinates":[NaN,1]})";
    const geolint::Verdict verdict = geolint::check(nan);
    wants(std::string(geolint::hint(verdict, nan)).find("JSON has no NaN") == 0, "a hint");
    wants(*geolint::hint(geolint::check(POINT), POINT) == 0 && *geolint::hint(geolint::check(RING), RING) == 0, "no hint");
    wants(*geolint::hint(geolint::check(nullptr, 0), nullptr, 0) == 0, "no hint for no bytes");
    geolint::Linter linter;
    wants(linter.feed("[[1", 3) && linter.levels() == 2 && linter.feed("]]", 2) && linter.levels() == 0 && !linter.feed("{", 1), "levels");
    const std::uint32_t levels = linter.levels();
    const std::string head = "[[1]]", after = "{";
    wants(std::string(geolint::hint_around(linter.finish(), levels, head, head, after)).find("a second text") == 0, "a hint of pieces");
#if defined(__cpp_lib_optional) && defined(__cpp_lib_string_view)
    static_assert(std::is_same<decltype(geolint::find_hint(verdict, nan)), std::optional<std::string_view>>::value, "a view, or nothing");
    wants(geolint::find_hint(verdict, nan).value_or("").substr(0, 15) == "JSON has no NaN" && !geolint::find_hint(geolint::check(POINT), POINT), "a view of a hint");
#endif
}

static void pieces() {
    geolint::Linter linter;
    wants(bool(linter) && linter.feed(POINT) && linter.offset() == POINT.size(), "a piece");
    wants(linter.finish().valid() && !linter.finish().judged() && !linter.feed(POINT), "the end");
    wants(linter.begin() && linter.offset() == 0 && linter.feed(std::vector<char>()), "begin again");
    wants(!linter.feed("[7 8", 4) && linter.doomed() && linter.finish().not_json(), "a refusal");
    wants(!linter.begin(geolint::Limits(257)) && !linter.feed(POINT), "limits that are not allowed");
    wants(linter.begin(geolint::Limits(2, 40)) && linter.feed(POINT) && linter.finish().valid(), "other limits");
    wants(!geolint::Linter(geolint::Limits(0, UINT64_MAX)), "no linter");
}

static void moves() {
    geolint::Linter first, second(geolint::Limits(1));
    first.feed(RING.data(), 10);
    geolint::Linter third(std::move(first));
    wants(!first && !first.feed(RING) && !first.finish().judged() && !first.begin(), "what was moved from is empty");
    second = std::move(third);
    second.feed(RING.data() + 10, RING.size() - 10);
    wants(is_open_ring(second.finish()), "the text went along");
    std::vector<geolint::Linter> many(20);
    many.emplace_back();
    for (geolint::Linter &linter : many)
        linter.feed(RING);
    for (geolint::Linter &linter : many)
        wants(is_open_ring(linter.finish()), "one of many");
}

static void threads() {
    geolint::Linter linter;
    linter.feed(RING.data(), 10);
    geolint::Verdict verdict = linter.finish();
    linter.begin();
    std::thread thread([&verdict](geolint::Linter own) {
        own.feed(RING);
        verdict = own.finish();
    }, std::move(linter));
    thread.join();
    wants(is_open_ring(verdict), "a linter on another thread");
}

static void exceptions() {
#if defined(__cpp_exceptions)
    wants(geolint::valid_or_throw(geolint::check(POINT)).valid(), "nothing is thrown");
    try {
        geolint::valid_or_throw(geolint::check(RING));
        wants(false, "an exception");
    } catch (const geolint::Invalid &invalid) {
        wants(is_open_ring(invalid.verdict()), "its verdict");
        wants(std::string(invalid.what()) == "broken G15 at 33: ring not closed", "its words");
    }
    try {
        geolint::valid_or_throw(geolint::check("[1,]", 4));
        wants(false, "an exception");
    } catch (const std::runtime_error &invalid) {
        wants(std::string(invalid.what()) == "not JSON at 3: syntax", "its words");
    }
#endif
}

static const std::string COLLECTION = "{\"type\":\"FeatureCollection\",\"features\":[7,{\"type\":\"Feature\",\"id\":3,\"geometry\":null,\"properties\":null}]}";

/* What is reported of a feature or a record, in one line. */
static std::string told(const geolint::Finding &finding) {
    return std::to_string(finding.number()) + " " + std::to_string(finding.place()) + " " + std::to_string(finding.end()) + " " +
           std::to_string(finding.id()) + (finding.valid() ? " valid;" : " broken;");
}

static void features() {
    for (std::size_t size = 1; size < 200; size += 13) {
        geolint::Features features;
        std::string all;
        for (std::size_t from = 0; from < COLLECTION.size(); from += size) {
            const std::string piece = COLLECTION.substr(from, size);
            for (geolint::Finding finding : features.feed(piece))
                all += told(finding);
        }
        wants(bool(features) && all == "0 40 0 0 broken;1 42 101 65 valid;", "the features in pieces");
        wants(features.offset() == COLLECTION.size() && features.finish().rule() == 1 && !features.finish().judged(), "the text");
    }
    geolint::Features unread;
    unread.feed(COLLECTION);
    wants(unread.finish().rule() == 1, "a range that nobody reads is fed");
    geolint::Features refused;
    for (geolint::Finding finding : refused.feed("[1,]  ", 6))
        wants(finding.number() > 0, "no feature");
    wants(refused.finish().not_json() && !geolint::Features(geolint::Limits(257)), "a refusal, and no memory");
}

/* Whether the call ends the process with the text on ranges. */
template <class Call> static bool ends(Call call) {
    int ways[2], status = 0;
    if (pipe(ways))
        return false;
    const pid_t child = fork();
    if (!child) {
        dup2(ways[1], 2);
        call();
        _exit(0);
    }
    char said[200];
    close(ways[1]);
    const ssize_t size = read(ways[0], said, sizeof said);
    close(ways[0]);
    waitpid(child, &status, 0);
    return WIFSIGNALED(status) && WTERMSIG(status) == SIGABRT && size > 0 &&
           std::string(said, static_cast<std::size_t>(size)).find("geolint: a range of findings has not ended") == 0;
}

/* A range that has not ended, and one that has. */
static void live_ranges() {
    wants(ends([] {
        geolint::Features of;
        auto first = of.feed(COLLECTION);
        of.feed(COLLECTION);
    }), "a second range beside the first");
    wants(ends([] {
        geolint::Records of(GEOLINT_NEWLINES);
        auto first = of.feed(COLLECTION);
        of.last();
    }), "the last record beside a range");
    wants(ends([] {
        geolint::Features of;
        for (geolint::Finding finding : of.feed(COLLECTION))
            of.finish().valid() || finding.valid();
    }), "the end within a range");
    wants(ends([] {
        geolint::Features of;
        auto range = of.feed(COLLECTION);
        of.begin();
    }), "another text within a range");
    wants(ends([] {
        std::unique_ptr<geolint::Features> of(new geolint::Features);
        auto range = of->feed(COLLECTION);
        of.reset();
    }), "a range that outlives its features");
    wants(ends([] {
        geolint::Features of;
        auto range = of.feed(COLLECTION);
        of = geolint::Features();
    }), "a range of features that are assigned over");
    std::unique_ptr<geolint::Features> of(new geolint::Features);
    auto range = of->feed(COLLECTION);
    geolint::Features moved(std::move(*of));
    of.reset();
    std::string all;
    for (geolint::Finding finding : range)
        all += told(finding);
    wants(all == "0 40 0 0 broken;1 42 101 65 valid;" && moved.finish().rule() == 1, "a range of features that are moved");
    of.reset(new geolint::Features(std::move(moved)));
    auto other = (of->begin(), of->feed("{", 1));
    wants(other.begin() == other.end() && !of->finish().valid(), "a range that has ended");
    of.reset();
    wants(range.begin() == range.end() && other.begin() == other.end(), "ended ranges that outlive their features");
}

/* The same handle for another text. */
static void begun_again() {
    geolint::Features features;
    geolint::Records records(GEOLINT_SEQUENCE);
    std::string all;
    for (int round = 0; round < 2; round++) {
        wants(features.begin() && features.offset() == 0, "features begun again");
        for (geolint::Finding finding : features.feed(COLLECTION))
            all += told(finding);
    }
    wants(all == "0 40 0 0 broken;1 42 101 65 valid;0 40 0 0 broken;1 42 101 65 valid;", "and reported again");
    wants(!features.begin(geolint::Limits(257)) && !features.finish().judged() && features.begin(), "beyond the limits, and then within them");
    wants(records.begin(GEOLINT_NEWLINES) && records.offset() == 0, "records begun again");
    all.clear();
    for (geolint::Finding finding : records.feed("[1]\n", 4))
        all += told(finding);
    wants(all == "1 0 3 0 broken;" && records.finish().rule() == 1, "as lines");
}

#if defined(__cpp_lib_ranges)
static void ranges() {
    geolint::Features found;
    std::uint64_t places = 0;
    auto all = found.feed(COLLECTION);
    for (std::uint64_t place : all | std::views::filter([](const geolint::Finding &it) { return !it.valid(); }) | std::views::transform([](const geolint::Finding &it) { return it.place(); }))
        places += place;
    wants(places == 40, "the places of those that are broken");
}
#endif

#if defined(__cpp_lib_expected)
static void expected() {
    wants(geolint::expect_valid(geolint::check(POINT)).has_value(), "a point is as expected");
    wants(is_open_ring(geolint::expect_valid(geolint::check(RING)).error()), "an open ring is not");
}
#endif

static void records() {
    geolint::Records records(GEOLINT_NEWLINES);
    const std::string lines = "[1]\n\n" + POINT + "\n[";
    std::string all;
    std::uint64_t number = 0;
    for (geolint::Finding finding : records.feed(lines))
        all += told(finding);
    wants(records.offset() == lines.size() && records.finish(&number).rule() == 1 && number == 1, "the input");
    for (geolint::Finding finding : records.last())
        all += told(finding);
    wants(all == "1 0 3 0 broken;2 5 41 0 valid;3 42 43 0 broken;", "the records");
}

static void places() {
    geolint::Locator locator;
    geolint::Lines lines;
    wants(locator.feed(COLLECTION.data(), 66) && locator.path() == "$.features[1].id", "a path");
    lines.feed(std::string("a\n\xC3\xA9"));
    wants(lines.line() == 2 && lines.column() == 2, "a line and a column");
}

static void parts() {
    const std::string feature = R"({"type":"Feature","geometry":null,"properties":null})";
    const std::string head = R"({"type":"FeatureCollection","features":[)" + feature, rest = "," + feature + "," + feature;
    geolint::Run run(head.size());
    geolint::Join join;
    wants(geolint::Run::likely(("  }" + rest).data(), rest.size() + 3) == 3, "a likely place");
    wants(run && run.feed(rest.data(), rest.size()) && run.sum().features == 2 && run.sum().end == head.size() + rest.size(), "a run");
    wants(!run.feed(",{}]", 4) && run.sum().features == 2, "a run that ends");
    wants(join && join.feed(head.data(), head.size()) && join.pass_over(run.sum()) && !join.pass_over(run.sum()), "a join");
    wants(join.feed("]}", 2) && join.finish().valid(), "the whole");
    wants(!geolint::Run(14) && !geolint::Join(geolint::Limits(257)), "beyond the limits");
}

int main() {
    parts();
    features();
    live_ranges();
    begun_again();
#if defined(__cpp_lib_ranges)
    ranges();
#endif
#if defined(__cpp_lib_expected)
    expected();
#endif
    records();
    places();
    one_call();
    kept_references();
    views();
    hints();
    pieces();
    moves();
    threads();
    exceptions();
    return failed;
}
