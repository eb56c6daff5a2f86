// Says of each input of a file that inputs.py has written what the wrapper in C++ finds in it, piece by piece.
//
//     inputs FILE
#include <fstream>
#include <geolint.hpp>
#include <iostream>
#include <string>
#include <vector>

static std::string text;
static std::vector<std::string> pieces;

static std::string spot(std::uint64_t start, std::uint64_t place, bool is_json) {
    geolint::Lines lines;
    lines.feed(text.data(), static_cast<std::size_t>(place));
    std::string path = "-";
    if (is_json) {
        geolint::Locator locator;
        locator.feed(text.substr(static_cast<std::size_t>(start), static_cast<std::size_t>(place + 1 - start)));
        path = locator.path();
    }
    return std::to_string(place) + " " + std::to_string(lines.line()) + ":" + std::to_string(lines.column()) + " " + path + "\n";
}

static std::string code(const geolint::Verdict &it) { return it.broken() ? "G" + std::to_string(it.rule()) : "J" + std::to_string(it.cause()); }

// Where the text begins in which the fault (0) or a kind of warning is first.
typedef std::vector<std::uint64_t> Starts;

static void tell(const char *word, const geolint::Verdict &verdict, const std::string &number, const Starts &starts) {
    if (!verdict.valid()) {
        std::cout << word << " " << code(verdict) << number << " " << spot(starts[0], verdict.place(), verdict.broken());
        return;
    }
    std::cout << word << " valid" << number << "\n";
    for (std::uint32_t kind = 1; kind <= GEOLINT_KINDS; kind++)
        if (verdict.warnings(kind).count)
            std::cout << "W" << kind << " " << verdict.warnings(kind).count << " " << spot(starts[kind], verdict.warnings(kind).first, true);
}

static void tell_feature(const geolint::Finding &it) {
    if (!it.valid())
        std::cout << "feature " << it.number() << " " << code(it.verdict()) << " " << spot(0, it.verdict().place(), true);
    for (std::uint32_t kind = 1; it.valid() && kind <= GEOLINT_KINDS; kind++)
        if (it.verdict().warnings(kind).count)
            std::cout << "feature " << it.number() << " W" << kind << " " << spot(0, it.verdict().warnings(kind).first, true);
}

static std::string shown(const geolint::Verdict &it) {
    std::string found = it.valid() ? "valid" : code(it) + " " + std::to_string(it.place());
    for (std::uint32_t kind = 1; kind <= GEOLINT_KINDS; kind++)
        found += " " + std::to_string(it.warnings(kind).count) + " " + std::to_string(it.warnings(kind).first);
    return found;
}

// The hint: by the bytes around the place, and of a text also by all of them.
static void tell_hint(const geolint::Verdict &verdict, std::uint32_t levels, bool is_text) {
    const std::size_t place = static_cast<std::size_t>(verdict.valid() ? verdict.warnings(5).first : verdict.place());
    const std::string hint = geolint::hint_around(verdict, levels, text.substr(0, 600), text.substr(0, place), std::vector<char>(text.begin() + static_cast<std::ptrdiff_t>(place), text.end()));
    if (!hint.empty())
        std::cout << "hint " << hint << "\n";
    if (is_text && hint != geolint::hint(verdict, text))
        std::cout << "another hint\n";
}

static void tell_features() {
    geolint::Features features;
    geolint::Linter linter;
    std::vector<geolint::Finding> found;
    for (const std::string &piece : pieces) {
        for (geolint::Finding finding : features.feed(piece))
            found.push_back(finding);
        linter.feed(piece);
    }
    const geolint::Verdict verdict = features.finish();
    tell("text", verdict, "", Starts(GEOLINT_KINDS + 1));
    tell_hint(verdict, linter.levels(), true);
    if (shown(verdict) != shown(linter.finish()) || shown(verdict) != shown(geolint::check(text)))
        std::cout << "another verdict\n";
    for (const geolint::Finding &finding : found)
        if (!verdict.not_json())
            tell_feature(finding);
}

static void keep(const geolint::Finding &it, Starts &starts, std::vector<bool> &kept) {
    for (std::uint32_t kind = 0; kind <= GEOLINT_KINDS; kind++)
        if (!kept[kind] && (kind ? it.valid() && it.verdict().warnings(kind).count > 0 : !it.valid())) {
            starts[kind] = it.place();
            kept[kind] = true;
        }
}

static void tell_records(const char *word, geolint_framing framing) {
    geolint::Records records(framing);
    Starts starts(GEOLINT_KINDS + 1);
    std::vector<bool> kept(GEOLINT_KINDS + 1);
    for (const std::string &piece : pieces)
        for (geolint::Finding finding : records.feed(piece))
            keep(finding, starts, kept);
    std::uint64_t number = 0;
    const geolint::Verdict verdict = records.finish(&number);
    for (geolint::Finding finding : records.last())
        keep(finding, starts, kept);
    tell(word, verdict, " " + std::to_string(number), starts);
    if (!verdict.valid())
        tell_hint(verdict, 1, false);
}

static std::uint32_t number_in(std::istream &file) {
    std::uint32_t number = 0;
    file.read(reinterpret_cast<char *>(&number), sizeof number);
    return number;
}

int main(int count, char **words) {
    std::ifstream file(count > 1 ? words[1] : "", std::ios::binary);
    if (!file)
        return 2;
    std::ios::sync_with_stdio(false);
    for (unsigned number = 0;; number++) {
        const std::uint32_t size = number_in(file);
        if (!file)
            return 0;
        std::vector<std::uint32_t> cuts(number_in(file));
        for (std::uint32_t &cut : cuts)
            cut = number_in(file);
        text.resize(size);
        file.read(&text[0], static_cast<std::streamsize>(size));
        pieces.clear();
        std::size_t at = 0;
        for (std::uint32_t cut : cuts) {
            pieces.push_back(text.substr(at, cut));
            at += cut;
        }
        std::cout << number << "\n";
        tell_features();
        tell_records("sequence", GEOLINT_SEQUENCE);
        tell_records("newlines", GEOLINT_NEWLINES);
    }
}
