// Checks a file, read in pieces, and prints the report of `geolint stdin`: C++ with geolint.hpp.
//
//     c++ -std=c++11 report.cpp -o report $(pkg-config --cflags --libs geolint)
//     ./report [PATH]     standard input where there is no path
//
// The status is the program's: 0 valid, 1 not valid, 2 no verdict.
#include <fstream>
#include <geolint.hpp>
#include <iostream>

static void print_report(const geolint::Verdict &verdict) {
    if (verdict.broken())
        std::cout << "broken G" << verdict.rule() << " at " << verdict.place() << ": " << verdict.text() << '\n';
    else if (verdict.not_json())
        std::cout << "not JSON at " << verdict.place() << ": " << verdict.text() << '\n';
    else
        std::cout << "valid\n";
    for (std::uint32_t kind = 1; kind <= GEOLINT_KINDS; kind++) {
        const geolint_warned warned = verdict.warnings(kind);
        if (warned.count > 0)
            std::cout << "warning W" << kind << " count " << warned.count << " first " << warned.first << ": "
                      << geolint_warning(kind) << '\n';
    }
}

int main(int count, char **words) {
    std::ifstream file;
    if (count > 1)
        file.open(words[1], std::ios::binary);
    std::istream &input = count > 1 ? file : std::cin;
    geolint::Linter linter;
    if (!input || !linter) {
        std::cerr << (linter ? "cannot open the file\n" : "no memory\n");
        return 2;
    }
    char piece[8192];
    while (input.read(piece, sizeof piece), input.gcount() > 0)
        if (!linter.feed(piece, static_cast<std::size_t>(input.gcount())))
            break;
    if (input.bad()) {
        std::cerr << "cannot read the file\n";
        return 2;
    }
    const geolint::Verdict verdict = linter.finish();
    print_report(verdict);
    if (!std::cout.flush())
        return 2;
    return verdict.valid() ? 0 : 1;
}
