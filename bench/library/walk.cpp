// simdjson's On-Demand walk over each value of a file's text: prints the best processor seconds of three.
#include <ctime>
#include <cstdio>
#include <simdjson.h>

using namespace simdjson;

static std::size_t seen = 0;

static void walk(ondemand::value value) {
    switch (value.type()) {
    case ondemand::json_type::array:
        for (auto element : value.get_array())
            walk(element.value());
        break;
    case ondemand::json_type::object:
        for (auto field : value.get_object()) {
            seen += std::string_view(field.unescaped_key()).size();
            walk(field.value());
        }
        break;
    case ondemand::json_type::number:
        seen += double(value.get_double()) > 0;
        break;
    case ondemand::json_type::string:
        seen += std::string_view(value.get_string()).size();
        break;
    case ondemand::json_type::boolean:
        seen += bool(value.get_bool());
        break;
    default:
        seen += value.is_null();
    }
}

int main(int, char **words) {
    padded_string text = padded_string::load(words[1]);
    ondemand::parser parser;
    double best = 1e9;
    for (int round = 0; round < 3; round++) {
        const std::clock_t begun = std::clock();
        auto document = parser.iterate(text);
        walk(ondemand::value(document.get_value()));
        const double took = double(std::clock() - begun) / CLOCKS_PER_SEC;
        best = took < best ? took : best;
    }
    std::printf("%.6f\n", seen ? best : 0);
}
