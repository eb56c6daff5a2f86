// Which files RapidJSON and simdjson take for JSON: reads names, one a line, and prints for each `R S`, two digits 0 or 1.
#include <fstream>
#include <iostream>
#include <iterator>
#include <string>

#include <rapidjson/memorystream.h>
#include <rapidjson/reader.h>
#include <simdjson.h>

static bool by_rapidjson(const std::string &text) {
    constexpr unsigned flags = rapidjson::kParseValidateEncodingFlag | rapidjson::kParseIterativeFlag;
    rapidjson::MemoryStream stream(text.data(), text.size());
    rapidjson::Reader reader;
    rapidjson::BaseReaderHandler<> ignores;
    return !reader.Parse<flags>(stream, ignores).IsError() && stream.Tell() >= text.size();
}

static bool by_simdjson(simdjson::dom::parser &parser, const std::string &text) {
    return parser.parse(text).error() == simdjson::SUCCESS;
}

int main() {
    simdjson::dom::parser parser;
    for (std::string name; std::getline(std::cin, name);) {
        std::ifstream file(name, std::ios::binary);
        const std::string text((std::istreambuf_iterator<char>(file)), std::istreambuf_iterator<char>());
        std::cout << by_rapidjson(text) << ' ' << by_simdjson(parser, text) << '\n';
    }
}
