// simdjson's parser on the whole of standard input, a file, which is read into memory first.
#include <simdjson.h>

int main() {
    simdjson::padded_string text;
    simdjson::dom::parser parser;
    return simdjson::padded_string::load("/dev/stdin").get(text) || parser.parse(text).error();
}
