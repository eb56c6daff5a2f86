// RapidJSON's SAX reader over standard input in blocks, with its check of UTF-8 and without any report on the text.
#include <cstdio>
#include <rapidjson/filereadstream.h>
#include <rapidjson/reader.h>

int main() {
    static char block[65536];
    rapidjson::FileReadStream text(stdin, block, sizeof block);
    rapidjson::BaseReaderHandler<> nothing;
    return rapidjson::Reader().Parse<rapidjson::kParseValidateEncodingFlag>(text, nothing).IsError();
}
