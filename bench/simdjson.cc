// simdjson for driver.rs. The text has no padding of its own, so that the parser copies it, into
// room that it keeps from one text to the next.
#include <simdjson.h>

#include <cstddef>

extern "C" std::size_t simdjson_reads(const char *text, std::size_t length) {
    static simdjson::dom::parser parser;
    simdjson::dom::element root;
    return parser.parse(text, length).get(root) == simdjson::SUCCESS;
}
