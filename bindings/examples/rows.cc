// Stores JSON texts as rows in one buffer, sorts them, looks a key up and prints.
#include <kohiblad.h>

#include <cstdint>
#include <cstdlib>
#include <iostream>
#include <optional>
#include <string>
#include <string_view>
#include <vector>

namespace {

using Bytes = std::vector<std::uint8_t>;

constexpr std::size_t depth = 64;

const std::uint8_t *bytes_of(std::string_view text) {
    return reinterpret_cast<const std::uint8_t *>(text.data());
}

[[noreturn]] void fail(std::uint32_t status) {
    std::uint8_t name[32];
    std::size_t length = 0;
    kohiblad_status_name(status, name, sizeof name, &length);
    std::cerr << std::string(name, name + length) << '\n';
    std::exit(1);
}

// The bytes that `call` writes: it is called again where they did not fit. No value: no such key.
template <typename Call>
std::optional<Bytes> written(Call call) {
    Bytes out(64);
    std::size_t length = 0;
    std::uint32_t status = call(out.data(), out.size(), &length);
    if (status == KOHIBLAD_NO_ROOM) {
        out.resize(length);
        status = call(out.data(), out.size(), &length);
    }
    if (status == KOHIBLAD_NONE) return std::nullopt;
    if (status != KOHIBLAD_OK) fail(status);
    out.resize(length);
    return out;
}

Bytes document_of(std::string_view text) {
    return *written([&](std::uint8_t *out, std::size_t room, std::size_t *length) {
        return kohiblad_parse(bytes_of(text), text.size(), depth, KOHIBLAD_EXPONENTS_ALLOWED, out,
                              room, length);
    });
}

std::optional<Bytes> value_of(const Bytes &row, std::string_view name) {
    return written([&](std::uint8_t *out, std::size_t room, std::size_t *length) {
        return kohiblad_get_key(row.data(), row.size(), bytes_of(name), name.size(), out, room,
                                length);
    });
}

std::string text_of(const Bytes &row) {
    const Bytes text = *written([&](std::uint8_t *out, std::size_t room, std::size_t *length) {
        return kohiblad_print(row.data(), row.size(), depth, out, room, length);
    });
    return std::string(text.begin(), text.end());
}

}  // namespace

int main() {
    std::vector<Bytes> rows;
    Bytes column;
    std::vector<std::size_t> offsets = {0};
    for (std::string_view text : {R"({"id": 3, "price": 2.50})", R"({"id": 1, "price": null})",
                                  "[1, 2]", R"({"id": 2, "price": 2.5})", R"("a note")"}) {
        rows.push_back(document_of(text));
        column.insert(column.end(), rows.back().begin(), rows.back().end());
        offsets.push_back(column.size());
    }
    std::vector<std::size_t> order(rows.size());
    const std::uint32_t status = kohiblad_sort(column.data(), column.size(), offsets.data(),
                                               offsets.size(), depth, order.data(),
                                               order.size());
    if (status != KOHIBLAD_OK) fail(status);
    for (std::size_t number : order) {
        std::cout << text_of(rows[number]);
        if (const std::optional<Bytes> price = value_of(rows[number], "price")) {
            std::cout << "  costs " << text_of(*price);
        }
        std::cout << '\n';
    }
}
